//! The station's walks, as a C program links them.

use crate::layout::Lent;
use crate::ours::{Room, UNTOUCHED, WROTE};

#[link(name = "station", kind = "static")]
unsafe extern "C" {
    fn brunskerl_body_faces(
        room: Room,
        words: *const u32,
        n: usize,
        reals: *const f64,
        m: usize,
        office: u32,
        body: usize,
        faces: *mut u8,
        f: usize,
        out: *mut u32,
        o: usize,
        code: *mut u32,
    ) -> usize;
    fn brunskerl_body_edges(
        room: Room,
        words: *const u32,
        n: usize,
        reals: *const f64,
        m: usize,
        office: u32,
        body: usize,
        faces: *mut u8,
        f: usize,
        edges: *mut u8,
        e: usize,
        out: *mut u32,
        o: usize,
        code: *mut u32,
    ) -> usize;
    fn brunskerl_body_vertices(
        room: Room,
        words: *const u32,
        n: usize,
        reals: *const f64,
        m: usize,
        office: u32,
        body: usize,
        faces: *mut u8,
        f: usize,
        edges: *mut u8,
        e: usize,
        vertices: *mut u8,
        v: usize,
        out: *mut u32,
        o: usize,
        code: *mut u32,
    ) -> usize;
}

/// What a walk is lent: seen marks for faces, edges and vertices, which may hold anything, and a list.
pub struct Walk {
    pub marks: [Vec<u8>; 3],
    pub list: Vec<u32>,
}

impl Walk {
    /// Marks as long as the capacities ask, and a list of so many places.
    pub fn new(lent: &Lent, list: usize, mark: u8) -> Self {
        Self {
            marks: [3, 6, 7].map(|k| vec![mark; lent.room[k]]),
            list: vec![UNTOUCHED; list],
        }
    }

    /// Walk 0 of faces, 1 of edges, 2 of vertices: how many ids it put into the list, and its number.
    pub fn call(&mut self, lent: &Lent, which: usize, body: usize) -> (usize, u32) {
        let mut code = UNTOUCHED;
        let [faces, edges, vertices] = &mut self.marks;
        let (n, m) = (lent.words.len(), lent.reals.len());
        let (words, reals) = (lent.words.as_ptr(), lent.reals.as_ptr());
        let (out, o) = (self.list.as_mut_ptr(), self.list.len());
        // SAFETY: the call reads the lent memory, writes to the marks, the list and the number, and keeps
        // no address.
        let count = unsafe {
            match which {
                0 => brunskerl_body_faces(
                    &lent.room,
                    words,
                    n,
                    reals,
                    m,
                    lent.office,
                    body,
                    faces.as_mut_ptr(),
                    faces.len(),
                    out,
                    o,
                    &mut code,
                ),
                1 => brunskerl_body_edges(
                    &lent.room,
                    words,
                    n,
                    reals,
                    m,
                    lent.office,
                    body,
                    faces.as_mut_ptr(),
                    faces.len(),
                    edges.as_mut_ptr(),
                    edges.len(),
                    out,
                    o,
                    &mut code,
                ),
                _ => brunskerl_body_vertices(
                    &lent.room,
                    words,
                    n,
                    reals,
                    m,
                    lent.office,
                    body,
                    faces.as_mut_ptr(),
                    faces.len(),
                    edges.as_mut_ptr(),
                    edges.len(),
                    vertices.as_mut_ptr(),
                    vertices.len(),
                    out,
                    o,
                    &mut code,
                ),
            }
        };
        (count, code)
    }

    /// The answer as numbers, 0 and the list or the refusal alone, once what is lent is as 01 says: the
    /// marks of the walk all zero, the rest of the list unchanged.
    pub fn answer(&mut self, lent: &Lent, which: usize, body: usize) -> Vec<u64> {
        let (count, code) = self.call(lent, which, body);
        let zero = self.marks[..=which].iter().flatten().all(|&mark| mark == 0);
        let front = &self.list[..count.min(self.list.len())];
        let rest = &self.list[front.len()..];
        if !zero || rest.iter().any(|&x| x != UNTOUCHED) || (code != 0 && count != 0) {
            return vec![WROTE.into()];
        }
        if code != 0 {
            return vec![code.into()];
        }
        [0].into_iter()
            .chain(front.iter().map(|&id| id.into()))
            .collect()
    }
}
