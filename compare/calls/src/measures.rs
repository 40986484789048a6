//! The station's larger calls, as a C program links them: splits, boxes, volumes, the checker, its first fault, the sheet, the mending and the drawing. Each answer is numbers: 0 and the value's, or
//! the refusal alone.

use models::plain::{Plain, bits};

use crate::layout::Lent;
use crate::ours::{Room, UNTOUCHED, UNTOUCHED_REAL, WROTE, answer};

#[link(name = "station", kind = "static")]
unsafe extern "C" {
    fn brunskerl_split_line_edge(
        room: Room,
        words: *mut u32,
        n: usize,
        reals: *mut f64,
        m: usize,
        office: u32,
        edge: usize,
        fraction: f64,
        value: *mut [u32; 3],
    ) -> u32;
    fn brunskerl_body_bounding_box(
        room: Room,
        words: *const u32,
        n: usize,
        reals: *const f64,
        m: usize,
        office: u32,
        body: usize,
        faces: *mut u8,
        f: usize,
        edges: *mut u8,
        e: usize,
        vertices: *mut u8,
        v: usize,
        value: *mut [f64; 6],
    ) -> u32;
    fn brunskerl_body_volume(
        room: Room,
        words: *const u32,
        n: usize,
        reals: *const f64,
        m: usize,
        office: u32,
        body: usize,
        faces: *mut u8,
        f: usize,
        value: *mut [f64; 1],
    ) -> u32;
    fn brunskerl_check_body(
        room: Room,
        words: *const u32,
        n: usize,
        reals: *const f64,
        m: usize,
        office: u32,
        body: usize,
        geometry: u32,
        samples: usize,
        faces: *mut u8,
        f: usize,
        edges: *mut u8,
        e: usize,
        list: *mut u32,
        l: usize,
        value: *mut [usize; 3],
    ) -> u32;
    fn brunskerl_first_fault(
        room: Room,
        words: *const u32,
        n: usize,
        reals: *const f64,
        m: usize,
        office: u32,
        body: usize,
        geometry: u32,
        samples: usize,
        faces: *mut u8,
        f: usize,
        edges: *mut u8,
        e: usize,
        fault: *mut [u32; 5],
    ) -> u32;
    fn brunskerl_stl_length(
        room: Room,
        words: *const u32,
        n: usize,
        reals: *const f64,
        m: usize,
        office: u32,
        body: usize,
        faces: *mut u8,
        f: usize,
        value: *mut [usize; 1],
    ) -> u32;
    fn brunskerl_write_stl(
        room: Room,
        words: *const u32,
        n: usize,
        reals: *const f64,
        m: usize,
        office: u32,
        body: usize,
        faces: *mut u8,
        f: usize,
        bytes: *mut u8,
        b: usize,
        value: *mut [usize; 1],
    ) -> u32;
    fn brunskerl_read_stl(
        room: Room,
        words: *mut u32,
        n: usize,
        reals: *mut f64,
        m: usize,
        office: u32,
        bytes: *const u8,
        b: usize,
        id: *mut [u32; 1],
    ) -> u32;

    fn brunskerl_slab_profile(
        room: Room,
        words: *const u32,
        n: usize,
        reals: *const f64,
        m: usize,
        office: u32,
        body: usize,
        faces: *mut u8,
        f: usize,
        edges: *mut u8,
        e: usize,
        areas: *mut u64,
        a: usize,
        profile: *mut [u64; 3],
    ) -> u32;
    fn brunskerl_fit_to_saw(
        room: Room,
        words: *const u32,
        n: usize,
        reals: *const f64,
        m: usize,
        office: u32,
        body: usize,
        faces: *mut u8,
        f: usize,
        edges: *mut u8,
        e: usize,
        value: *mut [u32; 1],
    ) -> u32;
    fn brunskerl_sheet_take(
        room: Room,
        words: *const u32,
        n: usize,
        reals: *const f64,
        m: usize,
        office: u32,
        body: usize,
        faces: *mut u8,
        f: usize,
        sheet: *mut [u64; 5],
    ) -> u32;
    fn brunskerl_mend_changes(
        room: Room,
        words: *const u32,
        n: usize,
        reals: *const f64,
        m: usize,
        office: u32,
        body: usize,
        marks: *mut u8,
        k: usize,
        list: *mut u32,
        l: usize,
        count: *mut [usize; 1],
    ) -> u32;
    fn brunskerl_mend(
        room: Room,
        words: *mut u32,
        n: usize,
        reals: *mut f64,
        m: usize,
        office: u32,
        body: usize,
        marks: *mut u8,
        k: usize,
        list: *mut u32,
        l: usize,
        count: *mut [usize; 1],
    ) -> u32;
}

fn numbers<T>(answer: Result<T, u32>, value: impl FnOnce(T) -> Vec<u64>) -> Vec<u64> {
    match answer {
        Ok(given) => [vec![0], value(given)].concat(),
        Err(number) => vec![number.into()],
    }
}

/// The answer, unless a mark is left set.
fn cleared(marks: &[Vec<u8>], answer: Vec<u64>) -> Vec<u64> {
    if marks.iter().flatten().any(|&mark| mark != 0) {
        return vec![WROTE.into()];
    }
    answer
}

/// 01's test 13: slots in the tables and in the lists concerned.
pub fn has_slots(plain: &Plain, room: &[usize; 10], edge: usize) -> bool {
    let used = plain.used();
    let fins = &plain.edges[edge].fins;
    let listed = |list: &[usize], ids: &[usize]| ids.iter().filter(|id| list.contains(id)).count();
    used[5] + fins.len() <= room[5]
        && used[6] < room[6]
        && used[7] < room[7]
        && plain
            .loops
            .iter()
            .all(|r| r.fins.len() + listed(&r.fins, fins) <= 1024)
        && plain
            .shells
            .iter()
            .all(|r| r.wire_edges.len() + listed(&r.wire_edges, &[edge]) <= 256)
}

impl Lent {
    /// The number, and both edges and the vertex.
    pub fn split_alone(&mut self, edge: usize, fraction: f64) -> (u32, [u32; 3]) {
        let mut value = [UNTOUCHED; 3];
        // SAFETY: the call writes to the lent memory and to the value, and keeps no address.
        let number = unsafe {
            brunskerl_split_line_edge(
                &self.room,
                self.words.as_mut_ptr(),
                self.words.len(),
                self.reals.as_mut_ptr(),
                self.reals.len(),
                self.office,
                edge,
                fraction,
                &mut value,
            )
        };
        (number, value)
    }

    /// The same as numbers. A refusal must leave all memory as it was.
    pub fn split(&mut self, edge: usize, fraction: f64) -> Vec<u64> {
        let before = self.clone();
        let (number, value) = self.split_alone(edge, fraction);
        if number != 0 && *self != before {
            return vec![WROTE.into()];
        }
        numbers(answer(number, value, value == [UNTOUCHED; 3]), |ids| {
            ids.map(u64::from).to_vec()
        })
    }

    /// Marks of faces, edges and vertices, lent full.
    pub fn marks(&self, mark: u8) -> [Vec<u8>; 3] {
        [3, 6, 7].map(|k| vec![mark; self.room[k]])
    }

    /// The bits of both corners.
    pub fn bounding_box(&self, body: usize, mark: u8) -> Vec<u64> {
        self.bounding_box_with(body, self.marks(mark))
    }

    /// The same with these marks.
    pub fn bounding_box_with(&self, body: usize, mut marks: [Vec<u8>; 3]) -> Vec<u64> {
        let [faces, edges, vertices] = &mut marks;
        let mut value = [UNTOUCHED_REAL; 6];
        // SAFETY: the call reads the lent memory, writes to the marks and the value, and keeps no address.
        let number = unsafe {
            brunskerl_body_bounding_box(
                &self.room,
                self.words.as_ptr(),
                self.words.len(),
                self.reals.as_ptr(),
                self.reals.len(),
                self.office,
                body,
                faces.as_mut_ptr(),
                faces.len(),
                edges.as_mut_ptr(),
                edges.len(),
                vertices.as_mut_ptr(),
                vertices.len(),
                &mut value,
            )
        };
        let untouched = value == [UNTOUCHED_REAL; 6];
        let given = numbers(answer(number, value, untouched), |six| {
            six.map(bits).to_vec()
        });
        cleared(&marks, given)
    }

    pub fn volume(&self, body: usize, mark: u8) -> Vec<u64> {
        self.volume_with(body, self.marks(mark))
    }

    /// The same with these marks.
    pub fn volume_with(&self, body: usize, mut marks: [Vec<u8>; 3]) -> Vec<u64> {
        let faces = &mut marks[0];
        let mut value = [UNTOUCHED_REAL; 1];
        // SAFETY: as above.
        let number = unsafe {
            brunskerl_body_volume(
                &self.room,
                self.words.as_ptr(),
                self.words.len(),
                self.reals.as_ptr(),
                self.reals.len(),
                self.office,
                body,
                faces.as_mut_ptr(),
                faces.len(),
                &mut value,
            )
        };
        let untouched = value == [UNTOUCHED_REAL; 1];
        let given = numbers(answer(number, value, untouched), |v| v.map(bits).to_vec());
        cleared(&marks[..1], given)
    }

    /// `unchecked`, then reason, kind, class and id of each fault that was kept, of a list of so many
    /// places; and the full number of faults.
    pub fn check(
        &self,
        body: usize,
        geometry: bool,
        samples: usize,
        places: usize,
        mark: u8,
    ) -> (Vec<u64>, usize) {
        self.check_with(body, geometry, samples, places, self.marks(mark))
    }

    /// The same with these marks.
    pub fn check_with(
        &self,
        body: usize,
        geometry: bool,
        samples: usize,
        places: usize,
        mut marks: [Vec<u8>; 3],
    ) -> (Vec<u64>, usize) {
        let [faces, edges, _] = &mut marks;
        let mut list = vec![UNTOUCHED; 4 * places];
        let mut value = [usize::MAX; 3];
        // SAFETY: as above, and it writes to the list.
        let number = unsafe {
            brunskerl_check_body(
                &self.room,
                self.words.as_ptr(),
                self.words.len(),
                self.reals.as_ptr(),
                self.reals.len(),
                self.office,
                body,
                geometry.into(),
                samples,
                faces.as_mut_ptr(),
                faces.len(),
                edges.as_mut_ptr(),
                edges.len(),
                list.as_mut_ptr(),
                list.len(),
                &mut value,
            )
        };
        let [faults, kept, unchecked] = value;
        if number != 0 {
            let untouched = value == [usize::MAX; 3] && list.iter().all(|&x| x == UNTOUCHED);
            let given = if untouched { number } else { WROTE };
            return (cleared(&marks[..2], vec![given.into()]), 0);
        }
        let front = 4 * kept.min(places);
        let rest = &list[front..];
        if kept != faults.min(places) || rest.iter().any(|&x| x != UNTOUCHED) {
            return (vec![WROTE.into()], 0);
        }
        let faults_kept = list[..front].chunks(4).flat_map(|fault| {
            let [kind, class, id, reason] = [0, 1, 2, 3].map(|k| u64::from(fault[k]));
            [reason, kind, class, id]
        });
        let given = [0, unchecked as u64]
            .into_iter()
            .chain(faults_kept)
            .collect();
        (cleared(&marks[..2], given), faults)
    }

    /// The number alone; the slots are written where they stand (W-207).
    pub fn first_fault(
        &self,
        body: usize,
        geometry: u32,
        samples: usize,
        [faces, edges]: [&mut [u8]; 2],
        fault: &mut [u32; 5],
    ) -> u32 {
        // SAFETY: the call reads the lent memory, writes to the marks and the slots, and keeps no address.
        unsafe {
            brunskerl_first_fault(
                &self.room,
                self.words.as_ptr(),
                self.words.len(),
                self.reals.as_ptr(),
                self.reals.len(),
                self.office,
                body,
                geometry,
                samples,
                faces.as_mut_ptr(),
                faces.len(),
                edges.as_mut_ptr(),
                edges.len(),
                fault,
            )
        }
    }

    /// 1 where the body is fit to saw.
    pub fn fit(&self, body: usize, mark: u8) -> Vec<u64> {
        self.fit_with(body, self.marks(mark))
    }

    /// The same with these marks.
    pub fn fit_with(&self, body: usize, mut marks: [Vec<u8>; 3]) -> Vec<u64> {
        let [faces, edges, _] = &mut marks;
        let mut value = [UNTOUCHED; 1];
        // SAFETY: as above.
        let number = unsafe {
            brunskerl_fit_to_saw(
                &self.room,
                self.words.as_ptr(),
                self.words.len(),
                self.reals.as_ptr(),
                self.reals.len(),
                self.office,
                body,
                faces.as_mut_ptr(),
                faces.len(),
                edges.as_mut_ptr(),
                edges.len(),
                &mut value,
            )
        };
        let given = numbers(answer(number, value, value == [UNTOUCHED; 1]), |fit| {
            fit.map(u64::from).to_vec()
        });
        cleared(&marks[..2], given)
    }

    /// The number alone; the sheet is updated where it stands (W-201).
    pub fn take(&self, body: usize, faces: &mut [u8], sheet: &mut [u64; 5]) -> u32 {
        // SAFETY: the call reads the lent memory, writes to the marks and the sheet, and keeps no address.
        unsafe {
            brunskerl_sheet_take(
                &self.room,
                self.words.as_ptr(),
                self.words.len(),
                self.reals.as_ptr(),
                self.reals.len(),
                self.office,
                body,
                faces.as_mut_ptr(),
                faces.len(),
                sheet,
            )
        }
    }

    /// The number alone; the list and the count are written where they stand (W-208).
    pub fn mend_changes(
        &self,
        body: usize,
        (marks, list): (&mut [u8], &mut [u32]),
        count: &mut [usize; 1],
    ) -> u32 {
        // SAFETY: the call reads the lent memory, writes to the marks, the list and the count, and keeps no address.
        unsafe {
            brunskerl_mend_changes(
                &self.room,
                self.words.as_ptr(),
                self.words.len(),
                self.reals.as_ptr(),
                self.reals.len(),
                self.office,
                body,
                marks.as_mut_ptr(),
                marks.len(),
                list.as_mut_ptr(),
                list.len(),
                count,
            )
        }
    }

    /// The same, and the tables are mended.
    pub fn mend(
        &mut self,
        body: usize,
        (marks, list): (&mut [u8], &mut [u32]),
        count: &mut [usize; 1],
    ) -> u32 {
        // SAFETY: as above, and the call writes to the lent memory.
        unsafe {
            brunskerl_mend(
                &self.room,
                self.words.as_mut_ptr(),
                self.words.len(),
                self.reals.as_mut_ptr(),
                self.reals.len(),
                self.office,
                body,
                marks.as_mut_ptr(),
                marks.len(),
                list.as_mut_ptr(),
                list.len(),
                count,
            )
        }
    }

    /// The number alone; the length is put into its slot (W-209).
    pub fn stl_length(&self, body: usize, faces: &mut [u8], value: &mut [usize; 1]) -> u32 {
        // SAFETY: the call reads the lent memory, writes to the marks and the slot, and keeps no address.
        unsafe {
            brunskerl_stl_length(
                &self.room,
                self.words.as_ptr(),
                self.words.len(),
                self.reals.as_ptr(),
                self.reals.len(),
                self.office,
                body,
                faces.as_mut_ptr(),
                faces.len(),
                value,
            )
        }
    }

    /// The number alone; the profile is put into its slots, and the areas where they stand (W-212).
    pub fn slab_profile(
        &self,
        body: usize,
        faces: &mut [u8],
        edges: &mut [u8],
        areas: &mut [u64],
        profile: &mut [u64; 3],
    ) -> u32 {
        // SAFETY: the call reads the lent memory, writes to the marks, the areas and the slots, and keeps no address.
        unsafe {
            brunskerl_slab_profile(
                &self.room,
                self.words.as_ptr(),
                self.words.len(),
                self.reals.as_ptr(),
                self.reals.len(),
                self.office,
                body,
                faces.as_mut_ptr(),
                faces.len(),
                edges.as_mut_ptr(),
                edges.len(),
                areas.as_mut_ptr(),
                areas.len(),
                profile,
            )
        }
    }

    /// The number alone; the bytes are written where they stand (W-209).
    pub fn write_stl(
        &self,
        body: usize,
        faces: &mut [u8],
        bytes: &mut [u8],
        value: &mut [usize; 1],
    ) -> u32 {
        // SAFETY: the call reads the lent memory, writes to the marks, the bytes and the slot, and keeps no address.
        unsafe {
            brunskerl_write_stl(
                &self.room,
                self.words.as_ptr(),
                self.words.len(),
                self.reals.as_ptr(),
                self.reals.len(),
                self.office,
                body,
                faces.as_mut_ptr(),
                faces.len(),
                bytes.as_mut_ptr(),
                bytes.len(),
                value,
            )
        }
    }

    /// The number alone; the new body's id is put into its slot (W-210).
    pub fn read_stl(&mut self, bytes: &[u8], id: &mut [u32; 1]) -> u32 {
        // SAFETY: the call reads the bytes, writes to the lent memory and the slot, and keeps no address.
        unsafe {
            brunskerl_read_stl(
                &self.room,
                self.words.as_mut_ptr(),
                self.words.len(),
                self.reals.as_mut_ptr(),
                self.reals.len(),
                self.office,
                bytes.as_ptr(),
                bytes.len(),
                id,
            )
        }
    }
}
