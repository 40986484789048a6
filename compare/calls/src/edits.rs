//! The station's inserts and edits, as a C program links them.

use crate::layout::{Lent, carrier};
use crate::operations::Record;
use crate::ours::{Room, UNTOUCHED, WROTE};

/// Of each table its insert and its set; those of the bodies name an office first.
macro_rules! edits {
    ($($insert:ident, $set:ident ($($office:ident: u32)? | $($value:ident: $type:ty),*);)*) => {
        #[link(name = "station", kind = "static")]
        unsafe extern "C" {
            $(fn $insert(
                room: Room,
                words: *mut u32,
                n: usize,
                reals: *mut f64,
                m: usize,
                $($office: u32,)?
                $($value: *const $type,)*
                id: *mut [u32; 1],
            ) -> u32;
            fn $set(
                room: Room,
                words: *mut u32,
                n: usize,
                reals: *mut f64,
                m: usize,
                $($office: u32,)?
                id: usize,
                $($value: *const $type),*
            ) -> u32;)*
        }
    };
}

edits! {
    brunskerl_insert_body, brunskerl_set_body(office: u32 | value: [u32; 1]);
    brunskerl_insert_region, brunskerl_set_region(| value: [u32; 2]);
    brunskerl_insert_shell, brunskerl_set_shell(| value: [u32; 1]);
    brunskerl_insert_face, brunskerl_set_face(| value: [u32; 7]);
    brunskerl_insert_loop, brunskerl_set_loop(| value: [u32; 1]);
    brunskerl_insert_fin, brunskerl_set_fin(| value: [u32; 4]);
    brunskerl_insert_edge, brunskerl_set_edge(| value: [u32; 7], floats: [f64; 1]);
    brunskerl_insert_vertex, brunskerl_set_vertex(| value: [u32; 1], floats: [f64; 4]);
    brunskerl_insert_curve, brunskerl_set_curve(| value: [u32; 1], floats: [f64; 6]);
    brunskerl_insert_surface, brunskerl_set_surface(| value: [u32; 1], floats: [f64; 6]);
}

#[link(name = "station", kind = "static")]
unsafe extern "C" {
    fn brunskerl_set_fin_geometry(
        room: Room,
        words: *mut u32,
        n: usize,
        reals: *mut f64,
        m: usize,
        id: usize,
    ) -> u32;
    fn brunskerl_put_entry(
        room: Room,
        words: *mut u32,
        n: usize,
        reals: *const f64,
        m: usize,
        office: u32,
        j: usize,
        i: usize,
        place: usize,
        id: u32,
    ) -> u32;
    fn brunskerl_append_entry(
        room: Room,
        words: *mut u32,
        n: usize,
        reals: *const f64,
        m: usize,
        office: u32,
        j: usize,
        i: usize,
        id: u32,
    ) -> u32;
    fn brunskerl_strike_entry(
        room: Room,
        words: *mut u32,
        n: usize,
        reals: *const f64,
        m: usize,
        office: u32,
        j: usize,
        i: usize,
        place: usize,
    ) -> u32;
}

/// A record's fields as the calls take them.
#[derive(Clone, Copy)]
enum Fields {
    One([u32; 1]),
    Two([u32; 2]),
    Four([u32; 4]),
    Seven([u32; 7]),
    Edge([u32; 7], [f64; 1]),
    Vertex([u32; 1], [f64; 4]),
    Carrier([u32; 1], [f64; 6]),
}

fn fields(record: &Record) -> Fields {
    let id = |id: usize| id as u32;
    let three = |ids: [Option<usize>; 3], last: u32| {
        let [a, b, c] = ids.map(|id| id.map_or([0, 0], |id| [1, id as u32]));
        [a[0], a[1], b[0], b[1], c[0], c[1], last]
    };
    let own = |t: Option<f64>| (u32::from(t.is_some()), t.unwrap_or(0.0));
    let sense = |positive: bool| u32::from(!positive);
    match record {
        Record::Body(kind) => Fields::One([*kind as u32]),
        Record::Region(body, solid) => Fields::Two([id(*body), (*solid).into()]),
        Record::Shell(region) => Fields::One([id(*region)]),
        Record::Face(ids, positive) => Fields::Seven(three(*ids, sense(*positive))),
        Record::Loop(face) => Fields::One([id(*face)]),
        Record::Fin([owner, edge], positive, pcurve) => {
            Fields::Four([id(*owner), id(*edge), sense(*positive), (*pcurve).into()])
        }
        Record::Edge(ids, tolerance) => {
            let (tag, t) = own(*tolerance);
            Fields::Edge(three(*ids, tag), [t])
        }
        Record::Vertex([x, y, z], tolerance) => {
            let (tag, t) = own(*tolerance);
            Fields::Vertex([tag], [*x, *y, *z, t])
        }
        Record::Curve(c) | Record::Surface(c) => {
            let (tag, six) = carrier(c);
            Fields::Carrier([tag], six)
        }
    }
}

/// Calls with the lent memory, then with what is given.
macro_rules! lent {
    ($self:ident, $call:ident $(, $argument:expr)*) => {
        // SAFETY: the call reads what it is handed, writes to the lent memory and to the id's slot, and
        // keeps no address.
        unsafe {
            $call(
                &$self.room,
                $self.words.as_mut_ptr(),
                $self.words.len(),
                $self.reals.as_mut_ptr(),
                $self.reals.len(),
                $($argument),*
            )
        }
    };
}

impl Lent {
    /// The new record's id, or the refusal.
    pub fn insert(&mut self, record: &Record) -> Result<u32, u32> {
        let mut id = [UNTOUCHED; 1];
        let number = match (record.table(), fields(record)) {
            (0, Fields::One(v)) => lent!(self, brunskerl_insert_body, self.office, &v, &mut id),
            (1, Fields::Two(v)) => lent!(self, brunskerl_insert_region, &v, &mut id),
            (2, Fields::One(v)) => lent!(self, brunskerl_insert_shell, &v, &mut id),
            (3, Fields::Seven(v)) => lent!(self, brunskerl_insert_face, &v, &mut id),
            (4, Fields::One(v)) => lent!(self, brunskerl_insert_loop, &v, &mut id),
            (5, Fields::Four(v)) => lent!(self, brunskerl_insert_fin, &v, &mut id),
            (6, Fields::Edge(v, x)) => lent!(self, brunskerl_insert_edge, &v, &x, &mut id),
            (7, Fields::Vertex(v, x)) => lent!(self, brunskerl_insert_vertex, &v, &x, &mut id),
            (8, Fields::Carrier(v, x)) => lent!(self, brunskerl_insert_curve, &v, &x, &mut id),
            (9, Fields::Carrier(v, x)) => lent!(self, brunskerl_insert_surface, &v, &x, &mut id),
            _ => unreachable!("each table has its fields"),
        };
        match number {
            0 => Ok(id[0]),
            _ if id != [UNTOUCHED; 1] => Err(WROTE),
            number => Err(number),
        }
    }

    pub fn set(&mut self, id: usize, record: &Record) -> u32 {
        match (record.table(), fields(record)) {
            (0, Fields::One(v)) => lent!(self, brunskerl_set_body, self.office, id, &v),
            (1, Fields::Two(v)) => lent!(self, brunskerl_set_region, id, &v),
            (2, Fields::One(v)) => lent!(self, brunskerl_set_shell, id, &v),
            (3, Fields::Seven(v)) => lent!(self, brunskerl_set_face, id, &v),
            (4, Fields::One(v)) => lent!(self, brunskerl_set_loop, id, &v),
            (5, Fields::Four(v)) => lent!(self, brunskerl_set_fin, id, &v),
            (6, Fields::Edge(v, x)) => lent!(self, brunskerl_set_edge, id, &v, &x),
            (7, Fields::Vertex(v, x)) => lent!(self, brunskerl_set_vertex, id, &v, &x),
            (8, Fields::Carrier(v, x)) => lent!(self, brunskerl_set_curve, id, &v, &x),
            (9, Fields::Carrier(v, x)) => lent!(self, brunskerl_set_surface, id, &v, &x),
            _ => unreachable!("each table has its fields"),
        }
    }

    pub fn mark(&mut self, fin: usize) -> u32 {
        lent!(self, brunskerl_set_fin_geometry, fin)
    }

    pub fn put_entry(&mut self, j: usize, i: usize, place: usize, id: u32) -> u32 {
        lent!(self, brunskerl_put_entry, self.office, j, i, place, id)
    }

    pub fn append(&mut self, j: usize, i: usize, id: u32) -> u32 {
        lent!(self, brunskerl_append_entry, self.office, j, i, id)
    }

    pub fn strike(&mut self, j: usize, i: usize, place: usize) -> u32 {
        lent!(self, brunskerl_strike_entry, self.office, j, i, place)
    }
}
