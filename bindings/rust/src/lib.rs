//! The station's proved calls on models of cut stone, safe to call from Rust.
//!
//! A [`Model`] owns the memory that it lends to the calls. Nothing is merged: a call does all that it says, or is refused with a
//! [`Refusal`], which is a number alone, and leaves the model as it was. A [`Report`] counts what could not be measured as unchecked, never as
//! sound; it does not say what that was.
//!
//! What a caller owes: lines and planes with directions and normals of length 1, which [`Carrier::line_through`], [`Carrier::plane_through`] and
//! their like make; for the answers about a model of the first version and of one office, asked by it, to be those of the Rust that the station is
//! ported from, finite coordinates of size at most 2^40, and a precision and tolerances of at least 2^-100; floats as a program finds them at its
//! start (rounded to the nearest, no flush to zero). A call takes less than 128 KB of the thread's stack.
//!
//! A model goes by a [`Version`] of the drawing practice, the first unless it is made [`Model::with_version`], and keeps it.
//!
//! Two drawing offices share the tables. A model is in the hands of one [`Office`], the first unless it is said ([`Model::held_by`]), and each call is that
//! office's: a body that it makes is its own, and a body of the other's is answered as one that does not exist. So a program for one office says which it is
//! once, or not at all.
//!
//! [`Model::take`] takes a stone in on a [`Sheet`], in whole numbers.
//!
//! [`Model::course_total`] adds up the stones of a course of [`Courses`], whose entries are bodies and other courses.
//! [`Model::slab_profile`] tells whether a stone is made of slabs along the axes, and the exact areas of its faces.
//!
//! [`Model::mend`] mends the pointers upward of a body that came with right lists and wrong ones, and tells each [`Change`].
//!
//! [`Model::save`] gives a model as bytes, to be kept, and [`Model::load`] takes it back.
//!
//! The example `lintel` builds a box, checks it, splits an edge and prints the report.

mod changes;
mod courses;
mod directions;
mod ffi;
mod records;
mod sheet;
mod slab;
mod stone;
mod words;

use records::optional;

pub use changes::Change;
pub use courses::{CourseTotal, Courses, Entry};
pub use records::{BodyKind, Carrier, Edge, Face, Fin, List, Office, Region, Sense, Version, Vertex};
pub use sheet::{Sheet, Stone};
pub use slab::{Profile, Rule};
pub use words::{Entity, Fault, Refusal};

/// 01's largest tables: bodies, regions, shells, faces, loops, fins, edges, vertices, curves, surfaces.
pub const LARGEST: [usize; 10] = [64, 128, 128, 512, 512, 4096, 2048, 2048, 2048, 512];

/// How many words and floats a record takes, by table.
const WORDS: [usize; 10] = [19, 19, 836, 24, 1026, 4, 16, 1, 1, 1];
const REALS: [usize; 10] = [0, 0, 0, 0, 0, 0, 1, 4, 6, 6];

fn needed(first: usize, strides: [usize; 10], room: [usize; 10]) -> usize {
    first + strides.iter().zip(room).map(|(s, n)| s * n).sum::<usize>()
}

/// The stones of a job, in tables of fixed capacities, in the hands of one drawing office.
#[derive(Clone, Debug)]
pub struct Model {
    room: [usize; 10],
    words: Vec<u32>,
    reals: Vec<f64>,
    office: Office,
}

/// Calls that read, and calls that write: the lent memory, then what the call takes.
macro_rules! ask {
    ($model:ident, $call:ident($($given:expr),*)) => {
        // SAFETY: the pointers and lengths are those of slices that live through the call, which keeps no address.
        unsafe {
            ffi::$call(&$model.room, $model.words.as_ptr(), $model.words.len(), $model.reals.as_ptr(), $model.reals.len(), $($given),*)
        }
    };
}

macro_rules! tell {
    ($model:ident, $call:ident($($given:expr),*)) => {
        Refusal::of(
            // SAFETY: as above, and the model is borrowed to be written to.
            unsafe {
                ffi::$call(&$model.room, $model.words.as_mut_ptr(), $model.words.len(), $model.reals.as_mut_ptr(), $model.reals.len(), $($given),*)
            },
        )
    };
}

macro_rules! insert {
    ($model:ident, $call:ident($($given:expr),*)) => {{
        let mut id = [0];
        tell!($model, $call($($given,)* &mut id)).map(|()| id[0])
    }};
}

impl Model {
    /// Memory of these capacities, with no model in it yet.
    fn memory(room: [usize; 10]) -> Result<Self, Refusal> {
        if room.iter().zip(LARGEST).any(|(n, most)| *n > most) {
            return Err(Refusal::Unreadable);
        }
        Ok(Self {
            room,
            words: vec![0; needed(11, WORDS, room)],
            reals: vec![0.0; needed(1, REALS, room)],
            office: Office::default(),
        })
    }

    /// An empty model of these capacities, each at most that of [`LARGEST`], with a session precision, of the first version.
    pub fn new(room: [usize; 10], precision: f64) -> Result<Self, Refusal> {
        Self::with_version(room, precision, Version::First)
    }

    /// The same of a version, which the model keeps.
    pub fn with_version(room: [usize; 10], precision: f64, version: Version) -> Result<Self, Refusal> {
        let mut model = Self::memory(room)?;
        tell!(model, brunskerl_make(precision, version as u32)).map(|()| model)
    }

    // ---- the office that asks

    /// The same tables in the hands of an office. The handle is moved, so that the offices work on them one after the other, and who is lent a model works for
    /// the office that it was lent by.
    pub fn held_by(self, office: Office) -> Self {
        Self { office, ..self }
    }

    /// The office in whose hands the model is.
    pub fn office(&self) -> Office {
        self.office
    }

    // ---- images: the model as bytes, to be kept

    /// The image of the model, with the bodies of both offices; docs/IMAGE.md has the format. One model has one image. The capacities are not in it, nor the
    /// office in whose hands it is.
    ///
    /// It is never refused: a model's memory is written to by the calls alone, which leave it such that it can be read.
    pub fn save(&self) -> Vec<u8> {
        let mut length = [0];
        Refusal::of(ask!(self, brunskerl_image_length(&mut length))).expect("a model can be read");
        let mut image = vec![0; length[0]];
        Refusal::of(ask!(self, brunskerl_write_image(image.as_mut_ptr(), image.len(), &mut length))).expect("an image has its length");
        image
    }

    /// The model of an image, in the largest capacities, in the hands of the first office. [`Refusal::Unreadable`] for bytes that are not exactly one image: cut off, with bytes left over,
    /// or with anything in them that [`Model::save`] does not write.
    ///
    /// An image does not say its capacities: what was refused for want of room may be accepted in these. It says its version: one that names none is of
    /// [`Version::First`], and so is every image from before there were two. Bodies of an image from before there were offices are the first's.
    ///
    /// Ids are not tested, and an image holds no check sum: what it says of a stone is as sound as the model was that it was made of.
    pub fn load(image: &[u8]) -> Result<Self, Refusal> {
        Self::load_in(LARGEST, image)
    }

    /// The same in these capacities, each at most that of [`LARGEST`], else [`Refusal::Unreadable`]; then [`Refusal::NoRoom`] where the image has more
    /// records of a table than that.
    pub fn load_in(room: [usize; 10], image: &[u8]) -> Result<Self, Refusal> {
        let mut model = Self::memory(room)?;
        tell!(model, brunskerl_read_image(image.as_ptr(), image.len())).map(|()| model)
    }

    /// The session precision.
    pub fn precision(&self) -> Result<f64, Refusal> {
        let mut value = [0.0];
        Refusal::of(ask!(self, brunskerl_precision(&mut value))).map(|()| value[0])
    }

    /// The version that the model goes by.
    pub fn version(&self) -> Result<Version, Refusal> {
        let mut value = [0];
        Refusal::of(ask!(self, brunskerl_version(&mut value))).map(|()| Version::of(value[0]))
    }

    // ---- inserts: each gives the new record's id

    /// A body of the office.
    pub fn insert_body(&mut self, kind: BodyKind) -> Result<u32, Refusal> {
        insert!(self, brunskerl_insert_body(self.office as u32, &[kind as u32]))
    }

    pub fn insert_region(&mut self, region: Region) -> Result<u32, Refusal> {
        insert!(self, brunskerl_insert_region(&region.value()))
    }

    pub fn insert_shell(&mut self, region: u32) -> Result<u32, Refusal> {
        insert!(self, brunskerl_insert_shell(&[region]))
    }

    pub fn insert_face(&mut self, face: Face) -> Result<u32, Refusal> {
        insert!(self, brunskerl_insert_face(&face.value()))
    }

    pub fn insert_loop(&mut self, face: u32) -> Result<u32, Refusal> {
        insert!(self, brunskerl_insert_loop(&[face]))
    }

    pub fn insert_fin(&mut self, fin: Fin) -> Result<u32, Refusal> {
        insert!(self, brunskerl_insert_fin(&fin.value()))
    }

    pub fn insert_edge(&mut self, edge: Edge) -> Result<u32, Refusal> {
        let (value, floats) = edge.value();
        insert!(self, brunskerl_insert_edge(&value, &floats))
    }

    pub fn insert_vertex(&mut self, vertex: Vertex) -> Result<u32, Refusal> {
        let (value, floats) = vertex.value();
        insert!(self, brunskerl_insert_vertex(&value, &floats))
    }

    pub fn insert_curve(&mut self, curve: Carrier) -> Result<u32, Refusal> {
        let (value, floats) = curve.value();
        insert!(self, brunskerl_insert_curve(&value, &floats))
    }

    pub fn insert_surface(&mut self, surface: Carrier) -> Result<u32, Refusal> {
        let (value, floats) = surface.value();
        insert!(self, brunskerl_insert_surface(&value, &floats))
    }

    // ---- edits: the fields of a record, its lists kept

    /// The body stays its office's.
    pub fn set_body(&mut self, id: u32, kind: BodyKind) -> Result<(), Refusal> {
        tell!(self, brunskerl_set_body(self.office as u32, id as usize, &[kind as u32]))
    }

    pub fn set_region(&mut self, id: u32, region: Region) -> Result<(), Refusal> {
        tell!(self, brunskerl_set_region(id as usize, &region.value()))
    }

    pub fn set_shell(&mut self, id: u32, region: u32) -> Result<(), Refusal> {
        tell!(self, brunskerl_set_shell(id as usize, &[region]))
    }

    pub fn set_face(&mut self, id: u32, face: Face) -> Result<(), Refusal> {
        tell!(self, brunskerl_set_face(id as usize, &face.value()))
    }

    pub fn set_loop(&mut self, id: u32, face: u32) -> Result<(), Refusal> {
        tell!(self, brunskerl_set_loop(id as usize, &[face]))
    }

    pub fn set_fin(&mut self, id: u32, fin: Fin) -> Result<(), Refusal> {
        tell!(self, brunskerl_set_fin(id as usize, &fin.value()))
    }

    /// Marks the fin as one with a pcurve of its own; its contents are not carried.
    pub fn set_fin_geometry(&mut self, id: u32) -> Result<(), Refusal> {
        tell!(self, brunskerl_set_fin_geometry(id as usize))
    }

    pub fn set_edge(&mut self, id: u32, edge: Edge) -> Result<(), Refusal> {
        let (value, floats) = edge.value();
        tell!(self, brunskerl_set_edge(id as usize, &value, &floats))
    }

    pub fn set_vertex(&mut self, id: u32, vertex: Vertex) -> Result<(), Refusal> {
        let (value, floats) = vertex.value();
        tell!(self, brunskerl_set_vertex(id as usize, &value, &floats))
    }

    pub fn set_curve(&mut self, id: u32, curve: Carrier) -> Result<(), Refusal> {
        let (value, floats) = curve.value();
        tell!(self, brunskerl_set_curve(id as usize, &value, &floats))
    }

    pub fn set_surface(&mut self, id: u32, surface: Carrier) -> Result<(), Refusal> {
        let (value, floats) = surface.value();
        tell!(self, brunskerl_set_surface(id as usize, &value, &floats))
    }

    // ---- lists

    pub fn append(&mut self, list: List, id: u32, entry: u32) -> Result<(), Refusal> {
        tell!(self, brunskerl_append_entry(self.office as u32, list as usize, id as usize, entry))
    }

    pub fn put(&mut self, list: List, id: u32, place: usize, entry: u32) -> Result<(), Refusal> {
        tell!(
            self,
            brunskerl_put_entry(self.office as u32, list as usize, id as usize, place, entry)
        )
    }

    pub fn strike(&mut self, list: List, id: u32, place: usize) -> Result<(), Refusal> {
        tell!(self, brunskerl_strike_entry(self.office as u32, list as usize, id as usize, place))
    }

    /// A whole list of a record.
    pub fn list(&self, list: List, id: u32) -> Result<Vec<u32>, Refusal> {
        let mut entries = Vec::new();
        loop {
            let mut entry = [0];
            match ask!(
                self,
                brunskerl_list_entry(self.office as u32, list as usize, id as usize, entries.len(), &mut entry)
            ) {
                0 => entries.push(entry[0]),
                1 => return Ok(entries),
                number => Refusal::of(number)?,
            }
        }
    }

    // ---- lookups

    /// Whether there is such a record for the office: a body of the other's is none.
    pub fn contains(&self, entity: Entity) -> Result<bool, Refusal> {
        let (table, id) = entity.named();
        let mut value = [0];
        Refusal::of(ask!(self, brunskerl_contains(self.office as u32, table, id as usize, &mut value))).map(|()| value[0] != 0)
    }

    pub fn body(&self, id: u32) -> Result<BodyKind, Refusal> {
        let mut value = [0; 2];
        Refusal::of(ask!(self, brunskerl_body(self.office as u32, id as usize, &mut value)))?;
        Ok(records::kind(value[0]))
    }

    pub fn region(&self, id: u32) -> Result<Region, Refusal> {
        let mut value = [0; 3];
        Refusal::of(ask!(self, brunskerl_region(id as usize, &mut value)))?;
        let [body, solid, _] = value;
        Ok(Region { body, solid: solid != 0 })
    }

    /// The region that the shell names.
    pub fn shell(&self, id: u32) -> Result<u32, Refusal> {
        let mut value = [0; 4];
        Refusal::of(ask!(self, brunskerl_shell(id as usize, &mut value)))?;
        Ok(value[0])
    }

    pub fn face(&self, id: u32) -> Result<Face, Refusal> {
        let mut value = [0; 8];
        Refusal::of(ask!(self, brunskerl_face(id as usize, &mut value)))?;
        let [a, front, b, back, c, surface, sense, _] = value;
        Ok(Face {
            front: optional(a, front),
            back: optional(b, back),
            surface: optional(c, surface),
            sense: records::sense(sense),
        })
    }

    /// The face that the loop names.
    pub fn loop_(&self, id: u32) -> Result<u32, Refusal> {
        let mut value = [0; 2];
        Refusal::of(ask!(self, brunskerl_loop(id as usize, &mut value)))?;
        Ok(value[0])
    }

    pub fn fin(&self, id: u32) -> Result<Fin, Refusal> {
        let mut value = [0; 4];
        Refusal::of(ask!(self, brunskerl_fin(id as usize, &mut value)))?;
        let [owner, edge, sense, pcurve] = value;
        Ok(Fin {
            owner,
            edge,
            sense: records::sense(sense),
            pcurve: pcurve != 0,
        })
    }

    pub fn edge(&self, id: u32) -> Result<Edge, Refusal> {
        let (mut value, mut floats) = ([0; 8], [0.0; 1]);
        Refusal::of(ask!(self, brunskerl_edge(id as usize, &mut value, &mut floats)))?;
        let [a, start, b, end, c, curve, own, _] = value;
        Ok(Edge {
            start: optional(a, start),
            end: optional(b, end),
            curve: optional(c, curve),
            tolerance: (own != 0).then_some(floats[0]),
        })
    }

    pub fn vertex(&self, id: u32) -> Result<Vertex, Refusal> {
        let (mut value, mut floats) = ([0; 1], [0.0; 4]);
        Refusal::of(ask!(self, brunskerl_vertex(id as usize, &mut value, &mut floats)))?;
        let [x, y, z, own] = floats;
        Ok(Vertex {
            point: [x, y, z],
            tolerance: (value[0] != 0).then_some(own),
        })
    }

    pub fn curve(&self, id: u32) -> Result<Carrier, Refusal> {
        let (mut value, mut floats) = ([0; 1], [0.0; 6]);
        Refusal::of(ask!(self, brunskerl_curve(id as usize, &mut value, &mut floats)))?;
        Ok(Carrier::of(value, floats))
    }

    pub fn surface(&self, id: u32) -> Result<Carrier, Refusal> {
        let (mut value, mut floats) = ([0; 1], [0.0; 6]);
        Refusal::of(ask!(self, brunskerl_surface(id as usize, &mut value, &mut floats)))?;
        Ok(Carrier::of(value, floats))
    }

    // ---- walks

    /// The ids of a walk. Ids that name no record may make it longer than its table; then a longer list is lent.
    fn walked(&self, table: usize, mut walk: impl FnMut(&mut [u32], &mut u32) -> usize) -> Result<Vec<u32>, Refusal> {
        let mut list = vec![0; self.room[table].max(1)];
        loop {
            let mut number = 0;
            let count = walk(&mut list, &mut number);
            match Refusal::of(number) {
                Err(Refusal::NoRoom) => list.resize(2 * list.len(), 0),
                answer => {
                    list.truncate(count);
                    return answer.map(|()| list);
                }
            }
        }
    }

    pub fn body_faces(&self, body: u32) -> Result<Vec<u32>, Refusal> {
        let [mut f, _, _] = self.marks();
        self.walked(3, |out, number| {
            ask!(
                self,
                brunskerl_body_faces(
                    self.office as u32,
                    body as usize,
                    f.as_mut_ptr(),
                    f.len(),
                    out.as_mut_ptr(),
                    out.len(),
                    number
                )
            )
        })
    }

    pub fn body_edges(&self, body: u32) -> Result<Vec<u32>, Refusal> {
        let [mut f, mut e, _] = self.marks();
        self.walked(6, |out, number| {
            ask!(
                self,
                brunskerl_body_edges(
                    self.office as u32,
                    body as usize,
                    f.as_mut_ptr(),
                    f.len(),
                    e.as_mut_ptr(),
                    e.len(),
                    out.as_mut_ptr(),
                    out.len(),
                    number
                )
            )
        })
    }

    pub fn body_vertices(&self, body: u32) -> Result<Vec<u32>, Refusal> {
        let [mut f, mut e, mut v] = self.marks();
        self.walked(7, |out, number| {
            ask!(
                self,
                brunskerl_body_vertices(
                    self.office as u32,
                    body as usize,
                    f.as_mut_ptr(),
                    f.len(),
                    e.as_mut_ptr(),
                    e.len(),
                    v.as_mut_ptr(),
                    v.len(),
                    out.as_mut_ptr(),
                    out.len(),
                    number
                )
            )
        })
    }

    /// The two ends of a fin, in its direction. [`Refusal::NotFound`] where it or its edge is missing.
    pub fn fin_vertices(&self, fin: u32) -> Result<[Option<u32>; 2], Refusal> {
        let mut ends = [0; 4];
        Refusal::of(ask!(self, brunskerl_fin_vertices(fin as usize, &mut ends)))?;
        let [a, start, b, end] = ends;
        Ok([optional(a, start), optional(b, end)])
    }

    // ---- measurements

    /// Seen marks for faces, edges and vertices.
    fn marks(&self) -> [Vec<u8>; 3] {
        [3, 6, 7].map(|k| vec![0; self.room[k]])
    }

    /// The two corners of the body's box.
    ///
    /// [`Refusal::NotFound`] for a missing record, [`Refusal::BadArgument`] for a face with no surface or an edge with no curve,
    /// [`Refusal::Unresolved`] for a surface that is no plane or a curve that is no line, [`Refusal::Degenerate`] for a body with no vertex
    /// or a coordinate that is not finite.
    pub fn body_bounding_box(&self, body: u32) -> Result<[[f64; 3]; 2], Refusal> {
        let [mut f, mut e, mut v] = self.marks();
        let mut corners = [0.0; 6];
        Refusal::of(ask!(
            self,
            brunskerl_body_bounding_box(
                self.office as u32,
                body as usize,
                f.as_mut_ptr(),
                f.len(),
                e.as_mut_ptr(),
                e.len(),
                v.as_mut_ptr(),
                v.len(),
                &mut corners
            )
        ))?;
        let [a, b, c, d, e, f] = corners;
        Ok([[a, b, c], [d, e, f]])
    }

    /// The volume of a solid, negative where it is inside out.
    ///
    /// Refused as the box is for what is missing, no surface or curve, and what is no plane or line; then [`Refusal::NotSolid`] for another body, and of
    /// the faces in its solid regions [`Refusal::BadArgument`] where not exactly one side is the shell that lists it, [`Refusal::Unresolved`] unless it
    /// has one loop, [`Refusal::Degenerate`] for fewer than three fins, [`Refusal::Unresolved`] for a fin that starts at no vertex;
    /// [`Refusal::Degenerate`] for no such face.
    pub fn body_volume(&self, body: u32) -> Result<f64, Refusal> {
        let [mut f, ..] = self.marks();
        let mut volume = [0.0];
        Refusal::of(ask!(
            self,
            brunskerl_body_volume(self.office as u32, body as usize, f.as_mut_ptr(), f.len(), &mut volume)
        ))?;
        Ok(volume[0])
    }

    /// Takes the body in on the sheet: its number is six times its volume in cubic sixteenths of a millimetre, exactly, over the same faces and fans as
    /// [`Model::body_volume`]. A refusal leaves the sheet as it was.
    ///
    /// [`Refusal::Unreadable`] for a sheet of over 65,536 stones or with a total above 3 · 2^60 in size per stone, which none is that was made by
    /// [`Sheet::new`]; then refused as the volume is; then [`Refusal::OffGrid`] where a coordinate of a face's corner is no whole sixteenth of a millimetre or above
    /// 2,048 mm in size, [`Refusal::NoRoom`] for more than 4,096 triangles, which are the fins less two of each face, and [`Refusal::NoRoom`] where the sheet has
    /// 65,536 stones.
    ///
    /// The sheet does not keep which stones it has: a body that is taken in twice counts twice.
    pub fn take(&self, body: u32, sheet: &mut Sheet) -> Result<(), Refusal> {
        let [mut f, ..] = self.marks();
        Refusal::of(ask!(
            self,
            brunskerl_sheet_take(self.office as u32, body as usize, f.as_mut_ptr(), f.len(), sheet.words())
        ))
    }

    /// How many stones a course has, those of the courses in it with them, and the exact total of their numbers, as [`Model::take`] would add them up one by one. A course or a
    /// body that is listed twice counts twice; a course without entries has no stones.
    ///
    /// [`Refusal::NotFound`] for a course or a body missing within four levels, of which the course asked for is the first; then [`Refusal::BadArgument`] where a course on the
    /// fourth level lists a course, there or not; then as [`Model::take`] is refused for a body, by the first stone in order that is.
    pub fn course_total(&self, courses: &Courses, course: u32) -> Result<CourseTotal, Refusal> {
        let [mut f, ..] = self.marks();
        let table = courses.words();
        let mut sum = [0; 3];
        Refusal::of(ask!(
            self,
            brunskerl_course_total(
                self.office as u32,
                table.as_ptr(),
                table.len(),
                course as usize,
                f.as_mut_ptr(),
                f.len(),
                &mut sum
            )
        ))?;
        Ok(CourseTotal::of(sum))
    }

    /// The body as binary STL, for a viewer: the triangles of the fans that [`Model::body_volume`] uses, in its order and outward, with normals, header and attributes
    /// of zeros. It is what the volume measures: a fan of a face that is not convex can reach beyond it.
    ///
    /// Refused as the volume is; then [`Refusal::OffGrid`] where a coordinate of a face's corner is not finite or no binary32 value.
    pub fn stl(&self, body: u32) -> Result<Vec<u8>, Refusal> {
        let [mut f, ..] = self.marks();
        let mut length = [0];
        Refusal::of(ask!(
            self,
            brunskerl_stl_length(self.office as u32, body as usize, f.as_mut_ptr(), f.len(), &mut length)
        ))?;
        let mut bytes = vec![0; length[0]];
        Refusal::of(ask!(
            self,
            brunskerl_write_stl(
                self.office as u32,
                body as usize,
                f.as_mut_ptr(),
                f.len(),
                bytes.as_mut_ptr(),
                bytes.len(),
                &mut length
            )
        ))?;
        Ok(bytes)
    }

    /// A new solid body from binary STL, whatever its header, normals and attributes hold: a face for each triangle, equal coordinates one vertex, one edge for each pair
    /// of vertices; nothing near is joined, and no vertex of before is used. It has no surfaces and no curves: set them before its box or volume is asked for, or
    /// before a report of it is empty.
    ///
    /// [`Refusal::Unreadable`] where the length is not 84 bytes and 50 for each triangle that is counted; [`Refusal::OffGrid`] for a coordinate that is not finite;
    /// [`Refusal::BadArgument`] for a triangle with two equal corners, where both zeros are equal; [`Refusal::NoRoom`], also for an edge's ninth fin.
    pub fn read_stl(&mut self, file: &[u8]) -> Result<u32, Refusal> {
        insert!(self, brunskerl_read_stl(self.office as u32, file.as_ptr(), file.len()))
    }

    /// Whether the body is one of slabs along the axes: accepted, with the exact areas of its faces, or the first broken [`Rule`] and the first in walk order that
    /// breaks it.
    ///
    /// Refused as the box and the volume are before they look at a vertex; [`Refusal::NotSolid`] for a body that is no solid.
    pub fn slab_profile(&self, body: u32) -> Result<Profile, Refusal> {
        let [mut f, mut e, _] = self.marks();
        let mut areas = vec![0; LARGEST[3]];
        let mut told = [0; 3];
        Refusal::of(ask!(
            self,
            brunskerl_slab_profile(
                self.office as u32,
                body as usize,
                f.as_mut_ptr(),
                f.len(),
                e.as_mut_ptr(),
                e.len(),
                areas.as_mut_ptr(),
                areas.len(),
                &mut told
            )
        ))?;
        let [rule, entity, total] = told;
        if rule != 0 {
            let (rule, entity) = Rule::broken(rule, entity);
            return Ok(Profile::Broken { rule, entity });
        }
        areas.truncate(self.body_faces(body)?.len());
        Ok(Profile::Accepted { areas, total })
    }

    /// The parameters of the edge's start and end on its line.
    ///
    /// [`Refusal::NotFound`] for a missing record, [`Refusal::BadArgument`] for no curve, [`Refusal::Unresolved`] for an end that is none, a curve that is
    /// no line, or parameters that are not surely finite and rising, [`Refusal::Degenerate`] where the ends do not surely follow the line's direction.
    pub fn edge_parameter_bounds(&self, edge: u32) -> Result<[f64; 2], Refusal> {
        let mut bounds = [0.0; 2];
        Refusal::of(ask!(self, brunskerl_edge_parameter_bounds(edge as usize, &mut bounds)))?;
        Ok(bounds)
    }

    // ---- splitting and checking

    /// Splits an edge at a fraction of its length, whole or not at all. A refusal is its number alone.
    ///
    /// [`Refusal::NotFound`] for an edge in the walk of a body of the other office; a body of the other's whose walk fails has none. Else
    /// refused as [`Model::edge_parameter_bounds`] is, and with [`Refusal::BadArgument`] for a fraction that is not above 0 and below 1, for lists
    /// about the edge that do not fit together, and for a face with no surface or whose plane the edge leaves; [`Refusal::Unresolved`] for a fin with a
    /// pcurve, a surface that is no plane, or a distance to it in doubt; [`Refusal::Degenerate`] for a split point that is not finite, or not surely
    /// farther than the precision from both ends; [`Refusal::NoRoom`]. The header has the tests in their order.
    ///
    /// The edge's line must have a direction of length 1 ([`Carrier`]); else the new vertex can lie beyond the edge's end.
    pub fn split_line_edge(&mut self, edge: u32, fraction: f64) -> Result<Split, Refusal> {
        let mut ids = [0; 3];
        tell!(
            self,
            brunskerl_split_line_edge(self.office as u32, edge as usize, fraction, &mut ids)
        )?;
        let [_, edge, vertex] = ids;
        Ok(Split { edge, vertex })
    }

    /// Checks a body: its topology, and its geometry where a number of samples to an edge is given, at most 255.
    /// [`Refusal::NotFound`] for a missing body.
    pub fn check_body(&self, body: u32, samples: Option<u8>) -> Result<Report, Refusal> {
        let [mut f, mut e, _] = self.marks();
        let (geometry, samples) = (samples.is_some().into(), samples.unwrap_or(0).into());
        let mut list = vec![0; 4 * 64];
        loop {
            let mut counts = [0; 3];
            Refusal::of(ask!(
                self,
                brunskerl_check_body(
                    self.office as u32,
                    body as usize,
                    geometry,
                    samples,
                    f.as_mut_ptr(),
                    f.len(),
                    e.as_mut_ptr(),
                    e.len(),
                    list.as_mut_ptr(),
                    list.len(),
                    &mut counts
                )
            ))?;
            let [total, kept, unchecked] = counts;
            if kept == total {
                let faults = list.chunks(4).take(kept).map(Fault::of).collect();
                return Ok(Report { faults, unchecked });
            }
            list.resize(4 * total, 0);
        }
    }

    /// The first fault alone, for the operator's lamp: the first of [`Model::check_body`]'s for the same samples, and none exactly where it has none. The check
    /// stops there.
    ///
    /// None is not fit to saw: what could not be checked is not told. [`Refusal::NotFound`] for a missing body.
    pub fn first_fault(&self, body: u32, samples: Option<u8>) -> Result<Option<Fault>, Refusal> {
        let [mut f, mut e, _] = self.marks();
        let mut fault = [0; 5];
        Refusal::of(ask!(
            self,
            brunskerl_first_fault(
                self.office as u32,
                body as usize,
                samples.is_some().into(),
                samples.unwrap_or(0).into(),
                f.as_mut_ptr(),
                f.len(),
                e.as_mut_ptr(),
                e.len(),
                &mut fault
            )
        ))?;
        let [tag, words @ ..] = fault;
        Ok((tag != 0).then(|| Fault::of(&words)))
    }

    /// Geometry checked with three samples to an edge, no fault, and nothing unchecked; and the body is solid, a solid region of it has a face, and every
    /// shell that a face of it names is one of the body's and lists the face.
    ///
    /// No more than that: it is true of a stone inside out (whose volume is negative), of a flat one (whose volume is 0), and of one whose own
    /// tolerances swallow its errors. Ask for the volume and the box too. [`Refusal::NotFound`] for a missing body.
    pub fn fit_to_saw(&self, body: u32) -> Result<bool, Refusal> {
        let [mut f, mut e, _] = self.marks();
        let mut fit = [0];
        Refusal::of(ask!(
            self,
            brunskerl_fit_to_saw(
                self.office as u32,
                body as usize,
                f.as_mut_ptr(),
                f.len(),
                e.as_mut_ptr(),
                e.len(),
                &mut fit
            )
        ))?;
        Ok(fit[0] != 0)
    }

    // ---- mending

    /// The changes that [`Model::mend`] would make, and none of them made; refused as it is.
    pub fn mend_changes(&self, body: u32) -> Result<Vec<Change>, Refusal> {
        let (mut marks, mut list) = self.lists_to_mend();
        let mut count = [0];
        Refusal::of(ask!(
            self,
            brunskerl_mend_changes(
                self.office as u32,
                body as usize,
                marks.as_mut_ptr(),
                marks.len(),
                list.as_mut_ptr(),
                list.len(),
                &mut count
            )
        ))?;
        Ok(list.chunks(changes::WORDS).take(count[0]).map(Change::of).collect())
    }

    /// Mends back pointers, for a body that came with right lists and wrong pointers upward: each region, shell, loop and fin that it reaches is made to name the
    /// record that lists it, and an edge to list its fins. Gives the changes in the order of the walk; there are none where all was right, and none the second time.
    /// A face's front and back stay as they are.
    ///
    /// [`Refusal::NotFound`] for a missing body, region, shell, face, loop, fin or fin's edge; then [`Refusal::BadArgument`] where a region, shell, loop or fin of
    /// the body has two parents: where it stands twice in the lists, whosever they are; then [`Refusal::NoRoom`] for an edge that would list a ninth fin.
    pub fn mend(&mut self, body: u32) -> Result<Vec<Change>, Refusal> {
        let (mut marks, mut list) = self.lists_to_mend();
        let mut count = [0];
        tell!(
            self,
            brunskerl_mend(
                self.office as u32,
                body as usize,
                marks.as_mut_ptr(),
                marks.len(),
                list.as_mut_ptr(),
                list.len(),
                &mut count
            )
        )?;
        Ok(list.chunks(changes::WORDS).take(count[0]).map(Change::of).collect())
    }

    /// Marks, and a list for as many changes as there can be: two of each fin, one of each region, shell and loop.
    fn lists_to_mend(&self) -> (Vec<u8>, Vec<u32>) {
        let [_, regions, shells, _, loops, fins, ..] = self.room;
        let most = regions + shells + loops + 2 * fins;
        (vec![0; changes::MARKS], vec![0; changes::WORDS * most])
    }

    /// A fault in words, with the records beside it where the model tells them: 'vertex 12 lies off the surface of face 3'.
    pub fn describe(&self, fault: &Fault) -> String {
        match (fault.reason, fault.entity) {
            (22, Entity::Vertex(v)) => named(fault, "the curve of edge", self.edges_at(v)),
            (23, Entity::Vertex(v)) => named(fault, "the surface of face", self.faces_off(v)),
            (24, Entity::Edge(e)) => named(fault, "the surface of face", self.faces_beside(e)),
            _ => fault.to_string(),
        }
    }

    fn edges_at(&self, vertex: u32) -> Vec<u32> {
        let ends = |e: &u32| self.edge(*e).is_ok_and(|e| e.start == Some(vertex) || e.end == Some(vertex));
        (0..self.room[6] as u32).filter(ends).collect()
    }

    fn faces_beside(&self, edge: u32) -> Vec<u32> {
        let fins = self.list(List::FinsOfEdge, edge).unwrap_or_default();
        let mut faces: Vec<u32> = fins.iter().filter_map(|&i| self.loop_(self.fin(i).ok()?.owner).ok()).collect();
        faces.dedup();
        faces
    }

    /// The faces at a vertex that it is measured to lie off.
    fn faces_off(&self, vertex: u32) -> Vec<u32> {
        let mut faces: Vec<u32> = self.edges_at(vertex).iter().flat_map(|&e| self.faces_beside(e)).collect();
        faces.sort_unstable();
        faces.dedup();
        faces.retain(|&face| self.is_off(vertex, face).unwrap_or(false));
        faces
    }

    fn is_off(&self, vertex: u32, face: u32) -> Option<bool> {
        let vertex = self.vertex(vertex).ok()?;
        let Carrier::Plane { origin, normal } = self.surface(self.face(face).ok()?.surface?).ok()? else {
            return None;
        };
        let session = self.precision().ok()? / 2.0;
        let tolerance = self.version().ok()?.tolerance(vertex.tolerance, session);
        let way: [f64; 3] = std::array::from_fn(|i| vertex.point[i] - origin[i]);
        Some((normal[0] * way[0] + normal[1] * way[1] + normal[2] * way[2]).abs() > tolerance)
    }
}

/// A fault with the records that it is about beside its entity; without them, as it stands.
fn named(fault: &Fault, what: &str, ids: Vec<u32>) -> String {
    if ids.is_empty() {
        return fault.to_string();
    }
    let ids: Vec<String> = ids.iter().map(u32::to_string).collect();
    format!("{} lies off {what} {} (reason {})", fault.entity, ids.join(" or "), fault.reason)
}

/// What a check found, in its order.
#[derive(Clone, Debug, PartialEq, Eq)]
pub struct Report {
    pub faults: Vec<Fault>,
    /// How many measurements could not be made, not which; a body with any is not fit to saw.
    pub unchecked: usize,
}

impl Report {
    /// No fault, and nothing unchecked. [`Model::fit_to_saw`] asks it of a report with geometry and three samples, and asks more besides.
    pub fn is_valid(&self) -> bool {
        self.faults.is_empty() && self.unchecked == 0
    }
}

/// The edge and the vertex that a split made. The old edge keeps the start, the new one has the end.
#[derive(Clone, Copy, Debug, PartialEq, Eq)]
pub struct Split {
    pub edge: u32,
    pub vertex: u32,
}
