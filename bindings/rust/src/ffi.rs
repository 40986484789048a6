//! The station's calls as they are exported; `include/brunskerl.h` says what each takes.

pub type Room = *const [usize; 10];

/// The calls that only read, and those that write, each behind the five words that name the lent memory.
macro_rules! calls {
    ($($read:ident($($a:ident: $A:ty),*) -> $R:ty;)* ; $($write:ident($($b:ident: $B:ty),*) -> $W:ty;)*) => {
        unsafe extern "C" {
            $(pub fn $read(room: Room, words: *const u32, n: usize, reals: *const f64, m: usize, $($a: $A),*) -> $R;)*
            $(pub fn $write(room: Room, words: *mut u32, n: usize, reals: *mut f64, m: usize, $($b: $B),*) -> $W;)*
        }
    };
}

calls! {
    brunskerl_precision(value: *mut [f64; 1]) -> u32;
    brunskerl_version(value: *mut [u32; 1]) -> u32;
    brunskerl_body(office: u32, id: usize, value: *mut [u32; 2]) -> u32;
    brunskerl_region(id: usize, value: *mut [u32; 3]) -> u32;
    brunskerl_shell(id: usize, value: *mut [u32; 4]) -> u32;
    brunskerl_face(id: usize, value: *mut [u32; 8]) -> u32;
    brunskerl_loop(id: usize, value: *mut [u32; 2]) -> u32;
    brunskerl_fin(id: usize, value: *mut [u32; 4]) -> u32;
    brunskerl_edge(id: usize, value: *mut [u32; 8], floats: *mut [f64; 1]) -> u32;
    brunskerl_vertex(id: usize, value: *mut [u32; 1], floats: *mut [f64; 4]) -> u32;
    brunskerl_curve(id: usize, value: *mut [u32; 1], floats: *mut [f64; 6]) -> u32;
    brunskerl_surface(id: usize, value: *mut [u32; 1], floats: *mut [f64; 6]) -> u32;
    brunskerl_contains(office: u32, table: u32, id: usize, value: *mut [u32; 1]) -> u32;
    brunskerl_list_entry(office: u32, list: usize, id: usize, place: usize, entry: *mut [u32; 1]) -> u32;
    brunskerl_fin_vertices(fin: usize, ends: *mut [u32; 4]) -> u32;
    brunskerl_edge_parameter_bounds(edge: usize, bounds: *mut [f64; 2]) -> u32;
    brunskerl_body_faces(office: u32, body: usize, faces: *mut u8, f: usize, out: *mut u32, o: usize, code: *mut u32) -> usize;
    brunskerl_body_edges(office: u32, body: usize, faces: *mut u8, f: usize, edges: *mut u8, e: usize, out: *mut u32, o: usize, code: *mut u32) -> usize;
    brunskerl_body_vertices(
        office: u32, body: usize, faces: *mut u8, f: usize, edges: *mut u8, e: usize, vertices: *mut u8, v: usize, out: *mut u32, o: usize, code: *mut u32
    ) -> usize;
    brunskerl_body_bounding_box(
        office: u32, body: usize, faces: *mut u8, f: usize, edges: *mut u8, e: usize, vertices: *mut u8, v: usize, corners: *mut [f64; 6]
    ) -> u32;
    brunskerl_check_body(
        office: u32, body: usize, geometry: u32, samples: usize, faces: *mut u8, f: usize, edges: *mut u8, e: usize, list: *mut u32, l: usize,
        counts: *mut [usize; 3]
    ) -> u32;
    brunskerl_first_fault(
        office: u32, body: usize, geometry: u32, samples: usize, faces: *mut u8, f: usize, edges: *mut u8, e: usize, fault: *mut [u32; 5]
    ) -> u32;
    brunskerl_fit_to_saw(office: u32, body: usize, faces: *mut u8, f: usize, edges: *mut u8, e: usize, fit: *mut [u32; 1]) -> u32;
    brunskerl_body_volume(office: u32, body: usize, faces: *mut u8, f: usize, volume: *mut [f64; 1]) -> u32;
    brunskerl_sheet_take(office: u32, body: usize, faces: *mut u8, f: usize, sheet: *mut [u64; 5]) -> u32;
    brunskerl_course_total(
        office: u32, courses: *const u32, k: usize, course: usize, faces: *mut u8, f: usize, sum: *mut [u64; 3]
    ) -> u32;
    brunskerl_mend_changes(office: u32, body: usize, marks: *mut u8, k: usize, list: *mut u32, l: usize, count: *mut [usize; 1]) -> u32;
    brunskerl_stl_length(office: u32, body: usize, faces: *mut u8, f: usize, length: *mut [usize; 1]) -> u32;
    brunskerl_write_stl(office: u32, body: usize, faces: *mut u8, f: usize, bytes: *mut u8, b: usize, length: *mut [usize; 1]) -> u32;
    brunskerl_slab_profile(office: u32, body: usize, faces: *mut u8, f: usize, edges: *mut u8, e: usize, areas: *mut u64, a: usize, profile: *mut [u64; 3]) -> u32;
    brunskerl_image_length(length: *mut [usize; 1]) -> u32;
    brunskerl_write_image(bytes: *mut u8, b: usize, length: *mut [usize; 1]) -> u32;
    ;
    brunskerl_make(precision: f64, version: u32) -> u32;
    brunskerl_insert_body(office: u32, value: *const [u32; 1], id: *mut [u32; 1]) -> u32;
    brunskerl_insert_region(value: *const [u32; 2], id: *mut [u32; 1]) -> u32;
    brunskerl_insert_shell(value: *const [u32; 1], id: *mut [u32; 1]) -> u32;
    brunskerl_insert_face(value: *const [u32; 7], id: *mut [u32; 1]) -> u32;
    brunskerl_insert_loop(value: *const [u32; 1], id: *mut [u32; 1]) -> u32;
    brunskerl_insert_fin(value: *const [u32; 4], id: *mut [u32; 1]) -> u32;
    brunskerl_insert_edge(value: *const [u32; 7], floats: *const [f64; 1], id: *mut [u32; 1]) -> u32;
    brunskerl_insert_vertex(value: *const [u32; 1], floats: *const [f64; 4], id: *mut [u32; 1]) -> u32;
    brunskerl_insert_curve(value: *const [u32; 1], floats: *const [f64; 6], id: *mut [u32; 1]) -> u32;
    brunskerl_insert_surface(value: *const [u32; 1], floats: *const [f64; 6], id: *mut [u32; 1]) -> u32;
    brunskerl_set_body(office: u32, id: usize, value: *const [u32; 1]) -> u32;
    brunskerl_set_region(id: usize, value: *const [u32; 2]) -> u32;
    brunskerl_set_shell(id: usize, value: *const [u32; 1]) -> u32;
    brunskerl_set_face(id: usize, value: *const [u32; 7]) -> u32;
    brunskerl_set_loop(id: usize, value: *const [u32; 1]) -> u32;
    brunskerl_set_fin(id: usize, value: *const [u32; 4]) -> u32;
    brunskerl_set_edge(id: usize, value: *const [u32; 7], floats: *const [f64; 1]) -> u32;
    brunskerl_set_vertex(id: usize, value: *const [u32; 1], floats: *const [f64; 4]) -> u32;
    brunskerl_set_curve(id: usize, value: *const [u32; 1], floats: *const [f64; 6]) -> u32;
    brunskerl_set_surface(id: usize, value: *const [u32; 1], floats: *const [f64; 6]) -> u32;
    brunskerl_set_fin_geometry(id: usize) -> u32;
    brunskerl_put_entry(office: u32, list: usize, id: usize, place: usize, entry: u32) -> u32;
    brunskerl_append_entry(office: u32, list: usize, id: usize, entry: u32) -> u32;
    brunskerl_split_line_edge(office: u32, edge: usize, fraction: f64, ids: *mut [u32; 3]) -> u32;
    brunskerl_strike_entry(office: u32, list: usize, id: usize, place: usize) -> u32;
    brunskerl_mend(office: u32, body: usize, marks: *mut u8, k: usize, list: *mut u32, l: usize, count: *mut [usize; 1]) -> u32;
    brunskerl_read_stl(office: u32, bytes: *const u8, b: usize, id: *mut [u32; 1]) -> u32;
    brunskerl_read_image(bytes: *const u8, b: usize) -> u32;
}

// The calls on a course table alone.
unsafe extern "C" {
    pub fn brunskerl_make_courses(courses: *mut u32, k: usize) -> u32;
    pub fn brunskerl_insert_course(courses: *mut u32, k: usize, id: *mut [u32; 1]) -> u32;
    pub fn brunskerl_append_course_entry(courses: *mut u32, k: usize, course: usize, tag: u32, id: u32) -> u32;
    pub fn brunskerl_put_course_entry(courses: *mut u32, k: usize, course: usize, place: usize, tag: u32, id: u32) -> u32;
    pub fn brunskerl_strike_course_entry(courses: *mut u32, k: usize, course: usize, place: usize) -> u32;
    pub fn brunskerl_course_count(courses: *const u32, k: usize, count: *mut [u32; 1]) -> u32;
    pub fn brunskerl_course_length(courses: *const u32, k: usize, course: usize, length: *mut [u32; 1]) -> u32;
    pub fn brunskerl_course_entry(courses: *const u32, k: usize, course: usize, place: usize, entry: *mut [u32; 2]) -> u32;
}
