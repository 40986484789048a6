//! The rows of 01's 'Trial stone', through the proved static library.

use brunskerl::{BodyKind, Carrier, Entity, Fault, LARGEST, List, Model, Refusal, Region, Sense};

/// The trial stone and its body. Edge 0 is A.
fn stone() -> (Model, u32) {
    let mut model = Model::new(LARGEST, 0.001).expect("a model is made");
    let body = model.insert_box([4.0, 3.0, 2.0]).expect("there is room");
    (model, body)
}

#[test]
fn walks() {
    let (model, body) = stone();
    assert_eq!(model.body_faces(body).unwrap().len(), 6);
    assert_eq!(model.body_edges(body).unwrap().len(), 12);
    assert_eq!(model.body_vertices(body).unwrap().len(), 8);
    assert_eq!(model.body_faces(body + 1), Err(Refusal::NotFound));
}

#[test]
fn volume_and_box() {
    let (model, body) = stone();
    assert_eq!(model.body_volume(body), Ok(24.0));
    assert_eq!(model.body_bounding_box(body), Ok([[0.0; 3], [4.0, 3.0, 2.0]]));
}

#[test]
fn splits() {
    let (mut model, body) = stone();
    for fraction in [0.0, 1.0, f64::NAN] {
        assert_eq!(model.split_line_edge(0, fraction), Err(Refusal::BadArgument));
    }
    assert_eq!(model.split_line_edge(0, 2f64.powi(-12)), Err(Refusal::Degenerate));
    let split = model.split_line_edge(0, 0.25).unwrap();
    assert_eq!(model.vertex(split.vertex).unwrap().point, [1.0, 0.0, 0.0]);
    assert_eq!(model.edge(0).unwrap().end, Some(split.vertex));
    assert_eq!(model.edge(split.edge).unwrap().start, Some(split.vertex));
    assert_eq!(model.body_edges(body).unwrap().len(), 13);
    assert_eq!(model.body_vertices(body).unwrap().len(), 9);
    assert_eq!(model.body_volume(body), Ok(24.0));
    let (mut model, _) = stone();
    assert!(model.split_line_edge(0, 2f64.powi(-11)).is_ok());
}

#[test]
fn a_refused_split_changes_nothing() {
    let (mut model, _) = stone();
    let before = format!("{model:?}");
    model.split_line_edge(0, 2f64.powi(-12)).unwrap_err();
    model.split_line_edge(12, 0.5).unwrap_err();
    assert_eq!(format!("{model:?}"), before);
}

#[test]
fn faults() {
    let (mut model, body) = stone();
    assert!(model.check_body(body, Some(3)).unwrap().is_valid());
    assert_eq!(model.fit_to_saw(body), Ok(true));
    let last = model.list(List::FinsOfLoop, 0).unwrap().len() - 1;
    model.strike(List::FinsOfLoop, 0, last).unwrap();
    let report = model.check_body(body, None).unwrap();
    assert_eq!(report.faults.iter().map(|f: &Fault| f.reason).collect::<Vec<_>>(), [18]);
    assert_eq!(model.fit_to_saw(body), Ok(false));
}

#[test]
fn words() {
    let (mut model, body) = stone();
    let mut corner = model.vertex(7).unwrap();
    corner.point[2] += 0.01;
    model.set_vertex(7, corner).unwrap();
    let report = model.check_body(body, Some(3)).unwrap();
    let told: Vec<String> = report.faults.iter().map(|fault| model.describe(fault)).collect();
    assert!(told.contains(&"vertex 7 lies off the surface of face 1 (reason 23)".to_string()));
    assert!(told.contains(&"vertex 7 lies off the curve of edge 3 or 7 or 11 (reason 22)".to_string()));
    for refusal in Refusal::ALL {
        assert!(refusal.to_string().starts_with("refused: "));
    }
}

#[test]
fn contains() {
    let (mut model, body) = stone();
    let kinds = [
        Entity::Body,
        Entity::Region,
        Entity::Shell,
        Entity::Face,
        Entity::Loop,
        Entity::Fin,
        Entity::Edge,
        Entity::Vertex,
    ];
    let count = |model: &Model, kind: fn(u32) -> Entity| (0..100).take_while(|id| model.contains(kind(*id)) == Ok(true)).count();
    assert_eq!(kinds.map(|kind| count(&model, kind)), [1, 2, 2, 6, 6, 24, 12, 8]);
    assert_eq!(model.contains(Entity::Body(u32::MAX)), Ok(false));
    let split = model.split_line_edge(0, 0.25).unwrap();
    assert_eq!(model.contains(Entity::Vertex(split.vertex)), Ok(true));
    assert_eq!(kinds.map(|kind| count(&model, kind)), [1, 2, 2, 6, 6, 26, 13, 9]);
    assert_eq!(model.contains(Entity::Body(body)), Ok(true));
}

/// Edge A is used by a fin in its direction and by one against it.
#[test]
fn fin_vertices() {
    let (mut model, _) = stone();
    let fins = model.list(List::FinsOfEdge, 0).unwrap();
    let used = |sense| fins.iter().copied().find(|fin| model.fin(*fin).unwrap().sense == sense).unwrap();
    let (along, against) = (used(Sense::Positive), used(Sense::Negative));
    assert_eq!(model.fin_vertices(along), Ok([Some(0), Some(1)]));
    assert_eq!(model.fin_vertices(against), Ok([Some(1), Some(0)]));
    assert_eq!(model.fin_vertices(24), Err(Refusal::NotFound));
    assert_eq!(model.fin_vertices(u32::MAX), Err(Refusal::NotFound));

    // An end that is none, and one that names no vertex, are told as they stand.
    let mut edge = model.edge(0).unwrap();
    (edge.start, edge.end) = (None, Some(8));
    model.set_edge(0, edge).unwrap();
    assert_eq!(model.fin_vertices(along), Ok([None, Some(8)]));
    assert_eq!(model.fin_vertices(against), Ok([Some(8), None]));

    // The fin is there, and its edge is not.
    let mut fin = model.fin(along).unwrap();
    fin.edge = 12;
    model.set_fin(along, fin).unwrap();
    assert_eq!(model.fin_vertices(along), Err(Refusal::NotFound));
}

/// Fit to saw is no fault, nothing unchecked, and a solid with a face whose shells are the body's (W-203): one inside out is, a flat one, and one whose
/// tolerances swallow the error. The volume tells all but the last.
#[test]
fn fit_to_saw_and_no_more() {
    let mut model = Model::new(LARGEST, 0.001).unwrap();
    let empty = model.insert_body(BodyKind::Solid).unwrap();
    let region = model.insert_region(Region { body: empty, solid: false }).unwrap();
    model.append(List::RegionsOfBody, empty, region).unwrap();
    assert!(model.check_body(empty, Some(3)).unwrap().is_valid());
    assert_eq!(model.fit_to_saw(empty), Ok(false));
    assert_eq!(model.body_volume(empty), Err(Refusal::Degenerate));
    model.set_body(empty, BodyKind::Wire).unwrap();
    assert!(model.check_body(empty, Some(3)).unwrap().is_valid());
    assert_eq!(model.fit_to_saw(empty), Ok(false));
    assert_eq!(model.body_volume(empty), Err(Refusal::NotSolid));

    let (mut turned, body) = stone();
    for id in turned.body_faces(body).unwrap() {
        let mut face = turned.face(id).unwrap();
        (face.front, face.back) = (face.back, face.front);
        turned.set_face(id, face).unwrap();
    }
    assert_eq!(turned.fit_to_saw(body), Ok(true));
    assert_eq!(turned.body_volume(body), Ok(-24.0));

    let (mut flat, body) = stone();
    for id in 4..8 {
        let mut vertex = flat.vertex(id).unwrap();
        vertex.point[2] = 0.0;
        flat.set_vertex(id, vertex).unwrap();
    }
    for id in [2, 3, 6, 7] {
        let Carrier::Line { mut origin, direction } = flat.curve(id).unwrap() else {
            panic!("an edge of the box is straight")
        };
        origin[2] = 0.0;
        flat.set_curve(id, Carrier::Line { origin, direction }).unwrap();
    }
    flat.set_surface(1, Carrier::plane([0.0; 3], [0.0, 0.0, 1.0], 0.001).unwrap())
        .unwrap();
    assert_eq!(flat.fit_to_saw(body), Ok(true));
    assert_eq!(flat.body_volume(body), Ok(0.0));

    let (mut loose, body) = stone();
    let mut corner = loose.vertex(7).unwrap();
    corner.point[2] += 0.01;
    loose.set_vertex(7, corner).unwrap();
    assert_eq!(loose.fit_to_saw(body), Ok(false));
    corner.tolerance = Some(0.02);
    loose.set_vertex(7, corner).unwrap();
    assert_eq!(loose.fit_to_saw(body), Ok(true));
}

/// A face that one of its own shells does not list, that names the shell of another stone, or one that is missing: the report says nothing of it, and the stone is not
/// fit to saw.
#[test]
fn not_fit_by_its_shells() {
    let mut model = Model::new(LARGEST, 0.001).unwrap();
    let body = model.insert_box([4.0, 3.0, 2.0]).unwrap();
    let other = model.insert_box([1.0, 1.0, 1.0]).unwrap();
    assert_eq!(model.fit_to_saw(body), Ok(true));
    let id = model.body_faces(body).unwrap()[0];
    let back = model.face(id).unwrap().back.unwrap();
    let place = model.list(List::FacesOfShell, back).unwrap().iter().position(|&f| f == id).unwrap();
    model.strike(List::FacesOfShell, back, place).unwrap();
    let foreign = model.face(model.body_faces(other).unwrap()[0]).unwrap().back.unwrap();
    for named in [back, foreign, 99] {
        let mut face = model.face(id).unwrap();
        face.back = Some(named);
        model.set_face(id, face).unwrap();
        assert!(model.check_body(body, Some(3)).unwrap().is_valid());
        assert_eq!(model.fit_to_saw(body), Ok(false));
        assert_eq!(model.fit_to_saw(other), Ok(true));
    }
    let mut face = model.face(id).unwrap();
    face.back = None;
    model.set_face(id, face).unwrap();
    assert_eq!(model.fit_to_saw(body), Ok(true));
}

/// What a direction of length 2 does: the parameters of the edge's ends are twice as far apart, a point at a parameter lies twice as far
/// out, and so the middle of the edge is put at twice its length. The check sees the end that its line does not reach; the split does not ask.
#[test]
fn a_direction_of_length_2() {
    let (mut model, body) = stone();
    let Carrier::Line { origin, direction } = model.curve(0).unwrap() else {
        panic!("an edge of the box is straight")
    };
    assert_eq!(model.edge_parameter_bounds(0), Ok([0.0, 4.0]));
    let double = direction.map(|x| 2.0 * x);
    model.set_curve(0, Carrier::Line { origin, direction: double }).unwrap();
    assert_eq!(model.edge_parameter_bounds(0), Ok([0.0, 8.0]));
    let report = model.check_body(body, Some(3)).unwrap();
    assert!(
        report
            .faults
            .iter()
            .any(|fault| fault.reason == 22 && fault.entity == Entity::Vertex(1))
    );
    let split = model.split_line_edge(0, 0.5).unwrap();
    assert_eq!(model.vertex(split.vertex).unwrap().point, [8.0, 0.0, 0.0]);

    // As the Rust makes it of the same way.
    let (mut model, _) = stone();
    model.set_curve(0, Carrier::line(origin, double, 0.001).unwrap()).unwrap();
    let split = model.split_line_edge(0, 0.5).unwrap();
    assert_eq!(model.vertex(split.vertex).unwrap().point, [2.0, 0.0, 0.0]);
}

#[test]
fn carriers_as_the_rust_makes_them() {
    let bits = |carrier| match carrier {
        Ok(Carrier::Line { direction: way, .. } | Carrier::Plane { normal: way, .. }) => way.map(f64::to_bits),
        other => panic!("{other:?}"),
    };
    let (a, b, c) = ([1.0, 2.0, 3.0], [4.0, 4.0, 9.0], [0.5, 7.0, -2.0]);
    assert_eq!(Carrier::line_through(a, b, 0.001), Carrier::line(a, [3.0, 2.0, 6.0], 0.001));
    assert_eq!(
        bits(Carrier::line_through(a, b, 0.001)),
        [3.0, 2.0, 6.0].map(|x: f64| (x / 7.0).to_bits())
    );
    assert_eq!(bits(Carrier::plane(a, [0.0, -3.0, 4.0], 0.001)), [0.0, -0.6, 0.8].map(f64::to_bits));
    // The bits that the Rust gives.
    assert_eq!(
        bits(Carrier::line_through(a, c, 0.001)),
        [0xbfb2_0e8d_933f_bc3a, 0x3fe6_9230_f80f_ab48, 0xbfe6_9230_f80f_ab48]
    );
    assert_eq!(
        bits(Carrier::plane(a, [0.1, -0.7, 12.0], 0.001)),
        [0x3f81_0980_4d2c_9973, 0xbfad_d0a0_870e_0c89, 0x3fef_f1d0_90b3_9fb8]
    );
    assert_eq!(
        bits(Carrier::plane_through([a, b, c], 0.001)),
        [0xbfec_9f25_c5bf_edda, 0x3fd1_2c49_dd0c_c1e9, 0x3fd6_e5b7_d166_57e1]
    );
    for wrong in [f64::NAN, f64::INFINITY] {
        assert_eq!(Carrier::line_through([wrong, 0.0, 0.0], b, 0.001), Err(Refusal::BadArgument));
        assert_eq!(Carrier::line_through(a, [wrong, 0.0, 0.0], 0.001), Err(Refusal::Degenerate));
        assert_eq!(Carrier::plane_through([a, b, [0.0, wrong, 0.0]], 0.001), Err(Refusal::BadArgument));
        assert_eq!(Carrier::plane(a, b, wrong), Err(Refusal::BadArgument));
    }
    assert_eq!(Carrier::plane(a, b, 0.0), Err(Refusal::BadArgument));
    assert_eq!(Carrier::line(a, [0.0, 0.001, 0.0], 0.001), Err(Refusal::Degenerate));
    assert_eq!(Carrier::plane_through([a, b, [2.5, 3.0, 6.0]], 0.001), Err(Refusal::Degenerate));
}
