//! W-202: a model is kept as bytes (docs/IMAGE.md) and taken back.

use brunskerl::{Carrier, Edge, Entity, LARGEST, List, Model, Refusal, Vertex};

/// Just what the trial stone takes once edge A is split.
const SPLIT: [usize; 10] = [1, 2, 2, 6, 6, 26, 13, 9, 12, 6];

/// The trial stone, its body, and edge A split.
fn stone() -> (Model, u32) {
    let mut model = Model::new(LARGEST, 0.001).unwrap();
    let body = model.insert_box([4.0, 3.0, 2.0]).unwrap();
    model.split_line_edge(0, 0.25).unwrap();
    (model, body)
}

/// How many records the first eight tables have.
fn counts(model: &Model) -> [usize; 8] {
    let kinds = [
        Entity::Body,
        Entity::Region,
        Entity::Shell,
        Entity::Face,
        Entity::Loop,
        Entity::Fin,
        Entity::Edge,
        Entity::Vertex,
    ];
    kinds.map(|kind| (0..100).take_while(|id| model.contains(kind(*id)) == Ok(true)).count())
}

/// All that the lookups give.
fn told(model: &Model) -> String {
    let mut told = format!("{:?}", model.precision());
    for id in 0..100 {
        told += &format!("{:?} {:?} {:?}", model.body(id), model.region(id), model.shell(id));
        told += &format!("{:?} {:?} {:?}", model.face(id), model.loop_(id), model.fin(id));
        told += &format!("{:?} {:?}", model.edge(id), model.vertex(id));
        told += &format!("{:?} {:?}", model.curve(id), model.surface(id));
        for list in [
            List::RegionsOfBody,
            List::ShellsOfRegion,
            List::FacesOfShell,
            List::WireEdgesOfShell,
            List::AcornVerticesOfShell,
            List::LoopsOfFace,
            List::FinsOfLoop,
            List::FinsOfEdge,
        ] {
            told += &format!("{:?}", model.list(list, id));
        }
    }
    told
}

#[test]
fn kept_overnight() {
    let (mut model, body) = stone();
    let image = model.save();
    assert_eq!(image.len(), 3012);
    let mut loaded = Model::load(&image).unwrap();
    assert_eq!(counts(&loaded), SPLIT[..8]);
    assert_eq!(told(&loaded), told(&model));
    assert_eq!(loaded.body_volume(body), model.body_volume(body));
    assert_eq!(loaded.save(), image);

    // The second split goes as it would have gone.
    let split = model.split_line_edge(0, 0.5).unwrap();
    assert_eq!(loaded.split_line_edge(0, 0.5), Ok(split));
    assert_eq!(loaded.vertex(split.vertex).unwrap().point, [0.5, 0.0, 0.0]);
    assert_eq!(told(&loaded), told(&model));
    assert_eq!(loaded.save(), model.save());
    assert_ne!(loaded.save(), image);
}

#[test]
fn what_is_no_image() {
    let (model, _) = stone();
    let image = model.save();
    for n in 0..image.len() {
        assert_eq!(Model::load_in(SPLIT, &image[..n]).unwrap_err(), Refusal::Unreadable, "{n} bytes");
    }
    assert_eq!(Model::load(&[]).unwrap_err(), Refusal::Unreadable);
    assert_eq!(Model::load(&[&image[..], &[0]].concat()).unwrap_err(), Refusal::Unreadable);
    // A mark, a count, the precision.
    for place in [0, 2, 49] {
        let mut other = image.clone();
        other[place] ^= 0x80;
        assert_eq!(Model::load(&other).unwrap_err(), Refusal::Unreadable, "byte {place}");
    }
}

#[test]
fn capacities() {
    let (model, _) = stone();
    let image = model.save();
    let mut tight = Model::load_in(SPLIT, &image).unwrap();
    assert_eq!(tight.save(), image);
    assert_eq!(tight.split_line_edge(1, 0.5), Err(Refusal::NoRoom));
    for k in 0..10 {
        let mut room = SPLIT;
        room[k] -= 1;
        assert_eq!(Model::load_in(room, &image).unwrap_err(), Refusal::NoRoom, "table {k}");
        assert_eq!(Model::load_in(room, &image[1..]).unwrap_err(), Refusal::Unreadable);
        room[k] = LARGEST[k] + 1;
        assert_eq!(Model::load_in(room, &image).unwrap_err(), Refusal::Unreadable);
    }
    let empty = Model::new([0; 10], 0.001).unwrap().save();
    assert_eq!(empty.len(), 50);
    assert_eq!(Model::load_in([0; 10], &empty).unwrap().precision(), Ok(0.001));
}

/// The page's worked record: an edge from vertex 3 to none, on curve 258, with an own tolerance of 0.5, and the fins 1 and 2.
#[test]
fn the_worked_record() {
    let mut model = Model::new([1; 10], 0.001).unwrap();
    let edge = Edge {
        start: Some(3),
        end: None,
        curve: Some(258),
        tolerance: Some(0.5),
    };
    let id = model.insert_edge(edge).unwrap();
    for fin in [1, 2] {
        model.append(List::FinsOfEdge, id, fin).unwrap();
    }
    let image = model.save();
    let worked = [
        &b"ED"[..],
        &[1, 0, 0, 0, 3, 0, 0, 0],
        &[0, 0, 0, 0, 0, 0, 0, 0],
        &[1, 0, 0, 0, 2, 1, 0, 0],
        &[1, 0, 0, 0],
        &[0, 0, 0, 0, 0, 0, 0xe0, 0x3f],
        &[2, 0, 0, 0],
        &[1, 0, 0, 0, 2, 0, 0, 0],
    ];
    assert_eq!(image[50..], worked.concat());
    assert_eq!(Model::load(&image).unwrap().edge(id), Ok(edge));
}

/// Both zeros and the infinities come back as they were, and what is not a number as such.
#[test]
fn floats() {
    let mut model = Model::new([4; 10], 5.0e-324).unwrap();
    let point = [-0.0, f64::NEG_INFINITY, 5.0e-324];
    let corner = model
        .insert_vertex(Vertex {
            point,
            tolerance: Some(-0.0),
        })
        .unwrap();
    let point = [f64::from_bits(u64::MAX), 0.0, f64::MAX];
    let strange = model.insert_vertex(Vertex { point, tolerance: None }).unwrap();
    let other = model.insert_curve(Carrier::Other).unwrap();
    let loaded = Model::load(&model.save()).unwrap();
    assert_eq!(loaded.precision(), Ok(5.0e-324));
    let bits = |vertex: Vertex| (vertex.point.map(f64::to_bits), vertex.tolerance.map(f64::to_bits));
    assert_eq!(loaded.vertex(corner).map(bits), model.vertex(corner).map(bits));
    let [x, y, z] = loaded.vertex(strange).unwrap().point;
    assert!(x.is_nan() && y.to_bits() == 0 && z == f64::MAX);
    assert_eq!(loaded.curve(other), Ok(Carrier::Other));
    assert_eq!(loaded.save(), model.save());
}
