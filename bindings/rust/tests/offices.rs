//! W-206: two drawing offices share the tables. Each has its bodies, and those of the other do not exist for it.

use brunskerl::{BodyKind, Entity, LARGEST, List, Model, Office, Refusal, Region};

const OFFICES: [Office; 2] = [Office::First, Office::Second];

fn other(office: Office) -> Office {
    match office {
        Office::First => Office::Second,
        Office::Second => Office::First,
    }
}

/// A stone of each office, by the offices' order; edges 0 to 11 are the first's, 12 to 23 the second's. The model is in the first's hands.
fn stones() -> (Model, [u32; 2]) {
    let mut model = Model::new(LARGEST, 0.001).unwrap();
    let first = model.insert_box([4.0, 3.0, 2.0]).unwrap();
    let mut model = model.held_by(Office::Second);
    let second = model.insert_box([1.0, 1.0, 5.0]).unwrap();
    (model.held_by(Office::First), [first, second])
}

/// All that an office is told of a body.
fn told(model: &Model, body: u32) -> String {
    format!(
        "{:?} {:?} {:?} {:?} {:?} {:?} {:?} {:?} {:?} {:?}",
        model.body(body),
        model.list(List::RegionsOfBody, body),
        model.body_faces(body),
        model.body_edges(body),
        model.body_vertices(body),
        model.body_bounding_box(body),
        model.body_volume(body),
        model.check_body(body, Some(3)),
        model.first_fault(body, Some(3)),
        model.fit_to_saw(body),
    )
}

#[test]
fn the_first_unless_another_is_said() {
    let model = Model::new([1; 10], 0.001).unwrap();
    assert_eq!((model.office(), Office::default()), (Office::First, Office::First));
    let mut model = model.held_by(Office::Second);
    assert_eq!(model.office(), Office::Second);
    let body = model.insert_body(BodyKind::Solid).unwrap();
    let (own, image) = (model.body(body), model.save());
    let model = Model::load(&image).unwrap();
    assert_eq!((own, model.body(body)), (Ok(BodyKind::Solid), Err(Refusal::NotFound)));
    assert_eq!(model.held_by(Office::Second).body(body), own);
}

/// Two handles on one memory, one after the other: each office has its own stone, and of the other's it is told what it is told of one that is missing.
#[test]
fn each_office_has_its_own() {
    let (mut model, bodies) = stones();
    for office in OFFICES {
        model = model.held_by(office);
        let (own, foreign) = (bodies[office as usize], bodies[other(office) as usize]);
        assert_eq!(model.fit_to_saw(own), Ok(true));
        assert_eq!(model.body_volume(own), Ok([24.0, 5.0][office as usize]));
        assert_eq!(model.contains(Entity::Body(own)), Ok(true));
        assert_eq!(model.contains(Entity::Body(foreign)), Ok(false));
        assert_eq!(told(&model, foreign), told(&model, 99));
        assert_eq!(model.body_faces(foreign), Err(Refusal::NotFound));
        // What is no body is both offices'.
        assert_eq!(model.contains(Entity::Region(2 * foreign)), Ok(true));
        assert_eq!(model.region(2 * foreign).unwrap().body, foreign);
        assert_eq!(model.list(List::ShellsOfRegion, 2 * foreign).unwrap().len(), 1);
    }
}

#[test]
fn the_others_body_is_not_edited() {
    let (model, bodies) = stones();
    let before = model.save();
    for office in OFFICES {
        let mut model = model.clone().held_by(office);
        let foreign = bodies[other(office) as usize];
        assert_eq!(model.set_body(foreign, BodyKind::Wire), Err(Refusal::NotFound));
        assert_eq!(model.append(List::RegionsOfBody, foreign, 0), Err(Refusal::NotFound));
        assert_eq!(model.put(List::RegionsOfBody, foreign, 0, 0), Err(Refusal::NotFound));
        assert_eq!(model.strike(List::RegionsOfBody, foreign, 99), Err(Refusal::NotFound));
        assert_eq!(model.save(), before);
        // Its own keeps its office and its list.
        let own = bodies[office as usize];
        let regions = model.list(List::RegionsOfBody, own);
        model.set_body(own, BodyKind::Wire).unwrap();
        assert_eq!(
            (model.body(own), model.list(List::RegionsOfBody, own)),
            (Ok(BodyKind::Wire), regions)
        );
        assert_eq!(model.held_by(other(office)).body(own), Err(Refusal::NotFound));
    }
}

#[test]
fn the_others_edge_is_not_split() {
    let (model, bodies) = stones();
    for office in OFFICES {
        let mut model = model.clone().held_by(office);
        let (own, foreign) = [(0, 12), (12, 0)][office as usize];
        let before = model.save();
        assert_eq!(model.split_line_edge(foreign, 0.25), Err(Refusal::NotFound));
        // The fraction is tested first, as it is of an edge that is missing.
        assert_eq!(model.split_line_edge(foreign, 0.0), Err(Refusal::BadArgument));
        assert_eq!(model.save(), before);
        assert!(model.edge_parameter_bounds(foreign).is_ok());
        assert_eq!(model.split_line_edge(own, 0.25).map(|split| split.edge), Ok(24));
        assert_eq!(model.fit_to_saw(bodies[office as usize]), Ok(true));
        // The new edge is in the same walk.
        let mut model = model.held_by(other(office));
        assert_eq!(model.split_line_edge(24, 0.5), Err(Refusal::NotFound));
        assert!(model.split_line_edge(foreign, 0.25).is_ok());
    }
}

/// A wire of both offices' shells is refused to both; where the other's walk fails, its body has no edge; and what is in no walk is free to both.
#[test]
fn an_edge_of_both_and_of_nobody() {
    let (mut model, [_, second]) = stones();
    let shell = model.list(List::ShellsOfRegion, 2 * second).unwrap()[0];
    model.append(List::WireEdgesOfShell, shell, 0).unwrap();
    for office in OFFICES {
        let mut model = model.clone().held_by(office);
        assert_eq!(model.split_line_edge(0, 0.25), Err(Refusal::NotFound));
    }
    let mut failing = model.clone().held_by(Office::Second);
    failing.append(List::RegionsOfBody, second, 99).unwrap();
    assert_eq!(failing.body_edges(second), Err(Refusal::NotFound));
    assert_eq!(failing.split_line_edge(0, 0.25), Err(Refusal::NotFound));
    let mut failing = failing.held_by(Office::First);
    assert!(failing.split_line_edge(0, 0.25).is_ok());
    assert!(failing.split_line_edge(12, 0.25).is_ok());

    let nobody = model.edge(0).unwrap();
    let id = model.insert_edge(nobody).unwrap();
    for office in OFFICES {
        assert!(model.clone().held_by(office).split_line_edge(id, 0.25).is_ok());
    }
}

/// What one office does to its stone leaves what the other is told; slots and ids are common.
#[test]
fn apart() {
    let (model, [first, second]) = stones();
    let before = told(&model, first);
    let mut model = model.held_by(Office::Second);
    let split = model.split_line_edge(12, 0.5).unwrap();
    model.set_body(second, BodyKind::General).unwrap();
    model.strike(List::FinsOfLoop, 6, 0).unwrap();
    let mut corner = model.vertex(8).unwrap();
    corner.point = [f64::NAN; 3];
    model.set_vertex(8, corner).unwrap();
    let mut model = model.held_by(Office::First);
    assert_eq!(told(&model, first), before);
    assert_eq!(model.split_line_edge(0, 0.5).unwrap().edge, split.edge + 1);

    let mut model = Model::new([1; 10], 0.001).unwrap();
    let body = model.insert_body(BodyKind::Solid).unwrap();
    model.insert_region(Region { body, solid: false }).unwrap();
    assert_eq!(model.held_by(Office::Second).insert_body(BodyKind::Solid), Err(Refusal::NoRoom));
}

/// The second office's bodies have a mark of their own, and nothing else of the image is another.
#[test]
fn images() {
    let (model, bodies) = stones();
    let image = model.save();
    assert_eq!((&image[50..52], &image[68..70]), (&b"BO"[..], &b"BP"[..]));
    for office in OFFICES {
        let loaded = Model::load(&image).unwrap().held_by(office);
        let own = bodies[office as usize];
        assert_eq!(loaded.save(), image);
        assert_eq!(told(&loaded, own), told(&model.clone().held_by(office), own));
        assert_eq!(told(&loaded, bodies[other(office) as usize]), told(&loaded, 99));
    }
    // The page's worked record.
    let mut worked = Model::new([1; 10], 0.001).unwrap().held_by(Office::Second);
    let body = worked.insert_body(BodyKind::Solid).unwrap();
    for region in [7, 258] {
        worked.append(List::RegionsOfBody, body, region).unwrap();
    }
    assert_eq!(worked.save()[50..], [0x42, 0x50, 3, 0, 0, 0, 2, 0, 0, 0, 7, 0, 0, 0, 2, 1, 0, 0]);
    // With the marks of an image from before there were offices both are the first's.
    let mut old = image.clone();
    old[69] = b'O';
    let loaded = Model::load(&old).unwrap();
    assert!(bodies.iter().all(|&body| loaded.fit_to_saw(body) == Ok(true)));
    for wrong in [b'Q', b'N', b'p', 0] {
        old[69] = wrong;
        assert_eq!(Model::load(&old).unwrap_err(), Refusal::Unreadable);
    }
}
