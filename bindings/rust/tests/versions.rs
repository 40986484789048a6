//! W-211: a model goes by a version of the drawing practice, which says which tolerance is in effect, and keeps it.

use brunskerl::{BodyKind, Carrier, LARGEST, List, Model, Refusal, Version};

const VERSIONS: [Version; 2] = [Version::First, Version::Second];

/// The version's record.
const SECOND: [u8; 6] = [b'V', b'N', 2, 0, 0, 0];

/// The trial stone and its body. Edge 0 is A; the session's tolerance is 0.0005.
fn stone(version: Version) -> (Model, u32) {
    let mut model = Model::with_version(LARGEST, 0.001, version).unwrap();
    let body = model.insert_box([4.0, 3.0, 2.0]).unwrap();
    (model, body)
}

/// The stone with the plane of face 0, on which A lies, so far below it.
fn lowered(version: Version, way: f64) -> (Model, u32) {
    let (mut model, body) = stone(version);
    model
        .set_surface(0, Carrier::plane([0.0, 0.0, -way], [0.0, 0.0, -1.0], 0.001).unwrap())
        .unwrap();
    (model, body)
}

#[test]
fn the_first_unless_another_is_asked_for() {
    let model = Model::new([1; 10], 0.001).unwrap();
    assert_eq!(model.version(), Ok(Version::First));
    assert_eq!(Version::default(), Version::First);
    for version in VERSIONS {
        let model = Model::with_version([1; 10], 0.001, version).unwrap();
        assert_eq!((model.version(), model.precision()), (Ok(version), Ok(0.001)));
        assert_eq!(Model::with_version([1; 10], 0.0, version).unwrap_err(), Refusal::BadArgument);
        assert_eq!(Model::with_version([65; 10], 0.0, version).unwrap_err(), Refusal::Unreadable);
    }
}

#[test]
fn kept_by_every_call_that_writes() {
    for version in VERSIONS {
        let (mut model, body) = stone(version);
        assert_eq!(model.version(), Ok(version));
        model.set_body(body, BodyKind::Solid).unwrap();
        model.strike(List::FinsOfLoop, 0, 3).unwrap();
        model.append(List::FinsOfLoop, 0, 3).unwrap();
        model.put(List::FinsOfLoop, 0, 3, 3).unwrap();
        let split = model.split_line_edge(0, 0.25).unwrap();
        model.split_line_edge(split.edge, 0.5).unwrap();
        assert_eq!(model.version(), Ok(version));
        assert_eq!(model.fit_to_saw(body), Ok(true));
    }
}

/// An own tolerance below the session's, and a plane between the two off the edge: the first version goes by the own, the second by the larger.
#[test]
fn an_edge_between_its_own_tolerance_and_the_sessions() {
    for version in VERSIONS {
        let (mut model, body) = lowered(version, 0.0003);
        assert_eq!(model.fit_to_saw(body), Ok(true));
        let mut edge = model.edge(0).unwrap();
        edge.tolerance = Some(0.0001);
        model.set_edge(0, edge).unwrap();
        let reasons: Vec<u32> = model.check_body(body, Some(3)).unwrap().faults.iter().map(|f| f.reason).collect();
        let split = model.clone().split_line_edge(0, 0.25).map(|split| split.edge);
        match version {
            Version::First => {
                assert_eq!(reasons, [24, 24, 24]);
                assert_eq!(split, Err(Refusal::BadArgument));
            }
            Version::Second => {
                assert_eq!(reasons, []);
                assert_eq!(split, Ok(12));
            }
        }
        assert_eq!(model.fit_to_saw(body), Ok(version == Version::Second));

        // One above the session's is the larger, and one that is none leaves the session's.
        for (own, way, fit) in [
            (Some(0.002), 0.001, true),
            (Some(0.002), 0.003, false),
            (None, 0.0003, true),
            (None, 0.001, false),
        ] {
            let (mut model, body) = lowered(version, way);
            for id in 0..8 {
                let mut vertex = model.vertex(id).unwrap();
                vertex.tolerance = own;
                model.set_vertex(id, vertex).unwrap();
            }
            for id in 0..12 {
                let mut edge = model.edge(id).unwrap();
                edge.tolerance = own;
                model.set_edge(id, edge).unwrap();
            }
            assert_eq!(model.fit_to_saw(body), Ok(fit));
            assert_eq!(model.split_line_edge(0, 0.25).is_ok(), fit);
        }
    }
}

/// Of the faces that a vertex may lie off, those are named that it lies off by the model's version.
#[test]
fn a_vertex_in_words() {
    for (version, way) in [(Version::First, 0.0003), (Version::Second, 0.0007)] {
        let (mut model, body) = lowered(version, way);
        let mut corner = model.vertex(0).unwrap();
        // Off face 2 too, but within the session's tolerance.
        corner.point[1] += 0.0002;
        corner.tolerance = Some(0.0001);
        model.set_vertex(0, corner).unwrap();
        let report = model.check_body(body, Some(0)).unwrap();
        let told: Vec<String> = report.faults.iter().map(|fault| model.describe(fault)).collect();
        let expected = match version {
            Version::First => "vertex 0 lies off the surface of face 0 or 2 (reason 23)",
            Version::Second => "vertex 0 lies off the surface of face 0 (reason 23)",
        };
        assert!(told.iter().any(|told| told == expected), "{told:?}");
    }
}

/// An image of the second version is that of the first behind one more record.
#[test]
fn images() {
    let [first, second] = VERSIONS.map(|version| {
        let (mut model, _) = stone(version);
        model.split_line_edge(0, 0.25).unwrap();
        let image = model.save();
        let loaded = Model::load(&image).unwrap();
        assert_eq!(loaded.version(), Ok(version));
        assert_eq!(loaded.save(), image);
        image
    });
    assert_eq!((first.len(), second.len()), (3012, 3018));
    assert_eq!(second, [&SECOND[..], &first].concat());
    let empty = Model::with_version([0; 10], 0.001, Version::Second).unwrap().save();
    assert_eq!(empty.len(), 56);

    let unreadable = |image: &[u8], what: &str| {
        assert_eq!(Model::load(image).unwrap_err(), Refusal::Unreadable, "{what}");
    };
    for number in [0, 1, 3, 258, 2 << 24, u32::MAX] {
        let record = [&SECOND[..2], &u32::to_le_bytes(number)].concat();
        unreadable(&[&record[..], &first].concat(), &format!("version {number}"));
    }
    for n in 0..6 {
        unreadable(&SECOND[..n], &format!("{n} bytes"));
        if n > 0 {
            unreadable(&[&SECOND[..n], &first].concat(), &format!("{n} bytes and the image"));
        }
    }
    unreadable(&[&SECOND[..], &second].concat(), "the version's record twice");
    unreadable(
        &[&first[..50], &SECOND, &first[50..]].concat(),
        "the version's record behind the precision's",
    );
    unreadable(&[&first[..], &SECOND].concat(), "the version's record at the end");
}
