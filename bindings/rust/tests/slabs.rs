//! The slab profile of a body (W-212).

use brunskerl::{Carrier, Entity, LARGEST, Model, Office, Profile, Refusal, Rule};

fn stone() -> (Model, u32) {
    let mut model = Model::new(LARGEST, 0.001).expect("a model is made");
    let body = model.insert_box([4.0, 3.0, 2.0]).expect("there is room");
    (model, body)
}

#[test]
fn the_trial_stone() {
    let (model, body) = stone();
    let Profile::Accepted { mut areas, total } = model.slab_profile(body).unwrap() else {
        panic!("the stone is a slab");
    };
    assert_eq!(total, 13_312);
    areas.sort_unstable();
    assert_eq!(areas, [1536, 1536, 2048, 2048, 3072, 3072]);
}

/// A corner moved: off the grid with its neighbours, askew alone.
#[test]
fn corners() {
    let (mut model, body) = stone();
    let vertex = model.body_vertices(body).unwrap()[0];
    let mut record = model.vertex(vertex).unwrap();
    let x = record.point[0];
    record.point[0] = x + 1.0;
    record.point[1] += 1.0;
    model.set_vertex(vertex, record).unwrap();
    assert!(matches!(
        model.slab_profile(body),
        Ok(Profile::Broken {
            rule: Rule::Along,
            entity: Entity::Edge(_)
        })
    ));
    // All corners at that x half a sixteenth off: still along the axes, the first met is named.
    let (mut model, body) = stone();
    for v in model.body_vertices(body).unwrap() {
        let mut record = model.vertex(v).unwrap();
        if record.point[0] == x {
            record.point[0] += 1.0 / 32.0;
            model.set_vertex(v, record).unwrap();
        }
    }
    assert_eq!(
        model.slab_profile(body),
        Ok(Profile::Broken {
            rule: Rule::Grid,
            entity: Entity::Vertex(vertex)
        })
    );
}

#[test]
fn normals() {
    let (mut model, body) = stone();
    let face = model.body_faces(body).unwrap()[1];
    let surface = model.face(face).unwrap().surface.unwrap();
    let Carrier::Plane { origin, normal } = model.surface(surface).unwrap() else {
        panic!("a plane");
    };
    // The other zero changes nothing.
    let turned = normal.map(|c| if c == 0.0 { -c } else { c });
    model.set_surface(surface, Carrier::Plane { origin, normal: turned }).unwrap();
    assert!(matches!(model.slab_profile(body), Ok(Profile::Accepted { total: 13_312, .. })));
    model
        .set_surface(
            surface,
            Carrier::Plane {
                origin,
                normal: [0.6, 0.0, 0.8],
            },
        )
        .unwrap();
    assert_eq!(
        model.slab_profile(body),
        Ok(Profile::Broken {
            rule: Rule::Normal,
            entity: Entity::Face(face)
        })
    );
}

#[test]
fn refused() {
    let (model, body) = stone();
    assert_eq!(model.slab_profile(body + 1), Err(Refusal::NotFound));
    let model = model.held_by(Office::Second);
    assert_eq!(model.slab_profile(body), Err(Refusal::NotFound));
}
