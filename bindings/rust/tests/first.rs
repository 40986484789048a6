//! The first fault alone (W-207): the first of the full report, and none where that has none.

use brunskerl::{Carrier, Entity, Fault, LARGEST, List, Model, Office, Refusal};

fn stone() -> (Model, u32) {
    let mut model = Model::new(LARGEST, 0.001).expect("a model is made");
    let body = model.insert_box([4.0, 3.0, 2.0]).expect("there is room");
    (model, body)
}

/// The first of the full report, by any options.
fn agrees(model: &Model, body: u32) {
    for samples in [None, Some(0), Some(1), Some(3), Some(255)] {
        let report = model.check_body(body, samples).unwrap();
        assert_eq!(model.first_fault(body, samples), Ok(report.faults.first().copied()), "{samples:?}");
    }
}

#[test]
fn none_of_a_sound_stone() {
    let (model, body) = stone();
    assert_eq!(model.first_fault(body, Some(3)), Ok(None));
    assert_eq!(model.first_fault(body, None), Ok(None));
}

#[test]
fn the_first_of_the_report() {
    let (mut model, body) = stone();
    model.strike(List::FinsOfLoop, 4, 3).unwrap();
    agrees(&model, body);
    model.strike(List::FinsOfLoop, 0, 3).unwrap();
    agrees(&model, body);
    assert_eq!(model.check_body(body, None).unwrap().faults.len(), 2);
    let first = model.first_fault(body, None).unwrap().expect("a fault");
    assert_eq!((first.reason, first.kind), (18, 5));
    assert_eq!(
        model.describe(&first),
        "fin 2 does not end where the next fin of its loop starts (reason 18)"
    );
}

/// By the options: a fault of geometry is none of the topology's, and one of the samples is none without them.
#[test]
fn by_the_options() {
    let (mut model, body) = stone();
    let mut corner = model.vertex(7).unwrap();
    corner.point[2] += 0.01;
    model.set_vertex(7, corner).unwrap();
    agrees(&model, body);
    assert_eq!(model.first_fault(body, None), Ok(None));
    assert!(matches!(
        model.first_fault(body, Some(0)),
        Ok(Some(Fault {
            entity: Entity::Vertex(7),
            ..
        }))
    ));

    let (mut model, body) = stone();
    model
        .set_surface(
            0,
            Carrier::Plane {
                origin: [0.0, 0.0, 0.1],
                normal: [0.0, 0.0, -1.0],
            },
        )
        .unwrap();
    for id in 0..8 {
        let mut corner = model.vertex(id).unwrap();
        corner.tolerance = Some(1.0);
        model.set_vertex(id, corner).unwrap();
    }
    agrees(&model, body);
    assert_eq!(model.first_fault(body, Some(0)), Ok(None));
    assert!(matches!(model.first_fault(body, Some(1)), Ok(Some(Fault { reason: 24, .. }))));
}

/// What could not be checked is no fault, and does not stop the check.
#[test]
fn what_is_unchecked_is_not_told() {
    let (mut model, body) = stone();
    model.set_surface(0, Carrier::Other).unwrap();
    let report = model.check_body(body, Some(3)).unwrap();
    assert!(report.faults.is_empty() && report.unchecked > 0);
    assert_eq!(model.first_fault(body, Some(3)), Ok(None));
    model.strike(List::FinsOfLoop, 5, 3).unwrap();
    agrees(&model, body);
    assert!(matches!(model.first_fault(body, Some(3)), Ok(Some(Fault { reason: 18, .. }))));
}

#[test]
fn refused_as_the_report_is() {
    let (model, body) = stone();
    for missing in [body + 1, u32::MAX] {
        assert_eq!(model.first_fault(missing, Some(3)), Err(Refusal::NotFound));
    }
    let model = model.held_by(Office::Second);
    assert_eq!(model.first_fault(body, Some(3)), Err(Refusal::NotFound));
}
