//! Back pointers mended from the lists (W-208), each change told.

use brunskerl::{BodyKind, Change, Edge, Entity, LARGEST, List, Model, Office, Refusal, Region};

fn stone() -> (Model, u32) {
    let mut model = Model::new(LARGEST, 0.001).expect("a model is made");
    let body = model.insert_box([4.0, 3.0, 2.0]).expect("there is room");
    (model, body)
}

fn reason(model: &Model, body: u32) -> Option<u32> {
    model.first_fault(body, None).unwrap().map(|fault| fault.reason)
}

/// Makes a fin name a loop.
fn owned_by(model: &mut Model, fin: u32, owner: u32) {
    let mut record = model.fin(fin).unwrap();
    record.owner = owner;
    model.set_fin(fin, record).unwrap();
}

#[test]
fn a_sound_stone_has_nothing_to_mend() {
    let (mut model, body) = stone();
    let image = model.save();
    assert_eq!(model.mend_changes(body), Ok(vec![]));
    assert_eq!(model.mend(body), Ok(vec![]));
    assert_eq!(model.save(), image);
}

/// Every kind of pointer upward, wrong at once: told in the order of the walk, and the stone is what it was.
#[test]
fn a_damaged_stone_is_mended() {
    let (mut model, body) = stone();
    let image = model.save();
    model.set_region(1, Region { body: 9, solid: true }).unwrap();
    model.set_shell(0, 1).unwrap();
    model.set_loop(2, u32::MAX).unwrap();
    owned_by(&mut model, 0, 5);
    let edge = model.fin(23).unwrap().edge;
    assert_eq!(model.list(List::FinsOfEdge, edge), Ok(vec![9, 23]));
    model.strike(List::FinsOfEdge, edge, 1).unwrap();
    assert_eq!(reason(&model, body), Some(6));

    let damaged = model.save();
    let changes = vec![
        parent(Entity::Shell(0), 1, 0),
        parent(Entity::Fin(0), 5, 0),
        parent(Entity::Loop(2), u32::MAX, 2),
        Change::Fin { edge, place: 1, fin: 23 },
        parent(Entity::Region(1), 9, body),
    ];
    assert_eq!(model.mend_changes(body), Ok(changes.clone()));
    assert_eq!(model.save(), damaged, "told alone");
    assert_eq!(model.mend(body), Ok(changes));
    assert_eq!(model.save(), image);
    assert_eq!(reason(&model, body), None);
    assert_eq!(model.mend(body), Ok(vec![]), "a second run");
}

fn parent(record: Entity, old: u32, new: u32) -> Change {
    Change::Parent { record, old, new }
}

/// All fins of an edge are missing from its list: they are added in the order of the walk, behind what it lists.
#[test]
fn fins_are_added_at_the_end() {
    let (mut model, body) = stone();
    for edge in 0..12 {
        for _ in 0..2 {
            model.strike(List::FinsOfEdge, edge, 0).unwrap();
        }
    }
    let changes = model.mend(body).unwrap();
    assert_eq!(changes.len(), 24);
    assert_eq!(changes[0].to_string(), "edge 4 lists fin 0");
    for edge in 0..12 {
        assert_eq!(model.list(List::FinsOfEdge, edge).unwrap().len(), 2);
    }
    assert_eq!(model.fit_to_saw(body), Ok(true));
}

#[test]
fn changes_in_words() {
    let (mut model, body) = stone();
    model.set_region(0, Region { body: 7, solid: false }).unwrap();
    model.set_shell(1, 0).unwrap();
    model.set_loop(0, 4).unwrap();
    owned_by(&mut model, 23, 0);
    let words: Vec<String> = model.mend(body).unwrap().iter().map(Change::to_string).collect();
    assert_eq!(
        words,
        [
            "region 0 is of body 0, not of body 7",
            "loop 0 is of face 0, not of face 4",
            "fin 23 is of loop 5, not of loop 0",
            "shell 1 is of region 1, not of region 0",
        ]
    );
}

/// Two parents anywhere: in the body, in another's body, in a record that no body reaches, and twice in one list. A face may have two.
#[test]
fn two_parents_are_refused() {
    let (sound, body) = stone();
    let mut twice = Vec::new();
    for (list, by, id) in [
        (List::RegionsOfBody, body, 1),
        (List::ShellsOfRegion, 1, 0),
        (List::LoopsOfFace, 5, 2),
        (List::FinsOfLoop, 0, 3),
    ] {
        let mut model = sound.clone();
        model.append(list, by, id).unwrap();
        twice.push(model);
    }
    let mut model = sound.clone().held_by(Office::Second);
    let other = model.insert_body(BodyKind::Solid).unwrap();
    model.append(List::RegionsOfBody, other, 0).unwrap();
    twice.push(model.held_by(Office::First));
    let mut model = sound.clone();
    let loose = model.insert_loop(0).unwrap();
    model.append(List::FinsOfLoop, loose, 3).unwrap();
    twice.push(model);
    for mut model in twice {
        owned_by(&mut model, 0, 5);
        let image = model.save();
        assert_eq!(model.mend_changes(body), Err(Refusal::BadArgument));
        assert_eq!(model.mend(body), Err(Refusal::BadArgument));
        assert_eq!(model.save(), image);
    }
}

/// What is missing comes before two parents, and these before an edge with no room.
#[test]
fn refused_in_order() {
    let (mut model, body) = stone();
    let edge = model
        .insert_edge(Edge {
            start: None,
            end: None,
            curve: None,
            tolerance: None,
        })
        .unwrap();
    let mut fin = model.fin(0).unwrap();
    fin.edge = edge;
    model.set_fin(0, fin).unwrap();
    for _ in 0..8 {
        model.append(List::FinsOfEdge, edge, 1).unwrap();
    }
    assert_eq!(model.mend(body), Err(Refusal::NoRoom));
    model.append(List::LoopsOfFace, 0, 1).unwrap();
    assert_eq!(model.mend(body), Err(Refusal::BadArgument));
    model.append(List::FinsOfLoop, 5, 24).unwrap();
    assert_eq!(model.mend(body), Err(Refusal::NotFound));
    assert_eq!(model.mend_changes(body), Err(Refusal::NotFound));
}

/// A missing body, and the other office's, which is missing too.
#[test]
fn a_missing_body_is_refused() {
    let (mut model, body) = stone();
    for missing in [body + 1, u32::MAX] {
        assert_eq!(model.mend(missing), Err(Refusal::NotFound));
    }
    owned_by(&mut model, 0, 5);
    let mut model = model.held_by(Office::Second);
    assert_eq!(model.mend_changes(body), Err(Refusal::NotFound));
    assert_eq!(model.mend(body), Err(Refusal::NotFound));
    let mut model = model.held_by(Office::First);
    assert_eq!(model.mend(body).map(|changes| changes.len()), Ok(1));
}
