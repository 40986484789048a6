//! W-201: stones on a running sheet, in whole numbers.

use brunskerl::{BodyKind, LARGEST, List, Model, Office, Refusal, Sheet, Stone};

/// Six times 24 mm³ in cubic sixteenths.
const TRIAL: i64 = 589_824;

/// The trial stone and its body.
fn stone() -> (Model, u32) {
    let mut model = Model::new(LARGEST, 0.001).unwrap();
    let body = model.insert_box([4.0, 3.0, 2.0]).unwrap();
    (model, body)
}

/// The number of a body, alone on a sheet.
fn number(model: &Model, body: u32) -> Result<i128, Refusal> {
    let mut sheet = Sheet::new();
    model.take(body, &mut sheet).map(|()| sheet.total())
}

/// The model with a coordinate of a corner in its place.
fn moved(model: &Model, corner: u32, axis: usize, to: f64) -> Model {
    let mut model = model.clone();
    let mut vertex = model.vertex(corner).unwrap();
    vertex.point[axis] = to;
    model.set_vertex(corner, vertex).unwrap();
    model
}

#[test]
fn the_trial_stone() {
    let (mut model, body) = stone();
    let mut sheet = Sheet::new();
    assert_eq!((sheet.stones(), sheet.total(), sheet.largest()), (0, 0, None));
    model.take(body, &mut sheet).unwrap();
    let largest = Some(Stone { body, number: TRIAL });
    assert_eq!((sheet.stones(), sheet.total(), sheet.largest()), (1, 589_824, largest));
    model.take(body, &mut sheet).unwrap();
    assert_eq!((sheet.stones(), sheet.total(), sheet.largest()), (2, 2 * 589_824, largest));
    // A split leaves the number, where its vertex is on the grid.
    model.split_line_edge(0, 0.25).unwrap();
    assert_eq!(number(&model, body), Ok(589_824));
    model.split_line_edge(1, 1.0 / 3.0).unwrap();
    assert_eq!(number(&model, body), Err(Refusal::OffGrid));
}

#[test]
fn a_refused_stone_leaves_the_sheet() {
    let (mut model, body) = stone();
    let wire = model.insert_body(BodyKind::Wire).unwrap();
    let mut sheet = Sheet::new();
    model.take(body, &mut sheet).unwrap();
    let before = sheet;
    assert_eq!(model.take(wire, &mut sheet), Err(Refusal::NotSolid));
    assert_eq!(model.take(9, &mut sheet), Err(Refusal::NotFound));
    assert_eq!(moved(&model, 7, 2, 2.03).take(body, &mut sheet), Err(Refusal::OffGrid));
    // To the other office the body is missing.
    let model = model.held_by(Office::Second);
    assert_eq!(model.take(body, &mut sheet), Err(Refusal::NotFound));
    assert_eq!(sheet, before);
}

/// Whole sixteenths, at most 2,048 mm in size, of the corners of faces alone; both zeros are 0.
#[test]
fn the_grid() {
    let (mut model, body) = stone();
    for x in [2_048.0, -2_048.0, 0.0625, 2047.9375, -0.0] {
        assert!(number(&moved(&model, 7, 0, x), body).is_ok(), "{x}");
    }
    for x in [2048.0625, -2048.0625, 0.03125, 0.1, f64::NAN, f64::INFINITY, 1.0e300, 5.0e-324] {
        assert_eq!(number(&moved(&model, 7, 0, x), body), Err(Refusal::OffGrid), "{x}");
    }
    assert_eq!(number(&moved(&model, 0, 0, -0.0), body), Ok(589_824));
    // A corner that is in no face.
    let mut off = model.vertex(0).unwrap();
    off.point = [0.1, f64::NAN, 9_000.0];
    let id = model.insert_vertex(off).unwrap();
    model.append(List::AcornVerticesOfShell, 0, id).unwrap();
    assert_eq!(number(&model, body), Ok(589_824));
}

/// The order makes no difference to the total; of equals the first met is the largest, and a stone inside out is below every other.
#[test]
fn the_order() {
    let (mut model, first) = stone();
    let second = model.insert_box([2.0, 3.0, 4.0]).unwrap();
    let small = model.insert_box([1.0, 0.5, 0.0625]).unwrap();
    let turned = model.insert_box([8.0, 8.0, 8.0]).unwrap();
    for id in model.body_faces(turned).unwrap() {
        let mut face = model.face(id).unwrap();
        (face.front, face.back) = (face.back, face.front);
        model.set_face(id, face).unwrap();
    }
    let taken = |bodies: &[u32]| {
        let mut sheet = Sheet::new();
        for &body in bodies {
            model.take(body, &mut sheet).unwrap();
        }
        sheet
    };
    let largest = |bodies: &[u32]| taken(bodies).largest().map(|stone| (stone.body, stone.number));
    assert_eq!(number(&model, small), Ok(768));
    assert_eq!(number(&model, turned), Ok(-512 * 24_576));
    let [one, other] = [[first, second, small, turned], [turned, small, second, first]];
    assert_eq!(taken(&one).total(), 2 * 589_824 + 768 - 512 * 24_576);
    assert_eq!(taken(&one).total(), taken(&other).total());
    assert_eq!(largest(&one), Some((first, TRIAL)));
    assert_eq!(largest(&other), Some((second, TRIAL)));
    assert_eq!(largest(&[turned]), Some((turned, -512 * 24_576)));
    assert_eq!(largest(&[turned, small]), Some((small, 768)));
}

/// A face that a shell lists again counts again; of a box each is two triangles, and a loop may go over its fins again.
#[test]
fn triangles() {
    let (mut model, body) = stone();
    let face = model.body_faces(body).unwrap()[1];
    let shell = model.face(face).unwrap().back.unwrap();
    model.append(List::FacesOfShell, shell, face).unwrap();
    // The face at z = 2 and the origin: a third of 24 mm³.
    assert_eq!(number(&model, body), Ok(589_824 + 196_608));
    // 14 triangles so far, 1,020 more for each loop of 1,024 fins.
    for id in [0, 2, 3, 4] {
        let fins = model.list(List::FinsOfLoop, id).unwrap();
        for k in 0..1_020 {
            model.append(List::FinsOfLoop, id, fins[k % 4]).unwrap();
        }
    }
    assert_eq!(model.append(List::FinsOfLoop, 0, 0), Err(Refusal::NoRoom));
    let fins = model.list(List::FinsOfLoop, 5).unwrap();
    model.append(List::FinsOfLoop, 5, fins[0]).unwrap();
    model.append(List::FinsOfLoop, 5, fins[1]).unwrap();
    // 4,096 of them, and one more.
    assert!(number(&model, body).is_ok());
    model.append(List::FinsOfLoop, 5, fins[2]).unwrap();
    assert_eq!(number(&model, body), Err(Refusal::NoRoom));
}
