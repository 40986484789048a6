//! A body from binary STL (W-210).

use brunskerl::{Entity, LARGEST, List, Model, Office, Refusal, Sense};

type Triangle = [[f32; 3]; 3];

/// Binary STL of these triangles; what its header, normals and attributes hold is not read.
fn file(triangles: &[Triangle]) -> Vec<u8> {
    let mut bytes = vec![b'x'; 80];
    bytes.extend(u32::try_from(triangles.len()).unwrap().to_le_bytes());
    for triangle in triangles {
        bytes.extend([0x7f; 12]);
        bytes.extend(triangle.iter().flatten().flat_map(|x| x.to_le_bytes()));
        bytes.extend([1, 2]);
    }
    bytes
}

fn empty() -> Model {
    Model::new(LARGEST, 0.001).expect("a model is made")
}

const FLAT: Triangle = [[0.0, 0.0, 0.0], [4.0, 0.0, 0.0], [0.0, 3.0, 0.0]];

/// The trial stone written and read: 12 faces, 18 edges, 8 vertices; nothing is found of it but that its faces have no surfaces, and the next is another stone.
#[test]
fn the_trial_stone() {
    let mut model = empty();
    let stone = model.insert_box([4.0, 3.0, 2.0]).unwrap();
    let written = model.stl(stone).unwrap();
    let mut model = empty();
    for k in 0..2 {
        let body = model.read_stl(&written).unwrap();
        assert_eq!(body, k);
        let first = 12 * k;
        assert_eq!(model.body_faces(body).unwrap(), (first..first + 12).collect::<Vec<_>>());
        assert_eq!(model.body_edges(body).unwrap().len(), 18);
        assert_eq!(model.body_vertices(body).unwrap().len(), 8);
        let faults = model.check_body(body, None).unwrap().faults;
        assert_eq!(faults.len(), 12);
        for (fault, face) in faults.iter().zip(first..) {
            assert_eq!((fault.reason, fault.entity), (9, Entity::Face(face)));
        }
    }
}

/// Records in the order met, a loop from its first corner, edges from the lower id to the higher, the first zero stored.
#[test]
fn two_triangles() {
    let mut model = empty();
    let body = model.read_stl(&file(&[FLAT, [[4.0, 3.0, 0.0], [-0.0, 3.0, 0.0], [4.0, 0.0, -0.0]]])).unwrap();
    let points: Vec<_> = model.body_vertices(body).unwrap().into_iter().map(|v| model.vertex(v).unwrap().point).collect();
    assert_eq!(points, [[0.0, 0.0, 0.0], [4.0, 0.0, 0.0], [0.0, 3.0, 0.0], [4.0, 3.0, 0.0]]);
    assert!(points[2][0].is_sign_positive());
    let ends: Vec<_> = (0..5).map(|e| model.edge(e).unwrap()).map(|e| (e.start, e.end)).collect();
    assert_eq!(ends, [(0, 1), (1, 2), (0, 2), (2, 3), (1, 3)].map(|(a, b)| (Some(a), Some(b))));
    assert_eq!(model.list(List::FinsOfEdge, 1).unwrap(), [1, 4]);
    assert_eq!([1, 4].map(|fin| model.fin(fin).unwrap().sense), [Sense::Positive, Sense::Negative]);
}

/// An edge that is used once is the checker's.
#[test]
fn open_edges() {
    let mut model = empty();
    let body = model.read_stl(&file(&[FLAT])).unwrap();
    let reasons: Vec<_> = model.check_body(body, None).unwrap().faults.iter().map(|fault| fault.reason).collect();
    assert_eq!(reasons, [9, 19, 19, 19]);
}

#[test]
fn refused() {
    let whole = file(&[FLAT]);
    let longer = [&whole[..], &[0]].concat();
    let infinite = file(&[FLAT, [[0.0, f32::INFINITY, 0.0], [0.0; 3], [0.0; 3]]]);
    let equal = file(&[FLAT, [[0.0; 3], [-0.0; 3], [1.0; 3]]]);
    let near = file(&[[[0.0; 3], [f32::from_bits(1); 3], [1.0; 3]]]);
    let nine = file(&[FLAT; 9]);
    let mut model = empty();
    for (bytes, answer) in [
        (&whole[..133], Err(Refusal::Unreadable)),
        (&longer, Err(Refusal::Unreadable)),
        (&whole[..80], Err(Refusal::Unreadable)),
        (&infinite, Err(Refusal::OffGrid)),
        (&equal, Err(Refusal::BadArgument)),
        (&nine, Err(Refusal::NoRoom)),
        (&near, Ok(0)),
        (&file(&[FLAT; 8]), Ok(1)),
        (&file(&[]), Ok(2)),
    ] {
        let before = model.save();
        assert_eq!(model.read_stl(bytes), answer);
        assert_eq!(model.save() == before, answer.is_err());
    }
}

/// The body is the office's.
#[test]
fn for_an_office() {
    let mut model = empty().held_by(Office::Second);
    let body = model.read_stl(&file(&[FLAT])).unwrap();
    assert_eq!(model.body_faces(body).unwrap(), [0]);
    let model = model.held_by(Office::First);
    assert_eq!(model.body_faces(body), Err(Refusal::NotFound));
}
