//! A body as binary STL (W-209).

use brunskerl::{LARGEST, Model, Office, Refusal};

fn stone() -> (Model, u32) {
    let mut model = Model::new(LARGEST, 0.001).expect("a model is made");
    let body = model.insert_box([4.0, 3.0, 2.0]).expect("there is room");
    (model, body)
}

/// The three corners of each triangle.
fn corners(file: &[u8]) -> Vec<[[f32; 3]; 3]> {
    let number = |at: usize| f32::from_le_bytes(file[at..at + 4].try_into().unwrap());
    let triangles = (84..file.len()).step_by(50);
    triangles
        .map(|at| [0, 1, 2].map(|k| [0, 1, 2].map(|axis| number(at + 12 + 12 * k + 4 * axis))))
        .collect()
}

#[test]
fn the_trial_stone() {
    let (model, body) = stone();
    let file = model.stl(body).unwrap();
    assert_eq!(file.len(), 684);
    assert_eq!(file[..80], [0; 80]);
    assert_eq!(file[80..84], [12, 0, 0, 0]);
    for triangle in file[84..].chunks(50) {
        assert_eq!((&triangle[..12], &triangle[48..]), (&[0; 12][..], &[0; 2][..]));
    }
    // Six times the volume between the origin and each triangle: outward, they add to six times 24.
    let cones = corners(&file).into_iter().map(|[a, b, c]| {
        a[0] * (b[1] * c[2] - b[2] * c[1]) + a[1] * (b[2] * c[0] - b[0] * c[2]) + a[2] * (b[0] * c[1] - b[1] * c[0])
    });
    assert_eq!(cones.sum::<f32>(), 144.0);
}

/// A coordinate that binary32 does not hold, and those at its ends.
#[test]
fn coordinates() {
    let (mut model, body) = stone();
    let mut corner = model.vertex(7).unwrap();
    for (x, answer) in [
        (0.1, Err(Refusal::OffGrid)),
        (f64::from(f32::MAX), Ok(684)),
        (f64::from(f32::MAX).next_up(), Err(Refusal::OffGrid)),
        (-0.0, Ok(684)),
        (f64::from(f32::from_bits(1)), Ok(684)),
        (f64::from(f32::from_bits(1)) / 2.0, Err(Refusal::OffGrid)),
        (f64::INFINITY, Err(Refusal::OffGrid)),
        (f64::NAN, Err(Refusal::OffGrid)),
    ] {
        corner.point[0] = x;
        model.set_vertex(7, corner).unwrap();
        assert_eq!(model.stl(body).map(|file| file.len()), answer, "{x:e}");
    }
}

#[test]
fn refused_as_the_volume() {
    let (model, body) = stone();
    assert_eq!(model.stl(body + 1), Err(Refusal::NotFound));
    let model = model.held_by(Office::Second);
    assert_eq!(model.stl(body), Err(Refusal::NotFound));
}
