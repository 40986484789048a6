//! Changes of a model that its volume minds: faces turned, lists that name an entry again, bodies that share their regions, points on the grid and beside it.

use models::plain::Plain;
use models::random::Random;

use crate::layout::LISTS;

/// Faces turned to their other side: all of them, or one.
pub fn turned(plain: &mut Plain, random: &mut Random) -> String {
    let one = random.below(plain.faces.len().max(1));
    let all = random.one_in(2);
    for (_, r) in plain
        .faces
        .iter_mut()
        .enumerate()
        .filter(|&(k, _)| all || k == one)
    {
        (r.front, r.back) = (r.back, r.front);
    }
    if all {
        "turned inside out".into()
    } else {
        format!("face {one} turned")
    }
}

/// A face, a shell or a region that a list has once more.
pub fn again(plain: &mut Plain, random: &mut Random) -> Option<String> {
    let table = random.below(3);
    let id = random.below(plain.used()[table].max(1));
    let list = match table {
        0 => &mut plain.bodies.get_mut(id)?.regions,
        1 => &mut plain.regions.get_mut(id)?.shells,
        _ => &mut plain.shells.get_mut(id)?.faces,
    };
    let entry = *list.get(random.below(list.len().max(1)))?;
    if list.len() == LISTS[table].2 {
        return None;
    }
    list.insert(random.below(list.len() + 1), entry);
    let name = ["body", "region", "shell"][table];
    Some(format!("{name} {id} lists {entry} again"))
}

/// Another body of the same regions: an equal.
pub fn equal(plain: &mut Plain, random: &mut Random) -> String {
    let body = random.below(plain.bodies.len());
    plain.bodies.push(plain.bodies[body].clone());
    format!(
        "body {} has the regions of body {body}",
        plain.bodies.len() - 1
    )
}

/// A whole number of sixteenths of a millimetre, at most 2,048 mm in size.
pub fn whole(random: &mut Random) -> f64 {
    let most = random.pick(&[4, 64, 1_000, 32_768, 32_768]);
    let n = random.below(2 * most + 1) as f64 - most as f64;
    match random.below(12) {
        0 => 2_048.0,
        1 => -2_048.0,
        2 => -0.0,
        _ => n / 16.0,
    }
}

/// A coordinate about the grid and its ends, on it or off it.
pub fn about(random: &mut Random) -> f64 {
    let on = whole(random);
    match random.below(4) {
        0 => random.pick(&[
            on.next_up(),
            on.next_down(),
            on + 1.0 / 32.0,
            on + 1.0 / 64.0,
        ]),
        1 => {
            let beyond = random.pick(&[
                2048.0625,
                2048.03125,
                2_048.0f64.next_up(),
                2_049.0,
                4_096.0,
            ]);
            random.pick(&[beyond, -beyond, 2_048.0f64.next_down(), -2047.9375])
        }
        2 => random.pick(&[
            f64::NAN,
            f64::INFINITY,
            f64::NEG_INFINITY,
            f64::MAX,
            1.0e300,
            5.0e-324,
        ]),
        _ => random.pick(&[
            0.0,
            -0.0,
            0.1,
            1.0 / 3.0,
            1.0 / 32.0,
            -1.0e-300,
            9_007_199_254_740_993.0,
        ]),
    }
}

/// The points moved onto the grid, all of them or all but one coordinate or two; at times they stay as they are.
pub fn gridded(plain: &mut Plain, random: &mut Random) -> String {
    let how = random.pick(&[
        "as made",
        "snapped",
        "snapped",
        "snapped",
        "scattered",
        "scattered",
        "far",
    ]);
    for x in plain.vertices.iter_mut().flat_map(|r| &mut r.point) {
        let near = (*x * 16.0).round() / 16.0;
        match how {
            "as made" => {}
            "snapped" if near.abs() <= 2_048.0 => *x = near,
            "far" => *x = (random.below(65_537) as f64 - 32_768.0) / 16.0,
            _ => *x = whole(random),
        }
    }
    let mut told = format!("points {how}");
    if !plain.vertices.is_empty() && random.one_in(3) {
        for _ in 0..random.pick(&[1, 1, 2]) {
            let (id, axis) = (random.below(plain.vertices.len()), random.below(3));
            let x = about(random);
            plain.vertices[id].point[axis] = x;
            told += &format!(", vertex {id}: {x:e} on axis {axis}");
        }
    }
    told
}
