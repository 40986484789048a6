//! Random models, sound and damaged, as plain records and in the Rust's `Model`.

pub mod around;
pub mod damage;
pub mod offices;
pub mod original;
pub mod plain;
pub mod random;
pub mod shapes;

use gensolid_topo::Model;

use around::Own;
use original::Names;
use plain::Plain;
use random::Random;

/// A model, damaged, with what was done to it and edges near to that.
#[derive(Clone)]
pub struct Made {
    pub model: Model,
    pub plain: Plain,
    pub told: Vec<String>,
    pub near: Vec<usize>,
}

/// Which models are made.
#[derive(Clone, Copy, PartialEq)]
pub enum Sort {
    /// One body or two, of a size that the prover evaluates.
    Small,
    /// Up to five bodies, larger ones among them, with ids above every table, all of office 0 or all of office 1.
    Several,
}

/// The model of a number; none where the Rust makes no such line, plane or tolerance.
pub fn made(
    names: &Names,
    sort: Sort,
    seed: u64,
    number: u64,
    kept: Option<&[usize]>,
) -> Option<Made> {
    let mut random = Random::new(seed, number, 0);
    let (mut plain, shape) = match sort {
        Sort::Small => Plain::sound(&mut random),
        Sort::Several => Plain::several(&mut random),
    };
    let damages = random.pick(&[0, 1, 1, 2, 2, 3, 4]);
    let mut told = vec![shape];
    let mut near = Vec::new();
    for k in 0..damages {
        if kept.is_some_and(|kept| !kept.contains(&k)) {
            continue;
        }
        let mut random = Random::new(seed, number, k as u64 + 1);
        let (what, edge) = damage::damage(&mut plain, &mut random);
        told.push(format!("damage {k}, {what}"));
        near.extend(edge);
    }
    if sort == Sort::Several {
        damage::stray(&mut plain, &mut random);
        let office = Random::new(seed, number, 60).below(2) as u32;
        plain = plain.of(&[office; 5]);
    }
    let model = original::build(&mut plain, names).ok()?;
    let read = original::read(&model, names).of(&plain.offices());
    assert_eq!(read.numbers(), plain.numbers());
    Some(Made {
        model,
        plain,
        told,
        near,
    })
}

/// The model with a face that a shell no longer lists (`damage::unlist`), or as it is where it has no such face.
pub fn unlisted(made: Made, names: &Names, random: &mut Random) -> Made {
    let mut plain = made.plain.clone();
    let Some(what) = damage::unlist(&mut plain, random) else {
        return made;
    };
    let Ok(model) = original::build(&mut plain, names) else {
        return made;
    };
    let told = made.told.into_iter().chain([what]).collect();
    Made {
        model,
        plain,
        told,
        near: made.near,
    }
}

/// The model of the version that is asked about, with own tolerances on either side of the session's, and with planes and vertices moved to about the one or
/// the other (W-211); none where the Rust makes no such line or plane. What is told is what was done besides.
pub fn either(made: &Made, names: &Names, random: &mut Random) -> Option<Made> {
    let mut plain = made.plain.clone();
    plain.version = original::version();
    around::tolerances(&mut plain, random);
    let mut near = Vec::new();
    for _ in 0..random.pick(&[0, 1, 1, 2]) {
        near.extend(around::curve(&mut plain, random, Own::Either));
    }
    for _ in 0..random.pick(&[0, 1, 1, 2]) {
        near.extend(around::plane(&mut plain, random, Own::Either));
    }
    if near.is_empty() {
        near.clone_from(&made.near);
    }
    let model = original::build(&mut plain, names).ok()?;
    let told = vec![format!("version {}, own tolerances on either side of the session's", plain.version as u32)];
    Some(Made {
        model,
        plain,
        told,
        near,
    })
}

/// Near the ends, around the precision, and no fraction at all. The bounds are an answer's numbers.
pub fn fraction(random: &mut Random, precision: f64, bounds: &[u64]) -> f64 {
    let length = match bounds {
        [0, lo, hi] => f64::from_bits(*hi) - f64::from_bits(*lo),
        _ => 1.0,
    };
    let part = precision / length;
    let times = random.pick(&[0.9, 0.999, 1.0, 1.0 + 4.0 * f64::EPSILON, 1.001, 2.0]);
    match random.below(4) {
        0 => part * times,
        1 => 1.0 - part * times,
        2 => random.pick(&[1.0e-4, 1.0 - 1.0e-12, f64::MIN_POSITIVE, 1.0f64.next_down()]),
        _ => random.pick(&[0.0, -0.0, 1.0, -0.25, 1.5, f64::NAN, f64::INFINITY]),
    }
}
