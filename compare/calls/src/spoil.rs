//! Memory that the Rust has no likeness of: capacities, counts, versions, tags, lengths and floats of any sort.
//! What is expected of it is 01's rule and W-211's alone.

use models::random::Random;

use crate::layout::{LARGEST, LISTS, Lent, VERSION};

/// Changes the memory in one place or two, so that it is mostly unreadable.
pub fn spoil(lent: &mut Lent, random: &mut Random) -> &'static str {
    let k = random.below(10);
    let used = lent.words[k] as usize;
    let record = (used > 0).then(|| random.below(used));
    match (random.below(9), record) {
        (0, _) => {
            lent.room[k] = random.pick(&[LARGEST[k] + 1, usize::MAX, 1 << 40]);
            "a capacity above the largest"
        }
        (1, _) => {
            lent.words[k] = lent.room[k] as u32 + random.pick(&[1, 1, 7]);
            "a count above its capacity"
        }
        (2, _) => {
            let n = lent.words.len();
            lent.words
                .truncate(random.pick(&[0, 9, 10, 11, n.saturating_sub(1), n / 2]));
            "words cut short"
        }
        (3, _) => {
            let n = lent.reals.len();
            lent.reals.truncate(random.pick(&[0, n - 1, n / 2]));
            "floats cut short"
        }
        (4, _) => {
            lent.reals[0] = random.pick(&[
                0.0,
                -0.0,
                -1.0,
                f64::NAN,
                f64::INFINITY,
                f64::NEG_INFINITY,
                f64::MIN_POSITIVE,
                5.0e-324,
            ]);
            "another precision"
        }
        (8, _) => {
            lent.words[VERSION] = random.pick(&[0, 0, 1, 2, 3, 3, 258, 1 << 31, u32::MAX]);
            "another version"
        }
        (5, Some(i)) => {
            let lists: Vec<_> = LISTS.iter().filter(|list| list.0 == k).collect();
            if let Some(&&(_, place, limit, _)) = lists.get(random.below(lists.len().max(1))) {
                let at = lent.word_at(k, i) + place;
                lent.words[at] = limit as u32 + random.pick(&[0, 1, 1, 1 << 16]);
                "a list at its limit or above it"
            } else {
                "nothing"
            }
        }
        (6, Some(i)) if k >= 6 => {
            let at = lent.real_at(k, i) + if k == 7 { 3 } else { 0 };
            lent.reals[at] =
                random.pick(&[-0.0, -1.0, f64::NAN, f64::INFINITY, 5.0e-324, -5.0e-324]);
            if random.one_in(2) {
                let tag = lent.word_at(k, i) + if k == 6 { 6 } else { 0 };
                lent.words[tag] = 1;
            }
            "a float of a record"
        }
        (_, Some(i)) => {
            // Any of the first words of a record: its tags stand there, and ids, of which nothing is asked.
            let place = random.below([2, 2, 1, 7, 1, 4, 7, 1, 1, 1][k]);
            let at = lent.word_at(k, i) + place;
            lent.words[at] = random.pick(&[0, 1, 2, 3, 4, 5, 6, u32::MAX]);
            "a field of a record"
        }
        _ => "nothing",
    }
}
