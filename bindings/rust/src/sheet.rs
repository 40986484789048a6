//! The stone sheet in whole numbers.

/// A running sheet of stones, which [`Model::take`](crate::Model::take) updates where it stands. It is handed from body to body, also of other models.
///
/// A stone's number is six times its volume in cubic sixteenths of a millimetre: 24,576 to a cubic millimetre.
#[derive(Clone, Copy, Debug, Default, PartialEq, Eq)]
pub struct Sheet([u64; 5]);

/// A stone on a sheet: its body in the model that it was taken from, and its number, negative where it is inside out.
#[derive(Clone, Copy, Debug, PartialEq, Eq)]
pub struct Stone {
    pub body: u32,
    pub number: i64,
}

impl Sheet {
    /// A sheet without stones.
    pub fn new() -> Self {
        Self::default()
    }

    /// How many stones were taken in, at most 65,536.
    pub fn stones(&self) -> u64 {
        self.0[0]
    }

    /// The exact sum of the stones' numbers.
    pub fn total(&self) -> i128 {
        let [_, low, high, ..] = self.0;
        i128::from(high.cast_signed()) << 64 | i128::from(low)
    }

    /// The largest stone so far, among equals the first that was taken in; none at first.
    pub fn largest(&self) -> Option<Stone> {
        let [stones, _, _, body, number] = self.0;
        (stones > 0).then_some(Stone {
            // The id is one that the station was given.
            body: body as u32,
            number: number.cast_signed(),
        })
    }

    /// The five words, as the station has them.
    pub(crate) fn words(&mut self) -> *mut [u64; 5] {
        &mut self.0
    }
}

#[cfg(test)]
mod tests {
    use super::*;
    use crate::{LARGEST, Model, Refusal};

    /// Two words are one number, and words behind a sheet without stones say nothing.
    #[test]
    fn words() {
        assert_eq!(Sheet([3, u64::MAX, u64::MAX, 0, 0]).total(), -1);
        assert_eq!(Sheet([3, 1, 1, 0, 0]).total(), (1 << 64) + 1);
        assert_eq!(Sheet([3, 5, 1 << 63, 0, 0]).total(), i128::MIN + 5);
        assert_eq!(Sheet([0, 0, 0, 7, 8]).largest(), None);
        let largest = Stone { body: 7, number: -2 };
        assert_eq!(Sheet([1, 0, 0, 7, u64::MAX - 1]).largest(), Some(largest));
    }

    /// A full sheet has no room, one that is more than full cannot be read, nor one whose total is too large for its stones. Each stays as it was.
    #[test]
    fn ends() {
        let mut model = Model::new(LARGEST, 0.001).unwrap();
        let body = model.insert_box([4.0, 3.0, 2.0]).unwrap();
        let most = 3u64 << 60;
        for (words, answer) in [
            ([65_535, 0, 0, 9, 9], Ok(())),
            ([65_536, 0, 0, 9, 9], Err(Refusal::NoRoom)),
            ([65_537, 0, 0, 9, 9], Err(Refusal::Unreadable)),
            ([1, most, 0, 9, 9], Ok(())),
            ([1, most + 1, 0, 9, 9], Err(Refusal::Unreadable)),
            ([1, most.wrapping_neg(), u64::MAX, 9, 9], Ok(())),
            ([1, most.wrapping_neg() - 1, u64::MAX, 9, 9], Err(Refusal::Unreadable)),
            ([0, 0, 0, 9, 1 << 62], Ok(())),
            ([0, 1, 0, 0, 0], Err(Refusal::Unreadable)),
            // The low word goes over into the high one.
            ([6, u64::MAX, 0, 9, 9], Ok(())),
            ([1, u64::MAX, u64::MAX, 9, 9], Ok(())),
        ] {
            let mut sheet = Sheet(words);
            assert_eq!(model.take(body, &mut sheet), answer, "{words:?}");
            if answer.is_err() {
                assert_eq!(sheet, Sheet(words));
                continue;
            }
            assert_eq!(sheet.stones(), words[0] + 1);
            assert_eq!(sheet.total(), Sheet(words).total() + 589_824);
            assert_eq!(sheet.largest(), Some(Stone { body, number: 589_824 }));
        }
    }
}
