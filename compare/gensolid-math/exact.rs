//! W-205: "A sum or difference of finite bounds that is exact shall stay; any other moves." The published `Interval` with that rule for its sum and
//! its difference; all else is the published one's. `published` asks the Rust as it is.

use std::cell::Cell;
use std::ops::{Add, Mul, Neg, Sub};

use crate::Sign;
use crate::published::Interval as Published;

thread_local! {
    static MOVES_ALL: Cell<bool> = const { Cell::new(false) };
}

/// What is asked, by the published rule: every sum moves.
pub fn published<T>(ask: impl FnOnce() -> T) -> T {
    let before = MOVES_ALL.replace(true);
    let answer = ask();
    MOVES_ALL.set(before);
    answer
}

#[derive(Clone, Copy, Debug, PartialEq)]
pub struct Interval(Published);

/// A finite float as an odd whole number and the power of two that it counts; zero as 0.
fn parts(x: f64) -> (i128, i32) {
    let bits = x.to_bits();
    let (field, rest) = ((bits >> 52 & 0x7ff) as i32, (bits & ((1 << 52) - 1)) as i128);
    let (size, power) = if field == 0 { (rest, -1074) } else { (rest | 1 << 52, field - 1075) };
    if size == 0 {
        return (0, 0);
    }
    let shift = size.trailing_zeros() as i32;
    let odd = size >> shift;
    (if x < 0.0 { -odd } else { odd }, power + shift)
}

/// Whether the exact sum of two finite floats is a finite float.
fn exact(a: f64, b: f64) -> bool {
    if !a.is_finite() || !b.is_finite() {
        return false;
    }
    let ((m, e), (n, f)) = (parts(a), parts(b));
    if m == 0 || n == 0 {
        return true;
    }
    let (low, high) = (e.min(f), e.max(f));
    // The sum's last one stands at the lower power, its first at the higher or next to it.
    if high - low > 60 {
        return false;
    }
    let sum = (m << (e - low)) + (n << (f - low));
    if sum == 0 {
        return true;
    }
    let shift = sum.trailing_zeros() as i32;
    let digits = 128 - (sum.unsigned_abs() >> shift).leading_zeros() as i32;
    digits <= 53 && low + shift + digits <= 1024
}

/// Both bounds, each kept where the sum under it is exact.
fn judged(lo: (f64, f64), hi: (f64, f64), moved: Published) -> Interval {
    // A not-a-number bound gives the whole line, whatever the other is.
    if MOVES_ALL.get() || (lo.0 + lo.1).is_nan() || (hi.0 + hi.1).is_nan() {
        return Interval(moved);
    }
    let lo = if exact(lo.0, lo.1) { lo.0 + lo.1 } else { moved.lo() };
    let hi = if exact(hi.0, hi.1) { hi.0 + hi.1 } else { moved.hi() };
    Interval(Published::new(lo, hi).expect("a kept bound lies within the moved one"))
}

impl Interval {
    pub const ENTIRE: Self = Self(Published::ENTIRE);

    pub fn new(lo: f64, hi: f64) -> Option<Self> {
        Published::new(lo, hi).map(Self)
    }

    pub fn point(value: f64) -> Self {
        Self(Published::point(value))
    }

    pub const fn lo(self) -> f64 {
        self.0.lo()
    }

    pub const fn hi(self) -> f64 {
        self.0.hi()
    }

    pub fn contains(self, value: f64) -> bool {
        self.0.contains(value)
    }

    pub fn sign(self) -> Option<Sign> {
        self.0.sign()
    }

    pub fn sqr(self) -> Self {
        Self(self.0.sqr())
    }
}

impl Add for Interval {
    type Output = Self;
    fn add(self, o: Self) -> Self {
        judged((self.lo(), o.lo()), (self.hi(), o.hi()), self.0 + o.0)
    }
}

impl Sub for Interval {
    type Output = Self;
    fn sub(self, o: Self) -> Self {
        judged((self.lo(), -o.hi()), (self.hi(), -o.lo()), self.0 - o.0)
    }
}

impl Mul for Interval {
    type Output = Self;
    fn mul(self, o: Self) -> Self {
        Self(self.0 * o.0)
    }
}

impl Neg for Interval {
    type Output = Self;
    fn neg(self) -> Self {
        Self(-self.0)
    }
}
