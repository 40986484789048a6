//! Seeded floats, so that a row can be met again.

/// SplitMix64.
#[derive(Clone)]
pub struct Random(u64);

/// Where the floats of one row come from. Most rows keep to one style: with twelve operands of
/// independent kinds, nearly every answer would be a NaN or an infinity.
#[derive(Clone, Copy)]
pub enum Style {
    /// Small whole numbers and eighths of them: sums and products that are exact, and cancel.
    Whole,
    /// Up to 2^40 in size.
    Moderate,
    /// Any bit pattern.
    Bits,
    /// Zeros, the ends of the subnormal and the normal numbers, neighbours of powers of two,
    /// infinities, NaN.
    Special,
    /// Squares that overflow.
    Huge,
    /// Squares that underflow.
    Tiny,
    /// Each float of a style of its own.
    Mixed,
}

const SPECIALS: [f64; 14] = [
    0.0,
    0.0,
    f64::from_bits(1),
    f64::from_bits(2),
    f64::from_bits(0x000f_ffff_ffff_ffff),
    f64::MIN_POSITIVE,
    0.5,
    1.0,
    1.0,
    2.0,
    1099511627776.0,
    f64::MAX,
    f64::INFINITY,
    f64::NAN,
];

impl Random {
    pub fn new(seed: u64) -> Self {
        Self(seed)
    }

    pub fn bits(&mut self) -> u64 {
        self.0 = self.0.wrapping_add(0x9e37_79b9_7f4a_7c15);
        let z = (self.0 ^ (self.0 >> 30)).wrapping_mul(0xbf58_476d_1ce4_e5b9);
        let z = (z ^ (z >> 27)).wrapping_mul(0x94d0_49bb_1331_11eb);
        z ^ (z >> 31)
    }

    pub fn below(&mut self, n: u64) -> u64 {
        self.bits() % n
    }

    pub fn one_in(&mut self, n: u64) -> bool {
        self.below(n) == 0
    }

    pub fn pick<T: Copy>(&mut self, from: &[T]) -> T {
        from[self.below(from.len() as u64) as usize]
    }

    pub fn style(&mut self) -> Style {
        match self.below(16) {
            0..3 => Style::Whole,
            3..7 => Style::Moderate,
            7 | 8 => Style::Bits,
            9 | 10 => Style::Special,
            11 => Style::Huge,
            12 => Style::Tiny,
            _ => Style::Mixed,
        }
    }

    /// A style of finite numbers whose squares are normal, so that a few ulps decide a sign.
    pub fn plain_style(&mut self) -> Style {
        self.pick(&[Style::Whole, Style::Moderate])
    }

    pub fn float(&mut self, style: Style) -> f64 {
        match style {
            Style::Whole => {
                let whole = self.below(33) as f64 - 16.0;
                whole / self.pick(&[1.0, 1.0, 1.0, 8.0])
            }
            Style::Moderate => self.sized(-40, 39),
            Style::Bits => f64::from_bits(self.bits()),
            Style::Special => self.special(),
            Style::Huge if self.one_in(2) => self.sized(1021, 1023),
            Style::Huge => self.sized(500, 1023),
            Style::Tiny if self.one_in(2) => {
                let size = f64::from_bits(self.bits() >> self.pick(&[12, 32, 60]));
                self.signed(size)
            }
            Style::Tiny => self.sized(-1022, -500),
            Style::Mixed => {
                let style = self.pick(&[
                    Style::Whole,
                    Style::Moderate,
                    Style::Bits,
                    Style::Special,
                    Style::Huge,
                    Style::Tiny,
                ]);
                self.float(style)
            }
        }
    }

    pub fn finite(&mut self, style: Style) -> f64 {
        loop {
            let x = self.float(style);
            if x.is_finite() {
                return x;
            }
        }
    }

    /// Equal to `a`, its opposite, or some floats beside one of the two.
    pub fn near(&mut self, a: f64) -> f64 {
        let moved = match self.below(3) {
            0 => a,
            _ => self.moved(a),
        };
        if self.one_in(4) { -moved } else { moved }
    }

    /// At most twelve floats from `a`, up or down.
    pub fn moved(&mut self, a: f64) -> f64 {
        let up = self.one_in(2);
        let steps = self.below(13);
        (0..steps).fold(a, |x, _| if up { x.next_up() } else { x.next_down() })
    }

    fn special(&mut self) -> f64 {
        let size = if self.one_in(3) {
            let power = (1 + self.below(2046)) << 52;
            f64::from_bits(self.pick(&[power - 1, power, power + 1]))
        } else {
            self.pick(&SPECIALS)
        };
        self.signed(size)
    }

    /// A normal number whose exponent lies between the two.
    fn sized(&mut self, least: i64, greatest: i64) -> f64 {
        let exponent = least + self.below((greatest - least + 1) as u64) as i64;
        let size = f64::from_bits((((exponent + 1023) as u64) << 52) | (self.bits() >> 12));
        self.signed(size)
    }

    fn signed(&mut self, size: f64) -> f64 {
        if self.one_in(2) { -size } else { size }
    }
}
