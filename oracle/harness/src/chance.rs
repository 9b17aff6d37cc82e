//! A small generator for choosing inputs: the same seed gives the same records everywhere.

/// The generator SplitMix64.
pub struct Chance(u64);

impl Chance {
    pub fn new(seed: u64) -> Chance {
        Chance(seed)
    }

    pub fn word(&mut self) -> u64 {
        self.0 = self.0.wrapping_add(0x9E37_79B9_7F4A_7C15);
        let z = (self.0 ^ (self.0 >> 30)).wrapping_mul(0xBF58_476D_1CE4_E5B9);
        let z = (z ^ (z >> 27)).wrapping_mul(0x94D0_49BB_1331_11EB);
        z ^ (z >> 31)
    }

    /// A number below `total`, which is above 0. The slight bias does no harm here.
    pub fn below(&mut self, total: u64) -> u64 {
        ((u128::from(self.word()) * u128::from(total)) >> 64) as u64
    }

    pub fn index(&mut self, total: usize) -> usize {
        self.below(total as u64) as usize
    }

    pub fn one_in(&mut self, times: u64) -> bool {
        self.below(times) == 0
    }

    pub fn of<T: Copy>(&mut self, choices: &[T]) -> T {
        choices[self.index(choices.len())]
    }

    /// A number of any size: each count of bits is as likely as another.
    pub fn any_size(&mut self) -> u64 {
        let bits = self.below(65);
        if bits == 0 { 0 } else { self.word() >> (64 - bits) }
    }

    /// A number close to another.
    pub fn near(&mut self, number: u64) -> u64 {
        number.wrapping_add(self.below(5)).wrapping_sub(2)
    }

    /// A float of any bit pattern, or one at an edge.
    pub fn float(&mut self) -> f64 {
        match self.below(4) {
            0 => f64::from_bits(self.word()),
            1 => self.of(&EDGES),
            2 => self.unit(),
            _ => (self.unit() - 0.5) * self.of(&[4.0, 256.0, 1e6]),
        }
    }

    /// A number that is at least 0 and below 1.
    pub fn unit(&mut self) -> f64 {
        (self.word() >> 11) as f64 / 9_007_199_254_740_992.0
    }

    /// A float a few steps beside another.
    pub fn beside(&mut self, float: f64) -> f64 {
        f64::from_bits(self.near(float.to_bits()))
    }
}

/// Floats at which something changes.
pub const EDGES: [f64; 20] = [
    0.0,
    -0.0,
    1.0,
    -1.0,
    0.5,
    2.0,
    10.0,
    f64::EPSILON,
    f64::EPSILON / 2.0,
    f64::EPSILON / 4.0,
    f64::MIN_POSITIVE,
    5e-324,
    -5e-324,
    f64::MAX,
    f64::MIN,
    f64::INFINITY,
    f64::NEG_INFINITY,
    f64::NAN,
    1.0 - f64::EPSILON / 2.0,
    1.0 + f64::EPSILON,
];
