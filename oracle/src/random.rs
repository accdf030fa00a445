//! Seeded numbers, the same for a seed on any machine.

use crate::words::{bits, Number, SPECIAL};

/// The generator splitmix64.
pub struct Random {
    state: u64,
}

impl Random {
    #[must_use]
    pub const fn new(seed: u64) -> Self {
        Self { state: seed }
    }

    /// The next 64 bits.
    pub fn bits64(&mut self) -> u64 {
        self.state = self.state.wrapping_add(0x9e37_79b9_7f4a_7c15);
        let mut z = self.state;
        z = (z ^ (z >> 30)).wrapping_mul(0xbf58_476d_1ce4_e5b9);
        z = (z ^ (z >> 27)).wrapping_mul(0x94d0_49bb_1331_11eb);
        z ^ (z >> 31)
    }

    /// A number below `end`, which is small.
    pub fn below(&mut self, end: u64) -> u64 {
        (self.bits64() >> 32) % end
    }

    /// True once in `n` times.
    pub fn once_in(&mut self, n: u64) -> bool {
        self.below(n) == 0
    }

    /// A float of any kind: any bits, a special value, or a tame one.
    pub fn wild(&mut self) -> f64 {
        match self.below(6) {
            0 => self.any(),
            1 => self.special(),
            _ => self.tame(),
        }
    }

    /// A float whose arithmetic stays far from the ends of the range.
    pub fn tame(&mut self) -> f64 {
        if self.once_in(3) {
            self.whole()
        } else {
            self.moderate()
        }
    }

    /// Any bits at all, every NaN the one that is written.
    fn any(&mut self) -> f64 {
        f64::from_bits(bits(f64::from_bits(self.bits64())))
    }

    /// One of the special values.
    pub fn special(&mut self) -> f64 {
        SPECIAL[self.below(17) as usize]
    }

    /// A whole number from -32 to 32, zero with either sign.
    pub fn whole(&mut self) -> f64 {
        let size = self.below(33) as f64;
        if self.once_in(2) {
            -size
        } else {
            size
        }
    }

    /// Any sign and mantissa, and one of 16 exponents around that of 1.
    fn moderate(&mut self) -> f64 {
        let exponent = 1023 - 8 + self.below(16);
        f64::from_bits((self.bits64() & 0x800f_ffff_ffff_ffff) | (exponent << 52))
    }

    /// A number made of floats of one sort.
    pub fn number<N: Number>(&mut self, sort: fn(&mut Self) -> f64) -> N {
        let floats: Vec<f64> = (0..N::FLOATS).map(|_| sort(self)).collect();
        N::from_floats(&floats)
    }
}
