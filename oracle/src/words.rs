//! Numbers as words: the bits of their innermost floats.

use std::hint::black_box;

use crate::ad::forward::Fwd;
use crate::ad::scalar::{InnerScalar, Scalar};

/// How any NaN is written.
pub const NAN: u64 = 0x7ff8_0000_0000_0000;

/// The special values, in the order of docs/REPLAY.md.
pub const SPECIAL: [f64; 17] = [
    0.0,
    -0.0,
    f64::INFINITY,
    f64::NEG_INFINITY,
    f64::from_bits(NAN),
    f64::from_bits(0x0000_0000_0000_0001),
    f64::from_bits(0x000f_ffff_ffff_ffff),
    f64::MIN_POSITIVE,
    f64::MAX,
    1.0,
    -1.0,
    3.0,
    -3.0,
    49.0,
    0.1,
    1e300,
    1e-300,
];

/// The bits of a float, any NaN as [`NAN`]. To the compiler the NaN of an operation may have any bits: behind a root that
/// it sees it leaves the test out, so it sees none.
pub fn bits(x: f64) -> u64 {
    let x = black_box(x);
    if x.is_nan() {
        NAN
    } else {
        x.to_bits()
    }
}

/// A word with the zeros at its end left out, but for the first digit.
pub fn short(word: u64) -> String {
    let digits = format!("{word:016x}");
    let kept = digits.trim_end_matches('0').len().max(1);
    digits[..kept].to_string()
}

/// One word for many: each is put in by an exclusive or, and then the bits are stirred as the
/// generator xorshift64 does it.
pub fn digest(words: impl Iterator<Item = u64>) -> u64 {
    words.fold(0x9e37_79b9_7f4a_7c15, |before, word| {
        let mut x = before ^ word;
        x ^= x << 13;
        x ^= x >> 7;
        x ^ x << 17
    })
}

/// A number that is read from, and taken apart into, its innermost floats: value part before
/// derivative part, at every level.
pub trait Number: Scalar {
    /// How many floats the number holds.
    const FLOATS: usize;

    /// The number that holds exactly these floats.
    fn from_floats(floats: &[f64]) -> Self;

    /// Adds the words of the number to the list.
    fn push_words(&self, list: &mut Vec<u64>);

    /// The words of the number.
    fn words(&self) -> Vec<u64> {
        let mut list = Vec::with_capacity(Self::FLOATS);
        self.push_words(&mut list);
        list
    }
}

impl Number for f64 {
    const FLOATS: usize = 1;

    fn from_floats(floats: &[f64]) -> Self {
        floats[0]
    }

    fn push_words(&self, list: &mut Vec<u64>) {
        list.push(bits(*self));
    }
}

impl<T: Number + InnerScalar> Number for Fwd<T> {
    const FLOATS: usize = 2 * T::FLOATS;

    fn from_floats(floats: &[f64]) -> Self {
        let (val, dot) = floats.split_at(T::FLOATS);
        Self {
            val: T::from_floats(val),
            dot: T::from_floats(dot),
        }
    }

    fn push_words(&self, list: &mut Vec<u64>) {
        self.val.push_words(list);
        self.dot.push_words(list);
    }
}
