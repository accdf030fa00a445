//! What the drivers of sequences and of sessions draw alike: plain numbers and the form of an operand.

use crate::random::Random;
use crate::session::Given;

/// Numbers whose sums with whole ones, or with 1, lie halfway between two floats.
const HALFWAY: [f64; 4] = [
    9_007_199_254_740_992.0,
    9_007_199_254_740_994.0,
    f64::EPSILON / 2.0,
    1.0 + f64::EPSILON,
];

/// What the plain numbers of a sequence are like, drawn once for each.
pub struct Temper {
    /// One plain number in so many is special.
    pub special: u64,
    /// Whether NaN and the infinities are among these.
    pub infinite: bool,
}

impl Temper {
    pub fn number(&self, random: &mut Random) -> f64 {
        if random.once_in(self.special) {
            return self.special(random);
        }
        // Whole numbers make short lines.
        if random.once_in(2) {
            random.whole()
        } else {
            random.tame()
        }
    }

    /// Whether this is a root of a negative number that is not to be recorded. Its NaN flows on, so that one in 40 is
    /// enough, and none where no NaN is drawn.
    pub fn leaves_out(&self, random: &mut Random, operation: &str, x: f64) -> bool {
        operation == "sqrt" && x < 0.0 && !(self.infinite && random.once_in(40))
    }

    fn special(&self, random: &mut Random) -> f64 {
        let special = random.special();
        let fits = special.is_finite() || self.infinite;
        if fits && !random.once_in(5) {
            return special;
        }
        HALFWAY[random.below(4) as usize]
    }
}

/// The letters of an operation's form. The Rust takes a number that has no node as a constant, and also as a value without one.
pub fn letters(random: &mut Random, given: &[Given]) -> String {
    let letter = |operand: &Given| match operand {
        Given::Node(_) => 'n',
        Given::Plain(_) if random.once_in(3) => 'n',
        Given::Plain(_) => 'p',
    };
    given.iter().map(letter).collect()
}
