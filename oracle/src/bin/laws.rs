//! Prints the lines of docs/LAWS.md: two ways to write a formula, at some numbers, and what the
//! Rust answers either way. Fails where a line that is safe changes bits, or one that is not
//! safe keeps them.

use std::hint::black_box;

use oracle::ad::dual::Dual;
use oracle::ad::expr::BinExpr;
use oracle::ad::forward::{Fwd, Fwd1, Fwd2};
use oracle::ad::scalar::{InnerScalar, Scalar};
use oracle::ad::tape::Tape;

/// 2^53, up to which a double counts without a gap.
const HIGH: f64 = 9_007_199_254_740_992.0;

/// A number as the page writes it: floats with as many digits as tell them apart.
trait Shown {
    fn shown(&self) -> String;
}

impl Shown for f64 {
    fn shown(&self) -> String {
        format!("{self:?}")
    }
}

impl<T: InnerScalar + Shown> Shown for Fwd<T> {
    fn shown(&self) -> String {
        format!("({}, {})", self.val.shown(), self.dot.shown())
    }
}

/// On the tape: the value.
impl Shown for Dual<f64> {
    fn shown(&self) -> String {
        self.value().shown()
    }
}

impl<L, R, O> Shown for BinExpr<f64, L, R, O>
where
    Self: Clone + Into<Dual<f64>>,
{
    fn shown(&self) -> String {
        self.clone().into().shown()
    }
}

fn number(val: f64, dot: f64) -> Fwd1 {
    Fwd { val, dot }
}

/// One line: both formulas as they stand in the text, the numbers, and the answers.
macro_rules! line {
    ($told:expr, $one:expr, $other:expr; $($name:ident = $number:expr),+) => {{
        $(let $name = black_box($number);)+
        let numbers = [$(format!("{} = {}", stringify!($name), $name.shown())),+].join(", ");
        let answers = $told(($one).shown(), ($other).shown());
        println!("| `{}` | `{}` | {numbers} | {answers} |", stringify!($one), stringify!($other));
    }};
}

fn both(one: String, other: String) -> String {
    assert_eq!(one, other, "safe");
    one
}

fn each(one: String, other: String) -> String {
    assert_ne!(one, other, "not safe");
    format!("{one} | {other}")
}

fn safe() {
    line!(both, x + y, y + x; x = number(0.1, 3.0), y = number(0.2, 0.7));
    line!(both, x * y, y * x; x = number(0.1, 3.0), y = number(0.2, 0.7));
    line!(both, x - y, x + -y; x = number(0.1, 3.0), y = number(0.2, 0.7));
    line!(both, x - k, x + -k; x = number(0.1, 3.0), k = 0.3);
    line!(both, -(-x), x; x = number(1.0, -0.0));
}

fn rounded() {
    line!(each, (x + y) + z, x + (y + z); x = 0.1, y = 0.2, z = 0.3);
    line!(each, (x + y) + z, x + (y + z); x = number(1.0, 3.0), y = number(2.0, HIGH), z = number(3.0, -HIGH));
    line!(each, (x + y) + z, (x + z) + y; x = number(1.0, 3.0), y = number(2.0, HIGH), z = number(3.0, -HIGH));
    line!(each, (x - y) - z, x - (y + z); x = 0.3, y = 0.1, z = 0.2);
    line!(each, (x * y) * z, x * (y * z); x = 0.1, y = 0.2, z = 0.3);
    line!(each, x * (y + z), x * y + x * z; x = 0.1, y = 0.1, z = 0.3);
    line!(each, (x * y) / z, x * (y / z); x = 0.1, y = 0.1, z = 0.1);
    line!(each, x / y, x * (1.0 / y); x = number(49.0, 0.0), y = number(49.0, 0.0));
}

fn signs_of_zero() {
    line!(each, -(x - y), y - x; x = 1.0, y = 1.0);
    line!(each, -(x + y), -x - y; x = 1.0, y = -1.0);
    line!(each, (-x) * y, -(x * y); x = number(1.0, 1.0), y = number(1.0, -1.0));
    line!(each, -x, 0.0 - x; x = number(0.0, 0.0));
    line!(each, x + Fwd1::zero(), x; x = number(1.0, -0.0));
    line!(each, x * Fwd1::one(), x; x = number(1.0, -0.0));
}

fn plain_numbers() {
    line!(each, x + k, x + Fwd1::constant(k); x = number(1.0, -0.0), k = 2.0);
    line!(each, x * k, x * Fwd1::constant(k); x = number(f64::INFINITY, 1.0), k = 2.0);
    line!(each, x / k, x / Fwd1::constant(k); x = number(49.0, 0.0), k = 49.0);
    line!(each, k - x, (-x) + k; x = Fwd2::constant(0.0), k = 3.0);
}

fn infinities_and_ties() {
    line!(each, x - x, Fwd1::zero(); x = number(f64::INFINITY, 1.0));
    line!(each, x.max_val(y), y.max_val(x); x = number(1.0, 5.0), y = number(1.0, 7.0));
    line!(each, x.min_val(y), y.min_val(x); x = number(1.0, 5.0), y = number(1.0, 7.0));
}

fn on_a_tape() {
    Tape::start_recording();
    line!(each, x - y, x + -y; x = Dual::new(-0.0), y = Dual::new(0.0));
    line!(each, -(-x), x; x = Dual::new(-0.0));
}

fn main() {
    safe();
    rounded();
    signs_of_zero();
    plain_numbers();
    infinities_and_ties();
    on_a_tape();
}
