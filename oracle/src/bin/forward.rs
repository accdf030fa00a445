//! Prints the cases of docs/REPLAY.md for one order: `forward ORDER SEED COUNT`.

use std::cmp::Ordering;
use std::hint::black_box;
use std::io::{self, BufWriter, Write};
use std::process::exit;

use oracle::ad::forward::{Fwd, Fwd1, Fwd2, Fwd3, Fwd4, FwdSeed};
use oracle::ad::scalar::Scalar;
use oracle::random::Random;
use oracle::words::{bits, Number, SPECIAL};

/// How a kind takes its operands, and the words of its answer.
enum Kind<N> {
    Alone(fn() -> Vec<u64>),
    Plain(fn(f64) -> Vec<u64>),
    One(fn(N) -> Vec<u64>),
    Two(fn(N, N) -> Vec<u64>),
    WithPlain(fn(N, f64) -> Vec<u64>),
}

/// The operands of one case; a kind takes those it needs.
struct Operands<N> {
    left: N,
    right: N,
    plain: f64,
}

impl<N: Number> Kind<N> {
    /// The words of a case: those of its operands, then those of its answer.
    fn words(&self, given: &Operands<N>) -> Vec<u64> {
        let (left, right, plain) = (given.left, given.right, given.plain);
        match self {
            Self::Alone(f) => f(),
            Self::Plain(f) => [plain.words(), f(black_box(plain))].concat(),
            Self::One(f) => [left.words(), f(black_box(left))].concat(),
            Self::Two(f) => [
                left.words(),
                right.words(),
                f(black_box(left), black_box(right)),
            ]
            .concat(),
            Self::WithPlain(f) => [
                left.words(),
                plain.words(),
                f(black_box(left), black_box(plain)),
            ]
            .concat(),
        }
    }
}

/// The value and the derivatives up to the order, as the Rust reads them.
trait Reads {
    fn reads(&self) -> Vec<f64>;
}

impl Reads for Fwd1 {
    fn reads(&self) -> Vec<f64> {
        vec![self.value(), self.first_derivative()]
    }
}

impl Reads for Fwd2 {
    fn reads(&self) -> Vec<f64> {
        vec![
            self.value(),
            self.first_derivative(),
            self.second_derivative(),
        ]
    }
}

impl Reads for Fwd3 {
    fn reads(&self) -> Vec<f64> {
        vec![
            self.value(),
            self.first_derivative(),
            self.second_derivative(),
            self.third_derivative(),
        ]
    }
}

/// The Rust has no method for the fourth derivative: it is taken from the innermost part.
impl Reads for Fwd4 {
    fn reads(&self) -> Vec<f64> {
        vec![
            self.value(),
            self.first_derivative(),
            self.second_derivative(),
            self.third_derivative(),
            self.dot.dot.dot.dot,
        ]
    }
}

/// The seven digits of a comparison, as one word.
fn compare<A: PartialOrd<B>, B>(a: &A, b: &B) -> Vec<u64> {
    let order = match a.partial_cmp(b) {
        Some(Ordering::Less) => 0,
        Some(Ordering::Equal) => 1,
        Some(Ordering::Greater) => 2,
        None => 3,
    };
    let answers = [a == b, a != b, a < b, a <= b, a > b, a >= b];
    let word = answers
        .iter()
        .fold(0, |word, &answer| word * 16 + u64::from(answer));
    vec![word * 16 + order]
}

/// Every kind, in the order of docs/REPLAY.md, answered by the Rust's own operators.
fn kinds<T: FwdSeed + Number>() -> Vec<(&'static str, Kind<Fwd<T>>)>
where
    Fwd<T>: Reads,
{
    use Kind::{Alone, One, Plain, Two, WithPlain};
    vec![
        ("constant", Plain(|v| Fwd::<T>::constant(v).words())),
        ("var", Plain(|v| Fwd::<T>::var(v).words())),
        ("zero", Alone(|| <Fwd<T> as Scalar>::zero().words())),
        ("one", Alone(|| <Fwd<T> as Scalar>::one().words())),
        ("reads", One(|x| x.reads().into_iter().map(bits).collect())),
        ("add", Two(|a, b| (a + b).words())),
        ("sub", Two(|a, b| (a - b).words())),
        ("mul", Two(|a, b| (a * b).words())),
        ("div", Two(|a, b| (a / b).words())),
        ("rem", Two(|a, b| (a % b).words())),
        ("max_val", Two(|a, b| Scalar::max_val(a, b).words())),
        ("min_val", Two(|a, b| Scalar::min_val(a, b).words())),
        ("neg", One(|x| (-x).words())),
        ("abs", One(|x| Scalar::abs(x).words())),
        ("add_f64", WithPlain(|x, k| (x + k).words())),
        ("sub_f64", WithPlain(|x, k| (x - k).words())),
        ("mul_f64", WithPlain(|x, k| (x * k).words())),
        ("div_f64", WithPlain(|x, k| (x / k).words())),
        ("rem_f64", WithPlain(|x, k| (x % k).words())),
        ("sub_from", WithPlain(|x, k| (k - x).words())),
        ("div_into", WithPlain(|x, k| (k / x).words())),
        ("compare", Two(|a, b| compare(&a, &b))),
        ("compare_f64", WithPlain(|x, k| compare(&x, &k))),
        ("sqrt", One(|x| Scalar::sqrt(x).words())),
    ]
}

/// A number with the value `SPECIAL[value]` and `SPECIAL[after + k]` in its k-th word after it.
fn special_number<N: Number>(value: usize, after: usize) -> N {
    let mut floats: Vec<f64> = (0..N::FLOATS).map(|k| SPECIAL[(after + k) % 17]).collect();
    floats[0] = SPECIAL[value];
    N::from_floats(&floats)
}

fn special_operands<N: Number>(i: usize, j: usize) -> Operands<N> {
    Operands {
        left: special_number(i, i + 2 * j),
        right: special_number(j, i + j),
        plain: SPECIAL[j],
    }
}

/// Operands of one sort, tame or wild; now and then two of them have the same value or are equal.
fn seeded_operands<N: Number>(random: &mut Random) -> Operands<N> {
    let sort = if random.once_in(2) {
        Random::tame
    } else {
        Random::wild
    };
    let left: N = random.number(sort);
    let right = match random.below(8) {
        0 => left,
        1 => with_value(random.number(sort), left.value()),
        _ => random.number(sort),
    };
    let plain = if random.once_in(8) {
        left.value()
    } else {
        sort(random)
    };
    Operands { left, right, plain }
}

/// The number with its value replaced.
fn with_value<N: Number>(number: N, value: f64) -> N {
    let mut floats: Vec<f64> = number.words().into_iter().map(f64::from_bits).collect();
    floats[0] = value;
    N::from_floats(&floats)
}

fn print_case(out: &mut impl Write, name: &str, words: &[u64]) -> io::Result<()> {
    out.write_all(name.as_bytes())?;
    for word in words {
        write!(out, " {word:016x}")?;
    }
    out.write_all(b"\n")
}

/// One kind at the special values: all pairs, or each value once, or its only case.
fn print_special<N: Number>(out: &mut impl Write, name: &str, kind: &Kind<N>) -> io::Result<()> {
    let (rows, columns) = match kind {
        Kind::Alone(_) => (1, 1),
        Kind::Plain(_) => (1, 17),
        Kind::One(_) | Kind::Two(_) | Kind::WithPlain(_) => (17, 17),
    };
    for i in 0..rows {
        for j in 0..columns {
            print_case(out, name, &kind.words(&special_operands(i, j)))?;
        }
    }
    Ok(())
}

/// `count` seeded cases of one kind, none where it has no operands.
fn print_seeded<N: Number>(
    out: &mut impl Write,
    name: &str,
    kind: &Kind<N>,
    random: &mut Random,
    count: u64,
) -> io::Result<()> {
    if matches!(kind, Kind::Alone(_)) {
        return Ok(());
    }
    for _ in 0..count {
        print_case(out, name, &kind.words(&seeded_operands(random)))?;
    }
    Ok(())
}

/// Both parts for the order of `Fwd<T>`.
fn print_order<T: FwdSeed + Number>(seed: u64, count: u64) -> io::Result<()>
where
    Fwd<T>: Reads,
{
    let mut out = BufWriter::with_capacity(1 << 16, io::stdout().lock());
    let mut random = Random::new(seed);
    let kinds = kinds::<T>();
    for (name, kind) in &kinds {
        print_special(&mut out, name, kind)?;
    }
    for (name, kind) in &kinds {
        print_seeded(&mut out, name, kind, &mut random, count)?;
    }
    out.flush()
}

fn usage() -> ! {
    eprintln!("usage: forward ORDER SEED COUNT, whole numbers, ORDER from 1 to 4");
    exit(2)
}

fn main() -> io::Result<()> {
    let numbers: Option<Vec<u64>> = std::env::args().skip(1).map(|a| a.parse().ok()).collect();
    match numbers.as_deref() {
        Some(&[1, seed, count]) => print_order::<f64>(seed, count),
        Some(&[2, seed, count]) => print_order::<Fwd1>(seed, count),
        Some(&[3, seed, count]) => print_order::<Fwd2>(seed, count),
        Some(&[4, seed, count]) => print_order::<Fwd3>(seed, count),
        _ => usage(),
    }
}
