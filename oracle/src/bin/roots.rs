//! Prints square roots of doubles, each by the machine's own instruction, as docs/REPLAY.md has them: `roots SEED COUNT`.

use std::hint::black_box;
use std::io::{self, BufWriter, Write};
use std::process::exit;

use oracle::random::Random;
use oracle::request::Request;
use oracle::words::{bits, SPECIAL};

/// The digits of a double behind its first one.
const FRACTION: u32 = 52;

const SIGN: u64 = 1 << 63;

/// So many midpoints between two doubles have squares that lie nearest to a double, and so many are drawn.
const MIDPOINTS: u64 = 64;

/// The special values, and the ends of the subnormals and of the normals with what lies next to them, of either sign.
fn special() -> Vec<u64> {
    let ends = [1, 1 << FRACTION, 0x7ff << FRACTION];
    let near = ends.map(|end: u64| [end - 1, end, end + 1]).concat();
    let negative: Vec<u64> = near.iter().map(|pattern| pattern | SIGN).collect();
    [SPECIAL.map(f64::to_bits).to_vec(), near, negative].concat()
}

/// The first and the last whole number with so many binary digits, and a drawn one.
fn of_length(length: u32, random: &mut Random) -> [u64; 3] {
    let first = 1 << (length - 1);
    [first, 2 * first - 1, first | random.bits64() % first]
}

/// Every length of the subnormals, then every exponent of the normals.
fn every_exponent(random: &mut Random) -> Vec<u64> {
    let mut all = Vec::new();
    for length in 1..=FRACTION {
        all.extend(of_length(length, random));
    }
    for exponent in 0..0x7fe {
        let digits = of_length(FRACTION + 1, random);
        all.extend(digits.map(|digits| (exponent << FRACTION) + digits));
    }
    all
}

/// Squares of whole numbers of every length at which they are doubles, each between its neighbours.
fn squares(random: &mut Random) -> Vec<u64> {
    let mut all = Vec::new();
    for length in 1..=FRACTION / 2 {
        for root in of_length(length, random) {
            let square = scaled(root * root, random);
            all.extend([square - 1, square, square + 1]);
        }
    }
    all
}

/// The pattern of a whole number, which is a double, times a drawn power of 4.
fn scaled(whole: u64, random: &mut Random) -> u64 {
    let power = random.below(900) as i32 - 450;
    (whole as f64 * 4f64.powi(power)).to_bits()
}

/// Both sides of the squares of midpoints: of those whose squares lie nearest to a double, and of drawn ones.
fn beside_midpoints(random: &mut Random) -> Vec<u64> {
    let mut all = Vec::new();
    for i in 0..MIDPOINTS / 2 {
        let drawn = 1 << 53 | random.bits64() >> 11 | 1;
        let above = nearest_midpoints(8 * i + 1);
        let below = nearest_midpoints((8 * i + 7).wrapping_neg());
        for midpoint in [above.as_slice(), &below, &[drawn]].concat() {
            all.extend(beside(midpoint).map(|whole| scaled(whole, random)));
        }
    }
    all
}

/// The midpoints, odd numbers of 54 digits, whose squares leave this remainder by 2^54: 1 by 8, and next to 0 or 2^54.
fn nearest_midpoints(remainder: u64) -> [u64; 2] {
    // Each turn makes the square right in one digit more.
    let root = (3..54).fold(1, |root: u64, place| {
        let wrong = (root.wrapping_mul(root) ^ remainder) >> place & 1;
        root | wrong << (place - 1)
    });
    [(1 << 53) + root, (1 << 54) - root]
}

/// The doubles next below and above the square of a midpoint, over 2^54.
fn beside(midpoint: u64) -> [u64; 2] {
    let square = u128::from(midpoint).pow(2);
    let extra = u128::BITS - square.leading_zeros() - (FRACTION + 1);
    let below = (square >> extra) as u64;
    [below, below + 1].map(|digits| digits << (extra - 54))
}

fn print_root(out: &mut impl Write, pattern: u64) -> io::Result<()> {
    let x = f64::from_bits(pattern);
    writeln!(out, "{:016x} {:016x}", bits(x), bits(black_box(x).sqrt()))
}

fn print_all(seed: u64, count: u64) -> io::Result<()> {
    let mut out = BufWriter::with_capacity(1 << 16, io::stdout().lock());
    let mut random = Random::new(seed);
    let chosen = [
        special(),
        every_exponent(&mut random),
        squares(&mut random),
        beside_midpoints(&mut random),
    ];
    for pattern in chosen.concat() {
        print_root(&mut out, pattern)?;
    }
    for _ in 0..count {
        print_root(&mut out, random.bits64())?;
    }
    out.flush()
}

fn usage() -> ! {
    eprintln!("usage: roots SEED COUNT, whole numbers");
    exit(2)
}

fn main() -> io::Result<()> {
    let request = Request::read(&[]).unwrap_or_else(|| usage());
    print_all(request.seed, request.count)
}
