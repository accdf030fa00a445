//! Records, walks and rewinds a full tape as often as it is told, or takes as many square roots, as the
//! program `speed` of the port does, on the same plans but the listing: a line of standard input is `PLAN TIMES`.

use std::io::{self, BufRead};

use oracle::ad::constant::Const;
use oracle::ad::dual::Dual;
use oracle::ad::expr::{max, min};
use oracle::ad::scalar::Scalar;
use oracle::ad::tape::{Tape, TAPE};
use oracle::words::{bits, digest};

const NODES: usize = 65_535;
const BLOCK: usize = 16;
/// The nodes before the first block: leaves, of which the last begins the sum.
const LEAVES: usize = BLOCK - 1;
/// The place of no node: the plain number stands in its stead.
const PLAIN: usize = NODES;
const SEED: u64 = 0x9e37_79b9_7f4a_7c15;

/// Where operands lie: anywhere in the node's own block, anywhere below the node, or next before it.
#[derive(Clone, Copy)]
enum Reach {
    Near,
    Anywhere,
    Regular,
}

/// A node to be recorded.
#[derive(Clone, Copy)]
struct Recording {
    op: u8,
    left: u16,
    right: u16,
    plain: f64,
}

/// The generator xorshift64.
fn next(x: u64) -> u64 {
    let a = x ^ x << 13;
    let b = a ^ a >> 7;
    b ^ b << 17
}

/// One of the four parts of a draw, brought below an end.
fn part(draw: u64, shift: u32, end: usize) -> usize {
    (draw >> shift & 0xffff) as usize % end
}

fn lay_out(reach: Reach) -> Vec<Recording> {
    let mut worth = Vec::new();
    let mut plan = Vec::new();
    let mut draw = SEED;
    for i in 0..NODES {
        draw = next(draw);
        let (mut op, left, right, plain) = planned(reach, i, draw);
        let worth_at = |at: usize| *worth.get(at).unwrap_or(&plain);
        let (l, r) = (worth_at(left), worth_at(right));
        if !(i < LEAVES || (i + 1) % BLOCK == LEAVES) && !is_moderate(op, l, r) {
            op = 7;
        }
        worth.push(result(op, l, r));
        plan.push(Recording {
            op,
            left: left as u16,
            right: right as u16,
            plain,
        });
    }
    plan
}

fn planned(reach: Reach, i: usize, draw: u64) -> (u8, usize, usize, f64) {
    let place = (i + 1) % BLOCK;
    if i < LEAVES {
        return (0, PLAIN, PLAIN, (16 + i) as f64 / 16.0);
    }
    if place == LEAVES {
        return (1, i - BLOCK, i - 1, 0.0);
    }
    let near = |shift| match place {
        0 => part(draw, shift, LEAVES),
        _ => i - 1 - part(draw, shift, place),
    };
    let before = |back| match place {
        _ if place < back => i / BLOCK % LEAVES,
        _ => i - back,
    };
    match reach {
        Reach::Near => mixed(draw, near(0), near(16)),
        Reach::Anywhere => mixed(draw, part(draw, 0, i), part(draw, 16, i)),
        Reach::Regular => mixed(i as u64 * 0x0001_0001_0001_0001, before(1), before(2)),
    }
}

/// One right operand in four is a plain number, from 1.5 up to 2.5.
fn mixed(draw: u64, left: usize, right: usize) -> (u8, usize, usize, f64) {
    let op = 1 + part(draw, 48, 7) as u8;
    let right = if part(draw, 32, 4) == 0 { PLAIN } else { right };
    let plain = (384 + part(draw, 40, 256)) as f64 / 256.0;
    (op, left, right, plain)
}

fn is_moderate(op: u8, l: f64, r: f64) -> bool {
    let size = result(op, l, r).abs();
    let is_tie = op >= 5 && l == r;
    (1.0 / 64.0..=64.0).contains(&size) && !is_tie
}

fn result(op: u8, l: f64, r: f64) -> f64 {
    match op {
        1 => l + r,
        2 => l - r,
        3 => l * r,
        4 => l / r,
        5 => if l >= r { l } else { r },
        6 => if l <= r { l } else { r },
        7 => 0.0 - l,
        _ => l,
    }
}

fn record(node: Recording, duals: &[Dual<f64>]) -> Dual<f64> {
    if node.op == 0 {
        return Dual::new(node.plain);
    }
    let l = duals[node.left as usize];
    if node.right as usize == PLAIN {
        let k = Const(node.plain);
        return match node.op {
            1 => (l + k).into(),
            2 => (l - k).into(),
            3 => (l * k).into(),
            4 => (l / k).into(),
            5 => max(l, k).into(),
            6 => min(l, k).into(),
            _ => l.neg_val(),
        };
    }
    let r = duals[node.right as usize];
    match node.op {
        1 => (l + r).into(),
        2 => (l - r).into(),
        3 => (l * r).into(),
        4 => (l / r).into(),
        5 => max(l, r).into(),
        6 => min(l, r).into(),
        _ => l.neg_val(),
    }
}

/// A round: recorded by the plan, walked from the last node, and rewound. Nothing is cleared.
fn round(plan: &[Recording], duals: &mut Vec<Dual<f64>>) {
    Tape::rewind_to_init();
    duals.clear();
    for node in plan {
        let made = record(*node, duals);
        duals.push(made);
    }
    let last = duals[NODES - 1];
    last.backward().expect("the root is on the tape");
}

fn run(name: &str, reach: Reach, times: u64) {
    let plan = lay_out(reach);
    let mut duals = Vec::with_capacity(NODES);
    Tape::start_recording();
    for _ in 0..times {
        round(&plan, &mut duals);
    }
    let edges: usize = TAPE.with(|tape| {
        let tape = tape.borrow();
        let nodes = tape.book.iter();
        nodes.map(|node| unsafe { node.as_ref() }.num_children()).sum()
    });
    let values = digest(duals.iter().map(|x| bits(x.value())));
    let adjoints = digest(duals.iter().map(|x| bits(x.adjoint().expect("on the tape"))));
    println!("{name} times={times} nodes={NODES} edges={edges} values={values:016x} adjoints={adjoints:016x}");
}

/// What is drawn for square roots: doubles of every exponent, subnormals of every length, or the doubles again, of which
/// no root is taken.
#[derive(Clone, Copy)]
enum Sort {
    Doubles,
    Subnormals,
    Idle,
}

/// The pattern of a double that is positive and finite.
fn pattern(sort: Sort, draw: u64) -> u64 {
    match sort {
        Sort::Doubles | Sort::Idle => draw % 0x7ff0_0000_0000_0000,
        Sort::Subnormals => 1 + (draw >> 12 >> (draw % 52)) % 0x10_0000_0000_0000,
    }
}

fn root(sort: Sort, x: f64) -> f64 {
    match sort {
        Sort::Doubles | Sort::Subnormals => x.sqrt(),
        Sort::Idle => x,
    }
}

fn take_roots(name: &str, sort: Sort, times: u64) {
    let mut draw = SEED;
    let mut digest = SEED;
    for _ in 0..times * NODES as u64 {
        draw = next(draw);
        let x = f64::from_bits(pattern(sort, draw));
        digest = next(digest ^ root(sort, x).to_bits());
    }
    println!("{name} times={times} digest={digest:016x}");
}

fn main() {
    for line in io::stdin().lock().lines() {
        let line = line.expect("the orders are text");
        let (name, times) = line.split_once(' ').expect("an order is PLAN TIMES");
        let times = times.parse().expect("a number of rounds");
        match name {
            "near" => run(name, Reach::Near, times),
            "anywhere" => run(name, Reach::Anywhere, times),
            "regular" => run(name, Reach::Regular, times),
            "doubles" => take_roots(name, Sort::Doubles, times),
            "subnormals" => take_roots(name, Sort::Subnormals, times),
            "idle" => take_roots(name, Sort::Idle, times),
            _ => panic!("no plan {name}"),
        }
    }
}
