//! Prints where the Rust's f64 tape departs from the rule that the port follows, each by a run:
//! the values of max and min at NaNs and zeros, their partials at ties, and pointers that outlive
//! their node.

use std::hint::black_box;

use oracle::ad::dual::Dual;
use oracle::ad::tape::Tape;
use oracle::utils::errors::Result;
use oracle::words::{bits, SPECIAL};

const ZERO: f64 = 0.0;
const MINUS_ZERO: f64 = -0.0;
const QUIET: f64 = f64::from_bits(0x7ff8_0000_0000_0000);
const SIGNALLING: f64 = f64::from_bits(0x7ff0_0000_0000_0001);

/// One of the two operations: the Rust's, and the comparison of the rule.
struct Choice {
    name: &'static str,
    rust: fn(Dual<f64>, Dual<f64>) -> Dual<f64>,
    keeps_left: fn(f64, f64) -> bool,
    above: fn(f64, f64) -> bool,
}

const MAX: Choice = Choice {
    name: "max",
    rust: Dual::max,
    keeps_left: |l, r| l >= r,
    above: |l, r| l > r,
};

const MIN: Choice = Choice {
    name: "min",
    rust: Dual::min,
    keeps_left: |l, r| l <= r,
    above: |l, r| l < r,
};

/// The words of a value, a left and a right partial.
type Answer = [u64; 3];

impl Choice {
    /// What the Rust records for two leaves; the partials are the leaves' adjoints.
    #[inline(always)]
    fn recorded(&self, l: f64, r: f64) -> Answer {
        Tape::start_recording();
        let (left, right) = (Dual::new(l), Dual::new(r));
        let chosen = (self.rust)(left, right);
        chosen.backward().expect("the node is on the tape");
        let partial = |leaf: Dual<f64>| bits(leaf.adjoint().expect("the leaf is on the tape"));
        [bits(chosen.value()), partial(left), partial(right)]
    }

    /// What the Rust records where the compiler knows nothing of the operands.
    #[inline(never)]
    fn at_run_time(&self, l: f64, r: f64) -> Answer {
        self.recorded(black_box(l), black_box(r))
    }

    fn rule(&self, l: f64, r: f64) -> Answer {
        let value = if (self.keeps_left)(l, r) { l } else { r };
        let partial = |one: bool| bits(f64::from(u8::from(one)));
        [
            bits(value),
            partial((self.keeps_left)(l, r)),
            partial((self.above)(r, l)),
        ]
    }

    /// One input: the rule's answer, the Rust's at run time, and the Rust's where the compiler sees
    /// the operands and may have reckoned with them itself.
    fn print(&self, class: &str, l: f64, r: f64, literal: Answer) {
        let (rust, rule) = (self.at_run_time(l, r), self.rule(l, r));
        let (name, left, right) = (self.name, l.to_bits(), r.to_bits());
        print!("{name}, {class}: l={left:016x} r={right:016x} ");
        print!("rule={} ", said(rule));
        print!("rust={} ", said(rust));
        print!("literal={} ", said(literal));
        let values = departing(rust[0] != rule[0], literal[0] != rule[0]);
        let partials = departing(rust[1..] != rule[1..], literal[1..] != rule[1..]);
        println!("values_depart={values} partials_depart={partials}");
    }

    /// All pairs of special values and signalling NaNs: how many depart in the value, how many of
    /// these lie outside the three classes, how many depart in a partial, and at how many it is not
    /// so that a partial departs exactly where the two tie.
    fn sweep(&self) {
        let (mut pairs, mut values, mut outside, mut partials, mut untied) = (0, 0, 0, 0, 0);
        for (l, r) in sweep_pairs() {
            let (rust, rule) = (self.at_run_time(l, r), self.rule(l, r));
            let (value, partial) = (rust[0] != rule[0], rust[1..] != rule[1..]);
            pairs += 1;
            values += u32::from(value);
            outside += u32::from(value && !in_a_class(l, r));
            partials += u32::from(partial);
            untied += u32::from(partial != (l == r));
        }
        let name = self.name;
        print!(
            "{name}, sweep: pairs={pairs} values_depart={values} outside_the_classes={outside} "
        );
        println!("partials_depart={partials} other_than_the_ties={untied}");
    }
}

/// The value and the two partials, as words.
fn said(answer: Answer) -> String {
    answer.map(|word| format!("{word:016x}")).join(",")
}

/// Which of the Rust's two answers departs.
fn departing(rust: bool, literal: bool) -> &'static str {
    match (rust, literal) {
        (false, false) => "neither",
        (true, false) => "rust",
        (false, true) => "literal",
        (true, true) => "both",
    }
}

fn sweep_pairs() -> Vec<(f64, f64)> {
    let signalling = [SIGNALLING, -SIGNALLING];
    let values: Vec<f64> = SPECIAL.into_iter().chain(signalling).collect();
    let pairs_of = |&l: &f64| values.iter().map(move |&r| (l, r));
    values.iter().flat_map(pairs_of).collect()
}

/// The right operand a NaN, the left a signalling NaN, or two zeros of unlike sign.
fn in_a_class(l: f64, r: f64) -> bool {
    let zeros = l == 0.0 && r == 0.0 && l.is_sign_negative() != r.is_sign_negative();
    r.is_nan() || is_signalling(l) || zeros
}

fn is_signalling(x: f64) -> bool {
    x.is_nan() && x.to_bits() & 0x0008_0000_0000_0000 == 0
}

/// One line for each input; the operands are written out, so that the compiler can fold them.
macro_rules! print_inputs {
    ($choice:expr, $(($class:expr, $l:expr, $r:expr)),+ $(,)?) => {
        $($choice.print($class, $l, $r, $choice.recorded($l, $r));)+
    };
}

macro_rules! print_choice {
    ($choice:expr) => {
        print_inputs!(
            $choice,
            ("right NaN", 1.0, QUIET),
            ("right signalling NaN", 1.0, SIGNALLING),
            ("left signalling NaN", SIGNALLING, 1.0),
            ("unlike zeros", ZERO, MINUS_ZERO),
            ("unlike zeros", MINUS_ZERO, ZERO),
            ("left NaN", QUIET, 1.0),
            ("two NaNs", QUIET, QUIET),
            ("tie", 1.0, 1.0),
        );
        $choice.sweep();
    };
}

/// `Ok` with the word of a float, or the error's name.
fn answer(result: Result<f64>) -> String {
    match result {
        Ok(x) => format!("Ok({:016x})", bits(x)),
        Err(error) => format!("Err({error:?})"),
    }
}

fn passed(result: Result<()>) -> String {
    format!("{result:?}")
}

/// The leaf 3, a mark, and the leaf's square recorded after it and rewound.
fn rewound() -> (Dual<f64>, Dual<f64>) {
    Tape::start_recording();
    let leaf = Dual::new(3.0);
    Tape::set_mark();
    let old = (leaf * leaf).into();
    Tape::rewind_to_mark();
    (leaf, old)
}

/// The slot is free: the old value is no root, but its adjoint is read.
fn print_free_slot() {
    let (_, old) = rewound();
    println!("rewound, slot free: backward={}", passed(old.backward()));
    println!("rewound, slot free: adjoint={}", answer(old.adjoint()));
}

/// The slot is used again: the old value stands for the node that is there now.
fn print_used_slot() {
    let (leaf, old) = rewound();
    let new: Dual<f64> = (leaf + leaf).into();
    println!(
        "slot used again: old value={:016x} new value={:016x} same node={}",
        bits(old.value()),
        bits(new.value()),
        old.node_ptr() == new.node_ptr()
    );
    println!(
        "slot used again: backward from the old={}",
        passed(old.backward())
    );
    println!(
        "slot used again: adjoint of the old={}",
        answer(old.adjoint())
    );
    println!(
        "slot used again: adjoint of the new={}",
        answer(new.adjoint())
    );
    println!(
        "slot used again: adjoint of the leaf={}",
        answer(leaf.adjoint())
    );
    print_old_operand(leaf, old, new);
}

/// The old value times plain 5, and what a walk from there gives the node in its slot.
fn print_old_operand(leaf: Dual<f64>, old: Dual<f64>, new: Dual<f64>) {
    Tape::reset_adjoints();
    let product: Dual<f64> = (old * 5.0).into();
    println!("old as operand: backward={}", passed(product.backward()));
    println!("old as operand: value={:016x}", bits(product.value()));
    println!(
        "old as operand: adjoint of the new={}",
        answer(new.adjoint())
    );
    println!(
        "old as operand: adjoint of the leaf={}",
        answer(leaf.adjoint())
    );
}

/// After a rewind to init the leaf still tells its value, and the first node recorded takes the slot of the leaf that it is made of.
fn print_own_child() {
    Tape::start_recording();
    let leaf: Dual<f64> = Dual::new(3.0);
    Tape::rewind_to_init();
    println!("rewound to init: value={:016x}", bits(leaf.value()));
    let square: Dual<f64> = (leaf * leaf).into();
    println!(
        "rewound to init: a node and the leaf it is made of are the same node={}",
        square.node_ptr() == leaf.node_ptr()
    );
}

/// A rewound value is taken while nothing is recorded.
fn print_stopped() {
    Tape::start_recording();
    let leaf: Dual<f64> = Dual::new(3.0);
    Tape::rewind_to_init();
    Tape::stop_recording();
    let square: Dual<f64> = (leaf * leaf).into();
    println!(
        "rewound and stopped: square={:016x} on tape={}",
        bits(square.value()),
        square.is_on_tape()
    );
}

/// A rewound value is put on the tape again.
fn print_put_again() {
    Tape::start_recording();
    let mut leaf: Dual<f64> = Dual::new(3.0);
    Tape::rewind_to_init();
    leaf.put_on_tape();
    println!(
        "rewound and put on tape: value={:016x} on tape={}",
        bits(leaf.value()),
        leaf.is_on_tape()
    );
}

/// A value without a node is no root, and has no adjoint.
fn print_missing_root() {
    Tape::start_recording();
    let plain = Dual::constant(3.0);
    println!("missing root: backward={}", passed(plain.backward()));
    println!(
        "missing root: backward_to_mark={}",
        passed(plain.backward_to_mark())
    );
    println!(
        "missing root: backward_mark_to_start={}",
        passed(plain.backward_mark_to_start())
    );
    println!("missing root: adjoint={}", answer(plain.adjoint()));
}

fn main() {
    println!(
        "machine={} compiler={} profile={}",
        std::env::consts::ARCH,
        env!("ORACLE_RUSTC"),
        env!("ORACLE_PROFILE")
    );
    print_choice!(MAX);
    print_choice!(MIN);
    print_free_slot();
    print_used_slot();
    print_own_child();
    print_stopped();
    print_put_again();
    print_missing_root();
}
