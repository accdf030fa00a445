//! Prints the cases of docs/REPLAY.md for the operations table: `table SEED COUNT`, and
//! `table SEED COUNT supplied` those of the operations that the port is supplied.

use std::hint::black_box;
use std::io::{self, BufWriter, Write};
use std::process::exit;

use oracle::ad::dual::Dual;
use oracle::ad::tape::Tape;
use oracle::nodes::{edges, supplied};
use oracle::operations::{kinds, supplied_kinds, Form, Kind, Operand};
use oracle::random::Random;
use oracle::request::Request;
use oracle::words::{bits, SPECIAL};

/// The operand of a letter; `n` puts it on the tape.
fn operand(letter: u8, x: f64) -> Operand {
    match letter {
        b'n' => Dual::new(black_box(x)),
        _ => Dual::constant(black_box(x)),
    }
}

/// The addresses of the operands that are on the tape, left before right.
fn addresses(operands: &[Operand]) -> Vec<String> {
    let pointers = operands.iter().filter_map(Dual::node_ptr);
    pointers.map(|pointer| format!("{pointer:?}")).collect()
}

/// The words of a case: its operands, what is supplied, the value, and the partial of each edge. The edges lead to the operands, in their order.
fn words(kind: &Kind, form: &Form, pair: [f64; 2]) -> Vec<u64> {
    Tape::rewind_to_init();
    let letters = form.letters.as_bytes();
    let operands: Vec<Operand> = letters
        .iter()
        .zip(pair)
        .map(|(&letter, x)| operand(letter, x))
        .collect();
    let left = operands[0];
    let right = *operands.get(1).unwrap_or(&left);
    let recorded = (form.record)(left, right);
    let (children, partials): (Vec<String>, Vec<f64>) = edges(recorded).into_iter().unzip();
    let linked = if kind.links { &operands[..] } else { &[] };
    assert_eq!(children, addresses(linked), "the edges are the operands");
    let given = pair.into_iter().take(letters.len());
    given
        .chain(supplied(kind, &operands, recorded))
        .chain([recorded.value()])
        .chain(partials)
        .map(bits)
        .collect()
}

fn print_case(out: &mut impl Write, kind: &Kind, form: &Form, pair: [f64; 2]) -> io::Result<()> {
    write!(out, "{} {}", kind.name, form.letters)?;
    for word in words(kind, form, pair) {
        write!(out, " {word:016x}")?;
    }
    out.write_all(b"\n")
}

/// One form at the special values: all pairs, or each value once.
fn print_special(out: &mut impl Write, kind: &Kind, form: &Form) -> io::Result<()> {
    let rights = if form.letters.len() == 2 {
        &SPECIAL[..]
    } else {
        &SPECIAL[..1]
    };
    for left in SPECIAL {
        for &right in rights {
            print_case(out, kind, form, [left, right])?;
        }
    }
    Ok(())
}

/// Two operands of one sort, tame or wild, now and then equal ones.
fn seeded_pair(random: &mut Random) -> [f64; 2] {
    let sort = if random.once_in(2) {
        Random::tame
    } else {
        Random::wild
    };
    let left = sort(random);
    let right = if random.once_in(8) {
        left
    } else {
        sort(random)
    };
    [left, right]
}

/// `count` cases of one kind, each in a seeded form.
fn print_seeded(
    out: &mut impl Write,
    kind: &Kind,
    random: &mut Random,
    count: u64,
) -> io::Result<()> {
    for _ in 0..count {
        let form = &kind.forms[random.below(kind.forms.len() as u64) as usize];
        print_case(out, kind, form, seeded_pair(random))?;
    }
    Ok(())
}

fn print_all(kinds: &[Kind], seed: u64, count: u64) -> io::Result<()> {
    let mut out = BufWriter::with_capacity(1 << 16, io::stdout().lock());
    let mut random = Random::new(seed);
    Tape::start_recording();
    for kind in kinds {
        for form in &kind.forms {
            print_special(&mut out, kind, form)?;
        }
    }
    for kind in kinds {
        print_seeded(&mut out, kind, &mut random, count)?;
    }
    out.flush()
}

fn usage() -> ! {
    eprintln!("usage: table SEED COUNT [supplied], SEED and COUNT whole numbers");
    exit(2)
}

fn main() -> io::Result<()> {
    let request = Request::read(&["supplied"]).unwrap_or_else(|| usage());
    let kinds = if request.asks("supplied") {
        supplied_kinds()
    } else {
        kinds()
    };
    print_all(&kinds, request.seed, request.count)
}
