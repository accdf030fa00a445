//! Prints seeded sequences of calls on the f64 tape, as docs/REPLAY.md has them: `sequences SEED COUNT`, and
//! `sequences SEED COUNT supplied` with operations that the port is supplied among them.

use std::io::{self, BufWriter, Write};
use std::process::exit;

use oracle::ad::tape::Tape;
use oracle::draw::{letters, Temper};
use oracle::operations::{kinds_of, Kind};
use oracle::random::Random;
use oracle::request::Request;
use oracle::session::{
    departs, Given, Move, Pass, Session, RESET_MARK, REWIND_TO_INIT, REWIND_TO_MARK, SET_MARK,
    START, STOP,
};

fn temper(random: &mut Random) -> Temper {
    Temper {
        special: [40, 12, 5][random.below(3) as usize],
        infinite: random.once_in(3),
    }
}

/// A sequence in the making.
struct Draft<'a> {
    random: &'a mut Random,
    kinds: &'a [Kind],
    temper: Temper,
    /// One rewind in so many that are drawn is made.
    rewind: u64,
    session: Session,
    /// Answers that have no node.
    detached: Vec<f64>,
}

impl<'a> Draft<'a> {
    fn call(&mut self) {
        if !Tape::is_active() && self.random.once_in(6) {
            return self.session.call(START);
        }
        match self.random.below(100) {
            0..=9 => self.pass(),
            10..=17 => self.read(),
            18..=19 => self.session.reset_adjoints(),
            20..=23 => self.session.call(SET_MARK),
            24 => self.session.call(RESET_MARK),
            25..=28 => self.rewind(REWIND_TO_MARK),
            29 => self.rewind(REWIND_TO_INIT),
            30 => self.rewind(START),
            31 => self.session.call(STOP),
            _ => self.record(),
        }
    }

    /// A call that drops nodes, or in a sequence that keeps them more often another recording.
    fn rewind(&mut self, dropping: Move) {
        if self.random.once_in(self.rewind) {
            self.session.call(dropping);
        } else {
            self.record();
        }
    }

    fn record(&mut self) {
        let (kind, given) = self.recording();
        let letters = letters(self.random, &given);
        let detached = self.session.record(kind, &letters, &given);
        self.detached.extend(detached);
    }

    /// An operation and its operands, drawn again where the Rust's max and min depart, and at most roots of negative
    /// numbers.
    fn recording(&mut self) -> (&'a Kind, Vec<Given>) {
        loop {
            let kind = &self.kinds[self.random.below(self.kinds.len() as u64) as usize];
            let given = self.operands(kind.operands());
            let l = self.session.worth(given[0]);
            let r = self.session.worth(given[given.len() - 1]);
            if !departs(kind.name, l, r) && !self.temper.leaves_out(self.random, kind.name, l) {
                return (kind, given);
            }
        }
    }

    fn operands(&mut self, count: usize) -> Vec<Given> {
        let mut given: Vec<Given> = Vec::new();
        for _ in 0..count {
            let operand = self.operand(given.first().copied());
            given.push(operand);
        }
        given
    }

    /// Now and then the same operand again, or a number as large as it.
    fn operand(&mut self, other: Option<Given>) -> Given {
        if let Some(other) = other {
            match self.random.below(16) {
                0 => return other,
                1 => return Given::Plain(self.session.worth(other)),
                _ => (),
            }
        }
        match self.node() {
            Some(node) if !self.random.once_in(5) => Given::Node(node),
            _ => Given::Plain(self.number()),
        }
    }

    /// A node of the tape: any one, or half the time one of the last.
    fn node(&mut self) -> Option<usize> {
        let live = self.session.live().len() as u64;
        if live == 0 {
            return None;
        }
        let reach = if self.random.once_in(2) {
            live
        } else {
            live.min(6)
        };
        let back = self.random.below(reach);
        Some(self.session.live()[(live - 1 - back) as usize])
    }

    fn number(&mut self) -> f64 {
        if !self.detached.is_empty() && self.random.once_in(4) {
            return self.detached[self.random.below(self.detached.len() as u64) as usize];
        }
        self.temper.number(self.random)
    }

    fn read(&mut self) {
        match self.node() {
            Some(node) if self.random.once_in(2) => {
                let node = self.reached().unwrap_or(node);
                self.session.adjoint(node);
            }
            Some(node) if !self.random.once_in(8) => self.session.value(Given::Node(node)),
            _ => {
                let number = self.number();
                self.session.value(Given::Plain(number));
            }
        }
    }

    /// A node that a pass has reached, if one is met soon.
    fn reached(&mut self) -> Option<usize> {
        let drawn: Vec<usize> = (0..8).filter_map(|_| self.node()).collect();
        let mut drawn = drawn.into_iter();
        drawn.find(|&node| self.session.gradient(node) != 0.0)
    }

    fn pass(&mut self) {
        let drawn = self.random.below(7);
        let pass = match (self.node(), drawn) {
            (Some(root), 0 | 1) => Pass::Backward(root),
            (Some(root), 2 | 3) => Pass::BackwardToMark(root),
            (Some(root), 4) => Pass::BackwardMarkToStart(root),
            (_, 5) => Pass::PropagateToMark,
            _ => Pass::PropagateMarkToStart,
        };
        self.session.pass(pass);
    }
}

/// A sequence of 100 to 300 calls, most of them of few more than 100.
fn length(random: &mut Random) -> u64 {
    let most = if random.once_in(12) { 201 } else { 9 };
    100 + random.below(most)
}

fn sequence(random: &mut Random, kinds: &[Kind]) -> Session {
    let calls = length(random);
    let mut draft = Draft {
        temper: temper(random),
        rewind: [1, 4, 16][random.below(3) as usize],
        random,
        kinds,
        session: Session::new(),
        detached: Vec::new(),
    };
    for _ in 0..calls {
        draft.call();
    }
    draft.session
}

fn print_all(kinds: &[Kind], seed: u64, count: u64) -> io::Result<()> {
    let mut out = BufWriter::with_capacity(1 << 16, io::stdout().lock());
    let mut random = Random::new(seed);
    for _ in 0..count {
        let session = sequence(&mut random, kinds);
        out.write_all(session.ended().as_bytes())?;
    }
    out.flush()
}

fn usage() -> ! {
    eprintln!("usage: sequences SEED COUNT [supplied], SEED and COUNT whole numbers");
    exit(2)
}

fn main() -> io::Result<()> {
    let request = Request::read(&["supplied"]).unwrap_or_else(|| usage());
    let kinds = kinds_of(request.asks("supplied"));
    print_all(&kinds, request.seed, request.count)
}
