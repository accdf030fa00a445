//! Prints seeded sessions of hundreds of revolutions on the f64 tape, as docs/REPLAY.md has them:
//! `sessions SEED COUNT`. The end of each has the digests of one long tape of the Rust, and the last
//! session has the most nodes and revolutions.
//! `sessions SEED COUNT control` prints sessions that have to be told as different: those in which
//! the long tape comes out otherwise with the revolutions in the order of recording, with that
//! tape's digests at the end. With `supplied` before that the sessions are short and have operations
//! among theirs that the port is supplied.

use std::io::{self, BufWriter, Write};
use std::process::exit;

use oracle::draw::{letters, Temper};
use oracle::operations::{kinds_of, Kind};
use oracle::random::Random;
use oracle::request::Request;
use oracle::session::{departs, Digests, Given, Pass, Session, REWIND_TO_MARK, SET_MARK, START};

/// In a calm session no value or partial is as large as this, so that sums stay finite and go on to
/// tell the order of their parts.
const LARGE: f64 = 1e16;

/// What an operand stands for on every tape: the n-th node of the model or of its own revolution,
/// counted from 1, or a plain number.
#[derive(Clone, Copy)]
enum Meant {
    Model(usize),
    Own(usize),
    Number(f64),
}

impl Meant {
    /// As a tape has it on which so many nodes were recorded before the revolution.
    fn given(self, before: usize) -> Given {
        match self {
            Self::Model(node) => Given::Node(node),
            Self::Own(node) => Given::Node(before + node),
            Self::Number(x) => Given::Plain(x),
        }
    }
}

/// An operation, by its number, in the form of these letters.
struct Deed {
    operation: usize,
    letters: String,
    operands: Vec<Meant>,
}

/// A revolution, and which of its own nodes is the root.
struct Turn {
    deeds: Vec<Deed>,
    root: usize,
}

/// How many nodes and revolutions a session has: as it is drawn, the most of each, or a tenth of the revolutions.
#[derive(Clone, Copy, PartialEq, Eq)]
enum Size {
    Drawn,
    Most,
    Short,
}

impl Size {
    fn between(self, least: u64, most: u64, random: &mut Random) -> u64 {
        match self {
            Self::Drawn | Self::Short => least + random.below(most - least + 1),
            Self::Most => most,
        }
    }

    fn revolutions(self, random: &mut Random) -> u64 {
        match self {
            Self::Short => self.between(20, 60, random),
            _ => self.between(200, 600, random),
        }
    }

    /// The nodes of a revolution, of which most are short.
    fn nodes(self, random: &mut Random) -> u64 {
        if self == Self::Most || random.once_in(8) {
            self.between(3, 40, random)
        } else {
            self.between(3, 10, random)
        }
    }
}

/// What a session did, and the session as it was carried out.
struct Played {
    model: Vec<Deed>,
    turns: Vec<Turn>,
    session: Session,
}

/// A session in the making.
struct Draft<'a> {
    random: &'a mut Random,
    kinds: &'a [Kind],
    temper: Temper,
    size: Size,
    session: Session,
    /// How many nodes the model has, none while it is recorded.
    model: usize,
    /// How many nodes were recorded before the revolution.
    before: usize,
}

impl Draft<'_> {
    fn deeds(&mut self, count: u64) -> Vec<Deed> {
        self.before = self.session.recorded();
        (0..count).map(|_| self.deed()).collect()
    }

    fn deed(&mut self) -> Deed {
        loop {
            let operation = self.random.below(self.kinds.len() as u64) as usize;
            let given = self.operands(operation);
            if self.suits(operation, &given) {
                return self.record(operation, &given);
            }
        }
    }

    /// Left out are the inputs where the Rust's max and min depart, most roots of negative numbers, and in a calm session
    /// what would make large numbers.
    fn suits(&mut self, operation: usize, given: &[Given]) -> bool {
        let kind = &self.kinds[operation];
        let l = self.session.worth(given[0]);
        let r = self.session.worth(given[given.len() - 1]);
        !departs(kind.name, l, r)
            && !self.temper.leaves_out(self.random, kind.name, l)
            && (self.temper.infinite || is_calm(kind, l, r))
    }

    fn record(&mut self, operation: usize, given: &[Given]) -> Deed {
        let letters = letters(self.random, given);
        let kind = &self.kinds[operation];
        self.session.record(kind, &letters, given);
        Deed {
            operation,
            letters,
            operands: given.iter().map(|&operand| self.meant(operand)).collect(),
        }
    }

    fn meant(&self, operand: Given) -> Meant {
        match operand {
            Given::Node(node) if node > self.before => Meant::Own(node - self.before),
            Given::Node(node) => Meant::Model(node),
            Given::Plain(x) => Meant::Number(x),
        }
    }

    /// Now and then both the same, or a number as large as the other operand.
    fn operands(&mut self, operation: usize) -> Vec<Given> {
        let first = self.operand();
        if self.kinds[operation].operands() == 1 {
            return vec![first];
        }
        let second = match self.random.below(16) {
            0 => first,
            1 => Given::Plain(self.session.worth(first)),
            _ => self.operand(),
        };
        if self.random.once_in(2) {
            vec![first, second]
        } else {
            vec![second, first]
        }
    }

    fn operand(&mut self) -> Given {
        match self.node() {
            Some(node) if !self.random.once_in(5) => Given::Node(node),
            _ => Given::Plain(self.temper.number(self.random)),
        }
    }

    /// A node of the revolution so far or, half the time, of the model.
    fn node(&mut self) -> Option<usize> {
        let (model, own) = self.session.live().split_at(self.model);
        let models = own.is_empty() || (!model.is_empty() && self.random.once_in(2));
        let from = if models { model } else { own };
        if from.is_empty() {
            return None;
        }
        Some(from[self.random.below(from.len() as u64) as usize])
    }

    /// Records a revolution, passes its gradients back to the mark and rewinds.
    fn turn(&mut self) -> Turn {
        let count = self.size.nodes(self.random);
        let deeds = self.deeds(count);
        let root = if self.random.once_in(2) {
            deeds.len()
        } else {
            1 + self.random.below(count) as usize
        };
        self.session.pass(Pass::BackwardToMark(self.before + root));
        self.read();
        self.session.call(REWIND_TO_MARK);
        Turn { deeds, root }
    }

    /// Reads may stand anywhere: here one adjoint in four revolutions.
    fn read(&mut self) {
        if self.random.once_in(4) {
            let live = self.session.live();
            let node = live[self.random.below(live.len() as u64) as usize];
            self.session.adjoint(node);
        }
    }

    fn play(mut self) -> Played {
        self.session.call(START);
        let nodes = self.size.between(5, 60, self.random);
        let model = self.deeds(nodes);
        self.model = model.len();
        self.session.call(SET_MARK);
        self.session.reset_adjoints();
        let revolutions = self.size.revolutions(self.random);
        let turns = (0..revolutions).map(|_| self.turn()).collect();
        self.session.pass(Pass::PropagateMarkToStart);
        Played {
            model,
            turns,
            session: self.session,
        }
    }
}

/// Whether the operands, the value and the partials are all small enough for a calm session.
fn is_calm(kind: &Kind, l: f64, r: f64) -> bool {
    let made = (kind.rule)(l, r);
    made.iter().chain(&[l, r]).all(|x| x.abs() < LARGE)
}

fn session(random: &mut Random, kinds: &[Kind], size: Size) -> Played {
    let draft = Draft {
        temper: Temper {
            special: [200, 40, 12][random.below(3) as usize],
            infinite: size != Size::Most && random.once_in(4),
        },
        random,
        kinds,
        size,
        session: Session::new(),
        model: 0,
        before: 0,
    };
    draft.play()
}

/// The model, then the revolutions in this order, on one tape; all roots one; walked once from the
/// end to 0. Answers the digests of the model.
fn long_tape<'a>(kinds: &[Kind], model: &[Deed], turns: impl Iterator<Item = &'a Turn>) -> Digests {
    let mut tape = Session::new();
    tape.call(START);
    record_again(&mut tape, kinds, model);
    for turn in turns {
        let before = tape.recorded();
        record_again(&mut tape, kinds, &turn.deeds);
        tape.seed(before + turn.root);
    }
    // The mark is 0.
    tape.pass(Pass::PropagateToMark);
    tape.digests(model.len())
}

fn record_again(tape: &mut Session, kinds: &[Kind], deeds: &[Deed]) {
    let before = tape.recorded();
    for deed in deeds {
        let operands = deed.operands.iter();
        let given: Vec<Given> = operands.map(|operand| operand.given(before)).collect();
        tape.record(&kinds[deed.operation], &deed.letters, &given);
    }
}

/// What the driver says of the sessions it made.
#[derive(Default)]
struct Counts {
    sessions: usize,
    revolutions: usize,
    nodes: usize,
    calls: usize,
    /// Sessions in which the Rust's own session and its long tape have the same model adjoints.
    agreed: usize,
    /// Sessions in which the order of recording gives other model adjoints.
    ordered: usize,
    adjoints: usize,
    finite: usize,
}

impl Counts {
    fn add(&mut self, played: &Played) {
        self.sessions += 1;
        self.revolutions += played.turns.len();
        self.nodes += played.session.recorded();
        self.calls += played.session.calls();
        self.adjoints += played.model.len();
        let gradients = (1..=played.model.len()).map(|node| played.session.gradient(node));
        self.finite += gradients.filter(|adjoint| adjoint.is_finite()).count();
    }

    fn say(&self) {
        eprintln!(
            "sessions {}, revolutions {}, nodes {}, calls {}",
            self.sessions, self.revolutions, self.nodes, self.calls
        );
        eprintln!(
            "the session and the long tape agree on the model's adjoints: {} of {}",
            self.agreed, self.sessions
        );
        eprintln!(
            "the order of recording would give other bits: {} of {}",
            self.ordered, self.sessions
        );
        eprintln!(
            "finite adjoints of the model at the end: {} of {}",
            self.finite, self.adjoints
        );
    }
}

/// The last session of a list has the most of everything, where sessions are not short.
fn size(request: &Request, made: u64) -> Size {
    if request.asks("supplied") {
        return Size::Short;
    }
    let last = made == request.count && !request.asks("control");
    if last {
        Size::Most
    } else {
        Size::Drawn
    }
}

fn print_all(request: &Request) -> io::Result<()> {
    let mut out = BufWriter::with_capacity(1 << 16, io::stdout().lock());
    let mut random = Random::new(request.seed);
    let kinds = kinds_of(request.asks("supplied"));
    let control = request.asks("control");
    let mut counts = Counts::default();
    for made in 1..=request.count {
        let played = session(&mut random, &kinds, size(request, made));
        counts.add(&played);
        let own = played.session.digests(played.model.len());
        let long = long_tape(&kinds, &played.model, played.turns.iter().rev());
        let recorded = long_tape(&kinds, &played.model, played.turns.iter());
        counts.agreed += usize::from(own == long);
        counts.ordered += usize::from(recorded != long);
        if !control {
            out.write_all(played.session.ended_with(long).as_bytes())?;
        } else if recorded != long {
            out.write_all(played.session.ended_with(recorded).as_bytes())?;
        }
    }
    counts.say();
    out.flush()
}

fn usage() -> ! {
    eprintln!("usage: sessions SEED COUNT [supplied] [control], SEED and COUNT whole numbers");
    exit(2)
}

fn main() -> io::Result<()> {
    let request = Request::read(&["supplied", "control"]).unwrap_or_else(|| usage());
    print_all(&request)
}
