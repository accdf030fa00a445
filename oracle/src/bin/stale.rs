//! Prints the sequences of docs/REPLAY.md that end in the use of a stale handle which the Rust takes: `stale`.

use oracle::operations::{kinds, Kind};
use oracle::session::{
    Given, Move, Pass, Session, REWIND_TO_INIT, REWIND_TO_MARK, SET_MARK, START, STOP,
};

/// How a handle becomes stale, and what comes between that and its use.
#[derive(Clone, Copy)]
struct Story {
    dropping: Move,
    /// Whether another node has taken the slot.
    again: bool,
    stopped: bool,
}

/// What is done with the stale handle.
#[derive(Clone, Copy)]
enum Use {
    Left(usize),
    Right(usize),
    Both(usize),
    Root(fn(usize) -> Pass),
    Value,
    Adjoint,
}

const ROOTS: [fn(usize) -> Pass; 3] = [
    Pass::Backward,
    Pass::BackwardToMark,
    Pass::BackwardMarkToStart,
];

/// The node that is dropped, the second one recorded.
const STALE: usize = 2;

/// The calls up to the use.
fn told(story: Story, kinds: &[Kind]) -> Session {
    let mut session = Session::new();
    session.call(START);
    session.record(&kinds[0], "p", &[Given::Plain(3.0)]);
    session.call(SET_MARK);
    session.record(&kinds[3], "nn", &[Given::Node(1), Given::Node(1)]);
    session.pass(Pass::Backward(STALE));
    session.call(story.dropping);
    if story.again {
        take_slots(&mut session, &kinds[0]);
    }
    if story.stopped {
        session.call(STOP);
    }
    session
}

/// Leaves in every slot up to that of the stale handle.
fn take_slots(session: &mut Session, leaf: &Kind) {
    while session.live().len() < STALE {
        session.record(leaf, "p", &[Given::Plain(5.0)]);
    }
}

fn print_use(story: Story, kinds: &[Kind], made: Use) {
    let mut session = told(story, kinds);
    let (stale, plain) = (Given::Node(STALE), Given::Plain(7.0));
    match made {
        Use::Left(op) if kinds[op].operands() == 1 => {
            session.record(&kinds[op], "n", &[stale]);
        }
        Use::Left(op) => {
            session.record(&kinds[op], "np", &[stale, plain]);
        }
        Use::Right(op) => {
            session.record(&kinds[op], "pn", &[plain, stale]);
        }
        Use::Both(op) => {
            session.record(&kinds[op], "nn", &[stale, stale]);
        }
        Use::Root(pass) => session.pass(pass(STALE)),
        Use::Value => session.value(stale),
        Use::Adjoint => session.adjoint(STALE),
    }
    print!("{}", session.ended_stale());
}

/// The operations take turns: each is met as often as the others.
fn print_story(story: Story, kinds: &[Kind], turn: usize) {
    let pairs = [1, 2, 3, 4, 5, 6];
    let one = [0, 7, 8][turn % 3];
    let two = |k: usize| pairs[(turn + k) % pairs.len()];
    for made in [
        Use::Left(one),
        Use::Left(two(0)),
        Use::Right(two(1)),
        Use::Both(two(2)),
        Use::Value,
        Use::Adjoint,
    ] {
        print_use(story, kinds, made);
    }
    // Where the slot is free, the Rust refuses the root.
    if story.again {
        for root in ROOTS {
            print_use(story, kinds, Use::Root(root));
        }
    }
}

fn main() {
    let kinds = kinds();
    let mut turn = 0;
    for dropping in [REWIND_TO_MARK, REWIND_TO_INIT, START] {
        for (again, stopped) in [(false, false), (true, false), (false, true), (true, true)] {
            let story = Story {
                dropping,
                again,
                stopped,
            };
            print_story(story, &kinds, turn);
            turn += 1;
        }
    }
}
