//! One sequence of calls on the Rust's f64 tape, each written down as a line of docs/REPLAY.md with
//! what the Rust answered.

use std::fmt::{Display, Write};
use std::ptr::NonNull;

use crate::ad::dual::Dual;
use crate::ad::node::TapeNode;
use crate::ad::tape::{Tape, TAPE};
use crate::nodes::supplied;
use crate::operations::Kind;
use crate::words::{bits, digest, short};

/// What a call is given: the n-th node recorded in the sequence, counted from 1, or a plain number.
#[derive(Clone, Copy)]
pub enum Given {
    Node(usize),
    Plain(f64),
}

/// The reverse passes, the first three from a root.
#[derive(Clone, Copy)]
pub enum Pass {
    Backward(usize),
    BackwardToMark(usize),
    BackwardMarkToStart(usize),
    PropagateToMark,
    PropagateMarkToStart,
}

/// One word for the values on a tape, one for the adjoints.
#[derive(Clone, Copy, PartialEq, Eq)]
pub struct Digests {
    pub values: u64,
    pub adjoints: u64,
}

/// The calls that start, stop, mark and rewind, by their names.
pub type Move = (&'static str, fn());

pub const START: Move = ("start_recording", Tape::start_recording);
pub const STOP: Move = ("stop_recording", Tape::stop_recording);
pub const SET_MARK: Move = ("set_mark", Tape::set_mark);
pub const RESET_MARK: Move = ("reset_mark", Tape::reset_mark);
pub const REWIND_TO_MARK: Move = ("rewind_to_mark", Tape::rewind_to_mark);
pub const REWIND_TO_INIT: Move = ("rewind_to_init", Tape::rewind_to_init);

/// What has been called, and what came of it.
pub struct Session {
    text: String,
    /// Every value recorded so far, whether it is still on the tape or not.
    recorded: Vec<Dual<f64>>,
    /// Which of them are on the tape, by their index there.
    live: Vec<usize>,
}

impl Session {
    /// A sequence begins on a new tape.
    #[must_use]
    pub fn new() -> Self {
        Dual::set_tape(Tape::<f64>::new());
        Self {
            text: String::new(),
            recorded: Vec::new(),
            live: Vec::new(),
        }
    }

    /// The nodes on the tape, in the order of their indexes.
    #[must_use]
    pub fn live(&self) -> &[usize] {
        &self.live
    }

    /// The value of an operand.
    #[must_use]
    pub fn worth(&self, given: Given) -> f64 {
        self.dual(given).value()
    }

    /// The adjoint of a node.
    #[must_use]
    pub fn gradient(&self, node: usize) -> f64 {
        let adjoint = self.dual(Given::Node(node)).adjoint();
        adjoint.expect("the value has a node")
    }

    /// How many nodes were recorded, whether they are still on the tape or not.
    #[must_use]
    pub fn recorded(&self) -> usize {
        self.recorded.len()
    }

    /// How many calls were made.
    #[must_use]
    pub fn calls(&self) -> usize {
        self.text.lines().count()
    }

    /// The digests of the values and of the adjoints of the first nodes on the tape. The Rust keeps
    /// a value beside its node, so that the values are those of the recorded numbers.
    #[must_use]
    pub fn digests(&self, nodes: usize) -> Digests {
        let on_tape = || self.live.iter().map(|&n| self.recorded[n - 1]);
        let values = digest(on_tape().take(nodes).map(|x| bits(x.value())));
        let adjoints = TAPE.with(|tape| {
            let book = &tape.borrow().book;
            let pointers = on_tape().map(|x| x.node_ptr());
            assert!(pointers.eq(book.iter().map(|&p| Some(p))));
            let firsts = book.iter().take(nodes);
            digest(firsts.map(|p| bits(unsafe { p.as_ref() }.adj)))
        });
        Digests { values, adjoints }
    }

    /// The lines, with the last one, `end`, and the empty one that ends a sequence.
    #[must_use]
    pub fn ended(self) -> String {
        let digests = self.digests(self.live.len());
        self.ended_with(digests)
    }

    /// The same with these digests at the end, which may be of another tape.
    #[must_use]
    pub fn ended_with(mut self, digests: Digests) -> String {
        self.text.push_str("end");
        self.say_digests(digests);
        self.text + "\n"
    }

    /// The lines, of which the last is a call that the Rust takes though a handle in it is stale.
    #[must_use]
    pub fn ended_stale(self) -> String {
        let at = self.text.trim_end().rfind('\n').map_or(0, |feed| feed + 1);
        format!("{}stale {}\n", &self.text[..at], &self.text[at..])
    }

    pub fn call(&mut self, (name, carry_out): Move) {
        self.text.push_str(name);
        self.text.push('\n');
        carry_out();
        let length = TAPE.with(|tape| tape.borrow().book.len());
        self.live.truncate(length);
    }

    /// Records an operation in the form of these letters, and answers its value if it is detached.
    pub fn record(&mut self, kind: &Kind, letters: &str, given: &[Given]) -> Option<f64> {
        let form = kind.forms.iter().find(|form| form.letters == letters);
        let form = form.expect("the operation has the form");
        let (left, right) = (given[0], given[given.len() - 1]);
        let made = (form.record)(self.dual(left), self.dual(right));
        self.text.push_str(kind.name);
        for &operand in given {
            self.say_given(operand);
        }
        let operands: Vec<Dual<f64>> = given.iter().map(|&operand| self.dual(operand)).collect();
        for x in supplied(kind, &operands, made) {
            self.say(short(bits(x)));
        }
        let mark = if made.is_on_tape() { "" } else { "p" };
        self.say(format_args!("{mark}{}", short(bits(made.value()))));
        self.text.push('\n');
        if made.is_on_tape() {
            self.recorded.push(made);
            self.live.push(self.recorded.len());
            return None;
        }
        Some(made.value())
    }

    pub fn pass(&mut self, pass: Pass) {
        let (name, root) = match pass {
            Pass::Backward(root) => ("backward", Some(root)),
            Pass::BackwardToMark(root) => ("backward_to_mark", Some(root)),
            Pass::BackwardMarkToStart(root) => ("backward_mark_to_start", Some(root)),
            Pass::PropagateToMark => ("propagate_to_mark", None),
            Pass::PropagateMarkToStart => ("propagate_mark_to_start", None),
        };
        self.carry_out(pass);
        self.text.push_str(name);
        if let Some(root) = root {
            self.say_given(Given::Node(root));
        }
        self.say(format_args!("v{}", self.visited(pass)));
        self.say_tape();
    }

    pub fn reset_adjoints(&mut self) {
        Tape::reset_adjoints();
        self.text.push_str("reset_adjoints");
        self.say_tape();
    }

    /// Sets a node's adjoint to one and walks nothing, which is no call.
    pub fn seed(&mut self, node: usize) {
        let pointer = self.pointer(node);
        TAPE.with(|tape| {
            let mut tape = tape.borrow_mut();
            tape.mut_node(pointer).expect("it is on the tape").adj = 1.0;
        });
    }

    pub fn value(&mut self, given: Given) {
        self.text.push_str("value");
        self.say_given(given);
        self.say(short(bits(self.worth(given))));
        self.text.push('\n');
    }

    pub fn adjoint(&mut self, node: usize) {
        self.text.push_str("adjoint");
        self.say_given(Given::Node(node));
        self.say(short(bits(self.gradient(node))));
        self.text.push('\n');
    }

    fn dual(&self, given: Given) -> Dual<f64> {
        match given {
            Given::Node(node) => self.recorded[node - 1],
            Given::Plain(x) => Dual::constant(x),
        }
    }

    fn carry_out(&self, pass: Pass) {
        let root = |node: usize| self.recorded[node - 1];
        let done = match pass {
            Pass::Backward(node) => root(node).backward(),
            Pass::BackwardToMark(node) => root(node).backward_to_mark(),
            Pass::BackwardMarkToStart(node) => root(node).backward_mark_to_start(),
            Pass::PropagateToMark => {
                TAPE.with(|tape| tape.borrow_mut().propagate_to_mark());
                Ok(())
            }
            Pass::PropagateMarkToStart => {
                TAPE.with(|tape| tape.borrow_mut().propagate_mark_to_start());
                Ok(())
            }
        };
        done.expect("the root is on the tape");
    }

    /// The edges that a pass visits. The Rust does not count them: they are the children of the
    /// nodes in its range.
    fn visited(&self, pass: Pass) -> usize {
        TAPE.with(|tape| {
            let tape = tape.borrow();
            let range = match pass {
                Pass::Backward(root) => 0..self.index(root) + 1,
                Pass::BackwardToMark(_) | Pass::PropagateToMark => tape.mark..tape.book.len(),
                Pass::BackwardMarkToStart(_) | Pass::PropagateMarkToStart => 0..tape.mark,
            };
            let nodes = tape.book[range].iter();
            let children = nodes.map(|node| unsafe { node.as_ref() }.num_children());
            children.sum()
        })
    }

    fn pointer(&self, node: usize) -> NonNull<TapeNode<f64>> {
        let pointer = self.recorded[node - 1].node_ptr();
        pointer.expect("the value has a node")
    }

    /// Where the Rust has the node of a recorded value.
    fn index(&self, node: usize) -> usize {
        let pointer = self.pointer(node);
        TAPE.with(|tape| tape.borrow().node(pointer).expect("it is on the tape").idx)
    }

    fn say(&mut self, word: impl Display) {
        write!(self.text, " {word}").expect("a string can be written");
    }

    fn say_given(&mut self, given: Given) {
        match given {
            Given::Node(node) => self.say(format_args!("n{node}")),
            Given::Plain(x) => self.say(short(bits(x))),
        }
    }

    /// The digests, and the line's end.
    fn say_digests(&mut self, digests: Digests) {
        self.say(short(digests.values));
        self.say(short(digests.adjoints));
        self.text.push('\n');
    }

    /// The digests of the whole tape, and the line's end.
    fn say_tape(&mut self) {
        self.say_digests(self.digests(self.live.len()));
    }
}

impl Default for Session {
    fn default() -> Self {
        Self::new()
    }
}

/// The inputs of max and min that docs/DIFFERENCES.md names: ties, whose partials depart and, at two
/// zeros of unlike sign, the value; and a NaN on the right alone, where the value does. Either flows on.
#[must_use]
pub fn departs(operation: &str, l: f64, r: f64) -> bool {
    matches!(operation, "max" | "min") && (l == r || (r.is_nan() && !l.is_nan()))
}
