//! The edges of a node, read out of what the Rust prints of it: its partials are private.

use crate::ad::dual::Dual;
use crate::ad::tape::TAPE;
use crate::operations::{Kind, Operand};

/// Supplied where no edge is made, so that a port which uses it is seen.
pub const UNUSED: f64 = 0.123_456_789;

/// The edges of a value's node, left before right: each child by its address, and the partial.
#[must_use]
pub fn edges(x: Dual<f64>) -> Vec<(String, f64)> {
    let node = printed(x);
    let list = node
        .split_once("childs: [")
        .and_then(|(_, rest)| rest.split_once(']'))
        .map(|(list, _)| list)
        .expect("a node has a list of children");
    list.split_terminator("), ").map(edge).collect()
}

fn edge(text: &str) -> (String, f64) {
    let (child, partial) = text
        .strip_prefix('(')
        .and_then(|text| text.split_once(", "))
        .expect("an edge is a child and a partial");
    (
        child.to_string(),
        partial.parse().expect("a partial is a float"),
    )
}

/// How the Rust prints the node of a value, which has to be on the tape:
/// `TapeNode { childs: [(CHILD, PARTIAL), .. ], adj: .. }`.
fn printed(x: Dual<f64>) -> String {
    let pointer = x.node_ptr().expect("the value has a node");
    TAPE.with(|tape| format!("{:?}", tape.borrow().node(pointer).expect("it is recorded")))
}

/// What the port is supplied for an operation, if it has to be: the value, and for each operand the
/// partial of its edge, or `UNUSED`.
#[must_use]
pub fn supplied(kind: &Kind, operands: &[Operand], made: Dual<f64>) -> Vec<f64> {
    if !kind.supplied {
        return Vec::new();
    }
    let edges = if made.is_on_tape() {
        edges(made)
    } else {
        Vec::new()
    };
    let mut partials = edges.into_iter().map(|(_, partial)| partial);
    let partial = |operand: &Operand| {
        let linked = operand.node_ptr().is_some();
        linked.then(|| partials.next()).flatten().unwrap_or(UNUSED)
    };
    let given = operands.iter().map(partial);
    [made.value()].into_iter().chain(given).collect()
}
