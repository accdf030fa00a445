//! The operations of the tape, each in every form of its operands, by the Rust's own operators.

use std::ops::{Add, Div, Mul, Neg, Sub};

use crate::ad::constant::Const;
use crate::ad::dual::Dual;
use crate::ad::expr::{
    abs, cos, exp, fabs, log, max, min, pow, sin, sqrt, AbsOp, AddOp, BinOp, CosOp, DivOp, ExpOp,
    FabsOp, LogOp, MaxOp, MinOp, MulOp, PowOp, SinOp, SqrtOp, SubOp, UnOp,
};
use crate::ad::scalar::Scalar;

/// An operand: a value with a node, or one without, which stands for a plain number.
pub type Operand = Dual<f64>;

/// One form of an operation: a letter for each operand, and what the Rust records.
pub struct Form {
    pub letters: &'static str,
    pub record: fn(Operand, Operand) -> Dual<f64>,
}

/// An operation in each of its forms, and whether its operands make edges.
pub struct Kind {
    pub name: &'static str,
    pub links: bool,
    /// Whether the port is supplied its value and partials.
    pub supplied: bool,
    /// The value and the partials at two numbers.
    pub rule: fn(f64, f64) -> [f64; 3],
    pub forms: Vec<Form>,
}

impl Kind {
    #[must_use]
    pub fn operands(&self) -> usize {
        self.forms[0].letters.len()
    }
}

fn plain(x: Operand) -> Const<f64> {
    Const(x.value())
}

/// A value that is on the tape, put there again.
fn put_again(mut x: Operand) -> Dual<f64> {
    x.put_on_tape();
    x
}

/// An operation of one operand, a `Dual` or a `Const`.
macro_rules! one {
    ($name:literal, $operation:path, $rule:ident) => {
        Kind {
            name: $name,
            links: true,
            supplied: false,
            rule: |l, _| {
                let value = $rule::eval(l);
                [value, $rule::deriv(l, value), 0.0]
            },
            forms: vec![
                Form {
                    letters: "n",
                    record: |l, _| $operation(l).into(),
                },
                Form {
                    letters: "p",
                    record: |l, _| $operation(plain(l)).into(),
                },
            ],
        }
    };
}

/// An operation of two operands, each a `Dual` or a `Const`.
macro_rules! two {
    ($name:literal, $operation:path, $rule:ident) => {
        Kind {
            name: $name,
            links: true,
            supplied: false,
            rule: |l, r| [$rule::eval(l, r), $rule::d_left(l, r), $rule::d_right(l, r)],
            forms: vec![
                Form {
                    letters: "nn",
                    record: |l, r| $operation(l, r).into(),
                },
                Form {
                    letters: "np",
                    record: |l, r| $operation(l, plain(r)).into(),
                },
                Form {
                    letters: "pn",
                    record: |l, r| $operation(plain(l), r).into(),
                },
                Form {
                    letters: "pp",
                    record: |l, r| $operation(plain(l), plain(r)).into(),
                },
            ],
        }
    };
}

/// Operations 0 to 7, in the order of their numbers, by the Rust's own operators.
fn first_kinds() -> Vec<Kind> {
    vec![
        Kind {
            name: "leaf",
            links: false,
            supplied: false,
            rule: |l, _| [l, 0.0, 0.0],
            forms: vec![
                Form {
                    letters: "n",
                    record: |l, _| put_again(l),
                },
                Form {
                    letters: "p",
                    record: |l, _| Dual::new(l.value()),
                },
            ],
        },
        two!("add", Add::add, AddOp),
        two!("sub", Sub::sub, SubOp),
        two!("mul", Mul::mul, MulOp),
        two!("div", Div::div, DivOp),
        two!("max", max, MaxOp),
        two!("min", min, MinOp),
        Kind {
            name: "neg",
            links: true,
            supplied: false,
            rule: |l, _| [l.neg_val(), -1.0, 0.0],
            forms: vec![
                Form {
                    letters: "n",
                    record: |l, _| l.neg_val(),
                },
                Form {
                    letters: "p",
                    record: |l, _| Neg::neg(plain(l)).into(),
                },
            ],
        },
    ]
}

/// Every operation that the port works out itself, in the order of its number.
#[must_use]
pub fn kinds() -> Vec<Kind> {
    let mut all = first_kinds();
    all.push(one!("sqrt", sqrt, SqrtOp));
    all
}

/// An operation as the port takes it that is left to the host.
fn left_to_the_host(kind: Kind) -> Kind {
    let names = ["supplied_one", "supplied_two"];
    Kind {
        name: names[kind.operands() - 1],
        supplied: true,
        ..kind
    }
}

/// The functions that a host may supply, of one operand or of two. A host may take a root of its own.
#[must_use]
pub fn supplied_kinds() -> Vec<Kind> {
    let functions = vec![
        one!("exp", exp, ExpOp),
        one!("ln", log, LogOp),
        one!("sqrt", sqrt, SqrtOp),
        one!("sin", sin, SinOp),
        one!("cos", cos, CosOp),
        one!("abs", abs, AbsOp),
        one!("fabs", fabs, FabsOp),
        two!("pow", pow, PowOp),
    ];
    functions.into_iter().map(left_to_the_host).collect()
}

/// The operations of a list: the port's own, or operations 0 to 7 and those that the host supplies.
#[must_use]
pub fn kinds_of(supplied: bool) -> Vec<Kind> {
    if !supplied {
        return kinds();
    }
    let mut all = first_kinds();
    all.extend(supplied_kinds());
    all
}
