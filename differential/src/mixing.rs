//! A 2 and a 3 that meet in one expression, near and far, and the lawful neighbours of these.

use crate::cases::Call;
use crate::random::Random;
use crate::syntax::{
    self, always, and, b, brought, instance, lit, n, op, p, prime, tree_of, wrap, Expr, Field,
};

/// What they meet in: its name, number of arguments, and kind.
const MEETINGS: [(&str, usize, Kind); 5] = [
    ("two places", 2, Kind::Plain),
    ("three places", 3, Kind::Plain),
    ("binder over a set", 2, Kind::Binder),
    ("declared operator of 2", 2, Kind::Declared),
    ("declared operator of 3", 3, Kind::Declared),
];

#[derive(Clone, Copy, Debug, PartialEq, Eq)]
enum Kind {
    /// A constant built-in.
    Plain,
    Binder,
    Declared,
}

/// How they come there, and whether that is lawful.
const WAYS: [(&str, bool); 9] = [
    ("near", false),
    ("far", false),
    ("by definitions", false),
    ("by parameters", false),
    ("by I!F", false),
    ("below a mask", false),
    ("apart by a mask", true),
    ("dropped", true),
    ("of one kind", true),
];

/// One file.
#[derive(Clone, Debug)]
pub struct Mixed {
    pub label: String,
    pub file: Vec<u8>,
    /// The field at fault, with cause 12; none if the file is lawful.
    pub fault: Option<u32>,
    /// Levels of such expressions over parameters at 2 and 3, and beside them.
    pub calls: Vec<Call>,
}

/// Meeting, places of the 2 and of the 3, and way of each combination.
fn combinations() -> Vec<(usize, [usize; 2], usize)> {
    let mut all = Vec::new();
    for (meeting, (_, places, _)) in MEETINGS.iter().enumerate() {
        for (action, temporal) in (0..*places).flat_map(|a| (0..*places).map(move |t| (a, t))) {
            if action != temporal {
                all.extend((0..WAYS.len()).map(|way| (meeting, [action, temporal], way)));
            }
        }
    }
    all
}

/// Files with a body as wide as fits: a 2 and a 3 at its ends, or twice a 2.
const WIDE: [(&str, bool); 2] = [
    ("ends of a wide body", false),
    ("ends of a wide body, of one kind", true),
];
const WIDE_BYTES: usize = 30_000;

/// The number of combinations, and of the wide ones.
pub fn count() -> usize {
    combinations().len() + WIDE.len()
}

fn label((meeting, [action, temporal], way): (usize, [usize; 2], usize)) -> String {
    let (what, ..) = MEETINGS[meeting];
    let (how, _) = WAYS[way];
    format!("{what}, 2 at {action}, 3 at {temporal}, {how}")
}

/// The labels of all of them.
pub fn labels() -> Vec<String> {
    let wide = WIDE.map(|(label, _)| label.to_string());
    combinations().into_iter().map(label).chain(wide).collect()
}

const X: u16 = 1;
const K2: u16 = 2;
const K3: u16 = 3;
const ACTION: u16 = 4;
const TEMPORAL: u16 = 5;
const DROPS: u16 = 6;
const MEET: u16 = 7;
const I: u16 = 8;
const TARGET: u16 = 9;
const K1: u16 = 10;
/// The module that is brought, and the one that has it.
const SOURCE: u16 = 1;
const USER: u16 = 2;

/// The two expressions in one meeting, the other places at 0 or 1.
fn meet(
    random: &mut Random,
    meeting: usize,
    [first, second]: [usize; 2],
    left: Expr,
    right: Expr,
) -> Expr {
    let (_, places, kind) = MEETINGS[meeting];
    let mut arguments = vec![lit(0); places];
    arguments[first] = left;
    arguments[second] = right;
    match (kind, places) {
        (Kind::Plain, 2) => op(48 + random.below(48) as u8, &arguments),
        (Kind::Plain, _) => op(96 + random.below(8) as u8, &arguments),
        (Kind::Binder, _) => op(132 + random.below(8) as u8, &arguments),
        (Kind::Declared, 2) => n(K2, &arguments),
        (Kind::Declared, _) => n(K3, &arguments),
    }
}

/// An expression below many plain ones, with lower levels beside it: its level stays.
fn far(random: &mut Random, inner: Expr) -> Expr {
    let mut expr = inner;
    for _ in 0..4 + random.below(6) {
        let low = random.pick(&[lit(3), op(113, &[prime(lit(1))]), wrap(2, lit(0))]);
        expr = match random.below(8) {
            0 => op(16 + random.below(32) as u8, &[expr]),
            1 => op(48 + random.below(48) as u8, &[expr, low]),
            2 => op(48 + random.below(48) as u8, &[low, expr]),
            3 => op(96 + random.below(8) as u8, &[low.clone(), expr, low]),
            4 => op(128 + random.below(4) as u8, &[expr]),
            5 => op(132 + random.below(8) as u8, &[expr, and(b(0), low)]),
            6 => n(K1, &[expr]),
            _ => n(K2, &[low, expr]),
        };
    }
    expr
}

/// A body of many variables between the two.
fn wide(label: &str, lawful: bool) -> Mixed {
    let x = || n(X, &[]);
    let last = if lawful { prime(x()) } else { always(x()) };
    let body = and(prime(x()), and(tree_of(WIDE_BYTES, &|_| x()), last));
    let fields = [
        Field::Module(USER),
        Field::Variable(X),
        Field::Definition(TARGET, 0, body),
        Field::End,
    ];
    Mixed {
        label: label.to_string(),
        file: syntax::file(&fields),
        fault: (!lawful).then_some(2),
        calls: Vec::new(),
    }
}

/// The file of one combination, or a wide one.
pub fn build(number: usize, random: &mut Random) -> Mixed {
    let combinations = combinations();
    let Some(&combination) = combinations.get(number) else {
        let (label, lawful) = WIDE[number - combinations.len()];
        return wide(label, lawful);
    };
    let (meeting, places, way) = combination;
    let (how, lawful) = WAYS[way];
    let x = || n(X, &[]);
    let action = random.pick(&[prime(x()), op(114, &[x()]), op(115, &[prime(x()), x()])]);
    let temporal = random.pick(&[always(x()), op(124, &[x(), prime(x())]), op(140, &[b(0)])]);
    let declarations =
        [(K1, 1), (K2, 2), (K3, 3)].map(|(name, count)| Field::Constant(name, count));
    let together = meet(random, meeting, places, p(0), p(1));
    let mut fields = vec![Field::Module(SOURCE)];
    fields.extend(declarations.clone());
    fields.extend([Field::Definition(MEET, 2, together.clone()), Field::End]);
    fields.extend([Field::Module(USER), Field::Variable(X)]);
    fields.extend(declarations);
    fields.extend([
        Field::Definition(ACTION, 0, action.clone()),
        Field::Definition(TEMPORAL, 1, and(p(0), temporal.clone())),
        Field::Definition(DROPS, 1, lit(7)),
        Field::Definition(MEET, 2, together.clone()),
        instance(I, 0, SOURCE, &[]),
    ]);
    let apart = |random: &mut Random, action: Expr, temporal: Expr| {
        meet(random, meeting, places, action, temporal)
    };
    let expr = match how {
        "near" => apart(random, action, temporal),
        "far" => {
            let (action, temporal) = (far(random, action), far(random, temporal));
            let inner = apart(random, action, temporal);
            far(random, inner)
        }
        "by definitions" => apart(random, n(ACTION, &[]), n(TEMPORAL, &[lit(1)])),
        "by parameters" => n(MEET, &[far(random, action), temporal]),
        "by I!F" => brought(I, MEET, &[action, far(random, temporal)]),
        "below a mask" => {
            let inner = apart(random, action, temporal);
            let inner = far(random, inner);
            match random.below(3) {
                0 => always(inner),
                1 => op(113, &[inner]),
                _ => op(120, &[inner, x()]),
            }
        }
        "apart by a mask" => {
            let action = far(random, action);
            let masked = match random.below(2) {
                0 => op(113, &[action]),
                _ => op(120, &[action, x()]),
            };
            apart(random, masked, temporal)
        }
        "dropped" => {
            let inner = apart(random, action.clone(), temporal.clone());
            match random.below(2) {
                0 => n(DROPS, &[far(random, inner)]),
                _ => apart(random, n(DROPS, &[action]), temporal),
            }
        }
        _ => {
            let either = random.pick(&[action, temporal]);
            let distant = far(random, either.clone());
            apart(random, distant, either)
        }
    };
    let target = match random.below(4) {
        0 => Field::Theorem(expr),
        1 if !lawful => Field::Assume(expr),
        _ => Field::Definition(TARGET, random.below(4) as u8, expr),
    };
    let fault = (!lawful).then_some(fields.len() as u32);
    fields.extend([target, Field::End]);
    Mixed {
        label: label(combination),
        file: syntax::file(&fields),
        fault,
        calls: calls(random, together),
    }
}

/// The expression over its two parameters at 2 and 3, near and far, and at levels beside these.
fn calls(random: &mut Random, together: Expr) -> Vec<Call> {
    let level = |expr: &Expr, levels: &[u8]| Call::Level {
        module: USER,
        expr: expr.bytes(),
        levels: levels.to_vec(),
    };
    let distant = far(random, together);
    let call = n(MEET, &[p(0), far(random, p(1))]);
    let mut calls = vec![level(&distant, &[2, 3]), level(&distant, &[3, 2])];
    let levels = random.pick(&[[2, 2], [3, 3], [2, 1], [0, 3], [4, 2]]);
    calls.push(level(&distant, &levels));
    let levels = random.pick(&[[2, 3], [3, 2], [3, 3], [1, 2]]);
    calls.push(level(&call, &levels));
    calls.push(level(&brought(I, MEET, &[p(1), p(0)]), &levels));
    calls
}
