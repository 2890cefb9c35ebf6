//! Queries for the gate: the trial lines of paper 01, both sides of every rule about a query, the
//! samples, and generated ones of every kind of answer.

use crate::{
    built, expansions, long, marked, module, reply_line, sample_files, three, ENOUGH, MEMORY,
    OUTPUT,
};
use differential::cases::{Call, Case};
use differential::checker::Reference;
use differential::model::{Model, Named};
use differential::random::Random;
use differential::syntax::{
    self, always, and, b, brought, instance, lit, n, op, p, prime, tree_of, wrap, Expr, Field,
};
use differential::{accepted, lawful, queries, wide};
use std::collections::BTreeMap;
use std::io;
use std::path::Path;

/// Most bytes of an expression and most levels that the gate's program has room for.
const EXPRESSION: usize = 40_000;
const LEVELS: usize = 300;

/// A query with a name to find it by.
pub struct Query {
    pub label: String,
    pub file: Vec<u8>,
    pub call: Call,
    /// Bytes of card memory.
    pub lent: usize,
}

impl Query {
    /// The bytes that the gate's program reads after the file: kind, two numbers, levels and
    /// expression, each of these after its length, and the length of the output.
    pub fn bytes(&self) -> Vec<u8> {
        let (kind, first, second, levels, expr) = match &self.call {
            Call::Level {
                module,
                expr,
                levels,
            } => (1, u32::from(*module), 0, &levels[..], &expr[..]),
            Call::Alike { a, b } => (2, *a, *b, &[][..], &[][..]),
            Call::Body { d } => (3, *d, 0, &[][..], &[][..]),
            Call::Expand {
                module,
                expr,
                params,
                ..
            } => (
                4,
                u32::from(*module),
                u32::from(*params),
                &[][..],
                &expr[..],
            ),
            Call::Check => unreachable!("kept out"),
        };
        assert!(expr.len() <= EXPRESSION && levels.len() <= LEVELS && self.lent <= MEMORY);
        let mut bytes = Vec::new();
        for number in [kind, first, second] {
            bytes.extend(three(number as usize));
        }
        for part in [levels, expr] {
            bytes.extend(three(part.len()));
            bytes.extend(part);
        }
        bytes.extend(three(self.room()));
        bytes
    }

    /// Bytes of output that are lent.
    fn room(&self) -> usize {
        match self.call {
            Call::Expand { room, .. } => room,
            _ => 0,
        }
    }

    /// The query in a few words.
    pub fn words(&self) -> String {
        let mut words = self.call.to_string();
        if let Some((cut, _)) = words.char_indices().nth(100) {
            words.truncate(cut);
            words.push_str(" ..");
        }
        words
    }

    /// The reference's answer, with a sum over all the card memory, and of an expansion over all the
    /// output.
    pub fn answer(&self) -> String {
        let (mut memory, mut output) = (marked(MEMORY), marked(OUTPUT));
        let (cards, out) = (&mut memory[..self.lent], &mut output[..self.room()]);
        let reply = self.call.make(&Reference, &self.file, cards, out);
        let case = Case::new(&self.file, self.call.clone());
        let outcome = differential::cases::Outcome {
            reply,
            cards: Vec::new(),
            out: Vec::new(),
        };
        let value = match self.call {
            Call::Body { .. } => format!("{} {}", reply >> 16, reply & 0xFFFF),
            _ => reply.to_string(),
        };
        let lent = match self.call {
            Call::Expand { .. } => vec![&memory[..], &output],
            _ => vec![&memory[..]],
        };
        reply_line(case.refusal(&outcome), &value, &lent)
    }
}

/// Names of the file that the trial lines are asked of.
pub mod name {
    pub const X: u16 = 1;
    pub const Y: u16 = 2;
    pub const C: u16 = 3;
    pub const F: u16 = 4;
    pub const G: u16 = 5;
    pub const K: u16 = 6;
    pub const U: u16 = 7;
    pub const D: u16 = 8;
    pub const I: u16 = 9;
    pub const J: u16 = 10;
}

/// Modules of that file: the lines' own, N with its action under ENABLED, one that brings N's
/// definition, and one beside them.
pub const LINES: u16 = 1;
pub const N: u16 = 2;
pub const BRINGS: u16 = 3;
pub const BESIDE: u16 = 4;

/// Module N over the first argument of its K.
fn module_n(first: Expr) -> Vec<Field> {
    let k = n(name::K, &[first, always(n(name::U, &[]))]);
    vec![
        Field::Module(N),
        Field::Constant(name::K, 2),
        Field::Variable(name::U),
        Field::Definition(name::D, 0, always(k)),
        Field::End,
    ]
}

pub fn trial_file() -> Vec<Field> {
    let mut fields = vec![
        Field::Module(LINES),
        Field::Variable(name::X),
        Field::Variable(name::Y),
        Field::Constant(name::C, 0),
        Field::Definition(name::F, 1, lit(0)),
        Field::Definition(name::G, 2, always(and(p(0), p(1)))),
        Field::End,
    ];
    fields.extend(module_n(op(113, &[prime(n(name::U, &[]))])));
    let both = [(name::K, and(p(0), p(1)))];
    let over = [(name::K, and(p(1), p(2))), (name::U, p(0))];
    fields.extend([
        Field::Module(BRINGS),
        Field::Variable(name::U),
        instance(name::I, 0, N, &both),
        instance(name::J, 1, N, &over),
        Field::End,
        Field::Module(BESIDE),
        Field::Constant(name::X, 1),
        Field::End,
    ]);
    fields
}

/// A level query.
fn level(module: u16, expr: &Expr, levels: &[u8]) -> Call {
    level_of(module, expr.bytes(), levels)
}

fn level_of(module: u16, expr: Vec<u8>, levels: &[u8]) -> Call {
    let levels = levels.to_vec();
    Call::Level {
        module,
        expr,
        levels,
    }
}

/// The trial lines of paper 01 that are levels, as queries.
fn trial_lines() -> Vec<(&'static str, Call)> {
    let (x, y, c) = (|| n(name::X, &[]), || n(name::Y, &[]), || n(name::C, &[]));
    let plus = |left, right| op(52, &[left, right]);
    let over = |left, right| op(53, &[left, right]);
    let g = |left, right| n(name::G, &[left, right]);
    let step = over(prime(x()), plus(y(), c()));
    let hidden = |body| op(140, &[body]);
    let line = |expr: Expr| level(LINES, &expr, &[]);
    vec![
        ("c + 3", line(plus(c(), lit(3)))),
        ("x + 2 * c", line(plus(x(), op(54, &[lit(2), c()])))),
        ("x' + y > c", line(over(plus(prime(x()), y()), c()))),
        ("[][x' > y + c]_x", line(op(120, &[step, x()]))),
        ("(x' + 1)'", line(prime(plus(prime(x()), lit(1))))),
        ("c'", line(prime(c()))),
        ("ENABLED x'", line(op(113, &[prime(x())]))),
        ("[]x'", line(always(prime(x())))),
        ("F((x')')", line(n(name::F, &[prime(prime(x()))]))),
        ("G at (2, 3)", level(LINES, &g(p(0), p(1)), &[2, 3])),
        ("G at (3, 2)", level(LINES, &g(p(0), p(1)), &[3, 2])),
        ("G at (3, 3)", level(LINES, &g(p(0), p(1)), &[3, 3])),
        ("G at (2, 0)", level(LINES, &g(p(0), p(1)), &[2, 0])),
        ("G(x', []x)", line(g(prime(x()), always(x())))),
        ("G(x', 0)", line(g(prime(x()), lit(0)))),
        ("\\EE z: z", line(hidden(b(0)))),
        ("\\EE z: z'", line(hidden(prime(b(0))))),
        ("D of N, under ENABLED", level(N, &n(name::D, &[]), &[])),
    ]
}

/// A 2 and a 3 in one expression, near and far, and what keeps them apart.
fn mixing() -> Vec<(String, Call)> {
    let x = || n(name::X, &[]);
    let (action, temporal) = (|| prime(x()), || always(x()));
    let line = |expr: Expr| level(LINES, &expr, &[]);
    let deep = |inner| wrap(12, inner);
    let wide = || tree_of(30_000, &|_| n(name::X, &[]));
    let f = |inner| n(name::F, &[inner]);
    let mut all = vec![
        ("x' /\\ []x", line(and(action(), temporal()))),
        ("[]x /\\ x'", line(and(temporal(), action()))),
        (
            "far apart",
            line(and(deep(and(action(), x())), deep(temporal()))),
        ),
        (
            "30,000 bytes apart",
            line(and(action(), and(wide(), temporal()))),
        ),
        ("30,000 bytes and []x", line(and(wide(), temporal()))),
        ("[](x' /\\ []x)", line(always(and(action(), temporal())))),
        (
            "ENABLED (x' /\\ []x)",
            line(op(113, &[and(action(), temporal())])),
        ),
        (
            "ENABLED x' /\\ []x",
            line(and(op(113, &[action()]), temporal())),
        ),
        (
            "[][x']_x /\\ []x",
            line(and(op(120, &[action(), x()]), temporal())),
        ),
        (
            "[][x']_x /\\ x'",
            line(and(op(120, &[action(), x()]), action())),
        ),
        (
            "WF_x(x') /\\ x'",
            line(and(op(124, &[x(), action()]), action())),
        ),
        ("F(x' /\\ []x)", line(f(and(action(), temporal())))),
        ("F(x') /\\ []x", line(and(f(action()), temporal()))),
        (
            "\\E z : x' /\\ []z",
            line(op(128, &[and(action(), always(b(0)))])),
        ),
        (
            "\\EE z : z /\\ []z",
            line(op(140, &[and(b(0), always(b(0)))])),
        ),
        (
            "\\EE z : z' /\\ []z",
            line(op(140, &[and(prime(b(0)), always(b(0)))])),
        ),
        (
            "K over (p, q) at (2, 3)",
            level(N, &n(name::K, &[p(0), p(1)]), &[2, 3]),
        ),
        (
            "K over (q, p) at (2, 3)",
            level(N, &n(name::K, &[p(1), p(0)]), &[2, 3]),
        ),
        (
            "K over (p, q) at (2, 2)",
            level(N, &n(name::K, &[p(0), p(1)]), &[2, 2]),
        ),
        (
            "K in K",
            level(
                N,
                &n(name::K, &[p(0), n(name::K, &[lit(0), p(1)])]),
                &[3, 2],
            ),
        ),
    ]
    .into_iter()
    .map(|(label, call)| (label.to_string(), call))
    .collect::<Vec<_>>();
    for code in [48, 95, 132, 139] {
        for levels in [[2, 3], [3, 2], [2, 2], [3, 3], [4, 0]] {
            let call = level(LINES, &op(code, &[p(0), p(1)]), &levels);
            all.push((format!("code {code} at {levels:?}"), call));
        }
    }
    for code in [96, 103] {
        let three = op(code, &[p(0), p(1), p(2)]);
        for levels in [
            [2, 3, 0],
            [2, 0, 3],
            [0, 2, 3],
            [3, 2, 1],
            [3, 0, 2],
            [1, 3, 2],
            [2, 3, 2],
        ] {
            let call = level(LINES, &three, &levels);
            all.push((format!("code {code} at {levels:?}"), call));
        }
    }
    all
}

/// Queries of the trial file on both sides of every rule.
fn rules() -> Vec<(&'static str, Call)> {
    let x = || n(name::X, &[]);
    let bytes = |bytes: &[u8]| level_of(LINES, bytes.to_vec(), &[]);
    let line = |expr: Expr| level(LINES, &expr, &[]);
    let brought_d = |name, arguments: &[Expr]| brought(name, name::D, arguments);
    let wide = tree_of(40_000, &|_| prime(n(name::X, &[])));
    vec![
        // The module.
        ("x in another module", level(BESIDE, &x(), &[])),
        (
            "x of one argument there",
            level(BESIDE, &n(name::X, &[lit(0)]), &[]),
        ),
        ("module 0", level(0, &x(), &[])),
        ("a module that there is not", level(99, &x(), &[])),
        ("no module before layout", level_of(99, vec![], &[5])),
        ("the name of an operator", level(name::G, &x(), &[])),
        // Codes at the edges of their ranges.
        ("code 103", line(op(103, &[x(), lit(0), prime(x())]))),
        ("code 128", line(op(128, &[prime(x())]))),
        ("code 139", line(op(139, &[prime(x()), b(0)]))),
        ("code 140", line(op(140, &[b(0)]))),
        ("code 141", line(op(141, &[b(0)]))),
        // 3
        ("empty", bytes(&[])),
        ("cut", bytes(&[4, 49, 5, 0, 1])),
        ("left over", bytes(&[5, 0, 1, 0])),
        ("token 6", bytes(&[6])),
        ("code 104", bytes(&[4, 104])),
        ("code 126", bytes(&[4, 126])),
        ("code 127", bytes(&[4, 127])),
        ("code 142", bytes(&[4, 142])),
        ("code 255", bytes(&[4, 255])),
        (
            "code 104 with three arguments",
            line(op(104, &[lit(0), lit(0), lit(0)])),
        ),
        ("code 111 with one argument", line(op(111, &[lit(0)]))),
        (
            "code 126 with two arguments",
            line(op(126, &[lit(0), lit(0)])),
        ),
        ("code 127 with one argument", line(op(127, &[lit(0)]))),
        ("code 142 with one argument", line(op(142, &[lit(0)]))),
        ("name 0", bytes(&[2, 0, 0, 0])),
        ("I!F, I named 0", bytes(&[3, 0, 0, 0, 8, 0])),
        ("I!F, F named 0", bytes(&[3, 0, 9, 0, 0, 0])),
        ("a level of 5", level(LINES, &p(0), &[5])),
        ("a level of 255", level(LINES, &p(0), &[0, 255])),
        (
            "a level of 5 among nine",
            level(LINES, &p(0), &[0, 0, 0, 0, 0, 0, 0, 0, 5]),
        ),
        (
            "cut and nine parameters",
            level_of(LINES, vec![4, 49], &[0; 9]),
        ),
        // 5
        ("three parameters", level(LINES, &p(2), &[1, 2, 3])),
        ("four parameters", level(LINES, &p(3), &[0, 0, 0, 1])),
        (
            "eight parameters",
            level(LINES, &p(7), &[4, 4, 4, 4, 4, 4, 4, 3]),
        ),
        ("nine parameters", level(LINES, &p(0), &[0; 9])),
        ("256 parameters", level(LINES, &p(0), &[0; 256])),
        ("257 parameters", level(LINES, &p(0), &[0; 257])),
        ("nesting 32", line(wrap(31, x()))),
        ("nesting 33", line(wrap(32, x()))),
        (
            "nesting 33 in what is dropped",
            line(n(name::F, &[wrap(31, x())])),
        ),
        ("nine arguments", line(Expr::Name(99, vec![lit(0); 9]))),
        (
            "nine arguments of I!F",
            line(Expr::Brought(99, 1, vec![lit(0); 9])),
        ),
        // 9
        (
            "eight arguments of an unknown name",
            line(Expr::Name(99, vec![lit(0); 8])),
        ),
        ("an unknown name", line(n(99, &[]))),
        ("a name of another module", line(n(name::K, &[x(), x()]))),
        ("an unknown name, dropped", line(n(name::F, &[n(99, &[])]))),
        ("a parameter that is not given", level(LINES, &p(1), &[0])),
        ("a bound variable without a binder", line(b(0))),
        (
            "a bound variable outside its binder",
            line(op(132, &[b(0), b(0)])),
        ),
        ("a bound variable", line(op(132, &[lit(0), and(b(0), x())]))),
        (
            "an instance as an operator",
            level(BRINGS, &n(name::I, &[]), &[]),
        ),
        (
            "an operator as an instance",
            line(brought(name::F, name::D, &[])),
        ),
        (
            "what an instance does not bring",
            level(BRINGS, &brought(name::I, name::F, &[]), &[]),
        ),
        (
            "a brought name by itself",
            level(BRINGS, &n(name::D, &[]), &[]),
        ),
        // 10
        ("an argument too few", line(n(name::G, &[x()]))),
        ("an argument too many", line(n(name::X, &[x()]))),
        (
            "wrong arguments, dropped",
            line(n(name::F, &[n(name::F, &[])])),
        ),
        (
            "I!F without the instance's argument",
            level(BRINGS, &brought_d(name::J, &[]), &[]),
        ),
        (
            "unknown before wrong arguments",
            line(and(n(name::F, &[]), n(99, &[]))),
        ),
        ("too deep before unknown", line(wrap(32, n(99, &[])))),
        // Levels.
        ("I!F", level(BRINGS, &brought_d(name::I, &[]), &[])),
        (
            "I!F of a constant",
            level(BRINGS, &brought_d(name::J, &[lit(0)]), &[]),
        ),
        (
            "I!F of a transition",
            level(BRINGS, &brought_d(name::J, &[p(0)]), &[2]),
        ),
        (
            "level 4 under a dropping operator",
            line(n(name::F, &[prime(prime(x()))])),
        ),
        ("a parameter at 4", level(LINES, &p(0), &[4])),
        (
            "a parameter at 4, dropped",
            level(LINES, &n(name::F, &[p(0)]), &[4]),
        ),
        ("40,000 bytes", level(LINES, &wide, &[])),
        // Definitions.
        ("alike itself", Call::Alike { a: 1, b: 1 }),
        (
            "alike, one brought from the other",
            Call::Alike { a: 2, b: 3 },
        ),
        ("unlike parameter counts", Call::Alike { a: 0, b: 1 }),
        ("alike, the second not there", Call::Alike { a: 0, b: 5 }),
        ("alike, the first not there", Call::Alike { a: 5, b: 0 }),
        (
            "alike, both not there",
            Call::Alike {
                a: 65_536,
                b: 65_536,
            },
        ),
        ("body of the first", Call::Body { d: 0 }),
        ("body of the second", Call::Body { d: 1 }),
        ("body in a later module", Call::Body { d: 2 }),
        ("body of a brought definition", Call::Body { d: 3 }),
        ("body of one brought with a parameter", Call::Body { d: 4 }),
        ("body of the next after the last", Call::Body { d: 5 }),
        ("body of number 256", Call::Body { d: 256 }),
        ("body of number 65,536", Call::Body { d: 65_536 }),
    ]
}

/// Likeness where one bit of a card tells.
fn likeness() -> Vec<(&'static str, Vec<u8>, Call)> {
    let takes = |code| op(code, &[p(0)]);
    let beside = |inner: Expr| and(always(lit(0)), inner);
    let x = || n(90, &[]);
    // ∧ of eight parameters, one of them left out if there is such a one.
    let all_but = |left: u8| {
        let used = (0..8).filter(|index| *index != left).map(p);
        used.reduce(and).expect("some")
    };
    let file = module(&[
        Field::Variable(90),
        Field::Definition(1, 0, lit(0)),
        Field::Definition(2, 1, lit(0)),
        Field::Definition(3, 1, n(2, &[p(0)])),
        Field::Definition(4, 1, takes(112)),
        Field::Definition(5, 1, takes(114)),
        Field::Definition(6, 1, takes(113)),
        Field::Definition(7, 1, p(0)),
        Field::Definition(8, 1, and(p(0), x())),
        Field::Definition(9, 1, beside(p(0))),
        Field::Definition(10, 1, always(lit(0))),
        Field::Definition(11, 3, and(p(0), and(p(1), p(2)))),
        Field::Definition(12, 3, and(p(2), and(p(0), p(1)))),
        Field::Definition(13, 3, beside(and(p(0), and(p(1), p(2))))),
        Field::Definition(14, 3, beside(and(p(0), p(1)))),
        Field::Definition(15, 8, all_but(8)),
        Field::Definition(16, 8, wrap(1, all_but(8))),
        Field::Definition(17, 8, all_but(7)),
        Field::Definition(18, 7, all_but(7)),
        Field::Definition(19, 2, and(p(0), p(1))),
        Field::Definition(20, 2, and(op(113, &[p(0)]), and(p(0), p(1)))),
        Field::Definition(21, 2, and(op(113, &[p(1)]), and(p(0), p(1)))),
        Field::Definition(
            22,
            2,
            and(and(p(0), op(113, &[p(0)])), and(p(1), op(113, &[p(1)]))),
        ),
        Field::Definition(23, 2, and(x(), and(op(113, &[p(0)]), op(113, &[p(1)])))),
    ]);
    let ask = |label, a, b| (label, file.clone(), Call::Alike { a, b });
    vec![
        ask("other counts", 0, 1),
        ask("dropped here or there", 1, 2),
        ask("prime and UNCHANGED", 3, 4),
        ask("prime and ENABLED", 3, 5),
        ask("unlike at 0 only", 6, 7),
        ask("unlike at 2 and 4 only", 8, 9),
        ask("the same the other way round", 9, 8),
        ask("three parameters in another order", 10, 11),
        ask(
            "three parameters, unlike with the last at 2 or 4 only",
            12,
            13,
        ),
        ask("eight parameters", 14, 15),
        ask("eight parameters, one of them dropped", 14, 16),
        ask("eight parameters and seven", 16, 17),
        ask("a mask of 15 and one of 7", 18, 19),
        ask("pairs one way round and the other", 19, 20),
        ask("a mask of 15 or of 7, a pair or none", 19, 21),
        ask("weights or none, the same masks", 21, 22),
    ]
}

/// Brought bodies: through a chain, and through EXTENDS.
fn bodies() -> Vec<(String, Vec<u8>, Call)> {
    let file = syntax::file(&[
        Field::Module(1),
        Field::Constant(1, 0),
        Field::Definition(2, 1, and(p(0), n(1, &[]))),
        Field::Definition(3, 0, lit(3)),
        Field::End,
        Field::Module(2),
        Field::Extends(vec![1]),
        Field::Definition(4, 0, n(3, &[])),
        Field::End,
        Field::Module(3),
        Field::Variable(5),
        instance(0, 0, 2, &[(1, n(5, &[]))]),
        Field::Definition(6, 0, n(4, &[])),
        Field::End,
        Field::Module(4),
        instance(7, 2, 3, &[(5, p(1))]),
        Field::End,
    ]);
    (0..11)
        .map(|d| {
            let label = format!("brought bodies, {d}");
            (label, file.clone(), Call::Body { d })
        })
        .collect()
}

/// Queries of files that are refused: the file comes first.
pub fn refused_files() -> Vec<(&'static str, Vec<u8>, Call)> {
    let u = || n(name::U, &[]);
    let twelve = syntax::file(&module_n(prime(u())));
    // A constant module, with an action for one of its names and a temporal formula for the other.
    let mixed = [(name::C, prime(u())), (name::D, always(u()))];
    let twenty_one = syntax::file(&[
        Field::Module(N),
        Field::Constant(name::C, 0),
        Field::Constant(name::D, 0),
        Field::Definition(name::F, 0, n(name::C, &[])),
        Field::End,
        Field::Module(BRINGS),
        Field::Variable(name::U),
        instance(0, 0, N, &mixed),
        Field::End,
    ]);
    let open = syntax::file(&trial_file()[..6]);
    let wrong = level_of(99, vec![], &[9, 9, 9, 9]);
    let alike = Call::Alike { a: 99, b: 99 };
    let body = Call::Body { d: 99 };
    vec![
        (
            "trial line: N, refused at D",
            twelve.clone(),
            level(N, &lit(0), &[]),
        ),
        ("refused, and no such module", twelve.clone(), wrong.clone()),
        ("refused, alike", twelve.clone(), alike.clone()),
        ("refused, body", twelve, body.clone()),
        (
            "an instance that mixes",
            twenty_one.clone(),
            level(BRINGS, &n(name::F, &[]), &[]),
        ),
        (
            "an instance that mixes, and no such module",
            twenty_one.clone(),
            wrong.clone(),
        ),
        (
            "an instance that mixes, alike",
            twenty_one.clone(),
            alike.clone(),
        ),
        ("an instance that mixes, body", twenty_one, body.clone()),
        ("ends inside a module", open.clone(), wrong),
        ("ends inside a module, alike", open, alike),
        ("empty file, body", Vec::new(), body),
    ]
}

/// Room for the expansion of a definition that a lawful instance brings.
const BROUGHT: usize = 600;

/// Of each file with one lawful INSTANCE: the level of the last definition that it brings, with parameters at
/// 0, and with the instance's at 1, 2 and 3; its expansion, and whether it is like the one in its module. Of
/// each with cause 16 beside it: that the file comes first.
fn of_lawful_instances() -> Vec<(String, Vec<u8>, Call)> {
    let mut all = Vec::new();
    let mut cards = vec![0; MEMORY];
    for (number, label) in lawful::labels().into_iter().enumerate() {
        let mut files = built(4, |random| lawful::build(number, random).file);
        let file = files.swap_remove(0);
        let lawful = lawful::build(number, &mut Random::new(0));
        if lawful.moves.len() != 1 {
            continue;
        }
        let mut add = |call| all.push((format!("brought: {label}"), file.clone(), call));
        if lawful.refusal.is_some() {
            add(level(lawful::LAST, &lit(0), &[]));
            continue;
        }
        reference::packed_check(&file, &mut cards);
        let model = Model::of(&syntax::fields(&file), &cards);
        let [.., instanced, last] = &model.modules[..] else {
            unreachable!("a module instanced and the last");
        };
        let (expr, count) = last.scope.last_over_parameters().expect("a definition");
        let mut levels = vec![0; count.into()];
        add(level(last.name, &expr, &levels));
        let over = |instance: &Named| instance.parameters > 0;
        if last.scope.instances.iter().any(over) {
            for given in 1..=3 {
                levels[0] = given;
                add(level(last.name, &expr, &levels));
            }
            continue;
        }
        add(Call::Expand {
            module: last.name,
            expr: expr.bytes(),
            params: count,
            room: BROUGHT,
        });
        let original = *instanced.scope.order.last().expect("a definition");
        add(Call::Alike {
            a: original as u32,
            b: model.definitions.len() as u32 - 1,
        });
    }
    all
}

/// At most so many generated queries of one kind of answer, and of expansions that show little.
const EACH: usize = 12;
const FEW: usize = 2;
/// Files larger than this are left to the comparison.
const SMALL: usize = 600;

/// Generated queries, by kind of answer.
fn generated() -> Vec<Query> {
    let mut kinds: BTreeMap<String, usize> = BTreeMap::new();
    let mut all = Vec::new();
    for seed in 0..400 {
        let mut random = Random::new(seed);
        let grown = match seed % 3 {
            0 => accepted::grow_chain(&mut random),
            _ => accepted::grow(
                &mut random,
                60 + 2 * seed as usize % 300,
                1 + seed as usize % 4,
            ),
        };
        let file = grown.bytes();
        if file.len() > SMALL {
            continue;
        }
        let mut memory = vec![0; MEMORY];
        reference::packed_check(&file, &mut memory);
        let model = Model::of(&grown.fields, &memory);
        for _ in 0..12 {
            let query = queries::query(&mut random, &file, &model);
            let Case { file, call, .. } = query.case;
            // Numbers of the gate's program have three bytes, and its memory is what it is.
            let beyond = match call {
                Call::Alike { a, b } => a.max(b) >= 1 << 24,
                Call::Body { d } => d >= 1 << 24,
                Call::Level { ref expr, .. } => expr.len() > 400,
                Call::Expand { ref expr, room, .. } => expr.len() > 400 || room > OUTPUT,
                Call::Check => true,
            };
            if beyond {
                continue;
            }
            let case = Case::new(&file, call.clone());
            let outcome = case.run(&Reference);
            let what = match (&call, case.refusal(&outcome)) {
                (Call::Level { .. }, None) => format!("level {}", outcome.reply),
                (Call::Level { .. }, Some((cause, _))) => format!("level refused {cause}"),
                (Call::Alike { .. }, None) => format!("alike {}", outcome.reply),
                (Call::Alike { .. }, _) => "alike refused".into(),
                (Call::Expand { expr, .. }, None) if outcome.out.starts_with(expr) => {
                    "expand, no call".into()
                }
                (Call::Expand { .. }, None) => "expand".into(),
                (Call::Expand { .. }, Some((cause, _))) => format!("expand refused {cause}"),
                (_, None) => query.label.unwrap_or("body").into(),
                _ => "body refused".into(),
            };
            let count = kinds.entry(what.clone()).or_default();
            *count += 1;
            let most = match what.strip_prefix("expand") {
                Some(" refused 18") => 2 * FEW,
                None | Some("") => EACH,
                Some(_) => FEW,
            };
            if *count <= most {
                all.push(Query {
                    label: format!("generated, {what}, {count}"),
                    file,
                    call,
                    lent: ENOUGH[*count % ENOUGH.len()],
                });
            }
        }
    }
    all
}

/// For each sample that is accepted: its last definition over parameters at 0, 1 and 2, and at 2 and 3,
/// its body, and whether it is like the first.
fn of_samples(samples: &Path) -> io::Result<Vec<Query>> {
    let mut all = Vec::new();
    for (label, file) in sample_files(samples)? {
        let mut memory = vec![0; MEMORY];
        if reference::packed_check(&file, &mut memory) > 256 {
            continue;
        }
        let model = Model::of(&syntax::fields(&file), &memory);
        let last = model.definitions.len() as u32 - 1;
        let mut calls = vec![
            Call::Body { d: last },
            Call::Body { d: last + 1 },
            Call::Alike { a: 0, b: last },
        ];
        for module in &model.modules {
            let operators = module.scope.operators.iter().map(|each| (0, each));
            let named = module.scope.instances.iter();
            let named = named.flat_map(|each| each.operators.iter().map(|one| (each.name, one)));
            if let Some((within, operator)) = operators.chain(named).last() {
                let arguments: Vec<Expr> = (0..operator.count).map(p).collect();
                let expr = match within {
                    0 => Expr::Name(operator.name, arguments),
                    _ => Expr::Brought(within, operator.name, arguments),
                };
                let count = operator.count.into();
                let asked = [
                    ([0, 1, 2, 0, 1, 2, 0, 1], 0),
                    ([2, 3, 0, 0, 0, 0, 0, 0], 2),
                    ([1, 0, 2, 2, 1, 0, 2, 1], 4),
                    ([3, 1, 0, 1, 3, 0, 1, 3], 4),
                ];
                for (levels, fewest) in asked {
                    if count >= fewest {
                        calls.push(level(module.name, &expr, &levels[..count]));
                    }
                }
            }
        }
        all.extend(calls.into_iter().map(|call| Query {
            label: label.clone(),
            file: file.clone(),
            call,
            lent: 4_096,
        }));
    }
    Ok(all)
}

/// Queries of files in which something has eight parameters or arguments, and of bodies by what they make of a
/// card.
fn of_wide() -> Vec<(String, Vec<u8>, Call)> {
    let mut all = Vec::new();
    for (number, label) in wide::labels().into_iter().enumerate() {
        if !label.ends_with("of 8") && !label.starts_with("body") {
            continue;
        }
        let wide = wide::build(number, &mut Random::new(number as u64));
        for call in wide.calls {
            all.push((format!("wide: {label}"), wide.file.clone(), call));
        }
    }
    all
}

/// Every stored query.
pub fn all(samples: &Path) -> io::Result<Vec<Query>> {
    let trial = syntax::file(&trial_file());
    let mut all = Vec::new();
    let mut add = |label: String, file: &[u8], call, lent| {
        all.push(Query {
            label,
            file: file.to_vec(),
            call,
            lent,
        });
    };
    for (label, call) in trial_lines() {
        add(format!("trial line: {label}"), &trial, call, 4_096);
    }
    for (label, call) in mixing() {
        add(format!("2 and 3: {label}"), &trial, call, 4_096);
    }
    for (label, call) in rules() {
        add(label.into(), &trial, call, 4_096);
    }
    for (lent, what) in [
        (4_095, "one byte short"),
        (0, "no memory"),
        (32_000, "as much as before"),
        (40_000, "more"),
    ] {
        let asked = [
            level(LINES, &n(name::X, &[]), &[]),
            level_of(99, vec![], &[9]),
            Call::Alike { a: 0, b: 1 },
            Call::Body { d: 0 },
            Call::Body { d: 99 },
        ];
        for call in asked {
            add(format!("card memory, {what}"), &trial, call, lent);
        }
    }
    for (label, file, call) in likeness() {
        add(format!("alike: {label}"), &file, call, 4_097);
    }
    for (label, file, call) in bodies() {
        add(label, &file, call, 4_097);
    }
    for (label, file, call) in refused_files() {
        add(label.into(), &file, call, 40_000);
    }
    for (label, file, call) in of_lawful_instances() {
        add(label, &file, call, 4_096);
    }
    for (label, file, call) in of_wide() {
        add(label, &file, call, 4_096);
    }
    all.extend(expansions::all());
    all.extend(long::all());
    all.extend(of_samples(samples)?);
    all.extend(generated());
    Ok(all)
}
