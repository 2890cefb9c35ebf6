//! Long queries for the gate: expressions that a checker may read by tables, every kind of name in
//! them, with each fault in their last token.

use crate::queries::Query;
use differential::cases::Call;
use differential::syntax::{
    self, and, b, brought, instance, lit, n, op, p, prime, tree_of, Expr, Field,
};

/// Names of the file.
const X: u16 = 1;
const C: u16 = 2;
const F: u16 = 3;
const G: u16 = 4;
const H: u16 = 5;
const FIRST: u16 = 6;
const SAME: u16 = 7;
const LATER: u16 = 8;
const I: u16 = 300;
const J: u16 = 65_535;
const NONE: u16 = 301;
/// Its modules; all is asked in the last.
const BELOW: u16 = 400;
const EMPTY: u16 = 401;
const LAST: u16 = 402;

/// A module with F, G and H, instanced twice with other names around, F defined again beside them;
/// and an instance that brings nothing.
fn file() -> Vec<u8> {
    let definitions = [
        Field::Definition(F, 0, lit(1)),
        Field::Definition(G, 1, and(p(0), n(C, &[]))),
        Field::Definition(H, 2, op(132, &[p(0), and(b(0), p(1))])),
    ];
    let mut fields = vec![Field::Module(BELOW), Field::Constant(C, 0)];
    fields.extend(definitions);
    fields.extend([
        Field::End,
        Field::Module(EMPTY),
        Field::End,
        Field::Module(LAST),
        Field::Variable(X),
        Field::Constant(C, 0),
        Field::Definition(F, 0, prime(n(X, &[]))),
        instance(I, 0, BELOW, &[(C, lit(7))]),
        Field::Definition(FIRST, 2, p(0)),
        Field::Definition(SAME, 1, p(0)),
        instance(J, 1, BELOW, &[(C, p(0))]),
        instance(NONE, 0, EMPTY, &[]),
        Field::Definition(LATER, 0, n(F, &[])),
        Field::End,
    ]);
    syntax::file(&fields)
}

/// Every kind of name, in turn.
fn leaf(number: usize) -> Expr {
    let x = || n(X, &[]);
    match number % 12 {
        0 => x(),
        1 => n(F, &[]),
        2 => brought(I, F, &[]),
        3 => brought(I, G, &[n(C, &[])]),
        4 => brought(J, F, &[p(0)]),
        5 => brought(J, H, &[p(1), x(), lit(4)]),
        6 => n(FIRST, &[p(1), brought(I, F, &[])]),
        7 => n(SAME, &[n(SAME, &[p(0)])]),
        8 => n(LATER, &[]),
        9 => op(133, &[x(), and(b(0), n(SAME, &[b(0)]))]),
        10 => brought(I, H, &[p(0), op(128, &[b(0)])]),
        _ => op(3, &[]),
    }
}

/// An expression of about so many bytes that ends in another.
fn ending(bytes: usize, last: Expr) -> Expr {
    and(tree_of(bytes, &leaf), last)
}

fn faults() -> Vec<(&'static str, Expr)> {
    let deep = |times: usize| (1..times).fold(lit(1), |inner, _| op(16, &[inner]));
    vec![
        ("no fault", lit(9)),
        ("nesting 32", deep(31)),
        ("nesting 33", deep(32)),
        ("nine arguments", n(X, &vec![lit(1); 9])),
        ("an unknown name", n(9, &[])),
        ("a module's name", n(LAST, &[])),
        ("an instance as an operator", n(I, &[])),
        ("an operator as an instance", brought(F, F, &[])),
        ("an unknown name in an instance", brought(I, 9, &[])),
        (
            "a name of this module in an instance",
            brought(J, LATER, &[]),
        ),
        ("a name in an empty instance", brought(NONE, F, &[])),
        ("a declared name in an instance", brought(I, C, &[])),
        ("an unknown parameter", p(2)),
        ("an unknown bound index", b(0)),
        ("a count too low", brought(J, F, &[])),
        ("a count too high", n(X, &[lit(1)])),
        (
            "a count that another instance has",
            brought(I, H, &[p(0), p(1), p(1)]),
        ),
    ]
}

fn level(expr: Vec<u8>) -> Call {
    let levels = vec![0, 1];
    Call::Level {
        module: LAST,
        expr,
        levels,
    }
}

fn expand(expr: Vec<u8>) -> Call {
    Call::Expand {
        module: LAST,
        expr,
        params: 2,
        room: 65_535,
    }
}

/// All of them.
pub fn all() -> Vec<Query> {
    let mut all = Vec::new();
    let mut add = |label: String, call| {
        all.push(Query {
            label: format!("long: {label}"),
            file: file(),
            call,
            lent: 32_001,
        });
    };
    for (what, last) in faults() {
        let plain = ending(4_200, last.clone());
        // Dropped, the fault inside.
        let dropped = n(FIRST, &[lit(1), ending(4_200, last)]);
        add(format!("level, {what}"), level(plain.bytes()));
        add(format!("expand, {what}"), expand(plain.bytes()));
        add(format!("expand, dropped, {what}"), expand(dropped.bytes()));
    }
    for bytes in [1_000, 4_080, 4_096, 39_000] {
        let expr = ending(bytes, lit(1)).bytes();
        add(format!("level, {bytes} bytes"), level(expr.clone()));
        add(format!("expand, {bytes} bytes"), expand(expr));
    }
    let expr = ending(4_200, lit(1)).bytes();
    let cut = expr[..expr.len() - 1].to_vec();
    let more = [&expr[..], &[5]].concat();
    for (what, expr) in [("cut", cut), ("left over", more)] {
        add(format!("level, {what}"), level(expr.clone()));
        add(format!("expand, {what}"), expand(expr));
    }
    all
}
