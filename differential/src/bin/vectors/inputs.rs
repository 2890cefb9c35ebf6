//! Inputs for the listing program itself: a file as large as one may be, an input over that limit, a
//! refusal, and nothing.

use crate::expansions::of_bytes;
use differential::accepted::LARGEST;
use differential::syntax::{
    self, always, and, b, instance, lit, n, op, p, prime, tree, Expr, Field,
};

/// More than a program has to read of an input that is over the limit.
const LONG: usize = 40_000;
/// Names of five digits, so that a listing is as long as it may be.
const SOURCE: u16 = 10_001;
const USER: u16 = 10_101;
const DEFINED: u16 = 20_001;
const INSTANCE: u16 = 30_001;
/// The names that each module declares.
const V: u16 = 40_001;
const C: u16 = 40_002;
/// Numbers of parameters, for each of which there is a source.
const COUNTS: [u8; 8] = [0, 1, 2, 3, 4, 5, 6, 8];
/// Definitions of a source.
const EACH: u16 = 4;
/// Modules that bring all sources: 32 definitions written, and seven times 32 brought.
const USERS: u16 = 7;

/// The inputs by name.
pub fn input(name: &str) -> Option<Vec<u8>> {
    match name {
        "full" => Some(full()),
        "long" => Some(full().into_iter().cycle().take(LONG).collect()),
        "refused" => Some(refused()),
        "nothing" => Some(Vec::new()),
        _ => None,
    }
}

/// A body of so many parameters, of another kind for each number.
fn body(number: u16, parameters: u8) -> Expr {
    let leaf = |at: usize| match at {
        0 => n(V, &[]),
        1 => n(C, &[]),
        _ => p(at as u8 - 2),
    };
    let all = tree(2 + usize::from(parameters), &leaf);
    match number {
        0 => all,
        1 => prime(all),
        2 => op(113, &[all]),
        3 => always(all),
        4 => op(115, &[all, n(V, &[])]),
        5 => op(122, &[n(C, &[]), all]),
        6 => op(132, &[all, b(0)]),
        _ => op(140, &[and(always(b(0)), all)]),
    }
}

/// A module of definitions that all have so many parameters.
fn source(parameters: u8) -> Vec<Field> {
    // Every kind of body comes with an even number of parameters or with an odd one.
    let kind = |number| 2 * number + u16::from(parameters % 2);
    let define =
        |number| Field::Definition(DEFINED + number, parameters, body(kind(number), parameters));
    let mut fields = vec![
        Field::Module(SOURCE + u16::from(parameters)),
        Field::Variable(V),
        Field::Constant(C, 0),
    ];
    fields.extend((0..EACH).map(define));
    fields
}

/// A module that brings each source under a name, with as many parameters more as there may be; its
/// variable stands for itself, or a parameter for it.
fn user(number: u16) -> Vec<Field> {
    let bring = |parameters: u8| {
        let name = INSTANCE + 10 * number + u16::from(parameters);
        let variable = match number {
            last if last < u16::from(8 - parameters) => p(last as u8),
            _ => n(V, &[]),
        };
        let with = [(V, variable), (C, lit(number))];
        instance(name, 8 - parameters, SOURCE + u16::from(parameters), &with)
    };
    let mut fields = vec![Field::Module(USER + number), Field::Variable(V)];
    fields.extend(COUNTS.map(bring));
    fields
}

/// 256 definitions in 32,768 bytes: the last module has a THEOREM of what is left of them.
fn full() -> Vec<u8> {
    let mut modules: Vec<_> = COUNTS.map(source).to_vec();
    modules.extend((0..USERS).map(user));
    let mut fields = modules.join(&Field::End);
    let rest = [Field::Theorem(lit(0)), Field::End];
    let used = syntax::file(&fields).len() + syntax::file(&rest).len();
    let last = of_bytes(LARGEST - used + lit(0).bytes().len());
    fields.extend([Field::Theorem(last), Field::End]);
    syntax::file(&fields)
}

/// Cause 14 in field 11: a variable for a constant. The THEOREM after it has cause 9.
fn refused() -> Vec<u8> {
    let mut fields = source(0);
    fields.extend([
        Field::End,
        Field::Module(USER),
        Field::Variable(V),
        instance(INSTANCE, 0, SOURCE, &[(C, lit(1))]),
        instance(INSTANCE + 1, 0, SOURCE, &[(C, n(V, &[]))]),
        Field::Theorem(n(C, &[])),
        Field::End,
    ]);
    syntax::file(&fields)
}
