//! r: families of INSTANCEs: one long body brought often, chains as long as a file may have them, operators
//! whose substitutes drop arguments, and as many declared names as there may be.
//!
//! A module with a named instance cannot be instanced (cause 16), so below the last module every chain is of
//! unnamed ones: where it branches, it does so because one module is brought by several.

use crate::accepted::LARGEST;
use crate::cards::MOST;
use crate::cases::Call;
use crate::families::{family, Family};
use crate::syntax::{
    self, always, and, brought, instance, lit, n, op, p, prime, tree, tree_of, Expr, Field,
};
use std::cell::Cell;

/// An operator of eight arguments, a constant and a variable, which most modules here declare.
const K: u16 = 1;
const C: u16 = 2;
const X: u16 = 3;
/// A second operator of eight arguments.
const L: u16 = 4;
/// The first of the names of definitions.
const D: u16 = 100;
/// The first of the names of instances.
const I: u16 = 1_000;
/// The module that instances the others, last in its file.
const LAST: u16 = 16;

/// Every argument of an operator.
const ALL: u8 = u8::MAX;

fn parameters() -> Vec<Expr> {
    (0..MOST as u8).map(p).collect()
}

/// A parameter as it is, below [], below ENABLED, or not at all: a 2 and a 3 do not meet.
fn argument(at: usize, kind: usize) -> Expr {
    let parameter = p(at as u8);
    match kind % 5 {
        0 => parameter,
        1 => always(and(parameter, n(X, &[]))),
        2 => op(113, &[and(parameter, prime(n(X, &[])))]),
        3 => n(X, &[]),
        _ => n(C, &[]),
    }
}

/// A call with each parameter in the argument of its number: whoever drops an argument loses a parameter.
fn call(operator: u16, kind: usize) -> Expr {
    let each = (0..MOST).map(|at| argument(at, kind + at));
    Expr::Name(operator, each.collect())
}

/// The arguments of a mask in few bytes.
fn used(mask: u8) -> Expr {
    let chosen = (0..MOST as u8).filter(|at| mask >> at & 1 == 1);
    let mut parts: Vec<Expr> = chosen.map(p).collect();
    while parts.len() > 2 {
        let three = parts.split_off(parts.len() - 3);
        parts.push(op(96, &three));
    }
    match &parts[..] {
        [] => op(0, &[]),
        [only] => only.clone(),
        both => op(49, both),
    }
}

/// An operator over its arguments, each in the next one's place, those of a mask only.
fn turned(operator: u16, mask: u8) -> Expr {
    let each = (0..MOST).map(|at| match mask >> at & 1 {
        0 => op(0, &[]),
        _ => p(((at + 1) % MOST) as u8),
    });
    Expr::Name(operator, each.collect())
}

/// All but the argument of this number.
fn without(argument: usize) -> u8 {
    ALL & !(1 << (argument % MOST))
}

fn declared(operators: &[u16]) -> Vec<Field> {
    let each = operators.iter().map(|&name| Field::Constant(name, 8));
    each.chain([Field::Constant(C, 0), Field::Variable(X)])
        .collect()
}

fn module(name: u16, inside: Vec<Field>) -> Vec<Field> {
    let mut fields = vec![Field::Module(name)];
    fields.extend(inside);
    fields.push(Field::End);
    fields
}

/// A definition of this name, which may call those that stand before it.
type Define<'a> = &'a dyn Fn(u16) -> Field;

/// A file whose definitions, trees of such leaves, share the bytes that the rest of it leaves.
fn filled(fields: &dyn Fn(Define) -> Vec<Field>, leaf: &dyn Fn(u16, usize) -> Expr) -> Vec<u8> {
    let count = Cell::new(0);
    let empty = fields(&|name| {
        count.set(count.get() + 1);
        Field::Definition(name, 8, lit(0))
    });
    let left = LARGEST - syntax::file(&empty).len();
    let share = left / count.get();
    syntax::file(&fields(&|name| {
        Field::Definition(name, 8, tree_of(share, &|i| leaf(name, i)))
    }))
}

fn named(what: &str, file: &[u8], call: Call) -> Family {
    family(&format!("r: {what}"), file, call)
}

/// A check, and the level of what was brought last.
fn asked(what: &str, file: Vec<u8>, module: u16, last: Expr) -> Vec<Family> {
    let level = Call::Level {
        module,
        levels: vec![1; last.arguments().len()],
        expr: last.bytes(),
    };
    vec![
        named(what, &file, Call::Check),
        named(&format!("{what}, level"), &file, level),
    ]
}

/// One definition as long as there is room for, and 254 instances of its module.
fn long_bodies() -> Vec<Family> {
    const COUNT: usize = 254;
    let last = brought(I + COUNT as u16 - 1, D, &parameters());
    let build = |what: &str,
                 operators: &[u16],
                 stands: &[Field],
                 with: &dyn Fn(usize) -> Vec<(u16, Expr)>| {
        let fields = |define: Define| {
            let mut source = declared(operators);
            source.push(define(D));
            let mut inside = declared(&[]);
            inside.extend_from_slice(stands);
            inside.extend((0..COUNT).map(|i| instance(I + i as u16, 0, 1, &with(i))));
            [module(1, source), module(LAST, inside)].concat()
        };
        let file = match operators {
            [] => filled(&fields, &|_, i| argument(i % MOST, i / MOST)),
            _ => filled(&fields, &|_, i| call(K, i)),
        };
        asked(what, file, LAST, last.clone())
    };
    let drops = Field::Definition(K, 8, used(without(4)));
    [
        build("254 of 28 KB", &[], &[], &|i| vec![(C, lit(i as u16))]),
        build("254 of 26 KB, other drops", &[K], &[], &|i| {
            vec![(K, used(i as u8))]
        }),
        build("254 of 24 KB, one drop", &[K], &[], &|_| {
            vec![(K, used(without(4)))]
        }),
        build("254 of 30 KB, drop implied", &[K], &[drops], &|_| vec![]),
    ]
    .concat()
}

/// Sixteen definitions brought by unnamed instances of each module in the next: 256 in all.
fn through_fifteen() -> Vec<Family> {
    let build = |what: &str, with: &dyn Fn(u16) -> Vec<(u16, Expr)>| {
        let fields = |define: Define| {
            let mut first = declared(&[K, L]);
            first.extend((0..16).map(|at| define(D + at)));
            let mut fields = module(1, first);
            for level in 2..=LAST {
                let mut inside = declared(&[K, L]);
                inside.push(instance(0, 0, level - 1, &with(level)));
                fields.extend(module(level, inside));
            }
            fields
        };
        let file = filled(&fields, &|name, i| call([K, L][name as usize % 2], i));
        asked(what, file, LAST, n(D + 15, &parameters()))
    };
    // As they turn, another argument comes to the last place at each level: of sixteen, one is not dropped.
    let one = |level: u16| match level {
        ..=8 => (without(7), ALL),
        _ => (ALL, without(7)),
    };
    [
        build("256 through 15, implied", &|_| vec![]),
        build("256 through 15, none dropped", &|_| {
            vec![(K, turned(L, ALL)), (L, turned(K, ALL))]
        }),
        build("256 through 15, one dropped", &|level| {
            let (first, second) = one(level);
            vec![(K, turned(K, first)), (L, turned(L, second))]
        }),
    ]
    .concat()
}

/// Branches of so many modules, all from module 1, each of which drops in another way at each level; then 240
/// instances of their ends in turn, each with other drops.
fn branches(count: u16, levels: u16) -> Vec<Family> {
    const COUNT: u16 = 240;
    let fields = |define: Define| {
        let mut source = declared(&[K]);
        source.push(define(D));
        let mut fields = module(1, source);
        let mut ends = Vec::new();
        for branch in 0..count {
            let mut below = 1;
            for level in 0..levels {
                let mut inside = declared(&[K]);
                // As they turn, every second argument comes to a place where it is dropped, no other does.
                let put = turned(K, without((3 * branch + level) as usize));
                inside.push(instance(0, 0, below, &[(K, put)]));
                below = 2 + branch * levels + level;
                fields.extend(module(below, inside));
            }
            ends.push(below);
        }
        let mut inside = declared(&[]);
        inside.extend((0..COUNT).map(|i| {
            let end = ends[i as usize % ends.len()];
            instance(I + i, 0, end, &[(K, used(i as u8))])
        }));
        fields.extend(module(LAST, inside));
        fields
    };
    let file = filled(&fields, &|_, i| call(K, i));
    let last = brought(I + COUNT - 1, D, &parameters());
    asked(
        &format!("{count} by {levels}, other drops"),
        file,
        LAST,
        last,
    )
}

/// Fifteen modules, each of which brings the one before, drops an argument, and adds a definition that calls those
/// brought; then nine instances of the last one, each with other drops.
fn growing() -> Vec<Family> {
    let fields = |define: Define| {
        let mut fields = Vec::new();
        for level in 1..LAST {
            let mut inside = declared(&[K]);
            if level > 1 {
                let put = turned(K, without(level as usize));
                inside.push(instance(0, 0, level - 1, &[(K, put)]));
            }
            inside.push(define(D + level));
            fields.extend(module(level, inside));
        }
        let mut inside = declared(&[]);
        inside.extend((0..9).map(|i| instance(I + i, 0, LAST - 1, &[(K, used(27 * i as u8))])));
        fields.extend(module(LAST, inside));
        fields
    };
    let leaf = |name: u16, i: usize| match (name - D - 1) as usize {
        before @ 1.. if i % 2 == 1 => n(D + 1 + (i / 2 % before) as u16, &parameters()),
        _ => call(K, i),
    };
    let last = brought(I + 8, D + LAST - 1, &parameters());
    asked(
        "15 levels, each adds and drops",
        filled(&fields, &leaf),
        LAST,
        last,
    )
}

/// 64 declared names, all of them used by one definition: constants, variables and operators of two.
fn names() -> Vec<Field> {
    let declare = |name: u16| match name % 4 {
        0 => Field::Variable(name),
        1 => Field::Constant(name, 2),
        _ => Field::Constant(name, 0),
    };
    (1..=64).map(declare).collect()
}

fn uses_of_names() -> Field {
    let leaf = |i: usize| match (i + 1) % 4 {
        0 => always(n(i as u16 + 1, &[])),
        1 => n(i as u16 + 1, &[n(2, &[]), n(3, &[])]),
        _ => n(i as u16 + 1, &[]),
    };
    Field::Definition(D, 0, tree(64, &leaf))
}

/// Instances with six parameters, which stand for the names of these numbers in another order each time.
fn with_parameters(count: u16, of: u16, names: u16) -> Vec<Field> {
    let put = |i: u16, name: u16| match name % 4 {
        1 => (name, p(6 + (i % 2) as u8)),
        _ => (name, p(((i + name) % 6) as u8)),
    };
    let with = |i: u16| (1..=names).map(|name| put(i, name)).collect::<Vec<_>>();
    (0..count)
        .map(|i| instance(I + i, 6, of, &with(i)))
        .collect()
}

/// Every name written, by as many instances as there is room for; some names written, the others implied, by more
/// instances.
fn many_names() -> Vec<Family> {
    let over = |count: u16| brought(I + count - 1, D, &parameters()[..6]);
    let mut source = names();
    source.push(uses_of_names());
    let written = [module(1, source), module(LAST, with_parameters(80, 1, 64))];
    let user = vec![Field::Extends(vec![1]), uses_of_names()];
    let mut inside = vec![Field::Extends(vec![1])];
    inside.extend(with_parameters(190, 2, 25));
    let some = [module(1, names()), module(2, user), module(LAST, inside)];
    [
        asked(
            "64 names written by 80",
            syntax::file(&written.concat()),
            LAST,
            over(80),
        ),
        asked(
            "25 of 64 names written by 190",
            syntax::file(&some.concat()),
            LAST,
            over(190),
        ),
    ]
    .concat()
}

/// All of them.
pub fn families() -> Vec<Family> {
    [
        long_bodies(),
        through_fifteen(),
        branches(1, 14),
        branches(2, 7),
        branches(4, 3),
        branches(14, 1),
        growing(),
        many_names(),
    ]
    .concat()
}

#[cfg(test)]
mod tests {
    use super::*;
    use crate::cards::CARD;
    use crate::cases::Case;
    use crate::checker::Reference;
    use std::collections::BTreeSet;

    /// Every file is accepted, and what is dropped in other ways has other cards.
    #[test]
    fn as_meant() {
        for family in families() {
            let case = Case::new(&family.file, family.call.clone());
            let outcome = case.run(&Reference);
            assert_eq!(case.refusal(&outcome), None, "{}", family.label);
            let cards: BTreeSet<&[u8]> = outcome.cards.chunks(CARD).collect();
            println!("{}: {} cards", family.label, cards.len());
            let least = match &family.label[3..] {
                what if what.starts_with("254 of 26 KB, other drops") => 255,
                what if what.starts_with("256 through 15, one dropped") => 16,
                what if what.contains("other drops") || what.contains("adds and drops") => 17,
                _ => 1,
            };
            assert!(cards.len() >= least, "{}: {}", family.label, cards.len());
        }
    }
}
