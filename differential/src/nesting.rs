//! Families of expansions in which calls nest as deep as the longest output has room for: results deep
//! to one side, hundreds of names for one thing, binders, and what stands for an instance's operators.

use crate::expansions::{aliases, chain, define, expansion, steps, tower, TOWER};
use crate::families::Family;
use crate::syntax::{and, b, brought, instance, lit, n, op, p, tree, wrap, Expr, Field};

/// All of them.
pub fn all() -> Vec<Family> {
    let mut all = deep_results();
    all.extend(long_texts());
    all.extend(under_aliases());
    all.extend(nested_aliases());
    all.extend(without_arguments());
    all.extend(below_binders());
    all.extend(standing_in());
    all.extend(through_chains());
    all
}

/// The shortest expression, two bytes.
fn zero() -> Expr {
    op(0, &[])
}

fn not(inner: Expr) -> Expr {
    op(16, &[inner])
}

fn bound(inner: Expr) -> Expr {
    op(128, &[inner])
}

/// The numbers of a tower whose steps are so many together.
fn bits(count: u32) -> Vec<u16> {
    (0..16).filter(|bit| count >> bit & 1 == 1).collect()
}

/// The definitions that so many steps need.
fn height(count: u32) -> u16 {
    1 + bits(count).pop().unwrap_or(0)
}

/// A module that begins with some fields, and has a tower of a step.
fn with_tower(mut fields: Vec<Field>, step: &dyn Fn(Expr) -> Expr, count: u32) -> Vec<Field> {
    tower(&mut fields, height(count), step);
    fields.push(Field::End);
    fields
}

/// So many nested steps around an expression.
fn nested(
    label: &str,
    before: &[Field],
    step: &dyn Fn(Expr) -> Expr,
    count: u32,
    inner: Expr,
) -> Family {
    let fields = with_tower(before.to_vec(), step, count);
    expansion(label, &fields, 1, &steps(bits(count), inner))
}

/// The same, in a binder that the expression looks out to.
fn nested_in_binder(
    label: &str,
    before: &[Field],
    step: &dyn Fn(Expr) -> Expr,
    count: u32,
) -> Family {
    let fields = with_tower(before.to_vec(), step, count);
    expansion(label, &fields, 1, &bound(steps(bits(count), b(0))))
}

/// i and k: one operator nested, deep to the left, to the right, and between, up to the last byte.
fn deep_results() -> Vec<Family> {
    let plain = [Field::Module(1)];
    let left = |inner: Expr| and(inner, zero());
    let right = |inner: Expr| and(zero(), inner);
    let between = |inner: Expr| op(96, &[zero(), inner, zero()]);
    let zigzag = |inner: Expr| and(and(zero(), inner), zero());
    let k = |label, step: &dyn Fn(Expr) -> Expr, count, inner| {
        nested(label, &plain, step, count, inner)
    };
    let mut all = vec![
        k("k: 29,984 deep", &not, 29_984, lit(1)),
        k("k: 32,766 deep, 65,535 bytes", &not, 32_766, lit(1)),
        k("k: 32,767 deep, a byte too long", &not, 32_767, zero()),
        k("k: 16,383 to the left, 65,535 bytes", &left, 16_383, lit(1)),
        k(
            "k: 16,383 to the right, 65,535 bytes",
            &right,
            16_383,
            lit(1),
        ),
        k(
            "k: 16,383 to the left, too long",
            &left,
            16_383,
            not(zero()),
        ),
        k(
            "k: 16,383 to the right, too long",
            &right,
            16_383,
            not(zero()),
        ),
        k(
            "k: 10,922 deep between, 65,535 bytes",
            &between,
            10_922,
            lit(1),
        ),
        k("k: 8,191 deep to and fro", &zigzag, 8_191, lit(1)),
    ];
    for (label, step) in [
        ("i: 254 compositions of ¬", not(p(0))),
        ("i: 254 compositions of p ∧ p", and(p(0), p(0))),
    ] {
        let mut fields = plain.to_vec();
        tower(&mut fields, 255, &|_| step.clone());
        fields.push(Field::End);
        all.push(expansion(label, &fields, 1, &n(TOWER + 254, &[lit(1)])));
    }
    all
}

/// k and m: 300 bytes of text around one place, 222 deep.
fn long_texts() -> Vec<Family> {
    let inner = || wrap(1, tree(9, &|_| lit(1)));
    let text = |place: usize| {
        let leaf = move |i: usize| if i == place { p(0) } else { lit(i as u16) };
        let fields = [Field::Module(1), define(1, 1, tree(60, &leaf))];
        move |label: &str| nested(label, &fields, &|inner| n(1, &[inner]), 222, inner())
    };
    let below = (0..25).fold(p(0), |inner, _| op(132, &[tree(2, &|_| b(0)), inner]));
    let binders = [Field::Module(1), define(1, 1, bound(below))];
    vec![
        text(0)("k: 300 bytes, 222 deep, at the left"),
        text(30)("k: 300 bytes, 222 deep, between"),
        text(59)("k: 300 bytes, 222 deep, at the right"),
        nested_in_binder(
            "m: 26 binders, 256 deep",
            &binders,
            &|inner| n(1, &[inner]),
            256,
        ),
    ]
}

/// l: hundreds of names for one thing, under calls nested deep or wide.
fn under_aliases() -> Vec<Family> {
    let swap = [p(1), p(0)];
    let mut swaps = aliases(238, 2, and(p(1), p(0)), &swap);
    tower(&mut swaps, 14, &|inner| n(238, &[inner, lit(1)]));
    swaps.push(Field::End);

    let not = || op(16, &[p(0)]);
    let mut same = aliases(238, 1, not(), &[p(0)]);
    tower(&mut same, 16, &|inner| n(238, &[inner]));
    same.push(Field::End);

    let nest = |name: u16| (0..31).fold(p(0), |inner, _| n(name, &[inner]));
    let mut thrice = aliases(250, 1, not(), &[p(0)]);
    thrice.extend([
        define(500, 1, nest(250)),
        define(501, 1, nest(500)),
        define(502, 1, nest(501)),
        Field::End,
    ]);

    let mut wide = aliases(240, 2, and(p(0), p(1)), &swap);
    wide.push(Field::End);
    fn full(height: usize) -> Expr {
        match height {
            0 => op(1, &[]),
            _ => n(240, &[full(height - 1), full(height - 1)]),
        }
    }
    vec![
        expansion(
            "l: 237 swaps, 12,288 nested",
            &swaps,
            1,
            &steps([12, 13], lit(7)),
        ),
        expansion(
            "l: 237 aliases, 32,752 nested",
            &same,
            1,
            &steps(4..=14, lit(7)),
        ),
        expansion(
            "l: 237 aliases, 65,520 nested",
            &same,
            1,
            &steps(4..=15, lit(7)),
        ),
        expansion(
            "l: 249 aliases, 31 nested thrice",
            &thrice,
            1,
            &n(502, &[lit(1)]),
        ),
        expansion("l: 239 swaps, a full tree of calls", &wide, 1, &full(14)),
    ]
}

/// l: hundreds of names for one operator, called as often as there is room for, one around the other.
fn nested_aliases() -> Vec<Family> {
    let unary = aliases(239, 1, not(p(0)), &[p(0)]);
    let swapped = aliases(239, 2, and(p(0), p(1)), &[p(1), p(0)]);
    let three = || op(96, &[p(0), p(1), p(2)]);
    let turned = aliases(239, 3, three(), &[p(1), p(2), p(0)]);
    let back = aliases(239, 3, three(), &[p(2), p(1), p(0)]);
    let dropping = aliases(239, 2, not(p(0)), &[p(0), p(1)]);
    let growing = aliases(240, 1, not(p(0)), &[not(p(0))]);
    let of_three = |inner: Expr| n(239, &[zero(), inner, zero()]);
    let mut wide = turned.clone();
    wide.push(Field::End);
    let large = |i: u16| tree(4_300, &|_| lit(i));
    vec![
        nested(
            "l: 238 aliases, 32,766 nested",
            &unary,
            &|inner| n(239, &[inner]),
            32_766,
            lit(1),
        ),
        nested(
            "l: 238 aliases, a byte too long",
            &unary,
            &|inner| n(239, &[inner]),
            32_767,
            zero(),
        ),
        nested(
            "l: 238 swaps, 16,383 nested",
            &swapped,
            &|inner| n(239, &[inner, zero()]),
            16_383,
            lit(1),
        ),
        nested(
            "l: 238 turns of three, 10,922 nested",
            &turned,
            &of_three,
            10_922,
            lit(1),
        ),
        nested(
            "l: 238 turns back, 10,922 nested",
            &back,
            &of_three,
            10_922,
            lit(1),
        ),
        nested(
            "l: 238 aliases that drop, 32,766 nested",
            &dropping,
            &|inner| n(239, &[inner, zero()]),
            32_766,
            lit(1),
        ),
        nested(
            "l: 240 names that grow, 136 nested",
            &growing,
            &|inner| n(240, &[inner]),
            136,
            lit(1),
        ),
        expansion(
            "l: 238 turns of three times 21 KB",
            &wide,
            1,
            &n(239, &[large(1), large(2), large(3)]),
        ),
    ]
}

/// l: definitions without parameters, called as often as there is room for.
fn without_arguments() -> Vec<Family> {
    /// A tree of so many operators of three arguments.
    fn ternary(inner: usize, leaf: &Expr) -> Expr {
        match inner {
            0 => leaf.clone(),
            _ => {
                let part = |more: usize| ternary((inner - 1 + more) / 3, leaf);
                op(96, &[part(0), part(1), part(2)])
            }
        }
    }
    let query = |name: u16| ternary(10_922, &n(name, &[]));
    let mut names = aliases(240, 0, zero(), &[]);
    names.push(Field::End);
    let numbered = |first: Field| {
        let mut fields = vec![Field::Module(1), first];
        fields.extend((2..=255).map(|name| define(name, 0, wrap(1, zero()))));
        fields.push(Field::End);
        fields
    };
    let each = numbered(define(1, 0, lit(9)));
    let dropping = numbered(define(1, 1, lit(9)));
    let dropped = n(1, &[tree(30_000, &|i| n(2 + (i % 254) as u16, &[]))]);
    let spread = |i: usize| match i % 63 {
        0 => n(1 + (i / 63) as u16, &[]),
        _ => zero(),
    };
    vec![
        expansion("l: 21,845 calls without arguments", &names, 1, &query(1)),
        expansion("l: 21,845 calls of the 240th name", &names, 1, &query(240)),
        expansion(
            "l: 255 definitions in 64 KB",
            &each,
            1,
            &tree(255 * 63, &spread),
        ),
        expansion("l: 30,000 calls dropped", &dropping, 1, &dropped),
    ]
}

/// m: binders by the ten thousand, and an index that looks past all of them.
fn below_binders() -> Vec<Family> {
    let mut below = aliases(230, 1, op(16, &[p(0)]), &[p(0)]);
    tower(&mut below, 14, &|inner| op(128, &[n(230, &[inner])]));
    below.push(Field::End);
    let mut over = aliases(230, 2, op(132, &[p(1), p(0)]), &[p(1), p(0)]);
    tower(&mut over, 14, &|inner| {
        op(128, &[n(230, &[inner, op(1, &[])])])
    });
    over.push(Field::End);
    let mut plain = vec![Field::Module(1)];
    tower(&mut plain, 16, &|inner| op(128, &[inner]));
    plain.push(Field::End);
    let plain_module = [Field::Module(1)];
    let binders = aliases(239, 1, bound(p(0)), &[p(0)]);
    vec![
        nested_in_binder(
            "m: 238 aliases of a binder, 32,765 deep",
            &binders,
            &|inner| n(239, &[inner]),
            32_765,
        ),
        nested_in_binder(
            "m: 16,382 sets, 65,533 bytes",
            &plain_module,
            &|inner| op(132, &[zero(), inner]),
            16_382,
        ),
        nested_in_binder(
            "m: 9,361 binders, each used",
            &plain_module,
            &|inner| bound(and(b(0), inner)),
            9_361,
        ),
        expansion(
            "m: 229 aliases below 16,376 binders",
            &below,
            1,
            &bound(steps(3..=13, b(0))),
        ),
        expansion(
            "m: 229 swaps below 10,752 binders",
            &over,
            1,
            &bound(steps([9, 11, 13], b(0))),
        ),
        // Two bytes for each binder, three for the index.
        expansion(
            "m: 32,766 binders, 65,535 bytes",
            &plain,
            1,
            &bound(steps((2..=14).chain([0]), b(0))),
        ),
        expansion(
            "m: 32,767 binders, 65,537 bytes",
            &plain,
            1,
            &bound(steps(1..=14, b(0))),
        ),
        expansion(
            "m: 20,480 binders",
            &plain,
            1,
            &op(132, &[lit(1), steps(bits(20_480), b(0))]),
        ),
    ]
}

/// n: what stands for an operator of an instance, nested.
fn standing_in() -> Vec<Family> {
    let turned = op(96, &[p(1), p(2), p(0)]);
    let closed = bound(and(b(0), p(0)));
    let names = aliases(200, 1, not(p(0)), &[p(0)]);
    let one = |label, count, substitute, inner| stand_in(label, 1, count, &[], substitute, inner);
    vec![
        one("n: a stand-in, 32,766 nested", 32_766, not(p(0)), lit(1)),
        one("n: a stand-in, a byte too long", 32_767, not(p(0)), zero()),
        one(
            "n: a stand-in that binds, 9,361 nested",
            9_361,
            closed,
            lit(1),
        ),
        stand_in(
            "n: a stand-in of two, 16,383 nested",
            2,
            16_383,
            &[],
            and(p(1), p(0)),
            lit(1),
        ),
        stand_in(
            "n: a stand-in of three, 10,922 nested",
            3,
            10_922,
            &[],
            turned,
            lit(1),
        ),
        stand_in(
            "n: a stand-in of 200 names, 32,766 deep",
            1,
            32_766,
            &names[1..],
            n(200, &[p(0)]),
            lit(1),
        ),
        parameter_in_stand_ins(),
        deep_stand_in(),
    ]
}

/// An operator of so many arguments, of which a module has a tower; a module that says what stands for
/// it, after some definitions.
fn stand_in(
    label: &str,
    arguments: u8,
    count: u32,
    definitions: &[Field],
    substitute: Expr,
    inner: Expr,
) -> Family {
    let step = |inner: Expr| match arguments {
        1 => n(1, &[inner]),
        2 => n(1, &[inner, zero()]),
        _ => n(1, &[zero(), inner, zero()]),
    };
    let declared = vec![Field::Module(1), Field::Constant(1, arguments)];
    let mut fields = with_tower(declared, &step, count);
    fields.push(Field::Module(2));
    fields.extend_from_slice(definitions);
    fields.extend([instance(900, 0, 1, &[(1, substitute)]), Field::End]);
    let query = bits(count).into_iter().fold(inner, |inner, number| {
        brought(900, TOWER + number, &[inner])
    });
    expansion(label, &fields, 2, &query)
}

/// The instance's own parameter beside every one of the nested.
fn parameter_in_stand_ins() -> Family {
    let declared = vec![Field::Module(1), Field::Constant(1, 1)];
    let mut fields = with_tower(declared, &|inner| n(1, &[inner]), 16_383);
    fields.extend([
        Field::Module(2),
        instance(9, 1, 1, &[(1, and(p(1), p(0)))]),
        Field::End,
    ]);
    let query = bits(16_383).into_iter().fold(lit(1), |inner, number| {
        brought(9, TOWER + number, &[zero(), inner])
    });
    expansion(
        "n: an instance's parameter, 16,383 deep",
        &fields,
        2,
        &query,
    )
}

/// One name, for which something deep stands.
fn deep_stand_in() -> Family {
    let mut fields = vec![
        Field::Module(2),
        Field::Constant(1, 0),
        define(3, 0, n(1, &[])),
        Field::End,
        Field::Module(1),
    ];
    tower(&mut fields, 15, &not);
    let deep = steps(bits(32_766), lit(1));
    fields.extend([instance(9, 0, 2, &[(1, deep)]), Field::End]);
    expansion("n: a stand-in 32,766 deep", &fields, 1, &brought(9, 3, &[]))
}

/// n: chains of instances, what stands for an operator nested, or many names with a substitute each.
fn through_chains() -> Vec<Family> {
    let swap = n(1, &[p(1), p(0)]);
    let mut all = Vec::new();
    for (label, count, leaf) in [
        ("n: operators swapped 15 times, nested", 8_192, lit(1)),
        ("n: swapped 15 times, 16,383 nested", 16_383, zero()),
    ] {
        let mut nested = Vec::new();
        tower(&mut nested, 14, &|inner| n(1, &[inner, leaf.clone()]));
        let mut fields = chain(&[(1, 2)], &nested, 15, &|_| vec![(1, swap.clone())]);
        let last = instance(9, 0, 15, &[(1, and(p(1), p(0)))]);
        fields.extend([Field::Module(16), last, Field::End]);
        let query = bits(count)
            .into_iter()
            .fold(lit(3), |inner, number| brought(9, TOWER + number, &[inner]));
        all.push(expansion(label, &fields, 16, &query));
    }

    let (fields, brought_by) = many_substitutes();
    for (label, count) in [
        ("n: 60 substitutes 13 times, 3 of 230", 3),
        ("n: 60 substitutes 13 times, all of 230", 230),
    ] {
        let query = tree(count, &|i| brought(brought_by + i as u16, 100, &[]));
        all.push(expansion(label, &fields, 16, &query));
    }
    all
}

/// A definition of 60 names, brought by a chain of modules that each say what stands for all of them,
/// and by 230 instances at its end; the name of the first.
fn many_substitutes() -> (Vec<Field>, u16) {
    let mut fields = vec![Field::Module(1)];
    fields.extend((1..=60).map(|name| Field::Constant(name, 0)));
    let body = tree(60, &|i| n(1 + i as u16, &[]));
    fields.extend([
        Field::End,
        Field::Module(2),
        Field::Extends(vec![1]),
        define(100, 0, body),
        Field::End,
    ]);
    let substitutes: Vec<(u16, Expr)> = (1..=60)
        .map(|name| (name, wrap(12, n(name, &[]))))
        .collect();
    for module in 3..=15 {
        fields.extend([
            Field::Module(module),
            Field::Extends(vec![1]),
            instance(0, 0, module - 1, &substitutes),
            Field::End,
        ]);
    }
    fields.extend([Field::Module(16), Field::Extends(vec![1])]);
    fields.extend((0..230).map(|i| instance(200 + i, 0, 15, &[])));
    fields.push(Field::End);
    (fields, 200)
}
