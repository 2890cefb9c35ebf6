//! o: queries whose expression is longer than any file, and g without end: names looked up where as
//! many stand as there is room for.

use crate::cases::Call;
use crate::families::{expand, family, full_tables, level, Family};
use crate::syntax::{self, always, and, brought, instance, lit, n, op, p, prime, Expr, Field};

/// The longest output that is of use.
const ROOM: usize = 65_535;

/// The bytes of ∧ over two copies of itself, so many times over, around an expression.
fn doubled(times: usize, leaf: &Expr) -> Vec<u8> {
    (0..times).fold(leaf.bytes(), |inner, _| {
        [&[4, 49], &inner[..], &inner[..]].concat()
    })
}

/// About so many bytes of it.
fn wide(bytes: usize, leaf: &Expr) -> Vec<u8> {
    let both = leaf.bytes().len() + 2;
    doubled((bytes / both).max(1).ilog2() as usize, leaf)
}

/// Each of 256 KB, and if `large` each of 64 MB too.
pub fn all(large: bool) -> Vec<Family> {
    let (file, last) = full_tables();
    let names = doubled(16, &prime(n(last, &[])));
    let label = "o: 512 KB of names, full tables";
    let mut all = vec![family(label, &file, level(2, names))];
    all.extend(of_length(256 << 10, "256 KB"));
    if large {
        all.extend(of_length(64 << 20, "64 MB"));
    }
    all
}

/// A variable, 1; a definition that drops its first parameter, 2; one with as many masks over its
/// parameters as there are, 3; a definition that is its parameter, 4.
fn plain() -> Vec<u8> {
    let pairs = [[0, 1], [0, 2], [1, 2]].map(|[i, j]| and(p(i), p(j)));
    let three = and(p(0), and(p(1), p(2)));
    let inside = [p(0), p(1), p(2)].into_iter().chain(pairs).chain([three]);
    let masked = inside.map(always).reduce(and).expect("there are some");
    syntax::file(&[
        Field::Module(1),
        Field::Variable(1),
        Field::Definition(2, 2, p(1)),
        Field::Definition(3, 3, masked),
        Field::Definition(4, 1, p(0)),
        Field::End,
    ])
}

/// An instance, 9, that brings as many definitions as there may be; the last one's name.
fn instanced() -> (Vec<u8>, u16) {
    let mut fields = vec![Field::Module(1)];
    fields.extend((1_001..=1_128).map(|name| Field::Definition(name, 0, lit(1))));
    fields.extend([
        Field::End,
        Field::Module(2),
        instance(9, 0, 1, &[]),
        Field::End,
    ]);
    (syntax::file(&fields), 1_128)
}

/// As many instances of one definition, 1, as there may be; the last one's name.
fn instances() -> (Vec<u8>, u16) {
    let mut fields = vec![
        Field::Module(1),
        Field::Definition(1, 0, lit(1)),
        Field::End,
        Field::Module(2),
    ];
    fields.extend((1_001..=1_255).map(|name| instance(name, 0, 1, &[])));
    fields.push(Field::End);
    (syntax::file(&fields), 1_255)
}

fn over_parameters(module: u16, expr: Vec<u8>, levels: &[u8]) -> Call {
    Call::Level {
        module,
        expr,
        levels: levels.to_vec(),
    }
}

fn expand_over(module: u16, expr: Vec<u8>, params: u8) -> Call {
    Call::Expand {
        module,
        expr,
        params,
        room: ROOM,
    }
}

fn of_length(bytes: usize, size: &str) -> Vec<Family> {
    let file = plain();
    let mut all = Vec::new();
    let mut add = |file: &[u8], what: &str, call| {
        all.push(family(&format!("o: {size} {what}"), file, call));
    };
    // 2 names a call that drops what follows.
    let dropped = |inner: Vec<u8>| [&[2, 0, 2, 2], &inner[..], &lit(8).bytes()].concat();
    let deep = [[4, 16].repeat(bytes / 2), lit(0).bytes()].concat();
    add(&file, "deep", level(1, deep.clone()));
    add(&file, "deep, expanded", expand(1, deep, ROOM));

    let names = wide(bytes, &prime(n(1, &[])));
    add(&file, "wide", level(1, names.clone()));
    add(&file, "too long", expand(1, names.clone(), ROOM));
    add(&file, "dropped", expand(1, dropped(names.clone()), ROOM));
    let cut = [&names, &[5][..]].concat();
    add(&file, "with a byte too many", level(1, cut.clone()));
    add(
        &file,
        "with a byte too many, expanded",
        expand(1, cut, ROOM),
    );

    let parameters = wide(bytes, &p(0));
    let levels = over_parameters(1, parameters.clone(), &[2]);
    add(&file, "of parameters", levels);
    let call = expand_over(1, dropped(parameters.clone()), 1);
    add(&file, "of parameters, dropped", call);
    let call = expand_over(1, parameters.clone(), 1);
    add(&file, "of parameters, too long", call);
    // The last token nests deeper than it may.
    let inner = (0..40).fold(p(0), |inner, _| op(16, &[inner]));
    let over = [&[4, 49], &parameters[..], &inner.bytes()].concat();
    add(
        &file,
        "and then deep",
        over_parameters(1, over.clone(), &[2]),
    );
    add(&file, "and then deep, expanded", expand_over(1, over, 1));

    let unknown = wide(bytes, &prime(n(9, &[])));
    add(&file, "of an unknown name", level(1, unknown.clone()));
    let call = expand(1, unknown, ROOM);
    add(&file, "of an unknown name, expanded", call);

    let calls = wide(bytes, &n(3, &[p(0), p(1), p(2)]));
    let levels = over_parameters(1, calls.clone(), &[0, 1, 3]);
    add(&file, "of calls with masks", levels);
    let call = expand_over(1, dropped(calls), 3);
    add(&file, "of calls with masks, dropped", call);

    let passed = (0..8).fold(p(0), |inner, _| n(4, &[inner]));
    let call = expand_over(1, wide(bytes, &passed), 1);
    add(&file, "of identities, too long", call);

    let binders = wide(bytes, &op(132, &[lit(1), op(128, &[and(p(0), p(0))])]));
    add(&file, "of binders", over_parameters(1, binders, &[1]));

    let (file, last) = full_tables();
    let names = wide(bytes, &prime(n(last, &[])));
    add(&file, "of names, full tables", level(2, names.clone()));
    add(
        &file,
        "of names, full tables, expanded",
        expand(2, names, ROOM),
    );

    for (what, (file, instance, name)) in [
        ("of one instance", {
            let (file, last) = instanced();
            (file, 9, last)
        }),
        ("of an unknown name in it", (instanced().0, 9, 1)),
        ("of many instances", {
            let (file, last) = instances();
            (file, last, 1)
        }),
    ] {
        let operators = wide(bytes, &brought(instance, name, &[]));
        add(&file, what, level(2, operators.clone()));
        add(
            &file,
            &format!("{what}, expanded"),
            expand(2, operators, ROOM),
        );
    }
    all
}

#[cfg(test)]
mod tests {
    use super::*;

    #[test]
    fn about_as_long_as_asked_for() {
        for leaf in [p(0), n(3, &[p(0), p(1), p(2)]), brought(9, 1, &[])] {
            let length = wide(1 << 20, &leaf).len();
            assert!(length <= 1 << 20 && length > 1 << 19, "{length}");
        }
    }
}
