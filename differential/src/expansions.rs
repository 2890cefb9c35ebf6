//! Families of expansions that are small on paper and huge in the work of expanding badly: calls
//! under calls under calls, the same text in many worlds, arguments that are dropped late.

use crate::cases::Call;
use crate::families::{expand, family, Family};
use crate::syntax::{self, and, b, brought, instance, lit, n, op, p, tree, tree_of, Expr, Field};

/// The longest output that is of use.
const ROOM: usize = 65_535;

/// The first of the names of a tower.
pub const TOWER: u16 = 500;

pub(crate) fn expansion(label: &str, fields: &[Field], module: u16, expr: &Expr) -> Family {
    family(
        label,
        &syntax::file(fields),
        expand(module, expr.bytes(), ROOM),
    )
}

pub(crate) fn define(name: u16, parameters: u8, body: Expr) -> Field {
    Field::Definition(name, parameters, body)
}

/// Definitions of which each is the one before, twice: number j of them is the step, 2ʲ times.
pub fn tower(fields: &mut Vec<Field>, height: u16, step: &dyn Fn(Expr) -> Expr) {
    fields.push(define(TOWER, 1, step(p(0))));
    for d in TOWER + 1..TOWER + height {
        fields.push(define(d, 1, n(d - 1, &[n(d - 1, &[p(0)])])));
    }
}

/// The steps of these numbers of a tower, one around the other, around an expression.
pub fn steps(numbers: impl IntoIterator<Item = u16>, inner: Expr) -> Expr {
    numbers
        .into_iter()
        .fold(inner, |inner, number| n(TOWER + number, &[inner]))
}

/// A module that says the same thing by many names: 1 is the first, each other one the one before.
pub fn aliases(count: u16, parameters: u8, first: Expr, arguments: &[Expr]) -> Vec<Field> {
    let mut fields = vec![Field::Module(1), define(1, parameters, first)];
    fields.extend((2..=count).map(|d| define(d, parameters, n(d - 1, arguments))));
    fields
}

/// A module that declares 60 constants, and modules from 2 to the last, each with them: 2 makes a
/// definition of them, each later one brings it, the names implied.
fn implied(body: Expr, last: u16) -> Vec<Field> {
    let mut fields = vec![Field::Module(1)];
    fields.extend((1..=60).map(|name| Field::Constant(name, 0)));
    fields.extend([
        Field::End,
        Field::Module(2),
        Field::Extends(vec![1]),
        define(100, 0, body),
        Field::End,
    ]);
    for module in 3..=last {
        fields.extend([
            Field::Module(module),
            Field::Extends(vec![1]),
            instance(0, 0, module - 1, &[]),
            Field::End,
        ]);
    }
    fields
}

/// A module with declared names and a definition, and modules from 2 to the last, each of which
/// brings the one before with these substitutes.
pub fn chain(
    constants: &[(u16, u8)],
    definitions: &[Field],
    last: u16,
    substitutes: &dyn Fn(u16) -> Vec<(u16, Expr)>,
) -> Vec<Field> {
    let declared = || {
        constants
            .iter()
            .map(|&(name, count)| Field::Constant(name, count))
    };
    let mut fields = vec![Field::Module(1)];
    fields.extend(declared());
    fields.extend_from_slice(definitions);
    fields.push(Field::End);
    for module in 2..=last {
        fields.push(Field::Module(module));
        fields.extend(declared());
        fields.push(instance(0, 0, module - 1, &substitutes(module)));
        fields.push(Field::End);
    }
    fields
}

/// All of them. `large` adds a query of 30 MB.
pub fn all(large: bool) -> Vec<Family> {
    let mut all = dropped(large);
    all.extend(through_chains());
    all.extend(by_instances());
    all
}

/// j: long arguments, dropped by the operator inside.
fn dropped(large: bool) -> Vec<Family> {
    let second = || op(16, &[p(1)]);
    let mut fields = vec![
        Field::Module(1),
        define(1, 2, second()),
        define(2, 1, n(1, &[tree_of(15_000, &|_| p(0)), p(0)])),
    ];
    tower(&mut fields, 15, &|inner| {
        n(2, &[n(1, &[tree_of(12_000, &|_| lit(1)), inner])])
    });
    fields.push(Field::End);
    let mut all = vec![expansion(
        "j: 27 KB dropped in a tower",
        &fields,
        1,
        &steps([11, 13], lit(1)),
    )];

    let substitute = n(
        20,
        &[
            tree_of(15_000, &|_| p(0)),
            n(21, &[tree_of(10_000, &|_| lit(2)), p(0)]),
        ],
    );
    let fields = [
        Field::Module(1),
        Field::Constant(1, 1),
        define(2, 0, tree(400, &|_| n(1, &[lit(1)]))),
        Field::End,
        Field::Module(2),
        define(20, 2, second()),
        define(21, 2, p(1)),
        instance(9, 0, 1, &[(1, substitute)]),
        Field::End,
    ];
    all.push(expansion(
        "j: 25 KB dropped in a substitute",
        &fields,
        2,
        &tree(15, &|_| brought(9, 2, &[])),
    ));
    if large {
        let fields = [Field::Module(1), define(1, 2, second()), Field::End];
        let long = tree_of(15_000, &|_| lit(1));
        all.push(expansion(
            "j: 15 KB dropped by 2,000 calls",
            &fields,
            1,
            &tree(2_000, &|_| n(1, &[long.clone(), lit(1)])),
        ));
    }
    all
}

/// n: substitutes that grow, or turn their arguments, at every instance of a chain.
fn through_chains() -> Vec<Family> {
    let swap = n(1, &[p(1), p(0)]);
    let mut all = Vec::new();

    let calls = |_: usize| (0..5).fold(lit(1), |inner, _| n(1, &[inner, lit(2)]));
    let body = [define(3, 0, tree(300, &calls))];
    let mut with = chain(&[(1, 2)], &body, 15, &|_| vec![(1, swap.clone())]);
    let outer = op(96, &[p(0), p(1), p(2)]);
    with.extend([
        Field::Module(16),
        Field::Constant(1, 2),
        instance(9, 1, 15, &[(1, outer)]),
        Field::End,
    ]);
    all.push(expansion(
        "n: 1,500 operators through a chain",
        &with,
        16,
        &op(128, &[brought(9, 3, &[b(0)])]),
    ));

    for (label, doublings) in [
        ("n: substitutes doubled 13 times", 13),
        ("n: substitutes doubled 15 times", 15),
    ] {
        let name = || n(1, &[]);
        let fields = chain(&[(1, 0)], &[define(3, 0, name())], 16, &|module| {
            let doubled = module - 1 <= doublings;
            vec![(1, if doubled { and(name(), name()) } else { name() })]
        });
        all.push(expansion(label, &fields, 16, &n(3, &[])));
    }

    let below = [define(3, 0, op(128, &[n(1, &[b(0)])]))];
    let bound = op(128, &[and(n(1, &[p(0)]), n(1, &[b(0)]))]);
    let moved = chain(&[(1, 1)], &below, 12, &|_| vec![(1, bound.clone())]);
    all.push(expansion(
        "n: indices moved at 7 instances",
        &moved,
        8,
        &n(3, &[]),
    ));
    all.push(expansion(
        "n: indices moved at 11 instances",
        &moved,
        12,
        &n(3, &[]),
    ));

    let whole = tree_of(30_000, &|i| n(1 + (i % 60) as u16, &[]));
    let twice = and(n(100, &[]), n(100, &[]));
    all.push(expansion(
        "n: 60 names implied 14 times, 30 KB",
        &implied(whole, 16),
        16,
        &twice,
    ));
    all
}

/// n: one definition brought by hundreds of instances, each with its own substitutes.
fn by_instances() -> Vec<Family> {
    let body = [define(3, 0, n(1, &[n(2, &[])]))];
    let mut many = chain(&[(1, 1), (2, 0)], &body, 15, &|_| {
        vec![(1, n(1, &[op(16, &[p(0)])])), (2, op(17, &[n(2, &[])]))]
    });
    many.extend([Field::Module(16), Field::Constant(2, 0)]);
    many.extend((0..220).map(|i| instance(100 + i, 0, 15, &[(1, p(0))])));
    many.push(Field::End);
    let each = |name: u16| move |i: usize| brought(100 + i as u16, name, &[]);
    let binders = |_: usize| (0..20).fold(op(0, &[]), |inner, _| op(128, &[inner]));
    let beside = tree(1_000, &binders);
    let mut all = vec![
        expansion(
            "n: 220 instances of a chain of 15",
            &many,
            16,
            &tree(220, &each(3)),
        ),
        expansion(
            "n: the same beside 20,000 binders",
            &many,
            16,
            &and(beside, tree(220, &each(3))),
        ),
    ];

    let pair = [
        define(3, 0, and(n(1, &[]), n(2, &[]))),
        define(4, 0, and(n(3, &[]), n(3, &[]))),
    ];
    let mut turns = chain(&[(1, 0), (2, 0)], &pair, 15, &|module| {
        let long = tree_of(1_800, &|i| n(if i % 400 == 0 { 1 } else { 2 }, &[]));
        let (first, second) = match module % 2 {
            0 => (long, lit(9)),
            _ => (n(1, &[]), op(3, &[])),
        };
        vec![(1, first), (2, second)]
    });
    turns.extend([
        Field::Module(16),
        Field::Constant(1, 0),
        Field::Constant(2, 0),
    ]);
    turns.extend((0..100).map(|i| instance(100 + i, 0, 15, &[])));
    turns.push(Field::End);
    all.push(expansion(
        "n: long substitutes, one instance",
        &turns,
        16,
        &brought(100, 4, &[]),
    ));
    all.push(expansion(
        "n: long substitutes, 100 instances",
        &turns,
        16,
        &tree(100, &each(3)),
    ));

    let names = tree(60, &|i| n(1 + (i % 60) as u16, &[]));
    let mut through = implied(names, 15);
    through.extend([Field::Module(16), Field::Extends(vec![1])]);
    through.extend((0..230).map(|i| instance(100 + i, 0, 15, &[])));
    through.push(Field::End);
    all.push(expansion(
        "n: names implied, 150 instances",
        &through,
        16,
        &tree(150, &each(100)),
    ));
    all.push(expansion(
        "n: 230 instances, none asked for",
        &through,
        16,
        &lit(1),
    ));
    all
}

/// The rooms that an expansion of so many bytes is asked into besides: none, one byte short, exactly
/// its length, one more, and more than any expansion takes.
pub fn rooms(length: usize) -> [usize; 5] {
    [0, length - 1, length, length + 1, 70_000]
}

/// An expansion into another room.
pub fn into_room(call: &Call, room: usize) -> Call {
    let mut call = call.clone();
    if let Call::Expand { room: given, .. } = &mut call {
        *given = room;
    }
    call
}
