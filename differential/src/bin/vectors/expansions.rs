//! Expansions for the gate: trial lines of paper 01, arguments put in below binders, instances of
//! every kind, both sides of every cause, outputs of every length, and the hostile families.

use crate::queries::{name, refused_files, trial_file, Query, BESIDE, BRINGS, LINES, N};
use crate::{module, OUTPUT};
use differential::cases::Call;
use differential::expansions::{aliases, chain, rooms, steps, tower, TOWER};
use differential::queries::of_length;
use differential::syntax::{
    self, always, and, b, brought, instance, lit, n, op, p, prime, tree, tree_of, wrap, Expr, Field,
};
use std::ops::Range;

/// How often calls double that nest deep in a result: as often as an output has room for.
const DEEP: u16 = 14;
/// The same where each is a call of the last of two hundred names for one operator; room for 13, but the
/// gate runs these too.
const ALIASED: u16 = 11;

/// A call on a file, with a name to find it by.
type Named = (String, Vec<u8>, Call);

fn expand(module: u16, expr: &Expr, params: u8, room: usize) -> Call {
    expand_bytes(module, expr.bytes(), params, room)
}

fn expand_bytes(module: u16, expr: Vec<u8>, params: u8, room: usize) -> Call {
    Call::Expand {
        module,
        expr,
        params,
        room,
    }
}

fn named(label: &str, file: &[u8], call: Call) -> Named {
    (format!("expand: {label}"), file.to_vec(), call)
}

/// Trial lines of paper 01, and what the instances of that file bring.
fn trial_lines() -> Vec<Named> {
    let file = syntax::file(&trial_file());
    let (x, y, c) = (|| n(name::X, &[]), || n(name::Y, &[]), || n(name::C, &[]));
    let plus = |left, right| op(52, &[left, right]);
    let g = |left, right| n(name::G, &[left, right]);
    let bound = |body: Expr| op(128, &[body]);
    let d = |instance, arguments: &[Expr]| brought(instance, name::D, arguments);
    let over = op(53, &[plus(prime(x()), y()), c()]);
    let line = |label, module, expr: Expr, params| {
        named(label, &file, expand(module, &expr, params, 1_000))
    };
    vec![
        line("c + 3", LINES, plus(c(), lit(3)), 0),
        line("x' + y > c", LINES, over, 0),
        line("(x' + 1)'", LINES, prime(plus(prime(x()), lit(1))), 0),
        line("F((x')')", LINES, n(name::F, &[prime(prime(x()))]), 0),
        line("G over (p, q)", LINES, g(p(0), p(1)), 2),
        line("G over (q, p)", LINES, g(p(1), p(0)), 2),
        line("G(x', []x)", LINES, g(prime(x()), always(x())), 0),
        line("G(G(p, x), y)", LINES, g(g(p(0), x()), y()), 1),
        line(
            "\\EE z: G(z, z')",
            LINES,
            op(140, &[g(b(0), prime(b(0)))]),
            0,
        ),
        line("D of N, under ENABLED", N, n(name::D, &[]), 0),
        line("I!D", BRINGS, d(name::I, &[]), 0),
        line("J!D over p", BRINGS, d(name::J, &[p(0)]), 1),
        line(
            "J!D of a bound variable",
            BRINGS,
            bound(d(name::J, &[b(0)])),
            0,
        ),
    ]
}

/// Arguments put in below binders: indices move, and nothing is captured.
fn below_binders() -> Vec<Named> {
    let bound = |body: Expr| op(128, &[body]);
    let among = |set: Expr, body: Expr| op(132, &[set, body]);
    let (one, two) = (|inner: Expr| n(1, &[inner]), |set, body| n(2, &[set, body]));
    let file = module(&[
        Field::Variable(90),
        Field::Definition(1, 1, bound(and(p(0), b(0)))),
        Field::Definition(2, 2, among(p(0), and(p(1), b(0)))),
        Field::Definition(3, 1, one(one(p(0)))),
        Field::Definition(4, 1, bound(and(one(b(0)), p(0)))),
        Field::Definition(5, 2, one(p(1))),
        Field::Definition(6, 3, among(p(2), bound(and(p(0), two(b(1), p(1)))))),
    ]);
    let x = || n(90, &[]);
    let thrice = |inner: Expr| n(3, &[n(3, &[n(3, &[inner])])]);
    let line = |label: &str, expr: Expr, params| {
        named(
            &format!("binders, {label}"),
            &file,
            expand(1, &expr, params, 2_000),
        )
    };
    vec![
        line("an index moved", bound(one(b(0))), 0),
        line("an index moved twice", bound(n(3, &[b(0)])), 0),
        line("an index moved six times", bound(thrice(b(0))), 0),
        line("the outer of two", bound(bound(two(b(0), b(1)))), 0),
        line(
            "an index of the argument's own",
            one(bound(and(b(0), p(0)))),
            1,
        ),
        line(
            "one of its own and one of another",
            bound(one(bound(and(b(0), b(1))))),
            0,
        ),
        line("a set and a body", among(one(x()), two(b(0), one(b(0)))), 0),
        line("a call in a body", bound(n(4, &[n(4, &[b(0)])])), 0),
        line(
            "an argument dropped",
            bound(n(5, &[prime(prime(b(0))), b(0)])),
            0,
        ),
        line("three parameters", n(6, &[p(2), p(0), p(1)]), 3),
        line(
            "three of one binder",
            bound(n(6, &[b(0), one(b(0)), b(0)])),
            0,
        ),
    ]
}

/// What unnamed and named instances bring, some of it through two of them.
fn instances() -> Vec<Named> {
    let [k, c, v, d, q, r, w, i, j] = [1, 2, 3, 4, 5, 6, 7, 8, 9];
    let bound = |body: Expr| op(128, &[body]);
    let name = |name: u16| n(name, &[]);
    let file = syntax::file(&[
        Field::Module(1),
        Field::Constant(k, 1),
        Field::Constant(c, 0),
        Field::Variable(v),
        Field::Definition(d, 1, bound(and(n(k, &[b(0)]), and(p(0), name(c))))),
        Field::Definition(q, 0, n(d, &[n(k, &[name(v)])])),
        Field::End,
        Field::Module(2),
        Field::Variable(w),
        Field::Variable(v),
        instance(0, 0, 1, &[(k, bound(and(p(0), b(0)))), (c, lit(7))]),
        Field::Definition(r, 1, n(d, &[and(name(q), p(0))])),
        Field::End,
        Field::Module(3),
        Field::Variable(10),
        instance(0, 0, 2, &[(w, name(10)), (v, op(16, &[name(10)]))]),
        Field::End,
        Field::Module(4),
        Field::Constant(c, 0),
        instance(i, 1, 1, &[(k, op(54, &[p(1), p(0)])), (v, op(17, &[p(0)]))]),
        instance(j, 2, 2, &[(w, p(0)), (v, bound(and(p(1), b(0))))]),
        Field::End,
    ]);
    let line = |label: &str, module, expr: Expr, params| {
        named(
            &format!("instances, {label}"),
            &file,
            expand(module, &expr, params, 2_000),
        )
    };
    vec![
        line("declared names stay", 1, n(d, &[name(v)]), 0),
        line("unnamed", 2, n(d, &[p(0)]), 1),
        line("unnamed, a call inside", 2, name(q), 0),
        line(
            "unnamed, from an own definition",
            2,
            bound(n(r, &[b(0)])),
            0,
        ),
        line("unnamed, of an unnamed one", 3, n(r, &[p(0)]), 1),
        line(
            "named, a parameter first",
            4,
            brought(i, d, &[p(0), p(1)]),
            2,
        ),
        line(
            "named, below a binder",
            4,
            bound(brought(i, d, &[b(0), b(0)])),
            0,
        ),
        line(
            "named, an operator's argument",
            4,
            brought(i, q, &[name(c)]),
            0,
        ),
        line(
            "named, of an unnamed one",
            4,
            brought(j, r, &[p(2), p(1), p(0)]),
            3,
        ),
        line(
            "named, the bound names of both",
            4,
            bound(brought(j, q, &[b(0), b(0)])),
            0,
        ),
    ]
}

/// Both sides of every cause that a query for an expansion has, and causes that meet.
fn causes() -> Vec<Named> {
    let file = syntax::file(&trial_file());
    let x = || n(name::X, &[]);
    let f = |inner: Expr| n(name::F, &[inner]);
    let bytes = |module, bytes: &[u8], params| expand_bytes(module, bytes.to_vec(), params, 100);
    let line = |expr: Expr| expand(LINES, &expr, 0, 100);
    let over = |expr: Expr, params| expand(LINES, &expr, params, 100);
    let calls = vec![
        // 17
        ("module 0", expand(0, &x(), 0, 100)),
        ("a module that there is not", expand(99, &x(), 0, 100)),
        ("no module before layout", bytes(99, &[], 9)),
        ("x in another module", expand(BESIDE, &x(), 0, 100)),
        // 3
        ("empty", bytes(LINES, &[], 0)),
        ("cut", bytes(LINES, &[4, 49, 5, 0, 1], 0)),
        ("left over", bytes(LINES, &[5, 0, 1, 0], 0)),
        ("code 126", bytes(LINES, &[4, 126], 0)),
        ("name 0", bytes(LINES, &[2, 0, 0, 0], 0)),
        ("cut and nine parameters", bytes(LINES, &[4, 49], 9)),
        // 5
        ("three parameters", over(p(2), 3)),
        ("four parameters", over(p(3), 4)),
        ("eight parameters", over(and(p(7), p(0)), 8)),
        ("nine parameters", over(p(8), 9)),
        ("255 parameters", over(lit(0), 255)),
        ("nesting 32", line(wrap(31, x()))),
        ("nesting 33", line(wrap(32, x()))),
        ("nesting 33, dropped", line(f(wrap(31, x())))),
        ("nine arguments", line(Expr::Name(99, vec![lit(0); 9]))),
        // 9
        ("an unknown name", line(n(99, &[]))),
        ("an unknown name, dropped", line(f(n(99, &[])))),
        ("a parameter that is not given", over(p(1), 1)),
        ("a bound variable without a binder", line(b(0))),
        ("outside its binder", line(op(132, &[b(0), b(0)]))),
        (
            "an operator as an instance",
            line(brought(name::F, name::D, &[])),
        ),
        // 10
        ("an argument too few", line(n(name::G, &[x()]))),
        ("wrong arguments, dropped", line(f(n(name::F, &[])))),
        (
            "unknown before wrong arguments",
            line(and(n(name::F, &[]), n(99, &[]))),
        ),
        // 18 comes last.
        ("unknown before too long", expand(LINES, &n(99, &[]), 0, 0)),
    ];
    let mut all: Vec<Named> = calls
        .into_iter()
        .map(|(label, call)| named(label, &file, call))
        .collect();
    let mut files: Vec<Vec<u8>> = refused_files()
        .into_iter()
        .map(|(_, file, _)| file)
        .collect();
    files.dedup();
    for file in files {
        let whole = expand(N, &n(name::D, &[]), 0, 100);
        all.push(named("a refused file", &file, whole));
    }
    all
}

/// Outputs of no byte, one byte short, exact and longer.
fn outputs() -> Vec<Named> {
    let file = syntax::file(&trial_file());
    let bound = op(128, &[brought(name::J, name::D, &[b(0)])]);
    let mut all = Vec::new();
    for (label, module, expr, length) in [
        ("a literal", LINES, lit(1), 3),
        ("c + 3", LINES, op(52, &[n(name::C, &[]), lit(3)]), 9),
        ("J!D of a bound variable", BRINGS, bound, 18),
    ] {
        for room in rooms(length).map(|room| room.min(OUTPUT)) {
            let label = format!("{label} into {room}");
            all.push(named(&label, &file, expand(module, &expr, 0, room)));
        }
    }
    for (length, room) in [
        (65_534, 65_534),
        (65_535, 65_535),
        (65_535, 65_534),
        (65_535, OUTPUT),
        (65_536, 65_536),
        (65_536, OUTPUT),
    ] {
        let (file, expr) = of_length(length);
        let label = format!("p: {length} bytes into {room}");
        all.push(named(&label, &file, expand_bytes(1, expr, 0, room)));
    }
    all
}

/// i and j: what is small, or nothing, after all.
fn small_results() -> Vec<Named> {
    let mut all = Vec::new();
    let mut add = |what: &str, step: &dyn Fn(u16) -> Expr| {
        let mut fields = vec![
            Field::Constant(400, 0),
            Field::Definition(401, 1, lit(7)),
            Field::Definition(TOWER, 1, p(0)),
        ];
        fields.extend((1..100).map(|d| Field::Definition(TOWER + d, 1, step(TOWER + d - 1))));
        let file = module(&fields);
        let part = |number| n(TOWER + number, &[n(400, &[])]);
        let dropped = n(401, &[n(TOWER + 99, &[part(99)])]);
        for (asked, expr) in [("part", part(13)), ("all", part(99)), ("dropped", dropped)] {
            let label = format!("i: {what} tower, {asked}");
            all.push(named(&label, &file, expand(1, &expr, 0, OUTPUT)));
        }
    };
    add("identity", &|d| n(d, &[n(d, &[p(0)])]));
    add("doubling", &|d| and(n(d, &[p(0)]), n(d, &[p(0)])));
    let mut fields = vec![Field::Definition(1, 2, op(16, &[p(1)]))];
    tower(&mut fields, 8, &|inner| {
        n(1, &[tree_of(600, &|_| p(0)), inner])
    });
    let file = module(&fields);
    let expr = steps([5, 7], lit(1));
    all.push(named(
        "j: 600 bytes dropped in a tower",
        &file,
        expand(1, &expr, 0, OUTPUT),
    ));
    all
}

/// k and m: results that nest deep, to the left, to the right, between, by one argument and by
/// binders, around an expression.
fn deep_results() -> Vec<Named> {
    let zero = || op(0, &[]);
    let binder = |inner: Expr| op(128, &[inner]);
    let mut all = Vec::new();
    let mut add = |label, numbers: Range<u16>, step: &dyn Fn(Expr) -> Expr, inner| {
        let mut fields = Vec::new();
        tower(&mut fields, numbers.end, step);
        let expr = binder(steps(numbers, inner));
        all.push(named(label, &module(&fields), expand(1, &expr, 0, OUTPUT)));
    };
    let left = |inner: Expr| and(inner, zero());
    let right = |inner: Expr| and(zero(), inner);
    let between = |inner: Expr| op(96, &[zero(), inner, zero()]);
    let bound = |inner: Expr| binder(and(b(0), inner));
    add("k: deep to the left", 1..DEEP, &left, zero());
    add("k: deep to the right", 1..DEEP, &right, zero());
    add("k: deep between", 0..DEEP - 1, &between, zero());
    add(
        "k: deep, one argument",
        2..DEEP + 1,
        &|inner| op(16, &[inner]),
        lit(0),
    );
    add("m: deep binders", 0..DEEP - 1, &bound, b(0));
    add(
        "m: an index past all binders",
        1..DEEP,
        &binder,
        and(b(0), lit(0)),
    );
    for to_the_left in [true, false] {
        all.extend(long_text(to_the_left));
    }
    all
}

/// k: 1,080 bytes of text that nest to 24 on one side, 60 times over, up to the last byte that there
/// is room for, and one more.
fn long_text(to_the_left: bool) -> [Named; 2] {
    let beside = |inner: Expr, i| match (tree(9, &|_| lit(i)), to_the_left) {
        (large, true) => op(48, &[inner, large]),
        (large, false) => op(48, &[large, inner]),
    };
    let text = (0..24).fold(p(0), beside);
    let mut fields = vec![Field::Definition(1, 1, text)];
    tower(&mut fields, 6, &|inner| n(1, &[inner]));
    let file = module(&fields);
    let side = if to_the_left { "left" } else { "right" };
    [65_535, 65_536].map(|length| {
        let label = format!("k: a long text nested to the {side}, {length} bytes");
        let expr = steps(2..6, of_bytes(length - 60 * 1_080));
        named(&label, &file, expand(1, &expr, 0, OUTPUT))
    })
}

/// An expression of so many bytes without any name.
pub fn of_bytes(bytes: usize) -> Expr {
    let leaves = (bytes + 2) / 5;
    let leaves = leaves - (bytes + 2 - 5 * leaves) % 2;
    let whole = tree(leaves, &|_| lit(1));
    wrap((bytes + 2 - 5 * leaves) / 2, whole)
}

/// l: many names for one thing, alone, in a tree of calls, and nested deep.
fn under_aliases() -> Vec<Named> {
    let mut all = Vec::new();
    let one = || lit(1);
    for (label, count, parameters, first, arguments) in [
        ("plain", 200, 1, op(16, &[p(0)]), vec![p(0)]),
        ("swapped", 200, 2, and(p(0), p(1)), vec![p(1), p(0)]),
        (
            "turned",
            200,
            3,
            op(96, &[p(0), p(1), p(2)]),
            vec![p(1), p(2), p(0)],
        ),
        (
            "below binders",
            150,
            1,
            op(128, &[and(p(0), b(0))]),
            vec![p(0)],
        ),
    ] {
        let mut fields = aliases(count, parameters, first, &arguments);
        let call = |inner: Expr| {
            let rest = [inner, one(), lit(2)];
            n(count, &rest[..parameters.into()])
        };
        tower(&mut fields, ALIASED, &call);
        fields.push(Field::End);
        let file = syntax::file(&fields);
        let once = op(129, &[call(b(0))]);
        let nested = op(129, &[steps(0..ALIASED, b(0))]);
        all.push(named(
            &format!("l: aliases, {label}"),
            &file,
            expand(1, &once, 0, OUTPUT),
        ));
        let label = format!("l: aliases, {label}, nested");
        all.push(named(&label, &file, expand(1, &nested, 0, OUTPUT)));
    }
    let mut fields = aliases(200, 2, and(p(0), p(1)), &[p(1), p(0)]);
    fields.push(Field::End);
    let wide = (0..8).fold(op(1, &[]), |inner, _| n(200, &[inner.clone(), inner]));
    let file = syntax::file(&fields);
    all.push(named(
        "l: a tree of calls",
        &file,
        expand(1, &wide, 0, OUTPUT),
    ));
    all
}

/// n: chains of instances whose substitutes take arguments.
fn through_chains() -> Vec<Named> {
    let turn = n(1, &[p(1), p(2), p(0)]);
    let body = [Field::Definition(
        3,
        3,
        tree(40, &|_| n(1, &[p(0), p(1), p(2)])),
    )];
    let mut turned = chain(&[(1, 3)], &body, 15, &|_| vec![(1, turn.clone())]);
    let outer = op(133, &[p(0), and(p(1), and(p(2), b(0)))]);
    turned.extend([
        Field::Module(16),
        instance(9, 0, 15, &[(1, outer)]),
        Field::End,
    ]);
    let turned = syntax::file(&turned);
    let query = op(128, &[brought(9, 3, &[lit(1), b(0), lit(3)])]);
    let mut all = vec![named(
        "n: operators turned 14 times",
        &turned,
        expand(16, &query, 0, OUTPUT),
    )];

    let swap = n(1, &[p(1), p(0)]);
    let mut nested = Vec::new();
    tower(&mut nested, DEEP - 2, &|inner| n(1, &[inner, lit(1)]));
    let mut swapped = chain(&[(1, 2)], &nested, 8, &|_| vec![(1, swap.clone())]);
    swapped.extend([
        Field::Module(9),
        instance(9, 0, 8, &[(1, op(132, &[p(1), and(p(0), b(0))]))]),
        Field::End,
    ]);
    let query = brought(9, TOWER + DEEP - 3, &[lit(3)]);
    let swapped = syntax::file(&swapped);
    all.push(named(
        "n: operators swapped, nested",
        &swapped,
        expand(9, &query, 0, OUTPUT),
    ));

    let below = [Field::Definition(3, 0, op(128, &[n(1, &[b(0)])]))];
    let bound = op(128, &[and(n(1, &[p(0)]), n(1, &[b(0)]))]);
    let moved = chain(&[(1, 1)], &below, 8, &|_| vec![(1, bound.clone())]);
    let moved = syntax::file(&moved);
    all.push(named(
        "n: indices moved at 7 instances",
        &moved,
        expand(8, &n(3, &[]), 0, OUTPUT),
    ));

    let c = || n(1, &[]);
    let doubled = chain(&[(1, 0)], &[Field::Definition(3, 0, c())], 16, &|_| {
        vec![(1, and(c(), c()))]
    });
    let doubled = syntax::file(&doubled);
    for module in [12, 16] {
        let label = format!("n: substitutes doubled {} times", module - 1);
        all.push(named(
            &label,
            &doubled,
            expand(module, &n(3, &[]), 0, OUTPUT),
        ));
    }
    all
}

/// Card memory of other lengths.
fn memories() -> Vec<Query> {
    let file = syntax::file(&trial_file());
    let mut all = Vec::new();
    for (lent, what) in [(4_095, "one byte short"), (0, "none"), (40_000, "more")] {
        for (label, call) in [
            ("G", expand(LINES, &n(name::G, &[p(0), p(1)]), 2, 100)),
            ("no such module", expand(99, &lit(0), 9, 0)),
        ] {
            all.push(Query {
                label: format!("expand: card memory, {what}: {label}"),
                file: file.clone(),
                call,
                lent,
            });
        }
    }
    all
}

/// All of them.
pub fn all() -> Vec<Query> {
    let parts = [
        trial_lines(),
        below_binders(),
        instances(),
        causes(),
        outputs(),
        small_results(),
        deep_results(),
        under_aliases(),
        through_chains(),
    ];
    let query = |(label, file, call)| Query {
        label,
        file,
        call,
        lent: 4_097,
    };
    let mut all: Vec<Query> = parts.into_iter().flatten().map(query).collect();
    all.extend(memories());
    all
}
