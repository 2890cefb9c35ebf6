//! The second opinion that lawful instances stay lawful: hand-written files on both of its halves, and
//! wrong rules by which it breaks.

use super::build::*;
use crate::{staying_lawful, staying_lawful_by, Breach, Broken, Opinion, Rules, Seen};

const FUEL: usize = 1_000;

// What modules declare: constants, an operator, variables; and the definition looked at.
const A: u16 = 1;
const B: u16 = 2;
const K: u16 = 3;
const U: u16 = 4;
const X: u16 = 5;
const D: u16 = 10;

fn u() -> Bytes {
    n(U, &[])
}

fn x() -> Bytes {
    n(X, &[])
}

/// Module 1 with these fields, and an INSTANCE of it in module 2, which declares a variable x.
fn bringing(inside: &[Bytes], with: &[(u16, Bytes)]) -> Bytes {
    let outer = [module(2), variable(X), instance(0, 0, 1, with), end()];
    [module(1), inside.concat(), end(), outer.concat()].concat()
}

/// The field that the INSTANCE of `bringing` is.
fn place(inside: &[Bytes]) -> u32 {
    inside.len() as u32 + 4
}

/// What was looked at in a file of which nothing is broken nor given up.
fn seen(file: &[u8]) -> Seen {
    let opinion = staying_lawful(file, FUEL);
    assert_eq!(opinion.broken, []);
    assert_eq!(opinion.seen.given_up, 0);
    opinion.seen
}

/// Definitions by level there, level brought, and how many: of constant modules and of others.
type Moves = Vec<(usize, usize, u64)>;

fn moves(seen: &Seen) -> (Moves, Moves) {
    let list = |table: &[[u64; 5]; 5]| {
        let places = (0..25).map(|at| (at / 5, at % 5, table[at / 5][at % 5]));
        places.filter(|&(_, _, count)| count > 0).collect()
    };
    (list(&seen.constant), list(&seen.other))
}

/// A file that is accepted, with what it brings of constant modules and of others.
fn stays(file: &[u8], constant: &[(usize, usize, u64)], other: &[(usize, usize, u64)]) -> Seen {
    assert!(verdict(file).is_ok());
    let seen = seen(file);
    assert_eq!(moves(&seen), (constant.to_vec(), other.to_vec()));
    seen
}

#[test]
fn constant_modules_rise_to_their_substitutes() {
    let over = |body: Bytes| [constant(A, 0), constant(B, 0), def(D, 0, body)];
    let a = || over(n(A, &[]));
    let both = || over(and(n(A, &[]), n(B, &[])));
    let to = |level: usize| match level {
        0 => lit(7),
        1 => x(),
        2 => prime(x()),
        _ => always(x()),
    };
    for level in 0..4 {
        let with = [(A, to(level)), (B, lit(0))];
        assert_eq!(
            stays(&bringing(&a(), &with), &[(0, level, 1)], &[]).below,
            0
        );
        stays(&bringing(&both(), &with), &[(0, level, 1)], &[]);
        // Of the other name nothing comes up.
        let with = [(A, lit(0)), (B, to(level))];
        let below = stays(&bringing(&a(), &with), &[(0, 0, 1)], &[]).below;
        assert_eq!(below, (level > 0) as u64);
        stays(&bringing(&both(), &with), &[(0, level, 1)], &[]);
    }
    // The higher of two, and the lower.
    for level in [2, 3] {
        let with = [(A, x()), (B, to(level))];
        stays(&bringing(&both(), &with), &[(0, level, 1)], &[]);
        assert_eq!(stays(&bringing(&a(), &with), &[(0, 1, 1)], &[]).below, 1);
    }
    // No name at all: no higher than 0.
    let none = bringing(&[def(D, 1, and(p(0), lit(1)))], &[]);
    stays(&none, &[(0, 0, 1)], &[]);
}

#[test]
fn other_modules_stay_or_fall() {
    let with_u = |body: Bytes| [variable(U), def(D, 0, body)];
    for (body, substitute, own, brought) in [
        (u(), lit(0), 1, 0),
        (u(), x(), 1, 1),
        (prime(u()), x(), 2, 2),
        (prime(u()), lit(0), 2, 2),
        (always(u()), x(), 3, 3),
        (always(u()), lit(0), 3, 3),
        (op(113, &[prime(u())]), lit(0), 1, 1),
        (lit(5), x(), 0, 0),
    ] {
        let file = bringing(&with_u(body), &[(U, substitute)]);
        stays(&file, &[], &[(own, brought, 1)]);
    }
    // Not constant for its definition at 2 alone, or for a brought one, or an extended one.
    let primed = || def(D, 0, prime(lit(0)));
    let file = bringing(
        &[constant(A, 0), primed(), def(11, 0, n(A, &[]))],
        &[(A, lit(1))],
    );
    stays(&file, &[], &[(0, 0, 1), (2, 2, 1)]);
    for between in [instance(0, 0, 1, &[]), extends(&[1])] {
        let file = [
            module(1),
            primed(),
            end(),
            module(2),
            between,
            constant(A, 0),
            def(11, 0, n(A, &[])),
            end(),
            module(3),
            constant(A, 0),
            instance(0, 0, 2, &[]),
            end(),
        ];
        let seen = seen(&file.concat());
        assert_eq!((seen.other[0][0], seen.other[2][2] > 0), (1, true));
    }
}

#[test]
fn substitutes_of_operators() {
    let inside = |body: Bytes| [constant(K, 2), variable(U), def(D, 0, body)];
    let over = |first: Bytes, second: Bytes| n(K, &[first, second]);
    // What K takes of its arguments is what is left of their levels.
    for (body, k, own, brought) in [
        (over(u(), prime(u())), p(0), 2, 1),
        (over(u(), prime(u())), p(1), 2, 2),
        (over(u(), prime(u())), and(p(1), p(0)), 2, 2),
        (over(u(), prime(u())), lit(0), 2, 0),
        (over(u(), always(u())), p(0), 3, 1),
        (over(u(), always(u())), p(1), 3, 3),
        (over(u(), always(u())), lit(0), 3, 0),
        (over(lit(1), u()), p(0), 1, 0),
        (always(over(u(), op(113, &[prime(u())]))), lit(0), 3, 3),
    ] {
        let file = bringing(&inside(body), &[(K, k), (U, x())]);
        stays(&file, &[], &[(own, brought, 1)]);
    }
    // In a constant module.
    let inside = [
        constant(K, 2),
        constant(A, 0),
        def(D, 0, over(n(A, &[]), lit(0))),
    ];
    for (k, level) in [(p(0), 2), (p(1), 0), (and(p(0), p(1)), 2)] {
        let file = bringing(&inside, &[(K, k), (A, prime(x()))]);
        let seen = stays(&file, &[(0, level, 1)], &[]);
        assert_eq!(seen.below, (level == 0) as u64);
    }
}

#[test]
fn names_that_stand_for_themselves() {
    let inside = [module(1), constant(A, 0), def(D, 0, n(A, &[])), end()].concat();
    for (declared, level) in [
        (constant(A, 0), 0),
        (variable(A), 1),
        (def(A, 0, prime(lit(0))), 2),
        (def(A, 0, always(lit(0))), 3),
    ] {
        let outer = [module(2), declared, instance(9, 0, 1, &[]), end()].concat();
        stays(&[inside.clone(), outer].concat(), &[(0, level, 1)], &[]);
    }
}

#[test]
fn chains_of_instances() {
    // A 0 rises to u, which is a variable; what is put for u then may fall.
    let first = [module(1), constant(A, 0), def(D, 0, n(A, &[])), end()].concat();
    let second = [
        module(2),
        variable(U),
        instance(0, 0, 1, &[(A, u())]),
        end(),
    ]
    .concat();
    let third = |substitute: Bytes| {
        let by = instance(0, 0, 2, &[(U, substitute)]);
        [module(3), variable(X), by, end()].concat()
    };
    let file = |substitute| [first.clone(), second.clone(), third(substitute)].concat();
    let seen = stays(&file(x()), &[(0, 1, 1)], &[(1, 1, 1)]);
    assert_eq!((seen.instances, seen.chained), (2, 1));
    stays(&file(lit(0)), &[(0, 1, 1)], &[(1, 0, 1)]);
    // An operator on the way: a 3 falls twice over.
    let k = |arguments: &[Bytes]| n(K, arguments);
    let file = [
        module(1),
        constant(K, 2),
        variable(U),
        def(D, 0, k(&[u(), always(u())])),
        end(),
        module(2),
        constant(K, 2),
        variable(U),
        instance(0, 0, 1, &[(K, k(&[p(0), k(&[lit(0), p(1)])]))]),
        end(),
        module(3),
        variable(U),
        instance(7, 1, 2, &[(K, p(1)), (U, p(0))]),
        end(),
    ]
    .concat();
    let seen = stays(&file, &[], &[(3, 0, 1), (3, 3, 1)]);
    assert_eq!((seen.instances, seen.chained, seen.named_inside), (2, 1, 0));
}

#[test]
fn an_instance_with_cause_16_is_looked_at() {
    let file = |of_first: &[(u16, Bytes)]| {
        [
            module(1),
            variable(U),
            def(D, 0, prime(u())),
            end(),
            module(2),
            variable(U),
            instance(7, 0, 1, of_first),
            def(11, 0, always(u())),
            end(),
            module(3),
            variable(X),
            instance(0, 0, 2, &[(U, x())]),
            theorem(n(99, &[])),
        ]
        .concat()
    };
    assert_eq!(verdict(&file(&[])), Err((16, 11)));
    let seen = seen(&file(&[]));
    assert_eq!((seen.instances, seen.named_inside, seen.chained), (2, 1, 1));
    assert_eq!(moves(&seen), (vec![], vec![(2, 2, 2), (3, 3, 1)]));
    // What comes before 16 is judged before: nothing is looked at.
    assert_eq!(verdict(&file(&[(U, prime(u()))])), Err((14, 6)));
    let opinion = staying_lawful(&file(&[(U, prime(u()))]), FUEL);
    assert_eq!(opinion, Opinion::default());
}

#[test]
fn the_rest_of_a_file_does_not_matter() {
    let inside = [variable(U), def(D, 0, u())];
    let whole = bringing(&inside, &[(U, lit(0))]);
    let expected = stays(&whole, &[], &[(1, 0, 1)]);
    let open = &whole[..whole.len() - 3];
    for more in [&[][..], &[77], &[7, 0, 0, 7, 0, 0], &[9, 0, 3, 1, 0, 0]] {
        let file = [open, more].concat();
        assert!(verdict(&file).is_err());
        assert_eq!(seen(&file), expected);
    }
    // Neither do files without a field.
    assert_eq!(staying_lawful(&[], FUEL), Opinion::default());
    assert_eq!(staying_lawful(&[0; 40_000], FUEL), Opinion::default());
}

#[test]
fn fuel() {
    let inside = [constant(A, 0), def(D, 0, wrap(9, n(A, &[])))];
    let file = bringing(&inside, &[(A, x())]);
    assert_eq!(moves(&seen(&file)), (vec![(0, 1, 1)], vec![]));
    let short = staying_lawful(&file, 9);
    assert_eq!((short.seen.instances, short.seen.given_up), (1, 1));
    assert_eq!(moves(&short.seen), (vec![], vec![]));
}

/// A file that the papers refuse with this cause and other rules let through, and how it breaks then.
fn breaks(rules: Rules, cause: u32, inside: &[Bytes], with: &[(u16, Bytes)], how: &[Breach]) {
    let file = bringing(inside, with);
    let field = place(inside);
    assert_eq!(verdict(&file), Err((cause, field)));
    assert_eq!(staying_lawful(&file, FUEL), Opinion::default());
    let opinion = staying_lawful_by(rules, &file, FUEL);
    let expected: Vec<Broken> = how
        .iter()
        .map(|&breach| Broken {
            field,
            definition: 1,
            original: 0,
            breach,
        })
        .collect();
    assert_eq!(opinion.broken, expected);
}

#[test]
fn a_variable_at_2_or_3() {
    let rules = |variable| Rules {
        variable,
        ..Rules::PAPERS
    };
    let primed = [variable(U), def(D, 0, prime(u()))];
    let higher = |own, brought| Breach::Higher { own, brought };
    let four = [Breach::Four, higher(2, 4)];
    breaks(rules(2), 14, &primed, &[(U, prime(x()))], &four);
    breaks(rules(3), 14, &primed, &[(U, always(x()))], &four);
    let plain = [variable(U), def(D, 0, u())];
    breaks(rules(2), 14, &plain, &[(U, prime(x()))], &[higher(1, 2)]);
    let temporal = [variable(U), def(D, 0, always(u()))];
    let four = [Breach::Four, higher(3, 4)];
    breaks(rules(2), 14, &temporal, &[(U, prime(x()))], &four);
}

#[test]
fn a_constant_at_1() {
    let rules = Rules {
        constant: 1,
        ..Rules::PAPERS
    };
    let inside = [constant(A, 0), variable(U), def(D, 0, n(A, &[]))];
    let higher = Breach::Higher { own: 0, brought: 1 };
    breaks(rules, 14, &inside, &[(A, x()), (U, x())], &[higher]);
}

#[test]
fn an_operator_at_1() {
    let rules = Rules {
        operator: 1,
        ..Rules::PAPERS
    };
    // Every row takes a 1, so nothing becomes 4: but a 0 rises.
    let inside = [constant(K, 1), variable(U), def(D, 0, n(K, &[lit(0)]))];
    let higher = Breach::Higher { own: 0, brought: 1 };
    breaks(rules, 14, &inside, &[(K, x()), (U, x())], &[higher]);
}

/// Were an operator to take a 2, a 3 could become a 2: it drops its argument and is 2 by itself.
#[test]
fn an_operator_at_2() {
    let rules = Rules {
        operator: 2,
        ..Rules::PAPERS
    };
    let inside = |body: Bytes| [constant(K, 1), variable(U), def(D, 0, body)];
    let with = [(K, prime(lit(0))), (U, x())];
    let temporal = n(K, &[always(u())]);
    breaks(
        rules,
        14,
        &inside(temporal),
        &with,
        &[Breach::TemporalToAction],
    );
    let four = [Breach::Four, Breach::Higher { own: 3, brought: 4 }];
    breaks(rules, 14, &inside(always(n(K, &[u()]))), &with, &four);
    // In a constant module the highest substitute is 2.
    let inside = [
        constant(K, 1),
        constant(A, 0),
        def(D, 0, n(K, &[n(A, &[])])),
    ];
    let above = Breach::AboveSubstitutes {
        highest: 2,
        brought: 4,
    };
    let with = [(K, prime(p(0))), (A, prime(x()))];
    breaks(rules, 14, &inside, &with, &[Breach::Four, above]);
}

#[test]
fn without_21() {
    let rules = Rules {
        mixed: false,
        ..Rules::PAPERS
    };
    // The highest of a 2 and a 3 is 4, so nothing is above it: but 4 it is.
    let sum = op(52, &[n(A, &[]), n(B, &[])]);
    let inside = [constant(A, 0), constant(B, 0), def(D, 0, sum)];
    let with = [(A, prime(x())), (B, always(x()))];
    breaks(rules, 21, &inside, &with, &[Breach::Four]);
}
