//! The trial lines and the listing example.

use super::build::*;
use crate::{alike, body, check, expand, level, listing, long_way, Limits};

const X: u16 = 2;
const Y: u16 = 3;
const C: u16 = 4;
const F: u16 = 5;
const G: u16 = 6;

fn trial_file() -> Bytes {
    [
        module(1),
        variable(X),
        variable(Y),
        constant(C, 0),
        def(F, 1, lit(0)),
        def(G, 2, always(and(p(0), p(1)))),
        end(),
    ]
    .concat()
}

fn level_of(e: &[u8], levels: &[u8]) -> u32 {
    let file = trial_file();
    let mut cards = vec![7; Limits::CARDS];
    let reply = level(&file, &mut cards, 1, e, levels).expect("a reply");
    assert_eq!(long_way(&file, 1, e, levels, 1000), Some(Ok(reply)));
    reply
}

#[test]
fn listing_example() {
    let file = [
        0x01, 0x00, 0x02, 0x00, 0x01, 0x04, 0x00, 0x02, 0x00, 0x02, 0x05, 0x00, 0x07, 0x00, 0x03,
        0x01, 0x04, 0x70, 0x00, 0x00, 0x07, 0x00, 0x00,
    ];
    assert_eq!(
        listing(&file),
        b"ok 1\n0 0 3 1 01020003000000000000000000000000\n"
    );
    assert_eq!(listing(&file[..22]), b"refused 3 3\n");
    assert_eq!(listing(&file[..20]), b"refused 4 3\n");
    assert_eq!(listing(&[]), b"refused 2 0\n");
}

#[test]
fn listing_of_instances() {
    let file = [
        module(1),
        constant(20, 1),
        def(7, 1, n(20, &[p(0)])),
        end(),
        module(2),
        variable(X),
        instance(0, 0, 1, &[(20, p(0))]),
        end(),
        module(3),
        variable(X),
        instance(9, 1, 1, &[(20, and(p(0), lit(1)))]),
        def(10, 0, io(9, 7, &[n(X, &[]), prime(n(X, &[]))])),
        end(),
    ]
    .concat();
    // In the substitute of the named instance, parameter 0 is the instance's own.
    let text = "ok 4\n\
                0 0 7 1 0100010f000000000000000000000000\n\
                1 0 7 1 0100010f000000000000000000000000\n\
                2 9 7 2 0200010f1f0000000000000000000000\n\
                3 0 10 0 00010000000000000000000000000000\n";
    assert_eq!(listing(&file), text.as_bytes());
}

#[test]
fn starred_lines() {
    let (x, y, c) = (|| n(X, &[]), || n(Y, &[]), || n(C, &[]));
    let plus = |a, b| op(52, &[a, b]);
    let greater = |a, b| op(53, &[a, b]);
    let times = |a, b| op(54, &[a, b]);
    assert_eq!(level_of(&plus(c(), lit(3)), &[]), 0);
    assert_eq!(level_of(&plus(x(), times(lit(2), c())), &[]), 1);
    assert_eq!(level_of(&greater(plus(prime(x()), y()), c()), &[]), 2);
    let box_action = op(120, &[greater(prime(x()), plus(y(), c())), x()]);
    assert_eq!(level_of(&box_action, &[]), 3);
    assert_eq!(level_of(&prime(plus(prime(x()), lit(1))), &[]), 4);
    assert_eq!(level_of(&prime(c()), &[]), 2);
    assert_eq!(level_of(&op(113, &[prime(x())]), &[]), 1);
    assert_eq!(level_of(&always(prime(x())), &[]), 4);
    assert_eq!(level_of(&n(F, &[prime(prime(x()))]), &[]), 0);
    let g = n(G, &[p(0), p(1)]);
    assert_eq!(level_of(&g, &[2, 3]), 4);
    assert_eq!(level_of(&g, &[3, 2]), 4);
    assert_eq!(level_of(&g, &[2, 0]), 4);
    assert_eq!(level_of(&g, &[1, 3]), 3);
    assert_eq!(level_of(&op(140, &[b(0)]), &[]), 3);
    assert_eq!(level_of(&op(140, &[prime(b(0))]), &[]), 4);
}

#[test]
fn cards_of_the_trial_file() {
    let cards = cards(&trial_file());
    // F drops its parameter: every level is taken, none weighs. G takes 0, 1 and 3 for each, and is 3.
    assert_eq!(
        cards[..16],
        [1, 0, 0, 31, 0, 0, 0, 0, 0, 0, 0, 0, 0, 0, 0, 0]
    );
    assert_eq!(
        cards[16..32],
        [2, 3, 0, 11, 11, 0, 0, 0, 0, 0, 0, 0, 0, 0, 0, 0]
    );
    assert!(cards[32..].iter().all(|&byte| byte == 0));
}

#[test]
fn module_n() {
    const K: u16 = 30;
    const U: u16 = 31;
    let u = || n(U, &[]);
    let with = |d: Bytes| [module(8), constant(K, 2), variable(U), def(32, 0, d), end()].concat();
    let mixed = with(always(n(K, &[prime(u()), always(u())])));
    assert_eq!(verdict(&mixed), Err((12, 3)));
    // Without the transition it is lawful, and so is every instance.
    let first = with(always(n(K, &[u(), always(u())])));
    assert_eq!(cards(&first)[1], 3);
    for substitute in [p(0), p(1), and(p(0), p(1))] {
        let other = [
            module(9),
            variable(U),
            instance(0, 0, 8, &[(K, substitute)]),
            end(),
        ];
        let file = [first.clone(), other.concat()].concat();
        assert_eq!(verdict(&file), Ok(2));
        assert_eq!(cards(&file)[17], 3);
    }
}

/// The level of two arguments: the highest, and 4 of a 2 and a 3.
fn mixed(a: u8, b: u8) -> u32 {
    match (a, b) {
        (2, 3) | (3, 2) => 4,
        _ => a.max(b) as u32,
    }
}

#[test]
fn action_and_temporal_do_not_mix() {
    // Every constant built-in of two arguments or more, every binder over a set.
    for (a, b) in (0..5).flat_map(|a| (0..5).map(move |b| (a, b))) {
        let given = [a, b];
        for code in (48..=95).chain(132..=139) {
            let pair = op(code, &[p(0), p(1)]);
            assert_eq!(level_of(&pair, &given), mixed(a, b), "{code} at {a}, {b}");
        }
        for code in 96..=103 {
            for (left, right) in [(0, 1), (0, 2), (1, 2), (2, 0), (2, 1), (1, 0)] {
                let mut parts = [lit(0), lit(0), lit(0)];
                parts[left] = p(0);
                parts[right] = p(1);
                assert_eq!(level_of(&op(code, &parts), &given), mixed(a, b), "{code}");
            }
        }
        // Far apart.
        let far = and(
            wrap(12, and(p(0), n(X, &[]))),
            op(97, &[n(Y, &[]), lit(1), op(128, &[wrap(9, p(1))])]),
        );
        let expected = mixed(a.max(1), b.max(1));
        assert_eq!(level_of(&far, &given), expected, "far apart at {a}, {b}");
    }
    // Rows with masks stay: ENABLED and [] hide what is below them.
    let action = || prime(n(X, &[]));
    let temporal = || always(n(X, &[]));
    assert_eq!(level_of(&and(action(), temporal()), &[]), 4);
    assert_eq!(level_of(&and(op(113, &[action()]), temporal()), &[]), 3);
    let box_action = op(120, &[action(), n(X, &[])]);
    assert_eq!(level_of(&and(box_action.clone(), temporal()), &[]), 3);
    assert_eq!(level_of(&and(box_action, action()), &[]), 4);
    assert_eq!(level_of(&op(122, &[temporal(), action()]), &[]), 4);
    assert_eq!(level_of(&op(132, &[action(), always(b(0))]), &[]), 4);
    assert_eq!(level_of(&op(132, &[temporal(), prime(b(0))]), &[]), 4);
    // What is dropped mixes with nothing.
    assert_eq!(level_of(&n(F, &[and(action(), temporal())]), &[]), 0);
    assert_eq!(level_of(&and(n(F, &[action()]), temporal()), &[]), 3);
}

#[test]
fn declared_operators_do_not_mix() {
    const K: u16 = 30;
    for (count, code) in [(2u8, 48u8), (3, 96)] {
        let parameters: Vec<Bytes> = (0..count).map(p).collect();
        let file = [
            module(1),
            constant(K, count),
            def(7, count, n(K, &parameters)),
            def(8, count, op(code, &parameters)),
            def(9, count, always(n(K, &parameters))),
            end(),
        ];
        let cards = cards(&file.concat());
        assert_eq!(cards[..16], cards[16..32]);
        let read = |number: usize, a, b| {
            let mut levels = vec![0; count as usize];
            (levels[0], levels[1]) = (a, b);
            card(&cards, number).at(&levels)
        };
        assert_eq!((read(0, 2, 3), read(0, 3, 2), read(0, 3, 3)), (4, 4, 3));
        assert_eq!((read(0, 2, 2), read(0, 1, 3)), (2, 3));
        assert_eq!((read(2, 3, 3), read(2, 2, 3)), (3, 4));
    }
    let file = [
        module(1),
        variable(X),
        constant(K, 1),
        constant(31, 2),
        end(),
    ]
    .concat();
    let k = |e: Bytes| n(K, &[e]);
    let (action, temporal) = (prime(n(X, &[])), always(n(X, &[])));
    let both = n(31, &[k(k(action.clone())), k(temporal.clone())]);
    let mut cards = vec![7; Limits::CARDS];
    for (e, expected) in [(both, 4), (k(action), 2), (k(temporal), 3)] {
        assert_eq!(level(&file, &mut cards, 1, &e, &[]), Ok(expected));
        assert_eq!(long_way(&file, 1, &e, &[], 1000), Some(Ok(expected)));
    }
}

#[test]
fn nesting() {
    let with = |times| [module(1), def(2, 0, wrap(times, lit(0))), end()].concat();
    assert_eq!(verdict(&with(31)), Ok(1));
    assert_eq!(verdict(&with(32)), Err((5, 1)));
    let side = |times| {
        let formula = and(lit(0), wrap(times, lit(0)));
        [module(1), theorem(formula), end()].concat()
    };
    assert_eq!(verdict(&side(30)), Ok(0));
    assert_eq!(verdict(&side(31)), Err((5, 1)));
}

#[test]
fn definitions() {
    let with = |count: u16| {
        let mut file = module(1);
        (1..=count).for_each(|name| file.extend(def(name, 0, lit(0))));
        [file, end()].concat()
    };
    assert_eq!(verdict(&with(256)), Ok(256));
    assert_eq!(verdict(&with(257)), Err((5, 257)));
}

#[test]
fn a_variable_for_a_constant() {
    let inner = |more: Bytes| [module(1), constant(C, 0), more, def(F, 0, n(C, &[])), end()];
    let outer = [
        module(2),
        variable(X),
        instance(0, 0, 1, &[(C, n(X, &[]))]),
        end(),
    ]
    .concat();
    let lawful = [inner(Bytes::new()).concat(), outer.clone()].concat();
    assert_eq!(verdict(&lawful), Ok(2));
    assert_eq!(cards(&lawful)[17], 1);
    let unlawful = [inner(variable(X)).concat(), outer].concat();
    assert_eq!(verdict(&unlawful), Err((14, 7)));
}

#[test]
fn extending_twice() {
    let file = [
        trial_file(),
        module(2),
        extends(&[1, 1]),
        def(40, 1, n(F, &[p(0)])),
        end(),
        module(3),
        extends(&[2, 1, 2]),
        def(41, 0, n(40, &[n(X, &[])])),
        end(),
    ]
    .concat();
    assert_eq!(verdict(&file), Ok(4));
}

#[test]
fn expansion_moves_bound_indices() {
    // H(p) == \A z : \E w : p = z, and H of a variable bound outside.
    let h = op(128, &[op(129, &[op(48, &[p(0), b(1)])])]);
    let file = [module(1), variable(X), def(F, 1, h), end()].concat();
    let query = op(132, &[n(X, &[]), n(F, &[op(48, &[b(0), p(0)])])]);
    let inner = op(48, &[op(48, &[b(2), p(0)]), b(1)]);
    let expected = op(132, &[n(X, &[]), op(128, &[op(129, &[inner])])]);
    let mut cards = vec![0; Limits::CARDS];
    let mut out = [9; 100];
    let length = expand(&file, &mut cards, 1, &query, 1, &mut out).expect("a length") as usize;
    assert_eq!(out[..length], expected);
    assert!(out[length..].iter().all(|&byte| byte == 9));
}

#[test]
fn expansion_through_an_instance() {
    let file = [
        module(1),
        constant(20, 1),
        variable(X),
        def(F, 1, n(20, &[op(16, &[p(0)])])),
        def(G, 1, n(F, &[and(p(0), n(X, &[]))])),
        end(),
        module(2),
        variable(Y),
        instance(9, 1, 1, &[(20, and(p(1), p(0))), (X, p(0))]),
        end(),
    ]
    .concat();
    let mut cards = vec![0; Limits::CARDS];
    let mut out = [9; 100];
    let query = io(9, G, &[n(Y, &[]), lit(3)]);
    let length = expand(&file, &mut cards, 2, &query, 0, &mut out).expect("a length") as usize;
    let y = || n(Y, &[]);
    let expected = and(op(16, &[and(lit(3), y())]), y());
    assert_eq!(out[..length], expected);
}

#[test]
fn bodies_and_likeness() {
    let file = [
        module(1),
        constant(C, 0),
        def(F, 0, n(C, &[])),
        end(),
        module(2),
        variable(X),
        instance(9, 1, 1, &[(C, p(0))]),
        def(G, 1, p(0)),
        def(F, 0, lit(0)),
        end(),
    ]
    .concat();
    let mut cards = vec![0; Limits::CARDS];
    assert_eq!(check(&file, &mut cards), Ok(4));
    let (start, length) = body(&file, &mut cards, 1).expect("a body");
    assert_eq!(body(&file, &mut cards, 0), Ok((start, length)));
    let part = &file[start as usize..][..length as usize];
    assert_eq!(part, n(C, &[]));
    assert_eq!(alike(&file, &mut cards, 1, 2), Ok(1));
    assert_eq!(alike(&file, &mut cards, 0, 1), Ok(0));
    assert_eq!(alike(&file, &mut cards, 0, 3), Ok(1));
}
