//! Cards of up to eight parameters: masks, weights and pairs as L7 words them, and cards against brute force.

use super::build::*;
use super::gen::{self, Random};
use crate::cards::Card;
use crate::judge::Program;
use crate::long_way::LongWay;
use crate::{alike, exact_cards, level, listing, vectors, Compared, Inexact, Limits};

const X: u16 = 500;

fn x() -> Bytes {
    n(X, &[])
}

fn enabled(e: Bytes) -> Bytes {
    op(113, &[e])
}

/// A file of one module with these definitions, of names from 1 on.
fn file_of(bodies: &[(u8, Bytes)]) -> Bytes {
    let mut file = [module(1), variable(X)].concat();
    for (number, (parameters, body)) in bodies.iter().enumerate() {
        file.extend(def(number as u16 + 1, *parameters, body.clone()));
    }
    [file, end()].concat()
}

/// The bytes of the card of one definition.
fn card_of(parameters: u8, body: Bytes) -> [u8; 16] {
    let file = file_of(&[(parameters, body)]);
    let cards = cards(&file);
    let opinion = exact_cards(&file, &cards, 1_000).expect("an accepted file");
    assert_eq!(opinion.inexact, []);
    assert_eq!(opinion.compared.given_up, 0);
    *card(&cards, 0).bytes()
}

fn pairs(card: &[u8; 16]) -> u32 {
    u32::from_be_bytes(card[11..15].try_into().expect("four bytes"))
}

#[test]
fn masks() {
    // By the body: the level with all at 0, the weight of the only parameter, its mask.
    for (body, expected) in [
        (lit(0), [0, 0, 31]),
        (p(0), [0, 1, 15]),
        (and(p(0), x()), [1, 1, 15]),
        (always(p(0)), [3, 0, 11]),
        (and(always(p(0)), p(0)), [3, 0, 11]),
        (enabled(p(0)), [1, 0, 7]),
        (and(enabled(p(0)), p(0)), [1, 1, 7]),
        (prime(p(0)), [2, 0, 3]),
        (and(prime(p(0)), p(0)), [2, 0, 3]),
        (enabled(prime(p(0))), [1, 0, 3]),
        (op(122, &[p(0), enabled(p(0))]), [3, 0, 3]),
        // The level is 2 or 3 already: what else is taken does not raise it.
        (and(prime(x()), p(0)), [2, 0, 7]),
        (and(always(x()), p(0)), [3, 0, 11]),
        (and(prime(x()), enabled(p(0))), [2, 0, 7]),
        // A bound variable of \EE is 1, one of a set is 0.
        (op(140, &[and(b(0), p(0))]), [3, 0, 11]),
        (op(132, &[p(0), b(0)]), [0, 1, 15]),
    ] {
        let card = card_of(1, body.clone());
        assert_eq!(
            card[..4],
            [1, expected[0], expected[1], expected[2]],
            "{body:?}"
        );
        assert_eq!(card[4..], [0; 12]);
        // The same as the last of eight, the others not used.
        let mut last = body.clone();
        move_parameter(&mut last, 7);
        let card = card_of(8, last);
        assert_eq!(card[..3], [8, expected[0], expected[1] << 7]);
        assert_eq!(card[3..10], [31; 7]);
        assert_eq!(card[10], expected[2]);
        assert_eq!(card[11..], [0; 5]);
    }
}

/// Writes another index for the only parameter of a body.
fn move_parameter(body: &mut [u8], to: u8) {
    let mut at = 0;
    while at < body.len() {
        at += match body[at] {
            0 => {
                body[at + 1] = to;
                2
            }
            2 => 4,
            4 => 2,
            _ => 3,
        };
    }
}

/// A body that is 4 with all at 0 has no card: it is refused. Its masks would be 0.
#[test]
fn a_mask_of_0() {
    let file = file_of(&[(8, and(prime(prime(lit(0))), p(0)))]);
    assert_eq!(verdict(&file), Err((12, 2)));
    let card = Card::probed(8, |_| 4);
    assert_eq!(card.bytes()[..3], [8, 4, 0]);
    assert_eq!(card.bytes()[3..], [0; 13]);
    assert_eq!(card.at(&[0; 8]), 4);
    // Beside it, masks of parameters that there are not are 0.
    assert_eq!(card_of(3, lit(0))[3..11], [31, 31, 31, 0, 0, 0, 0, 0]);
    assert_eq!(
        card_of(0, prime(x())),
        [0, 2, 0, 0, 0, 0, 0, 0, 0, 0, 0, 0, 0, 0, 0, 0]
    );
}

/// With a 2 for one and a 3 for the other, either way round.
#[test]
fn pairs_either_way_round() {
    let not_temporal = |e: Bytes| and(e.clone(), enabled(e));
    let both = card_of(2, and(p(0), p(1)));
    assert_eq!(both[..5], [2, 0, 3, 15, 15]);
    assert_eq!(pairs(&both), 1);
    let first_is_action = card_of(2, and(not_temporal(p(0)), p(1)));
    assert_eq!(first_is_action[..5], [2, 1, 3, 7, 15]);
    assert_eq!(pairs(&first_is_action), 1);
    let second_is_action = card_of(2, and(p(0), not_temporal(p(1))));
    assert_eq!(second_is_action[..5], [2, 1, 3, 15, 7]);
    assert_eq!(pairs(&second_is_action), 1);
    // Neither: one alone is 4 already, or the two do not meet.
    for body in [
        and(not_temporal(p(0)), not_temporal(p(1))),
        always(and(p(0), p(1))),
        and(prime(x()), and(p(0), p(1))),
        and(always(x()), and(p(0), p(1))),
        and(p(0), enabled(p(1))),
        and(p(0), always(p(1))),
        and(p(0), prime(p(1))),
        p(1),
    ] {
        assert_eq!(pairs(&card_of(2, body)), 0);
    }
}

#[test]
fn every_pair_bit() {
    let mut bit = 0;
    for j in 1..8 {
        for i in 0..j {
            let card = card_of(8, op(97, &[p(j), lit(1), p(i)]));
            assert_eq!(pairs(&card), 1 << bit, "{i} and {j}");
            assert_eq!(card[2], 1 << i | 1 << j);
            let mut levels = [1; 8];
            (levels[i as usize], levels[j as usize]) = (2, 3);
            assert_eq!(Card::of(card).at(&levels), 4);
            levels[i as usize] = 3;
            assert_eq!(Card::of(card).at(&levels), 3);
            bit += 1;
        }
    }
    assert_eq!(bit, 28);
    let all = (1..8).fold(p(0), |e, i| and(e, p(i)));
    let card = card_of(8, all.clone());
    assert_eq!(card[..3], [8, 0, 255]);
    assert_eq!(card[3..11], [15; 8]);
    assert_eq!(pairs(&card), 0x0FFF_FFFF);
    assert_eq!(card[11..], [0x0F, 0xFF, 0xFF, 0xFF, 0]);
    let line = "ok 1\n0 0 1 8 0800ff0f0f0f0f0f0f0f0f0fffffff00\n";
    assert_eq!(listing(&file_of(&[(8, all)])), line.as_bytes());
}

/// Masks 31, 15, 7, 3 and 31, and where two of the first three meet.
fn winch() -> Bytes {
    let taken = and(p(1), and(enabled(p(2)), p(2)));
    and(taken, enabled(prime(p(3))))
}

/// All vectors of bodies over eight parameters, not only those looked at otherwise.
#[test]
fn eight_parameters_by_brute_force() {
    let action = and(op(115, &[and(p(0), p(1)), p(2)]), and(p(3), p(4)));
    let temporal = and(
        op(122, &[p(0), and(p(1), p(5))]),
        op(96, &[p(3), p(4), p(7)]),
    );
    let state = and(enabled(and(p(0), p(5))), op(97, &[p(5), p(6), p(7)]));
    let file = file_of(&[(8, action), (8, temporal), (8, state)]);
    let cards = cards(&file);
    let program = Program::judge(&file).expect("an accepted file");
    let way = LongWay::new(&program, 100);
    for number in 0..3 {
        let tree = way.definition(number).expect("a small tree");
        let card = card(&cards, number);
        let mut seen = [0; 5];
        for vector in 0..5usize.pow(8) {
            let mut rest = vector;
            let mut levels = [0; 8];
            for level in &mut levels {
                *level = (rest % 5) as u8;
                rest /= 5;
            }
            let long = way.level(tree, &levels);
            assert_eq!(card.at(&levels), long, "{number} at {levels:?}");
            seen[long as usize] += 1;
        }
        println!("{number}: {seen:?}");
        assert!(seen.iter().filter(|&&count| count > 0).count() > 1);
    }
}

/// What a card says at the levels of a call's arguments: a definition by another of eight parameters, and
/// the same in a query.
#[test]
fn calls_of_eight_arguments() {
    let all = (1..8).fold(p(0), |e, i| and(e, p(i)));
    let turned: Vec<Bytes> = (0..8).rev().map(p).collect();
    let shifted: Vec<Bytes> = (0..8).map(|i| p((i + 3) % 8)).collect();
    let call = |name: u16, arguments: &[Bytes]| n(name, arguments);
    let file = file_of(&[
        (8, all),
        (8, call(1, &turned)),
        (4, winch()),
        (8, call(3, &shifted[..4])),
        (6, call(3, &[p(5), p(4), p(3), p(2)])),
        (
            8,
            call(2, &[prime(p(0)), p(1), p(2), x(), lit(0), p(5), p(6), p(7)]),
        ),
        (6, always(call(5, &[p(0), p(1), p(2), p(3), p(4), p(5)]))),
    ]);
    let mut lent = cards(&file);
    let opinion = exact_cards(&file, &lent, 1_000).expect("an accepted file");
    assert_eq!(opinion.inexact, []);
    assert_eq!(opinion.compared.definitions, [0, 0, 0, 0, 1, 0, 2, 0, 4]);
    assert_eq!((opinion.compared.alike, opinion.compared.unlike), (1, 6));
    assert_eq!(alike(&file, &mut lent, 0, 1), Ok(1));
    assert_eq!(alike(&file, &mut lent, 0, 5), Ok(0));
    // Four parameters: 31, 15, 7, 3, and a pair of the second and the third.
    assert_eq!(card(&lent, 2).bytes()[..7], [4, 1, 6, 31, 15, 7, 3]);
    assert_eq!(pairs(card(&lent, 2).bytes()), 1 << 2);
    // In the fourth the same fall to parameters 3, 4, 5, 6: the pair is that of 4 and 5.
    assert_eq!(
        card(&lent, 3).bytes()[3..11],
        [31, 31, 31, 31, 15, 7, 3, 31]
    );
    assert_eq!(pairs(card(&lent, 3).bytes()), 1 << (5 * 4 / 2 + 4));
    for levels in vectors(8) {
        let arguments: Vec<Bytes> = (0..8).map(p).collect();
        for name in [1, 2, 4, 6] {
            let reply = level(&file, &mut lent, 1, &n(name, &arguments), levels);
            let read = card(&lent, name as usize - 1).at(levels);
            assert_eq!(reply, Ok(read as u32));
        }
    }
}

/// An instance with parameters over an operator with arguments, in sums of eight, brought on once more.
#[test]
fn eight_by_instances() {
    let arguments = |from: u8, to: u8| (from..to).map(p).collect::<Vec<_>>();
    // K of five arguments in a definition of four; then parameters of two instances, one and three.
    let file = [
        module(1),
        constant(20, 5),
        def(21, 4, n(20, &[p(3), prime(p(2)), p(1), p(0), lit(7)])),
        end(),
        module(2),
        constant(22, 0),
        variable(23),
        instance(
            0,
            0,
            1,
            &[(20, op(97, &[p(1), n(22, &[]), and(p(3), p(4))]))],
        ),
        end(),
        module(3),
        variable(23),
        instance(9, 4, 2, &[(22, op(97, &[p(0), p(1), op(128, &[p(3)])]))]),
        def(30, 8, io(9, 21, &arguments(0, 8))),
        end(),
    ]
    .concat();
    assert_eq!(verdict(&file), Ok(4));
    let cards = cards(&file);
    let opinion = exact_cards(&file, &cards, 1_000).expect("an accepted file");
    assert_eq!(opinion.inexact, []);
    assert_eq!(card(&cards, 2), card(&cards, 3));
    // The instance's parameters come first: 0 and 1 weigh no more beside the prime, 2 is dropped.
    let expected = [8, 2, 0, 7, 7, 31, 7, 7, 31, 3, 31, 0, 0, 0, 0, 0];
    assert_eq!(card(&cards, 2).bytes(), &expected);
}

/// Cards that differ in one byte, of one parameter and of the last of eight: in the level, the weights, a mask.
#[test]
fn likeness_by_each_byte() {
    for (byte, one, other) in [
        (1, p(0), and(p(0), x())),
        (2, and(x(), enabled(p(0))), and(p(0), enabled(p(0)))),
        (3, always(p(0)), always(x())),
    ] {
        let last = |body: &Bytes| {
            let mut last = body.clone();
            move_parameter(&mut last, 7);
            last
        };
        let file = file_of(&[(8, last(&one)), (8, last(&other)), (1, one), (1, other)]);
        let mut lent = cards(&file);
        for (first, byte) in [(0, if byte < 3 { byte } else { 10 }), (2, byte)] {
            let [a, b] = [first, first + 1].map(|number| *card(&lent, number).bytes());
            let differ: Vec<usize> = (0..16).filter(|&at| a[at] != b[at]).collect();
            assert_eq!(differ, [byte]);
            let number = first as u32;
            assert_eq!(alike(&file, &mut lent, number, number + 1), Ok(0));
            assert_eq!(alike(&file, &mut lent, number + 1, number), Ok(0));
            assert_eq!(alike(&file, &mut lent, number, number), Ok(1));
        }
    }
}

/// Wrong cards are found: each byte that says something, changed.
#[test]
fn wrong_cards_are_found() {
    let all = (1..8).fold(p(0), |e, i| and(e, p(i)));
    let file = file_of(&[(8, all), (4, winch()), (3, always(p(1))), (0, x())]);
    let right = cards(&file);
    let opinion = exact_cards(&file, &right, 100).expect("an accepted file");
    assert_eq!(opinion.inexact, []);
    let expected = Compared {
        definitions: [1, 0, 0, 1, 1, 0, 0, 0, 1],
        vectors: 1 + 125 + vectors(4).len() as u64 + vectors(8).len() as u64,
        alike: 0,
        unlike: 4,
        given_up: 0,
    };
    assert_eq!(opinion.compared, expected);
    // Of the first all parameters weigh, so that only 4 as a taken level says nothing; of the third none does.
    let masks = |count, levels: u8| {
        (0..count).flat_map(move |i| (0..levels).map(move |l| (3 + i, 1u8 << l)))
    };
    let weights = (0..8).map(|i| (2, 1u8 << i));
    let pairs = (0..28).map(|bit| (14 - bit / 8, 1u8 << (bit % 8)));
    let first = masks(8, 4).chain(weights).chain(pairs).map(|c| (0, c));
    let third = masks(3, 5).map(|c| (2, c));
    let levels = (0..4).map(|number| (number, (1, 1)));
    for (number, (byte, bit)) in first.chain(third).chain(levels) {
        let mut wrong = right.clone();
        wrong[16 * number + byte] ^= bit;
        let told = exact_cards(&file, &wrong, 100).expect("an accepted file");
        assert_ne!(told.inexact, [], "{number}: {byte}, {bit}");
    }
    // The card of the second for the first, and one that differs in a bit that says nothing.
    let two = file_of(&[(2, and(p(0), p(1))), (2, p(0)), (2, p(0))]);
    let right = cards(&two);
    let mut wrong = right.clone();
    wrong.copy_within(0..16, 16);
    let told = exact_cards(&two, &wrong, 100)
        .expect("an accepted file")
        .inexact;
    let equal = |definitions| Inexact::EqualCards { definitions };
    assert!(told.contains(&equal([0, 1])));
    let mut wrong = right.clone();
    wrong[16 + 15] = 1;
    let told = exact_cards(&two, &wrong, 100)
        .expect("an accepted file")
        .inexact;
    let definitions = [1, 2];
    assert_eq!(told, [Inexact::EqualLevels { definitions }]);
}

/// Cards of generated files by the second opinion.
#[test]
fn cards_are_exact() {
    let mut compared = Compared::default();
    for seed in 5_001..=5_600 {
        let file = gen::file(&mut Random::new(seed), Program::judge);
        let cards = cards(&file);
        let opinion = exact_cards(&file, &cards, 2_000).expect("an accepted file");
        assert_eq!(opinion.inexact, [], "{file:?}");
        compared += opinion.compared;
    }
    println!("{compared:?}");
    assert!(compared.definitions.iter().all(|&count| count > 100));
    assert!(compared.alike > 1_000 && compared.unlike > 1_000);
}

#[test]
fn vectors_looked_at() {
    for count in 0..=Limits::PARAMETERS {
        let vectors = vectors(count);
        assert!(vectors.iter().all(|v| v.len() == count));
        assert!(vectors.iter().flatten().all(|&level| level <= 4));
        let known = |vector: &Vec<u8>| vectors.contains(vector);
        for i in 0..count {
            for j in 0..count {
                let mut vector = vec![0; count];
                (vector[i], vector[j]) = (2, 3);
                assert!(known(&vector));
            }
        }
        match count {
            0..=3 => assert_eq!(vectors.len(), 5usize.pow(count as u32)),
            _ => assert!(vectors.len() < 300),
        }
    }
}
