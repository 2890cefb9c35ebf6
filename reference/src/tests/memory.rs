//! Lent memory after every kind of outcome, and the order of a query's causes.

use super::build::*;
use crate::*;

fn accepted() -> Bytes {
    [
        module(1),
        variable(2),
        def(3, 1, prime(p(0))),
        def(4, 0, n(2, &[])),
        end(),
    ]
    .concat()
}

/// The accepted file, and an instance of a constant module with a 2 and a 3 put for its names.
fn mixed_substitutes() -> Bytes {
    [
        accepted(),
        module(5),
        constant(6, 0),
        constant(7, 0),
        end(),
        module(8),
        extends(&[1]),
        instance(0, 0, 5, &[(6, prime(n(2, &[]))), (7, always(n(4, &[])))]),
        end(),
    ]
    .concat()
}

fn marked(length: usize) -> Vec<u8> {
    (0..length).map(|place| (place % 200) as u8 + 20).collect()
}

fn filled(length: usize) -> Vec<u8> {
    let mut cards = marked(length);
    cards[..32].fill(0);
    cards[..4].copy_from_slice(&[1, 2, 0, 3]);
    cards[17] = 1;
    cards
}

fn zeroed(length: usize) -> Vec<u8> {
    let mut cards = marked(length);
    cards[..4_096].fill(0);
    cards
}

#[test]
fn check_outcomes() {
    for length in [4_096, 4_097, 32_000] {
        let mut cards = marked(length);
        assert_eq!(check(&accepted(), &mut cards), Ok(2));
        assert_eq!(cards, filled(length));
        let mut cards = marked(length);
        assert_eq!(check(&[], &mut cards), Err(Cause::FileSize.at(0)));
        assert_eq!(cards, zeroed(length));
        let mut cards = marked(length);
        let file = accepted();
        let cut = &file[..file.len() - 3];
        assert_eq!(check(cut, &mut cards), Err(Cause::Order.at(4)));
        assert_eq!(cards, zeroed(length));
        let mut cards = marked(length);
        let refusal = Err(Cause::MixedSubstitutes.at(11));
        assert_eq!(check(&mixed_substitutes(), &mut cards), refusal);
        assert_eq!(cards, zeroed(length));
    }
    for length in [0, 1, 4_095] {
        let mut cards = marked(length);
        assert_eq!(check(&accepted(), &mut cards), Err(Cause::CardMemory.at(0)));
        assert_eq!(check(&[], &mut cards), Err(Cause::CardMemory.at(0)));
        assert_eq!(cards, marked(length));
    }
}

#[test]
fn query_outcomes() {
    let file = accepted();
    let broken = [accepted(), module(1)].concat();
    let place = |cause: Cause| Err(cause.at(5));
    let deep = wrap(32, lit(0));
    type Case = (u16, Bytes, Vec<u8>, Result<u32, Refusal>);
    let cases: Vec<Case> = vec![
        (1, prime(n(2, &[])), vec![], Ok(2)),
        (1, prime(p(0)), vec![4], Ok(4)),
        (1, prime(p(1)), vec![4, 1, 3], Ok(2)),
        (1, prime(p(7)), vec![4, 3, 2, 4, 3, 2, 4, 1], Ok(2)),
        (1, and(p(6), p(7)), vec![4, 4, 4, 4, 4, 4, 2, 3], Ok(4)),
        (7, vec![], vec![9], Err(Cause::NoSuch.at(0))),
        (0, lit(0), vec![], Err(Cause::NoSuch.at(0))),
        (1, vec![], vec![], place(Cause::Layout)),
        (1, vec![4, 104], vec![], place(Cause::Layout)),
        (1, lit(0), vec![5], place(Cause::Layout)),
        (
            1,
            lit(0),
            vec![0, 0, 0, 0, 0, 0, 0, 0, 5],
            place(Cause::Layout),
        ),
        (
            1,
            lit(0),
            vec![0, 0, 0, 0, 0, 0, 0, 0, 4],
            place(Cause::Limit),
        ),
        (1, lit(0), vec![0; 300], place(Cause::Limit)),
        (1, deep.clone(), vec![], place(Cause::Limit)),
        (1, n(9, &[deep, lit(0)]), vec![], place(Cause::Limit)),
        (1, p(0), vec![], place(Cause::Unknown)),
        (1, b(0), vec![], place(Cause::Unknown)),
        (1, n(2, &[n(9, &[])]), vec![], place(Cause::Unknown)),
        (1, n(2, &[lit(0)]), vec![], place(Cause::ArgumentCount)),
        (1, n(3, &[]), vec![], place(Cause::ArgumentCount)),
    ];
    for (module, expr, levels, reply) in cases {
        let mut cards = marked(4_196);
        assert_eq!(level(&file, &mut cards, module, &expr, &levels), reply);
        assert_eq!(cards, filled(4_196));
        let mut cards = marked(4_196);
        let refused = level(&broken, &mut cards, module, &expr, &levels);
        assert_eq!(refused, Err(Cause::ModuleNameUsed.at(5)));
        assert_eq!(cards, zeroed(4_196));
        let mut cards = marked(100);
        let refused = level(&file, &mut cards, module, &expr, &levels);
        assert_eq!(refused, Err(Cause::CardMemory.at(0)));
        assert_eq!(cards, marked(100));
        if levels.iter().all(|&l| l <= 4) && levels.len() < 256 {
            let mut cards = marked(4_196);
            let mut out = marked(1000);
            let count = levels.len() as u8;
            let got = expand(&file, &mut cards, module, &expr, count, &mut out);
            assert_eq!(cards, filled(4_196));
            match reply {
                Ok(_) => assert_eq!(
                    out,
                    [expr.clone(), marked(1000)[expr.len()..].to_vec()].concat()
                ),
                Err(_) => {
                    assert_eq!(got, reply);
                    assert_eq!(out, marked(1000));
                }
            }
        }
    }
}

#[test]
fn definition_outcomes() {
    let file = accepted();
    let none = Err(Cause::NoSuch.at(0));
    for (a, b, reply) in [
        (0, 0, Ok(1)),
        (0, 1, Ok(0)),
        (0, 2, none),
        (u32::MAX, 0, none),
    ] {
        let mut cards = marked(4_196);
        assert_eq!(alike(&file, &mut cards, a, b), reply);
        assert_eq!(cards, filled(4_196));
    }
    let mut cards = marked(4_196);
    assert_eq!(body(&file, &mut cards, 1), Ok((26, 4)));
    assert_eq!(body(&file, &mut cards, 2), Err(Cause::NoSuch.at(0)));
    assert_eq!(cards, filled(4_196));
}

#[test]
fn packed_replies() {
    let file = accepted();
    let mut cards = marked(4_096);
    assert_eq!(packed_check(&file, &mut cards), 2);
    assert_eq!(packed_check(&file[..21], &mut cards), 0x8003_0003);
    assert_eq!(packed_check(&file, &mut [0; 10]), 0x8001_0000);
    let refused = packed_check(&mixed_substitutes(), &mut cards);
    assert_eq!(refused, 0x8015_000B);
    assert_eq!(packed_level(&file, &mut cards, 1, &prime(lit(0)), &[]), 2);
    assert_eq!(
        packed_level(&file, &mut cards, 2, &lit(0), &[]),
        0x8011_0000
    );
    let mut out = [0; 10];
    assert_eq!(packed_expand(&file, &mut cards, 1, &lit(7), 0, &mut out), 3);
    assert_eq!(
        packed_expand(&file, &mut cards, 1, &lit(7), 0, &mut out[..2]),
        0x8012_0000
    );
    assert_eq!(packed_alike(&file, &mut cards, 1, 1), 1);
    assert_eq!(packed_body(&file, &mut cards, 1), 26 * 65_536 + 4);
    assert_eq!(packed_body(&file, &mut cards, 9), (1 << 63) + 17 * 65_536);
}
