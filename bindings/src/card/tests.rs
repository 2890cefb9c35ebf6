use super::*;

/// The join of levels: a 2 and a 3 make 4.
fn highest(levels: &[u8]) -> u8 {
    match levels.contains(&2) && levels.contains(&3) {
        true => 4,
        false => levels.iter().copied().max().unwrap_or(0),
    }
}

fn given(taken: bool, level: u8) -> u8 {
    if taken {
        level
    } else {
        4
    }
}

fn prime(p: u8) -> u8 {
    given(p <= 1, 2)
}

fn enabled(p: u8) -> u8 {
    given(p <= 2, 1)
}

fn always(p: u8) -> u8 {
    given(p != 2 && p != 4, 3)
}

/// WF_v(A), and [][A]_v.
fn fair(v: u8, a: u8) -> u8 {
    given(v <= 1 && a <= 2, 3)
}

/// Every vector over n parameters.
fn vectors(n: usize) -> impl Iterator<Item = Vec<u8>> {
    let count = 5usize.pow(n as u32);
    (0..count).map(move |number| {
        (0..n)
            .map(|i| (number / 5usize.pow(i as u32) % 5) as u8)
            .collect()
    })
}

/// The bytes as the paper words them, found by trying.
fn probed(n: usize, level: &dyn Fn(&[u8]) -> u8) -> [u8; CARD] {
    let at = |set: &[(usize, u8)]| {
        let mut levels = vec![0; n];
        set.iter().for_each(|&(i, l)| levels[i] = l);
        level(&levels)
    };
    let mut bytes = [0; CARD];
    bytes[0] = n as u8;
    bytes[1] = at(&[]);
    let mut pairs = 0u32;
    for j in 0..n {
        for l in (0..5).filter(|&l| at(&[(j, l)]) != 4) {
            bytes[3 + j] |= 1 << l;
            bytes[2] |= u8::from(at(&[(j, l)]) > bytes[1]) << j;
        }
        for i in 0..j {
            let clash =
                |a, b| at(&[(i, a), (j, b)]) == 4 && at(&[(i, a)]) != 4 && at(&[(j, b)]) != 4;
            pairs |= u32::from(clash(2, 3) || clash(3, 2)) << (j * (j - 1) / 2 + i);
        }
    }
    bytes[11..15].copy_from_slice(&pairs.to_be_bytes());
    bytes
}

type Level = fn(&[u8]) -> u8;

/// Bodies as functions of their parameters' levels, with the digits of their cards. All masks are
/// there, and of the pairs all, some and none.
const EXAMPLES: [(&str, usize, Level, &str); 12] = [
    ("0", 0, |_| 0, "00000000000000000000000000000000"),
    ("p'", 1, |v| prime(v[0]), "01020003000000000000000000000000"),
    ("0", 1, |_| 0, "0100001f000000000000000000000000"),
    (
        "ENABLED p",
        1,
        |v| enabled(v[0]),
        "01010007000000000000000000000000",
    ),
    (
        "[](p /\\ q)",
        2,
        |v| always(highest(v)),
        "0203000b0b0000000000000000000000",
    ),
    ("p /\\ q", 2, highest, "0200030f0f0000000000000000000100"),
    (
        "ENABLED p /\\ q",
        2,
        |v| highest(&[enabled(v[0]), v[1]]),
        "020102070f0000000000000000000000",
    ),
    (
        "(p')'",
        1,
        |v| prime(prime(v[0])),
        "01040000000000000000000000000000",
    ),
    // p and r clash one way round only, and so do q and r; p and q do not.
    (
        "p /\\ ENABLED p /\\ q /\\ ENABLED q /\\ r",
        3,
        |v| highest(&[v[0], enabled(v[0]), v[1], enabled(v[1]), v[2]]),
        "03010707070f00000000000000000600",
    ),
    // samples/winch.tla, Ready and Watch
    (
        "ENABLED (order /\\ rope' = rope + step) /\\ rating > load + slack /\\ brake",
        6,
        |v| {
            highest(&[
                enabled(highest(&[v[5], prime(v[0]), v[0], v[1]])),
                v[3],
                v[2],
                v[4],
            ])
        },
        "06011c03070f0f0f0700000000032000",
    ),
    (
        "[](rating > load + slack) /\\ WF_rope(order) /\\ (brake ~> rope = 0)",
        6,
        |v| {
            highest(&[
                always(highest(&[v[3], v[2]])),
                fair(v[0], v[5]),
                always(v[4]),
                always(v[0]),
            ])
        },
        "060300031f0b0b0b0700000000000000",
    ),
    // samples/parameters-8.tla, Some
    (
        "a /\\ ENABLED (b /\\ e') /\\ (d \\/ h) /\\ f /\\ ENABLED f /\\ \\E z \\in g : z",
        8,
        |v| {
            highest(&[
                v[0],
                enabled(highest(&[v[1], prime(v[4])])),
                v[3],
                v[7],
                v[5],
                enabled(v[5]),
                v[6],
            ])
        },
        "0801e90f071f0f03070f0f0d34a40800",
    ),
];

fn card(digits: &str) -> Card {
    let byte = |at: usize| u8::from_str_radix(&digits[2 * at..2 * at + 2], 16).expect("digits");
    Card::new(std::array::from_fn(byte)).expect("a card")
}

/// At every vector what is read from the card is the level of the body.
#[test]
fn exact() {
    for (body, n, level, digits) in EXAMPLES {
        let card = card(digits);
        assert_eq!(format!("{card:x}"), digits, "{body}");
        assert_eq!(card.bytes(), &probed(n, &level), "{body}");
        for levels in vectors(n) {
            assert_eq!(
                card.level(&levels),
                Ok(level(&levels)),
                "{body} at {levels:?}"
            );
        }
    }
}

/// The parts are what the body does with a parameter alone, and with two.
#[test]
fn parts() {
    for (body, n, level, digits) in EXAMPLES {
        let card = card(digits);
        let at = |set: &[(usize, u8)]| {
            let mut levels = vec![0; n];
            set.iter().for_each(|&(i, l)| levels[i] = l);
            level(&levels)
        };
        assert_eq!(
            (card.parameters(), card.level_at_zero()),
            (n, at(&[])),
            "{body}"
        );
        for i in 0..n {
            let taken: Vec<u8> = (0..5).filter(|&l| at(&[(i, l)]) != 4).collect();
            let takes: Vec<u8> = (0..=255).filter(|&l| card.takes(i, l)).collect();
            assert_eq!(takes, taken, "{body}: {i}");
            let raised = taken.iter().any(|&l| at(&[(i, l)]) > at(&[]));
            assert_eq!(card.weighs(i), raised, "{body}: {i}");
            for j in 0..n {
                let mixed = |a, b| {
                    i != j && card.takes(i, a) && card.takes(j, b) && at(&[(i, a), (j, b)]) == 4
                };
                assert_eq!(
                    card.clash(i, j),
                    mixed(2, 3) || mixed(3, 2),
                    "{body}: {i}, {j}"
                );
                assert_eq!(card.clash(i, j), card.clash(j, i), "{body}: {i}, {j}");
            }
        }
    }
    let masks: Vec<u8> = EXAMPLES
        .iter()
        .flat_map(|(_, n, _, digits)| (0..*n).map(|i| card(digits).mask(i)))
        .collect();
    for mask in [31, 15, 7, 11, 3, 0] {
        assert!(masks.contains(&mask), "{mask}");
    }
}

/// What is not there is not taken, does not weigh and clashes with nothing, however large its
/// number.
#[test]
fn beyond() {
    for (body, n, _, digits) in EXAMPLES {
        let card = card(digits);
        for i in [n, 8, 9, 255, usize::MAX] {
            assert_eq!(card.mask(i), 0, "{body}");
            assert!(!card.weighs(i) && !card.takes(i, 0), "{body}");
            assert!(
                (0..=n).all(|j| !card.clash(i, j) && !card.clash(j, i)),
                "{body}"
            );
        }
    }
}

#[test]
fn reasons() {
    let some = card("0801e90f071f0f03070f0f0d34a40800");
    let (parameter, level) = (5, 3);
    for (levels, reading) in [
        (
            [0, 0, 0, 0, 0, 3, 2, 0],
            Reading::NotTaken { parameter, level },
        ),
        (
            [0, 0, 0, 0, 0, 3, 4, 4],
            Reading::NotTaken { parameter, level },
        ),
        (
            [0, 0, 0, 3, 0, 2, 2, 0],
            Reading::Clash {
                action: 5,
                temporal: 3,
            },
        ),
        (
            [2, 0, 0, 0, 0, 0, 3, 0],
            Reading::Clash {
                action: 0,
                temporal: 6,
            },
        ),
        ([1, 2, 4, 0, 1, 0, 0, 0], Reading::AsAtZero { level: 1 }),
        (
            [1, 2, 4, 2, 1, 2, 0, 0],
            Reading::Raised {
                parameter: 3,
                level: 2,
            },
        ),
        (
            [1, 2, 4, 0, 1, 0, 3, 3],
            Reading::Raised {
                parameter: 6,
                level: 3,
            },
        ),
    ] {
        assert_eq!(some.reading(&levels), Ok(reading), "{levels:?}");
        assert_eq!(some.level(&levels), Ok(reading.level()), "{levels:?}");
    }
}

#[test]
fn levels_that_are_none() {
    let parameters = 2;
    let and = card("0200030f0f0000000000000000000100");
    for given in [0, 1, 3, 9] {
        let told = and.level(&vec![9; given]);
        assert_eq!(told, Err(BadLevels::Count { parameters, given }));
    }
    for level in [5, 31, 255] {
        let told = and.level(&[4, level]).expect_err("no level");
        assert_eq!(
            told,
            BadLevels::Level {
                parameter: 1,
                level
            }
        );
        let said = format!("the level given for p1 is {level}, and levels are 0 to 4");
        assert_eq!(told.to_string(), said);
    }
    let (parameter, level) = (0, 6);
    assert_eq!(
        and.level(&[6, 5]),
        Err(BadLevels::Level { parameter, level })
    );
    let told = and.level(&[1]).expect_err("one is missing");
    assert_eq!(
        told.to_string(),
        "1 levels are given, and there are 2 parameters"
    );
}

/// Bytes that no card has.
#[test]
fn no_card() {
    let and = *card("0200030f0f0000000000000000000100").bytes();
    for (at, byte) in [
        (0, 1),
        (0, 9),
        (0, 255),
        (1, 5),
        (2, 4),
        (3, 32),
        (5, 1),
        (10, 31),
        (11, 1),
        (14, 2),
        (15, 1),
    ] {
        let mut bytes = and;
        bytes[at] = byte;
        assert_eq!(Card::new(bytes), None, "{at}: {byte}");
    }
    let mut full = [0; CARD];
    full[0] = 8;
    full[11] = 0x0f;
    assert!(Card::new(full).is_some());
    full[11] = 0x10;
    assert_eq!(Card::new(full), None);
}

#[test]
fn of_a_memory() {
    let mut memory = vec![7; 3 * CARD - 1];
    let and = card("0200030f0f0000000000000000000100");
    memory[..CARD].copy_from_slice(card("01020003000000000000000000000000").bytes());
    memory[CARD..2 * CARD].copy_from_slice(and.bytes());
    assert_eq!(Card::of(&memory, 1), Some(and));
    assert_eq!(Card::of(&memory, 2), None);
    assert_eq!(Card::of(&memory, usize::MAX), None);
    assert_eq!(Card::of(&[7; CARD], 0), None);
}

#[test]
fn in_words() {
    for (digits, words) in [
        ("00020000000000000000000000000000", "level 2"),
        ("01020003000000000000000000000000", "level 2; p0 01"),
        ("01040000000000000000000000000000", "level 4; p0 none"),
        (
            "0200030f0f0000000000000000000100",
            "level 0; p0, p1 0123 weigh; clash p0/p1",
        ),
        (
            "03010707070f00000000000000000600",
            "level 1; p0, p1 012 weigh; p2 0123 weighs; clash p0/p2, p1/p2",
        ),
        (
            "060300031f0b0b0b0700000000000000",
            "level 3; p0 01; p1 01234; p2, p3, p4 013; p5 012",
        ),
        (
            "06011c03070f0f0f0700000000032000",
            "level 1; p0 01; p1, p5 012; p2, p3, p4 0123 weigh; any two of p2, p3, p4 clash",
        ),
        // Of two that are taken at the same levels one weighs.
        (
            "0801e90f071f0f03070f0f0d34a40800",
            "level 1; p0, p3, p6, p7 0123 weigh; p1 012; p2 01234; p4 01; p5 012 weighs; \
             any two of p0, p3, p5, p6, p7 clash",
        ),
    ] {
        let card = card(digits);
        assert_eq!(card.to_string(), words);
        assert_eq!(format!("{card:?}"), format!("Card({digits}: {words})"));
    }
    let names = ["rope".to_string()];
    let and = card("0200030f0f0000000000000000000100");
    assert_eq!(
        and.words(&names).to_string(),
        "level 0; rope, p1 0123 weigh; clash rope/p1"
    );
}
