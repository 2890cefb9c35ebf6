//! The proved level checker for TLA+ modules, as safe functions over its static library.
//!
//! Nothing is decided here: the library's replies and its cards are taken apart, and that is all.
//! Every call checks the file afresh and fills the card memory, as a check does.

mod card;

pub use card::{BadLevels, Card, Reading, Words};

use std::ops::Range;

// The archive is for x86-64: pointers and lengths of 8 bytes.
const _: () = assert!(usize::BITS == 64);

mod linked {
    extern "C" {
        pub fn rafterclary_check(
            file: *const u8,
            file_length: usize,
            cards: *mut u8,
            cards_length: usize,
        ) -> u32;

        pub fn rafterclary_level(
            file: *const u8,
            file_length: usize,
            cards: *mut u8,
            cards_length: usize,
            module: u16,
            expression: *const u8,
            expression_length: usize,
            levels: *const u8,
            levels_length: usize,
        ) -> u32;

        pub fn rafterclary_alike(
            file: *const u8,
            file_length: usize,
            cards: *mut u8,
            cards_length: usize,
            a: u32,
            b: u32,
        ) -> u32;

        pub fn rafterclary_body(
            file: *const u8,
            file_length: usize,
            cards: *mut u8,
            cards_length: usize,
            definition: u32,
        ) -> u64;

        pub fn rafterclary_expand(
            file: *const u8,
            file_length: usize,
            cards: *mut u8,
            cards_length: usize,
            module: u16,
            expression: *const u8,
            expression_length: usize,
            params: u8,
            out: *mut u8,
            out_length: usize,
        ) -> u32;
    }
}

/// The parameters that a definition may have at most, an instance's counted with its own.
pub const MAX_PARAMETERS: usize = 8;

/// The bytes of one card: that of a definition stands at so many times its number.
pub const CARD: usize = 16;

/// The card memory that a call wants at least, in bytes: a card for each of 256 definitions.
pub const CARD_MEMORY: usize = 256 * CARD;

/// The bytes of the longest expansion: an output of this length is never too short.
pub const EXPANSION: usize = 65_535;

/// A call is refused: by what cause, numbered as in paper 01 (1 to 14 and 16 to 18; 15 is unused
/// since paper 02's L6) and paper 02 (21), and at which field, counted from 0.
/// For a query's expression and its parameters the place is the number of fields.
#[derive(Clone, Copy, Debug, PartialEq, Eq)]
pub struct Refusal {
    pub number: u32,
    pub place: u32,
}

impl Refusal {
    /// From 65,536 · number + place.
    fn packed(packed: u64) -> Refusal {
        Refusal {
            number: (packed >> 16) as u32,
            place: (packed & 0xFFFF) as u32,
        }
    }
}

/// A value, or 2³¹ + 65,536 · number + place.
fn reply(packed: u32) -> Result<u32, Refusal> {
    match packed.checked_sub(1 << 31) {
        None => Ok(packed),
        Some(refused) => Err(Refusal::packed(refused.into())),
    }
}

// In each call below the pointers and lengths are those of live slices, the lent ones exclusive,
// and the library keeps none of them.

/// The library's reply to a check as it is.
pub fn check_packed(file: &[u8], cards: &mut [u8]) -> u32 {
    unsafe { linked::rafterclary_check(file.as_ptr(), file.len(), cards.as_mut_ptr(), cards.len()) }
}

/// The library's reply to a level query as it is.
pub fn level_packed(
    file: &[u8],
    cards: &mut [u8],
    module: u16,
    expression: &[u8],
    levels: &[u8],
) -> u32 {
    unsafe {
        linked::rafterclary_level(
            file.as_ptr(),
            file.len(),
            cards.as_mut_ptr(),
            cards.len(),
            module,
            expression.as_ptr(),
            expression.len(),
            levels.as_ptr(),
            levels.len(),
        )
    }
}

/// The library's reply to whether two definitions are alike, as it is.
pub fn alike_packed(file: &[u8], cards: &mut [u8], a: u32, b: u32) -> u32 {
    unsafe {
        linked::rafterclary_alike(
            file.as_ptr(),
            file.len(),
            cards.as_mut_ptr(),
            cards.len(),
            a,
            b,
        )
    }
}

/// The library's reply to where a body stands, as it is.
pub fn body_packed(file: &[u8], cards: &mut [u8], definition: u32) -> u64 {
    unsafe {
        linked::rafterclary_body(
            file.as_ptr(),
            file.len(),
            cards.as_mut_ptr(),
            cards.len(),
            definition,
        )
    }
}

/// The library's reply to an expansion query as it is.
pub fn expand_packed(
    file: &[u8],
    cards: &mut [u8],
    module: u16,
    expression: &[u8],
    params: u8,
    out: &mut [u8],
) -> u32 {
    unsafe {
        linked::rafterclary_expand(
            file.as_ptr(),
            file.len(),
            cards.as_mut_ptr(),
            cards.len(),
            module,
            expression.as_ptr(),
            expression.len(),
            params,
            out.as_mut_ptr(),
            out.len(),
        )
    }
}

/// Checks a file: the number of its definitions, whose cards are then in the card memory, one
/// after another ([`Card::of`] reads one).
pub fn check(file: &[u8], cards: &mut [u8]) -> Result<u32, Refusal> {
    reply(check_packed(file, cards))
}

/// The level of an expression at the end of a module, from 0 to 4, with its parameters, 8 at most,
/// at the levels given. An expression may have any length.
pub fn level(
    file: &[u8],
    cards: &mut [u8],
    module: u16,
    expression: &[u8],
    levels: &[u8],
) -> Result<u8, Refusal> {
    reply(level_packed(file, cards, module, expression, levels)).map(|level| level as u8)
}

/// Whether two definitions are alike: parameter counts and cards agree.
pub fn alike(file: &[u8], cards: &mut [u8], a: u32, b: u32) -> Result<bool, Refusal> {
    reply(alike_packed(file, cards, a, b)).map(|alike| alike == 1)
}

/// The part of the file that holds the body of a definition, for a brought one the original's.
pub fn body(file: &[u8], cards: &mut [u8], definition: u32) -> Result<Range<usize>, Refusal> {
    let packed = body_packed(file, cards, definition);
    match packed.checked_sub(1 << 63) {
        None => {
            let (start, length) = ((packed >> 16) as usize, (packed & 0xFFFF) as usize);
            Ok(start..start + length)
        }
        Some(refused) => Err(Refusal::packed(refused)),
    }
}

/// The expansion of an expression over so many parameters, 0 to 8, at the end of a module: the part
/// of the output that it is written to. A refusal leaves the output as it was. An expression may
/// have any length.
pub fn expand<'o>(
    file: &[u8],
    cards: &mut [u8],
    module: u16,
    expression: &[u8],
    params: u8,
    out: &'o mut [u8],
) -> Result<&'o [u8], Refusal> {
    let length = reply(expand_packed(file, cards, module, expression, params, out))?;
    Ok(&out[..length as usize])
}

#[cfg(test)]
mod tests {
    use super::*;
    use std::thread;

    /// Paper 01's example: one definition, p', of its own parameter.
    const EXAMPLE: [u8; 23] = [
        0x01, 0x00, 0x02, 0x00, 0x01, 0x04, 0x00, 0x02, 0x00, 0x02, 0x05, 0x00, 0x07, 0x00, 0x03,
        0x01, 0x04, 0x70, 0x00, 0x00, 0x07, 0x00, 0x00,
    ];
    /// Its fields.
    const FIELDS: u32 = 4;
    /// The variable.
    const X: [u8; 4] = [2, 0, 2, 0];
    /// A module with two constants, and an instance that puts op0' for one and []op0 for the
    /// other.
    const MIXED: [u8; 50] = [
        1, 0, 2, 0, 1, 3, 0, 3, 0, 1, 0, 3, 0, 3, 0, 2, 0, 7, 0, 0, 1, 0, 2, 0, 2, 6, 0, 22, 0, 0,
        0, 0, 1, 2, 0, 1, 0, 4, 4, 112, 4, 0, 0, 2, 0, 4, 4, 118, 4, 0,
    ];

    fn memory() -> Vec<u8> {
        vec![7; CARD_MEMORY + 1]
    }

    fn refused<T>(number: u32, place: u32) -> Result<T, Refusal> {
        Err(Refusal { number, place })
    }

    /// The example's card, and nothing after it.
    fn filled(cards: &[u8]) -> bool {
        let card = [1, 2, 0, 3, 0, 0, 0, 0, 0, 0, 0, 0, 0, 0, 0, 0];
        cards[..CARD] == card && cards[CARD..].iter().all(|&byte| byte == 7)
    }

    fn cleared(cards: &[u8]) -> bool {
        cards[..CARD_MEMORY].iter().all(|&byte| byte == 0) && cards[CARD_MEMORY] == 7
    }

    #[test]
    fn example() {
        let mut cards = memory();
        assert_eq!(check(&EXAMPLE, &mut cards), Ok(1));
        assert!(filled(&cards));
        let card = Card::of(&cards, 0).expect("a card");
        let levels: Vec<_> = (0..5).map(|level| card.level(&[level])).collect();
        assert_eq!(levels, [2, 2, 4, 4, 4].map(Ok));
        assert_eq!(Card::of(&cards, 1), None);
    }

    /// A card of eight parameters says what the level query replies.
    #[test]
    fn eight_parameters() {
        // a /\ ENABLED (b /\ e') /\ (d \/ h) /\ f /\ ENABLED f /\ \E z \in g : z
        let body = [
            4, 49, 4, 49, 4, 49, 4, 49, 4, 49, 0, 0, 4, 113, 4, 49, 0, 1, 4, 112, 0, 4, 4, 50, 0,
            3, 0, 7, 0, 5, 4, 113, 0, 5, 4, 132, 0, 6, 1, 0, 0,
        ];
        let mut file = vec![1, 0, 2, 0, 1, 5, 0, 3 + body.len() as u8, 0, 1, 8];
        file.extend(body);
        file.extend([7, 0, 0]);
        let mut cards = memory();
        assert_eq!(check(&file, &mut cards), Ok(1));
        let card = Card::of(&cards, 0).expect("a card");
        assert_eq!(format!("{card:x}"), "0801e90f071f0f03070f0f0d34a40800");
        let vectors = (0..8u32).flat_map(|i| (0..125u8).map(move |choice| (i, choice)));
        for (place, choice) in vectors {
            // Three neighbours at every choice of levels, the others at 1.
            let mut levels = [1; 8];
            for (next, scale) in [1, 5, 25].into_iter().enumerate() {
                levels[(place as usize + next) % 8] = choice / scale % 5;
            }
            let expected = level(&file, &mut cards, 1, &body, &levels);
            assert_eq!(
                card.level(&levels).map_err(|_| ()),
                expected.map_err(|_| ()),
                "{levels:?}"
            );
        }
    }

    #[test]
    fn refusals() {
        let mut cards = memory();
        assert_eq!(check(&EXAMPLE[..20], &mut cards), refused(4, 3));
        assert!(cleared(&cards));
        assert_eq!(check(&[], &mut cards), refused(2, 0));
        let mut cards = memory();
        assert_eq!(check(&MIXED, &mut cards), refused(21, 5));
        assert!(cleared(&cards));
        let mut short = [7; CARD_MEMORY - 1];
        assert_eq!(check(&EXAMPLE, &mut short), refused(1, 0));
        assert!(short.iter().all(|&byte| byte == 7));
    }

    #[test]
    fn levels() {
        let ask = |module, expression: &[u8], levels: &[u8]| {
            let mut cards = memory();
            let reply = level(&EXAMPLE, &mut cards, module, expression, levels);
            assert!(filled(&cards));
            reply
        };
        assert_eq!(ask(1, &X, &[]), Ok(1));
        let defined = [&[2, 0, 3, 1][..], &X].concat();
        assert_eq!(ask(1, &defined, &[]), Ok(2));
        let twice = [&[2, 0, 3, 1][..], &defined].concat();
        assert_eq!(ask(1, &twice, &[]), Ok(4));
        for (given, expected) in [(0, 2), (1, 2), (2, 4), (4, 4)] {
            assert_eq!(ask(1, &[2, 0, 3, 1, 0, 0], &[given]), Ok(expected));
        }
        // Conjunction: a transition and a temporal formula do not mix.
        for (given, expected) in [
            ([2, 2], 2),
            ([3, 3], 3),
            ([1, 3], 3),
            ([2, 3], 4),
            ([3, 2], 4),
        ] {
            assert_eq!(ask(1, &[4, 49, 0, 0, 0, 1], &given), Ok(expected));
        }
        assert_eq!(ask(2, &X, &[]), refused(17, 0));
        assert_eq!(ask(1, &[], &[]), refused(3, FIELDS));
        assert_eq!(ask(1, &X, &[0; 8]), Ok(1));
        assert_eq!(ask(1, &[0, 7], &[0, 0, 0, 0, 0, 0, 0, 3]), Ok(3));
        assert_eq!(ask(1, &X, &[0, 0, 0, 0, 0, 0, 0, 0, 5]), refused(3, FIELDS));
        assert_eq!(ask(1, &X, &[0; 9]), refused(5, FIELDS));
        assert_eq!(ask(1, &[0, 0], &[]), refused(9, FIELDS));
        assert_eq!(ask(1, &[2, 0, 3, 0], &[]), refused(10, FIELDS));
    }

    #[test]
    fn likeness_and_bodies() {
        let mut cards = memory();
        assert_eq!(alike(&EXAMPLE, &mut cards, 0, 0), Ok(true));
        assert!(filled(&cards));
        assert_eq!(alike(&EXAMPLE, &mut cards, 0, 1), refused(17, 0));
        assert_eq!(body(&EXAMPLE, &mut cards, 0), Ok(16..20));
        assert_eq!(body(&EXAMPLE, &mut cards, 1), refused(17, 0));
        assert!(filled(&cards));
    }

    /// A thread of a test may have less stack than an expansion wants.
    fn with_stack(test: impl FnOnce() + Send + 'static) {
        let thread = thread::Builder::new().stack_size(16 << 20);
        thread.spawn(test).expect("a thread").join().expect("it");
    }

    /// What an expansion into so many bytes gives; all else has to be as 01 says.
    fn expansion(
        module: u16,
        expression: &[u8],
        params: u8,
        room: usize,
    ) -> Result<Vec<u8>, Refusal> {
        let (mut cards, mut out) = (memory(), vec![7; room]);
        let reply = expand(&EXAMPLE, &mut cards, module, expression, params, &mut out);
        let reply = reply.map(<[u8]>::to_vec);
        assert!(filled(&cards));
        let written = reply.as_ref().map_or(0, Vec::len);
        assert!(out[written..].iter().all(|&byte| byte == 7));
        reply
    }

    #[test]
    fn expansions() {
        with_stack(|| {
            let prime = [4, 112];
            let defined = [&[2, 0, 3, 1][..], &X].concat();
            let expected = [&prime[..], &X].concat();
            for room in [6, 7, 65_535, 65_536] {
                assert_eq!(expansion(1, &defined, 0, room), Ok(expected.clone()));
            }
            let twice = [&[2, 0, 3, 1][..], &defined].concat();
            let expected = [&prime[..], &expected].concat();
            assert_eq!(expansion(1, &twice, 0, 99), Ok(expected));
            let over = [2, 0, 3, 1, 0, 7];
            assert_eq!(expansion(1, &over, 8, 4), Ok(vec![4, 112, 0, 7]));
        });
    }

    #[test]
    fn expansions_refused() {
        with_stack(|| {
            let defined = [&[2, 0, 3, 1][..], &X].concat();
            for room in [0, 5] {
                assert_eq!(expansion(1, &defined, 0, room), refused(18, 0));
            }
            assert_eq!(expansion(2, &[], 9, 0), refused(17, 0));
            assert_eq!(expansion(1, &[], 9, 0), refused(3, FIELDS));
            assert_eq!(expansion(1, &X, 9, 99), refused(5, FIELDS));
            assert_eq!(expansion(1, &X, 255, 99), refused(5, FIELDS));
            assert_eq!(expansion(1, &[0, 0], 0, 99), refused(9, FIELDS));
            assert_eq!(expansion(1, &[2, 0, 3, 0], 0, 99), refused(10, FIELDS));
        });
    }

    #[test]
    fn the_file_comes_before_an_expansion() {
        with_stack(|| {
            let (mut cards, mut out) = (memory(), [7; 40]);
            let open = &EXAMPLE[..20];
            let reply = expand(open, &mut cards, 9, &[], 9, &mut out).map(<[u8]>::len);
            assert_eq!(reply, refused(4, 3));
            assert!(cleared(&cards));
            let mut short = [7; CARD_MEMORY - 1];
            let reply = expand(&EXAMPLE, &mut short, 1, &X, 0, &mut out).map(<[u8]>::len);
            assert_eq!(reply, refused(1, 0));
            assert!(short.iter().chain(&out).all(|&byte| byte == 7));
        });
    }

    #[test]
    fn the_file_comes_first() {
        let mut cards = memory();
        assert_eq!(
            level(&EXAMPLE[..20], &mut cards, 9, &[], &[9]),
            refused(4, 3)
        );
        assert!(cleared(&cards));
        assert_eq!(alike(&[], &mut cards, 9, 9), refused(2, 0));
        assert_eq!(body(&EXAMPLE[..20], &mut cards, 9), refused(4, 3));
        let mut short = [7; CARD_MEMORY - 1];
        assert_eq!(body(&EXAMPLE, &mut short, 0), refused(1, 0));
        assert!(short.iter().all(|&byte| byte == 7));
    }
}
