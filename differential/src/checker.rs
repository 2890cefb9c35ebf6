//! The operations of a level checker behind one trait.

/// A level checker. Replies are packed: a value, or 2³¹ + 65,536 · number + place; `body` gives
/// start · 65,536 + length, or 2⁶³ + 65,536 · number + place.
pub trait Checker {
    fn name(&self) -> String;
    fn check(&self, file: &[u8], cards: &mut [u8]) -> u32;
    /// The queries, if this checker answers them.
    fn queries(&self) -> Option<&dyn Queries> {
        None
    }
}

/// The operations beside the check.
pub trait Queries {
    fn level(&self, file: &[u8], cards: &mut [u8], module: u16, expr: &[u8], levels: &[u8]) -> u32;
    fn alike(&self, file: &[u8], cards: &mut [u8], a: u32, b: u32) -> u32;
    fn body(&self, file: &[u8], cards: &mut [u8], d: u32) -> u64;
    /// The expansions, if this checker offers them.
    fn expansions(&self) -> Option<&dyn Expansions> {
        None
    }
}

/// The operation that writes an expansion.
pub trait Expansions {
    fn expand(
        &self,
        file: &[u8],
        cards: &mut [u8],
        module: u16,
        expr: &[u8],
        params: u8,
        out: &mut [u8],
    ) -> u32;
}

/// What a checker can be asked, each with all before it.
#[derive(Clone, Copy, Debug, PartialEq, Eq, PartialOrd, Ord)]
pub enum Offer {
    Checks,
    Queries,
    Expansions,
}

impl dyn Checker + '_ {
    /// What this checker can be asked.
    pub fn offer(&self) -> Offer {
        match self.queries() {
            None => Offer::Checks,
            Some(queries) if queries.expansions().is_none() => Offer::Queries,
            Some(_) => Offer::Expansions,
        }
    }
}

/// The mark of a refusal in a packed reply.
pub const REFUSED: u32 = 1 << 31;
/// The mark of a refusal in a packed reply of `body`.
pub const BODY_REFUSED: u64 = 1 << 63;

/// A refusal's packed reply.
pub fn refused(number: u32, place: u32) -> u32 {
    REFUSED + 65_536 * number + place
}

/// Number and place of a packed refusal.
pub fn refusal(reply: u32) -> Option<(u32, u32)> {
    let packed = reply.checked_sub(REFUSED)?;
    Some((packed >> 16, packed & 0xFFFF))
}

/// Number and place of a packed refusal of `body`.
pub fn body_refusal(reply: u64) -> Option<(u32, u32)> {
    let packed = reply.checked_sub(BODY_REFUSED)?;
    Some(((packed >> 16) as u32, (packed & 0xFFFF) as u32))
}

/// The plain reference implementation.
pub struct Reference;

impl Checker for Reference {
    fn name(&self) -> String {
        "reference".into()
    }

    fn check(&self, file: &[u8], cards: &mut [u8]) -> u32 {
        reference::packed_check(file, cards)
    }

    fn queries(&self) -> Option<&dyn Queries> {
        Some(self)
    }
}

impl Queries for Reference {
    fn level(&self, file: &[u8], cards: &mut [u8], module: u16, expr: &[u8], levels: &[u8]) -> u32 {
        reference::packed_level(file, cards, module, expr, levels)
    }

    fn alike(&self, file: &[u8], cards: &mut [u8], a: u32, b: u32) -> u32 {
        reference::packed_alike(file, cards, a, b)
    }

    fn body(&self, file: &[u8], cards: &mut [u8], d: u32) -> u64 {
        reference::packed_body(file, cards, d)
    }

    fn expansions(&self) -> Option<&dyn Expansions> {
        Some(self)
    }
}

impl Expansions for Reference {
    fn expand(
        &self,
        file: &[u8],
        cards: &mut [u8],
        module: u16,
        expr: &[u8],
        params: u8,
        out: &mut [u8],
    ) -> u32 {
        reference::packed_expand(file, cards, module, expr, params, out)
    }
}
