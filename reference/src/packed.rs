//! Replies and refusals packed into one number, as the C interface hands them over.

use crate::queries;
use crate::refusal::Refusal;

fn packed(reply: Result<u32, Refusal>) -> u32 {
    match reply {
        Ok(value) => value,
        Err(refusal) => (1 << 31) + 65_536 * refusal.number + refusal.place,
    }
}

/// [`queries::check`], packed.
pub fn packed_check(file: &[u8], cards: &mut [u8]) -> u32 {
    packed(queries::check(file, cards))
}

/// [`queries::level`], packed.
pub fn packed_level(file: &[u8], cards: &mut [u8], module: u16, expr: &[u8], levels: &[u8]) -> u32 {
    packed(queries::level(file, cards, module, expr, levels))
}

/// [`queries::expand`], packed.
pub fn packed_expand(
    file: &[u8],
    cards: &mut [u8],
    module: u16,
    expr: &[u8],
    params: u8,
    out: &mut [u8],
) -> u32 {
    packed(queries::expand(file, cards, module, expr, params, out))
}

/// [`queries::alike`], packed.
pub fn packed_alike(file: &[u8], cards: &mut [u8], a: u32, b: u32) -> u32 {
    packed(queries::alike(file, cards, a, b))
}

/// [`queries::body`], packed: the start times 65,536 and the length.
pub fn packed_body(file: &[u8], cards: &mut [u8], d: u32) -> u64 {
    match queries::body(file, cards, d) {
        Ok((start, length)) => start as u64 * 65_536 + length as u64,
        Err(refusal) => (1 << 63) + 65_536 * refusal.number as u64 + refusal.place as u64,
    }
}
