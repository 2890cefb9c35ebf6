//! The proved archive.

use checker::EXPANSION;
pub use checker::{Card, Reading, Refusal, MAX_PARAMETERS};
use std::ops::Range;

fn memory() -> Vec<u8> {
    vec![0; checker::CARD_MEMORY]
}

/// Checks a file: the cards of its definitions.
pub fn check(file: &[u8]) -> Result<Vec<Card>, Refusal> {
    let mut memory = memory();
    let count = checker::check(file, &mut memory)?;
    let each = (0..count as usize).map(|number| {
        let card = Card::of(&memory, number);
        card.expect("for each definition the archive leaves a card")
    });
    Ok(each.collect())
}

/// The level of an expression at the end of a module.
pub fn level(file: &[u8], module: u16, expression: &[u8], levels: &[u8]) -> Result<u8, Refusal> {
    checker::level(file, &mut memory(), module, expression, levels)
}

/// Whether two definitions are alike.
pub fn alike(file: &[u8], a: u32, b: u32) -> Result<bool, Refusal> {
    checker::alike(file, &mut memory(), a, b)
}

/// The expansion of an expression over parameters at the end of a module.
pub fn expand(
    file: &[u8],
    module: u16,
    expression: &[u8],
    parameters: usize,
) -> Result<Vec<u8>, Refusal> {
    // A number that a byte does not hold is as many too many as 255 are.
    let params = u8::try_from(parameters).unwrap_or(u8::MAX);
    let mut out = vec![0; EXPANSION];
    let expansion = checker::expand(file, &mut memory(), module, expression, params, &mut out)?;
    Ok(expansion.to_vec())
}

/// The part of the file that holds a definition's body.
pub fn body(file: &[u8], definition: u32) -> Result<Range<usize>, Refusal> {
    checker::body(file, &mut memory(), definition)
}
