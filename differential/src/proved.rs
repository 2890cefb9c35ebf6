//! The proved checker, linked as a static library.

use crate::checker::{Checker, Expansions, Queries};

/// The proved implementation.
pub struct Proved;

impl Checker for Proved {
    fn name(&self) -> String {
        "proved".into()
    }

    fn check(&self, file: &[u8], cards: &mut [u8]) -> u32 {
        rafterclary::check_packed(file, cards)
    }

    fn queries(&self) -> Option<&dyn Queries> {
        Some(self)
    }
}

impl Queries for Proved {
    fn level(&self, file: &[u8], cards: &mut [u8], module: u16, expr: &[u8], levels: &[u8]) -> u32 {
        rafterclary::level_packed(file, cards, module, expr, levels)
    }

    fn alike(&self, file: &[u8], cards: &mut [u8], a: u32, b: u32) -> u32 {
        rafterclary::alike_packed(file, cards, a, b)
    }

    fn body(&self, file: &[u8], cards: &mut [u8], d: u32) -> u64 {
        rafterclary::body_packed(file, cards, d)
    }
    fn expansions(&self) -> Option<&dyn Expansions> {
        Some(self)
    }
}

impl Expansions for Proved {
    fn expand(
        &self,
        file: &[u8],
        cards: &mut [u8],
        module: u16,
        expr: &[u8],
        params: u8,
        out: &mut [u8],
    ) -> u32 {
        rafterclary::expand_packed(file, cards, module, expr, params, out)
    }
}
