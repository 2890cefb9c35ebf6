//! A plain reference implementation of the level checker for TLA+ modules: it judges a tagged
//! file, fills one level card per definition, answers levels, and expands expressions.

#![forbid(unsafe_code)]

mod cards;
mod context;
mod exact_cards;
mod expansion;
mod expressions;
mod fields;
mod judge;
mod levels;
mod limits;
mod listing;
mod long_way;
mod packed;
mod queries;
mod refusal;
mod rows;
mod staying_lawful;
mod summaries;

#[cfg(test)]
mod tests;

pub use exact_cards::{exact_cards, vectors, Compared, Exactness, Inexact};
pub use judge::Rules;
pub use limits::Limits;
pub use listing::listing;
pub use packed::{packed_alike, packed_body, packed_check, packed_expand, packed_level};
pub use queries::{
    alike, body, check, expand, level, long_way, long_way_definition, long_way_expansion,
};
pub use refusal::{Cause, Refusal};
pub use staying_lawful::{staying_lawful, staying_lawful_by, Breach, Broken, Opinion, Seen};
