//! The proved level checker against the reference: inputs, times and the table of them.

#![forbid(unsafe_code)]

pub mod inputs;
pub mod table;
pub mod time;

use differential::checker::{Checker, Reference};
use differential::proved::Proved;

/// The proved checker.
pub const ARCHIVE: &dyn Checker = &Proved;
/// The one that it is compared with.
pub const REFERENCE: &dyn Checker = &Reference;
