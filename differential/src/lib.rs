//! A deterministic generator of files and queries for level checkers, and the comparison of two
//! checkers on them: reply, place, and every byte of lent memory.

#![forbid(unsafe_code)]

pub mod accepted;
pub mod book;
pub mod cards;
pub mod cases;
pub mod checker;
pub mod coverage;
pub mod damage;
pub mod dropping;
pub mod eight;
pub mod expansions;
pub mod families;
pub mod faults;
pub mod faulty;
pub mod instances;
pub mod lawful;
pub mod limits;
pub mod long;
pub mod mixed_substitutes;
pub mod mixing;
pub mod model;
pub mod nesting;
#[cfg(feature = "proved")]
pub mod proved;
pub mod queries;
pub mod random;
pub mod rows;
pub mod runner;
pub mod shrink;
pub mod substitutes;
pub mod syntax;
pub mod wide;

use checker::{Checker, Reference};
use faulty::{Fault, Faulty};

/// The checker of this name: `reference`, `proved`, or `faulty:` with the name of a fault.
pub fn checker_named(name: &str) -> Result<Box<dyn Checker>, String> {
    if name == "reference" {
        return Ok(Box::new(Reference));
    }
    #[cfg(feature = "proved")]
    if name == "proved" {
        return Ok(Box::new(proved::Proved));
    }
    if name == "proved" {
        return Err("the proved checker needs the feature `proved`".into());
    }
    let fault = name.strip_prefix("faulty:").and_then(Fault::named);
    match fault {
        Some(fault) => Ok(Box::new(Faulty(fault))),
        None => Err(format!("no checker is named {name}")),
    }
}
