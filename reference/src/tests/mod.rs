//! Tests.

mod build;
mod cards;
mod causes;
mod gen;
mod hostile;
mod lawful;
mod memory;
mod random;
mod trial;
