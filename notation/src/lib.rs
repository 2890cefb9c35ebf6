//! A readable notation for tagged files of TLA+ modules, and a converter both ways.
//!
//! The level checker reads a tagged file: bytes in which every name is a number. People read and
//! write text. This crate turns the one into the other:
//!
//! - [`parse`] reads text into a [`File`]; an error has a line, a column and a message.
//! - [`print`] writes a [`File`] as text, which parses to the same [`File`].
//! - [`parse_expression`], [`print_expression_over`] and [`print_body`] do so for one expression.
//! - [`encode`] writes a [`File`] as tagged bytes.
//! - [`decode`] reads tagged bytes; a fault of the layout has an offset and a reason.
//!
//! Nothing here judges a file. Whatever has a sound layout can be written as text and read back,
//! lawful or not: unknown names, wrong argument counts, fields outside their order, indices out of
//! range. `NOTATION.md` has the grammar.
//!
//! No operation recurses, so nesting is bounded by memory only.

#![forbid(unsafe_code)]

mod arities;
mod ast;
pub mod codes;
mod decode;
mod encode;
mod expressions;
mod lexer;
mod names;
mod parse;
mod print;

pub use ast::{Expr, ExprFault, Field, File, Space, Substitution, Token};
pub use decode::{decode, DecodeError, Reason};
pub use encode::{encode, EncodeError, EncodeFault};
pub use lexer::Position;
pub use names::{NameFault, Names};
pub use parse::{parse, parse_expression, parse_with_places, ParseError, Parsed};
pub use print::{print, print_body, print_expression, print_expression_over};
