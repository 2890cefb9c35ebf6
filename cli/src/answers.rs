//! The shapes of `--json` for the queries.

use crate::archive::Refusal;
use crate::causes::title;
use crate::finding::Finding;
use crate::json::{Card, Refused, Words};
use crate::question::Question;
use serde::Serialize;

/// What a query says: what was asked, and the answer.
#[derive(Serialize)]
pub struct Asked<'r, Q, A> {
    pub file: &'r str,
    #[serde(flatten)]
    pub query: Q,
    #[serde(flatten)]
    pub answer: Answer<A>,
}

#[derive(Serialize)]
#[serde(tag = "verdict", rename_all = "lowercase")]
pub enum Answer<A> {
    Answered(A),
    Refused(Box<Refused>),
}

/// A query that is refused has no answer.
#[derive(Serialize)]
pub enum NoAnswer {}

impl Answer<NoAnswer> {
    /// A refusal of the query's own: its place is no field.
    pub fn refused(refusal: Refusal, finding: &Finding) -> Answer<NoAnswer> {
        Answer::Refused(Box::new(Refused {
            number: refusal.number,
            place: refusal.place,
            cause: title(refusal.number),
            field: None,
            words: finding.clone().into(),
        }))
    }
}

/// A query for a level.
#[derive(Serialize)]
pub struct LevelAsked {
    pub module: String,
    pub expression: String,
    pub hexadecimal: String,
    pub parameters: Vec<Parameter>,
}

#[derive(Serialize)]
pub struct Parameter {
    pub name: String,
    pub level: u8,
}

impl LevelAsked {
    pub fn new(module: String, question: &Question) -> LevelAsked {
        let parameters = question.parameters.iter().map(|each| Parameter {
            name: each.name.clone(),
            level: each.level,
        });
        LevelAsked {
            module,
            expression: question.text.clone(),
            hexadecimal: hexadecimal(&question.bytes),
            parameters: parameters.collect(),
        }
    }
}

#[derive(Serialize)]
pub struct Level {
    pub level: u8,
    /// Why it is 4, as far as that is known.
    #[serde(flatten)]
    pub why: Option<Words>,
}

/// A query for an expansion.
#[derive(Serialize)]
pub struct ExpansionAsked {
    pub module: String,
    pub expression: String,
    pub hexadecimal: String,
    pub parameters: Vec<Named>,
}

#[derive(Serialize)]
pub struct Named {
    pub name: String,
}

impl ExpansionAsked {
    pub fn new(module: String, question: &Question) -> ExpansionAsked {
        let parameters = question.parameters.iter().map(|each| Named {
            name: each.name.clone(),
        });
        ExpansionAsked {
            module,
            expression: question.text.clone(),
            hexadecimal: hexadecimal(&question.bytes),
            parameters: parameters.collect(),
        }
    }
}

#[derive(Serialize)]
pub struct Expansion {
    /// In bytes.
    pub length: usize,
    /// In the readable notation.
    pub expansion: String,
    pub expansion_hexadecimal: String,
}

/// A query about two definitions.
#[derive(Serialize)]
pub struct AlikeAsked {
    pub numbers: [u32; 2],
}

#[derive(Serialize)]
pub struct Alike {
    pub alike: bool,
    pub cards: Vec<Card>,
}

/// A query for a body.
#[derive(Serialize)]
pub struct BodyAsked {
    pub definition: u32,
}

#[derive(Serialize)]
pub struct Body {
    /// Its first byte in the tagged file.
    pub offset: usize,
    pub length: usize,
    /// The number of the field that holds it.
    pub field: usize,
    pub hexadecimal: String,
    pub expression: String,
    /// The name of the definition asked for, `I!F` for a brought one.
    pub written: String,
    /// The definition that the field makes.
    pub original: String,
}

/// Bytes in hexadecimal, spaces between them.
pub fn hexadecimal(bytes: &[u8]) -> String {
    let each: Vec<String> = bytes.iter().map(|byte| format!("{byte:02x}")).collect();
    each.join(" ")
}
