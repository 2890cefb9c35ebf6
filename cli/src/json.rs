//! The shapes of `--json`: one object on a line for each file.

use crate::archive::{self, Refusal};
use crate::causes::title;
use crate::finding::Finding;
use crate::input::Input;
use crate::outline::Definition;
use serde::Serialize;

/// What `check` and `list` say of a file.
#[derive(Serialize)]
pub struct Report<'r> {
    pub file: &'r str,
    #[serde(flatten)]
    pub verdict: Verdict,
}

#[derive(Serialize)]
#[serde(tag = "verdict", rename_all = "lowercase")]
pub enum Verdict {
    Accepted {
        /// How many there are.
        definitions: usize,
        #[serde(skip_serializing_if = "Option::is_none")]
        cards: Option<Vec<Card>>,
    },
    Refused(Box<Refused>),
    /// The file could not be read; there is no verdict.
    Unreadable {
        error: String,
    },
}

/// A refusal.
#[derive(Serialize)]
pub struct Refused {
    pub number: u32,
    /// The field's number from 0, as the archive gives it.
    pub place: u32,
    pub cause: &'static str,
    /// `null` where the place is no field.
    pub field: Option<Field>,
    #[serde(flatten)]
    pub words: Words,
}

/// What is told to people.
#[derive(Serialize)]
pub struct Words {
    pub message: String,
    pub names: Vec<String>,
    pub notes: Vec<String>,
}

impl From<Finding> for Words {
    fn from(finding: Finding) -> Words {
        Words {
            message: finding.message,
            names: finding.names,
            notes: finding.notes,
        }
    }
}

#[derive(Serialize)]
pub struct Field {
    /// `null` for an unknown tag.
    pub kind: Option<&'static str>,
    /// Its first byte in the tagged file.
    pub offset: usize,
    /// `null` outside a module.
    pub module: Option<String>,
    /// The line in the text, where that was given.
    pub line: Option<usize>,
}

/// A definition with its card.
#[derive(Serialize)]
pub struct Card {
    pub number: usize,
    /// The number of the instance's name, or 0.
    pub instance: u16,
    /// The number of the name.
    pub name: u16,
    pub parameters: usize,
    /// Its bytes in hexadecimal, as in the listing.
    pub card: String,
    /// With all parameters at 0.
    pub level: u8,
    /// Of each parameter, bit l being set if level l is taken.
    pub masks: Vec<u8>,
    /// Of each parameter, whether it weighs.
    pub weighs: Vec<bool>,
    /// The pairs of parameters that clash, counted from 0.
    pub clashes: Vec<(usize, usize)>,
    pub module: String,
    /// The name as it is written, `I!F` for a brought one.
    pub written: String,
    /// The number of the field that added it.
    pub field: usize,
}

impl Card {
    pub fn new(
        input: &Input,
        number: usize,
        definition: &Definition,
        card: &archive::Card,
    ) -> Card {
        let parameters = card.parameters();
        Card {
            number,
            instance: definition.instance,
            name: definition.name,
            parameters,
            card: format!("{card:x}"),
            level: card.level_at_zero(),
            masks: (0..parameters).map(|each| card.mask(each)).collect(),
            weighs: (0..parameters).map(|each| card.weighs(each)).collect(),
            clashes: card.clashes().collect(),
            module: input.module(definition.module),
            written: written(input, definition),
            field: definition.field,
        }
    }
}

/// A definition's name, `I!F` for a brought one.
pub fn written(input: &Input, definition: &Definition) -> String {
    let name = input.operator(definition.name);
    match definition.instance {
        0 => name,
        instance => format!("{}!{name}", input.operator(instance)),
    }
}

impl Refused {
    pub fn new(input: &Input, refusal: Refusal, finding: Finding) -> Refused {
        Refused {
            number: refusal.number,
            place: refusal.place,
            cause: title(refusal.number),
            field: Field::at(input, refusal),
            words: finding.into(),
        }
    }
}

impl Field {
    /// The refused field; `None` where the refusal is of no field.
    pub fn at(input: &Input, refusal: Refusal) -> Option<Field> {
        let place = refusal.place as usize;
        let beyond = place >= input.file.fields.len() && input.fault.is_none();
        if beyond || matches!(refusal.number, 1 | 2 | 17 | 18) {
            return None;
        }
        let text = &input.source.text;
        let line = || text[..input.source.start(place)].matches('\n').count() + 1;
        Some(Field {
            kind: input.kind(place),
            offset: *input.offsets.get(place)?,
            module: input.module_at(place).map(|name| input.module(name)),
            line: input.given.then(line),
        })
    }
}

/// What `card` says.
#[derive(Serialize)]
pub struct Drawn<'r> {
    pub file: &'r str,
    #[serde(flatten)]
    pub card: Card,
    pub parameter_names: Vec<String>,
    /// The card read at levels, if some are given.
    #[serde(skip_serializing_if = "Option::is_none")]
    pub read: Option<Read>,
}

#[derive(Serialize)]
pub struct Read {
    /// Of each parameter.
    pub levels: Vec<u8>,
    pub level: u8,
    pub why: String,
}

/// What `show` says.
#[derive(Serialize)]
pub struct Shown<'r> {
    pub file: &'r str,
    pub bytes: usize,
    pub fields: Vec<ShownField>,
    /// Why the rest of the bytes are not fields.
    pub fault: Option<Fault>,
}

#[derive(Serialize)]
pub struct ShownField {
    pub number: usize,
    pub kind: Option<&'static str>,
    pub offset: usize,
    pub length: usize,
    pub module: Option<String>,
    pub text: String,
}

#[derive(Serialize)]
pub struct Fault {
    pub field: usize,
    pub offset: usize,
    pub reason: String,
}

/// What `explain` says.
#[derive(Serialize)]
pub struct Explained {
    pub number: u32,
    /// Whether a refusal may have it.
    pub used: bool,
    /// `null` of a number that is not used.
    pub cause: Option<&'static str>,
    pub meaning: &'static str,
    /// The smallest file that shows it, in hexadecimal.
    pub hexadecimal: Option<String>,
    pub text: Option<&'static str>,
    /// The place of the archive's refusal of that file.
    pub place: Option<u32>,
}
