//! A query's own refusals: 17, 3, 5, 9 and 10 of its expression and parameters, and 18.

use super::limits::{within, PARAMETERS};
use super::{find, Finding, Focus, Site};
use crate::archive::Refusal;
use crate::causes::title;
use crate::input::Input;
use crate::outline::Outline;
use crate::question::Question;

/// A finding, and the input that its marks are of.
pub struct Told {
    pub finding: Finding,
    pub input: Option<Input>,
}

/// Puts a refusal of a query with an expression into words, the file itself being accepted.
pub fn find_asked(input: &Input, outline: &Outline, question: &Question, refusal: Refusal) -> Told {
    let number = refusal.number;
    let plain = match number {
        17 => Some(no_module(input, question.module)),
        3 => layout(question),
        5 => parameters(question),
        18 => Some(too_long()),
        _ => None,
    };
    if let Some(finding) = plain {
        return Told {
            finding,
            input: None,
        };
    }
    let Some((asked, place)) = question.as_field(input, outline) else {
        return Told {
            finding: Finding::new(title(number)),
            input: None,
        };
    };
    let finding = match number {
        5 => limit(question, place),
        _ => find(
            &asked,
            Refusal {
                number,
                place: place as u32,
            },
        ),
    };
    Told {
        finding: alone(finding, place),
        input: Some(asked),
    }
}

/// Why a query with an expression has the reply 4.
pub fn find_level(input: &Input, outline: &Outline, question: &Question) -> Option<Told> {
    let (asked, place) = question.as_field(input, outline)?;
    let site = Site {
        given: Some(&question.parameters),
        ..Site::new(&asked, place)?
    };
    let finding = alone(site.not_level_correct()?, place);
    Some(Told {
        finding,
        input: Some(asked),
    })
}

/// A finding whose other fields have no text beside the expression's.
fn alone(mut finding: Finding, place: usize) -> Finding {
    let others = std::mem::take(&mut finding.others);
    for other in others {
        match other.field == place {
            true => finding.others.push(other),
            false => {
                let note = format!("field {}: {}", other.field, other.text);
                finding.notes.push(note);
            }
        }
    }
    finding
}

/// Cause 17 of a definition's number.
pub fn no_definition(number: u32, count: usize) -> Finding {
    let there = match count {
        0 => "the file has none".to_string(),
        1 => "the file has one, number 0".to_string(),
        _ => format!("the file has {count}, from 0 to {}", count - 1),
    };
    Finding::new(format!("there is no definition {number}: {there}"))
}

fn no_module(input: &Input, module: u16) -> Finding {
    let written = input.module(module);
    Finding::new(format!("the file has no module {written}")).name(written)
}

/// A level above 4 counts as a fault of the layout.
fn layout(question: &Question) -> Option<Finding> {
    let above = question.parameters.iter().find(|each| each.level > 4);
    if let Some(above) = above {
        let message = format!(
            "the level given for {} is {}, and levels are 0 to 4",
            above.name, above.level
        );
        return Some(Finding::new(message).name(&above.name));
    }
    let fault = question.expression.as_ref().err()?;
    let message = format!("byte {}: {}", fault.offset, fault.reason);
    Some(Finding::new(message))
}

fn parameters(question: &Question) -> Option<Finding> {
    let count = question.parameters.len();
    let message = || format!("{count} parameters are given, and the limit is {PARAMETERS}");
    (count > PARAMETERS).then(|| Finding::new(message()))
}

/// The output lent is as long as an expansion may be.
fn too_long() -> Finding {
    Finding::new("the expansion is over 65,535 bytes, and that is the limit")
}

fn limit(question: &Question, place: usize) -> Finding {
    let passed = question.expression.as_ref().ok().and_then(within);
    let message = passed.unwrap_or_else(|| title(5).to_string());
    Finding::new(message).mark(place, Focus::Field, "a limit passed")
}
