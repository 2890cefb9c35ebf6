//! `card`: one definition's card.

use super::choosing::{chosen, parameters};
use super::{accepted, put, put_json, refused, Failure, Options, Telling};
use crate::archive::Card;
use crate::input::Input;
use crate::json::{self, Drawn, Read};
use crate::question::levels_of;
use crate::table;
use crate::{Misuse, Status};
use std::path::Path;

pub fn run(
    options: Options,
    path: &Path,
    wanted: &str,
    levels: &[String],
) -> Result<Status, Misuse> {
    let input = Input::read(path, options.reading)?;
    let (cards, outline) = match accepted(&input) {
        Ok(accepted) => accepted,
        Err(Failure::Misuse(fault)) => return Err(fault),
        Err(Failure::Refused(refusal)) => {
            return refused(options, &input, refusal, Telling::Reasons);
        }
    };
    let number = chosen(&input, &outline, wanted)? as usize;
    let found = outline.definitions.get(number).zip(cards.get(number));
    let Some((definition, card)) = found else {
        let count = cards.len();
        let message = format!("{}: no definition {number}; there are {count}", input.name);
        return Err(Misuse::Message(message));
    };
    let parameters = parameters(&input, &outline, definition);
    let written = json::written(&input, definition);
    let read = match levels.is_empty() {
        true => None,
        false => Some(read(card, &written, &parameters, levels)?),
    };
    if options.json {
        put_json(&Drawn {
            file: &input.name,
            card: json::Card::new(&input, number, definition, card),
            parameter_names: parameters,
            read,
        })?;
        return Ok(Status::Accepted);
    }
    let module = input.module(definition.module);
    let head = match parameters.is_empty() {
        true => written,
        false => format!("{written}({})", parameters.join(", ")),
    };
    let drawn = table::draw(&parameters, card);
    let told = read.map_or_else(String::new, |read| at(&parameters, &read));
    let legend = table::legend();
    let text = format!("{head}, definition {number}, module {module}\n\n{drawn}{told}\n{legend}\n");
    put(text.as_bytes())?;
    Ok(Status::Accepted)
}

/// The card at the levels that are given.
fn read(
    card: &Card,
    written: &str,
    parameters: &[String],
    levels: &[String],
) -> Result<Read, Misuse> {
    let levels = levels_of(written, parameters, levels)?;
    let reading = card.reading(&levels);
    let reading = reading.map_err(|fault| Misuse::Message(format!("{written}: {fault}")))?;
    Ok(Read {
        levels,
        level: reading.level(),
        why: table::why(parameters, card, reading),
    })
}

/// The same on a line.
fn at(parameters: &[String], read: &Read) -> String {
    let each = parameters.iter().zip(&read.levels);
    let each: Vec<String> = each
        .map(|(name, level)| format!("{name}={level}"))
        .collect();
    let (given, level) = (each.join(" "), table::reply(read.level));
    format!("\n  at {given}: {level}: {}\n", read.why)
}
