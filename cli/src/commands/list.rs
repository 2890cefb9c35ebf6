//! `list`: every definition with its card.

use super::choosing::parameters;
use super::{accepted, named, put, put_json, read, refused, Failure, Options, Telling};
use crate::archive::Card;
use crate::input::Input;
use crate::json::{self, Report, Verdict};
use crate::outline::Outline;
use crate::{Misuse, Status};
use std::fmt::Write;
use std::path::PathBuf;

pub fn run(options: Options, names: bool, files: &[PathBuf]) -> Result<Status, Misuse> {
    let files = named(files)?;
    let mut worst = Status::Accepted;
    for path in &files {
        let Some(input) = read(options, path)? else {
            worst = Status::Misused;
            continue;
        };
        if files.len() > 1 && !options.json {
            put(format!("{}:\n", input.name).as_bytes())?;
        }
        worst = worst.max(list(options, names, &input)?);
    }
    Ok(worst)
}

fn list(options: Options, names: bool, input: &Input) -> Result<Status, Misuse> {
    let (cards, outline) = match accepted(input) {
        Ok(accepted) => accepted,
        Err(Failure::Misuse(fault)) => return Err(fault),
        Err(Failure::Refused(refusal)) => {
            return refused(options, input, refusal, Telling::Listing);
        }
    };
    if options.json {
        let each = outline.definitions.iter().zip(&cards).enumerate();
        let each = each
            .map(|(number, (definition, card))| json::Card::new(input, number, definition, card));
        let verdict = Verdict::Accepted {
            definitions: cards.len(),
            cards: Some(each.collect()),
        };
        put_json(&Report {
            file: &input.name,
            verdict,
        })?;
    } else if names {
        put(with_names(input, &cards, &outline).as_bytes())?;
    } else {
        put(listing(&cards, &outline).as_bytes())?;
    }
    Ok(Status::Accepted)
}

/// What the listing program prints.
fn listing(cards: &[Card], outline: &Outline) -> String {
    let mut text = format!("ok {}\n", cards.len());
    for (number, (definition, card)) in outline.definitions.iter().zip(cards).enumerate() {
        let (instance, name) = (definition.instance, definition.name);
        let parameters = definition.parameters;
        let _ = writeln!(text, "{number} {instance} {name} {parameters} {card:x}");
    }
    text
}

/// The same with names, module by module, and the cards in words.
fn with_names(input: &Input, cards: &[Card], outline: &Outline) -> String {
    let written = outline.definitions.iter();
    let written: Vec<String> = written.map(|each| json::written(input, each)).collect();
    let width = written.iter().map(String::len).max().unwrap_or(0);
    let mut text = String::new();
    let mut module = None;
    for (number, (definition, card)) in outline.definitions.iter().zip(cards).enumerate() {
        if module.replace(definition.module) != Some(definition.module) {
            let _ = writeln!(text, "module {}", input.module(definition.module));
        }
        let (name, count) = (&written[number], definition.parameters);
        let names = parameters(input, outline, definition);
        let words = card.words(&names);
        let _ = writeln!(text, "  {number:>3}  {name:width$}  {count}  {words}");
    }
    text
}
