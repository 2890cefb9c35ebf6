//! `alike`: whether two definitions have one card.

use super::choosing::chosen;
use super::{accepted, put, put_asked, refused, refused_query, Failure, Options, Telling};
use crate::answers::{Alike, AlikeAsked, Answer};
use crate::archive::{self, Card};
use crate::finding::{no_definition, Told};
use crate::input::Input;
use crate::json;
use crate::outline::Outline;
use crate::{Misuse, Status};
use std::fmt::Write;
use std::path::Path;

pub fn run(options: Options, path: &Path, wanted: [&String; 2]) -> Result<Status, Misuse> {
    let input = Input::read(path, options.reading)?;
    let (cards, outline) = match accepted(&input) {
        Ok(accepted) => accepted,
        Err(Failure::Misuse(fault)) => return Err(fault),
        Err(Failure::Refused(refusal)) => {
            return refused(options, &input, refusal, Telling::Reasons);
        }
    };
    let first = chosen(&input, &outline, wanted[0])?;
    let second = chosen(&input, &outline, wanted[1])?;
    let numbers = [first, second];
    let query = AlikeAsked { numbers };
    match archive::alike(&input.bytes, first, second) {
        Ok(alike) => {
            let numbers = numbers.map(|number| number as usize);
            if options.json {
                let each = numbers.iter().filter_map(|&number| {
                    let definition = outline.definitions.get(number)?;
                    Some(json::Card::new(
                        &input,
                        number,
                        definition,
                        cards.get(number)?,
                    ))
                });
                let cards = each.collect();
                put_asked(&input, query, Answer::Answered(Alike { alike, cards }))?;
            } else {
                put(text(&input, &outline, &cards, alike, numbers).as_bytes())?;
            }
            Ok(Status::Accepted)
        }
        Err(refusal) => {
            let missing = numbers
                .into_iter()
                .find(|&number| number as usize >= cards.len());
            let told = Told {
                finding: no_definition(missing.unwrap_or(first), cards.len()),
                input: None,
            };
            refused_query(options, &input, query, refusal, &told)
        }
    }
}

/// The answer, and both with number, name, parameter count and card. What the parameters are called
/// does not matter here.
fn text(
    input: &Input,
    outline: &Outline,
    cards: &[Card],
    alike: bool,
    numbers: [usize; 2],
) -> String {
    let mut text = String::from(match alike {
        true => "alike\n",
        false => "not alike\n",
    });
    let names = numbers.map(|number| {
        let definition = outline.definitions.get(number);
        definition.map_or_else(String::new, |each| {
            format!(
                "{}:{}",
                input.module(each.module),
                json::written(input, each)
            )
        })
    });
    let width = names.iter().map(String::len).max().unwrap_or(0);
    for (number, name) in numbers.into_iter().zip(names) {
        if let Some(card) = cards.get(number) {
            let parameters = card.parameters();
            let _ = writeln!(text, "  {number:>3}  {name:width$}  {parameters}  {card}");
        }
    }
    text
}
