//! `body`: the part of the file that holds a definition's body.

use super::choosing::chosen;
use super::{accepted, put, put_asked, refused, refused_query, Failure, Options, Telling};
use crate::answers::{hexadecimal, Answer, Body, BodyAsked};
use crate::archive;
use crate::finding::{no_definition, Told};
use crate::input::Input;
use crate::json;
use crate::outline::Outline;
use crate::{Misuse, Status};
use notation::{Expr, Field};
use std::ops::Range;
use std::path::Path;

pub fn run(options: Options, path: &Path, wanted: &str) -> Result<Status, Misuse> {
    let input = Input::read(path, options.reading)?;
    let (cards, outline) = match accepted(&input) {
        Ok(accepted) => accepted,
        Err(Failure::Misuse(fault)) => return Err(fault),
        Err(Failure::Refused(refusal)) => {
            return refused(options, &input, refusal, Telling::Reasons);
        }
    };
    let definition = chosen(&input, &outline, wanted)?;
    let query = BodyAsked { definition };
    match archive::body(&input.bytes, definition) {
        Ok(part) => {
            let body = body(&input, &outline, definition, part)?;
            match options.json {
                true => put_asked(&input, query, Answer::Answered(body))?,
                false => put(text(definition, &body).as_bytes())?,
            }
            Ok(Status::Accepted)
        }
        Err(refusal) => {
            let told = Told {
                finding: no_definition(definition, cards.len()),
                input: None,
            };
            refused_query(options, &input, query, refusal, &told)
        }
    }
}

/// What the file has in that part.
fn body(
    input: &Input,
    outline: &Outline,
    definition: u32,
    part: Range<usize>,
) -> Result<Body, Misuse> {
    let bytes = &input.bytes[part.clone()];
    let after = input.offsets.iter().take_while(|&&at| at <= part.start);
    let field = after.count().saturating_sub(1);
    let expression = notation::print_body(&input.file, field);
    let (Some(expression), Ok(_), Some(Field::Definition { name, .. })) = (
        expression,
        Expr::decode(bytes),
        input.file.fields.get(field),
    ) else {
        let message = format!("{}: bytes {part:?} hold no body", input.name);
        return Err(Misuse::Message(message));
    };
    let named = |module: Option<u16>, name: String| match module {
        Some(module) => format!("{}:{name}", input.module(module)),
        None => name,
    };
    let asked = outline.definitions.get(definition as usize);
    let written = asked.map(|each| named(Some(each.module), json::written(input, each)));
    Ok(Body {
        offset: part.start,
        length: part.len(),
        field,
        hexadecimal: hexadecimal(bytes),
        expression,
        written: written.unwrap_or_default(),
        original: named(input.module_at(field), input.operator(*name)),
    })
}

fn text(definition: u32, body: &Body) -> String {
    let Body {
        offset,
        length,
        field,
        hexadecimal,
        expression,
        written,
        original,
    } = body;
    let of = match written == original {
        true => String::new(),
        false => format!(", brought from {original}"),
    };
    format!(
        "{written}, definition {definition}{of}\n\
         offset {offset}, length {length}, in field {field}\n\n  \
         {hexadecimal}\n  {expression}\n"
    )
}
