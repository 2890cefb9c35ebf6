//! `explain`: what a refusal means.

use super::{put, put_json, Options};
use crate::archive;
use crate::causes::{numbered, Cause, Example, Numbered, Unused};
use crate::json::Explained;
use crate::{Misuse, Status};
use std::fmt::Write;

const WIDTH: usize = 78;

pub fn run(options: Options, number: u32) -> Result<Status, Misuse> {
    let explained = explained(number)?;
    if options.json {
        put_json(&explained)?;
        return Ok(Status::Accepted);
    }
    let title = explained.cause.unwrap_or("not used");
    let mut text = format!("{number}: {title}\n\n{}", wrapped(explained.meaning));
    if let Some(hexadecimal) = &explained.hexadecimal {
        let _ = writeln!(text, "\nThe smallest file that shows it:\n");
        if let Some(written) = explained.text {
            for line in written.lines() {
                let _ = writeln!(text, "    {line}");
            }
            text.push('\n');
        }
        let length = hexadecimal
            .split(' ')
            .filter(|byte| !byte.is_empty())
            .count();
        let _ = writeln!(text, "{length} bytes, in hexadecimal:\n");
        for line in wrapped(hexadecimal).lines() {
            let _ = writeln!(text, "    {line}");
        }
        if let Some(place) = explained.place {
            let _ = writeln!(text, "\nThe archive's reply: refused {number} {place}");
        }
    }
    put(text.as_bytes())?;
    Ok(Status::Accepted)
}

fn explained(number: u32) -> Result<Explained, Misuse> {
    match numbered(number) {
        Some(Numbered::Cause(cause)) => shown(cause),
        Some(Numbered::Unused(unused)) => Ok(not_used(unused)),
        None => {
            let message = format!("no refusal has the number {number}");
            Err(Misuse::Message(message))
        }
    }
}

fn not_used(unused: &Unused) -> Explained {
    Explained {
        number: unused.number,
        used: false,
        cause: None,
        meaning: unused.meaning,
        hexadecimal: None,
        text: None,
        place: None,
    }
}

fn shown(cause: &Cause) -> Result<Explained, Misuse> {
    let (text, bytes) = match cause.example {
        Example::Text(text) => {
            let file = notation::parse(text).map_err(|fault| Misuse::Message(fault.to_string()))?;
            let bytes =
                notation::encode(&file).map_err(|fault| Misuse::Message(fault.to_string()))?;
            (Some(text), Some(bytes))
        }
        Example::Bytes(bytes) => (None, Some(bytes.to_vec())),
        Example::None => (None, None),
    };
    let place = bytes.as_ref().and_then(|bytes| {
        let refusal = archive::check(bytes).err()?;
        (refusal.number == cause.number).then_some(refusal.place)
    });
    let hexadecimal = bytes.map(|bytes| {
        let each: Vec<String> = bytes.iter().map(|byte| format!("{byte:02x}")).collect();
        each.join(" ")
    });
    Ok(Explained {
        number: cause.number,
        used: true,
        cause: Some(cause.title),
        meaning: cause.meaning,
        hexadecimal,
        text,
        place,
    })
}

/// Words over as many lines as it takes.
fn wrapped(words: &str) -> String {
    let mut text = String::new();
    let mut width = 0;
    for word in words.split_whitespace() {
        if width > 0 && width + 1 + word.len() > WIDTH {
            text.push('\n');
            width = 0;
        } else if width > 0 {
            text.push(' ');
            width += 1;
        }
        text.push_str(word);
        width += word.len();
    }
    text.push('\n');
    text
}
