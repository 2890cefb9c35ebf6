//! `show`: the file as readable modules, with field numbers and offsets.

use super::{put, put_json, Options};
use crate::input::Input;
use crate::json::{Fault, Shown, ShownField};
use crate::{Misuse, Status};
use std::fmt::Write;
use std::path::Path;

/// Bytes shown of what cannot be read.
const SHOWN: usize = 32;

pub fn run(options: Options, path: &Path) -> Result<Status, Misuse> {
    let input = Input::read(path, options.reading)?;
    if options.json {
        put_json(&shown(&input))?;
    } else {
        put(text(&input).as_bytes())?;
    }
    Ok(match input.fault {
        None => Status::Accepted,
        Some(_) => Status::Refused,
    })
}

fn shown(input: &Input) -> Shown<'_> {
    let fields = 0..input.file.fields.len();
    let fields = fields.map(|number| ShownField {
        number,
        kind: input.kind(number),
        offset: input.offsets[number],
        length: input.offsets[number + 1] - input.offsets[number],
        module: input.module_at(number).map(|name| input.module(name)),
        text: input.source.text[input.source.field(number)].to_string(),
    });
    Shown {
        file: &input.name,
        bytes: input.bytes.len(),
        fields: fields.collect(),
        fault: input.fault.map(|fault| Fault {
            field: fault.field,
            offset: fault.offset,
            reason: fault.reason.to_string(),
        }),
    }
}

fn text(input: &Input) -> String {
    let mut text = String::from("field    byte\n");
    let mut next = 0;
    let mut at = 0;
    for line in input.source.text.split_inclusive('\n') {
        at += line.len();
        let first = next;
        while next < input.file.fields.len() && input.source.start(next) < at {
            next += 1;
        }
        let (numbers, offset) = match next - first {
            0 => (String::new(), String::new()),
            1 => (first.to_string(), input.offsets[first].to_string()),
            _ => (
                format!("{first}-{}", next - 1),
                input.offsets[first].to_string(),
            ),
        };
        let line = format!("{numbers:>7}  {offset:>5}  {line}");
        text.push_str(line.trim_end());
        text.push('\n');
    }
    if let Some(fault) = input.fault {
        let start = input.offsets[input.file.fields.len()];
        let rest = &input.bytes[start..];
        let _ = writeln!(
            text,
            "{:>7}  {start:>5}  {}",
            fault.field,
            hexadecimal(rest)
        );
        let _ = writeln!(
            text,
            "                not a field: byte {}: {}",
            fault.offset, fault.reason
        );
    }
    text
}

fn hexadecimal(bytes: &[u8]) -> String {
    let each = bytes.iter().take(SHOWN).map(|byte| format!("{byte:02x}"));
    let mut words: Vec<String> = each.collect();
    if bytes.len() > SHOWN {
        words.push(format!(".. ({} bytes more)", bytes.len() - SHOWN));
    }
    words.join(" ")
}
