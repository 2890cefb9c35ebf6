//! `check`: accepted or refused.

use super::{named, put, put_json, read, refused, Options, Telling};
use crate::archive;
use crate::input::Input;
use crate::json::{Report, Verdict};
use crate::{Misuse, Status};
use std::path::PathBuf;

pub fn run(options: Options, quiet: bool, files: &[PathBuf]) -> Result<Status, Misuse> {
    let mut worst = Status::Accepted;
    for path in named(files)? {
        let status = match read(options, &path)? {
            Some(input) => check(options, quiet, &input)?,
            None => Status::Misused,
        };
        worst = worst.max(status);
    }
    Ok(worst)
}

fn check(options: Options, quiet: bool, input: &Input) -> Result<Status, Misuse> {
    let name = &input.name;
    match archive::check(&input.bytes) {
        Ok(cards) if options.json => put_json(&Report {
            file: name,
            verdict: Verdict::Accepted {
                definitions: cards.len(),
                cards: None,
            },
        })?,
        Ok(cards) => {
            let count = cards.len();
            let plural = if count == 1 { "" } else { "s" };
            put(format!("{name}: accepted, {count} definition{plural}\n").as_bytes())?;
        }
        Err(refusal) => {
            let telling = if quiet {
                Telling::Line
            } else {
                Telling::Reasons
            };
            return refused(options, input, refusal, telling);
        }
    }
    Ok(Status::Accepted)
}
