//! The commands.

mod alike;
mod body;
mod card;
mod check;
mod choosing;
mod convert;
mod expand;
mod explain;
mod level;
mod list;
mod show;

use crate::answers::{Answer, Asked};
use crate::archive::{self, Card, Refusal};
use crate::args::{Args, Command};
use crate::diagnostics::{self, Colors};
use crate::finding::{self, Told};
use crate::input::{Input, Reading};
use crate::json::{Field, Refused, Report, Verdict};
use crate::outline::Outline;
use crate::question::Given;
use crate::{Misuse, Status};
use serde::Serialize;
use std::io::{stdin, stdout, IsTerminal, Write};
use std::path::{Path, PathBuf};

/// What every command is told.
#[derive(Clone, Copy)]
struct Options<'o> {
    json: bool,
    reading: Reading<'o>,
    colors: Colors,
}

/// Runs a command.
pub fn run(args: &Args) -> Result<Status, Misuse> {
    let colors = Colors::new(args.color);
    let options = Options {
        json: args.json,
        reading: Reading {
            form: args.form,
            source: args.source.as_deref(),
            colors,
        },
        colors,
    };
    match &args.command {
        Command::Check { quiet, files } => check::run(options, *quiet, files),
        Command::List { names, files } => list::run(options, *names, files),
        Command::Card {
            file,
            definition,
            levels,
        } => card::run(options, file, definition, levels),
        Command::Level {
            file,
            module,
            expression,
            levels,
            hex,
        } => {
            let given = Given::new(expression, *hex);
            level::run(options, file, module, given, levels)
        }
        Command::Expand {
            file,
            module,
            expression,
            params,
            hex,
        } => {
            let given = Given::new(expression, *hex);
            expand::run(options, file, module, given, params)
        }
        Command::Alike {
            file,
            first,
            second,
        } => alike::run(options, file, [first, second]),
        Command::Body { file, definition } => body::run(options, file, definition),
        Command::Show { file } => show::run(options, file),
        Command::Explain { number } => explain::run(options, *number),
        Command::Convert { file, output } => convert::run(options, file, output.as_deref()),
    }
}

/// The files that are meant: standard input if none is named and it is a pipe.
fn named(files: &[PathBuf]) -> Result<Vec<PathBuf>, Misuse> {
    if !files.is_empty() {
        return Ok(files.to_vec());
    }
    if stdin().is_terminal() {
        let message = "no file is named, and standard input is a terminal; see --help";
        return Err(Misuse::Message(message.to_string()));
    }
    Ok(vec![PathBuf::from("-")])
}

/// Reads a file. Where that fails, JSON tells it too, and the command goes on to the next.
fn read(options: Options, path: &Path) -> Result<Option<Input>, Misuse> {
    match Input::read(path, options.reading) {
        Ok(input) => Ok(Some(input)),
        Err(fault) => {
            let (error, told) = match fault {
                Misuse::Message(message) => (message, false),
                Misuse::Told(message) => (message, true),
                Misuse::Writing(fault) => return Err(Misuse::Writing(fault)),
            };
            if options.json {
                let file = &path.display().to_string();
                let verdict = Verdict::Unreadable { error };
                put_json(&Report { file, verdict })?;
            } else if !told {
                eprintln!("rafterclary: {error}");
            }
            Ok(None)
        }
    }
}

/// An accepted file: the cards of its definitions, and what is known of them besides.
fn accepted(input: &Input) -> Result<(Vec<Card>, Outline), Failure> {
    let cards = archive::check(&input.bytes).map_err(Failure::Refused)?;
    let outline = Outline::of(&input.file.fields);
    // The outline is book-keeping; what the archive counts stands.
    let counted = cards.iter().map(Card::parameters);
    let outlined = outline.definitions.iter();
    if !counted.eq(outlined.map(|each| usize::from(each.parameters))) {
        let message = format!(
            "{}: the archive counts {} definitions, the outline {}, or others of their parameters",
            input.name,
            cards.len(),
            outline.definitions.len()
        );
        return Err(Failure::Misuse(Misuse::Message(message)));
    }
    Ok((cards, outline))
}

enum Failure {
    Refused(Refusal),
    Misuse(Misuse),
}

/// How a refusal is told to people.
#[derive(Clone, Copy, PartialEq, Eq)]
enum Telling {
    /// One line in words, and the reasons on standard error.
    Reasons,
    /// One line in words.
    Line,
    /// The listing program's line.
    Listing,
}

/// Tells a refusal.
fn refused(
    options: Options,
    input: &Input,
    refusal: Refusal,
    telling: Telling,
) -> Result<Status, Misuse> {
    if telling == Telling::Listing && !options.json {
        put(format!("refused {} {}\n", refusal.number, refusal.place).as_bytes())?;
        return Ok(Status::Refused);
    }
    let mut finding = finding::find(input, refusal);
    let (name, place) = (&input.name, place(input, refusal));
    if options.json {
        let verdict = Verdict::Refused(Box::new(Refused::new(input, refusal, finding)));
        put_json(&Report {
            file: name,
            verdict,
        })?;
        return Ok(Status::Refused);
    }
    put(format!("{name}: refused {place}: {}\n", finding.message).as_bytes())?;
    if telling == Telling::Reasons {
        finding.notes.push(format!("refused {place}"));
        diagnostics::refused(input, refusal.number, &finding, options.colors)?;
    }
    Ok(Status::Refused)
}

/// Prints what was asked and what came of it as JSON.
fn put_asked<A: Serialize>(
    input: &Input,
    query: impl Serialize,
    answer: Answer<A>,
) -> Result<(), Misuse> {
    put_json(&Asked {
        file: &input.name,
        query,
        answer,
    })
}

/// Tells a refusal of a query's own, the file itself being accepted.
fn refused_query(
    options: Options,
    input: &Input,
    query: impl Serialize,
    refusal: Refusal,
    told: &Told,
) -> Result<Status, Misuse> {
    if options.json {
        put_asked(input, query, Answer::refused(refusal, &told.finding))?;
        return Ok(Status::Refused);
    }
    let Refusal { number, place } = refusal;
    let at = match number {
        1 | 2 | 17 | 18 => number.to_string(),
        _ => format!("{number} at the query (place {place}, the number of fields)"),
    };
    let message = &told.finding.message;
    put(format!("{}: refused {at}: {message}\n", input.name).as_bytes())?;
    if let Some(asked) = &told.input {
        diagnostics::refused(asked, number, &told.finding, options.colors)?;
    }
    Ok(Status::Refused)
}

/// A refusal's number with the field's number, kind, offset and module.
fn place(input: &Input, refusal: Refusal) -> String {
    let Refusal { number, place } = refusal;
    let Some(field) = Field::at(input, refusal) else {
        return match number {
            4 => format!("4 after the last field, field {place} missing"),
            _ => number.to_string(),
        };
    };
    let kind = field.kind.unwrap_or("unknown tag");
    let module = field.module.map(|name| format!(", module {name}"));
    let module = module.unwrap_or_default();
    let offset = field.offset;
    format!("{number} at field {place} ({kind}, byte {offset}{module})")
}

fn put(bytes: &[u8]) -> Result<(), Misuse> {
    let mut out = stdout().lock();
    out.write_all(bytes)?;
    out.flush()?;
    Ok(())
}

fn put_json(value: &impl Serialize) -> Result<(), Misuse> {
    let mut line = serde_json::to_vec(value).map_err(|fault| Misuse::Message(fault.to_string()))?;
    line.push(b'\n');
    put(&line)
}
