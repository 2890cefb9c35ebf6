//! `level`: the level of an expression at the end of a module.

use super::{accepted, put, put_asked, refused, refused_query, Failure, Options, Telling};
use crate::answers::{Answer, Level, LevelAsked};
use crate::archive;
use crate::diagnostics;
use crate::finding::{find_asked, find_level, Told};
use crate::input::Input;
use crate::question::{levelled, Given, Question};
use crate::table;
use crate::{Misuse, Status};
use std::path::Path;

pub fn run(
    options: Options,
    path: &Path,
    module: &str,
    given: Given,
    levels: &[String],
) -> Result<Status, Misuse> {
    let input = Input::read(path, options.reading)?;
    let (_, outline) = match accepted(&input) {
        Ok(accepted) => accepted,
        Err(Failure::Misuse(fault)) => return Err(fault),
        Err(Failure::Refused(refusal)) => {
            return refused(options, &input, refusal, Telling::Reasons);
        }
    };
    let parameters = levelled(&input.file.names, levels)?;
    let question = Question::new(&input, module, given, parameters, options.colors)?;
    let Question { module, bytes, .. } = &question;
    let query = LevelAsked::new(input.module(*module), &question);
    let reply = archive::level(&input.bytes, *module, bytes, &question.levels());
    match reply {
        Ok(level) => {
            let why = (level == 4).then(|| find_level(&input, &outline, &question));
            answered(options, &input, query, level, why.flatten())
        }
        Err(refusal) => {
            let told = find_asked(&input, &outline, &question, refusal);
            refused_query(options, &input, query, refusal, &told)
        }
    }
}

/// Tells a level, and of 4 the reasons.
fn answered(
    options: Options,
    input: &Input,
    query: LevelAsked,
    level: u8,
    why: Option<Told>,
) -> Result<Status, Misuse> {
    if options.json {
        let why = why.map(|told| told.finding.into());
        put_asked(input, query, Answer::Answered(Level { level, why }))?;
        return Ok(Status::Accepted);
    }
    put(format!("{}\n", table::reply(level)).as_bytes())?;
    if let Some(Told {
        finding,
        input: Some(asked),
    }) = &why
    {
        diagnostics::explained(asked, finding, options.colors)?;
    }
    Ok(Status::Accepted)
}
