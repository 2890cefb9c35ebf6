//! `expand`: an expression at the end of a module with no defined name left in it.

use super::{accepted, put, put_asked, refused, refused_query, Failure, Options, Telling};
use crate::answers::{hexadecimal, Answer, Expansion, ExpansionAsked};
use crate::archive;
use crate::finding::find_asked;
use crate::input::Input;
use crate::question::{named, written, Given, Question};
use crate::{Misuse, Status};
use notation::Expr;
use std::path::Path;

pub fn run(
    options: Options,
    path: &Path,
    module: &str,
    given: Given,
    params: &[String],
) -> Result<Status, Misuse> {
    let input = Input::read(path, options.reading)?;
    let (_, outline) = match accepted(&input) {
        Ok(accepted) => accepted,
        Err(Failure::Misuse(fault)) => return Err(fault),
        Err(Failure::Refused(refusal)) => {
            return refused(options, &input, refusal, Telling::Reasons);
        }
    };
    let question = Question::new(&input, module, given, named(params), options.colors)?;
    let Question {
        module,
        bytes,
        parameters,
        ..
    } = &question;
    let query = ExpansionAsked::new(input.module(*module), &question);
    match archive::expand(&input.bytes, *module, bytes, parameters.len()) {
        Ok(bytes) => {
            let expansion = expansion(&input, &question, &bytes)?;
            if options.json {
                put_asked(&input, query, Answer::Answered(expansion))?;
                return Ok(Status::Accepted);
            }
            let Expansion {
                length, expansion, ..
            } = expansion;
            put(format!("{expansion}\nlength {length}\n").as_bytes())?;
            Ok(Status::Accepted)
        }
        Err(refusal) => {
            let told = find_asked(&input, &outline, &question, refusal);
            refused_query(options, &input, query, refusal, &told)
        }
    }
}

/// What the bytes hold, readable.
fn expansion(input: &Input, question: &Question, bytes: &[u8]) -> Result<Expansion, Misuse> {
    let read = Expr::decode(bytes).map_err(|fault| {
        let message = format!("{}: the expansion is no expression: {fault}", input.name);
        Misuse::Message(message)
    })?;
    Ok(Expansion {
        length: bytes.len(),
        expansion: written(&read, &input.file.names, &question.parameters),
        expansion_hexadecimal: hexadecimal(bytes),
    })
}
