//! `convert`: text to a tagged file, and back.

use super::{put, put_json, Options};
use crate::args::Form;
use crate::input::Input;
use crate::{Misuse, Status};
use std::fs;
use std::io::{stdout, IsTerminal};
use std::path::Path;

pub fn run(options: Options, path: &Path, output: Option<&Path>) -> Result<Status, Misuse> {
    let input = Input::read(path, options.reading)?;
    if let Some(fault) = input.fault {
        return Err(Misuse::Message(format!("{}: {fault}", input.name)));
    }
    let converted = match input.form {
        Form::Text => &input.bytes[..],
        Form::Tagged => input.source.text.as_bytes(),
    };
    let Some(output) = output else {
        if input.form == Form::Text && stdout().is_terminal() {
            let message = "a tagged file is not for a terminal; name a file with --output";
            return Err(Misuse::Message(message.to_string()));
        }
        put(converted)?;
        return Ok(Status::Accepted);
    };
    fs::write(output, converted)
        .map_err(|fault| Misuse::Message(format!("{}: {fault}", output.display())))?;
    if options.json {
        let line = serde_json::json!({
            "file": input.name,
            "output": output.display().to_string(),
            "bytes": converted.len(),
        });
        put_json(&line)?;
    }
    Ok(Status::Accepted)
}
