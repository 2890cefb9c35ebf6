//! `notation encode`: text on standard input, the tagged file on standard output.
//! `notation decode`: the other way.
//! `notation format`: text to text, laid out as `decode` would.
//! `notation places`: for each field of a text its number, line and column.

use std::io::{self, Read, Write};
use std::process::ExitCode;

fn main() -> ExitCode {
    let command = std::env::args().nth(1).unwrap_or_default();
    match run(&command) {
        Ok(()) => ExitCode::SUCCESS,
        Err(message) => {
            eprintln!("{message}");
            ExitCode::FAILURE
        }
    }
}

fn run(command: &str) -> Result<(), String> {
    if !matches!(command, "encode" | "decode" | "format" | "places") {
        return Err("usage: notation encode|decode|format|places < input > output".to_string());
    }
    let mut input = Vec::new();
    io::stdin()
        .read_to_end(&mut input)
        .map_err(|fault| fault.to_string())?;
    let output = convert(command, input)?;
    io::stdout()
        .write_all(&output)
        .map_err(|fault| fault.to_string())
}

fn convert(command: &str, input: Vec<u8>) -> Result<Vec<u8>, String> {
    if command == "decode" {
        let file = notation::decode(&input).map_err(|fault| fault.to_string())?;
        return Ok(notation::print(&file).into_bytes());
    }
    let text = String::from_utf8(input)
        .map_err(|fault| format!("byte {}: not UTF-8", fault.utf8_error().valid_up_to()))?;
    let parsed = notation::parse_with_places(&text).map_err(|fault| fault.to_string())?;
    match command {
        "encode" => notation::encode(&parsed.file).map_err(|fault| fault.to_string()),
        "format" => Ok(notation::print(&parsed.file).into_bytes()),
        _ => {
            let mut lines = String::new();
            for (number, place) in parsed.places.iter().chain([&parsed.end]).enumerate() {
                lines.push_str(&format!("{number} {} {}\n", place.line, place.column));
            }
            Ok(lines.into_bytes())
        }
    }
}
