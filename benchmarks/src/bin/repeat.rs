//! Repeats one call of one side and does nothing else: for profiles.

use benchmarks::{inputs, ARCHIVE, REFERENCE};
use differential::families::Memory;
use std::hint::black_box;
use std::process::ExitCode;

const USAGE: &str = "repeat archive|reference INPUT ROUNDS";

fn run() -> Result<(), String> {
    let given: Vec<String> = std::env::args().skip(1).collect();
    let [side, name, rounds] = &given[..] else {
        return Err("three arguments are needed".into());
    };
    let side = match side.as_str() {
        "archive" => ARCHIVE,
        "reference" => REFERENCE,
        _ => return Err(format!("no side is named {side}")),
    };
    let rounds: usize = rounds
        .parse()
        .map_err(|_| format!("{rounds} is not a number"))?;
    let inputs = inputs::all();
    let Some(input) = inputs.iter().find(|input| input.id() == *name) else {
        let names: Vec<String> = inputs.iter().map(inputs::Input::id).collect();
        return Err(format!(
            "no input is named {name}; there are\n{}",
            names.join("\n")
        ));
    };
    let mut memory = Memory::default();
    for _ in 0..rounds {
        black_box(input.family.call(side, &mut memory));
    }
    Ok(())
}

fn main() -> ExitCode {
    match run() {
        Ok(()) => ExitCode::SUCCESS,
        Err(error) => {
            eprintln!("{error}\nusage: {USAGE}");
            ExitCode::FAILURE
        }
    }
}
