//! `rafterclary`: the proved level checker for TLA+ modules, on the command line.
//!
//! Verdicts, cards, levels and expansions come from the proved archive and from nowhere else. What
//! is here reads arguments, keeps book of names for printing, and puts a refusal into words.

#![forbid(unsafe_code)]

mod answers;
mod archive;
mod args;
mod causes;
mod commands;
mod diagnostics;
mod finding;
mod innermost;
mod input;
mod json;
mod outline;
mod probe;
mod question;
mod source;
mod table;

use clap::Parser;
use std::io;
use std::process::ExitCode;

/// What keeps a command from doing what it was asked: exit status 2.
pub enum Misuse {
    /// Told to people already, with a place; the same in one line.
    Told(String),
    Message(String),
    Writing(io::Error),
}

impl From<io::Error> for Misuse {
    fn from(fault: io::Error) -> Self {
        Misuse::Writing(fault)
    }
}

/// How a command went.
#[derive(Clone, Copy, Debug, PartialEq, Eq, PartialOrd, Ord)]
pub enum Status {
    Accepted = 0,
    Refused = 1,
    Misused = 2,
}

fn main() -> ExitCode {
    let args = args::Args::parse();
    let status = match commands::run(&args) {
        Ok(status) => status,
        // Whoever reads the output has seen enough.
        Err(Misuse::Writing(fault)) if fault.kind() == io::ErrorKind::BrokenPipe => Status::Misused,
        Err(Misuse::Told(_)) => Status::Misused,
        Err(Misuse::Message(message)) => {
            eprintln!("rafterclary: {message}");
            Status::Misused
        }
        Err(Misuse::Writing(fault)) => {
            eprintln!("rafterclary: {fault}");
            Status::Misused
        }
    };
    ExitCode::from(status as u8)
}
