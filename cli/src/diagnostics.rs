//! Pointing into the readable source.

use crate::args::Color;
use crate::finding::{Finding, Focus, Mark};
use crate::input::Input;
use crate::Misuse;
use codespan_reporting::diagnostic::{Diagnostic, Label};
use codespan_reporting::files::SimpleFile;
use codespan_reporting::term::termcolor::{ColorChoice, StandardStream};
use codespan_reporting::term::{self, Config};
use std::io::{stderr, IsTerminal};
use std::ops::Range;

/// Whether the reports on standard error are coloured.
#[derive(Clone, Copy)]
pub struct Colors(bool);

impl Colors {
    pub fn new(when: Color) -> Colors {
        Colors(match when {
            Color::Always => true,
            Color::Never => false,
            Color::Auto => stderr().is_terminal() && std::env::var_os("NO_COLOR").is_none(),
        })
    }
}

/// Tells why a text cannot be read.
pub fn not_a_text(
    name: &str,
    text: &str,
    at: usize,
    message: &str,
    colors: Colors,
) -> Result<(), Misuse> {
    let next = text[at..].chars().next().map_or(0, char::len_utf8);
    let label = Label::primary((), at..at + next);
    let diagnostic = Diagnostic::error()
        .with_message(message)
        .with_labels(vec![label]);
    emit(name, text, &diagnostic, colors)
}

/// Tells why a file is refused.
pub fn refused(
    input: &Input,
    number: u32,
    finding: &Finding,
    colors: Colors,
) -> Result<(), Misuse> {
    let diagnostic = Diagnostic::error().with_code(format!("refusal {number}"));
    found(input, diagnostic, finding, colors)
}

/// Tells why an expression that is asked about is not level-correct, which is no fault.
pub fn explained(input: &Input, finding: &Finding, colors: Colors) -> Result<(), Misuse> {
    found(input, Diagnostic::note(), finding, colors)
}

fn found(
    input: &Input,
    diagnostic: Diagnostic<()>,
    finding: &Finding,
    colors: Colors,
) -> Result<(), Misuse> {
    let mut labels = Vec::new();
    if let Some(mark) = &finding.mark {
        labels.push(Label::primary((), span(input, mark)).with_message(&mark.text));
    }
    for mark in &finding.others {
        labels.push(Label::secondary((), span(input, mark)).with_message(&mark.text));
    }
    let diagnostic = diagnostic
        .with_message(&finding.message)
        .with_labels(labels)
        .with_notes(finding.notes.clone());
    emit(&input.called, &input.source.text, &diagnostic, colors)
}

fn span(input: &Input, mark: &Mark) -> Range<usize> {
    let source = &input.source;
    let found = match &mark.focus {
        Focus::Field => None,
        Focus::Word(word) => source.word(mark.field, word, 0),
        Focus::Nth(nth, word) => source.word(mark.field, word, *nth),
        Focus::Piece(piece) => source.piece(mark.field, piece),
        Focus::Substitution { place, count } => source.substitution(mark.field, *place, *count),
    };
    found.unwrap_or_else(|| source.field(mark.field))
}

fn emit(name: &str, text: &str, diagnostic: &Diagnostic<()>, colors: Colors) -> Result<(), Misuse> {
    let choice = if colors.0 {
        ColorChoice::Always
    } else {
        ColorChoice::Never
    };
    let mut stream = StandardStream::stderr(choice);
    let file = SimpleFile::new(name, text);
    term::emit(&mut stream, &Config::default(), &file, diagnostic)
        .map_err(|fault| Misuse::Message(fault.to_string()))
}
