//! The text of the listing program.

use crate::judge::Program;
use std::io::{self, Write};

/// The listing of a file: its definitions with their cards, or the refusal.
pub fn listing(file: &[u8]) -> Vec<u8> {
    let mut text = Vec::new();
    print(file, &mut text).expect("a vector takes every write");
    text
}

fn print(file: &[u8], text: &mut Vec<u8>) -> io::Result<()> {
    let program = match Program::judge(file) {
        Ok(program) => program,
        Err(refusal) => return writeln!(text, "refused {} {}", refusal.number, refusal.place),
    };
    let definitions = &program.tables.definitions;
    writeln!(text, "ok {}", definitions.len())?;
    for (number, (definition, card)) in definitions.iter().zip(&program.cards).enumerate() {
        let (instance, name) = (definition.instance, definition.name);
        let parameters = definition.parameters;
        write!(text, "{number} {instance} {name} {parameters} ")?;
        for byte in card.bytes() {
            write!(text, "{byte:02x}")?;
        }
        text.push(b'\n');
    }
    Ok(())
}
