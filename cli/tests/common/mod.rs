//! Running the program.

use serde_json::Value;
use std::fs;
use std::io::Write;
use std::path::{Path, PathBuf};
use std::process::{Command, Stdio};

/// What a run gave.
pub struct Run {
    pub status: i32,
    pub out: Vec<u8>,
    pub err: String,
}

impl Run {
    pub fn text(&self) -> &str {
        std::str::from_utf8(&self.out).expect("text")
    }

    /// One JSON value for each line.
    #[allow(dead_code)]
    pub fn json(&self) -> Vec<Value> {
        let lines = self.text().lines();
        lines
            .map(|line| serde_json::from_str(line).expect("JSON"))
            .collect()
    }
}

/// Runs the program with something on standard input.
pub fn run_with(words: &[&str], input: &[u8]) -> Run {
    let mut child = Command::new(env!("CARGO_BIN_EXE_rafterclary"))
        .args(words)
        .current_dir(root())
        .stdin(Stdio::piped())
        .stdout(Stdio::piped())
        .stderr(Stdio::piped())
        .spawn()
        .expect("it runs");
    let mut stdin = child.stdin.take().expect("a pipe");
    // A program that does not read its input closes the pipe.
    let _ = stdin.write_all(input);
    drop(stdin);
    let output = child.wait_with_output().expect("it ends");
    Run {
        status: output.status.code().expect("a status"),
        out: output.stdout,
        err: String::from_utf8(output.stderr).expect("text"),
    }
}

pub fn run(words: &[&str]) -> Run {
    run_with(words, &[])
}

/// The checkout.
pub fn root() -> PathBuf {
    Path::new(env!("CARGO_MANIFEST_DIR")).join("..")
}

/// The names of the samples, without their endings.
#[allow(dead_code)]
pub fn samples() -> Vec<String> {
    let mut stems = Vec::new();
    for entry in fs::read_dir(root().join("samples")).expect("samples") {
        let name = entry.expect("an entry").file_name();
        if let Some(stem) = name.to_string_lossy().strip_suffix(".bin") {
            stems.push(stem.to_string());
        }
    }
    stems.sort();
    assert!(stems.len() >= 20, "{stems:?}");
    stems
}

#[allow(dead_code)]
pub fn sample(name: &str) -> Vec<u8> {
    fs::read(root().join("samples").join(name)).expect(name)
}

/// The words of a command as a shell takes them, as far as those of the documents need it.
#[allow(dead_code)]
pub fn words(command: &str) -> Vec<String> {
    let mut words = vec![String::new()];
    let mut quote = None;
    for c in command.chars() {
        match quote {
            Some(open) if c == open => quote = None,
            None if c == '"' || c == '\'' => quote = Some(c),
            None if c == ' ' => words.push(String::new()),
            _ => words.last_mut().expect("a word").push(c),
        }
    }
    words
}
