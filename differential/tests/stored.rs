//! The stored vectors of the gate are those that `vectors` writes, and the listing program is the one
//! that they are run with. Among them is whatever becomes of a level where it is brought.

use differential::lawful;
use std::fs;
use std::path::Path;
use std::process::Command;

/// What `vectors KIND OF FOLDER` writes has to be what the program has.
fn compare(kind: &str, of: &str, program: &str, files: &[&str]) {
    let crates = Path::new(env!("CARGO_MANIFEST_DIR")).join("../crates");
    let folder = Path::new(env!("CARGO_TARGET_TMPDIR")).join(program);
    fs::create_dir_all(&folder).expect("a folder");
    let mut vectors = Command::new(env!("CARGO_BIN_EXE_vectors"));
    vectors.arg(kind).arg(of).arg(&folder);
    assert!(vectors.status().expect("it runs").success(), "{program}");
    for name in files {
        let stored = fs::read(crates.join(program).join(name));
        let written = fs::read(folder.join(name));
        assert!(
            stored.expect("stored") == written.expect("written"),
            "{program}/{name}"
        );
    }
}

#[test]
fn vectors_are_up_to_date() {
    let samples = concat!(env!("CARGO_MANIFEST_DIR"), "/../samples");
    for (kind, program) in [
        ("listings", "vectors"),
        ("checks", "checks"),
        ("queries", "asks"),
    ] {
        compare(kind, samples, program, &["stdin", "stdout", "index"]);
    }
}

/// The stored files: each after a length of three bytes.
fn stored_files() -> Vec<Vec<u8>> {
    let crates = Path::new(env!("CARGO_MANIFEST_DIR")).join("../crates");
    let stored = fs::read(crates.join("vectors/stdin")).expect("stored");
    let (mut rest, mut files) = (&stored[..], Vec::new());
    while let [high, middle, low, after @ ..] = rest {
        let length = u32::from_be_bytes([0, *high, *middle, *low]) as usize;
        files.push(after[..length].to_vec());
        rest = &after[length..];
    }
    files
}

#[test]
fn stored_files_stay_lawful() {
    let mut seen = reference::Seen::default();
    for file in stored_files() {
        let opinion = reference::staying_lawful(&file, 2_000);
        assert!(opinion.broken.is_empty(), "{:?}", opinion.broken);
        seen += opinion.seen;
    }
    for only in lawful::MOVES {
        assert!(only.count(&seen) >= 20, "{}: {seen:?}", only.label());
    }
    assert!(seen.named_inside >= 40 && seen.chained >= 100, "{seen:?}");
}

/// The cards of the stored files are exact, and those of up to eight parameters are among them.
#[test]
fn stored_cards_are_exact() {
    let mut compared = reference::Compared::default();
    for file in stored_files() {
        let mut cards = vec![0; reference::Limits::CARDS];
        if reference::check(&file, &mut cards).is_err() {
            continue;
        }
        let opinion = reference::exact_cards(&file, &cards, 500).expect("accepted");
        assert!(opinion.inexact.is_empty(), "{:?}", opinion.inexact);
        compared += opinion.compared;
    }
    assert!(
        compared.definitions.iter().all(|&count| count >= 20),
        "{compared:?}"
    );
}

/// No stored answer has the number 15.
#[test]
fn no_stored_answer_is_15() {
    let crates = Path::new(env!("CARGO_MANIFEST_DIR")).join("../crates");
    for program in ["vectors", "checks", "asks"] {
        let answers = fs::read_to_string(crates.join(program).join("stdout")).expect("stored");
        assert!(answers.lines().any(|line| line.starts_with("refused 16 ")));
        assert!(!answers.lines().any(|line| line.starts_with("refused 15 ")));
    }
}

const INPUTS: [&str; 4] = ["full", "long", "refused", "nothing"];

#[test]
fn inputs_are_up_to_date() {
    for input in INPUTS {
        let program = format!("listing_{input}");
        compare("input", input, &program, &["stdin", "stdout"]);
    }
}

/// The listing program's own run is on a sample; its expected output is the sample's listing.
#[test]
fn sample_is_up_to_date() {
    let root = Path::new(env!("CARGO_MANIFEST_DIR")).join("..");
    for (stored, sample) in [("stdin", "channel.bin"), ("stdout", "channel.listing")] {
        let program = fs::read(root.join("crates/listing").join(stored)).expect("stored");
        let sample = fs::read(root.join("samples").join(sample)).expect("a sample");
        assert!(program == sample, "listing/{stored}");
    }
}

/// A program of the gate is run once, so the listing program stands there six times: nothing but the
/// comment in the first line may differ.
#[test]
fn one_listing_program() {
    let crates = Path::new(env!("CARGO_MANIFEST_DIR")).join("../crates");
    let program = |name: &str| {
        let text = fs::read_to_string(crates.join(name).join("src/main.rt")).expect("a program");
        let (comment, code) = text.split_once('\n').expect("more than a line");
        assert!(comment.starts_with("//"), "{name}");
        code.to_string()
    };
    for input in INPUTS.into_iter().chain(["example"]) {
        let name = format!("listing_{input}");
        assert!(program(&name) == program("listing"), "{name}");
    }
}
