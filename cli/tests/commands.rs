//! Cards, explanations, and misuse.

mod common;

use common::{run, run_with, words};
use serde_json::Value;

#[test]
fn cards() {
    let example = run_with(&["card", "-", "0"], &common::sample("example.bin"));
    assert_eq!(example.status, 0);
    assert_eq!(
        example.text(),
        "n3(p0), definition 0, module n1\n\n  level with all at 0: 2 transition\n\n      \
         takes      weighs  clashes with\n  p0  0 1 - - -\n\n  \
         4 at a level that is not taken (-)\n  else 2\n\n  \
         01 02 00  03 00 00 00 00 00 00 00  00 00 00 00  00\n\n\
         0 constant, 1 state, 2 transition, 3 temporal, 4 not level-correct\n"
    );
    let none = run(&["card", "samples/depth-lawful.tla", "Head!Sink"]);
    assert!(none
        .text()
        .contains("Head!Sink, definition 6, module Panel\n\n  level 2 transition\n\n  00 02 00  "));
    let two = run(&["card", "samples/relation.tla", "Relation:Pred"]);
    assert!(two
        .text()
        .contains("  u  0 1 2 3 -  yes     v\n  v  0 1 2 3 -  yes     u\n"));
    // An instance's parameters come first.
    let three = run(&["card", "samples/relation.tla", "Steeper!Inverse"]);
    assert!(three
        .text()
        .starts_with("Steeper!Inverse(by, v, u), definition 23, module Dredge\n"));
    let eight = run(&["card", "samples/instance-parameters-8.tla", "Bent!Haul"]);
    assert!(eight
        .text()
        .starts_with("Bent!Haul(trim, heel, rope, step, slack, load, brake, order), "));
    assert!(eight
        .text()
        .contains("\n  load   0 1 2 - -\n  brake  0 1 2 3 4\n"));
    let refused = run(&["card", "samples/depth-accident.tla", "0"]);
    assert_eq!(refused.status, 1);
    assert!(refused.text().contains("refused 14"));
}

#[test]
fn cards_as_json() {
    let json = &run(&["card", "--json", "samples/winch.tla", "Ready"]).json()[0];
    let expected = serde_json::json!({
        "file": "samples/winch.tla", "number": 1, "instance": 0, "name": 3, "parameters": 6,
        "card": "06011c03070f0f0f0700000000032000", "level": 1,
        "masks": [3, 7, 15, 15, 15, 7],
        "weighs": [false, false, true, true, true, false],
        "clashes": [[2, 3], [2, 4], [3, 4]],
        "module": "Winch", "written": "Ready", "field": 3,
        "parameter_names": ["rope", "step", "slack", "load", "brake", "order"],
    });
    assert_eq!(json, &expected);
    let words = ["card", "--json", "samples/winch.tla", "Ready"];
    let json = &run(&[&words[..], &["slack=transition", "brake=3"]].concat()).json()[0];
    let expected = serde_json::json!({
        "levels": [0, 0, 2, 0, 3, 0], "level": 4, "why": "slack at 2 and brake at 3 clash",
    });
    assert_eq!(json["read"], expected);
}

/// Levels by name, in turn, in words; what is not given is at 0.
#[test]
fn cards_at_levels() {
    for (levels, said) in [
        (
            &["slack=2", "brake=3"][..],
            "rope=0 step=0 slack=2 load=0 brake=3 order=0: 4 not level-correct: \
             slack at 2 and brake at 3 clash",
        ),
        (
            &["2"],
            "rope=2 step=0 slack=0 load=0 brake=0 order=0: 4 not level-correct: \
             rope is not taken at 2",
        ),
        (
            &["1", "2", "1", "1", "temporal", "2"],
            "rope=1 step=2 slack=1 load=1 brake=3 order=2: 3 temporal: \
             brake at 3 is the highest that weighs",
        ),
        // A level alone is that of the parameter in its place.
        (
            &["slack=2", "1"],
            "rope=0 step=1 slack=2 load=0 brake=0 order=0: 2 transition: \
             slack at 2 is the highest that weighs",
        ),
        (
            &["1", "order=transition", "load=state"],
            "rope=1 step=0 slack=0 load=1 brake=0 order=2: 1 state: \
             nothing that weighs is above 1",
        ),
    ] {
        let words = ["card", "samples/winch.tla", "Ready"];
        let told = run(&[&words[..], levels].concat());
        assert_eq!((told.status, told.err.as_str()), (0, ""));
        let line = format!("\n  at {said}\n\n0 constant, ");
        assert!(told.text().contains(&line), "{levels:?}: {}", told.text());
    }
    for (levels, said) in [
        (&["wind=1"][..], "Ready has no parameter wind"),
        (
            &["slack=5"],
            "Ready cannot have slack at 5: levels are 0 to 4",
        ),
        (&["slack=high"], "slack=high is not a level"),
        (
            &["0"; 7],
            "Ready has 6 parameters, and more levels are given",
        ),
        (&["1", "rope=1"], "two levels are given for it"),
    ] {
        let words = ["card", "samples/winch.tla", "Ready"];
        let told = run(&[&words[..], levels].concat());
        assert_eq!((told.status, told.text()), (2, ""), "{levels:?}");
        assert!(told.err.contains(said), "{levels:?}: {}", told.err);
    }
    let told = run(&["card", "samples/example.bin", "0", "1", "1"]);
    assert!(told
        .err
        .contains("n3 has 1 parameter, and more levels are given"));
    let twice =
        b"---- MODULE M ----\nD(p) == p\n====\n---- MODULE N ----\nI(p) == INSTANCE M\n====\n";
    let told = run_with(&["card", "--as", "text", "-", "I!D", "p=1"], twice);
    assert_eq!(told.status, 2);
    assert!(
        told.err
            .contains("I!D has several parameters p: give all in turn"),
        "{}",
        told.err
    );
    let told = run_with(&["card", "--as", "text", "-", "I!D", "4", "1"], twice);
    assert!(told
        .text()
        .contains("at p=4 p=1: 1 state: p at 1 is the highest that weighs"));
}

/// What is read from a card is what the archive replies of a call.
#[test]
fn cards_and_levels() {
    let mut compared = 0;
    for (file, module, name, count) in [
        ("samples/winch.tla", "Winch", "Held", 6),
        ("samples/winch.tla", "Deck", "Port!Ready", 6),
        ("samples/winch.tla", "Deck", "Port!Watch", 6),
        ("samples/parameters-8.tla", "Eight", "Some", 8),
        ("samples/instance-parameters-8.tla", "Deck", "Bent!Slow", 8),
    ] {
        let names: Vec<String> = (0..count).map(|each| format!("p{each}")).collect();
        let call = format!("{name}({})", names.join(", "));
        for seed in 0..40usize {
            let level = |place: usize| (seed * (place + 3) + seed / 7 * place) % 9 / 2;
            let levels: Vec<String> = (0..count).map(|each| level(each).to_string()).collect();
            let levels: Vec<&str> = levels.iter().map(String::as_str).collect();
            let card = [&["card", "--json", file, name], &levels[..]].concat();
            let asked = [&["level", "--json", file, module, &call], &levels[..]].concat();
            let (card, asked) = (&run(&card).json()[0], &run(&asked).json()[0]);
            assert_eq!(card["read"]["level"], asked["level"], "{name} {levels:?}");
            compared += usize::from(asked["level"] != 4);
        }
    }
    assert!(compared > 20, "{compared}");
}

/// One line for each definition, with its card in words.
#[test]
fn lists_with_names() {
    let listed = run(&["list", "--names", "samples/winch.tla"]);
    let lines: Vec<&str> = listed.text().lines().collect();
    assert_eq!(lines.len(), 15);
    assert_eq!(lines[0], "module Winch");
    assert_eq!(
        lines[2],
        "    1  Ready       6  level 1; rope 01; step, order 012; slack, load, brake 0123 weigh; \
         any two of slack, load, brake clash"
    );
    assert_eq!(lines[14], "   12  Able        0  level 3");
    let listed = run(&["list", "--names", "samples/parameters-8.tla"]);
    assert!(listed.text().contains(
        "    4  Last   8  level 0; a, b, c, d, e, f 01234; g, h 0123 weigh; clash g/h\n"
    ));
    let listed = run(&["list", "--names", "samples/example.bin"]);
    assert_eq!(listed.text(), "module n1\n    0  n3  1  level 2; p0 01\n");
}

/// Each smallest file is refused by its number, as the archive says.
#[test]
fn explanations() {
    for number in (1..=14).chain(16..=18).chain([21]) {
        let words = ["explain", "--json", &number.to_string()];
        let told = &run(&words).json()[0];
        assert_eq!(
            (&told["number"], &told["used"]),
            (&number.into(), &true.into())
        );
        let Some(hexadecimal) = told["hexadecimal"].as_str() else {
            assert!(matches!(number, 1 | 17 | 18), "{number}");
            assert_eq!(told["place"], Value::Null);
            continue;
        };
        let bytes: Vec<u8> = hexadecimal
            .split_whitespace()
            .map(|byte| u8::from_str_radix(byte, 16).expect("a byte"))
            .collect();
        let check = &run_with(&["check", "--json"], &bytes).json()[0];
        assert_eq!(check["number"], number);
        assert_eq!(check["cause"], told["cause"]);
        assert_eq!(check["place"], told["place"]);
        // No smaller file comes of leaving bytes out at the end.
        for length in 0..bytes.len() {
            let less = &run_with(&["check", "--json"], &bytes[..length]).json()[0];
            assert_ne!(less["number"], number);
        }
        if let Some(text) = told["text"].as_str() {
            let check =
                &run_with(&["check", "--json", "--as", "text", "-"], text.as_bytes()).json()[0];
            assert_eq!(check["number"], number);
        }
        let text = run(&["explain", &number.to_string()]);
        assert_eq!(text.status, 0);
        assert!(text
            .text()
            .contains(&format!("The archive's reply: refused {number} ")));
    }
}

/// 15 was a cause, and is known: it is explained, as no cause, with nothing that shows it.
#[test]
fn a_number_that_is_not_used() {
    let told = run(&["explain", "15"]);
    assert_eq!((told.status, told.err.as_str()), (0, ""));
    let json = &run(&["explain", "--json", "15"]).json()[0];
    let meaning = json["meaning"].as_str().expect("words");
    for words in [
        "No refusal has this number any more.",
        "a brought definition is 4 with parameters at 0",
        "an instance that clears 14 and 21",
    ] {
        assert!(meaning.contains(words), "{words}");
    }
    let expected = serde_json::json!({
        "number": 15, "used": false, "cause": null, "meaning": meaning,
        "hexadecimal": null, "text": null, "place": null,
    });
    assert_eq!(json, &expected);
    let told_words: Vec<&str> = told.text().split_whitespace().collect();
    assert_eq!(told_words.join(" "), format!("15: not used {meaning}"));
    let help = run(&["explain", "--help"]);
    assert!(help.text().contains("15 is no longer used"));
}

#[test]
fn misuse() {
    for words in [
        &["check", "samples/no-such-file"][..],
        &["check", "samples"],
        &["check", "--no-such-flag"],
        &["explain", "0"],
        &["explain", "19"],
        &["explain", "20"],
        &["explain", "22"],
        &["card", "samples/example.bin", "1"],
        &["card", "samples/example.bin", "nothing"],
        &["card", "samples/relation.tla", "First!Nothing"],
        &["convert", "samples/no-such-file"],
        &["no-such-command"],
        &[],
    ] {
        let run = run(words);
        assert_eq!(run.status, 2, "{words:?}");
        assert_eq!(run.text(), "", "{words:?}");
        assert!(!run.err.is_empty(), "{words:?}");
    }
    // What can be checked is checked.
    let mixed = run(&["check", "samples/no-such-file", "samples/example.bin"]);
    assert_eq!(mixed.status, 2);
    assert_eq!(
        mixed.text(),
        "samples/example.bin: accepted, 1 definition\n"
    );
    let text = run_with(
        &["check", "--as", "text", "-"],
        b"---- MODULE M ----\nD == (1\n====\n",
    );
    assert_eq!((text.status, text.text()), (2, ""));
    assert!(text.err.contains("standard input:3:1"), "{}", text.err);
    let report = &run_with(&["check", "--json", "--as", "text", "-"], b"D == (1").json()[0];
    assert_eq!(report["verdict"], "unreadable");
    let error = report["error"].as_str().expect("words");
    assert!(
        error.starts_with("standard input: line 1, column 8: "),
        "{error}"
    );
    let two = b"---- MODULE M ----\nD == 1\n====\n---- MODULE N ----\nD == 2\n====\n";
    let several = run_with(&["card", "--as", "text", "-", "D"], two);
    assert_eq!(several.status, 2);
    assert!(several
        .err
        .contains("several are called D: 0 (M:D), 1 (N:D)"));
    let one = run_with(&["card", "--as", "text", "-", "N:D"], two);
    assert!(one.text().starts_with("D, definition 1, module N\n"));
}

#[test]
fn help() {
    let help = run(&["--help"]);
    assert_eq!(help.status, 0);
    for word in [
        "check",
        "list",
        "card",
        "level",
        "expand",
        "show",
        "explain",
        "convert",
        "Examples:",
        "Exit status",
    ] {
        assert!(help.text().contains(word), "{word}");
    }
}

/// Every example of these helps that writes no file and needs no shell is no misuse.
#[test]
fn examples() {
    let mut ran = 0;
    for command in [&[][..], &["convert"]] {
        let help = run(&[command, &["--help"]].concat());
        for line in help.text().lines() {
            let Some(example) = line.strip_prefix("  rafterclary ") else {
                continue;
            };
            if ["*", "<", " -o "].iter().any(|sign| example.contains(sign)) {
                continue;
            }
            let example = example.split("   ").next().expect("a first part");
            let words = words(example);
            let told = run(&words.iter().map(String::as_str).collect::<Vec<_>>());
            assert_ne!(told.status, 2, "{example}: {}", told.err);
            ran += 1;
        }
    }
    assert_eq!(ran, 12);
}
