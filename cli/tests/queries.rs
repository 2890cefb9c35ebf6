//! Levels of expressions, likeness, bodies; and what is said where a query is refused.

mod common;

use common::{root, run, run_with, sample, samples};
use serde_json::{json, Value};
use std::env;
use std::path::Path;
use std::process::Command;

fn keys(value: &Value) -> Vec<&str> {
    let mut keys: Vec<&str> = value
        .as_object()
        .expect("an object")
        .keys()
        .map(String::as_str)
        .collect();
    keys.sort_unstable();
    keys
}

/// Trial lines of paper 01.
#[test]
fn trial_lines() {
    for (expression, levels, reply) in [
        ("c + 3", &[][..], "0 constant\n"),
        ("x + 2 * c", &[], "1 state\n"),
        ("x' + y > c", &[], "2 transition\n"),
        ("[][x' > y + c]_x", &[], "3 temporal\n"),
        ("(x' + 1)'", &[], "4 not level-correct\n"),
        ("c'", &[], "2 transition\n"),
        ("ENABLED x'", &[], "1 state\n"),
        ("[](x')", &[], "4 not level-correct\n"),
        ("F((x')')", &[], "0 constant\n"),
        ("G(p, q)", &["p=2", "q=3"], "4 not level-correct\n"),
        ("G(p, q)", &["p=2", "q=0"], "4 not level-correct\n"),
        ("G(p0, p1)", &["state", "temporal"], "3 temporal\n"),
        ("x' = 1 /\\ []y", &[], "4 not level-correct\n"),
        ("[][x' = 1]_x /\\ []y", &[], "3 temporal\n"),
        ("\\EE z : z", &[], "3 temporal\n"),
        ("\\EE z : z'", &[], "4 not level-correct\n"),
    ] {
        let words = ["level", "samples/trial-levels.tla", "Trial", expression];
        let told = run(&[&words[..], levels].concat());
        assert_eq!(told.text(), reply, "{expression}");
        assert_eq!(told.status, 0, "{expression}");
        // Of 4 the reasons are told beside the reply.
        assert_eq!(told.err.is_empty(), !reply.starts_with('4'), "{expression}");
    }
    let refused = run(&["level", "samples/trial-n.tla", "N", "D"]);
    assert_eq!(refused.status, 1);
    assert!(refused.text().contains("refused 12 at field 3"));
}

/// The reply 4 is told like a refusal of a definition, with the parameters at the levels given.
#[test]
fn reasons_of_4() {
    for (expression, levels, names, pieces) in [
        (
            "x' = 1 /\\ []y",
            &[][..],
            &[][..],
            &[
                "note: action and temporal do not mix: x' = 1 has level 2, []y has level 3",
                "^^^^^^    --- []y has level 3 (temporal)",
                "[][x' = 1]_v is temporal",
            ][..],
        ),
        (
            "Level2 /\\ x = 0 /\\ Level3",
            &[],
            &["Level2", "Level3"],
            &["action and temporal do not mix: Level2 has level 2, Level3 has level 3"],
        ),
        (
            "x' = 1 /\\ p",
            &["p=temporal"],
            &[],
            &[
                "x' = 1 has level 2, p has level 3",
                "- p has level 3 (temporal)",
                "given: p at level 3 (temporal)",
            ],
        ),
        (
            "G(p, q)",
            &["p=2", "q=3"],
            &["G"],
            &[
                "G has level 3 with its first argument at level 0, and p has level 2",
                "field 12: G has level 3 (temporal)",
                "given: p at level 2 (transition), q at level 3 (temporal)",
            ],
        ),
        (
            "G(p, q)",
            &["p=2", "q=0"],
            &[],
            &[
                "G(p, q) is not level-correct",
                "its arguments have levels 2, 0",
            ],
        ),
        (
            "(\\A k : k = p) /\\ (\\E i : i' = p /\\ [](i = q))",
            &["p=0", "q=1"],
            &[],
            &[
                "mix: i' = p has level 2, [](i = q) has level 3",
                "^^^^^^    --------- [](i = q) has level 3 (temporal)",
            ],
        ),
        (
            "\\EE z : z'",
            &[],
            &[],
            &[
                "\\EE z : z' is not level-correct",
                "^^^^^^^^^^ its argument has level 2",
            ],
        ),
        (
            "Level0 + p",
            &["p=4"],
            &[],
            &["p is not level-correct", "         ^ level 4"],
        ),
    ] {
        let words = ["level", "samples/trial-levels.tla", "Trial", expression];
        let told = run(&[&words[..], levels].concat());
        assert_eq!((told.status, told.text()), (0, "4 not level-correct\n"));
        for piece in pieces {
            assert!(told.err.contains(piece), "{piece}\n{}", told.err);
        }
        let told = run(&[&words[..], levels, &["--json"]].concat());
        assert_eq!((told.status, told.err.as_str()), (0, ""));
        let json = &told.json()[0];
        assert_eq!(
            (&json["verdict"], &json["level"]),
            (&json!("answered"), &json!(4))
        );
        assert_eq!(json["names"], json!(names), "{expression}");
        let message = json["message"].as_str().expect("text");
        assert!(message.contains(pieces[0].trim_start_matches("note: ")));
        assert!(json["notes"].is_array());
    }
}

/// As many levels as there may be.
#[test]
fn eight_levels() {
    let words = ["level", "samples/parameters-8.tla", "Eight"];
    for (expression, levels, reply) in [
        (
            "All(p0, p1, p2, p3, p4, p5, p6, p7)",
            "0 0 0 0 0 0 0 0",
            "0 constant\n",
        ),
        (
            "All(p0, p1, p2, p3, p4, p5, p6, p7)",
            "1 2 0 0 2 1 0 0",
            "2 transition\n",
        ),
        (
            "All(p0, p1, p2, p3, p4, p5, p6, p7)",
            "2 0 0 0 0 0 0 3",
            "4 not level-correct\n",
        ),
        (
            "Last(p0, p1, p2, p3, p4, p5, p6, p7)",
            "4 4 4 4 2 3 1 3",
            "3 temporal\n",
        ),
        (
            "Some(a, b, c, d, e, f, g, h)",
            "a=0 b=2 c=4 d=state e=1 f=transition g=0 h=0",
            "2 transition\n",
        ),
        ("p7 /\\ p0", "2 0 0 0 0 0 0 1", "2 transition\n"),
    ] {
        let levels: Vec<&str> = levels.split(' ').collect();
        let told = run(&[&words[..], &[expression], &levels].concat());
        assert_eq!((told.status, told.text()), (0, reply), "{expression}");
    }
    let call = "All(a, b, x, x, x, x, x, x)";
    let asked = [
        "level",
        "samples/parameters-8.tla",
        "Calls",
        call,
        "a=2",
        "b=3",
    ];
    let told = run(&asked);
    assert_eq!((told.status, told.text()), (0, "4 not level-correct\n"));
    let said = "action and temporal do not mix in All: a has level 2, b has level 3";
    assert!(told.err.contains(said), "{}", told.err);
}

#[test]
fn bytes_and_pipes() {
    let file = sample("example.bin");
    let hex = ["level", "-", "1", "--hex", "02 0003 01 02000200"];
    assert_eq!(run_with(&hex, &file).text(), "2 transition\n");
    for module in ["1", "n1"] {
        let words = ["level", "-", module, "n3(p0)", "state"];
        assert_eq!(run_with(&words, &file).text(), "2 transition\n");
    }
    let json = &run_with(&[&hex[..], &["--json"]].concat(), &file).json()[0];
    assert_eq!(
        json,
        &json!({
            "file": "standard input", "module": "n1", "expression": "n3(n2)",
            "hexadecimal": "02 00 03 01 02 00 02 00", "parameters": [],
            "verdict": "answered", "level": 2
        })
    );
    let given = ["level", "--json", "-", "1", "n3(q)", "q=transition"];
    let json = &run_with(&given, &file).json()[0];
    assert_eq!(json["parameters"], json!([{"name": "q", "level": 2}]));
    assert_eq!(json["level"], 4);
}

/// Number and place are the archive's: the place of a query's expression is the number of fields.
#[test]
fn refused_in_words() {
    let file = "samples/trial-levels.tla";
    let deep = format!("{}x{}", "op16(".repeat(32), ")".repeat(32));
    let not_deep = format!("{}x{}", "op16(".repeat(31), ")".repeat(31));
    assert_eq!(
        run(&["level", file, "Trial", &not_deep]).text(),
        "1 state\n"
    );
    for (words, number, place, message) in [
        (&["99", "x"][..], 17, 0, "the file has no module n99"),
        (&["0", "x"], 17, 0, "the file has no module n0"),
        (&["Trial", "p", "p=5"], 3, 15, "the level given for p is 5"),
        (
            &["Trial", "p0", "255", "0", "0", "0", "0", "0", "0", "0", "0"],
            3,
            15,
            "is 255",
        ),
        (&["Trial", "--hex", ""], 3, 15, "byte 0: bytes are missing"),
        (
            &["Trial", "--hex", "04 68"],
            3,
            15,
            "no built-in has the code 104",
        ),
        (
            &["Trial", "--hex", "05 0001 00"],
            3,
            15,
            "byte 3: bytes are left over",
        ),
        (
            &["Trial", "x", "0", "0", "0", "0", "0", "0", "0", "0", "0"],
            5,
            15,
            "9 parameters are given, and the limit is 8",
        ),
        (&["Trial", &deep], 5, 15, "nesting 33, and the limit is 32"),
        (
            &["Trial", "F(x, x, x, x, x, x, x, x, x)"],
            5,
            15,
            "given 9 arguments",
        ),
        (&["Trial", "F(x, x)"], 10, 15, "F takes 1 argument"),
        (&["Trial", "F(n77)"], 9, 15, "n77 is not known here"),
        (&["Trial", "x + ?p0"], 9, 15, "there is no parameter 0 here"),
        (
            &["Trial", "?b3"],
            9,
            15,
            "there is no bound variable 3 here",
        ),
        (
            &["Trial", "x!F"],
            9,
            15,
            "x is not the name of an instance here",
        ),
        (
            &["Trial", "F(x) + F"],
            10,
            15,
            "F takes 1 argument, and is given 0",
        ),
    ] {
        let words = [&["level", file], words].concat();
        let told = run(&words);
        assert_eq!(told.status, 1, "{words:?}");
        assert!(told.text().contains(message), "{words:?}: {}", told.text());
        let at = match place {
            0 => format!("{file}: refused {number}: "),
            _ => format!("{file}: refused {number} at the query (place {place}, "),
        };
        assert!(told.text().starts_with(&at), "{words:?}: {}", told.text());
        let json = &run(&[&words[..], &["--json"]].concat()).json()[0];
        assert_eq!(json["verdict"], "refused");
        assert_eq!(
            (&json["number"], &json["place"]),
            (&json!(number), &json!(place))
        );
        assert_eq!(json["field"], Value::Null);
        assert!(json["message"].as_str().expect("text").contains(message));
    }
    let told = run(&["level", file, "Trial", "x + F(1) + F"]);
    assert!(told.err.contains("the expression:1:12"), "{}", told.err);
    assert!(told.err.contains("^ 0 given"), "{}", told.err);
    assert!(told.err.contains("F takes 1 argument"), "{}", told.err);
    let instance = ["level", "samples/depth-lawful.tla", "Panel", "Head"];
    assert!(run(&instance)
        .text()
        .contains("Head is the name of an instance"));
}

#[test]
fn likeness() {
    let alike = run(&[
        "alike",
        "samples/depth-lawful.tla",
        "Depth:Sink",
        "Head!Sink",
    ]);
    assert_eq!(
        alike.text(),
        "alike\n    2  Depth:Sink       0  level 2\n    6  Panel:Head!Sink  0  level 2\n"
    );
    assert_eq!((alike.status, alike.err.as_str()), (0, ""));
    let other = run(&["alike", "samples/trial-levels.tla", "Level0", "F"]);
    assert!(other.text().starts_with("not alike\n"), "{}", other.text());
    assert_eq!(other.status, 0);
    let same = run(&["alike", "samples/winch.tla", "Watch", "Port!Watch"]);
    let words = "6  level 3; p0 01; p1 01234; p2, p3, p4 013; p5 012\n";
    assert_eq!(same.text().matches(words).count(), 2, "{}", same.text());
    let missing = run(&["alike", "samples/trial-levels.tla", "0", "10"]);
    assert_eq!(missing.status, 1);
    assert!(missing
        .text()
        .ends_with("refused 17: there is no definition 10: the file has 10, from 0 to 9\n"));
    let json = &run(&["alike", "--json", "samples/channel.bin", "0", "7"]).json()[0];
    assert_eq!(keys(json), ["alike", "cards", "file", "numbers", "verdict"]);
    assert_eq!(json["alike"], false);
    assert_eq!(json["cards"][1]["number"], 7);
    let json = &run(&["alike", "--json", "samples/channel.bin", "4294967295", "0"]).json()[0];
    assert_eq!((&json["number"], &json["place"]), (&json!(17), &json!(0)));
}

#[test]
fn bodies() {
    let body = run(&["body", "samples/depth-lawful.tla", "Head!Sink"]);
    assert_eq!(
        body.text(),
        "Panel:Head!Sink, definition 6, brought from Depth:Sink\n\
         offset 52, length 17, in field 5\n\n  \
         04 30 04 70 02 00 02 00 04 34 02 00 02 00 05 00 01\n  reading' = reading + 1\n"
    );
    let missing = run(&["body", "samples/example.bin", "1"]);
    assert_eq!(missing.status, 1);
    let said = "refused 17: there is no definition 1: the file has one, number 0\n";
    assert!(missing.text().ends_with(said));
    let json = &run(&["body", "--json", "samples/example.bin", "0"]).json()[0];
    assert_eq!(
        json,
        &json!({
            "file": "samples/example.bin", "definition": 0, "verdict": "answered",
            "offset": 16, "length": 4, "field": 2, "hexadecimal": "04 70 00 00",
            "expression": "p0'", "written": "n1:n3", "original": "n1:n3"
        })
    );
}

/// The part of a body is in the file, and is the expression that is printed.
#[test]
fn bodies_of_samples() {
    for stem in samples() {
        let (file, path) = (
            sample(&format!("{stem}.bin")),
            format!("samples/{stem}.bin"),
        );
        let listing = String::from_utf8(sample(&format!("{stem}.listing"))).expect("text");
        let Some(count) = listing.strip_prefix("ok ") else {
            assert_eq!(run(&["body", &path, "0"]).status, 1);
            continue;
        };
        let count: usize = count
            .lines()
            .next()
            .expect("a line")
            .parse()
            .expect("a number");
        for number in [0, count / 2, count - 1] {
            let line = listing.lines().nth(number + 1).expect("a definition");
            let parameters: usize = line
                .split(' ')
                .nth(3)
                .expect("a count")
                .parse()
                .expect("it");
            let json = &run(&["body", "--json", &path, &number.to_string()]).json()[0];
            let part = |key: &str| json[key].as_u64().expect("a number") as usize;
            let (offset, length) = (part("offset"), part("length"));
            let bytes: Vec<String> = file[offset..offset + length]
                .iter()
                .map(|byte| format!("{byte:02x}"))
                .collect();
            assert_eq!(json["hexadecimal"], bytes.join(" "), "{stem} {number}");
            // An original's own parameters are no more than those it is brought with.
            let (Some(written), Some(original)) =
                (json["written"].as_str(), json["original"].as_str())
            else {
                panic!("{json}");
            };
            if written == original {
                let module = written.split(':').next().expect("a module");
                let expression = json["expression"].as_str().expect("text");
                let levels = vec!["0"; parameters];
                let words = [&["level", &path, module, expression], &levels[..]].concat();
                let level = run(&words);
                // The second byte of the card.
                let zero = line.split(' ').nth(4).expect("a card").chars().nth(3);
                assert_eq!(level.text().chars().next(), zero, "{stem} {number}");
            }
        }
    }
}

/// Every command that a help text shows for a sample runs.
#[test]
fn examples_of_help() {
    let program = Path::new(env!("CARGO_BIN_EXE_rafterclary"));
    let folder = program.parent().expect("a folder");
    let path = env::var_os("PATH").unwrap_or_default();
    let folders = std::iter::once(folder.to_path_buf()).chain(env::split_paths(&path));
    let path = env::join_paths(folders).expect("a path");
    let mut count = 0;
    for command in ["card", "level", "alike", "body", "expand"] {
        let help = run(&[command, "--help"]);
        let lines = help.text().lines().map(str::trim);
        for line in
            lines.filter(|line| line.starts_with("rafterclary ") && line.contains("samples/"))
        {
            let mut shell = Command::new("sh");
            shell
                .args(["-c", line])
                .env("PATH", &path)
                .current_dir(root());
            let ended = shell.output().expect("it runs");
            assert!(ended.status.success(), "{line}: {ended:?}");
            count += 1;
        }
    }
    assert_eq!(count, 16);
}

#[test]
fn misuse() {
    for (words, said) in [
        (
            &["level", "samples/example.bin", "M", "n2"][..],
            "no module is called M; it has n1",
        ),
        (
            &["level", "samples/example.bin", "1", "n2 +"],
            "expected an expression",
        ),
        (
            &["level", "samples/example.bin", "1", "x"],
            "`x` is not a name of the file",
        ),
        (
            &["level", "samples/example.bin", "1", "n2", "p=high"],
            "p=high is not a level",
        ),
        (
            &["level", "samples/example.bin", "1", "n2", "256"],
            "256 is not a level",
        ),
        (
            &["level", "samples/example.bin", "1", "n2", "n3=1"],
            "the name of that number",
        ),
        (
            &["level", "samples/example.bin", "1", "--hex", "0"],
            "not bytes in hexadecimal",
        ),
        (
            &["level", "samples/example.bin", "1", "--hex", "zz"],
            "not bytes in hexadecimal",
        ),
        (
            &["level", "samples/no-such-file", "1", "n2"],
            "samples/no-such-file",
        ),
        (
            &["alike", "samples/example.bin", "F", "0"],
            "no definition F",
        ),
        (&["alike", "samples/example.bin", "0"], "<SECOND>"),
        (&["body", "samples/example.bin", "F"], "no definition F"),
    ] {
        let told = run(words);
        assert_eq!((told.status, told.text()), (2, ""), "{words:?}");
        assert!(told.err.contains(said), "{words:?}: {}", told.err);
    }
}
