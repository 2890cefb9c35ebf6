//! Expansions; what is said where one is refused; and demand 3 as it is seen from outside.

mod common;

use common::{run, run_with, sample, samples};
use serde_json::{json, Value};

const TRIAL: &str = "samples/trial-levels.tla";

/// The expansion of an expression of a sample, and its length.
fn expanded(words: &[&str]) -> (String, usize) {
    let told = run(&[&["expand"], words].concat());
    assert_eq!((told.status, told.err.as_str()), (0, ""), "{words:?}");
    let (expression, length) = told.text().split_once('\n').expect("two lines");
    let length = length.trim().strip_prefix("length ").expect("a length");
    (expression.into(), length.parse().expect("a number"))
}

#[test]
fn readable() {
    for (words, expression, length) in [
        (&[TRIAL, "Trial", "c + 3"][..], "c + 3", 9),
        (&[TRIAL, "Trial", "F((x')')"], "0", 3),
        (&[TRIAL, "Trial", "(x')'"], "x''", 8),
        (
            &[TRIAL, "Trial", "G(q, G(p, q'))", "--params", "p,q"],
            "[](q /\\ [](p /\\ q'))",
            16,
        ),
        (
            &[TRIAL, "Trial", "\\EE z : G(z, p)", "--params", "p"],
            "\\EE x0 : [](x0 /\\ p)",
            11,
        ),
        (
            &["samples/depth-lawful.tla", "Panel", "Head!Sink"],
            "draghead' = draghead + 1",
            17,
        ),
        (
            &["samples/depth-lawful.tla", "Depth", "Sink"],
            "reading' = reading + 1",
            17,
        ),
        (
            &["samples/example.bin", "n1", "n3(n3(q))", "--params", "q"],
            "q''",
            6,
        ),
    ] {
        assert_eq!(expanded(words), (expression.into(), length), "{words:?}");
    }
}

#[test]
fn bytes_and_json() {
    let file = sample("example.bin");
    let hex = ["expand", "-", "1", "--hex", "02 0003 01 02000200"];
    assert_eq!(run_with(&hex, &file).text(), "n2'\nlength 6\n");
    let json = &run_with(&[&hex[..], &["--json"]].concat(), &file).json()[0];
    assert_eq!(
        json,
        &json!({
            "file": "standard input", "module": "n1", "expression": "n3(n2)",
            "hexadecimal": "02 00 03 01 02 00 02 00", "parameters": [],
            "verdict": "answered", "length": 6, "expansion": "n2'",
            "expansion_hexadecimal": "04 70 02 00 02 00"
        })
    );
    let given = ["expand", "--json", "-", "1", "n3(b)", "--params", "a,b"];
    let json = &run_with(&given, &file).json()[0];
    assert_eq!(json["parameters"], json!([{"name": "a"}, {"name": "b"}]));
    assert_eq!(json["expansion"], "b'");
    assert_eq!(json["expansion_hexadecimal"], "04 70 00 01");
}

/// Nothing is captured: the argument's variable is not the body's.
#[test]
fn binders() {
    let text = b"---- MODULE M ----\nCONSTANT S\nUnder(p) == \\E z \\in S : p /\\ z\n====\n";
    let ask = |expression: &str| {
        let words = ["expand", "--json", "--as", "text", "-", "M", expression];
        run_with(&words, text).json()[0]["expansion_hexadecimal"].clone()
    };
    assert_eq!(
        ask("\\E y \\in S : Under(y)"),
        "04 84 02 00 01 00 04 84 02 00 01 00 04 31 01 00 01 01 00 00"
    );
    assert_eq!(
        ask("Under(\\E y \\in S : y)"),
        "04 84 02 00 01 00 04 31 04 84 02 00 01 00 01 00 00 01 00 00"
    );
}

/// A module in which `D15` is 2¹⁵ times `step` of its argument, and so on down.
fn tower(step: &str) -> Vec<u8> {
    let mut text = format!("---- MODULE M ----\nVARIABLE x\nD0(p) == {step}\n");
    for d in 1..=15 {
        let before = d - 1;
        text += &format!("D{d}(p) == D{before}(D{before}(p))\n");
    }
    text += "====\n";
    text.into_bytes()
}

#[test]
fn long_and_deep() {
    let ask = |step: &str, expression: &str| {
        let words = ["expand", "--as", "text", "-", "M", expression];
        run_with(&words, &tower(step))
    };
    for (step, expression, length) in [
        ("op16(p)", "D14(D13(D12(x)))", 2 * 28_672 + 4),
        ("p /\\ 1", "D13(D12(x))", 5 * 12_288 + 4),
        ("1 /\\ p", "D13(D12(x))", 5 * 12_288 + 4),
        ("\\EE z : p", "\\EE y : D14(D12(y))", 2 * 20_481 + 3),
    ] {
        let told = ask(step, expression);
        let last = told.text().lines().last();
        assert_eq!((told.status, told.err.as_str()), (0, ""), "{step}");
        assert_eq!(last, Some(format!("length {length}").as_str()), "{step}");
    }
    let told = ask("op16(p)", "D15(x)");
    assert_eq!(
        (told.status, told.text(), told.err.as_str()),
        (
            1,
            "standard input: refused 18: the expansion is over 65,535 bytes, and that is the limit\n",
            ""
        )
    );
    let words = ["expand", "--json", "--as", "text", "-", "M", "D15(x)"];
    let json = &run_with(&words, &tower("op16(p)")).json()[0];
    assert_eq!((&json["number"], &json["place"]), (&json!(18), &json!(0)));
}

#[test]
fn refused_in_words() {
    for (words, number, place, message) in [
        (&["99", "x"][..], 17, 0, "the file has no module n99"),
        (&["Trial", "--hex", ""], 3, 15, "byte 0: bytes are missing"),
        (
            &["Trial", "p", "--params", "p,q,r,s,t,u,v,w,z"],
            5,
            15,
            "9 parameters are given, and the limit is 8",
        ),
        (&["Trial", "F(n77)"], 9, 15, "n77 is not known here"),
        (&["Trial", "?p0"], 9, 15, "there is no parameter 0 here"),
        (
            &["Trial", "F(x) + F"],
            10,
            15,
            "F takes 1 argument, and is given 0",
        ),
    ] {
        let words = [&["expand", TRIAL], words].concat();
        let told = run(&words);
        assert_eq!(told.status, 1, "{words:?}");
        let at = match place {
            0 => format!("{TRIAL}: refused {number}: "),
            _ => format!("{TRIAL}: refused {number} at the query (place {place}, "),
        };
        assert!(told.text().starts_with(&at), "{words:?}: {}", told.text());
        assert!(told.text().contains(message), "{words:?}: {}", told.text());
        let json = &run(&[&words[..], &["--json"]].concat()).json()[0];
        assert_eq!(
            (&json["verdict"], &json["number"], &json["place"]),
            (&json!("refused"), &json!(number), &json!(place))
        );
        assert_eq!(json["field"], Value::Null);
    }
    let refused = run(&["expand", "samples/trial-n.tla", "N", "D"]);
    assert_eq!(refused.status, 1);
    assert!(refused.text().contains("refused 12 at field 3"));
    let many = vec!["p"; 300];
    let many: Vec<String> = many
        .iter()
        .enumerate()
        .map(|(number, p)| format!("{p}{number}"))
        .collect();
    let told = run(&["expand", TRIAL, "Trial", "x", "--params", &many.join(",")]);
    assert!(told.text().contains("300 parameters are given"));
}

/// The level of an expansion is the level that the card gives.
#[test]
fn one_level() {
    let mut compared = 0;
    for stem in samples() {
        let path = format!("samples/{stem}.bin");
        let listed = &run(&["list", "--json", &path]).json()[0];
        let Some(cards) = listed["cards"].as_array() else {
            continue;
        };
        for card in [0, cards.len() / 2, cards.len() - 1].map(|number| &cards[number]) {
            let number = |key: &str| card[key].as_u64().expect("a number");
            let count = number("parameters") as usize;
            let names = ["p0", "p1", "p2", "p3", "p4", "p5", "p6", "p7"][..count].join(",");
            let call = match number("instance") {
                0 => format!("n{}", number("name")),
                instance => format!("n{instance}!n{}", number("name")),
            };
            let call = match count {
                0 => call,
                _ => format!("{call}({names})"),
            };
            let module = card["module"].as_str().expect("a name");
            let mut words = vec![path.as_str(), module, &call];
            if count > 0 {
                words.extend(["--params", &names]);
            }
            let (expansion, _) = expanded(&words);
            for levels in ["0 0 0 0 0 0 0 0", "2 3 1 2 0 1 3 0", "1 0 4 1 1 2 0 2"] {
                let levels: Vec<&str> = levels.split(' ').take(count).collect();
                let level = |expression: &str| {
                    let words = ["level", &path, module, expression];
                    let told = run(&[&words[..], &levels].concat());
                    assert_eq!(told.status, 0, "{stem}: {expression}: {}", told.text());
                    told.text().to_string()
                };
                assert_eq!(level(&expansion), level(&call), "{stem}: {call}");
                compared += 1;
            }
        }
    }
    assert!(compared > 100, "{compared}");
}

#[test]
fn misuse() {
    for (words, said) in [
        (&["M", "n2"][..], "no module is called M; it has n1"),
        (&["1", "n2 +"], "expected an expression"),
        (&["1", "x"], "`x` is not a name of the file"),
        (&["1", "n2", "--params", "n3"], "the name of that number"),
        (&["1", "n2", "--params", "p,"], "cannot be the name"),
        (&["1", "n2", "--params", "p,p"], "`p`"),
        (&["1", "--hex", "0"], "not bytes in hexadecimal"),
        (&["1"], "<EXPRESSION>"),
    ] {
        let told = run(&[&["expand", "samples/example.bin"], words].concat());
        assert_eq!((told.status, told.text()), (2, ""), "{words:?}");
        assert!(told.err.contains(said), "{words:?}: {}", told.err);
    }
}
