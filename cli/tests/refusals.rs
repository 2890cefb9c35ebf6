//! Refusals in words, and what they point at.

mod common;

use common::{run, run_with};
use serde_json::Value;

#[test]
fn the_accident() {
    let check = run(&["check", "samples/depth-accident.tla"]);
    assert_eq!(check.status, 1);
    assert_eq!(
        check.text(),
        "samples/depth-accident.tla: refused 14 at field 12 (INSTANCE, byte 120, module Panel): \
         the variable scale stands for the constant unit of module Depth\n"
    );
    for piece in [
        "error[refusal 14]: the variable scale stands for the constant unit of module Depth",
        "samples/depth-accident.tla:18:29",
        "^^^^^^^^^^^^^ scale has level 1 (state), and unit takes level 0",
        "---- unit is declared a constant of module Depth",
        "----- scale is a variable",
        "so its constants may be replaced by constants only",
    ] {
        assert!(check.err.contains(piece), "{piece}\n{}", check.err);
    }
    assert!(!check.err.contains('\u{1b}'), "no colours in a pipe");
    let coloured = run(&["check", "--color", "always", "samples/depth-accident.tla"]);
    assert!(coloured.err.contains('\u{1b}'));
}

/// The tagged file has no spellings; with its source it has.
#[test]
fn the_source_of_a_tagged_file() {
    let plain = run(&["check", "samples/depth-accident.bin"]);
    assert!(plain
        .text()
        .contains("the variable n9 stands for the constant n1 of module n1"));
    let source = ["--source", "samples/depth-accident.tla"];
    let named = run(&["check", "samples/depth-accident.bin", source[0], source[1]]);
    assert_eq!(named.status, 1);
    assert!(named
        .text()
        .contains("the variable scale stands for the constant unit"));
    assert!(named.text().starts_with("samples/depth-accident.bin: "));
    assert!(named.err.contains("samples/depth-accident.tla:18:29"));
    let json = &run(&[
        "check",
        "--json",
        "samples/depth-accident.bin",
        source[0],
        source[1],
    ])
    .json()[0];
    assert_eq!(json["file"], "samples/depth-accident.bin");
    assert_eq!(json["field"]["line"], 18);
    let back = run(&[
        "convert",
        "samples/depth-accident.bin",
        source[0],
        source[1],
    ]);
    assert!(back.text().contains("VARIABLES draghead, scale"));
    let other = run(&["check", "samples/depth-lawful.bin", source[0], source[1]]);
    assert_eq!(other.status, 2);
    assert!(other.err.contains("converts to other bytes"));
}

/// Text that is taken for a tagged file is told so.
#[test]
fn text_without_its_ending() {
    let check = run_with(&["check"], b"---- MODULE M ----\n====\n");
    assert_eq!(check.status, 1);
    assert!(check.text().contains("byte 0: no field has the tag 45"));
    assert!(check.err.contains("`--as text`"), "{}", check.err);
    let check = run_with(&["check"], &[0]);
    assert!(!check.err.contains("`--as text`"), "{}", check.err);
}

#[test]
fn the_shape_of_json() {
    let report = &run(&["check", "--json", "samples/depth-accident.tla"]).json()[0];
    let keys = |value: &Value| -> Vec<String> {
        let mut keys: Vec<String> = value
            .as_object()
            .expect("an object")
            .keys()
            .cloned()
            .collect();
        keys.sort();
        keys
    };
    assert_eq!(
        keys(report),
        ["cause", "field", "file", "message", "names", "notes", "number", "place", "verdict"]
    );
    assert_eq!(keys(&report["field"]), ["kind", "line", "module", "offset"]);
    assert_eq!(report["verdict"], "refused");
    assert_eq!(
        (&report["number"], &report["place"]),
        (&14.into(), &12.into())
    );
    assert_eq!(report["field"]["offset"], 120);
    assert_eq!(report["field"]["line"], 18);
    assert_eq!(report["names"], serde_json::json!(["unit", "scale"]));
    let report = &run(&["check", "--json", "samples/depth-lawful.bin"]).json()[0];
    assert_eq!(keys(report), ["definitions", "file", "verdict"]);
    assert_eq!(report["definitions"], 9);
    let report = &run(&["list", "--json", "samples/example.bin"]).json()[0];
    assert_eq!(
        keys(&report["cards"][0]),
        [
            "card",
            "clashes",
            "field",
            "instance",
            "level",
            "masks",
            "module",
            "name",
            "number",
            "parameters",
            "weighs",
            "written"
        ]
    );
    let missing = run(&["check", "--json", "samples/no-such-file"]);
    assert_eq!(missing.status, 2);
    assert_eq!(keys(&missing.json()[0]), ["error", "file", "verdict"]);
    assert_eq!(missing.json()[0]["verdict"], "unreadable");
}

/// A text, the number and place of its refusal, and pieces of what is said.
const TEXTS: [(&str, u32, u32, &[&str]); 55] = [
    (
        "---- MODULE M ----\nVARIABLE x\nD(a, b, c, d) == []a /\\ d\nTHEOREM D(x, x, x, x')\n",
        12,
        3,
        &["D has level 3 with its fourth argument at level 0, and x' has level 2"],
    ),
    (
        "---- MODULE M ----\nCONSTANTS c, K(_, _, _, _, _)\nVARIABLE u\n====\n---- MODULE N ----\nVARIABLE x\n\
         I(p, q, r) == INSTANCE M WITH c <- x, K(a, b, d, e, f) <- 0, u <- x\n",
        14,
        7,
        &["the variable x stands for the constant c of module M"],
    ),
    ("---- MODULE M ----\nVARIABLE x\n", 4, 2, &["ends inside module M"]),
    (
        "---- MODULE M ----\n---- MODULE N ----\n",
        4,
        1,
        &["a module begins inside module M"],
    ),
    (
        "---- MODULE M ----\nVARIABLE x\nEXTENDS M\n",
        4,
        2,
        &["EXTENDS stands right after the module field"],
    ),
    (
        "---- MODULE M ----\nD(a, b, c, d, e, f, g, h, i) == a\n",
        5,
        1,
        &["a definition has 9 parameters, and the limit is 8"],
    ),
    (
        "---- MODULE M ----\nD(a, b, c, d, e, f) == a\n====\n---- MODULE N ----\nI(p, q, r) == INSTANCE M\n",
        5,
        4,
        &["D has 6 parameters and the instance 3, and the limit is 8 together"],
    ),
    (
        "---- MODULE M ----\nCONSTANT K(_, _, _, _)\n====\n---- MODULE N ----\nI(p, q, r, s, t) == INSTANCE M WITH K(a, b, c, d) <- 0\n",
        5,
        4,
        &[
            "the substitute of K has 5 parameters of the instance and 4 of K",
            "and the limit is 8 together",
        ],
    ),
    (
        "---- MODULE M ----\nTHEOREM K(1, 2, 3, 4, 5, 6, 7, 8, 9)\n",
        5,
        1,
        &["an operator is given 9 arguments, and the limit is 8"],
    ),
    (
        "---- MODULE M ----\n====\n---- MODULE M ----\n",
        6,
        2,
        &["there is a module M already"],
    ),
    (
        "---- MODULE M ----\nINSTANCE N\n====\n---- MODULE N ----\n====\n",
        7,
        1,
        &["module N has not ended", "stands later in the file"],
    ),
    (
        "---- MODULE M ----\nD == 0\n====\n---- MODULE N ----\nVARIABLE D\nINSTANCE M\n",
        8,
        5,
        &["D has a meaning here already", "a variable, declared here"],
    ),
    (
        "---- MODULE A ----\nVARIABLE x\n====\n---- MODULE B ----\nVARIABLE x\n====\n---- MODULE C ----\nEXTENDS A, B\n",
        8,
        7,
        &["x comes from two origins"],
    ),
    (
        "---- MODULE M ----\nD == y + 1\n",
        9,
        1,
        &["y is not known here", "^ unknown"],
    ),
    (
        "---- MODULE M ----\n====\n---- MODULE N ----\nI == INSTANCE M\nD == I\n",
        9,
        4,
        &["I is the name of an instance, not an operator"],
    ),
    (
        "---- MODULE M ----\n====\n---- MODULE N ----\nI == INSTANCE M\nD == I!F\n",
        9,
        4,
        &["I brings no definition F"],
    ),
    (
        "---- MODULE M ----\nVARIABLE x\n====\n---- MODULE N ----\nI == INSTANCE M\n",
        9,
        4,
        &["x has no substitution, and is not known here to stand for itself"],
    ),
    (
        "---- MODULE M ----\nF(a) == a\nD == F(1) + F\n",
        10,
        2,
        &["F takes 1 argument, and is given 0", "^ 0 given"],
    ),
    (
        "---- MODULE M ----\nCONSTANT K(_)\n====\n---- MODULE N ----\nVARIABLE K\nINSTANCE M\n",
        10,
        5,
        &["K stands for itself, but takes no arguments here and 1 argument in the module instanced"],
    ),
    (
        "---- MODULE M ----\nVARIABLE x\n====\n---- MODULE N ----\nINSTANCE M WITH x <- 1, x <- 2\n",
        11,
        4,
        &["x is substituted twice", "x <- 2"],
    ),
    (
        "---- MODULE M ----\nVARIABLE x\nD == \\E z : \\A y : z = (x')'\n",
        12,
        2,
        &["not level-correct", "' takes level 0 or 1", "level 2 (transition)"],
    ),
    (
        "---- MODULE M ----\nVARIABLE x\nTHEOREM \\EE z : <>z /\\ [](z')\n",
        12,
        2,
        &["not level-correct", "[] takes level 0, 1 or 3"],
    ),
    (
        "---- MODULE M ----\nVARIABLE x\n====\n---- MODULE N ----\nVARIABLE y\nINSTANCE M WITH x <- y''\n",
        12,
        5,
        &["the substitute of x has level 4", "' takes level 0 or 1"],
    ),
    (
        "---- MODULE M ----\nVARIABLE x\nASSUME x > 0\n",
        13,
        2,
        &["what is assumed has level 1 (state), not level 0"],
    ),
    (
        "---- MODULE M ----\nCONSTANT K(_)\n====\n---- MODULE N ----\nVARIABLE y\nINSTANCE M WITH K(a) <- a + y\n",
        14,
        5,
        &["a + y, level 1 (state), stands for the operator K of module M", "an operator takes a substitute of level 0"],
    ),
    (
        "---- MODULE M ----\nCONSTANT c, d\nVARIABLE x\n====\n---- MODULE N ----\nCONSTANT c\nVARIABLES x, d\nINSTANCE M\n",
        14,
        9,
        &["the variable d stands for the constant d of module M"],
    ),
    (
        "---- MODULE M ----\nCONSTANT P\nVARIABLE x\nSpec == x = 0 /\\ x' = 1 /\\ []P\n",
        12,
        3,
        &[
            "action and temporal do not mix: x' = 1 has level 2, []P has level 3",
            "x' = 1 has level 2 (transition)",
            "[]P has level 3 (temporal)",
            "[][x' = 1]_v is temporal",
        ],
    ),
    (
        "---- MODULE M ----\nVARIABLE x\nNext == x' = 1\nLive == <>x\nSpec == Live \\/ (x > 0 /\\ Next)\n",
        12,
        4,
        &["action and temporal do not mix: Next has level 2, Live has level 3"],
    ),
    (
        "---- MODULE M ----\nVARIABLE x\nSpec == x = 0 /\\ (x' = 1 \\/ x' = 2) /\\ []x\n",
        12,
        2,
        &["mix: x' = 1 \\/ x' = 2 has level 2", "[][x' = 1 \\/ x' = 2]_v is temporal"],
    ),
    (
        "---- MODULE M ----\nVARIABLES x, y\nSpec == x' = 1 /\\ y' = 2 /\\ []x\n",
        12,
        3,
        &["mix: x' = 1 /\\ y' = 2 has level 2", "[][x' = 1 /\\ y' = 2]_v is temporal"],
    ),
    (
        "---- MODULE M ----\nVARIABLE x\nSpec == x = 0 \\/ x' = 1 \\/ []x\n",
        12,
        2,
        &["mix: x = 0 \\/ x' = 1 has level 2", "[][x = 0 \\/ x' = 1]_v is temporal"],
    ),
    (
        "---- MODULE M ----\nVARIABLE x\nSpec == x = 0 /\\ [x' = 1]_x /\\ WF_x(x' = 1)\n",
        12,
        2,
        &["[][x' = 1]_x is temporal: it says of every step what [x' = 1]_x says of one"],
    ),
    (
        "---- MODULE M ----\nVARIABLE x\nSpec == []x \\/ (x = 0 /\\ <<x' = 1>>_x)\n",
        12,
        2,
        &["<><<x' = 1>>_x is temporal: it says of some step, sooner or later, what <<x' = 1>>_x says of one"],
    ),
    (
        "---- MODULE M ----\nVARIABLES x, y\nSpec == [x' = 1]_x /\\ y' = 2 /\\ []x\n",
        12,
        3,
        &["[][[x' = 1]_x /\\ y' = 2]_v is temporal"],
    ),
    (
        "---- MODULE N ----\nCONSTANT K(_, _)\nVARIABLE u\nD == []K(u', []u)\n",
        12,
        3,
        &["action and temporal do not mix in K: u' has level 2, []u has level 3"],
    ),
    (
        "---- MODULE M ----\nVARIABLE x\nBoth(p, q, r) == q + r\nD(a) == Both(x'', <>x, x') + a\n",
        12,
        3,
        &[
            "action and temporal do not mix in Both: x' has level 2, <>x has level 3",
            "parameters are taken at level 0",
        ],
    ),
    (
        "---- MODULE M ----\nVARIABLE x\nOp(a) == x' = 1 /\\ a\nSpec == Op([]x)\n",
        12,
        3,
        &[
            "do not mix in Op: Op has level 2 with its argument at level 0, and []x has level 3",
            "-- Op has level 2 (transition) with its argument at level 0",
            "^^^ []x has level 3 (temporal)",
            "the body of Op puts its argument beside an action",
            "for an action A of Op, [][A]_v is temporal",
        ],
    ),
    (
        "---- MODULE M ----\nVARIABLE x\nOp(a) == []x /\\ a\nSpec == Op(x = 0 /\\ x' = 1)\n",
        12,
        3,
        &[
            "do not mix in Op: Op has level 3 with its argument at level 0, and x' = 1 has level 2",
            "-- Op has level 3 (temporal) with its argument at level 0",
            "^^^^^^ x' = 1 has level 2 (transition)",
            "the body of Op puts its argument beside a temporal formula",
            "[][x' = 1]_v is temporal",
        ],
    ),
    (
        "---- MODULE M ----\nVARIABLE x\nOp(a, b) == a /\\ b\nSpec == Op(x', []x)\n",
        12,
        3,
        &[
            "action and temporal do not mix in Op: x' has level 2, []x has level 3",
        ],
    ),
    (
        "---- MODULE M ----\nVARIABLE x\nOp(a, b) == ENABLED a /\\ x' = b\nSpec == Op(x', []x)\n",
        12,
        3,
        &[
            "Op has level 2 with its second argument at level 0, and []x has level 3",
            "puts its second argument beside an action",
        ],
    ),
    (
        "---- MODULE M ----\nVARIABLE x\nOp(a, b, c) == []x /\\ a /\\ c\nSpec == Op(x', x, x' = 1)\n",
        12,
        3,
        &[
            "Op has level 3 with its first and third arguments at level 0, and x' has level 2",
        ],
    ),
    (
        "---- MODULE M ----\nVARIABLE x\nOp(a) == x' = 1 /\\ a\nOp2(b) == x > 0 /\\ Op(b)\nTHEOREM \\E i \\in x : Op2([](x = i))\n",
        12,
        4,
        &[
            "Op2 has level 2 with its argument at level 0, and [](x = i) has level 3",
        ],
    ),
    (
        "---- MODULE L ----\nVARIABLE u\nF(a) == u' = 1 /\\ a\n====\n---- MODULE M ----\nVARIABLE x\nI(p) == INSTANCE L WITH u <- x + p\nLive == []x\nSpec == I!F(x, Live)\n",
        12,
        8,
        &[
            "do not mix in I!F: I!F has level 2 with its second argument at level 0, and Live has level 3",
            "- I!F has level 2 (transition) with its second argument at level 0",
            "^^^^ Live has level 3 (temporal)",
        ],
    ),
    (
        "---- MODULE L ----\nCONSTANT c\nF(a) == c /\\ a\n====\n---- MODULE M ----\nVARIABLE x\nINSTANCE L WITH c <- <>x\nSpec == F(x')\n",
        12,
        7,
        &[
            "do not mix in F: F has level 3 with its argument at level 0, and x' has level 2",
            "INSTANCE L WITH c <- <>x",
        ],
    ),
    (
        "---- MODULE M ----\nVARIABLE x\nTHEOREM \\E i \\in x' : <>x\n",
        12,
        2,
        &["action and temporal do not mix: x' has level 2, <>x has level 3"],
    ),
    (
        "---- MODULE M ----\nVARIABLE x\nTHEOREM \\E i \\in x : x' = i /\\ []x\n",
        12,
        2,
        &["mix: x' = i has level 2, []x has level 3", "[][x' = i]_v is temporal"],
    ),
    (
        "---- MODULE M ----\nVARIABLE x\nD(first) == (\\E i : i = x) /\\ (\\E j \\in (CHOOSE k : k = x) : first = j'')\n",
        12,
        2,
        &[
            "j'' is not level-correct",
            "^^^ its argument has level 2 (transition)",
        ],
    ),
    (
        "---- MODULE M ----\nVARIABLE x\nTHEOREM (\\E i : i = x) /\\ (\\E j : x' = j) /\\ [](\\A k : k = x)\n",
        12,
        2,
        &[
            "mix: \\E j : x' = j has level 2, [](\\A k : k = x) has level 3",
            "^^^^^^^^^^^^^     ---------------- [](\\A k : k = x) has level 3",
            "[][\\E j : x' = j]_v is temporal",
        ],
    ),
    (
        "---- MODULE M ----\nCONSTANTS a, b, K(_)\n====\n---- MODULE N ----\nVARIABLE y\nI(p) == INSTANCE M WITH a <- (\\E i : i = y), K(q) <- (\\E j : q + j = p), b <- (\\A k : k = p + y') /\\ (\\E l \\in p : [](l = y))\n",
        12,
        7,
        &[
            "mix: \\A k : k = p + y' has level 2, \\E l \\in p : [](l = y) has level 3",
        ],
    ),
    (
        "---- MODULE M ----\nCONSTANT c, K(_)\nVARIABLE x\n====\n---- MODULE N ----\nVARIABLE y\nI(inst) == INSTANCE M WITH c <- (\\A i : i = inst), K(own) <- own' + inst, x <- 1\n",
        14,
        7,
        &[
            "own' + inst, level 2 (transition), stands for the operator K",
            "own' + inst has level 2 (transition), and K takes level 0",
        ],
    ),
    (
        "---- MODULE M ----\nCONSTANT c\n====\n---- MODULE N ----\nVARIABLE y\nINSTANCE M WITH c <- y' /\\ []y\n",
        12,
        5,
        &[
            "the substitute of c has level 4",
            "action and temporal do not mix: y' has level 2, []y has level 3",
        ],
    ),
    (
        "---- MODULE M ----\nCONSTANTS a, b, c\n====\n---- MODULE N ----\nVARIABLE y\nI == INSTANCE M WITH a <- []y, b <- y, c <- y' = 1\n",
        21,
        7,
        &[
            "do not mix in an instance of module M: y' = 1 for c has level 2, []y for a has level 3",
            "y' = 1 has level 2 (transition)",
            "[]y has level 3 (temporal)",
            "module M is constant",
            "split the module",
        ],
    ),
    (
        "---- MODULE M ----\nCONSTANTS a, b\nD == 1\n====\n---- MODULE N ----\nVARIABLE y\nb == <>y\nI(p) == INSTANCE M WITH a <- y' + p\n",
        21,
        8,
        &[
            "y' + p for a has level 2, b has level 3",
            "y' + p has level 2 (transition)",
            "b stands for itself, and has level 3 (temporal)",
            "if b stands for itself by accident, write a substitution for it",
        ],
    ),
    (
        "---- MODULE M ----\nCONSTANTS a, b\n====\n---- MODULE N ----\nVARIABLE y\na == y'\nb == <>y\nINSTANCE M\n",
        21,
        8,
        &[
            "an instance of module M: a has level 2, b has level 3",
            "a stands for itself, and has level 2 (transition)",
        ],
    ),
    (
        "---- MODULE L ----\n====\n---- MODULE M ----\nI == INSTANCE L\n====\n---- MODULE N ----\nEXTENDS M\n====\n---- MODULE O ----\nINSTANCE N\n",
        16,
        9,
        &["module N has the named instance I"],
    ),
];

#[test]
fn in_words() {
    for (text, number, place, pieces) in TEXTS {
        let words = ["check", "--as", "text", "-"];
        let check = run_with(&words, text.as_bytes());
        assert_eq!(check.status, 1, "{text}");
        let said = format!("{}{}", check.text(), check.err);
        for piece in pieces {
            assert!(said.contains(piece), "{piece}\n{said}");
        }
        let json = &run_with(&[&words[..], &["--json"]].concat(), text.as_bytes()).json()[0];
        assert_eq!(json["number"], number, "{text}");
        assert_eq!(json["place"], place, "{text}");
        assert_ne!(json["message"], json["cause"], "{text}");
    }
}

/// A part that is a name of the file is among the names, and so is an operator that mixes.
#[test]
fn names_of_mixed_terms() {
    for (formula, names) in [
        ("Start /\\ Live", &["Start", "Live"][..]),
        ("Live /\\ x = 0 /\\ Start", &["Start", "Live"]),
        ("Start /\\ []x", &["Start"]),
        ("x' = 1 /\\ []x", &[]),
        ("I!Step /\\ Live", &["I!Step", "Live"]),
        ("Both(Start, Live)", &["Both", "Start", "Live"]),
        ("With(Live)", &["With", "Live"]),
        ("With([]x)", &["With"]),
    ] {
        let text = format!(
            "---- MODULE L ----\nVARIABLE x\nStep == x' = 2\n====\n---- MODULE M ----\nVARIABLE x\n\
             Start == x' = 1\nLive == <>x\nBoth(a, b) == a /\\ b\nWith(a) == x' = 1 /\\ a\n\
             I == INSTANCE L\nSpec == {formula}\n"
        );
        let words = ["check", "--json", "--as", "text", "-"];
        let json = &run_with(&words, text.as_bytes()).json()[0];
        assert_eq!(json["place"], 11, "{formula}");
        assert_eq!(json["names"], serde_json::json!(names), "{formula}");
    }
}

/// What is advised for an action is accepted in its place.
#[test]
fn advice() {
    let check = |formula: &str| {
        let text = format!("---- MODULE M ----\nVARIABLES x, y\nSpec == {formula}\n====\n");
        run_with(&["check", "--json", "--as", "text", "-"], text.as_bytes())
    };
    for (formula, action) in [
        ("x = 0 /\\ x' = 1 /\\ []x", "x' = 1"),
        ("x = 0 /\\ (x' = 1 \\/ x' = 2) /\\ []x", "x' = 1 \\/ x' = 2"),
        ("x' = 1 /\\ y' = 2 /\\ []x", "x' = 1 /\\ y' = 2"),
        ("x = 0 \\/ x' = 1 \\/ []x", "x = 0 \\/ x' = 1"),
        ("x = 0 /\\ [x' = 1]_x /\\ WF_x(x' = 1)", "[x' = 1]_x"),
        ("<<x' = 1>>_x /\\ []x", "<<x' = 1>>_x"),
    ] {
        let refused = &check(formula).json()[0];
        let notes = refused["notes"].as_array().expect("notes");
        let mut notes = notes.iter().filter_map(Value::as_str);
        let advised = notes.find_map(|note| Some(note.split_once(" is temporal")?.0));
        let advised = advised.expect("advice").replace("]_v", "]_x");
        let mended = formula.replacen(action, &advised, 1);
        assert_eq!(check(&mended).status, 0, "{mended}");
    }
}

/// Where a level is not taken by itself, nothing is said of mixing.
#[test]
fn not_for_mixing() {
    for (formula, reason) in [
        ("[](x') /\\ <>x", " takes "),
        ("x' ~> []x", " takes "),
        ("[[]x]_(x')", " takes "),
        ("WF_x([]x) /\\ x'", " takes "),
        (
            "Primed([]x)",
            "Primed does not take its argument at level 3 (temporal)",
        ),
        (
            "Enabled([]x)",
            "Enabled does not take its argument at level 3 (temporal)",
        ),
        (
            "Always(x')",
            "Always does not take its argument at level 2 (transition)",
        ),
        (
            "Fifth(x, []x, x', x, x', x)",
            "Fifth does not take its fifth argument at level 2 (transition)",
        ),
    ] {
        let text = format!(
            "---- MODULE M ----\nVARIABLE x\nPrimed(a) == a'\nEnabled(a) == x' = 1 /\\ ENABLED a\n\
             Always(a) == []x /\\ []a\n\
             Fifth(a, b, c, d, e, f) == [](a = b) /\\ WF_d(c) /\\ (e ~> f)\nTHEOREM {formula}\n"
        );
        let check = run_with(&["check", "--as", "text", "-"], text.as_bytes());
        let said = format!("{}{}", check.text(), check.err);
        assert!(said.contains("refused 12 at field 6"), "{said}");
        assert!(said.contains(reason), "{said}");
        assert!(!said.contains("mix"), "{said}");
    }
}

/// Faults of the layout, which text does not have.
#[test]
fn layout() {
    for (bytes, number, message) in [
        (&[][..], 2, "the file is empty"),
        (&[0][..], 3, "byte 0: no field has the tag 0"),
        (&[1, 0, 2, 0, 0][..], 3, "byte 3: a name is 0"),
        (
            &[1, 0, 2, 0, 1, 8, 0, 2, 4, 104][..],
            3,
            "byte 9: no built-in has the code 104",
        ),
        (
            &[7; 32_769][..],
            2,
            "the file has 32769 bytes, and the limit is 32768",
        ),
    ] {
        let json = &run_with(&["check", "--json"], bytes).json()[0];
        assert_eq!(json["number"], number, "{message}");
        assert_eq!(json["message"], message);
        let text = run_with(&["check"], bytes);
        assert_eq!(text.status, 1);
        assert!(text.text().contains(message));
    }
}
