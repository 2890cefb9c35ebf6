//! What texts mean, token by token, and how files are printed.

use notation::{decode, encode, parse, parse_with_places, print, Expr, Field, Space, Token};

fn body(expression: &str) -> Vec<Token> {
    let file = parse(&format!("F(p, q) == {expression}")).unwrap_or_else(|e| panic!("{e}"));
    match &file.fields[0] {
        Field::Definition { body, .. } => body.tokens().to_vec(),
        other => panic!("{other:?}"),
    }
}

/// The two texts are the same expression.
fn same(one: &str, other: &str) {
    assert_eq!(body(one), body(other), "{one} and {other}");
}

/// The text is printed as it stands.
fn stable(expression: &str) {
    let text = format!("F(p, q) == {expression}\n");
    assert_eq!(print(&parse(&text).unwrap_or_else(|e| panic!("{e}"))), text);
}

fn name(name: u16) -> Token {
    Token::Name { name, arguments: 0 }
}

#[test]
fn tokens() {
    use Token::{Bound, BuiltIn, Literal, Parameter};
    assert_eq!(body("p"), [Parameter(0)]);
    assert_eq!(body("q'"), [BuiltIn(112), Parameter(1)]);
    assert_eq!(body("x"), [name(2)]);
    assert_eq!(body("65535"), [Literal(65535)]);
    assert_eq!(body("?p7"), [Parameter(7)]);
    assert_eq!(body("?b300"), [Bound(300)]);
    assert_eq!(body("op3"), [BuiltIn(3)]);
    assert_eq!(body("op16(p)"), [BuiltIn(16), Parameter(0)]);
    let g = Token::Name {
        name: 2,
        arguments: 2,
    };
    assert_eq!(body("G(q, 1)"), [g, Parameter(1), Literal(1)]);
    let i = Token::Instance {
        instance: 2,
        name: 3,
        arguments: 2,
    };
    assert_eq!(body("I!G(q, 1)"), [i, Parameter(1), Literal(1)]);
    assert_eq!(body("[p]_q"), [BuiltIn(115), Parameter(0), Parameter(1)]);
    assert_eq!(body("<<p>>_q"), [BuiltIn(116), Parameter(0), Parameter(1)]);
    assert_eq!(body("[][p]_q"), [BuiltIn(120), Parameter(0), Parameter(1)]);
    assert_eq!(
        body("<><<p>>_q"),
        [BuiltIn(121), Parameter(0), Parameter(1)]
    );
    assert_eq!(body("WF_q(p)"), [BuiltIn(124), Parameter(1), Parameter(0)]);
    assert_eq!(
        body("SF_(q)(p)"),
        [BuiltIn(125), Parameter(1), Parameter(0)]
    );
    let inner = [
        BuiltIn(128),
        BuiltIn(133),
        Bound(0),
        BuiltIn(48),
        Bound(1),
        Bound(0),
    ];
    assert_eq!(body("\\E a : \\A b \\in a : a = b"), inner);
}

#[test]
fn codes_by_sign() {
    let infix = [
        (48, "="),
        (49, "/\\"),
        (50, "\\/"),
        (51, "#"),
        (52, "+"),
        (53, ">"),
        (54, "*"),
        (117, "\\cdot"),
        (122, "~>"),
        (123, "-+->"),
    ];
    for (code, sign) in infix {
        same(&format!("p {sign} q"), &format!("op{code}(p, q)"));
        stable(&format!("p {sign} q"));
    }
    let prefix = [
        (113, "ENABLED"),
        (114, "UNCHANGED"),
        (118, "[]"),
        (119, "<>"),
    ];
    for (code, sign) in prefix {
        same(&format!("{sign} p"), &format!("op{code}(p)"));
    }
    same("p'", "op112(p)");
    same("[p]_q", "op115(p, q)");
    same("<<p>>_q", "op116(p, q)");
    same("[][p]_q", "op120(p, q)");
    same("<><<p>>_q", "op121(p, q)");
    same("WF_p(q)", "op124(p, q)");
    same("SF_p(q)", "op125(p, q)");
    for (code, sign) in [
        (128, "\\E"),
        (129, "\\A"),
        (130, "CHOOSE"),
        (140, "\\EE"),
        (141, "\\AA"),
    ] {
        same(&format!("{sign} a : a"), &format!("bind{code} a : a"));
        stable(&format!("{sign} a : a"));
    }
    for (code, sign) in [(132, "\\E"), (133, "\\A"), (134, "CHOOSE")] {
        same(
            &format!("{sign} a \\in p : a"),
            &format!("bind{code} a \\in p : a"),
        );
    }
    for code in [131, 135, 136, 137, 138, 139] {
        let set = if code == 131 { "" } else { "\\in q " };
        stable(&format!("bind{code} a {set}: a"));
    }
}

#[test]
fn order_of_operators() {
    same("p + q * 2", "p + (q * 2)");
    same("p * q + 2", "(p * q) + 2");
    same("p + q + 2", "(p + q) + 2");
    same("p = q /\\ q > 2", "(p = q) /\\ (q > 2)");
    same("p \\cdot q + 1", "p \\cdot (q + 1)");
    same("p \\cdot q = 1", "(p \\cdot q) = 1");
    same("p /\\ q ~> 1 \\/ 2", "(p /\\ q) ~> (1 \\/ 2)");
    same("p + q'", "p + (q')");
    same("p''", "(p')'");
    same("[]p /\\ q", "([]p) /\\ q");
    same("[]<>p ~> q", "([](<>p)) ~> q");
    same("ENABLED p'", "ENABLED (p')");
    same("p /\\ \\E a : a /\\ q", "p /\\ (\\E a : (a /\\ q))");
    same("[]\\E a : a ~> q", "[](\\E a : (a ~> q))");
    same("\\E a \\in p /\\ q : a", "\\E a \\in (p /\\ q) : a");
    same("p /\\ [][q]_p", "p /\\ ([][q]_p)");
    same("I(p)!G(q, 1)", "I!G(p, q, 1)");
    same("I(p)!G", "I!G(p)");
}

#[test]
fn printed_as_written() {
    for text in [
        "p /\\ q /\\ 1",
        "p /\\ (q /\\ 1)",
        "p /\\ (q \\/ 1)",
        "(p = q) = 1",
        "p + q * 2",
        "(p + q) * 2",
        "[]p /\\ q",
        "[](p /\\ q)",
        "[]([p]_q)",
        "[][p]_q",
        "[][][p]_q",
        "<>(<<p>>_q)",
        "<>[p]_q",
        "[]<>p",
        "([p]_q)'",
        "[p]_(q')",
        "(ENABLED p)'",
        "(p + q)'",
        "WF_(p + q)(\\E a : a)",
        "(\\E a : a) /\\ q",
        "\\E a \\in (\\A b : b) : a",
        "G(\\E a : a, op3, I!H(1, 2))",
        "(WF_p(q))'",
        "(UNCHANGED p) = q",
    ] {
        stable(text);
    }
}

#[test]
fn fields_of_a_text() {
    let text = "\
---- MODULE N ----
CONSTANT c, K(_, _)
VARIABLE u
D(d) == []K(u', d)
====

---- MODULE M ----
EXTENDS N, N
I(i) == INSTANCE N WITH
    c <- i,
    K(a, b) <- i + a * b
INSTANCE N
ASSUME c = 1
THEOREM I!D(1, 2)
====

";
    let parsed = parse_with_places(text).expect("it parses");
    assert_eq!(print(&parsed.file), text);
    let names = &parsed.file.names;
    assert_eq!(names.number(Space::Modules, "M"), Some(2));
    assert_eq!(names.number(Space::Operators, "I"), Some(5));
    assert_eq!(names.local(4, 0), Some("d"));
    let lines: Vec<(usize, usize)> = parsed.places.iter().map(|p| (p.line, p.column)).collect();
    let expected = [
        (1, 1),
        (2, 1),
        (2, 13),
        (3, 1),
        (4, 1),
        (5, 1),
        (7, 1),
        (8, 1),
        (9, 1),
        (12, 1),
        (13, 1),
        (14, 1),
        (15, 1),
    ];
    assert_eq!(lines, expected);
    match &parsed.file.fields[8] {
        Field::Instance { substitutions, .. } => {
            let expected = [
                Token::BuiltIn(52),
                Token::Parameter(0),
                Token::BuiltIn(54),
                Token::Parameter(1),
                Token::Parameter(2),
            ];
            assert_eq!(substitutions[1].expression.tokens(), expected);
        }
        other => panic!("{other:?}"),
    }
}

/// Invented names keep clear of the names of the file.
#[test]
fn invented_names() {
    let text = "p0(x0_) == \\E a : x0 /\\ a /\\ x0_ /\\ \\A p1 : p1 = a\n";
    let mut file = parse(text).expect("it parses");
    file.names.forget_locals();
    let printed = print(&file);
    assert_eq!(
        printed,
        "p0(p0_) == \\E x0_ : x0 /\\ x0_ /\\ p0_ /\\ (\\A x1 : x1 = x0_)\n"
    );
    assert_eq!(parse(&printed).as_ref(), Ok(&file));
}

/// The example of `NOTATION.md`.
#[test]
fn worked_example() {
    let text = "\
---- MODULE Depth ----
CONSTANT unit, K(_)
VARIABLE reading
Shown(limit) == \\E d \\in unit : reading' > K(d) + limit
====
---- MODULE Panel ----
VARIABLE x
Head(p) == INSTANCE Depth WITH unit <- 10, K(a) <- a + p, reading <- x
THEOREM Head!Shown(x, 3)
====
";
    let bytes: Vec<u8> = [
        &[1, 0, 2, 0, 1][..],
        &[3, 0, 3, 0, 1, 0],
        &[3, 0, 3, 0, 2, 1],
        &[4, 0, 2, 0, 3],
        &[5, 0, 28, 0, 4, 1],
        &[4, 132, 2, 0, 1, 0, 4, 53, 4, 112, 2, 0, 3, 0],
        &[4, 52, 2, 0, 2, 1, 1, 0, 0, 0, 0],
        &[7, 0, 0],
        &[1, 0, 2, 0, 2],
        &[4, 0, 2, 0, 5],
        &[6, 0, 31, 0, 6, 1, 0, 1, 3],
        &[0, 1, 0, 3, 5, 0, 10],
        &[0, 2, 0, 6, 4, 52, 0, 1, 0, 0],
        &[0, 3, 0, 4, 2, 0, 5, 0],
        &[9, 0, 13, 3, 0, 6, 0, 4, 2, 2, 0, 5, 0, 5, 0, 3],
        &[7, 0, 0],
    ]
    .concat();
    let file = parse(text).expect("it parses");
    assert_eq!(encode(&file).expect("it has bytes"), bytes);
    let bare = decode(&bytes).expect("it decodes");
    assert_eq!(
        encode(&parse(&print(&bare)).expect("it parses")).as_ref(),
        Ok(&bytes)
    );
    let shown = "\
NAMES

---- MODULE n1 ----
CONSTANT n1, n2(_)
VARIABLE n3
n4(p0) == \\E x0 \\in n1 : n3' > n2(x0) + p0
====

---- MODULE n2 ----
VARIABLE n5
n6(p0) == INSTANCE n1 WITH
    n1 <- 10,
    n2(p1) <- p1 + p0,
    n3 <- n5
THEOREM n6!n4(n5, 3)
====

";
    assert_eq!(print(&bare), shown);
}

#[test]
fn expressions_by_themselves() {
    let file = parse("VARIABLE x\nF(p) == \\E a : a + p > x").expect("it parses");
    let Field::Definition { body, .. } = &file.fields[1] else {
        panic!("not a definition");
    };
    let text = notation::print_expression(body, &file.names, 1);
    assert_eq!(text, "\\E x0 : x0 + p0 > x");
    assert_eq!(Expr::decode(&body.encode()).as_ref(), Ok(body));
}

#[test]
fn a_query_of_a_file() {
    let text = "---- MODULE M ----\nVARIABLE x\nF(p) == \\E a : a + p > x\n====";
    let file = parse(text).expect("it parses");
    let asked = |text, parameters: &[&'static str]| {
        notation::parse_expression(text, &file.names, parameters)
    };
    let read = asked("F(q)' # x + n9", &["p", "q"]).expect("it parses");
    let bytes = [
        4, 51, 4, 112, 2, 0, 2, 1, 0, 1, 4, 52, 2, 0, 1, 0, 2, 0, 9, 0,
    ];
    assert_eq!(read.encode(), bytes);
    let names = ["p".to_string(), "q".to_string()];
    let written = notation::print_expression_over(&read, &file.names, &names);
    assert_eq!(written, "F(q)' # x + n9");
    let taken = ["x".to_string(), "x".to_string()];
    let written = notation::print_expression_over(&read, &file.names, &taken);
    assert_eq!(written, "F(x__)' # x + n9");
    for (text, parameters, column, message) in [
        ("x + y", &[][..], 5, "not a name of the file"),
        ("x y", &[], 3, "its end, found"),
        ("", &[], 1, "expected an expression"),
        ("x", &["x"], 1, "the name of an operator"),
        ("x", &["p", "p"], 1, "already has a meaning"),
        ("x", &["n3"], 1, "the name of that number"),
        ("x", &["a b"], 1, "cannot be the name of a parameter"),
        ("x == 1", &[], 3, "its end, found"),
    ] {
        let fault = asked(text, parameters).expect_err(text);
        assert_eq!((fault.line, fault.column), (1, column), "{text}: {fault}");
        assert!(fault.message.contains(message), "{text}: {fault}");
    }
}

#[test]
fn bodies_by_themselves() {
    let text = "---- MODULE M ----\nVARIABLE x\nF(p) == \\E a : a + p > x\n====";
    let file = parse(text).expect("it parses");
    let body = notation::print_body(&file, 2);
    assert_eq!(body.as_deref(), Some("\\E a : a + p > x"));
    assert_eq!(notation::print_body(&file, 1), None);
    assert_eq!(notation::print_body(&file, 9), None);
    let bare = notation::decode(&notation::encode(&file).expect("bytes")).expect("fields");
    let body = notation::print_body(&bare, 2);
    assert_eq!(body.as_deref(), Some("\\E x0 : x0 + p0 > n1"));
}
