//! Round trips: text, tree and bytes.

mod common;

use common::{expression, file, spell, Manner, Random};
use notation::{
    codes, decode, encode, parse, print, Expr, Field, File, Names, Space, Substitution, Token,
};

const TAME: Manner = Manner {
    names: 6,
    wild: false,
    tokens: 25,
};
const WILD: Manner = Manner {
    names: 9,
    wild: true,
    tokens: 60,
};

/// Checks both round trips of a file.
fn both_ways(file: &File) {
    let text = print(file);
    let read = parse(&text).unwrap_or_else(|fault| panic!("{fault}\n{text}"));
    assert_eq!(&read, file, "\n{text}");
    let bytes = encode(file).expect("a generated file has bytes");
    let mut back = decode(&bytes).expect("encoded bytes decode");
    assert_eq!(back.fields, file.fields);
    assert_eq!(encode(&back).expect("it came from bytes"), bytes);
    // Without spellings the text still gives the same bytes.
    let bare = parse(&print(&back)).expect("printed text parses");
    assert_eq!(bare, back);
    assert_eq!(encode(&bare).expect("it came from bytes"), bytes);
    back.names = file.names.clone();
    assert_eq!(&back, file);
}

#[test]
fn generated_files() {
    for seed in 0..4000 {
        let mut random = Random::new(seed);
        let manner = if seed % 2 == 0 { TAME } else { WILD };
        let mut file = file(&mut random, manner);
        both_ways(&file);
        spell(&mut random, &mut file);
        both_ways(&file);
    }
}

/// Numbers the names of a file in the order of their first appearance and spells them all.
fn in_order(file: &File) -> File {
    let named = print(file).replacen("NAMES", "", 1);
    parse(&named).expect("printed text without its header parses")
}

#[test]
fn generated_files_without_a_header() {
    let mut bare = 0;
    for seed in 0..3000 {
        let mut random = Random::new(70_000 + seed);
        let manner = if seed % 2 == 0 { TAME } else { WILD };
        let file = in_order(&file(&mut random, manner));
        let text = print(&file);
        assert!(!text.contains("NAMES"), "{text}");
        both_ways(&file);
        bare += usize::from(!file.fields.is_empty());
    }
    assert!(bare > 2500);
}

/// Puts other words in place of invented names; the spellings are then kept.
#[test]
fn generated_local_names() {
    let mut kept = 0;
    for seed in 0..2000 {
        let mut random = Random::new(200_000 + seed);
        let text = print(&file(&mut random, TAME));
        let mut renamed = String::new();
        let mut word = String::new();
        for character in text.chars().chain(['\n']) {
            if character.is_ascii_alphanumeric() || character == '_' {
                word.push(character);
                continue;
            }
            // The underscore of a subscript is not part of the name.
            for sign in ["WF_", "SF_", "_"] {
                if let Some(rest) = word.strip_prefix(sign) {
                    renamed.push_str(sign);
                    word = rest.to_string();
                }
            }
            match word.strip_prefix('x').or(word.strip_prefix('p')) {
                Some(digits) if !digits.is_empty() && !renamed.ends_with('?') => {
                    let stem = if word.starts_with('x') {
                        "bound"
                    } else {
                        "par"
                    };
                    renamed.push_str(&format!("{stem}_{digits}"));
                }
                _ => renamed.push_str(&word),
            }
            word.clear();
            renamed.push(character);
        }
        let read = parse(&renamed).unwrap_or_else(|fault| panic!("{fault}\n{renamed}"));
        let again = print(&read);
        kept += again.matches("bound_").count() + again.matches("par_").count();
        assert_eq!(
            renamed.matches("bound_").count(),
            again.matches("bound_").count()
        );
        assert_eq!(
            renamed.matches("par_").count(),
            again.matches("par_").count()
        );
        both_ways_with_locals(&read);
    }
    assert!(kept > 2000);
}

fn both_ways_with_locals(file: &File) {
    let text = print(file);
    assert_eq!(
        &parse(&text).expect("printed text parses"),
        file,
        "\n{text}"
    );
    let mut bare = file.clone();
    bare.names.forget_locals();
    both_ways(&bare);
}

#[test]
fn generated_expressions() {
    for seed in 0..3000 {
        let mut random = Random::new(300_000 + seed);
        let body = expression(&mut random, WILD, 2);
        let bytes = body.encode();
        assert_eq!(bytes.len(), body.length());
        assert_eq!(Expr::decode(&bytes).as_ref(), Ok(&body));
        let mut cut = bytes.clone();
        cut.pop();
        assert!(Expr::decode(&cut).is_err());
        let mut longer = bytes;
        longer.push(0);
        assert!(Expr::decode(&longer).is_err());
    }
}

/// Bytes that were damaged: whatever still decodes goes both ways.
#[test]
fn damaged_bytes() {
    let (mut sound, mut broken) = (0, 0);
    for seed in 0..6000 {
        let mut random = Random::new(400_000 + seed);
        let manner = if seed % 2 == 0 { TAME } else { WILD };
        let mut bytes = encode(&file(&mut random, manner)).expect("a generated file has bytes");
        for _ in 0..1 + random.below(2) {
            let at = random.below(bytes.len() + 1);
            match random.below(5) {
                0 => bytes.truncate(at),
                1 => bytes.insert(at, random.below(256) as u8),
                2 if at < bytes.len() => {
                    bytes.remove(at);
                }
                3 if at < bytes.len() => bytes[at] = random.below(256) as u8,
                _ if at < bytes.len() => bytes[at] ^= 1 << random.below(8),
                _ => {}
            }
        }
        match decode(&bytes) {
            Ok(file) => {
                sound += 1;
                assert_eq!(encode(&file).expect("it came from bytes"), bytes);
                both_ways(&file);
            }
            Err(fault) => {
                broken += 1;
                assert!(fault.offset <= bytes.len());
                // Everything before the field at fault is sound, and the field count is right.
                let whole = (0..=fault.offset.min(bytes.len()))
                    .rev()
                    .find_map(|end| decode(&bytes[..end]).ok())
                    .expect("the empty file decodes");
                assert!(whole.fields.len() <= fault.field + 1);
            }
        }
    }
    assert!(
        sound > 500 && broken > 1000,
        "{sound} sound, {broken} broken"
    );
}

#[test]
fn random_bytes() {
    for seed in 0..20_000 {
        let mut random = Random::new(500_000 + seed);
        let length = random.below(40);
        let bytes: Vec<u8> = (0..length)
            .map(|_| match random.below(3) {
                0 => 0,
                1 => random.below(10) as u8,
                _ => random.below(256) as u8,
            })
            .collect();
        if let Ok(file) = decode(&bytes) {
            assert_eq!(encode(&file).expect("it came from bytes"), bytes);
            both_ways(&file);
        }
    }
}

/// Texts that were damaged: no panic, places inside the text, and whatever still parses goes both
/// ways, local spellings included.
#[test]
fn damaged_texts() {
    const PIECES: [&str; 40] = [
        "x",
        "y",
        "K",
        "p",
        "n3",
        "(",
        ")",
        "[",
        "]_",
        "<<",
        ">>_",
        "[]",
        "<>",
        "'",
        " /\\ ",
        " \\/ ",
        " = ",
        " + ",
        ",",
        ":",
        "!",
        "\\E a : ",
        "\\A b \\in y : ",
        "CHOOSE c : ",
        "WF_x",
        "SF_(",
        "ENABLED ",
        " == ",
        "====",
        "----",
        "INSTANCE ",
        " WITH ",
        " <- ",
        "?p2",
        "?b0",
        "op16(",
        "bind131 d : ",
        "7",
        "\n",
        "EXTENDS ",
    ];
    let (mut sound, mut broken) = (0, 0);
    for seed in 0..6000 {
        let mut random = Random::new(600_000 + seed);
        let mut file = file(&mut random, TAME);
        if seed % 3 == 0 {
            spell(&mut random, &mut file);
        }
        let mut text = print(&file);
        if seed % 3 == 1 {
            text = text.replacen("NAMES", "", 1);
            text = text
                .replace("x0", "alpha")
                .replace("x1", "beta")
                .replace("p0", "gamma");
        }
        let mut text: Vec<char> = text.chars().collect();
        // Half of the texts only have words exchanged.
        let gentle = random.one_in(2);
        for _ in 0..1 + random.below(3) {
            let at = random.below(text.len() + 1);
            match random.below(4) {
                _ if gentle => {
                    let word = |c: &char| c.is_ascii_alphanumeric();
                    let start = at + text[at..].iter().take_while(|c| !word(c)).count();
                    let end = start + text[start..].iter().take_while(|c| word(c)).count();
                    match text.get(start) {
                        Some('n') => {
                            text.splice(start..end, random.pick(&["n1", "n2", "n9"]).chars())
                        }
                        Some('0'..='9') => text.splice(start..end, "65535".chars()),
                        _ => text.splice(end..end, " (* nothing *) ".chars()),
                    };
                }
                0 => {
                    let end = (at + 1 + random.below(4)).min(text.len());
                    text.drain(at..end);
                }
                1 if at < text.len() => text[at] = random.pick(&['(', ' ', '\\', 'x', '_', 'é']),
                _ => {
                    let piece: Vec<char> = random.pick(&PIECES).chars().collect();
                    text.splice(at..at, piece);
                }
            }
        }
        let text: String = text.into_iter().collect();
        match parse(&text) {
            Ok(file) => {
                sound += 1;
                both_ways_with_locals(&file);
            }
            Err(fault) => {
                broken += 1;
                let line = text
                    .split('\n')
                    .nth(fault.line - 1)
                    .expect("a line of the text");
                assert!(fault.column <= line.chars().count() + 1, "{fault}\n{text}");
                assert!(!fault.message.is_empty());
            }
        }
    }
    assert!(
        sound > 500 && broken > 500,
        "{sound} sound, {broken} broken"
    );
}

fn definition(tokens: Vec<Token>) -> File {
    File {
        fields: vec![Field::Definition {
            name: 7,
            parameters: 1,
            body: Expr::from_tokens(tokens).expect("written whole"),
        }],
        names: Names::new(),
    }
}

/// Codes of every spelling at the greatest nesting that a field can hold, on a small stack.
#[test]
fn deep_nesting() {
    let work = || {
        let spelled = (48..=54u8).chain(112..=125).chain([16, 60, 96]);
        for code in spelled.chain([128, 131, 133, 139, 141]) {
            let wanted = codes::arguments(code).expect("the code exists");
            // Deep in the first argument, then deep in the last.
            let depth = 65_000 / (2 + 2 * (wanted - 1) + 1).max(2) - 10;
            let mut first = vec![Token::BuiltIn(code); depth];
            first.extend(vec![Token::Parameter(0); depth * (wanted - 1) + 1]);
            both_ways(&definition(first));
            let mut last = Vec::new();
            for _ in 0..depth {
                last.push(Token::BuiltIn(code));
                last.extend(vec![Token::Parameter(0); wanted - 1]);
            }
            last.push(Token::Bound(3));
            let file = definition(last);
            if let Field::Definition { body, .. } = &file.fields[0] {
                assert_eq!(body.nesting(), depth + 1);
            }
            both_ways(&file);
        }
    };
    std::thread::Builder::new()
        .stack_size(256 * 1024)
        .spawn(work)
        .expect("a thread starts")
        .join()
        .expect("no overflow");
}

#[test]
fn deep_applications() {
    let work = || {
        let mut tokens = Vec::new();
        for depth in 0..10_000u16 {
            tokens.push(if depth % 2 == 0 {
                Token::Name {
                    name: 1 + depth,
                    arguments: 1,
                }
            } else {
                Token::Instance {
                    instance: 3,
                    name: 1 + depth,
                    arguments: 1,
                }
            });
        }
        tokens.push(Token::Literal(1));
        both_ways(&definition(tokens));
    };
    std::thread::Builder::new()
        .stack_size(256 * 1024)
        .spawn(work)
        .expect("a thread starts")
        .join()
        .expect("no overflow");
}

#[test]
fn parentheses_of_any_depth() {
    let text = format!("F == {}1{}", "(".repeat(300_000), ")".repeat(300_000));
    let file = parse(&text).expect("it parses");
    assert_eq!(print(&file), "F == 1\n");
    let open = format!("F == {}1", "(".repeat(300_000));
    assert!(parse(&open).is_err());
    let comments = format!("{}{}", "(*".repeat(100_000), "*)".repeat(100_000));
    assert_eq!(parse(&comments), Ok(File::default()));
}

#[test]
fn many_arguments() {
    for token in [
        Token::Name {
            name: 300,
            arguments: 255,
        },
        Token::Instance {
            instance: 65535,
            name: 1,
            arguments: 255,
        },
    ] {
        let mut tokens = vec![token];
        tokens.extend((0..=254).map(Token::Parameter));
        let mut file = definition(tokens);
        both_ways(&file);
        if let Field::Definition { parameters, .. } = &mut file.fields[0] {
            *parameters = 255;
        }
        both_ways(&file);
    }
}

/// The greatest counts that the format has room for.
#[test]
fn greatest_counts() {
    let one = |token| Expr::from_tokens(vec![token]).expect("a leaf");
    let substitution = |name| Substitution {
        name,
        expression: one(Token::Parameter(255)),
    };
    let fields = vec![
        Field::Module { name: 65535 },
        Field::Extends {
            modules: (1..=32767).collect(),
        },
        Field::Constant {
            name: 65535,
            arguments: 255,
        },
        Field::End,
        Field::Instance {
            name: 9,
            parameters: 255,
            module: 65535,
            substitutions: (65281..=65535).map(substitution).collect(),
        },
    ];
    both_ways(&File {
        fields,
        names: Names::new(),
    });
}

/// A file with very many names.
#[test]
fn all_names() {
    let fields = (1..=65535).map(|name| Field::Variable { name }).collect();
    let mut file = File {
        fields,
        names: Names::new(),
    };
    both_ways(&file);
    for name in 1..=65535 {
        let spelling = format!("v{name}");
        file.names
            .set(Space::Operators, name, &spelling)
            .expect("new");
    }
    both_ways(&file);
    assert!(!print(&file).contains("NAMES"));
    let one_more = format!("{}VARIABLE w\n", print(&file));
    let fault = parse(&one_more).expect_err("one too many");
    assert!(fault.message.contains("65535"));
}

#[test]
fn files_without_bytes() {
    let fault = |fields: Vec<Field>| {
        let file = File {
            fields,
            names: Names::new(),
        };
        encode(&file).expect_err("no bytes").to_string()
    };
    assert_eq!(
        fault(vec![Field::End, Field::Variable { name: 0 }]),
        "field 1: a name is 0"
    );
    assert_eq!(
        fault(vec![Field::Extends { modules: vec![] }]),
        "field 0: EXTENDS names no module"
    );
    let leaf = Expr::from_tokens(vec![Token::Literal(0)]).expect("a leaf");
    let instance = |parameters, count| Field::Instance {
        name: 0,
        parameters,
        module: 1,
        substitutions: vec![
            Substitution {
                name: 1,
                expression: leaf.clone()
            };
            count
        ],
    };
    assert_eq!(
        fault(vec![instance(1, 0)]),
        "field 0: an unnamed instance has parameters"
    );
    assert_eq!(
        fault(vec![instance(0, 256)]),
        "field 0: an instance has more than 255 substitutions"
    );
    let mut tokens = vec![Token::BuiltIn(52); 20_000];
    tokens.extend(vec![Token::Parameter(0); 20_001]);
    assert_eq!(
        fault(definition(tokens).fields),
        "field 0: it would take 80005 bytes, and a field holds at most 65535"
    );
}

#[test]
fn faults_of_the_layout() {
    let fault = |bytes: &[u8]| decode(bytes).expect_err("not sound").to_string();
    assert_eq!(fault(&[1]), "byte 1, in field 0: bytes are missing");
    assert_eq!(
        fault(&[1, 0, 2, 0]),
        "byte 4, in field 0: bytes are missing"
    );
    assert_eq!(
        fault(&[1, 0, 1, 0]),
        "byte 4, in field 0: bytes are missing"
    );
    assert_eq!(
        fault(&[0, 0, 0]),
        "byte 0, in field 0: no field has the tag 0"
    );
    assert_eq!(
        fault(&[7, 0, 0, 10]),
        "byte 3, in field 1: no field has the tag 10"
    );
    assert_eq!(
        fault(&[7, 0, 1, 0]),
        "byte 3, in field 0: bytes are left over"
    );
    assert_eq!(fault(&[1, 0, 2, 0, 0]), "byte 3, in field 0: a name is 0");
    assert_eq!(fault(&[2, 0, 0]), "byte 3, in field 0: bytes are missing");
    assert_eq!(
        fault(&[8, 0, 2, 4, 104]),
        "byte 4, in field 0: no built-in has the code 104"
    );
    assert_eq!(
        fault(&[9, 0, 1, 6]),
        "byte 3, in field 0: no token begins with 6"
    );
    assert_eq!(
        fault(&[8, 0, 4, 0, 1, 0, 2]),
        "byte 5, in field 0: bytes are left over"
    );
    assert_eq!(
        fault(&[6, 0, 6, 0, 0, 1, 0, 1, 0]),
        "byte 5, in field 0: an unnamed instance has parameters"
    );
    assert_eq!(
        fault(&[6, 0, 12, 0, 1, 0, 0, 1, 1, 0, 2, 0, 3, 0, 0]),
        "byte 15, in field 0: bytes are missing"
    );
    assert_eq!(
        fault(&[6, 0, 13, 0, 1, 0, 0, 1, 1, 0, 2, 0, 3, 0, 0, 0]),
        "byte 15, in field 0: bytes are left over"
    );
}
