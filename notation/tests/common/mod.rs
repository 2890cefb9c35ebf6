//! A deterministic generator of files, lawful or not.

#![allow(dead_code)]

use notation::{codes, Expr, Field, File, Names, Space, Substitution, Token};

/// A small generator of numbers (xorshift).
pub struct Random(u64);

impl Random {
    pub fn new(seed: u64) -> Random {
        Random(
            seed.wrapping_mul(0x9e37_79b9_7f4a_7c15)
                .wrapping_add(0x1234_5678_9abc_def1)
                | 1,
        )
    }

    pub fn next(&mut self) -> u64 {
        self.0 ^= self.0 << 13;
        self.0 ^= self.0 >> 7;
        self.0 ^= self.0 << 17;
        self.0 >> 11
    }

    /// A number below `bound`.
    pub fn below(&mut self, bound: usize) -> usize {
        (self.next() % bound as u64) as usize
    }

    pub fn one_in(&mut self, chances: usize) -> bool {
        self.below(chances) == 0
    }

    pub fn pick<T: Copy>(&mut self, from: &[T]) -> T {
        from[self.below(from.len())]
    }
}

/// How wild a generated file is.
#[derive(Clone, Copy)]
pub struct Manner {
    /// The names used are 1 to this.
    pub names: u16,
    /// Whether indices, counts and the order of fields may be anything.
    pub wild: bool,
    /// Tokens of an expression, about.
    pub tokens: usize,
}

fn name(random: &mut Random, manner: Manner) -> u16 {
    if manner.wild && random.one_in(30) {
        return random.pick(&[1, 255, 256, 65535, 12345]);
    }
    1 + random.below(usize::from(manner.names)) as u16
}

const ALL: std::ops::RangeInclusive<u8> = 0..=141;

fn code(random: &mut Random) -> u8 {
    let existing: Vec<u8> = ALL
        .filter(|&code| codes::arguments(code).is_some())
        .collect();
    // The codes that have a spelling of their own are the interesting ones.
    if random.one_in(3) {
        random.pick(&existing)
    } else {
        let spelled: Vec<u8> = existing
            .into_iter()
            .filter(|code| (48..=54).contains(code) || *code >= 112)
            .collect();
        random.pick(&spelled)
    }
}

/// An expression in which `parameters` parameters are known.
pub fn expression(random: &mut Random, manner: Manner, parameters: usize) -> Expr {
    let budget = 1 + random.below(manner.tokens);
    let mut tokens = Vec::new();
    // For each expression that is still wanted, the binders around it.
    let mut wanted = vec![0usize];
    while let Some(depth) = wanted.pop() {
        let last = tokens.len() + wanted.len() >= budget;
        let token = loop {
            let token = match random.below(10) {
                0 if manner.wild => Token::Parameter(random.below(256) as u8),
                0 | 1 if parameters > 0 => {
                    Token::Parameter(random.below(parameters.min(256)) as u8)
                }
                2 if manner.wild => Token::Bound(random.below(65536) as u16),
                2 | 3 if depth > 0 => Token::Bound(random.below(depth) as u16),
                4 | 5 => Token::Name {
                    name: name(random, manner),
                    arguments: count(random, manner),
                },
                6 => Token::Instance {
                    instance: name(random, manner),
                    name: name(random, manner),
                    arguments: count(random, manner),
                },
                7 => Token::Literal(random.pick(&[0, 1, 7, 65535])),
                _ => Token::BuiltIn(code(random)),
            };
            if !last || token.arguments() == Some(0) {
                break token;
            }
        };
        let binds = matches!(token, Token::BuiltIn(code) if codes::binds(code));
        let arguments = token.arguments().expect("the code exists");
        for place in (0..arguments).rev() {
            let inside = binds && place + 1 == arguments;
            wanted.push(depth + usize::from(inside));
        }
        tokens.push(token);
    }
    Expr::from_tokens(tokens).expect("generated whole")
}

fn count(random: &mut Random, manner: Manner) -> u8 {
    if manner.wild && random.one_in(60) {
        return random.pick(&[4, 17, 255]);
    }
    random.pick(&[0, 0, 0, 1, 1, 2, 3])
}

fn field(random: &mut Random, manner: Manner, tag: usize) -> Field {
    match tag {
        1 => Field::Module {
            name: name(random, manner),
        },
        2 => {
            let count = 1 + random.below(3);
            Field::Extends {
                modules: (0..count).map(|_| name(random, manner)).collect(),
            }
        }
        3 => Field::Constant {
            name: name(random, manner),
            arguments: count(random, manner),
        },
        4 => Field::Variable {
            name: name(random, manner),
        },
        5 => {
            let parameters = count(random, manner);
            Field::Definition {
                name: name(random, manner),
                parameters,
                body: expression(random, manner, usize::from(parameters)),
            }
        }
        6 => {
            let unnamed = random.one_in(3);
            let parameters = if unnamed { 0 } else { count(random, manner) };
            let substitutions = (0..random.below(4))
                .map(|_| Substitution {
                    name: name(random, manner),
                    expression: expression(random, manner, usize::from(parameters) + 2),
                })
                .collect();
            Field::Instance {
                name: if unnamed { 0 } else { name(random, manner) },
                parameters,
                module: name(random, manner),
                substitutions,
            }
        }
        7 => Field::End,
        8 => Field::Assume {
            formula: expression(random, manner, 0),
        },
        _ => Field::Theorem {
            formula: expression(random, manner, 0),
        },
    }
}

/// A file without spellings.
pub fn file(random: &mut Random, manner: Manner) -> File {
    let mut fields = Vec::new();
    if manner.wild && random.one_in(2) {
        for _ in 0..random.below(20) {
            let tag = 1 + random.below(9);
            fields.push(field(random, manner, tag));
        }
    } else {
        for _ in 0..1 + random.below(4) {
            fields.push(field(random, manner, 1));
            if random.one_in(2) {
                fields.push(field(random, manner, 2));
            }
            for _ in 0..random.below(10) {
                let tag = random.pick(&[3, 3, 4, 4, 5, 5, 5, 6, 6, 8, 9]);
                fields.push(field(random, manner, tag));
            }
            fields.push(field(random, manner, 7));
        }
    }
    File {
        fields,
        names: Names::new(),
    }
}

const SPELLINGS: [&str; 16] = [
    "Depth", "x", "y", "unit", "p0", "x0", "x1", "p1_", "n3", "n4", "chan", "opp", "_a", "E", "A",
    "b1",
];

/// Gives some of the names spellings.
pub fn spell(random: &mut Random, file: &mut File) {
    let kept = random.below(4);
    let mut used = Vec::new();
    for field in &file.fields {
        field.for_each_name(|space, name| used.push((space, name)));
    }
    for (space, name) in used {
        if kept > 0 && random.below(4) <= kept {
            let word = random.pick(&SPELLINGS);
            // Under a header `n3` is always the number 3.
            if word
                .strip_prefix('n')
                .is_none_or(|digits| digits == name.to_string())
            {
                let _ = file.names.set(space, name, word);
            }
        }
    }
    if random.one_in(4) {
        // A name that the file does not use.
        let _ = file.names.set(Space::Operators, 4321, "spare");
    }
}
