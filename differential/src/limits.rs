//! Files at the limits and one step beyond them.

use crate::accepted::LARGEST;
use crate::cards::MOST;
use crate::random::Random;
use crate::syntax::{self, and, brought, instance, lit, n, p, tree, wrap, Expr, Field};

/// A file at a limit or beyond it.
#[derive(Clone, Debug)]
pub struct Limited {
    pub label: String,
    pub file: Vec<u8>,
    /// The cause, if the file is to be refused.
    pub cause: Option<u32>,
}

const LABELS: [&str; 26] = [
    "modules",
    "declarations",
    "definitions",
    "definitions brought",
    "nesting of a definition",
    "nesting of a formula",
    "nesting of a substitute",
    "arguments of a constant",
    "parameters of a definition",
    "parameters of an instance",
    "arguments of a name",
    "arguments of I!F",
    "parameters brought",
    "parameters of a substitute",
    "operator standing for itself",
    "bytes of a file",
    "length in a field",
    "parameters brought twice over",
    "parameters brought three times over",
    "parameters brought of an extended module",
    "parameters brought with a named instance inside",
    "parameters of an instance over a wide substitute",
    "arguments of a name in a formula",
    "arguments of a name in a substitute",
    "arguments of I!F in a dropped argument",
    "parameters of a definition that stands for an operator",
];

/// The number of limit files.
pub fn count() -> usize {
    2 * LABELS.len()
}

/// The labels of all limit files.
pub fn labels() -> Vec<String> {
    (0..count()).map(label).collect()
}

fn label(number: usize) -> String {
    let side = if number.is_multiple_of(2) {
        "at"
    } else {
        "over"
    };
    format!("{}, {side} the limit", LABELS[number / 2])
}

fn nested(nesting: usize, random: &mut Random) -> Expr {
    let inner = random.pick(&[lit(0), and(lit(0), lit(1))]);
    wrap(nesting - inner.nesting(), inner)
}

/// One of the limit files.
pub fn build(number: usize, random: &mut Random) -> Limited {
    let over = number % 2;
    let kind = number / 2;
    let mut fields = Vec::new();
    let mut cause = Some(5).filter(|_| over == 1);
    let most = (MOST + over) as u8;
    let operator = |name: u16| Field::Constant(name, MOST as u8);
    let module = |name: u16, inside: Vec<Field>| {
        let mut fields = vec![Field::Module(name)];
        fields.extend(inside);
        fields.push(Field::End);
        fields
    };
    match kind {
        0 => (0..16 + over as u16).for_each(|m| fields.extend(module(1 + m, vec![]))),
        1 => {
            let split = random.below(64) as u16;
            let count = 64 + over as u16;
            let variables = |from: u16, to: u16| (from..to).map(Field::Variable).collect();
            fields.extend(module(1, variables(1, 1 + split)));
            fields.extend(module(2, variables(1 + split, 1 + count)));
        }
        2 => {
            let count = 256 + over as u16;
            let define = |name: u16| match name {
                0 => Field::Definition(1, 0, lit(0)),
                _ => Field::Definition(1 + name, (name % 9) as u8, n(1, &[])),
            };
            fields.extend(module(1, (0..count).map(define).collect()));
        }
        3 => {
            // Some definitions, brought as often as there is room.
            let own = random.pick(&[1, 3, 5, 51]);
            let define = |name: u16| Field::Definition(1 + name, 1, p(0));
            fields.extend(module(1, (0..own).map(define).collect()));
            let times = 256 / own - 1;
            let mut inside: Vec<Field> = (0..times)
                .map(|name| instance(300 + name, 2, 1, &[]))
                .collect();
            let left = 256 - own * (times + 1);
            inside.extend((0..left).map(|name| Field::Definition(900 + name, 0, lit(0))));
            if over == 1 {
                inside.push(instance(1_000, 0, 1, &[]));
            }
            fields.extend(module(2, inside));
        }
        4 => {
            let body = nested(32 + over, random);
            fields.extend(module(1, vec![Field::Definition(1, 0, body)]));
        }
        5 => {
            let formula = nested(32 + over, random);
            let field = match random.below(2) {
                0 => Field::Assume(formula),
                _ => Field::Theorem(formula),
            };
            fields.extend(module(1, vec![field]));
        }
        6 => {
            fields.extend(module(1, vec![Field::Constant(1, 0)]));
            let with = [(1, nested(32 + over, random))];
            fields.extend(module(2, vec![instance(0, 0, 1, &with)]));
        }
        7 => fields.extend(module(1, vec![Field::Constant(1, most)])),
        8 => {
            let body = p(random.below(MOST) as u8);
            fields.extend(module(1, vec![Field::Definition(1, most, body)]));
        }
        9 => {
            fields.extend(module(1, vec![]));
            fields.extend(module(2, vec![instance(1, most, 1, &[])]));
        }
        10 => {
            let call = n(1, &vec![lit(0); MOST + over]);
            fields.extend(module(1, vec![operator(1), Field::Definition(2, 0, call)]));
        }
        11 => {
            let call = brought(5, 1, &vec![lit(0); MOST + over]);
            fields.extend(module(1, vec![Field::Definition(1, 1, p(0))]));
            fields.extend(module(
                2,
                vec![instance(5, 7, 1, &[]), Field::Theorem(call)],
            ));
        }
        12 => {
            let inner = 1 + random.below(MOST) as u8;
            fields.extend(module(1, vec![Field::Definition(1, inner, lit(0))]));
            fields.extend(module(2, vec![instance(5, most - inner, 1, &[])]));
        }
        13 => {
            let arguments = 1 + random.below(MOST) as u8;
            let with = [(1, p(random.below(MOST) as u8))];
            fields.extend(module(1, vec![Field::Constant(1, arguments)]));
            fields.extend(module(2, vec![instance(5, most - arguments, 1, &with)]));
        }
        14 => {
            // An operator of eight arguments that stands for itself is not limited.
            let turned: Vec<Expr> = (0..MOST as u8).rev().map(p).collect();
            fields.extend(module(
                1,
                vec![
                    operator(1),
                    Field::Definition(2, 0, n(1, &vec![lit(0); MOST])),
                ],
            ));
            fields.extend(module(
                2,
                vec![
                    operator(1),
                    instance(5, most, 1, &[]),
                    Field::Definition(6, MOST as u8, brought(5, 2, &turned)),
                ],
            ));
        }
        15 => {
            // Exactly as large as a file may be, or one byte more.
            let target = LARGEST + over;
            let mut bytes = syntax::file(&[Field::Module(1), Field::Constant(1, 0)]);
            let end = Field::End.bytes();
            // A tree of literals has 5k − 2 bytes, and an operator adds two.
            let room = target - bytes.len() - end.len() - 3;
            let mut wraps = 0;
            while !(room - 2 * wraps + 2).is_multiple_of(5) {
                wraps += 1;
            }
            let leaves = (room - 2 * wraps + 2) / 5;
            let formula = wrap(wraps, tree(leaves, &|_| lit(5)));
            Field::Assume(formula).write(&mut bytes);
            bytes.extend(end);
            return Limited {
                label: label(number),
                file: bytes,
                cause: Some(2).filter(|_| over == 1),
            };
        }
        17 | 18 => {
            // Brought on without a name, twice or three times, and then with parameters.
            let times = kind as u16 - 16;
            let inner = 1 + random.below(MOST) as u8;
            let body = p(random.below(inner as usize) as u8);
            fields.extend(module(1, vec![Field::Definition(1, inner, body)]));
            for m in 2..=times + 1 {
                let (name, own) = match m == times + 1 {
                    true => (5, most - inner),
                    false => (0, 0),
                };
                fields.extend(module(m, vec![instance(name, own, m - 1, &[])]));
            }
        }
        19 => {
            let inner = 1 + random.below(MOST) as u8;
            fields.extend(module(1, vec![Field::Definition(1, inner, p(0))]));
            fields.extend(module(2, vec![Field::Extends(vec![1])]));
            fields.extend(module(3, vec![instance(5, most - inner, 2, &[])]));
        }
        20 => {
            // The sum is judged before 16.
            let (inner, between) = (1 + random.below(3) as u8, 1 + random.below(3) as u8);
            fields.extend(module(1, vec![Field::Definition(1, inner, p(0))]));
            fields.extend(module(2, vec![instance(5, between, 1, &[])]));
            let own = most - inner - between;
            fields.extend(module(3, vec![instance(6, own, 2, &[])]));
            cause = cause.or(Some(16));
        }
        21 => {
            // Inside, sixteen parameters: eight of the instance, eight of the operator's substitute.
            let eight: Vec<Expr> = (0..MOST as u16).map(lit).collect();
            let used = |at: usize| match at {
                0..MOST => p(at as u8),
                _ => n(20 + at as u16, &[]),
            };
            fields.extend(module(
                1,
                vec![operator(1), Field::Definition(2, 0, n(1, &eight))],
            ));
            let names = MOST as u16..2 * MOST as u16;
            let mut inside: Vec<Field> = names
                .clone()
                .map(|name| Field::Constant(20 + name, 0))
                .collect();
            inside.push(instance(0, 0, 1, &[(1, tree(2 * MOST, &used))]));
            fields.extend(module(2, inside));
            let with: Vec<(u16, Expr)> = names.zip(0..).map(|(n, i)| (20 + n, p(i))).collect();
            fields.extend(module(3, vec![instance(5, most, 2, &with)]));
        }
        22 => {
            let call = n(1, &vec![lit(0); MOST + over]);
            let call = wrap(random.below(20), call);
            let formula = random.pick(&[Field::Assume(call.clone()), Field::Theorem(call)]);
            fields.extend(module(1, vec![operator(1), formula]));
        }
        23 => {
            let call = n(2, &vec![p(0); MOST + over]);
            fields.extend(module(1, vec![Field::Constant(1, 2)]));
            fields.extend(module(
                2,
                vec![operator(2), instance(0, 0, 1, &[(1, call)])],
            ));
        }
        24 => {
            let call = brought(5, 1, &vec![lit(0); MOST + over]);
            fields.extend(module(1, vec![Field::Definition(1, 2, p(0))]));
            fields.extend(module(
                2,
                vec![
                    instance(5, 6, 1, &[]),
                    Field::Definition(6, 1, lit(0)),
                    Field::Theorem(n(6, &[call])),
                ],
            ));
        }
        25 => {
            let body = and(p(0), p(7));
            fields.extend(module(
                1,
                vec![
                    operator(1),
                    Field::Definition(2, 0, n(1, &vec![lit(1); MOST])),
                ],
            ));
            fields.extend(module(
                2,
                vec![Field::Definition(1, most, body), instance(0, 0, 1, &[])],
            ));
        }
        _ => {
            // A length of 256 or one that does not fit.
            let formula = tree(51, &|_| lit(7));
            let mut bytes = syntax::file(&[Field::Module(1)]);
            let mut field = Field::Theorem(wrap(1, formula)).bytes();
            if over == 1 {
                field[2] = field[2].wrapping_add(1);
                cause = Some(3);
            }
            bytes.extend(field);
            if over == 0 {
                Field::End.write(&mut bytes);
            }
            return Limited {
                label: label(number),
                file: bytes,
                cause,
            };
        }
    }
    Limited {
        label: label(number),
        file: syntax::file(&fields),
        cause,
    }
}
