//! Damaged files: fields changed one by one, bytes changed, and bytes at random.

use crate::random::Random;
use crate::rows;
use crate::syntax::{self, Expr, Field};

/// Changes some fields of a file, each a little.
pub fn fields(random: &mut Random, fields: &[Field]) -> Vec<Field> {
    let mut fields = fields.to_vec();
    for _ in 0..random.pick(&[1, 1, 1, 2, 3]) {
        if fields.is_empty() {
            break;
        }
        let at = random.below(fields.len());
        match random.below(10) {
            0 => {
                fields.remove(at);
            }
            1 => {
                let copy = fields[at].clone();
                let to = random.below(fields.len() + 1);
                fields.insert(to, copy);
            }
            2 => {
                let other = random.below(fields.len());
                fields.swap(at, other);
            }
            _ => change(random, &mut fields[at]),
        }
    }
    fields
}

/// Puts a code that there is not, beside one that there is, for a part of some expression, with as
/// many arguments as its neighbour has.
pub fn unknown_code(random: &mut Random, fields: &mut [Field], number: usize) {
    let (code, arguments) = rows::BESIDE[number % rows::BESIDE.len()];
    let expressions = fields.iter_mut().flat_map(Field::expressions_mut);
    let mut expressions: Vec<&mut Expr> = expressions.collect();
    if !expressions.is_empty() {
        let at = random.below(expressions.len());
        let part = random.below(expressions[at].size());
        *expressions[at].part_mut(part) = syntax::op(code, &vec![syntax::lit(0); arguments]);
    }
}

fn near(random: &mut Random, number: u16) -> u16 {
    match random.below(5) {
        0 => number.wrapping_add(1),
        1 => number.wrapping_sub(1),
        2 => random.below(8) as u16,
        3 => 10 + random.below(300) as u16,
        _ => number.rotate_left(8),
    }
}

fn change(random: &mut Random, field: &mut Field) {
    let inside = !field.expressions().is_empty() && random.chance(60);
    if inside {
        let mut expressions = field.expressions_mut();
        let at = random.below(expressions.len());
        expression(random, expressions[at]);
        return;
    }
    match field {
        Field::Module(name) | Field::Variable(name) => *name = near(random, *name),
        Field::Extends(names) => {
            let at = random.below(names.len().max(1));
            match names.get_mut(at) {
                Some(name) if random.chance(60) => *name = near(random, *name),
                _ => names.push(1 + random.below(5) as u16),
            }
        }
        Field::Constant(name, count) => match random.below(2) {
            0 => *name = near(random, *name),
            _ => *count = random.below(5) as u8,
        },
        Field::Definition(name, count, _) => match random.below(2) {
            0 => *name = near(random, *name),
            _ => *count = random.below(5) as u8,
        },
        Field::Instance {
            name,
            parameters,
            module,
            with,
        } => match random.below(6) {
            0 => *name = near(random, *name),
            1 => *parameters = random.below(5) as u8,
            2 => *module = near(random, *module),
            3 if !with.is_empty() => {
                let at = random.below(with.len());
                with.remove(at);
            }
            4 if !with.is_empty() => {
                let at = random.below(with.len());
                with[at].0 = near(random, with[at].0);
            }
            _ => with.push((1 + random.below(8) as u16, syntax::lit(0))),
        },
        Field::Raw(bytes) => bytes.push(0),
        _ => *field = Field::Variable(1 + random.below(8) as u16),
    }
}

/// Changes one token of an expression, or its arguments.
pub fn expression(random: &mut Random, expr: &mut Expr) {
    let at = random.below(expr.size());
    let part = expr.part_mut(at);
    if random.chance(30) {
        let inner = part.clone();
        *part = match random.below(6) {
            0 => syntax::prime(inner),
            1 => syntax::always(inner),
            2 => syntax::op(140, &[inner]),
            3 => syntax::op(128, &[inner]),
            4 => syntax::p(random.below(4) as u8),
            _ => syntax::b(random.below(3) as u16),
        };
        return;
    }
    match part {
        Expr::Parameter(index) => *index = random.below(5) as u8,
        Expr::Bound(index) => *index = near(random, *index),
        Expr::Literal(value) => *value = near(random, *value),
        Expr::Name(name, arguments) => match random.below(4) {
            0 => arguments.push(syntax::lit(1)),
            1 if !arguments.is_empty() => {
                arguments.pop();
            }
            _ => *name = near(random, *name),
        },
        Expr::Brought(instance, name, arguments) => match random.below(5) {
            0 => arguments.push(syntax::lit(1)),
            1 if !arguments.is_empty() => {
                arguments.pop();
            }
            2 => *instance = near(random, *instance),
            _ => *name = near(random, *name),
        },
        Expr::BuiltIn(code, _) => *code = random.below(146) as u8,
    }
}

/// Changes some bytes.
pub fn bytes(random: &mut Random, bytes: &mut Vec<u8>) {
    for _ in 0..random.pick(&[1, 1, 2, 4]) {
        if bytes.is_empty() {
            bytes.push(random.byte());
        }
        let at = random.below(bytes.len());
        match random.below(7) {
            0 => {
                bytes.remove(at);
            }
            1 => {
                let byte = random.byte();
                bytes.insert(at, byte);
            }
            2 => bytes.truncate(at),
            3 => bytes[at] ^= 1 << random.below(8),
            4 => {
                let end = (at + random.below(12)).min(bytes.len());
                let part = bytes[at..end].to_vec();
                bytes.splice(at..at, part);
            }
            5 => bytes[at] = random.below(10) as u8,
            _ => bytes[at] = random.byte(),
        }
    }
}

/// Bytes at random, now and then shaped like fields.
pub fn random_bytes(random: &mut Random) -> Vec<u8> {
    let size = 1 + random.below(80);
    if random.chance(40) {
        return (0..size).map(|_| random.byte()).collect();
    }
    let mut bytes = Field::Module(1).bytes();
    for _ in 0..random.below(8) {
        let length = random.below(10);
        bytes.extend([random.below(11) as u8, 0, length as u8]);
        bytes.extend((0..length).map(|_| random.below(7) as u8));
    }
    bytes
}
