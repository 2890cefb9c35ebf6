//! Fields and expressions: writing, reading back, and a short decoding for people.

use crate::rows;
use std::fmt::{self, Display, Formatter};

/// An expression; the number of arguments is written as it is.
#[derive(Clone, Debug, PartialEq, Eq)]
pub enum Expr {
    Parameter(u8),
    Bound(u16),
    Name(u16, Vec<Expr>),
    Brought(u16, u16, Vec<Expr>),
    BuiltIn(u8, Vec<Expr>),
    Literal(u16),
}

/// Parameter.
pub fn p(index: u8) -> Expr {
    Expr::Parameter(index)
}

/// Bound variable.
pub fn b(index: u16) -> Expr {
    Expr::Bound(index)
}

/// Literal.
pub fn lit(value: u16) -> Expr {
    Expr::Literal(value)
}

/// Operator by name.
pub fn n(name: u16, arguments: &[Expr]) -> Expr {
    Expr::Name(name, arguments.to_vec())
}

/// I!F.
pub fn brought(instance: u16, name: u16, arguments: &[Expr]) -> Expr {
    Expr::Brought(instance, name, arguments.to_vec())
}

/// Built-in.
pub fn op(code: u8, arguments: &[Expr]) -> Expr {
    Expr::BuiltIn(code, arguments.to_vec())
}

pub fn prime(inner: Expr) -> Expr {
    Expr::BuiltIn(112, vec![inner])
}

pub fn always(inner: Expr) -> Expr {
    Expr::BuiltIn(118, vec![inner])
}

pub fn and(left: Expr, right: Expr) -> Expr {
    Expr::BuiltIn(49, vec![left, right])
}

/// So many one-argument operators around an expression.
pub fn wrap(times: usize, inner: Expr) -> Expr {
    (0..times).fold(inner, |inner, _| Expr::BuiltIn(16, vec![inner]))
}

/// A balanced tree of ∧ over so many leaves, at least one.
pub fn tree(leaves: usize, leaf: &dyn Fn(usize) -> Expr) -> Expr {
    fn grow(from: usize, to: usize, leaf: &dyn Fn(usize) -> Expr) -> Expr {
        if to - from == 1 {
            return leaf(from);
        }
        let middle = (from + to) / 2;
        and(grow(from, middle, leaf), grow(middle, to, leaf))
    }
    grow(0, leaves, leaf)
}

/// A tree of as many leaves as fit into so many bytes.
pub fn tree_of(bytes: usize, leaf: &dyn Fn(usize) -> Expr) -> Expr {
    let (mut leaves, mut left) = (0, bytes);
    loop {
        let size = leaf(leaves).bytes().len() + 2;
        if size > left {
            return tree(leaves.max(1), leaf);
        }
        left -= size;
        leaves += 1;
    }
}

/// Deepest nesting that is read back.
const DEEPEST: usize = 100;

impl Expr {
    pub fn arguments(&self) -> &[Expr] {
        match self {
            Expr::Parameter(_) | Expr::Bound(_) | Expr::Literal(_) => &[],
            Expr::Name(_, arguments)
            | Expr::Brought(_, _, arguments)
            | Expr::BuiltIn(_, arguments) => arguments,
        }
    }

    pub fn arguments_mut(&mut self) -> &mut [Expr] {
        match self {
            Expr::Parameter(_) | Expr::Bound(_) | Expr::Literal(_) => &mut [],
            Expr::Name(_, arguments)
            | Expr::Brought(_, _, arguments)
            | Expr::BuiltIn(_, arguments) => arguments,
        }
    }

    /// The number of tokens.
    pub fn size(&self) -> usize {
        1 + self.arguments().iter().map(Expr::size).sum::<usize>()
    }

    /// A token without arguments has nesting 1.
    pub fn nesting(&self) -> usize {
        let deepest = self.arguments().iter().map(Expr::nesting).max();
        1 + deepest.unwrap_or(0)
    }

    /// The part that begins with the token of this number in prefix order.
    pub fn part_mut(&mut self, mut number: usize) -> &mut Expr {
        if number == 0 {
            return self;
        }
        number -= 1;
        for argument in self.arguments_mut() {
            let size = argument.size();
            if number < size {
                return argument.part_mut(number);
            }
            number -= size;
        }
        panic!("an expression has as many parts as tokens")
    }

    pub fn write(&self, out: &mut Vec<u8>) {
        match self {
            Expr::Parameter(index) => out.extend([0, *index]),
            Expr::Bound(index) => {
                out.push(1);
                out.extend(index.to_be_bytes());
            }
            Expr::Name(name, arguments) => {
                out.push(2);
                out.extend(name.to_be_bytes());
                out.push(arguments.len() as u8);
            }
            Expr::Brought(instance, name, arguments) => {
                out.push(3);
                out.extend(instance.to_be_bytes());
                out.extend(name.to_be_bytes());
                out.push(arguments.len() as u8);
            }
            Expr::BuiltIn(code, _) => out.extend([4, *code]),
            Expr::Literal(value) => {
                out.push(5);
                out.extend(value.to_be_bytes());
            }
        }
        self.arguments().iter().for_each(|inner| inner.write(out));
    }

    pub fn bytes(&self) -> Vec<u8> {
        let mut out = Vec::new();
        self.write(&mut out);
        out
    }

    /// Reads an expression that fills the bytes and is not nested beyond reason.
    pub fn read(bytes: &[u8]) -> Option<Expr> {
        let mut rest = bytes;
        let expr = Self::take(&mut rest, DEEPEST)?;
        rest.is_empty().then_some(expr)
    }

    fn take(rest: &mut &[u8], depth: usize) -> Option<Expr> {
        let depth = depth.checked_sub(1)?;
        let (head, tail) = rest.split_first()?;
        let size = match head {
            0 | 4 => 1,
            1 | 5 => 2,
            2 => 3,
            3 => 5,
            _ => return None,
        };
        if tail.len() < size {
            return None;
        }
        let (token, tail) = tail.split_at(size);
        *rest = tail;
        let number = |at: usize| u16::from_be_bytes([token[at], token[at + 1]]);
        let many = |rest: &mut &[u8], count: usize| -> Option<Vec<Expr>> {
            (0..count).map(|_| Self::take(rest, depth)).collect()
        };
        Some(match head {
            0 => Expr::Parameter(token[0]),
            1 => Expr::Bound(number(0)),
            2 => Expr::Name(number(0), many(rest, token[2] as usize)?),
            3 => Expr::Brought(number(0), number(2), many(rest, token[4] as usize)?),
            4 => Expr::BuiltIn(token[0], many(rest, rows::row(token[0])?.arguments)?),
            _ => Expr::Literal(number(0)),
        })
    }
}

impl Display for Expr {
    fn fmt(&self, f: &mut Formatter) -> fmt::Result {
        match self {
            Expr::Parameter(index) => write!(f, "p{index}")?,
            Expr::Bound(index) => write!(f, "b{index}")?,
            Expr::Name(name, _) => write!(f, "n{name}")?,
            Expr::Brought(instance, name, _) => write!(f, "n{instance}!n{name}")?,
            Expr::BuiltIn(code, _) => write!(f, "#{code}")?,
            Expr::Literal(value) => write!(f, "{value}")?,
        }
        let arguments: Vec<String> = self.arguments().iter().map(Expr::to_string).collect();
        if !arguments.is_empty() {
            write!(f, "({})", arguments.join(", "))?;
        }
        Ok(())
    }
}

/// A field, or any bytes that stand where one should.
#[derive(Clone, Debug, PartialEq, Eq)]
pub enum Field {
    Module(u16),
    Extends(Vec<u16>),
    Constant(u16, u8),
    Variable(u16),
    Definition(u16, u8, Expr),
    Instance {
        name: u16,
        parameters: u8,
        module: u16,
        with: Vec<(u16, Expr)>,
    },
    End,
    Assume(Expr),
    Theorem(Expr),
    Raw(Vec<u8>),
}

/// An INSTANCE field.
pub fn instance(name: u16, parameters: u8, module: u16, with: &[(u16, Expr)]) -> Field {
    Field::Instance {
        name,
        parameters,
        module,
        with: with.to_vec(),
    }
}

impl Field {
    pub fn write(&self, out: &mut Vec<u8>) {
        let mut payload = Vec::new();
        let tag = match self {
            Field::Module(name) => {
                payload.extend(name.to_be_bytes());
                1
            }
            Field::Extends(names) => {
                names.iter().for_each(|n| payload.extend(n.to_be_bytes()));
                2
            }
            Field::Constant(name, count) => {
                payload.extend(name.to_be_bytes());
                payload.push(*count);
                3
            }
            Field::Variable(name) => {
                payload.extend(name.to_be_bytes());
                4
            }
            Field::Definition(name, parameters, body) => {
                payload.extend(name.to_be_bytes());
                payload.push(*parameters);
                body.write(&mut payload);
                5
            }
            Field::Instance {
                name,
                parameters,
                module,
                with,
            } => {
                payload.extend(name.to_be_bytes());
                payload.push(*parameters);
                payload.extend(module.to_be_bytes());
                payload.push(with.len() as u8);
                for (name, expr) in with {
                    let expr = expr.bytes();
                    payload.extend(name.to_be_bytes());
                    payload.extend((expr.len() as u16).to_be_bytes());
                    payload.extend(expr);
                }
                6
            }
            Field::End => 7,
            Field::Assume(formula) => {
                formula.write(&mut payload);
                8
            }
            Field::Theorem(formula) => {
                formula.write(&mut payload);
                9
            }
            Field::Raw(bytes) => {
                out.extend(bytes);
                return;
            }
        };
        out.push(tag);
        out.extend((payload.len() as u16).to_be_bytes());
        out.extend(payload);
    }

    pub fn bytes(&self) -> Vec<u8> {
        let mut out = Vec::new();
        self.write(&mut out);
        out
    }

    /// The expressions of a field.
    pub fn expressions(&self) -> Vec<&Expr> {
        match self {
            Field::Definition(_, _, e) | Field::Assume(e) | Field::Theorem(e) => vec![e],
            Field::Instance { with, .. } => with.iter().map(|(_, e)| e).collect(),
            _ => Vec::new(),
        }
    }

    pub fn expressions_mut(&mut self) -> Vec<&mut Expr> {
        match self {
            Field::Definition(_, _, e) | Field::Assume(e) | Field::Theorem(e) => vec![e],
            Field::Instance { with, .. } => with.iter_mut().map(|(_, e)| e).collect(),
            _ => Vec::new(),
        }
    }

    fn read(tag: u8, payload: &[u8]) -> Option<Field> {
        let number = |at: usize| {
            let bytes = payload.get(at..at + 2)?;
            Some(u16::from_be_bytes([bytes[0], bytes[1]]))
        };
        Some(match tag {
            1 => Field::Module(number(0)?),
            2 => Field::Extends(
                payload
                    .chunks_exact(2)
                    .map(|name| u16::from_be_bytes([name[0], name[1]]))
                    .collect(),
            ),
            3 => Field::Constant(number(0)?, *payload.get(2)?),
            4 => Field::Variable(number(0)?),
            5 => Field::Definition(number(0)?, *payload.get(2)?, Expr::read(payload.get(3..)?)?),
            6 => {
                let mut with = Vec::new();
                let mut at = 6;
                for _ in 0..*payload.get(5)? {
                    let (name, length) = (number(at)?, number(at + 2)? as usize);
                    let expr = Expr::read(payload.get(at + 4..at + 4 + length)?)?;
                    with.push((name, expr));
                    at += 4 + length;
                }
                Field::Instance {
                    name: number(0)?,
                    parameters: *payload.get(2)?,
                    module: number(3)?,
                    with,
                }
            }
            7 => Field::End,
            8 => Field::Assume(Expr::read(payload)?),
            9 => Field::Theorem(Expr::read(payload)?),
            _ => return None,
        })
    }
}

impl Display for Field {
    fn fmt(&self, f: &mut Formatter) -> fmt::Result {
        match self {
            Field::Module(name) => write!(f, "MODULE {name}"),
            Field::Extends(names) => write!(f, "EXTENDS {names:?}"),
            Field::Constant(name, count) => write!(f, "CONSTANT n{name}/{count}"),
            Field::Variable(name) => write!(f, "VARIABLE n{name}"),
            Field::Definition(name, count, body) => write!(f, "n{name}/{count} == {body}"),
            Field::Instance {
                name,
                parameters,
                module,
                with,
            } => {
                match name {
                    0 => write!(f, "INSTANCE")?,
                    _ => write!(f, "n{name}/{parameters} == INSTANCE")?,
                }
                write!(f, " {module}")?;
                for (at, (name, expr)) in with.iter().enumerate() {
                    let lead = if at == 0 { " WITH" } else { "," };
                    write!(f, "{lead} n{name} <- {expr}")?;
                }
                Ok(())
            }
            Field::End => write!(f, "END"),
            Field::Assume(formula) => write!(f, "ASSUME {formula}"),
            Field::Theorem(formula) => write!(f, "THEOREM {formula}"),
            Field::Raw(bytes) => write!(f, "bytes {}", hex(bytes)),
        }
    }
}

/// The bytes of a file.
pub fn file(fields: &[Field]) -> Vec<u8> {
    let mut out = Vec::new();
    fields.iter().for_each(|field| field.write(&mut out));
    out
}

/// Reads a file back. What cannot be read, or would be written otherwise, is kept as bytes.
pub fn fields(mut rest: &[u8]) -> Vec<Field> {
    let mut fields = Vec::new();
    while !rest.is_empty() {
        let size = match rest {
            [_, high, low, ..] => 3 + u16::from_be_bytes([*high, *low]) as usize,
            _ => rest.len(),
        };
        let (bytes, tail) = rest.split_at(size.min(rest.len()));
        let read = if bytes.len() == size && size >= 3 {
            Field::read(bytes[0], &bytes[3..])
        } else {
            None
        };
        fields.push(match read {
            Some(field) if field.bytes() == bytes => field,
            _ => Field::Raw(bytes.to_vec()),
        });
        rest = tail;
    }
    fields
}

/// Bytes in hexadecimal.
pub fn hex(bytes: &[u8]) -> String {
    let digits: Vec<String> = bytes.iter().map(|byte| format!("{byte:02x}")).collect();
    digits.join(" ")
}
