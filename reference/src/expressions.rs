//! Tokens, the layout of an expression, and the flat trees that expressions are read into.

use crate::limits::Limits;
use crate::rows::{self, Row};

/// A token as it stands in the file.
#[derive(Clone, Copy, Debug)]
pub enum Token {
    Parameter(u8),
    Bound(u16),
    Name { name: u16, count: u8 },
    InstanceName { instance: u16, name: u16, count: u8 },
    BuiltIn { code: u8, row: &'static Row },
    Literal(u16),
}

impl Token {
    /// Reads the first token and gives the number of its bytes; `None` if it is cut short, has an
    /// unknown tag or code, or a name 0.
    #[inline]
    pub fn read(bytes: &[u8]) -> Option<(Token, usize)> {
        let number = |high: u8, low: u8| u16::from_be_bytes([high, low]);
        match *bytes {
            [0, index, ..] => Some((Token::Parameter(index), 2)),
            [1, high, low, ..] => Some((Token::Bound(number(high, low)), 3)),
            [2, high, low, count, ..] => match number(high, low) {
                0 => None,
                name => Some((Token::Name { name, count }, 4)),
            },
            [3, a, b, c, d, count, ..] => match (number(a, b), number(c, d)) {
                (0, _) | (_, 0) => None,
                (instance, name) => Some((
                    Token::InstanceName {
                        instance,
                        name,
                        count,
                    },
                    6,
                )),
            },
            [4, code, ..] => rows::row(code).map(|row| (Token::BuiltIn { code, row }, 2)),
            [5, high, low, ..] => Some((Token::Literal(number(high, low)), 3)),
            _ => None,
        }
    }

    /// The number of arguments that follow.
    #[inline]
    pub fn arguments(&self) -> usize {
        match *self {
            Token::Parameter(_) | Token::Bound(_) | Token::Literal(_) => 0,
            Token::Name { count, .. } | Token::InstanceName { count, .. } => count as usize,
            Token::BuiltIn { row, .. } => row.arguments as usize,
        }
    }
}

/// What a flat scan of an expression finds.
#[derive(Clone, Copy, Debug, PartialEq, Eq)]
pub enum Layout {
    /// Cut short, left over, or with an unknown token, code or name 0.
    Broken,
    /// Well laid out, but with too many arguments or too deep.
    OverLimit,
    /// Well laid out and within the limits.
    Sound,
}

/// Scans the layout of an expression that should fill the bytes, of any length and nesting.
pub fn layout(bytes: &[u8]) -> Layout {
    let mut rest = bytes;
    let mut awaited = 1usize;
    // Arguments still to come of each operator around the next token.
    let mut open = [0u8; Limits::NESTING];
    let mut depth = 0;
    let mut within = true;
    while awaited > 0 {
        let Some((token, size)) = Token::read(rest) else {
            return Layout::Broken;
        };
        rest = &rest[size..];
        let arguments = token.arguments();
        awaited = awaited - 1 + arguments;
        if !within {
            continue;
        }
        if arguments > Limits::PARAMETERS || depth == Limits::NESTING {
            within = false;
        } else if arguments > 0 {
            open[depth] = arguments as u8;
            depth += 1;
        } else {
            while depth > 0 {
                open[depth - 1] -= 1;
                if open[depth - 1] > 0 {
                    break;
                }
                depth -= 1;
            }
        }
    }
    if !rest.is_empty() {
        Layout::Broken
    } else if within {
        Layout::Sound
    } else {
        Layout::OverLimit
    }
}

/// A token whose names are found: `id` numbers the declarations, `number` the definitions.
#[derive(Clone, Copy, Debug, PartialEq, Eq)]
pub enum Node {
    Parameter(u8),
    Bound(u16),
    Declared { id: u8, count: u8 },
    Defined { number: u8, count: u8 },
    BuiltIn(u8),
    Literal(u16),
}

/// Expressions in prefix order, one after another; an expression is the place of its first node.
#[derive(Debug, Default)]
pub struct Texts {
    pub nodes: Vec<Node>,
    /// For each node the place after its expression.
    pub ends: Vec<u32>,
}

/// What names mean to a reader of an expression.
pub trait Names {
    /// The operator of this name with the number of its parameters.
    fn operator(&self, name: u16) -> Option<(Operator, u8)>;
    /// The definition I!F with the number of its parameters.
    fn instance_operator(&self, instance: u16, name: u16) -> Option<(u8, u8)>;
}

/// An operator that a name can stand for.
#[derive(Clone, Copy, Debug, PartialEq, Eq)]
pub enum Operator {
    Declared(u8),
    Defined(u8),
}

/// Faults of names (cause 9) and of argument counts (cause 10).
#[derive(Clone, Copy, Debug, Default)]
pub struct Faults {
    pub unknown: bool,
    pub miscounted: bool,
}

impl Texts {
    /// Reads a sound expression over so many parameters, notes its faults, and gives its place.
    /// The nodes mean something only if there are none.
    pub fn read(
        &mut self,
        bytes: &[u8],
        names: &impl Names,
        parameters: usize,
        faults: &mut Faults,
    ) -> u32 {
        let start = self.nodes.len() as u32;
        // A token has two bytes or more.
        self.nodes.reserve(bytes.len() / 2);
        self.ends.reserve(bytes.len() / 2);
        let mut reader = Reader {
            texts: self,
            rest: bytes,
            names,
            parameters,
            faults,
        };
        reader.expression(0);
        start
    }

    /// The place after the expression.
    #[inline]
    pub fn end(&self, at: u32) -> u32 {
        self.ends[at as usize]
    }

    /// The place of an argument.
    #[inline]
    pub fn argument(&self, at: u32, index: usize) -> u32 {
        let mut place = at + 1;
        for _ in 0..index {
            place = self.end(place);
        }
        place
    }
}

struct Reader<'a, N> {
    texts: &'a mut Texts,
    rest: &'a [u8],
    names: &'a N,
    parameters: usize,
    faults: &'a mut Faults,
}

impl<N: Names> Reader<'_, N> {
    /// Reads one expression below so many binders. The layout has bounded the nesting.
    fn expression(&mut self, binders: usize) {
        let (token, size) = Token::read(self.rest).expect("a sound expression");
        self.rest = &self.rest[size..];
        let place = self.texts.nodes.len();
        let node = self.node(token, binders);
        self.texts.nodes.push(node);
        self.texts.ends.push(0);
        match token {
            Token::BuiltIn { row, .. } => {
                for argument in 0..row.arguments as usize {
                    self.expression(binders + row.binds_in(argument).is_some() as usize);
                }
            }
            _ => {
                for _ in 0..token.arguments() {
                    self.expression(binders);
                }
            }
        }
        self.texts.ends[place] = self.texts.nodes.len() as u32;
    }

    fn node(&mut self, token: Token, binders: usize) -> Node {
        match token {
            Token::Parameter(index) => {
                self.faults.unknown |= index as usize >= self.parameters;
                Node::Parameter(index)
            }
            Token::Bound(index) => {
                self.faults.unknown |= index as usize >= binders;
                Node::Bound(index)
            }
            Token::Name { name, count } => match self.names.operator(name) {
                None => self.unknown(),
                Some((operator, parameters)) => {
                    self.faults.miscounted |= count != parameters;
                    match operator {
                        Operator::Declared(id) => Node::Declared { id, count },
                        Operator::Defined(number) => Node::Defined { number, count },
                    }
                }
            },
            Token::InstanceName {
                instance,
                name,
                count,
            } => match self.names.instance_operator(instance, name) {
                None => self.unknown(),
                Some((number, parameters)) => {
                    self.faults.miscounted |= count != parameters;
                    Node::Defined { number, count }
                }
            },
            Token::BuiltIn { code, .. } => Node::BuiltIn(code),
            Token::Literal(value) => Node::Literal(value),
        }
    }

    fn unknown(&mut self) -> Node {
        self.faults.unknown = true;
        Node::Literal(0)
    }
}
