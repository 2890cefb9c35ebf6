//! From tagged bytes to a file, or to the first fault of the layout.

use crate::ast::{Expr, Field, File, Substitution, Token};
use crate::codes;
use crate::names::Names;
use std::fmt;

/// A fault of the layout.
#[derive(Clone, Copy, Debug, PartialEq, Eq)]
pub enum Reason {
    /// Bytes are missing at the end of the file, of the field or of the substitute.
    CutShort,
    /// Bytes are left after the last part of a field or of a substitute.
    LeftOver,
    /// The tag is not one of the nine.
    UnknownTag(u8),
    /// The token is not one of the six.
    UnknownToken(u8),
    /// No built-in has the code.
    UnknownCode(u8),
    /// A name is 0.
    NameZero,
    /// An unnamed instance has parameters.
    UnnamedWithParameters,
}

/// Where and why bytes are not a file.
#[derive(Clone, Copy, Debug, PartialEq, Eq)]
pub struct DecodeError {
    /// The byte at fault, counted from 0; where bytes are missing, the first missing one.
    pub offset: usize,
    /// The number of the field, from 0.
    pub field: usize,
    pub reason: Reason,
}

impl fmt::Display for Reason {
    fn fmt(&self, f: &mut fmt::Formatter<'_>) -> fmt::Result {
        match self {
            Reason::CutShort => write!(f, "bytes are missing"),
            Reason::LeftOver => write!(f, "bytes are left over"),
            Reason::UnknownTag(tag) => write!(f, "no field has the tag {tag}"),
            Reason::UnknownToken(token) => write!(f, "no token begins with {token}"),
            Reason::UnknownCode(code) => write!(f, "no built-in has the code {code}"),
            Reason::NameZero => write!(f, "a name is 0"),
            Reason::UnnamedWithParameters => write!(f, "an unnamed instance has parameters"),
        }
    }
}

impl fmt::Display for DecodeError {
    fn fmt(&self, f: &mut fmt::Formatter<'_>) -> fmt::Result {
        let DecodeError {
            offset,
            field,
            reason,
        } = self;
        write!(f, "byte {offset}, in field {field}: {reason}")
    }
}

impl std::error::Error for DecodeError {}

type Fault = (usize, Reason);

/// The file that the bytes hold, without spellings.
pub fn decode(bytes: &[u8]) -> Result<File, DecodeError> {
    let mut fields = Vec::new();
    let mut input = Input {
        bytes,
        at: 0,
        end: bytes.len(),
    };
    while input.at < input.end {
        let field = input.field().map_err(|(offset, reason)| DecodeError {
            offset,
            field: fields.len(),
            reason,
        })?;
        fields.push(field);
    }
    Ok(File {
        fields,
        names: Names::new(),
    })
}

impl Expr {
    /// The expression that the bytes hold, as a query takes them; the field of a fault is 0.
    pub fn decode(bytes: &[u8]) -> Result<Expr, DecodeError> {
        let mut input = Input {
            bytes,
            at: 0,
            end: bytes.len(),
        };
        let read = input
            .expression()
            .and_then(|expression| input.finished().map(|()| expression));
        read.map_err(|(offset, reason)| DecodeError {
            offset,
            field: 0,
            reason,
        })
    }
}

/// A part of the bytes that is still to be read.
#[derive(Clone, Copy)]
struct Input<'b> {
    bytes: &'b [u8],
    at: usize,
    end: usize,
}

impl Input<'_> {
    fn byte(&mut self) -> Result<u8, Fault> {
        if self.at == self.end {
            return Err((self.at, Reason::CutShort));
        }
        self.at += 1;
        Ok(self.bytes[self.at - 1])
    }

    fn number(&mut self) -> Result<u16, Fault> {
        Ok(u16::from_be_bytes([self.byte()?, self.byte()?]))
    }

    fn name(&mut self) -> Result<u16, Fault> {
        let at = self.at;
        match self.number()? {
            0 => Err((at, Reason::NameZero)),
            name => Ok(name),
        }
    }

    /// The next `length` bytes as an input of their own.
    fn part(&mut self, length: u16) -> Result<Self, Fault> {
        let length = usize::from(length);
        if self.end - self.at < length {
            return Err((self.end, Reason::CutShort));
        }
        let part = Input {
            end: self.at + length,
            ..*self
        };
        self.at = part.end;
        Ok(part)
    }

    fn finished(&self) -> Result<(), Fault> {
        if self.at == self.end {
            Ok(())
        } else {
            Err((self.at, Reason::LeftOver))
        }
    }

    fn field(&mut self) -> Result<Field, Fault> {
        let start = self.at;
        let tag = self.byte()?;
        if !(1..=9).contains(&tag) {
            return Err((start, Reason::UnknownTag(tag)));
        }
        let length = self.number()?;
        let mut payload = self.part(length)?;
        let field = payload.payload(tag)?;
        payload.finished()?;
        Ok(field)
    }

    fn payload(&mut self, tag: u8) -> Result<Field, Fault> {
        Ok(match tag {
            1 => Field::Module { name: self.name()? },
            2 => {
                let mut modules = vec![self.name()?];
                while self.at < self.end {
                    modules.push(self.name()?);
                }
                Field::Extends { modules }
            }
            3 => Field::Constant {
                name: self.name()?,
                arguments: self.byte()?,
            },
            4 => Field::Variable { name: self.name()? },
            5 => Field::Definition {
                name: self.name()?,
                parameters: self.byte()?,
                body: self.expression()?,
            },
            6 => self.instance()?,
            7 => Field::End,
            8 => Field::Assume {
                formula: self.expression()?,
            },
            _ => Field::Theorem {
                formula: self.expression()?,
            },
        })
    }

    fn instance(&mut self) -> Result<Field, Fault> {
        let name = self.number()?;
        let at = self.at;
        let parameters = self.byte()?;
        if name == 0 && parameters > 0 {
            return Err((at, Reason::UnnamedWithParameters));
        }
        let module = self.name()?;
        let count = self.byte()?;
        let mut substitutions = Vec::new();
        for _ in 0..count {
            let name = self.name()?;
            let length = self.number()?;
            let mut part = self.part(length)?;
            let expression = part.expression()?;
            part.finished()?;
            substitutions.push(Substitution { name, expression });
        }
        Ok(Field::Instance {
            name,
            parameters,
            module,
            substitutions,
        })
    }

    fn expression(&mut self) -> Result<Expr, Fault> {
        let mut tokens = Vec::new();
        let mut wanted = 1usize;
        while wanted > 0 {
            let token = self.token()?;
            wanted = wanted - 1 + token.arguments().unwrap_or(0);
            tokens.push(token);
        }
        Expr::from_tokens(tokens).map_err(|_| (self.at, Reason::CutShort))
    }

    fn token(&mut self) -> Result<Token, Fault> {
        let at = self.at;
        Ok(match self.byte()? {
            0 => Token::Parameter(self.byte()?),
            1 => Token::Bound(self.number()?),
            2 => Token::Name {
                name: self.name()?,
                arguments: self.byte()?,
            },
            3 => Token::Instance {
                instance: self.name()?,
                name: self.name()?,
                arguments: self.byte()?,
            },
            4 => {
                let code = self.byte()?;
                if codes::arguments(code).is_none() {
                    return Err((at + 1, Reason::UnknownCode(code)));
                }
                Token::BuiltIn(code)
            }
            5 => Token::Literal(self.number()?),
            other => return Err((at, Reason::UnknownToken(other))),
        })
    }
}
