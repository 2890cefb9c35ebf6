//! Fields of the file: their layout, read without any context.

use crate::expressions::{self, Layout};

/// An expression written in a field, its layout sound.
#[derive(Clone, Copy, Debug)]
pub struct Written<'a> {
    pub bytes: &'a [u8],
    /// Where it begins in the file.
    pub start: usize,
    /// Whether its argument counts and its nesting are within the limits.
    pub within: bool,
}

/// A substitution of an INSTANCE field.
#[derive(Clone, Copy, Debug)]
pub struct Substitution<'a> {
    pub name: u16,
    pub expression: Written<'a>,
}

/// An INSTANCE field.
#[derive(Clone, Debug)]
pub struct InstanceField<'a> {
    /// 0 if unnamed.
    pub name: u16,
    pub parameters: u8,
    pub module: u16,
    pub substitutions: Vec<Substitution<'a>>,
}

/// A well laid out field.
#[derive(Clone, Debug)]
pub enum Field<'a> {
    Module {
        name: u16,
    },
    /// Module names, two bytes each.
    Extends {
        names: &'a [u8],
    },
    Constant {
        name: u16,
        count: u8,
    },
    Variable {
        name: u16,
    },
    Definition {
        name: u16,
        parameters: u8,
        body: Written<'a>,
    },
    Instance(InstanceField<'a>),
    End,
    Assume(Written<'a>),
    Theorem(Written<'a>),
}

/// A cursor over the fields of a file.
pub struct Fields<'a> {
    file: &'a [u8],
    at: usize,
}

impl<'a> Fields<'a> {
    pub fn new(file: &'a [u8]) -> Self {
        Fields { file, at: 0 }
    }

    /// Bytes of the fields read so far; one whose payload is not all there is not counted.
    pub fn at(&self) -> usize {
        self.at
    }

    /// Reads the next field: `None` at the end of the file, `Some(None)` for a broken layout.
    pub fn read(&mut self) -> Option<Option<Field<'a>>> {
        if self.at == self.file.len() {
            return None;
        }
        Some(self.field())
    }

    fn field(&mut self) -> Option<Field<'a>> {
        let mut input = Input {
            file: self.file,
            at: self.at,
            end: self.file.len(),
        };
        let tag = input.byte()?;
        let length = input.number()? as usize;
        let payload = input.part(length)?;
        self.at = input.at;
        payload.field(tag)
    }
}

/// A part of the file being read.
struct Input<'a> {
    file: &'a [u8],
    at: usize,
    end: usize,
}

impl<'a> Input<'a> {
    fn left(&self) -> usize {
        self.end - self.at
    }

    fn byte(&mut self) -> Option<u8> {
        if self.left() == 0 {
            return None;
        }
        self.at += 1;
        Some(self.file[self.at - 1])
    }

    fn number(&mut self) -> Option<u16> {
        let high = self.byte()?;
        let low = self.byte()?;
        Some(u16::from_be_bytes([high, low]))
    }

    fn name(&mut self) -> Option<u16> {
        self.number().filter(|&name| name != 0)
    }

    /// Splits off so many bytes.
    fn part(&mut self, length: usize) -> Option<Input<'a>> {
        if self.left() < length {
            return None;
        }
        let part = Input {
            file: self.file,
            at: self.at,
            end: self.at + length,
        };
        self.at += length;
        Some(part)
    }

    /// The expression that fills what is left.
    fn expression(self) -> Option<Written<'a>> {
        let bytes = &self.file[self.at..self.end];
        let within = match expressions::layout(bytes) {
            Layout::Broken => return None,
            Layout::OverLimit => false,
            Layout::Sound => true,
        };
        Some(Written {
            bytes,
            start: self.at,
            within,
        })
    }

    /// The value, if nothing is left.
    fn closed<T>(self, value: T) -> Option<T> {
        (self.left() == 0).then_some(value)
    }

    fn field(mut self, tag: u8) -> Option<Field<'a>> {
        match tag {
            1 => {
                let name = self.name()?;
                self.closed(Field::Module { name })
            }
            2 => {
                let names = &self.file[self.at..self.end];
                let whole = !names.is_empty() && names.len().is_multiple_of(2);
                let sound = whole && names.chunks_exact(2).all(|name| name != [0, 0]);
                sound.then_some(Field::Extends { names })
            }
            3 => {
                let name = self.name()?;
                let count = self.byte()?;
                self.closed(Field::Constant { name, count })
            }
            4 => {
                let name = self.name()?;
                self.closed(Field::Variable { name })
            }
            5 => {
                let name = self.name()?;
                let parameters = self.byte()?;
                let body = self.expression()?;
                Some(Field::Definition {
                    name,
                    parameters,
                    body,
                })
            }
            6 => self.instance().map(Field::Instance),
            7 => self.closed(Field::End),
            8 => self.expression().map(Field::Assume),
            9 => self.expression().map(Field::Theorem),
            _ => None,
        }
    }

    fn instance(mut self) -> Option<InstanceField<'a>> {
        let name = self.number()?;
        let parameters = self.byte()?;
        if name == 0 && parameters > 0 {
            return None;
        }
        let module = self.name()?;
        let count = self.byte()?;
        let mut substitutions = Vec::new();
        for _ in 0..count {
            let name = self.name()?;
            let length = self.number()? as usize;
            let expression = self.part(length)?.expression()?;
            substitutions.push(Substitution { name, expression });
        }
        self.closed(InstanceField {
            name,
            parameters,
            module,
            substitutions,
        })
    }
}
