//! From a file to tagged bytes.

use crate::ast::{Expr, Field, File, Token};
use std::fmt;

/// Why a field has no bytes.
#[derive(Clone, Copy, Debug, PartialEq, Eq)]
pub enum EncodeFault {
    /// A name is 0.
    NameZero,
    /// EXTENDS names no module.
    NoModule,
    /// An unnamed instance has parameters.
    UnnamedWithParameters,
    /// More than 255 substitutions.
    TooManySubstitutions,
    /// The payload would be longer than two bytes can say.
    TooLong(usize),
}

/// A field that has no bytes.
#[derive(Clone, Copy, Debug, PartialEq, Eq)]
pub struct EncodeError {
    /// The number of the field, from 0.
    pub field: usize,
    pub fault: EncodeFault,
}

impl fmt::Display for EncodeFault {
    fn fmt(&self, f: &mut fmt::Formatter<'_>) -> fmt::Result {
        match self {
            EncodeFault::NameZero => write!(f, "a name is 0"),
            EncodeFault::NoModule => write!(f, "EXTENDS names no module"),
            EncodeFault::UnnamedWithParameters => write!(f, "an unnamed instance has parameters"),
            EncodeFault::TooManySubstitutions => {
                write!(f, "an instance has more than 255 substitutions")
            }
            EncodeFault::TooLong(length) => write!(
                f,
                "it would take {length} bytes, and a field holds at most 65535"
            ),
        }
    }
}

impl fmt::Display for EncodeError {
    fn fmt(&self, f: &mut fmt::Formatter<'_>) -> fmt::Result {
        write!(f, "field {}: {}", self.field, self.fault)
    }
}

impl std::error::Error for EncodeError {}

/// The tagged bytes of a file. Spellings leave no trace in them.
pub fn encode(file: &File) -> Result<Vec<u8>, EncodeError> {
    let mut bytes = Vec::new();
    for (number, field) in file.fields.iter().enumerate() {
        put_field(&mut bytes, field).map_err(|fault| EncodeError {
            field: number,
            fault,
        })?;
    }
    Ok(bytes)
}

/// What keeps a field from having bytes.
pub(crate) fn fault(field: &Field) -> Option<EncodeFault> {
    let mut zero = false;
    field.for_each_name(|_, name| zero |= name == 0);
    if zero {
        return Some(EncodeFault::NameZero);
    }
    match field {
        Field::Extends { modules } if modules.is_empty() => return Some(EncodeFault::NoModule),
        Field::Instance {
            name: 0,
            parameters: 1..,
            ..
        } => return Some(EncodeFault::UnnamedWithParameters),
        Field::Instance { substitutions, .. } if substitutions.len() > 255 => {
            return Some(EncodeFault::TooManySubstitutions);
        }
        _ => {}
    }
    let length = field.length();
    (length > 65535).then_some(EncodeFault::TooLong(length))
}

fn put_field(bytes: &mut Vec<u8>, field: &Field) -> Result<(), EncodeFault> {
    if let Some(fault) = fault(field) {
        return Err(fault);
    }
    bytes.push(match field {
        Field::Module { .. } => 1,
        Field::Extends { .. } => 2,
        Field::Constant { .. } => 3,
        Field::Variable { .. } => 4,
        Field::Definition { .. } => 5,
        Field::Instance { .. } => 6,
        Field::End => 7,
        Field::Assume { .. } => 8,
        Field::Theorem { .. } => 9,
    });
    put_number(bytes, field.length());
    match field {
        Field::Module { name } | Field::Variable { name } => put_name(bytes, *name),
        Field::Extends { modules } => {
            for &module in modules {
                put_name(bytes, module);
            }
        }
        Field::Constant { name, arguments } => {
            put_name(bytes, *name);
            bytes.push(*arguments);
        }
        Field::Definition {
            name,
            parameters,
            body,
        } => {
            put_name(bytes, *name);
            bytes.push(*parameters);
            put_expression(bytes, body);
        }
        Field::Instance {
            name,
            parameters,
            module,
            substitutions,
        } => {
            put_name(bytes, *name);
            bytes.push(*parameters);
            put_name(bytes, *module);
            bytes.push(substitutions.len() as u8);
            for substitution in substitutions {
                put_name(bytes, substitution.name);
                put_number(bytes, substitution.expression.length());
                put_expression(bytes, &substitution.expression);
            }
        }
        Field::End => {}
        Field::Assume { formula } | Field::Theorem { formula } => put_expression(bytes, formula),
    }
    Ok(())
}

/// A length, which the field's own length keeps within two bytes.
fn put_number(bytes: &mut Vec<u8>, number: usize) {
    put_name(bytes, number as u16);
}

fn put_name(bytes: &mut Vec<u8>, name: u16) {
    bytes.extend_from_slice(&name.to_be_bytes());
}

/// Puts the bytes of an expression.
fn put_expression(bytes: &mut Vec<u8>, expression: &Expr) {
    for token in expression.tokens() {
        match *token {
            Token::Parameter(index) => bytes.extend_from_slice(&[0, index]),
            Token::Bound(index) => {
                bytes.push(1);
                put_name(bytes, index);
            }
            Token::Name { name, arguments } => {
                bytes.push(2);
                put_name(bytes, name);
                bytes.push(arguments);
            }
            Token::Instance {
                instance,
                name,
                arguments,
            } => {
                bytes.push(3);
                put_name(bytes, instance);
                put_name(bytes, name);
                bytes.push(arguments);
            }
            Token::BuiltIn(code) => bytes.extend_from_slice(&[4, code]),
            Token::Literal(value) => {
                bytes.push(5);
                put_name(bytes, value);
            }
        }
    }
}

impl Expr {
    /// Its tagged bytes, as a query takes them.
    pub fn encode(&self) -> Vec<u8> {
        let mut bytes = Vec::with_capacity(self.length());
        put_expression(&mut bytes, self);
        bytes
    }
}
