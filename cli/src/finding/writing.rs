//! Expressions in the words of the field: its parameters and bound variables as they are written.

use super::{Focus, Site};
use crate::archive::MAX_PARAMETERS;
use crate::innermost::Part;
use notation::{codes, Expr, ExprFault, Field, File, Token};

/// One of the field's expressions.
#[derive(Clone, Copy)]
pub(super) struct Slot {
    /// All that it is over.
    pub(super) parameters: u8,
    /// Of an instance, its place among the substitutions that are written.
    pub(super) substitution: Option<usize>,
}

impl Slot {
    /// What a definition or a formula holds.
    pub(super) fn only(parameters: u8) -> Slot {
        Slot {
            parameters,
            substitution: None,
        }
    }
}

/// As many as an operator may have arguments.
const ORDINALS: [&str; MAX_PARAMETERS] = [
    "first", "second", "third", "fourth", "fifth", "sixth", "seventh", "eighth",
];

/// Some of an operator's arguments.
pub(super) fn which(places: &[usize], count: usize) -> String {
    let words = places.iter().filter_map(|&place| ORDINALS.get(place));
    let words: Vec<&str> = words.copied().collect();
    match words[..] {
        [] => "arguments".to_string(),
        [_] if count == 1 => "argument".to_string(),
        [one] => format!("{one} argument"),
        _ if words.len() == count => "arguments".to_string(),
        [ref before @ .., last] => format!("{} and {last} arguments", before.join(", ")),
    }
}

impl Site<'_> {
    /// An expression in a slot, as it would be written there.
    pub(super) fn written(&self, slot: Slot, expression: &Expr) -> Option<String> {
        let names = &self.input.file.names;
        match (self.field, slot.substitution) {
            // A name that stands for itself is not written.
            (Field::Instance { .. }, None) => {
                let written = notation::print_expression(expression, names, slot.parameters);
                Some(written)
            }
            _ => self.printed(slot, expression.clone()),
        }
    }

    /// A part of the expression in a slot, as it is written there.
    ///
    /// The spellings of bound variables are kept by the order of their binders. So the part is
    /// printed after as many binders as stand before it, and under those that it stands under.
    pub(super) fn written_part(&self, slot: Slot, part: &Part) -> Option<String> {
        let framed = |inner: Expr| self.printed(slot, framed(part.binders(), inner).ok()?);
        let closing = ")".repeat(part.binders().iter().filter(|around| !**around).count());
        let frame = framed(literal().ok()?)?;
        let opening = frame.strip_suffix(&closing)?.strip_suffix('0')?;
        let whole = framed(part.written().clone())?;
        let written = whole.strip_prefix(opening)?.strip_suffix(&closing)?;
        Some(written.to_string())
    }

    /// What the notation prints for an expression in a slot.
    fn printed(&self, slot: Slot, expression: Expr) -> Option<String> {
        let mut field = self.field.clone();
        let sign = match &mut field {
            Field::Definition { body, .. } => {
                *body = expression;
                " == "
            }
            Field::Assume { formula } | Field::Theorem { formula } => {
                *formula = expression;
                " "
            }
            Field::Instance { substitutions, .. } => {
                substitutions.truncate(slot.substitution? + 1);
                substitutions.last_mut()?.expression = expression;
                " <- "
            }
            _ => return None,
        };
        let text = notation::print(&File {
            fields: [self.before, &[field]].concat(),
            names: self.input.file.names.clone(),
        });
        let line = text.trim_end().rsplit('\n').next()?;
        Some(line.split_once(sign)?.1.to_string())
    }
}

/// A part of the field's text; what is one word is looked for as a word.
pub(super) fn piece(part: &Part, written: &str) -> Focus {
    match part.alone() {
        true => Focus::Word(written.to_string()),
        false => Focus::Piece(written.to_string()),
    }
}

fn literal() -> Result<Expr, ExprFault> {
    Expr::new(Token::Literal(0), &[])
}

/// An expression under some binders and after the others.
fn framed(binders: &[bool], inner: Expr) -> Result<Expr, ExprFault> {
    // A built-in that is written as it is applied, so that no parentheses are put in.
    const APPLIED: u8 = 60;
    let bound = |body| Expr::new(Token::BuiltIn(codes::BINDERS), &[body]);
    binders.iter().rev().try_fold(inner, |inner, around| {
        if *around {
            return bound(inner);
        }
        Expr::new(Token::BuiltIn(APPLIED), &[bound(literal()?)?, inner])
    })
}

#[cfg(test)]
mod tests {
    use super::which;

    #[test]
    fn arguments_by_place() {
        for (places, count, words) in [
            (&[0][..], 1, "argument"),
            (&[0], 2, "first argument"),
            (&[7], 8, "eighth argument"),
            (&[0, 1], 2, "arguments"),
            (&[0, 3], 6, "first and fourth arguments"),
            (&[1, 4, 5], 6, "second, fifth and sixth arguments"),
            (&[0, 1, 2, 3, 4, 5, 6, 7], 8, "arguments"),
        ] {
            assert_eq!(which(places, count), words);
        }
    }
}
