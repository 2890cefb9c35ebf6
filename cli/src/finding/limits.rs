//! Cause 5: which limit is passed.

use super::{Finding, Focus, Site};
use crate::archive::MAX_PARAMETERS;
use notation::{Expr, Field, Token};

const MODULES: usize = 16;
const DECLARATIONS: usize = 64;
const DEFINITIONS: usize = 256;
pub(super) const PARAMETERS: usize = MAX_PARAMETERS;
const NESTING: usize = 32;

impl Site<'_> {
    pub(super) fn limit(&self) -> Option<Finding> {
        let passed = match self.field {
            Field::Module { .. } => Some(format!("the file has more than {MODULES} modules")),
            Field::Constant { arguments, .. } if usize::from(*arguments) > PARAMETERS => Some(
                format!("a constant takes {arguments} arguments, and the limit is {PARAMETERS}"),
            ),
            Field::Constant { .. } | Field::Variable { .. } => Some(format!(
                "the file has more than {DECLARATIONS} declarations"
            )),
            Field::Definition {
                parameters, body, ..
            } => self.definition(*parameters, body),
            Field::Instance {
                parameters, module, ..
            } => return self.instance(*parameters, *module),
            Field::Assume { formula } | Field::Theorem { formula } => within(formula),
            Field::Extends { .. } | Field::End => None,
        };
        Some(Finding::new(passed?).mark(self.place, Focus::Field, "a limit passed"))
    }

    fn definition(&self, parameters: u8, body: &Expr) -> Option<String> {
        if usize::from(parameters) > PARAMETERS {
            Some(format!(
                "a definition has {parameters} parameters, and the limit is {PARAMETERS}"
            ))
        } else if self.outline.definitions.len() >= DEFINITIONS {
            Some(format!("the file has more than {DEFINITIONS} definitions"))
        } else {
            within(body)
        }
    }

    fn instance(&self, parameters: u8, module: u16) -> Option<Finding> {
        let own = usize::from(parameters);
        if own > PARAMETERS {
            let message =
                format!("an instance has {own} parameters, and the limit is {PARAMETERS}");
            return Some(Finding::new(message));
        }
        let Field::Instance { substitutions, .. } = self.field else {
            return None;
        };
        let ended = self.outline.ended(module);
        let count = substitutions.len();
        for (place, substitution) in substitutions.iter().enumerate() {
            let declared = ended.and_then(|module| module.declaration(substitution.name));
            let more = declared.map_or(0, |each| usize::from(each.arguments));
            let written = self.operator(substitution.name);
            let passed = if own + more > PARAMETERS {
                Some(format!(
                    "the substitute of {written} has {own} parameters of the instance and {more} of {written}, \
                     and the limit is {PARAMETERS} together"
                ))
            } else {
                within(&substitution.expression)
            };
            if let Some(message) = passed {
                let focus = Focus::Substitution { place, count };
                let finding = Finding::new(message).name(written);
                return Some(finding.mark(self.place, focus, "a limit passed"));
            }
        }
        let brings = &ended?.definitions;
        let total = self.outline.definitions.len() + brings.len();
        if total > DEFINITIONS {
            let message = format!(
                "the instance brings {} definitions, which makes {total}, and the limit is {DEFINITIONS}",
                brings.len()
            );
            return Some(Finding::new(message));
        }
        let definitions = brings
            .iter()
            .map(|&number| &self.outline.definitions[number]);
        let wide = definitions
            .into_iter()
            .find(|each| own + usize::from(each.parameters) > PARAMETERS)?;
        let written = self.operator(wide.name);
        let message = format!(
            "{written} has {} parameters and the instance {own}, and the limit is {PARAMETERS} together",
            wide.parameters
        );
        let finding = Finding::new(message)
            .mark(self.place, Focus::Field, "a limit passed")
            .other(
                wide.field,
                self.word(wide.name),
                format!("{written} is defined here"),
            );
        Some(finding.name(written))
    }
}

/// A limit that an expression passes.
pub(super) fn within(expression: &Expr) -> Option<String> {
    let given = |token: &Token| match token {
        Token::Name { arguments, .. } | Token::Instance { arguments, .. } => *arguments,
        _ => 0,
    };
    let most = expression.tokens().iter().map(given).max().unwrap_or(0);
    if usize::from(most) > PARAMETERS {
        return Some(format!(
            "an operator is given {most} arguments, and the limit is {PARAMETERS}"
        ));
    }
    let nesting = expression.nesting();
    let message = || format!("an expression has nesting {nesting}, and the limit is {NESTING}");
    (nesting > NESTING).then(message)
}
