//! Causes 12 to 14: the levels involved, as the archive gives them.

use super::writing::{piece, which, Slot};
use super::{Finding, Focus, Site};
use crate::causes::{self, level};
use crate::innermost::{innermost, Innermost};
use crate::outline::{Declaration, Module};
use crate::probe;
use crate::question::Parameter;
use notation::{Expr, Field, Token};

/// What stands in a declared name's place.
pub(super) struct Substitute {
    pub(super) declared: Declaration,
    pub(super) expression: Expr,
    /// All parameters that it is over.
    pub(super) parameters: u8,
    /// Its place among the substitutions that are written.
    pub(super) written: Option<usize>,
}

impl Substitute {
    pub(super) fn slot(&self) -> Slot {
        Slot {
            parameters: self.parameters,
            substitution: self.written,
        }
    }

    /// With its parameters at 0.
    pub(super) fn level(&self, before: &[Field]) -> Option<u8> {
        let levels = vec![0; usize::from(self.parameters)];
        probe::level(before, &levels, &self.expression)
    }
}

impl Site<'_> {
    pub(super) fn not_level_correct(&self) -> Option<Finding> {
        match self.field {
            Field::Definition {
                parameters, body, ..
            } => self.innermost(Slot::only(*parameters), body),
            Field::Assume { formula } | Field::Theorem { formula } => {
                self.innermost(Slot::only(0), formula)
            }
            Field::Instance { module, .. } => {
                let instanced = self.outline.ended(*module)?;
                let substitute = self.faulty(instanced, 12)?;
                let name = self.operator(substitute.declared.name);
                let inner = self.innermost(substitute.slot(), &substitute.expression);
                let mut finding =
                    Finding::new(format!("the substitute of {name} has {}", level(4)));
                finding = self.at(finding, &substitute, level(4));
                if let Some(inner) = inner {
                    finding.notes.push(inner.message);
                    finding.notes.extend(inner.notes);
                }
                Some(finding.name(name))
            }
            _ => None,
        }
    }

    /// The innermost expression that is not level-correct.
    fn innermost(&self, slot: Slot, body: &Expr) -> Option<Finding> {
        let inner = innermost(self.before, &self.levels(slot), body)?;
        let finding = match &inner.mixed {
            Some(mixed) => self.mixed_terms(slot, &inner, mixed),
            None => self.level_not_taken(slot, &inner),
        };
        match self.taken_at(slot) {
            None => Some(finding),
            Some(taken) => Some(finding.note(taken)),
        }
    }

    /// The levels at which parameters are taken: those that a query gives, or 0.
    fn levels(&self, slot: Slot) -> Vec<u8> {
        match self.given {
            Some(given) => given.iter().map(|each| each.level).collect(),
            None => vec![0; usize::from(slot.parameters)],
        }
    }

    fn taken_at(&self, slot: Slot) -> Option<String> {
        if slot.parameters == 0 {
            return None;
        }
        let Some(given) = self.given else {
            return Some("parameters are taken at level 0".to_string());
        };
        let each = |each: &Parameter| format!("{} at {}", each.name, level(each.level));
        let each: Vec<String> = given.iter().map(each).collect();
        Some(format!("given: {}", each.join(", ")))
    }

    fn level_not_taken(&self, slot: Slot, inner: &Innermost) -> Finding {
        let arguments = &inner.arguments;
        let levels: Vec<u8> = arguments.iter().filter_map(|each| each.level).collect();
        let text = match levels[..] {
            _ if levels.len() < arguments.len() || levels.is_empty() => level(4),
            [only] => format!("its argument has {}", level(only)),
            _ => {
                let levels: Vec<String> = levels.iter().map(u8::to_string).collect();
                format!("its arguments have levels {}", levels.join(", "))
            }
        };
        let taken = match inner.whole.head() {
            Token::BuiltIn(code) => causes::takes(code).map(str::to_string),
            head => self.called(head).map(|called| not_taken(&called, inner)),
        };
        let (message, focus) = match self.written_part(slot, &inner.whole) {
            Some(written) => (
                format!("{written} is not level-correct"),
                piece(&inner.whole, &written),
            ),
            None => (
                "an expression is not level-correct".to_string(),
                Focus::Field,
            ),
        };
        let finding = Finding::new(message).mark(self.place, focus, text);
        match taken {
            Some(taken) => finding.note(taken),
            None => finding,
        }
    }

    /// An operator that is not built in, as it is called.
    pub(super) fn called(&self, head: Token) -> Option<String> {
        match head {
            Token::Name { name, .. } => Some(self.operator(name)),
            Token::Instance { instance, name, .. } => Some(format!(
                "{}!{}",
                self.operator(instance),
                self.operator(name)
            )),
            _ => None,
        }
    }

    pub(super) fn assume_level(&self) -> Option<Finding> {
        let Field::Assume { formula } = self.field else {
            return None;
        };
        let found = probe::level(self.before, &[], formula)?;
        let finding = Finding::new(format!("what is assumed has {}, not level 0", level(found)));
        Some(finding.mark(self.place, Focus::Field, level(found)))
    }

    /// The substitutes of an instance of a module, those that stand for themselves included.
    pub(super) fn substitutes(&self, instanced: &Module) -> Vec<Substitute> {
        let Field::Instance {
            parameters,
            substitutions,
            ..
        } = self.field
        else {
            return Vec::new();
        };
        let each = instanced.declared.iter().filter_map(|&declared| {
            let written = substitutions
                .iter()
                .position(|each| each.name == declared.name);
            let expression = match written {
                Some(place) => substitutions[place].expression.clone(),
                None => itself(declared, *parameters)?,
            };
            Some(Substitute {
                declared,
                expression,
                parameters: parameters.checked_add(declared.arguments)?,
                written,
            })
        });
        each.collect()
    }

    /// The first substitute for which the instance is refused with a number.
    fn faulty(&self, instanced: &Module, number: u32) -> Option<Substitute> {
        let declared = &instanced.declared;
        let faulty = |each: &Substitute| {
            probe::at_fault(
                self.before,
                self.field,
                declared,
                each.declared.name,
                number,
            )
        };
        self.substitutes(instanced).into_iter().find(faulty)
    }

    /// Marks a substitute.
    fn at(&self, finding: Finding, substitute: &Substitute, text: String) -> Finding {
        finding.mark(self.place, self.substituted_at(substitute), text)
    }

    /// Where a substitute stands in the field.
    pub(super) fn substituted_at(&self, substitute: &Substitute) -> Focus {
        let count = match self.field {
            Field::Instance { substitutions, .. } => substitutions.len(),
            _ => 0,
        };
        match substitute.written {
            Some(place) => Focus::Substitution { place, count },
            None => Focus::Field,
        }
    }

    pub(super) fn substitute_level(&self) -> Option<Finding> {
        let Field::Instance { module, .. } = self.field else {
            return None;
        };
        let instanced = self.outline.ended(*module)?;
        let substitute = self.faulty(instanced, 14)?;
        let declared = substitute.declared;
        let name = self.operator(declared.name);
        let called = format!("module {}", self.input.module(*module));
        let found = substitute
            .level(self.before)
            .map_or_else(|| "too high a level".to_string(), level);
        let (kind, takes) = match declared {
            Declaration { variable: true, .. } => ("variable", "level 0 or 1"),
            Declaration { arguments: 1.., .. } => ("operator", "level 0"),
            _ => ("constant", "level 0"),
        };
        let written = self.written(substitute.slot(), &substitute.expression)?;
        let message = match self.variable(&substitute.expression) {
            Some(_) => format!("the variable {written} stands for the {kind} {name} of {called}"),
            None => format!("{written}, {found}, stands for the {kind} {name} of {called}"),
        };
        let text = format!("{written} has {found}, and {name} takes {takes}");
        let finding = self.at(Finding::new(message), &substitute, text).other(
            declared.field,
            self.word(declared.name),
            format!("{name} is declared a {kind} of {called}"),
        );
        let finding = self.origin(finding, &substitute.expression);
        Some(
            self.why(finding, instanced, declared)
                .name(name)
                .name(written),
        )
    }

    /// The declaration of a variable that is all of an expression.
    fn variable(&self, expression: &Expr) -> Option<Declaration> {
        let [Token::Name { name, arguments: 0 }] = expression.tokens() else {
            return None;
        };
        let declared = self.outline.open()?.declaration(*name);
        declared.filter(|each| each.variable)
    }

    /// Where a variable comes from that stands for something else.
    fn origin(&self, finding: Finding, expression: &Expr) -> Finding {
        match self.variable(expression) {
            Some(each) => {
                let text = format!("{} is a variable", self.operator(each.name));
                finding.other(each.field, self.word(each.name), text)
            }
            None => finding,
        }
    }

    /// Why the module instanced does not take more.
    fn why(&self, finding: Finding, instanced: &Module, declared: Declaration) -> Finding {
        let called = self.input.module(instanced.name);
        if declared.arguments > 0 {
            return finding.note("an operator takes a substitute of level 0 in every module");
        }
        if declared.variable {
            return finding.note("a variable may be replaced by a constant or a state only");
        }
        let variable = instanced.declared.iter().find(|each| each.variable);
        let reason = match variable.map(|each| self.operator(each.name)) {
            Some(variable) => format!("has variables ({variable} is one)"),
            None => "has a definition above level 0".to_string(),
        };
        finding.note(format!(
            "module {called} {reason}, so its constants may be replaced by constants only"
        ))
    }
}

/// What an operator that is not built in does not take.
fn not_taken(called: &str, inner: &Innermost) -> String {
    let arguments = &inner.arguments;
    let found = inner.not_taken.and_then(|at| {
        let found = arguments[at].level?;
        Some((which(&[at], arguments.len()), level(found)))
    });
    match found {
        Some((argument, found)) => format!("{called} does not take its {argument} at {found}"),
        None => format!("the card of {called} has level 4 there"),
    }
}

/// A declared name as it stands for itself: given its own arguments, which follow the instance's.
fn itself(declared: Declaration, parameters: u8) -> Option<Expr> {
    let mut tokens = vec![Token::Name {
        name: declared.name,
        arguments: declared.arguments,
    }];
    for place in 0..declared.arguments {
        tokens.push(Token::Parameter(parameters.checked_add(place)?));
    }
    Expr::from_tokens(tokens).ok()
}
