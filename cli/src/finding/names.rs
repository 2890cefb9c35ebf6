//! Causes 6 to 11 and 16: the names involved.

use super::{Finding, Focus, Site};
use crate::outline::{Declaration, Meaning, Module};
use notation::{codes, Expr, Field, Space, Token};

/// An expression of a field, with how many parameters it is over.
struct Place<'e> {
    expression: &'e Expr,
    parameters: usize,
}

/// Something wrong with a name in an expression.
enum Fault {
    Parameter(u8),
    Bound(u16),
    Operator(u16),
    InstanceAsOperator(u16, usize),
    Instance(u16),
    Brought(u16, u16, usize),
    Count {
        /// 0 for an operator that is not an instance's.
        instance: u16,
        name: u16,
        given: u8,
        taken: u8,
        field: usize,
    },
}

impl Site<'_> {
    pub(super) fn module_used(&self) -> Option<Finding> {
        let Field::Module { name } = self.field else {
            return None;
        };
        let earlier = self
            .outline
            .modules
            .iter()
            .find(|each| each.name == *name)?;
        let written = self.input.module(*name);
        let finding = Finding::new(format!("there is a module {written} already"))
            .mark(self.place, Focus::Word(written.clone()), "the name again")
            .other(
                earlier.first,
                Focus::Word(written.clone()),
                "its first module",
            );
        Some(finding.name(written))
    }

    pub(super) fn module_not_ended(&self) -> Option<Finding> {
        let named = match self.field {
            Field::Extends { modules } => modules.as_slice(),
            Field::Instance { module, .. } => std::slice::from_ref(module),
            _ => return None,
        };
        let missing = *named
            .iter()
            .find(|name| self.outline.ended(**name).is_none())?;
        let written = self.input.module(missing);
        let fields = &self.input.file.fields;
        let begins = |field: &Field| matches!(field, Field::Module { name } if *name == missing);
        let place = fields.iter().position(begins);
        let why = match place {
            None => "the file has no such module",
            Some(place) if place < self.place => "the module has not ended here",
            Some(_) => "the module stands later in the file",
        };
        let message = format!("module {written} has not ended before this field");
        let mut finding = Finding::new(message).mark(self.place, Focus::Word(written.clone()), why);
        if let Some(place) = place {
            let word = Focus::Word(written.clone());
            finding = finding.other(place, word, "it begins here");
        }
        Some(finding.name(written))
    }

    pub(super) fn name_taken(&self) -> Option<Finding> {
        let open = self.outline.open()?;
        match self.field {
            Field::Constant { name, .. }
            | Field::Variable { name }
            | Field::Definition { name, .. } => self.taken(open, *name),
            Field::Instance { name, .. } if *name != 0 => self.taken(open, *name),
            Field::Instance { module, .. } => {
                let brought = &self.outline.ended(*module)?.definitions;
                let brought = brought
                    .iter()
                    .map(|&number| self.outline.definitions[number].name);
                let name = { brought }.find(|name| open.meaning(*name).is_some())?;
                let finding = self.taken(open, name)?;
                Some(finding.note(
                    "the instance has no name, so it brings its definitions under their own names",
                ))
            }
            Field::Extends { modules } => self.clash(modules),
            _ => None,
        }
    }

    fn taken(&self, open: &Module, name: u16) -> Option<Finding> {
        let meaning = open.meaning(name)?;
        let written = self.operator(name);
        let finding = Finding::new(format!("{written} has a meaning here already"))
            .mark(self.place, self.word(name), format!("{written} again"))
            .other(
                self.outline.field(meaning),
                self.word(name),
                self.added_as(meaning),
            );
        Some(finding.name(written))
    }

    fn added_as(&self, meaning: Meaning) -> String {
        match meaning {
            Meaning::Declared(Declaration { variable: true, .. }) => {
                "a variable, declared here".into()
            }
            Meaning::Declared(_) => "a constant, declared here".into(),
            Meaning::Defined(number) if self.outline.definitions[number].original.is_some() => {
                "brought by the instance here".into()
            }
            Meaning::Defined(_) => "defined here".into(),
            Meaning::Instance(_) => "the name of the instance here".into(),
        }
    }

    /// One name from two origins.
    fn clash(&self, modules: &[u16]) -> Option<Finding> {
        let extended = modules.iter().filter_map(|&name| self.outline.ended(name));
        let mut known: Vec<(u16, Meaning)> = Vec::new();
        for (name, meaning) in extended.flat_map(|module| module.known.iter().copied()) {
            match known.iter().find(|(each, _)| *each == name) {
                Some((_, first)) if *first != meaning => {
                    let written = self.operator(name);
                    let message = format!("{written} comes from two origins");
                    let finding = Finding::new(message)
                        .mark(self.place, Focus::Field, format!("both bring {written}"))
                        .other(
                            self.outline.field(*first),
                            self.word(name),
                            self.added_as(*first),
                        )
                        .other(
                            self.outline.field(meaning),
                            self.word(name),
                            self.added_as(meaning),
                        );
                    return Some(finding.name(written));
                }
                Some(_) => {}
                None => known.push((name, meaning)),
            }
        }
        None
    }

    pub(super) fn unknown(&self) -> Option<Finding> {
        let counts = |fault: &Fault| matches!(fault, Fault::Count { .. });
        let fault = self.faults().into_iter().find(|(each, _)| !counts(each));
        match fault {
            Some((fault, before)) => Some(self.told(fault, before)),
            None => self.missing(),
        }
    }

    pub(super) fn argument_count(&self) -> Option<Finding> {
        match self.faults().into_iter().next() {
            Some((fault, before)) => Some(self.told(fault, before)),
            None => self.miscounted(),
        }
    }

    /// The expressions of the field.
    fn places(&self) -> Vec<Place<'_>> {
        match self.field {
            Field::Definition {
                parameters, body, ..
            } => vec![Place {
                expression: body,
                parameters: usize::from(*parameters),
            }],
            Field::Assume { formula } | Field::Theorem { formula } => vec![Place {
                expression: formula,
                parameters: 0,
            }],
            Field::Instance {
                parameters,
                module,
                substitutions,
                ..
            } => {
                let module = self.outline.ended(*module);
                let each = substitutions.iter().map(|substitution| {
                    let declared = module.and_then(|module| module.declaration(substitution.name));
                    let more = declared.map_or(0, |each| each.arguments);
                    Place {
                        expression: &substitution.expression,
                        parameters: usize::from(*parameters) + usize::from(more),
                    }
                });
                each.collect()
            }
            _ => Vec::new(),
        }
    }

    /// What is wrong with the names of the field's expressions, each with how many names stand
    /// before it in the field.
    fn faults(&self) -> Vec<(Fault, usize)> {
        let mut faults = Vec::new();
        let Some(open) = self.outline.open() else {
            return faults;
        };
        let (mut before, each) = match self.field {
            Field::Definition { .. } => (1, 0),
            Field::Instance { name, .. } => (1 + usize::from(*name != 0), 1),
            _ => (0, 0),
        };
        for place in self.places() {
            before += each;
            // For each token that is still to come, the number of binders around it.
            let mut waiting = vec![0usize];
            for &token in place.expression.tokens() {
                let depth = waiting.pop().unwrap_or(0);
                let count = token.arguments().unwrap_or(0);
                let binds = matches!(token, Token::BuiltIn(code) if codes::binds(code));
                for argument in (0..count).rev() {
                    waiting.push(depth + usize::from(binds && argument + 1 == count));
                }
                let fault = self.fault(open, token, place.parameters, depth);
                faults.extend(fault.map(|fault| (fault, before)));
                before += match token {
                    Token::Name { .. } => 1,
                    Token::Instance { .. } => 2,
                    _ => 0,
                };
            }
        }
        faults
    }

    fn fault(&self, open: &Module, token: Token, parameters: usize, depth: usize) -> Option<Fault> {
        let miscounted = |instance, name, given, taken, field| {
            let fault = Fault::Count {
                instance,
                name,
                given,
                taken,
                field,
            };
            (given != taken).then_some(fault)
        };
        match token {
            Token::Parameter(index) => {
                (usize::from(index) >= parameters).then_some(Fault::Parameter(index))
            }
            Token::Bound(index) => (usize::from(index) >= depth).then_some(Fault::Bound(index)),
            Token::Name { name, arguments } => match open.meaning(name) {
                None => Some(Fault::Operator(name)),
                Some(Meaning::Instance(field)) => Some(Fault::InstanceAsOperator(name, field)),
                Some(meaning) => {
                    let taken = self.outline.arguments(meaning)?;
                    miscounted(0, name, arguments, taken, self.outline.field(meaning))
                }
            },
            Token::Instance {
                instance,
                name,
                arguments,
            } => match open.meaning(instance) {
                Some(Meaning::Instance(field)) => match self.outline.brought(field, name) {
                    None => Some(Fault::Brought(instance, name, field)),
                    Some(brought) => {
                        miscounted(instance, name, arguments, brought.parameters, field)
                    }
                },
                _ => Some(Fault::Instance(instance)),
            },
            Token::BuiltIn(_) | Token::Literal(_) => None,
        }
    }

    /// A word of this field, given how many names stand before it.
    fn used(&self, name: u16, before: usize) -> Focus {
        let word = self.operator(name);
        let mut names = Vec::new();
        self.field.for_each_name(|space, name| {
            names.push(match space {
                Space::Modules => self.input.module(name),
                Space::Operators => self.operator(name),
            });
        });
        let earlier = names.iter().take(before).filter(|each| **each == word);
        Focus::Nth(earlier.count(), word)
    }

    fn told(&self, fault: Fault, before: usize) -> Finding {
        let here = self.place;
        match fault {
            Fault::Parameter(index) => Finding::new(format!("there is no parameter {index} here"))
                .mark(here, Focus::Word(format!("?p{index}")), "no such parameter"),
            Fault::Bound(index) => {
                let message = format!("there is no bound variable {index} here");
                let word = Focus::Word(format!("?b{index}"));
                Finding::new(message).mark(here, word, "nothing binds it")
            }
            Fault::Operator(name) => {
                let written = self.operator(name);
                Finding::new(format!("{written} is not known here"))
                    .mark(here, self.used(name, before), "unknown")
                    .name(written)
            }
            Fault::Instance(name) => {
                let written = self.operator(name);
                Finding::new(format!("{written} is not the name of an instance here"))
                    .mark(here, self.used(name, before), "no instance has this name")
                    .name(written)
            }
            Fault::InstanceAsOperator(name, field) => {
                let written = self.operator(name);
                Finding::new(format!(
                    "{written} is the name of an instance, not an operator"
                ))
                .mark(here, self.used(name, before), "used as an operator")
                .other(field, self.word(name), "the instance")
                .name(written)
            }
            Fault::Brought(instance, name, field) => {
                let (instance, written) = (self.operator(instance), self.operator(name));
                Finding::new(format!("{instance} brings no definition {written}"))
                    .mark(
                        here,
                        Focus::Piece(format!("{instance}!{written}")),
                        "unknown",
                    )
                    .other(field, Focus::Word(instance.clone()), "the instance")
                    .name(format!("{instance}!{written}"))
            }
            Fault::Count {
                instance,
                name,
                given,
                taken,
                field,
            } => {
                let (head, written) = match instance {
                    0 => (name, self.operator(name)),
                    _ => {
                        let brought =
                            format!("{}!{}", self.operator(instance), self.operator(name));
                        (instance, brought)
                    }
                };
                let takes = format!("{written} takes {}", counted(taken));
                Finding::new(format!("{takes}, and is given {given}"))
                    .mark(here, self.used(head, before), format!("{given} given"))
                    .other(field, self.word(head), takes)
                    .name(written)
            }
        }
    }

    /// The declared names of the instanced module that no substitution replaces.
    fn by_themselves(&self) -> Vec<Declaration> {
        let Field::Instance {
            module,
            substitutions,
            ..
        } = self.field
        else {
            return Vec::new();
        };
        let declared = self
            .outline
            .ended(*module)
            .map(|module| module.declared.as_slice());
        let replaced = |name: u16| substitutions.iter().any(|each| each.name == name);
        let rest = declared.unwrap_or_default().iter();
        rest.filter(|each| !replaced(each.name)).copied().collect()
    }

    fn missing(&self) -> Option<Finding> {
        let open = self.outline.open()?;
        let operator = |name| {
            open.meaning(name)
                .and_then(|meaning| self.outline.arguments(meaning))
        };
        let rest = self.by_themselves();
        let missing = rest.iter().find(|each| operator(each.name).is_none())?;
        let written = self.operator(missing.name);
        let message =
            format!("{written} has no substitution, and is not known here to stand for itself");
        let finding = Finding::new(message)
            .mark(self.place, Focus::Field, format!("nothing for {written}"))
            .other(missing.field, self.word(missing.name), "declared here");
        Some(finding.name(written))
    }

    fn miscounted(&self) -> Option<Finding> {
        let open = self.outline.open()?;
        let rest = self.by_themselves();
        let (declared, meaning, taken) = rest.iter().find_map(|each| {
            let meaning = open.meaning(each.name)?;
            let taken = self.outline.arguments(meaning)?;
            (taken != each.arguments).then_some((each, meaning, taken))
        })?;
        let written = self.operator(declared.name);
        let wanted = counted(declared.arguments);
        let message = format!(
            "{written} stands for itself, but takes {} here and {wanted} in the module instanced",
            counted(taken)
        );
        let finding = Finding::new(message)
            .mark(
                self.place,
                Focus::Field,
                format!("no substitution for {written}"),
            )
            .other(
                declared.field,
                self.word(declared.name),
                format!("takes {wanted}"),
            )
            .other(
                self.outline.field(meaning),
                self.word(declared.name),
                format!("takes {}", counted(taken)),
            );
        Some(finding.name(written))
    }

    pub(super) fn substituted(&self) -> Option<Finding> {
        let Field::Instance {
            module,
            substitutions,
            ..
        } = self.field
        else {
            return None;
        };
        let instanced = self.outline.ended(*module)?;
        let called = self.input.module(*module);
        let count = substitutions.len();
        for (place, substitution) in substitutions.iter().enumerate() {
            let written = self.operator(substitution.name);
            let earlier = substitutions[..place]
                .iter()
                .any(|each| each.name == substitution.name);
            let message = if instanced.declaration(substitution.name).is_none() {
                format!("{written} is not declared in module {called}")
            } else if earlier {
                format!("{written} is substituted twice")
            } else {
                continue;
            };
            let finding = Finding::new(message)
                .mark(self.place, Focus::Substitution { place, count }, "this one")
                .other(instanced.first, Focus::Field, "the module instanced");
            return Some(finding.name(written));
        }
        None
    }

    pub(super) fn named_instance(&self) -> Option<Finding> {
        let Field::Instance { module, .. } = self.field else {
            return None;
        };
        let instanced = self.outline.ended(*module)?;
        let inner = *instanced.named.first()?;
        let called = self.input.module(*module);
        let name = match &self.before[inner] {
            Field::Instance { name, .. } => self.operator(*name),
            _ => return None,
        };
        let message =
            format!("module {called} has the named instance {name}, so it cannot be instanced");
        let finding = Finding::new(message)
            .mark(self.place, Focus::Word(called.clone()), "instanced here")
            .other(inner, Focus::Word(name.clone()), "the named instance");
        Some(finding.name(called).name(name))
    }
}

fn counted(arguments: u8) -> String {
    match arguments {
        0 => "no arguments".to_string(),
        1 => "1 argument".to_string(),
        more => format!("{more} arguments"),
    }
}
