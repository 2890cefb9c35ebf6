//! Judges a file field by field; within a field the causes come in the order of the code below. That is
//! the order of their numbers, but for cause 21: an INSTANCE is judged by 4, 5, 7 to 12, 14, 21, 16.

use crate::cards::Card;
use crate::context::{
    Declaration, Definition, Dictionary, Entity, Instance, Module, Scope, Substitute, Tables,
};
use crate::expressions::{Faults, Operator, Texts};
use crate::fields::{Field, Fields, InstanceField, Written};
use crate::levels::{self, Form};
use crate::limits::Limits;
use crate::refusal::{Cause, Refusal};
use crate::summaries::Summaries;
use std::collections::HashMap;

/// An accepted file.
#[derive(Debug)]
pub struct Program {
    /// Number of fields.
    pub fields: usize,
    pub tables: Tables,
    pub texts: Texts,
    /// By definition.
    pub cards: Vec<Card>,
}

/// By what the substitutes of an INSTANCE are lawful. The second opinion is tried with other rules than
/// the papers'.
#[derive(Clone, Copy, Debug, PartialEq, Eq)]
pub struct Rules {
    /// The highest level that an operator takes, in every module.
    pub operator: u8,
    /// The highest level that a variable takes in a module that is not constant.
    pub variable: u8,
    /// The highest level that a constant takes there.
    pub constant: u8,
    /// Whether cause 21 is judged.
    pub mixed: bool,
    /// Whether cause 16 is judged.
    pub named_inside: bool,
}

impl Rules {
    /// "In a module that is not constant, a constant takes level 0 and a variable 0 or 1. In every module
    /// an operator takes a substitute of level 0. Otherwise any level but 4."
    pub const PAPERS: Rules = Rules {
        operator: 0,
        variable: 1,
        constant: 0,
        mixed: true,
        named_inside: true,
    };
}

/// What came of a file.
pub struct Judged {
    /// What its fields added, up to the first at fault.
    pub program: Program,
    pub refusal: Option<Refusal>,
    /// Bytes up to the end of the last field that was judged.
    pub read: usize,
}

impl Program {
    /// Judges a file.
    pub fn judge(file: &[u8]) -> Result<Program, Refusal> {
        Self::judge_by(Rules::PAPERS, file).accepted()
    }

    /// Judges a file without cause 16, so that the definitions brought on can be looked at.
    #[cfg(test)]
    pub fn judge_leniently(file: &[u8]) -> Result<Program, Refusal> {
        let lenient = Rules {
            named_inside: false,
            ..Rules::PAPERS
        };
        Self::judge_by(lenient, file).accepted()
    }

    /// Judges a file by these rules.
    pub fn judge_by(rules: Rules, file: &[u8]) -> Judged {
        let mut judge = Judge::new(rules);
        if file.is_empty() || file.len() > Limits::FILE {
            return judge.done(Some(Cause::FileSize.at(0)), 0);
        }
        let mut fields = Fields::new(file);
        while let Some(field) = fields.read() {
            let verdict = match field {
                None => Err(Cause::Layout),
                Some(field) => judge.field(field),
            };
            if let Err(cause) = verdict {
                let refusal = cause.at(judge.number);
                return judge.done(Some(refusal), fields.at());
            }
            judge.number += 1;
        }
        let open = judge.state != State::Outside;
        let refusal = open.then(|| Cause::Order.at(judge.number));
        judge.done(refusal, fields.at())
    }
}

impl Judged {
    fn accepted(self) -> Result<Program, Refusal> {
        match self.refusal {
            None => Ok(self.program),
            Some(refusal) => Err(refusal),
        }
    }
}

#[derive(Clone, Copy, Debug, PartialEq, Eq)]
enum State {
    /// Between modules.
    Outside,
    /// Right after a module field.
    Begun,
    /// Further inside a module.
    Inside,
}

struct Judge {
    rules: Rules,
    /// The number of the field being judged.
    number: usize,
    state: State,
    tables: Tables,
    texts: Texts,
    forms: Summaries<Form>,
    cards: Vec<Card>,
    /// The module being read, if any.
    current: Module,
    dictionary: Dictionary,
}

/// Turns down with a cause if it holds.
fn refuse_if(holds: bool, cause: Cause) -> Result<(), Cause> {
    if holds {
        Err(cause)
    } else {
        Ok(())
    }
}

impl Judge {
    fn new(rules: Rules) -> Self {
        Judge {
            rules,
            number: 0,
            state: State::Outside,
            tables: Tables::new(),
            texts: Texts::default(),
            forms: Summaries::new(),
            cards: Vec::new(),
            current: Module::new(0),
            dictionary: Dictionary::new(),
        }
    }

    fn done(self, refusal: Option<Refusal>, read: usize) -> Judged {
        Judged {
            program: Program {
                fields: self.number,
                tables: self.tables,
                texts: self.texts,
                cards: self.cards,
            },
            refusal,
            read,
        }
    }

    /// Judges a well laid out field and adds what it brings.
    fn field(&mut self, field: Field) -> Result<(), Cause> {
        let (in_order, next) = match field {
            Field::Module { .. } => (self.state == State::Outside, State::Begun),
            Field::Extends { .. } => (self.state == State::Begun, State::Inside),
            Field::End => (self.state != State::Outside, State::Outside),
            _ => (self.state != State::Outside, State::Inside),
        };
        refuse_if(!in_order, Cause::Order)?;
        self.state = next;
        match field {
            Field::Module { name } => self.module(name),
            Field::Extends { names } => self.extends(names),
            Field::Constant { name, count } => self.declaration(name, count, false),
            Field::Variable { name } => self.declaration(name, 0, true),
            Field::Definition {
                name,
                parameters,
                body,
            } => self.definition(name, parameters, body),
            Field::Instance(field) => self.instance(field),
            Field::End => {
                self.end();
                Ok(())
            }
            Field::Assume(formula) => {
                let level = self.formula(formula)?;
                refuse_if(level > 0, Cause::AssumeLevel)
            }
            Field::Theorem(formula) => self.formula(formula).map(|_| ()),
        }
    }

    fn module(&mut self, name: u16) -> Result<(), Cause> {
        let modules = &self.tables.modules;
        refuse_if(modules.len() == Limits::MODULES, Cause::Limit)?;
        let used = modules.iter().any(|module| module.name == name);
        refuse_if(used, Cause::ModuleNameUsed)?;
        self.current = Module::new(name);
        Ok(())
    }

    fn end(&mut self) {
        let mut module = std::mem::replace(&mut self.current, Module::new(0));
        self.dictionary.clear(&module.context);
        for (place, &number) in module.order.iter().enumerate() {
            let definition = &self.tables.definitions[number as usize];
            if definition.instance == 0 {
                module.plain.push((definition.name, place as u8));
            }
        }
        module.plain.sort_unstable();
        let declarations = &self.tables.declarations;
        let variable = |&id: &u8| declarations[id as usize].variable;
        module.constant = !module.declared.iter().any(variable)
            && module
                .order
                .iter()
                .all(|&d| self.cards[d as usize].at_zero() == 0);
        self.tables.modules.push(module);
    }

    /// The ended module of this name.
    fn ended(&self, name: u16) -> Option<usize> {
        self.tables.modules.iter().position(|m| m.name == name)
    }

    fn find(&self, name: u16) -> Option<Entity> {
        self.dictionary.find(&self.current.context, name)
    }

    fn add(&mut self, name: u16, entity: Entity) {
        self.dictionary.add(name, self.current.context.len());
        self.current.context.push((name, entity));
    }

    fn extends(&mut self, names: &[u8]) -> Result<(), Cause> {
        let mut named: Vec<usize> = Vec::new();
        for name in names.chunks_exact(2) {
            let module = self.ended(u16::from_be_bytes([name[0], name[1]]));
            let module = module.ok_or(Cause::ModuleNotEnded)?;
            if !named.contains(&module) {
                named.push(module);
            }
        }
        let mut declared = [false; Limits::DECLARATIONS];
        let mut defined = [false; Limits::DEFINITIONS];
        for &module in &named {
            let module = &self.tables.modules[module];
            for &(name, entity) in &module.context {
                match self.dictionary.find(&self.current.context, name) {
                    Some(found) => refuse_if(found != entity, Cause::NameTaken)?,
                    None => {
                        self.dictionary.add(name, self.current.context.len());
                        self.current.context.push((name, entity));
                    }
                }
            }
            for &id in &module.declared {
                if !std::mem::replace(&mut declared[id as usize], true) {
                    self.current.declared.push(id);
                }
            }
            for &number in &module.order {
                if !std::mem::replace(&mut defined[number as usize], true) {
                    self.current.append(number);
                }
            }
            self.current.has_instance |= module.has_instance;
        }
        Ok(())
    }

    fn declaration(&mut self, name: u16, count: u8, variable: bool) -> Result<(), Cause> {
        let id = self.tables.declarations.len();
        let over = count as usize > Limits::PARAMETERS || id == Limits::DECLARATIONS;
        refuse_if(over, Cause::Limit)?;
        refuse_if(self.find(name).is_some(), Cause::NameTaken)?;
        self.tables.declarations.push(Declaration {
            name,
            count,
            variable,
        });
        self.current.declared.push(id as u8);
        self.add(name, Entity::Operator(Operator::Declared(id as u8)));
        Ok(())
    }

    /// Reads an expression of the current module.
    fn read(&mut self, written: Written, parameters: usize, faults: &mut Faults) -> u32 {
        let scope = Scope {
            tables: &self.tables,
            context: &self.current.context,
            dictionary: &self.dictionary,
        };
        self.texts.read(written.bytes, &scope, parameters, faults)
    }

    /// Levels an expression of the current module by the cards, parameters at 0.
    fn level(&self, text: u32) -> u8 {
        let zeros = [0; Limits::SLOTS];
        let declarations = &self.tables.declarations;
        levels::by_cards(&self.texts, text, declarations, &self.cards, &zeros)
    }

    fn definition(&mut self, name: u16, parameters: u8, body: Written) -> Result<(), Cause> {
        let number = self.tables.definitions.len();
        let over = parameters as usize > Limits::PARAMETERS || number == Limits::DEFINITIONS;
        refuse_if(over || !body.within, Cause::Limit)?;
        refuse_if(self.find(name).is_some(), Cause::NameTaken)?;
        let mut faults = Faults::default();
        let text = self.read(body, parameters as usize, &mut faults);
        name_faults(faults)?;
        self.enter(Definition {
            instance: 0,
            name,
            parameters,
            text,
            world: Tables::ROOT,
            body: (body.start as u32, body.bytes.len() as u32),
            brought: None,
        });
        refuse_if(self.cards[number].at_zero() == 4, Cause::NotLevelCorrect)?;
        let operator = Operator::Defined(number as u8);
        self.add(name, Entity::Operator(operator));
        Ok(())
    }

    /// Adds a definition with its form and card to the current module's.
    fn enter(&mut self, definition: Definition) {
        let number = self.tables.definitions.len();
        let (text, world) = (definition.text, definition.world);
        let form = self.forms.of_text(&self.tables, &self.texts, text, world);
        self.forms.set(number, form);
        self.cards.push(form.card(definition.parameters));
        self.tables.definitions.push(definition);
        self.current.append(number as u8);
    }

    /// The level of an ASSUME or THEOREM formula.
    fn formula(&mut self, formula: Written) -> Result<u8, Cause> {
        refuse_if(!formula.within, Cause::Limit)?;
        let mut faults = Faults::default();
        let text = self.read(formula, 0, &mut faults);
        name_faults(faults)?;
        let level = self.level(text);
        refuse_if(level == 4, Cause::NotLevelCorrect)?;
        Ok(level)
    }

    fn instance(&mut self, field: InstanceField) -> Result<(), Cause> {
        let ended = self.ended(field.module);
        self.instance_limits(&field, ended)?;
        let module = ended.ok_or(Cause::ModuleNotEnded)?;
        self.instance_names(&field, module)?;
        let substitutes = self.substitutes(&field, module)?;
        self.substitute_levels(module, &substitutes)?;
        let named_inside = self.tables.modules[module].has_instance;
        refuse_if(
            named_inside && self.rules.named_inside,
            Cause::NamedInstance,
        )?;
        self.bring(&field, module, substitutes);
        Ok(())
    }

    /// The declaration of this name in an ended module.
    fn declared_in(&self, module: usize, name: u16) -> Option<u8> {
        let declared = self.tables.modules[module].declared.iter().copied();
        let mut named = declared.filter(|&id| self.tables.declarations[id as usize].name == name);
        named.next()
    }

    /// The number of arguments of a declared name, 0 if it is not declared there.
    fn arguments_of(&self, module: Option<usize>, name: u16) -> usize {
        let id = module.and_then(|module| self.declared_in(module, name));
        id.map_or(0, |id| self.tables.declarations[id as usize].count as usize)
    }

    fn instance_limits(&self, field: &InstanceField, ended: Option<usize>) -> Result<(), Cause> {
        let own = field.parameters as usize;
        let mut over = own > Limits::PARAMETERS;
        for substitution in &field.substitutions {
            let more = self.arguments_of(ended, substitution.name);
            over |= own + more > Limits::PARAMETERS || !substitution.expression.within;
        }
        if let Some(module) = ended {
            let order = &self.tables.modules[module].order;
            let definitions = &self.tables.definitions;
            over |= definitions.len() + order.len() > Limits::DEFINITIONS;
            over |= order.iter().any(|&number| {
                own + definitions[number as usize].parameters as usize > Limits::PARAMETERS
            });
        }
        refuse_if(over, Cause::Limit)
    }

    fn instance_names(&self, field: &InstanceField, module: usize) -> Result<(), Cause> {
        let taken = if field.name != 0 {
            self.find(field.name).is_some()
        } else {
            let plain = &self.tables.modules[module].plain;
            plain.iter().any(|&(name, _)| self.find(name).is_some())
        };
        refuse_if(taken, Cause::NameTaken)
    }

    /// Reads the substitutes, by declaration of the file.
    fn substitutes(
        &mut self,
        field: &InstanceField,
        module: usize,
    ) -> Result<Vec<Option<Substitute>>, Cause> {
        let mut substitutes = vec![None; self.tables.declarations.len()];
        let mut faults = Faults::default();
        let mut unlawful = false;
        for substitution in &field.substitutions {
            let id = self.declared_in(module, substitution.name);
            let more = self.arguments_of(Some(module), substitution.name);
            let parameters = field.parameters as usize + more;
            let text = self.read(substitution.expression, parameters, &mut faults);
            match id {
                None => unlawful = true,
                Some(id) => {
                    let before = substitutes[id as usize].replace(Substitute::Written(text));
                    unlawful |= before.is_some();
                }
            }
        }
        for &id in &self.tables.modules[module].declared {
            if substitutes[id as usize].is_some() {
                continue;
            }
            let declaration = &self.tables.declarations[id as usize];
            match self.find(declaration.name) {
                Some(Entity::Operator(operator)) => {
                    faults.miscounted |= self.tables.parameters(operator) != declaration.count;
                    substitutes[id as usize] = Some(Substitute::Same(operator));
                }
                Some(Entity::Instance(_)) | None => faults.unknown = true,
            }
        }
        name_faults(faults)?;
        refuse_if(unlawful, Cause::Substitution)?;
        Ok(substitutes)
    }

    /// Causes 12, 14 and 21.
    fn substitute_levels(
        &self,
        module: usize,
        substitutes: &[Option<Substitute>],
    ) -> Result<(), Cause> {
        let module = &self.tables.modules[module];
        let mut unlawful = false;
        let (mut action, mut temporal) = (false, false);
        for &id in &module.declared {
            let level = match substitutes[id as usize].expect("every declared name has one") {
                Substitute::Written(text) => self.level(text),
                Substitute::Same(Operator::Declared(same)) => {
                    self.tables.declarations[same as usize].variable as u8
                }
                Substitute::Same(Operator::Defined(same)) => self.cards[same as usize].at_zero(),
            };
            refuse_if(level == 4, Cause::NotLevelCorrect)?;
            let declaration = &self.tables.declarations[id as usize];
            let most = if declaration.count > 0 {
                self.rules.operator
            } else if module.constant {
                3
            } else if declaration.variable {
                self.rules.variable
            } else {
                self.rules.constant
            };
            unlawful |= level > most;
            action |= level == 2;
            temporal |= level == 3;
        }
        refuse_if(unlawful, Cause::SubstituteLevel)?;
        let mixed = self.rules.mixed && action && temporal;
        refuse_if(module.constant && mixed, Cause::MixedSubstitutes)
    }

    /// Adds the instance and the definitions it brings.
    fn bring(
        &mut self,
        field: &InstanceField,
        module: usize,
        substitutes: Vec<Option<Substitute>>,
    ) {
        let instance = self.tables.instances.len() as u16;
        let start = self.tables.definitions.len();
        let order = self.tables.modules[module].order.clone();
        self.tables.instances.push(Instance {
            field: self.number as u32,
            module,
            parameters: field.parameters,
            start: start as u16,
            substitutes: if order.is_empty() {
                Vec::new()
            } else {
                substitutes
            },
        });
        let mut worlds = HashMap::new();
        for &number in &order {
            let original = self.tables.definitions[number as usize];
            let world = self.tables.follow(original.world, instance, &mut worlds);
            self.enter(Definition {
                instance: field.name,
                parameters: field.parameters + original.parameters,
                world,
                brought: Some((instance, number)),
                ..original
            });
        }
        self.forms.forget_substitutes();
        if field.name != 0 {
            self.current.has_instance = true;
            self.add(field.name, Entity::Instance(instance));
        } else {
            for place in 0..self.tables.modules[module].plain.len() {
                let (name, place) = self.tables.modules[module].plain[place];
                let operator = Operator::Defined((start + place as usize) as u8);
                self.add(name, Entity::Operator(operator));
            }
        }
    }
}

/// Causes 9 and 10 of the expressions read.
fn name_faults(faults: Faults) -> Result<(), Cause> {
    refuse_if(faults.unknown, Cause::Unknown)?;
    refuse_if(faults.miscounted, Cause::ArgumentCount)
}
