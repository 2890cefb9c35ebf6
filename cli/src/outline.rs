//! Which names and definitions the fields of a file add: book-keeping for printing.
//!
//! It is only ever made of fields that the archive has let through, and judges nothing.

use notation::Field;

/// A declared name.
#[derive(Clone, Copy, Debug, PartialEq, Eq)]
pub struct Declaration {
    pub name: u16,
    pub arguments: u8,
    pub variable: bool,
    pub field: usize,
}

/// What a name stands for in a module.
#[derive(Clone, Copy, Debug, PartialEq, Eq)]
pub enum Meaning {
    Declared(Declaration),
    /// By the definition's number.
    Defined(usize),
    /// A named instance, by its field.
    Instance(usize),
}

/// A definition, numbered by its place among all.
#[derive(Clone, Copy, Debug)]
pub struct Definition {
    /// The module that added it.
    pub module: u16,
    pub field: usize,
    /// 0 where it is not brought by a named instance.
    pub instance: u16,
    pub name: u16,
    pub parameters: u8,
    /// For a brought one, the number of the definition that it was brought from.
    pub original: Option<usize>,
}

/// A module, ended or not.
#[derive(Clone, Debug)]
pub struct Module {
    pub name: u16,
    /// Its first field.
    pub first: usize,
    /// Its last field, once it has ended.
    pub last: Option<usize>,
    pub declared: Vec<Declaration>,
    pub known: Vec<(u16, Meaning)>,
    /// By number, the extended ones first.
    pub definitions: Vec<usize>,
    /// The fields of named instances, its own and extended.
    pub named: Vec<usize>,
}

impl Module {
    pub fn meaning(&self, name: u16) -> Option<Meaning> {
        let mut known = self.known.iter();
        known
            .find(|(each, _)| *each == name)
            .map(|(_, meaning)| *meaning)
    }

    pub fn declaration(&self, name: u16) -> Option<Declaration> {
        let mut declared = self.declared.iter();
        declared.find(|each| each.name == name).copied()
    }
}

/// What the fields add.
#[derive(Default)]
pub struct Outline {
    pub modules: Vec<Module>,
    pub definitions: Vec<Definition>,
}

impl Outline {
    pub fn of(fields: &[Field]) -> Outline {
        let mut outline = Outline::default();
        for (number, field) in fields.iter().enumerate() {
            outline.add(number, field);
        }
        outline
    }

    /// The module that has not ended.
    pub fn open(&self) -> Option<&Module> {
        self.modules.last().filter(|module| module.last.is_none())
    }

    pub fn ended(&self, name: u16) -> Option<&Module> {
        let mut ended = self.modules.iter().filter(|module| module.last.is_some());
        ended.find(|module| module.name == name)
    }

    /// The field that gave a name its meaning.
    pub fn field(&self, meaning: Meaning) -> usize {
        match meaning {
            Meaning::Declared(declaration) => declaration.field,
            Meaning::Defined(number) => self.definitions[number].field,
            Meaning::Instance(field) => field,
        }
    }

    /// How many arguments a name takes; an instance name is not an operator.
    pub fn arguments(&self, meaning: Meaning) -> Option<u8> {
        match meaning {
            Meaning::Declared(declaration) => Some(declaration.arguments),
            Meaning::Defined(number) => Some(self.definitions[number].parameters),
            Meaning::Instance(_) => None,
        }
    }

    /// A definition that a named instance brought.
    pub fn brought(&self, field: usize, name: u16) -> Option<&Definition> {
        let mut all = self.definitions.iter();
        all.find(|each| each.field == field && each.name == name)
    }

    fn add(&mut self, number: usize, field: &Field) {
        match field {
            Field::Module { name } => self.modules.push(Module {
                name: *name,
                first: number,
                last: None,
                declared: Vec::new(),
                known: Vec::new(),
                definitions: Vec::new(),
                named: Vec::new(),
            }),
            Field::Extends { modules } => self.extend(modules),
            Field::Constant { name, arguments } => self.declare(Declaration {
                name: *name,
                arguments: *arguments,
                variable: false,
                field: number,
            }),
            Field::Variable { name } => self.declare(Declaration {
                name: *name,
                arguments: 0,
                variable: true,
                field: number,
            }),
            Field::Definition {
                name, parameters, ..
            } => self.define(number, 0, *name, *parameters, None),
            Field::Instance {
                name,
                parameters,
                module,
                ..
            } => self.bring(number, *name, *parameters, *module),
            Field::End => {
                if let Some(module) = self.modules.last_mut() {
                    module.last = Some(number);
                }
            }
            Field::Assume { .. } | Field::Theorem { .. } => {}
        }
    }

    fn extend(&mut self, names: &[u16]) {
        let extended: Vec<Module> = names
            .iter()
            .filter_map(|&name| self.ended(name).cloned())
            .collect();
        let Some(module) = self.modules.last_mut() else {
            return;
        };
        for each in extended {
            add_new(&mut module.declared, each.declared);
            add_new(&mut module.known, each.known);
            add_new(&mut module.definitions, each.definitions);
            add_new(&mut module.named, each.named);
        }
    }

    fn declare(&mut self, declaration: Declaration) {
        if let Some(module) = self.modules.last_mut() {
            let meaning = Meaning::Declared(declaration);
            module.declared.push(declaration);
            module.known.push((declaration.name, meaning));
        }
    }

    fn define(
        &mut self,
        field: usize,
        instance: u16,
        name: u16,
        parameters: u8,
        original: Option<usize>,
    ) {
        let number = self.definitions.len();
        let Some(module) = self.modules.last_mut() else {
            return;
        };
        module.definitions.push(number);
        if instance == 0 {
            module.known.push((name, Meaning::Defined(number)));
        }
        self.definitions.push(Definition {
            module: module.name,
            field,
            instance,
            name,
            parameters,
            original,
        });
    }

    /// "an instance adds in its module's order", its parameters before the definition's own.
    fn bring(&mut self, field: usize, name: u16, parameters: u8, from: u16) {
        let order = self.ended(from).map(|module| module.definitions.clone());
        for original in order.unwrap_or_default() {
            let Definition {
                name: own,
                parameters: more,
                ..
            } = self.definitions[original];
            self.define(
                field,
                name,
                own,
                parameters.saturating_add(more),
                Some(original),
            );
        }
        if let Some(module) = self.modules.last_mut().filter(|_| name != 0) {
            module.known.push((name, Meaning::Instance(field)));
            module.named.push(field);
        }
    }
}

/// Adds what is not there yet.
fn add_new<T: PartialEq>(to: &mut Vec<T>, more: Vec<T>) {
    for each in more {
        if !to.contains(&each) {
            to.push(each);
        }
    }
}
