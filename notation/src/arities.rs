//! How many arguments a declared name of a module takes: what a substitute of it is over.

use crate::ast::Field;
use std::collections::{HashMap, HashSet};

#[derive(Default)]
struct Declared {
    own: HashMap<u16, u8>,
    extended: Vec<u16>,
}

/// The declarations of the fields read so far.
#[derive(Default)]
pub(crate) struct Arities {
    ended: HashMap<u16, Declared>,
    open: Option<(u16, Declared)>,
}

impl Arities {
    /// Takes the next field of the file.
    pub fn add(&mut self, field: &Field) {
        match field {
            Field::Module { name } => self.open = Some((*name, Declared::default())),
            Field::Extends { modules } => {
                if let Some((_, declared)) = &mut self.open {
                    declared.extended.extend_from_slice(modules);
                }
            }
            Field::Constant { name, arguments } => self.declare(*name, *arguments),
            Field::Variable { name } => self.declare(*name, 0),
            Field::End => {
                if let Some((name, declared)) = self.open.take() {
                    self.ended.entry(name).or_insert(declared);
                }
            }
            _ => {}
        }
    }

    fn declare(&mut self, name: u16, arguments: u8) {
        if let Some((_, declared)) = &mut self.open {
            declared.own.entry(name).or_insert(arguments);
        }
    }

    /// Whether the module has ended.
    pub fn ended(&self, module: u16) -> bool {
        self.ended.contains_key(&module)
    }

    /// The argument count of a name declared in a module that has ended, extended ones included.
    pub fn of(&self, module: u16, name: u16) -> Option<u8> {
        let mut waiting = vec![module];
        let mut seen = HashSet::new();
        while let Some(module) = waiting.pop() {
            let Some(declared) = self.ended.get(&module).filter(|_| seen.insert(module)) else {
                continue;
            };
            if let Some(&arguments) = declared.own.get(&name) {
                return Some(arguments);
            }
            waiting.extend(declared.extended.iter().rev());
        }
        None
    }
}
