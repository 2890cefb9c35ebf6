//! What the modules of a file add: declarations, definitions, instances, and who can name them.

use crate::expressions::{Names, Operator};
use crate::limits::Limits;
use std::collections::HashMap;

/// What a name in a context stands for. Equal entities have one origin.
#[derive(Clone, Copy, Debug, PartialEq, Eq)]
pub enum Entity {
    Operator(Operator),
    Instance(u16),
}

/// A declared constant, operator or variable.
#[derive(Clone, Copy, Debug)]
pub struct Declaration {
    pub name: u16,
    pub count: u8,
    pub variable: bool,
}

/// A definition, written or brought.
#[derive(Clone, Copy, Debug)]
pub struct Definition {
    /// Name of the named instance that brought it, else 0.
    pub instance: u16,
    pub name: u16,
    /// All parameters, those of instances first.
    pub parameters: u8,
    /// The original's body.
    pub text: u32,
    /// The world in which that body is read.
    pub world: u16,
    /// Where the body lies in the file, and its length.
    pub body: (u32, u32),
    /// The instance that brought it and the number it has in that instance's module.
    pub brought: Option<(u16, u8)>,
}

/// What an instance puts for a declared name.
#[derive(Clone, Copy, Debug)]
pub enum Substitute {
    /// An expression over the instance's parameters and then the arguments.
    Written(u32),
    /// The name stands for itself: this operator of the instance's context.
    Same(Operator),
}

/// An INSTANCE field that was accepted.
#[derive(Clone, Debug)]
pub struct Instance {
    /// The field's number.
    pub field: u32,
    pub module: usize,
    pub parameters: u8,
    /// Number of the first definition brought.
    pub start: u16,
    /// By declaration; empty if nothing is brought.
    pub substitutes: Vec<Option<Substitute>>,
}

/// A module, ended or being read.
#[derive(Clone, Debug)]
pub struct Module {
    pub name: u16,
    pub context: Vec<(u16, Entity)>,
    /// Declarations, extended ones included.
    pub declared: Vec<u8>,
    /// Definitions: extended ones as named, each once, then its own.
    pub order: Vec<u8>,
    /// By definition number, the place in the order.
    pub places: [u8; Limits::DEFINITIONS],
    /// Places of the definitions that have a plain name, sorted by name. Filled at the end.
    pub plain: Vec<(u16, u8)>,
    pub has_instance: bool,
    /// Filled at the end.
    pub constant: bool,
}

impl Module {
    pub fn new(name: u16) -> Self {
        Module {
            name,
            context: Vec::new(),
            declared: Vec::new(),
            order: Vec::new(),
            places: [0; Limits::DEFINITIONS],
            plain: Vec::new(),
            has_instance: false,
            constant: false,
        }
    }

    /// Adds a definition to the order.
    pub fn append(&mut self, number: u8) {
        self.places[number as usize] = self.order.len() as u8;
        self.order.push(number);
    }

    /// The place of the definition with this plain name, once the module is ended.
    fn plain_place(&self, name: u16) -> Option<u8> {
        let found = self.plain.binary_search_by_key(&name, |&(name, _)| name);
        found.ok().map(|index| self.plain[index].1)
    }
}

/// A world says what the names of a piece of text mean. In `Tables::ROOT` they mean what the
/// text's own module says; in any other world the text was brought by an instance, and the text of
/// that instance's field is in turn read in the `outer` world.
#[derive(Clone, Copy, Debug)]
pub struct World {
    pub instance: u16,
    pub outer: u16,
    /// Number of the first definition that the instance brings into this world.
    pub start: u16,
    /// Parameters of all instances around the text, the outermost first.
    pub parameters: u8,
}

/// What an operator of a text comes to in a world. The parameters of the world up to `prefix` go
/// before the written arguments.
#[derive(Clone, Copy, Debug, PartialEq, Eq)]
pub enum Target {
    Declared(u8),
    Defined {
        number: u8,
        prefix: usize,
    },
    /// The substitute for declaration `id` of a world: a text read in the world `outer`.
    Substitute {
        world: u16,
        id: u8,
        text: u32,
        outer: u16,
        prefix: usize,
    },
}

/// Everything the fields have added.
#[derive(Debug)]
pub struct Tables {
    pub modules: Vec<Module>,
    pub declarations: Vec<Declaration>,
    pub definitions: Vec<Definition>,
    pub instances: Vec<Instance>,
    pub worlds: Vec<World>,
}

impl Tables {
    /// The world of a text in its own module.
    pub const ROOT: u16 = 0;

    pub fn new() -> Self {
        Tables {
            modules: Vec::new(),
            declarations: Vec::new(),
            definitions: Vec::new(),
            instances: Vec::new(),
            worlds: vec![World {
                instance: 0,
                outer: Self::ROOT,
                start: 0,
                parameters: 0,
            }],
        }
    }

    /// The number of parameters of an operator.
    pub fn parameters(&self, operator: Operator) -> u8 {
        match operator {
            Operator::Declared(id) => self.declarations[id as usize].count,
            Operator::Defined(number) => self.definitions[number as usize].parameters,
        }
    }

    /// What an operator of a text comes to in a world.
    #[inline]
    pub fn target(&self, world: u16, operator: Operator) -> Target {
        let (mut world, mut operator) = (world, operator);
        loop {
            if world == Self::ROOT {
                return match operator {
                    Operator::Declared(id) => Target::Declared(id),
                    Operator::Defined(number) => Target::Defined { number, prefix: 0 },
                };
            }
            let around = &self.worlds[world as usize];
            let instance = &self.instances[around.instance as usize];
            let prefix = around.parameters as usize;
            match operator {
                Operator::Defined(number) => {
                    let place = self.modules[instance.module].places[number as usize];
                    let number = (around.start + place as u16) as u8;
                    return Target::Defined { number, prefix };
                }
                Operator::Declared(id) => {
                    match instance.substitutes[id as usize].expect("every declared name has one") {
                        Substitute::Written(text) => {
                            return Target::Substitute {
                                world,
                                id,
                                text,
                                outer: around.outer,
                                prefix,
                            }
                        }
                        Substitute::Same(same) => {
                            world = around.outer;
                            operator = same;
                        }
                    }
                }
            }
        }
    }

    /// The world of a text that an instance brings on from the given world. `known` remembers the
    /// worlds already made for this instance.
    pub fn follow(&mut self, world: u16, instance: u16, known: &mut HashMap<u16, u16>) -> u16 {
        if let Some(&found) = known.get(&world) {
            return found;
        }
        let by = &self.instances[instance as usize];
        let (start, module) = (by.start, by.module);
        let made = if world == Self::ROOT {
            World {
                instance,
                outer: Self::ROOT,
                start,
                parameters: by.parameters,
            }
        } else {
            let inner = self.worlds[world as usize];
            let outer = self.follow(inner.outer, instance, known);
            let own = self.instances[inner.instance as usize].parameters;
            World {
                instance: inner.instance,
                outer,
                start: start + self.modules[module].places[inner.start as usize] as u16,
                parameters: self.worlds[outer as usize].parameters + own,
            }
        };
        self.worlds.push(made);
        let number = (self.worlds.len() - 1) as u16;
        known.insert(world, number);
        number
    }
}

/// Finds names in one context.
#[derive(Debug)]
pub struct Dictionary {
    /// By name, one more than the place in the context, or 0.
    slots: Vec<u16>,
}

impl Dictionary {
    pub fn new() -> Self {
        Dictionary {
            slots: vec![0; 1 << 16],
        }
    }

    /// A dictionary of the whole context.
    pub fn of(context: &[(u16, Entity)]) -> Self {
        let mut dictionary = Self::new();
        for (place, &(name, _)) in context.iter().enumerate() {
            dictionary.add(name, place);
        }
        dictionary
    }

    /// Forgets the names of a context.
    pub fn clear(&mut self, context: &[(u16, Entity)]) {
        for &(name, _) in context {
            self.slots[name as usize] = 0;
        }
    }

    pub fn add(&mut self, name: u16, place: usize) {
        self.slots[name as usize] = place as u16 + 1;
    }

    #[inline]
    pub fn find(&self, context: &[(u16, Entity)], name: u16) -> Option<Entity> {
        match self.slots[name as usize] {
            0 => None,
            place => Some(context[place as usize - 1].1),
        }
    }
}

/// The names of a module's context, as expressions see them.
pub struct Scope<'a> {
    pub tables: &'a Tables,
    pub context: &'a [(u16, Entity)],
    pub dictionary: &'a Dictionary,
}

impl Scope<'_> {
    pub fn find(&self, name: u16) -> Option<Entity> {
        self.dictionary.find(self.context, name)
    }
}

impl Names for Scope<'_> {
    fn operator(&self, name: u16) -> Option<(Operator, u8)> {
        match self.find(name)? {
            Entity::Operator(operator) => Some((operator, self.tables.parameters(operator))),
            Entity::Instance(_) => None,
        }
    }

    fn instance_operator(&self, instance: u16, name: u16) -> Option<(u8, u8)> {
        let Entity::Instance(instance) = self.find(instance)? else {
            return None;
        };
        let instance = &self.tables.instances[instance as usize];
        let place = self.tables.modules[instance.module].plain_place(name)?;
        let number = (instance.start + place as u16) as u8;
        let definition = &self.tables.definitions[number as usize];
        Some((number, definition.parameters))
    }
}
