//! Summaries of expressions: facts about an expression that follow from the same facts about its
//! parts, so that one walk over a text is enough however long its expansion is.

use crate::context::{Declaration, Tables, Target};
use crate::expressions::{Node, Operator, Texts};
use crate::rows::{self, Row};

/// A fact about expressions over up to `Limits::SLOTS` parameters (`crate::limits`).
pub trait Summary: Copy {
    fn parameter(index: usize) -> Self;
    /// A variable whose binder gives it this level.
    fn bound(level: u8) -> Self;
    fn literal() -> Self;
    fn declared(declaration: &Declaration, arguments: &[Self]) -> Self;
    fn built_in(row: &Row, arguments: &[Self]) -> Self;
    /// The summary of an operator's expansion with its arguments put in.
    fn apply(&self, arguments: &[Self]) -> Self;
}

/// Summaries of definitions and of the substitutes of worlds.
pub struct Summaries<S> {
    definitions: Vec<Option<S>>,
    /// By world, then by declaration.
    substitutes: Vec<Vec<Option<S>>>,
}

impl<S: Summary> Summaries<S> {
    pub fn new() -> Self {
        Summaries {
            definitions: Vec::new(),
            substitutes: Vec::new(),
        }
    }

    pub fn set(&mut self, number: usize, summary: S) {
        if self.definitions.len() <= number {
            self.definitions.resize(number + 1, None);
        }
        self.definitions[number] = Some(summary);
    }

    /// The summary of a definition, if it has been set.
    pub fn get(&self, number: usize) -> Option<&S> {
        self.definitions.get(number)?.as_ref()
    }

    fn definition(&self, number: u8) -> &S {
        let found = self.get(number as usize);
        found.expect("definitions are summed up in their order")
    }

    /// Drops the substitutes of all worlds.
    pub fn forget_substitutes(&mut self) {
        self.substitutes.clear();
    }

    /// The summary of an operator that is not declared where all texts come to stand.
    pub fn of_target(&mut self, tables: &Tables, texts: &Texts, target: Target) -> S {
        match target {
            Target::Declared(_) => unreachable!("a declared operator is no text"),
            Target::Defined { number, .. } => *self.definition(number),
            Target::Substitute {
                world,
                id,
                text,
                outer,
                ..
            } => self.substitute(tables, texts, world, id, text, outer),
        }
    }

    /// The summary of a text read in a world. Definitions it names must have theirs.
    pub fn of_text(&mut self, tables: &Tables, texts: &Texts, text: u32, world: u16) -> S {
        let mut walk = Walk {
            summaries: self,
            tables,
            texts,
            world,
            at: text as usize,
            binders: Vec::new(),
            arguments: Vec::new(),
        };
        walk.expression()
    }

    fn substitute(
        &mut self,
        tables: &Tables,
        texts: &Texts,
        world: u16,
        id: u8,
        text: u32,
        outer: u16,
    ) -> S {
        let (world, id) = (world as usize, id as usize);
        if self.substitutes.len() <= world {
            self.substitutes.resize_with(world + 1, Vec::new);
        }
        if self.substitutes[world].is_empty() {
            self.substitutes[world].resize(tables.declarations.len(), None);
        }
        if let Some(found) = self.substitutes[world][id] {
            return found;
        }
        let made = self.of_text(tables, texts, text, outer);
        self.substitutes[world][id] = Some(made);
        made
    }
}

struct Walk<'a, S> {
    summaries: &'a mut Summaries<S>,
    tables: &'a Tables,
    texts: &'a Texts,
    world: u16,
    at: usize,
    /// Levels given by the binders around, the nearest last.
    binders: Vec<u8>,
    /// The arguments read so far of the operators around, the nearest's last.
    arguments: Vec<S>,
}

impl<S: Summary> Walk<'_, S> {
    fn expression(&mut self) -> S {
        let node = self.texts.nodes[self.at];
        self.at += 1;
        match node {
            Node::Parameter(index) => {
                let before = self.tables.worlds[self.world as usize].parameters;
                S::parameter((before + index) as usize)
            }
            Node::Bound(index) => S::bound(self.binders[self.binders.len() - 1 - index as usize]),
            Node::Literal(_) => S::literal(),
            Node::BuiltIn(code) => self.built_in(rows::known(code)),
            Node::Declared { id, count } => self.call(Operator::Declared(id), count as usize),
            Node::Defined { number, count } => self.call(Operator::Defined(number), count as usize),
        }
    }

    fn built_in(&mut self, row: &Row) -> S {
        let first = self.arguments.len();
        for index in 0..row.arguments as usize {
            let binds = row.binds_in(index);
            self.binders.extend(binds);
            self.argument();
            if binds.is_some() {
                self.binders.pop();
            }
        }
        let summary = S::built_in(row, &self.arguments[first..]);
        self.arguments.truncate(first);
        summary
    }

    fn argument(&mut self) {
        let argument = self.expression();
        self.arguments.push(argument);
    }

    fn call(&mut self, operator: Operator, count: usize) -> S {
        let target = self.tables.target(self.world, operator);
        let prefix = match target {
            Target::Declared(_) => 0,
            Target::Defined { prefix, .. } | Target::Substitute { prefix, .. } => prefix,
        };
        let first = self.arguments.len();
        self.arguments.extend((0..prefix).map(S::parameter));
        (0..count).for_each(|_| self.argument());
        let arguments = &self.arguments[first..];
        let summary = match target {
            Target::Declared(id) => S::declared(&self.tables.declarations[id as usize], arguments),
            _ => {
                let called = self.summaries.of_target(self.tables, self.texts, target);
                called.apply(arguments)
            }
        };
        self.arguments.truncate(first);
        summary
    }
}
