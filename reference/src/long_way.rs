//! The long way: every defined name replaced by its body in full, and only then a level, without
//! any card. Expansions are flat lists of tokens in prefix order, of any length and nesting, with
//! bound indices as large as they come out.

use crate::context::Substitute;
use crate::expressions::{Node, Operator};
use crate::judge::Program;
use crate::rows::{self, Gives};

/// A token of an expansion; no defined name is left.
#[derive(Clone, Copy, Debug, PartialEq, Eq)]
pub enum Item {
    Parameter(usize),
    Bound(usize),
    Declared { id: u8, count: u8 },
    BuiltIn(u8),
    Literal(u16),
}

impl Item {
    fn arguments(&self) -> usize {
        match *self {
            Item::Parameter(_) | Item::Bound(_) | Item::Literal(_) => 0,
            Item::Declared { count, .. } => count as usize,
            Item::BuiltIn(code) => rows::known(code).arguments as usize,
        }
    }

    /// The level of the variable that the token binds in an argument.
    fn binds_in(&self, argument: usize) -> Option<u8> {
        match *self {
            Item::BuiltIn(code) => rows::known(code).binds_in(argument),
            _ => None,
        }
    }
}

/// An expansion in prefix order.
pub type Tree = Vec<Item>;

/// The expansions of a program's definitions, as far as the fuel goes.
pub struct LongWay<'p> {
    program: &'p Program,
    fuel: usize,
    /// By definition; `None` where the fuel did not last.
    definitions: Vec<Option<Tree>>,
}

impl<'p> LongWay<'p> {
    /// Expands all definitions in their order, giving up on trees of more than `fuel` tokens.
    pub fn new(program: &'p Program, fuel: usize) -> Self {
        let mut way = LongWay {
            program,
            fuel,
            definitions: Vec::new(),
        };
        for definition in &program.tables.definitions {
            let tree = match definition.brought {
                None => way.expand(definition.text),
                Some((instance, source)) => way.bring(instance, source),
            };
            way.definitions.push(tree);
        }
        way
    }

    /// The expansion of a definition.
    pub fn definition(&self, number: usize) -> Option<&Tree> {
        self.definitions[number].as_ref()
    }

    fn within(&self, tree: Tree) -> Option<Tree> {
        (tree.len() <= self.fuel).then_some(tree)
    }

    /// The expansion of a written expression in its own module.
    pub fn expand(&self, text: u32) -> Option<Tree> {
        self.written(&mut (text as usize))
    }

    fn written(&self, at: &mut usize) -> Option<Tree> {
        let node = self.program.texts.nodes[*at];
        *at += 1;
        let item = match node {
            Node::Parameter(index) => Item::Parameter(index as usize),
            Node::Bound(index) => Item::Bound(index as usize),
            Node::Literal(value) => Item::Literal(value),
            Node::BuiltIn(code) => Item::BuiltIn(code),
            Node::Declared { id, count } => Item::Declared { id, count },
            Node::Defined { number, count } => {
                let arguments = (0..count).map(|_| self.written(at));
                let arguments = arguments.collect::<Option<Vec<_>>>()?;
                return self.put(self.definitions[number as usize].as_ref()?, &arguments);
            }
        };
        let mut tree = vec![item];
        for _ in 0..item.arguments() {
            tree.extend(self.written(at)?);
        }
        self.within(tree)
    }

    /// Puts arguments for the parameters of a tree, moving their free bound indices.
    fn put(&self, tree: &[Item], arguments: &[Tree]) -> Option<Tree> {
        let inner: Vec<Vec<usize>> = arguments.iter().map(|tree| depths(tree)).collect();
        let mut result = Tree::new();
        for (&item, depth) in tree.iter().zip(depths(tree)) {
            match item {
                Item::Parameter(index) => {
                    for (&item, &bound) in arguments[index].iter().zip(&inner[index]) {
                        result.push(match item {
                            Item::Bound(index) if index >= bound => Item::Bound(index + depth),
                            _ => item,
                        });
                    }
                }
                _ => result.push(item),
            }
            if result.len() > self.fuel {
                return None;
            }
        }
        Some(result)
    }

    /// The expansion of what an instance brings: the expansion in the instance's module with its
    /// parameters moved behind the instance's and every declared name substituted.
    fn bring(&self, instance: u16, source: u8) -> Option<Tree> {
        let tables = &self.program.tables;
        let instance = &tables.instances[instance as usize];
        let own = instance.parameters as usize;
        let source = self.definitions[source as usize].as_ref()?;
        let mut substitutes: Vec<Option<Tree>> = vec![None; tables.declarations.len()];
        // From the right, so that arguments are done before their operator.
        let mut done: Vec<Tree> = Vec::new();
        for &item in source.iter().rev() {
            let arguments: Vec<Tree> = (0..item.arguments())
                .map(|_| done.pop().expect("arguments stand to the right"))
                .collect();
            let tree = match item {
                Item::Parameter(index) => vec![Item::Parameter(own + index)],
                Item::Declared { id, count } => {
                    let id = id as usize;
                    if substitutes[id].is_none() {
                        let substitute = instance.substitutes[id].expect("a declared name");
                        substitutes[id] = Some(self.substitute(substitute, own, count)?);
                    }
                    let mut all: Vec<Tree> =
                        (0..own).map(|index| vec![Item::Parameter(index)]).collect();
                    all.extend(arguments);
                    self.put(substitutes[id].as_ref()?, &all)?
                }
                _ => {
                    let mut tree = vec![item];
                    arguments.into_iter().for_each(|a| tree.extend(a));
                    tree
                }
            };
            done.push(self.within(tree)?);
        }
        done.pop()
    }

    /// The expansion of a substitute, over the instance's parameters and its arguments.
    pub fn substitute(&self, substitute: Substitute, own: usize, count: u8) -> Option<Tree> {
        let arguments = (0..count as usize).map(|index| vec![Item::Parameter(own + index)]);
        match substitute {
            Substitute::Written(text) => self.expand(text),
            Substitute::Same(Operator::Declared(id)) => {
                let mut tree = vec![Item::Declared { id, count }];
                arguments.for_each(|argument| tree.extend(argument));
                Some(tree)
            }
            Substitute::Same(Operator::Defined(number)) => {
                let body = self.definitions[number as usize].as_ref()?;
                self.put(body, &arguments.collect::<Vec<_>>())
            }
        }
    }

    /// The level of an expansion with its parameters at these levels.
    pub fn level(&self, tree: &[Item], parameters: &[u8]) -> u8 {
        struct Open {
            item: Item,
            levels: Vec<u8>,
        }
        let finish = |open: &Open| match open.item {
            Item::BuiltIn(code) => {
                let row = rows::known(code);
                let mut arguments = open.levels.iter().zip(row.takes);
                match row.gives {
                    _ if !arguments.all(|(&level, takes)| takes.takes(level)) => 4,
                    Gives::Highest => highest(&open.levels),
                    Gives::Always(level) => level,
                }
            }
            Item::Declared { id, .. } if self.program.tables.declarations[id as usize].variable => {
                1
            }
            Item::Declared { .. } => highest(&open.levels),
            Item::Literal(_) => 0,
            Item::Parameter(_) | Item::Bound(_) => unreachable!("levelled at once"),
        };
        let mut stack: Vec<Open> = Vec::new();
        let mut binders: Vec<u8> = Vec::new();
        for &item in tree {
            let mut level = match item {
                Item::Parameter(index) => parameters[index],
                Item::Bound(index) => binders[binders.len() - 1 - index],
                _ => {
                    let open = Open {
                        item,
                        levels: Vec::new(),
                    };
                    if item.arguments() > 0 {
                        binders.extend(item.binds_in(0));
                        stack.push(open);
                        continue;
                    }
                    finish(&open)
                }
            };
            loop {
                let Some(open) = stack.last_mut() else {
                    return level;
                };
                if open.item.binds_in(open.levels.len()).is_some() {
                    binders.pop();
                }
                open.levels.push(level);
                if open.levels.len() < open.item.arguments() {
                    binders.extend(open.item.binds_in(open.levels.len()));
                    break;
                }
                level = finish(open);
                stack.pop();
            }
        }
        unreachable!("a tree is whole")
    }

    /// The expansion in the file's own tokens, if its bound indices fit into two bytes.
    pub fn bytes(&self, tree: &[Item]) -> Option<Vec<u8>> {
        let mut bytes = Vec::new();
        for item in tree {
            match *item {
                Item::Parameter(index) => bytes.extend([0, u8::try_from(index).ok()?]),
                Item::Bound(index) => {
                    bytes.push(1);
                    bytes.extend(u16::try_from(index).ok()?.to_be_bytes());
                }
                Item::Declared { id, count } => {
                    bytes.push(2);
                    bytes.extend(
                        self.program.tables.declarations[id as usize]
                            .name
                            .to_be_bytes(),
                    );
                    bytes.push(count);
                }
                Item::BuiltIn(code) => bytes.extend([4, code]),
                Item::Literal(value) => {
                    bytes.push(5);
                    bytes.extend(value.to_be_bytes());
                }
            }
        }
        Some(bytes)
    }
}

/// The highest of the levels, 0 if there are none; 4 if they hold a 2 and a 3.
pub fn highest(levels: &[u8]) -> u8 {
    if levels.contains(&2) && levels.contains(&3) {
        return 4;
    }
    levels.iter().copied().max().unwrap_or(0)
}

/// For each token of a tree, the number of its binders around it.
fn depths(tree: &[Item]) -> Vec<usize> {
    struct Open {
        item: Item,
        done: usize,
    }
    let mut result = Vec::with_capacity(tree.len());
    let mut stack: Vec<Open> = Vec::new();
    let mut depth = 0;
    for &item in tree {
        result.push(depth);
        if item.arguments() > 0 {
            depth += item.binds_in(0).is_some() as usize;
            stack.push(Open { item, done: 0 });
            continue;
        }
        while let Some(open) = stack.last_mut() {
            depth -= open.item.binds_in(open.done).is_some() as usize;
            open.done += 1;
            if open.done < open.item.arguments() {
                depth += open.item.binds_in(open.done).is_some() as usize;
                break;
            }
            stack.pop();
        }
    }
    result
}
