//! Expansion: measured first, by lengths that are linear in the lengths of the arguments, and then
//! written token by token.

use crate::context::{Declaration, Tables, Target};
use crate::expressions::{Node, Operator, Texts};
use crate::limits::Limits;
use crate::rows::{self, Row};
use crate::summaries::{Summaries, Summary};

/// Lengths and counts are exact below this and cut off at it.
const CUT: u32 = Limits::EXPANSION as u32 + 1;

fn sum(a: u32, b: u32) -> u32 {
    (a + b).min(CUT)
}

fn product(a: u32, b: u32) -> u32 {
    (a as u64 * b as u64).min(CUT as u64) as u32
}

/// The length of an expansion: `own` bytes and, for each parameter, its length as often as it
/// occurs.
#[derive(Clone, Copy, Debug, PartialEq, Eq)]
pub struct Length {
    own: u32,
    occurrences: [u32; Limits::SLOTS],
}

impl Length {
    fn fixed(own: u32) -> Self {
        Length {
            own,
            occurrences: [0; Limits::SLOTS],
        }
    }

    fn with(own: u32, arguments: &[Self]) -> Self {
        let mut length = Length::fixed(own);
        for argument in arguments {
            length.add(argument, 1);
        }
        length
    }

    fn add(&mut self, other: &Length, times: u32) {
        self.own = sum(self.own, product(other.own, times));
        for (own, more) in self.occurrences.iter_mut().zip(other.occurrences) {
            *own = sum(*own, product(more, times));
        }
    }

    /// The length over parameter tokens of two bytes, cut off.
    fn written(&self) -> usize {
        let total = |length, &times| sum(length, product(times, 2));
        self.occurrences.iter().fold(self.own, total) as usize
    }

    /// The parameter that the expansion consists of, if it is just that.
    fn just_parameter(&self) -> Option<usize> {
        if self.own > 0 {
            return None;
        }
        self.occurrences.iter().position(|&times| times > 0)
    }
}

impl Summary for Length {
    fn parameter(index: usize) -> Self {
        let mut length = Length::fixed(0);
        length.occurrences[index] = 1;
        length
    }

    fn bound(_: u8) -> Self {
        Length::fixed(3)
    }

    fn literal() -> Self {
        Length::fixed(3)
    }

    fn declared(_: &Declaration, arguments: &[Self]) -> Self {
        Length::with(4, arguments)
    }

    fn built_in(_: &Row, arguments: &[Self]) -> Self {
        Length::with(2, arguments)
    }

    fn apply(&self, arguments: &[Self]) -> Self {
        let mut length = Length::fixed(self.own);
        for (argument, &times) in arguments.iter().zip(&self.occurrences) {
            if times > 0 {
                length.add(argument, times);
            }
        }
        length
    }
}

/// Expands a text of a module's own world over so many parameters into the output. `None`, and
/// nothing written, if the expansion is longer than the output or than the limit.
pub fn expand(
    tables: &Tables,
    texts: &Texts,
    text: u32,
    parameters: usize,
    output: &mut [u8],
) -> Option<usize> {
    let mut lengths = measure(tables, texts, text);
    let whole = lengths.of_text(tables, texts, text, Tables::ROOT).written();
    if whole > Limits::EXPANSION || whole > output.len() {
        return None;
    }
    let projections: Vec<Option<usize>> = (0..tables.definitions.len())
        .map(|number| lengths.get(number)?.just_parameter())
        .collect();
    let settled = settle(texts, text, &projections);
    let mut writer = Writer {
        tables,
        texts,
        lengths,
        projections,
        settled,
        output: &mut output[..whole],
        at: 0,
        frames: Vec::new(),
        binders: Vec::new(),
        tasks: Vec::new(),
    };
    writer.run(text, parameters);
    Some(whole)
}

/// Measures the definitions that a text reaches, in their order.
fn measure(tables: &Tables, texts: &Texts, text: u32) -> Summaries<Length> {
    let mut reached = [false; Limits::DEFINITIONS];
    let mut seen = vec![0u64; tables.worlds.len()];
    let mut open = vec![(text, Tables::ROOT)];
    // A text names only definitions numbered before its own, so one pass downwards is enough.
    let mut next = tables.definitions.len();
    loop {
        while let Some((text, world)) = open.pop() {
            for node in &texts.nodes[text as usize..texts.end(text) as usize] {
                let operator = match *node {
                    Node::Declared { id, .. } => Operator::Declared(id),
                    Node::Defined { number, .. } => Operator::Defined(number),
                    _ => continue,
                };
                match tables.target(world, operator) {
                    Target::Declared(_) => {}
                    Target::Defined { number, .. } => reached[number as usize] = true,
                    Target::Substitute {
                        world,
                        id,
                        text,
                        outer,
                        ..
                    } => {
                        if seen[world as usize] >> id & 1 == 0 {
                            seen[world as usize] |= 1 << id;
                            open.push((text, outer));
                        }
                    }
                }
            }
        }
        let Some(number) = (0..next).rev().find(|&number| reached[number]) else {
            break;
        };
        let definition = &tables.definitions[number];
        open.push((definition.text, definition.world));
        next = number;
    }
    let mut lengths = Summaries::new();
    for (number, definition) in tables.definitions.iter().enumerate() {
        if reached[number] {
            let length = lengths.of_text(tables, texts, definition.text, definition.world);
            lengths.set(number, length);
        }
    }
    lengths
}

/// For each node before a text, read in its own module's world: the node that its expansion begins
/// in, once the definitions that expand to one of their parameters are skipped.
fn settle(texts: &Texts, text: u32, projections: &[Option<usize>]) -> Vec<u32> {
    let mut settled: Vec<u32> = (0..text).collect();
    for node in (0..text).rev() {
        if let Node::Defined { number, .. } = texts.nodes[node as usize] {
            if let Some(index) = projections[number as usize] {
                settled[node as usize] = settled[texts.argument(node, index) as usize];
            }
        }
    }
    settled
}

/// No binder around.
const NO_BINDER: u32 = u32::MAX;
/// The frame of the expansion's own parameters; the node is then the index.
const OUTSIDE: u32 = u32::MAX;

/// An expression with what its parameters and bound variables stand for.
#[derive(Clone, Copy, Debug)]
struct Closure {
    node: u32,
    frame: u32,
    /// The nearest binder of its text.
    binder: u32,
}

impl Closure {
    const NONE: Closure = Closure {
        node: 0,
        frame: OUTSIDE,
        binder: NO_BINDER,
    };
}

/// A text being expanded: its world and its arguments, those of the world first. Arguments are
/// closed over the frames of the callers and never begin with a parameter or an operator that
/// expands to one.
#[derive(Clone, Copy, Debug)]
struct Frame {
    world: u16,
    arguments: [Closure; Limits::SLOTS],
}

/// A binder written at a depth of binders in the output.
#[derive(Clone, Copy, Debug)]
struct Binder {
    depth: u32,
    outer: u32,
}

/// An expression still to be written, and how much of the stacks it can refer to.
#[derive(Clone, Copy, Debug)]
struct Task {
    closure: Closure,
    depth: u32,
    frames: usize,
    binders: usize,
}

struct Writer<'a> {
    tables: &'a Tables,
    texts: &'a Texts,
    lengths: Summaries<Length>,
    /// By definition reached, the parameter that it expands to, if it is just that.
    projections: Vec<Option<usize>>,
    settled: Vec<u32>,
    output: &'a mut [u8],
    at: usize,
    frames: Vec<Frame>,
    binders: Vec<Binder>,
    tasks: Vec<Task>,
}

impl Writer<'_> {
    fn run(&mut self, text: u32, parameters: usize) {
        let mut arguments = [Closure::NONE; Limits::SLOTS];
        for (index, argument) in arguments[..parameters].iter_mut().enumerate() {
            argument.node = index as u32;
        }
        self.frames.push(Frame {
            world: Tables::ROOT,
            arguments,
        });
        self.tasks.push(Task {
            closure: Closure {
                node: text,
                frame: 0,
                binder: NO_BINDER,
            },
            depth: 0,
            frames: 1,
            binders: 0,
        });
        while let Some(task) = self.tasks.pop() {
            self.frames.truncate(task.frames);
            self.binders.truncate(task.binders);
            self.token(task);
        }
        debug_assert_eq!(self.at, self.output.len());
    }

    fn write(&mut self, bytes: &[u8]) {
        self.output[self.at..self.at + bytes.len()].copy_from_slice(bytes);
        self.at += bytes.len();
    }

    /// Writes the first token of an expression's expansion and leaves its arguments as tasks.
    fn token(&mut self, task: Task) {
        let mut closure = task.closure;
        loop {
            closure = self.chase(closure);
            if closure.frame == OUTSIDE {
                return self.write(&[0, closure.node as u8]);
            }
            match self.texts.nodes[closure.node as usize] {
                Node::Parameter(_) => unreachable!("parameters are chased"),
                Node::Bound(index) => {
                    let mut binder = self.binders[closure.binder as usize];
                    for _ in 0..index {
                        binder = self.binders[binder.outer as usize];
                    }
                    let index = (task.depth - binder.depth - 1) as u16;
                    let [high, low] = index.to_be_bytes();
                    return self.write(&[1, high, low]);
                }
                Node::Literal(value) => {
                    let [high, low] = value.to_be_bytes();
                    return self.write(&[5, high, low]);
                }
                Node::BuiltIn(code) => {
                    self.write(&[4, code]);
                    return self.built_in(rows::known(code), closure, task.depth);
                }
                Node::Declared { id, count } => {
                    let operator = Operator::Declared(id);
                    match self.call(operator, count, closure, task.frames) {
                        Some(text) => closure = text,
                        None => return self.declared(id, count, closure, task.depth),
                    }
                }
                Node::Defined { number, count } => {
                    let operator = Operator::Defined(number);
                    let text = self.call(operator, count, closure, task.frames);
                    closure = text.expect("a definition has a text");
                }
            }
        }
    }

    fn built_in(&mut self, row: &Row, closure: Closure, depth: u32) {
        let count = row.arguments as usize;
        let first = self.tasks.len();
        let mut node = closure.node + 1;
        for index in 0..count {
            let mut argument = Closure { node, ..closure };
            let mut inside = depth;
            if row.binds_in(index).is_some() {
                argument.binder = self.binders.len() as u32;
                inside += 1;
                self.binders.push(Binder {
                    depth,
                    outer: closure.binder,
                });
            }
            self.push(argument, inside);
            node = self.texts.end(node);
        }
        self.reverse(first);
    }

    fn declared(&mut self, id: u8, count: u8, closure: Closure, depth: u32) {
        let [high, low] = self.tables.declarations[id as usize].name.to_be_bytes();
        self.write(&[2, high, low, count]);
        let first = self.tasks.len();
        let mut node = closure.node + 1;
        for _ in 0..count {
            self.push(Closure { node, ..closure }, depth);
            node = self.texts.end(node);
        }
        self.reverse(first);
    }

    fn push(&mut self, closure: Closure, depth: u32) {
        self.tasks.push(Task {
            closure,
            depth,
            frames: self.frames.len(),
            binders: self.binders.len(),
        });
    }

    /// Turns the tasks from a place on, so that the first argument is written first. All of them
    /// keep what the last one keeps.
    fn reverse(&mut self, first: usize) {
        let binders = self.binders.len();
        for task in &mut self.tasks[first..] {
            task.binders = binders;
        }
        self.tasks[first..].reverse();
    }

    fn target(&self, operator: Operator, frame: u32) -> Target {
        let world = self.frames[frame as usize].world;
        self.tables.target(world, operator)
    }

    fn length(&mut self, target: Target) -> Length {
        self.lengths.of_target(self.tables, self.texts, target)
    }

    /// The parameter that an operator expands to, if it is just that.
    #[inline]
    fn projection(&mut self, target: Target) -> Option<usize> {
        match target {
            Target::Defined { number, .. } => self.projections[number as usize],
            _ => self.length(target).just_parameter(),
        }
    }

    /// Follows parameters, and operators that expand to one of their parameters.
    fn chase(&mut self, closure: Closure) -> Closure {
        let mut closure = closure;
        while closure.frame != OUTSIDE {
            if self.frames[closure.frame as usize].world == Tables::ROOT {
                if let Some(&node) = self.settled.get(closure.node as usize) {
                    closure.node = node;
                }
            }
            let operator = match self.texts.nodes[closure.node as usize] {
                Node::Parameter(index) => {
                    let frame = &self.frames[closure.frame as usize];
                    let before = self.tables.worlds[frame.world as usize].parameters;
                    closure = frame.arguments[(before + index) as usize];
                    continue;
                }
                Node::Declared { id, .. } => Operator::Declared(id),
                Node::Defined { number, .. } => Operator::Defined(number),
                _ => break,
            };
            let target = self.target(operator, closure.frame);
            let prefix = match target {
                Target::Declared(_) => break,
                Target::Defined { prefix, .. } | Target::Substitute { prefix, .. } => prefix,
            };
            let Some(index) = self.projection(target) else {
                break;
            };
            if index < prefix {
                closure = self.frames[closure.frame as usize].arguments[index];
            } else {
                closure.node = self.texts.argument(closure.node, index - prefix);
            }
        }
        closure
    }

    /// Opens a frame for the text of an operator; `None` for one declared where the expansion
    /// stands. A frame of this task that nothing refers to any more makes room, so that the frames
    /// kept are never more than the tokens written under them.
    fn call(
        &mut self,
        operator: Operator,
        count: u8,
        closure: Closure,
        kept: usize,
    ) -> Option<Closure> {
        let target = self.target(operator, closure.frame);
        let (text, world, prefix) = match target {
            Target::Declared(_) => return None,
            Target::Defined { number, prefix } => {
                let definition = &self.tables.definitions[number as usize];
                (definition.text, definition.world, prefix)
            }
            Target::Substitute {
                text,
                outer,
                prefix,
                ..
            } => (text, outer, prefix),
        };
        let length = self.length(target);
        let mut arguments = [Closure::NONE; Limits::SLOTS];
        let mut node = closure.node + 1;
        for (index, argument) in arguments[..prefix + count as usize].iter_mut().enumerate() {
            let occurs = length.occurrences[index] > 0;
            if index < prefix {
                if occurs {
                    *argument = self.frames[closure.frame as usize].arguments[index];
                }
            } else {
                if occurs {
                    *argument = self.chase(Closure { node, ..closure });
                }
                node = self.texts.end(node);
            }
        }
        let referred = arguments.iter().any(|a| a.frame == closure.frame);
        let last = self.frames.len() - 1;
        if !referred && closure.frame as usize == last && last >= kept {
            self.frames.pop();
        }
        self.frames.push(Frame { world, arguments });
        Some(Closure {
            node: text,
            frame: (self.frames.len() - 1) as u32,
            binder: NO_BINDER,
        })
    }
}
