//! Files with four to eight parameters or arguments in everything that can have them: each alone, two in one
//! file, and bodies by what they make of a card.

use crate::cards::MOST;
use crate::cases::Call;
use crate::random::Random;
use crate::syntax::{
    self, always, and, b, brought, instance, lit, n, op, p, prime, wrap, Expr, Field,
};

/// What has them.
const CONSTRUCTS: [&str; 9] = [
    "definition",
    "declared operator",
    "call of a definition",
    "call of a declared operator",
    "I!F",
    "written substitute",
    "declared operator that stands for itself",
    "definition that stands for itself",
    "definition brought twice over",
];

/// Fewest parameters or arguments.
const FEWEST: usize = 4;

/// Bodies, and whether they are lawful.
const BODIES: [(&str, bool); 14] = [
    ("all pairs", true),
    ("one pair", true),
    ("pairs with 2 for the first only", true),
    ("pairs with 3 for the first only", true),
    ("no pair though all weigh", true),
    ("masks of 31 to 3", true),
    ("masks of 11", true),
    ("nothing weighs beside a 2", true),
    ("nothing weighs beside a 3", true),
    ("all weigh beside a 1", true),
    ("all dropped", true),
    ("4 with all at 0", false),
    ("4 in two arguments of eight", false),
    ("4 in a dropped argument of eight", true),
];

#[derive(Clone, Copy, Debug, PartialEq, Eq)]
enum Plan {
    Alone(usize, usize),
    Pair(usize, usize),
    Body(usize),
}

fn plans() -> Vec<Plan> {
    let all = 0..CONSTRUCTS.len();
    let sizes = || FEWEST..=MOST;
    let alone = all
        .clone()
        .flat_map(|what| sizes().map(move |size| Plan::Alone(what, size)));
    let pairs = all.clone().flat_map(|first| {
        (first + 1..CONSTRUCTS.len()).map(move |second| Plan::Pair(first, second))
    });
    let bodies = (0..BODIES.len()).map(Plan::Body);
    alone.chain(pairs).chain(bodies).collect()
}

impl Plan {
    fn label(self) -> String {
        match self {
            Plan::Alone(what, size) => format!("{} of {size}", CONSTRUCTS[what]),
            Plan::Pair(first, second) => {
                format!("{} and {}", CONSTRUCTS[first], CONSTRUCTS[second])
            }
            Plan::Body(body) => format!("body: {}", BODIES[body].0),
        }
    }
}

/// The number of plans.
pub fn count() -> usize {
    plans().len()
}

/// The labels of all of them.
pub fn labels() -> Vec<String> {
    plans().into_iter().map(Plan::label).collect()
}

/// One file.
#[derive(Clone, Debug)]
pub struct Wide {
    pub label: String,
    pub file: Vec<u8>,
    /// The field at fault, with cause 12; none if the file is lawful.
    pub fault: Option<u32>,
    pub calls: Vec<Call>,
}

// Names, before the offset of a construct.
const K: u16 = 1;
const A: u16 = 2;
const F: u16 = 3;
const D: u16 = 4;
const E: u16 = 5;
const I: u16 = 6;
/// A variable of the last module, which has this name.
const X: u16 = 900;
const LAST: u16 = 900;

fn x() -> Expr {
    n(X, &[])
}

/// So many parameters in some order.
fn turned(count: usize, random: &mut Random) -> Vec<Expr> {
    let mut all: Vec<Expr> = (0..count as u8).map(p).collect();
    random.shuffle(&mut all);
    all
}

/// All of them in one, in twos and threes.
fn joined(mut parts: Vec<Expr>, random: &mut Random) -> Expr {
    while parts.len() > 1 {
        let at = random.below(parts.len() - 1);
        let left = parts.remove(at);
        let right = parts.remove(at);
        let both = match random.below(4) {
            0 => op(96 + random.below(8) as u8, &[left, lit(0), right]),
            1 => op(132 + random.below(8) as u8, &[left, and(b(0), right)]),
            _ => op(48 + random.below(48) as u8, &[left, right]),
        };
        parts.insert(at, both);
    }
    parts.pop().unwrap_or(lit(0))
}

fn enabled(inner: Expr) -> Expr {
    op(113, &[inner])
}

/// What is not taken at 3, and weighs.
fn no_temporal(inner: Expr) -> Expr {
    and(inner.clone(), enabled(inner))
}

/// A body over so many parameters that is 0 with them at 0.
fn constant_body(count: usize, random: &mut Random) -> Expr {
    let mut parts = turned(count, random);
    let dropped = random.below(count);
    parts.truncate(count - dropped);
    joined(parts, random)
}

/// A lawful body over so many parameters: each is dropped or used in a way of its own.
fn body(count: usize, random: &mut Random) -> Expr {
    let kind = random.below(3);
    let mut parts = Vec::new();
    for index in 0..count as u8 {
        let used = p(index);
        parts.push(match (random.below(8), kind) {
            (0, _) => continue,
            (1, _) => enabled(used),
            (2, _) => enabled(prime(used)),
            (3, _) => no_temporal(used),
            (4, 1) => prime(used),
            (4, 2) => always(used),
            (5, 2) => op(122, &[used, lit(1)]),
            (5, 1) => op(115, &[used, lit(2)]),
            _ => used,
        });
    }
    joined(parts, random)
}

/// What is joined in a body of a kind, over so many parameters.
fn parts(what: &str, count: usize, random: &mut Random) -> Vec<Expr> {
    let all = turned(count, random);
    let in_order: Vec<Expr> = (0..count as u8).map(p).collect();
    let (first, second) = in_order.split_at(1 + random.below(count - 1));
    let each = |parts: &[Expr], make: fn(Expr) -> Expr| -> Vec<Expr> {
        parts.iter().cloned().map(make).collect()
    };
    let beside = |other: Expr| [&[other], &all[..]].concat();
    match what {
        "all pairs" => all,
        "one pair" => all[..2].to_vec(),
        "pairs with 2 for the first only" => [each(first, no_temporal), second.to_vec()].concat(),
        "pairs with 3 for the first only" => [first.to_vec(), each(second, no_temporal)].concat(),
        "no pair though all weigh" => each(&all, no_temporal),
        "masks of 31 to 3" => vec![
            all[0].clone(),
            enabled(all[1].clone()),
            enabled(prime(all[2].clone())),
        ],
        "masks of 11" => each(&all, always),
        "nothing weighs beside a 2" => beside(prime(x())),
        "nothing weighs beside a 3" => beside(always(x())),
        "all weigh beside a 1" => beside(x()),
        "4 with all at 0" => beside(prime(prime(lit(0)))),
        _ => Vec::new(),
    }
}

/// A file under construction.
struct Site<'a> {
    random: &'a mut Random,
    fields: Vec<Field>,
    /// The last module's.
    inside: Vec<Field>,
    /// Expressions over so many parameters to ask about.
    asked: Vec<(Expr, usize)>,
}

impl Site<'_> {
    fn module(&mut self, name: u16, inside: Vec<Field>) {
        self.fields.push(Field::Module(name));
        self.fields.extend(inside);
        self.fields.push(Field::End);
    }

    /// Arguments over so many parameters, none above 1 with these at 0.
    fn arguments(&mut self, count: usize, over: usize) -> Vec<Expr> {
        let argument = |_| {
            let index = p(self.random.below(over) as u8);
            let other = p(self.random.below(over) as u8);
            match self.random.below(8) {
                0 => lit(3),
                1 => wrap(1, index),
                2 => and(index, other),
                3 => and(x(), index),
                _ => index,
            }
        };
        (0..count).map(argument).collect()
    }

    /// Adds something of so many parameters or arguments; names and modules from an offset on.
    fn construct(&mut self, what: usize, size: usize, offset: u16) {
        match what {
            0 => self.definition(size, offset),
            1 => self.operator(size, offset),
            2 => self.call_of_a_definition(size, offset),
            3 => self.call_of_an_operator(size, offset),
            4 => self.brought(size, offset, false),
            5 => self.written(size, offset),
            6 => self.stands(size, offset, true),
            7 => self.stands(size, offset, false),
            _ => self.brought(size, offset, true),
        }
    }

    /// A number of parameters.
    fn size(&mut self) -> usize {
        FEWEST + self.random.below(MOST - FEWEST + 1)
    }

    fn ask(&mut self, expr: impl Fn(&[Expr]) -> Expr, count: usize) {
        let all = turned(count, self.random);
        self.asked.push((expr(&all), count));
    }

    fn definition(&mut self, size: usize, offset: u16) {
        let name = offset + D;
        let body = body(size, self.random);
        self.inside.push(Field::Definition(name, size as u8, body));
        self.ask(|all| n(name, all), size);
    }

    fn operator(&mut self, size: usize, offset: u16) {
        let [k, d] = [K, D].map(|name| offset + name);
        let call = n(k, &turned(size, self.random));
        let around: fn(Expr) -> Expr =
            self.random
                .pick(&[(|inner| inner) as fn(Expr) -> Expr, always, enabled, prime]);
        self.inside.push(Field::Constant(k, size as u8));
        self.inside
            .push(Field::Definition(d, size as u8, around(call)));
        self.ask(|all| n(k, all), size);
        self.ask(|all| n(d, all), size);
    }

    fn call_of_a_definition(&mut self, size: usize, offset: u16) {
        let [d, e] = [D, E].map(|name| offset + name);
        let over = self.size();
        let inner = body(size, self.random);
        let call = n(e, &self.arguments(size, over));
        self.inside.push(Field::Definition(e, size as u8, inner));
        self.inside.push(Field::Definition(d, over as u8, call));
        self.ask(|all| n(d, all), over);
    }

    fn call_of_an_operator(&mut self, size: usize, offset: u16) {
        let [k, d] = [K, D].map(|name| offset + name);
        let over = self.size();
        let mut arguments = self.arguments(size, over);
        let inner = n(k, &self.arguments(size, over));
        arguments[self.random.below(size)] = inner;
        let call = n(k, &arguments);
        self.inside.push(Field::Constant(k, size as u8));
        self.inside
            .push(Field::Definition(d, over as u8, call.clone()));
        self.asked.push((call, over));
    }

    /// Some of the parameters an instance's, and the others a definition's, which it brings from its module or,
    /// twice over, from one that this has it from.
    fn brought(&mut self, size: usize, offset: u16, twice_over: bool) {
        let [a, f, d, i] = [A, F, D, I].map(|name| offset + name);
        let (source, middle) = (offset + 1, offset + 2);
        let own = self.random.below(size + 1);
        let inner = size - own;
        let body = and(body(inner, self.random), n(a, &[]));
        let defined = Field::Definition(f, inner as u8, body);
        self.module(source, vec![Field::Constant(a, 0), defined]);
        let mut of = source;
        if twice_over {
            let through = vec![Field::Constant(a, 0), instance(0, 0, source, &[])];
            self.module(middle, through);
            of = middle;
        }
        let put = match own {
            0 => lit(1),
            _ => constant_body(own, self.random),
        };
        self.inside.push(instance(i, own as u8, of, &[(a, put)]));
        let over = self.size();
        let call = brought(i, f, &self.arguments(size, over));
        self.inside.push(Field::Definition(d, over as u8, call));
        self.ask(|all| brought(i, f, all), size);
    }

    /// An operator's substitute, over an instance's parameters and the operator's arguments.
    fn written(&mut self, size: usize, offset: u16) {
        let [k, f, i] = [K, F, I].map(|name| offset + name);
        let count = 1 + self.random.below(size);
        let own = size - count;
        let inner = 1 + self.random.below((MOST - own).min(FEWEST));
        let argument = |at: usize| match at % 3 {
            2 => lit(at as u16),
            _ => p(self.random.below(inner) as u8),
        };
        let arguments: Vec<Expr> = (0..count).map(argument).collect();
        let declared = Field::Constant(k, count as u8);
        let defined = Field::Definition(f, inner as u8, n(k, &arguments));
        self.module(offset + 1, vec![declared, defined]);
        let put = constant_body(size, self.random);
        let bring = instance(i, own as u8, offset + 1, &[(k, put)]);
        self.inside.push(bring);
        self.ask(|all| brought(i, f, all), own + inner);
    }

    /// An operator that stands for itself, declared or defined.
    fn stands(&mut self, size: usize, offset: u16, declared: bool) {
        let [k, f, i] = [K, F, I].map(|name| offset + name);
        let inner = 1 + self.random.below(3);
        let argument = |_| p(self.random.below(inner) as u8);
        let arguments: Vec<Expr> = (0..size).map(argument).collect();
        let defined = Field::Definition(f, inner as u8, n(k, &arguments));
        let operator = Field::Constant(k, size as u8);
        self.module(offset + 1, vec![operator.clone(), defined]);
        self.inside.push(match declared {
            true => operator,
            false => Field::Definition(k, size as u8, constant_body(size, self.random)),
        });
        let own = self.random.below(MOST - inner + 1);
        self.inside.push(instance(i, own as u8, offset + 1, &[]));
        self.ask(|all| brought(i, f, all), own + inner);
    }

    /// Adds a definition by what it makes of its card.
    fn body(&mut self, what: &str) {
        let count = match what {
            "all pairs" => MOST,
            _ => self.size(),
        };
        let body = match what.starts_with("4 in") {
            true => self.call_with_a_4(what.contains("dropped")),
            false => joined(parts(what, count, self.random), self.random),
        };
        self.inside.push(Field::Definition(D, count as u8, body));
        self.ask(|all| n(D, all), count);
    }

    /// A call with a 2 and a 3 among its eight arguments, of a definition that joins all or drops all but the
    /// first.
    fn call_with_a_4(&mut self, dropped: bool) -> Expr {
        let joins = match dropped {
            true => p(0),
            false => joined(turned(MOST, self.random), self.random),
        };
        self.inside.push(Field::Definition(E, MOST as u8, joins));
        let mut arguments = vec![p(0); MOST];
        arguments[1 + self.random.below(3)] = prime(x());
        arguments[FEWEST + self.random.below(3)] = always(x());
        if dropped {
            arguments[MOST - 1] = prime(prime(x()));
        }
        n(E, &arguments)
    }

    /// Queries for what was added.
    fn calls(&mut self) -> Vec<Call> {
        let mut calls = Vec::new();
        for (expr, count) in std::mem::take(&mut self.asked) {
            let vectors = reference::vectors(count);
            for _ in 0..4 {
                calls.push(Call::Level {
                    module: LAST,
                    expr: expr.bytes(),
                    levels: vectors[self.random.below(vectors.len())].clone(),
                });
            }
            // With one parameter more than are named, too: from eight on that is too many.
            let params = count as u8 + self.random.below(2) as u8;
            calls.push(Call::Expand {
                module: LAST,
                expr: expr.bytes(),
                params,
                room: self.random.pick(&[400, 20_000]),
            });
        }
        calls.push(Call::Alike { a: 0, b: 1 });
        calls
    }
}

/// The file of one plan.
pub fn build(number: usize, random: &mut Random) -> Wide {
    let plan = plans()[number];
    let mut site = Site {
        random,
        fields: Vec::new(),
        inside: vec![Field::Variable(X)],
        asked: Vec::new(),
    };
    let mut lawful = true;
    match plan {
        Plan::Alone(what, size) => site.construct(what, size, 0),
        Plan::Pair(first, second) => {
            for (what, offset) in [(first, 0), (second, 100)] {
                let size = site.size();
                site.construct(what, size, offset);
            }
        }
        Plan::Body(body) => {
            lawful = BODIES[body].1;
            site.body(BODIES[body].0);
        }
    }
    let calls = site.calls();
    let Site {
        mut fields, inside, ..
    } = site;
    fields.push(Field::Module(LAST));
    fields.extend(inside);
    // What is at fault is the last field but the end.
    let fault = (!lawful).then_some(fields.len() as u32 - 1);
    fields.push(Field::End);
    Wide {
        label: plan.label(),
        file: syntax::file(&fields),
        fault,
        calls,
    }
}
