//! Accepted files, grown field by field, and expressions over what a module knows.

use crate::model::{Meaning, Model, Operator, Scope};
use crate::random::Random;
use crate::rows;
use crate::syntax::{self, always, lit, n, prime, Expr, Field};

/// The largest file.
pub const LARGEST: usize = 32_768;

/// An accepted file, and some files refused on the way.
#[derive(Clone, Debug)]
pub struct Grown {
    pub fields: Vec<Field>,
    pub model: Model,
    pub refused: Vec<Vec<u8>>,
}

impl Grown {
    pub fn bytes(&self) -> Vec<u8> {
        syntax::file(&self.fields)
    }
}

/// How expressions are made.
#[derive(Clone, Copy, Debug)]
pub struct Style {
    pub parameters: usize,
    /// The highest level wanted.
    pub most: u8,
    /// Whether levels may go wrong.
    pub wild: bool,
}

/// Writes expressions with known names, known indices and right argument counts.
pub struct Writer<'a> {
    pub random: &'a mut Random,
    pub model: &'a Model,
    pub scope: &'a Scope,
    pub style: Style,
    /// About how many tokens may still come.
    pub budget: usize,
}

impl Writer<'_> {
    /// An expression of at most so many levels of nesting.
    pub fn expression(&mut self, depth: usize) -> Expr {
        self.part(&mut Vec::new(), depth).0
    }

    fn fits(&self, level: u8) -> bool {
        level <= self.style.most || self.style.wild
    }

    fn leaf(&mut self, binders: &[u8]) -> (Expr, u8) {
        let parameters = self.style.parameters;
        for _ in 0..4 {
            let (expr, level) = match self.random.below(12) {
                0..=3 if parameters > 0 => (syntax::p(self.random.below(parameters) as u8), 0),
                0..=5 if !binders.is_empty() => {
                    let index = self.random.below(binders.len());
                    (syntax::b(index as u16), binders[binders.len() - 1 - index])
                }
                6 => (syntax::op(self.random.below(16) as u8, &[]), 0),
                7 => (lit(self.literal()), 0),
                _ => {
                    let constants = self.scope.operators.iter().filter(|o| o.count == 0);
                    let constants: Vec<Operator> = constants.copied().collect();
                    if constants.is_empty() {
                        (lit(self.literal()), 0)
                    } else {
                        let operator = self.random.pick(&constants);
                        (n(operator.name, &[]), self.model.applied(&operator, &[]))
                    }
                }
            };
            if self.fits(level) {
                return (expr, level);
            }
        }
        (lit(self.literal()), 0)
    }

    fn literal(&mut self) -> u16 {
        match self.random.below(8) {
            0 => u16::MAX,
            1 => 256,
            2 => self.random.number() as u16,
            _ => self.random.below(10) as u16,
        }
    }

    /// An expression below some binders, with its level.
    fn part(&mut self, binders: &mut Vec<u8>, depth: usize) -> (Expr, u8) {
        if depth <= 1 || self.budget == 0 || self.random.chance(12) {
            return self.leaf(binders);
        }
        self.budget -= 1;
        match self.random.below(100) {
            0..=25 if !self.scope.operators.is_empty() => {
                let operator = self.random.pick(&self.scope.operators);
                let (arguments, level) = self.applied(&operator, binders, depth);
                self.settle(Expr::Name(operator.name, arguments), level, binders)
            }
            26..=40 if !self.scope.instances.is_empty() => {
                let instance = self.random.pick(&self.scope.instances);
                if instance.operators.is_empty() {
                    return self.leaf(binders);
                }
                let operator = self.random.pick(&instance.operators);
                let (arguments, level) = self.applied(&operator, binders, depth);
                let expr = Expr::Brought(instance.name, operator.name, arguments);
                self.settle(expr, level, binders)
            }
            41..=55 => self.binder(binders, depth),
            _ => {
                let count = self.random.pick(&[1, 1, 1, 2, 2, 2, 3]);
                let parts: Vec<(Expr, u8)> =
                    (0..count).map(|_| self.part(binders, depth - 1)).collect();
                let (arguments, levels): (Vec<Expr>, Vec<u8>) = parts.into_iter().unzip();
                let special = self.random.chance(60);
                let taking: Vec<(u8, u8)> = rows::codes()
                    .filter(|&code| (code >= 112) == special)
                    .filter_map(|code| rows::row(code).map(|row| (code, row)))
                    .filter(|(_, row)| row.arguments == count && row.binds.is_none())
                    .map(|(code, row)| (code, row.level(&levels)))
                    .filter(|&(_, level)| self.style.wild || level <= self.style.most)
                    .collect();
                if taking.is_empty() {
                    return self.leaf(binders);
                }
                let (code, level) = self.random.pick(&taking);
                (Expr::BuiltIn(code, arguments), level)
            }
        }
    }

    /// The expression, unless its level is not wanted.
    fn settle(&mut self, expr: Expr, level: u8, binders: &[u8]) -> (Expr, u8) {
        if self.fits(level) {
            (expr, level)
        } else {
            self.leaf(binders)
        }
    }

    fn applied(
        &mut self,
        operator: &Operator,
        binders: &mut Vec<u8>,
        depth: usize,
    ) -> (Vec<Expr>, u8) {
        let (mut arguments, mut levels) = (Vec::new(), Vec::new());
        for at in 0..operator.count as usize {
            let style = self.style;
            // What is dropped may be as wrong as it likes.
            self.style.wild |= self.model.drops(operator, at) && self.random.chance(60);
            let (argument, mut level) = self.part(binders, depth - 1);
            let mut argument = argument;
            if self.style.wild && !style.wild && self.random.chance(40) {
                (argument, level) = (prime(prime(argument)), 4);
            }
            self.style = style;
            arguments.push(argument);
            levels.push(level);
        }
        let level = self.model.applied(operator, &levels);
        (arguments, level)
    }

    fn binder(&mut self, binders: &mut Vec<u8>, depth: usize) -> (Expr, u8) {
        let mut code = 128 + self.random.below(14) as u8;
        let row = rows::row(code).expect("a binder");
        let mut arguments = Vec::new();
        if row.arguments == 2 {
            arguments.push(self.part(binders, depth - 1).0);
        }
        binders.extend(row.binds);
        let (body, level) = self.part(binders, depth - 1);
        binders.pop();
        arguments.push(body);
        if code >= 140 && !self.style.wild && (level == 2 || self.style.most < 3) {
            code = 128 + self.random.below(4) as u8;
        }
        let expr = Expr::BuiltIn(code, arguments);
        let params = vec![0; self.style.parameters];
        let level = self.model.level(self.scope, &expr, &params, binders);
        self.settle(expr, level, binders)
    }
}

pub(crate) struct Grower<'a> {
    pub(crate) random: &'a mut Random,
    fields: Vec<Field>,
    bytes: Vec<u8>,
    pub(crate) model: Model,
    cards: Vec<u8>,
    refused: Vec<Vec<u8>>,
    depth: usize,
    /// Tokens of an expression for each level of its nesting.
    width: usize,
    /// Whether the module being written is to be constant.
    calm: bool,
}

/// Tokens for each level of nesting in files that are not large.
const NARROW: usize = 15;

const MODULES: [u16; 17] = [
    1, 2, 3, 4, 5, 6, 7, 8, 9, 10, 255, 256, 257, 258, 300, 0x0102, 65_535,
];

/// Grows an accepted file of modules that each bring the one before.
pub fn grow_chain(random: &mut Random) -> Grown {
    let mut grower = Grower::new(random, 600);
    grower.chain();
    grower.grown()
}

/// Grows an accepted file of about so many bytes and at most so many modules.
pub fn grow(random: &mut Random, size: usize, modules: usize) -> Grown {
    let mut grower = Grower::new(random, size);
    grower.file(size.min(LARGEST - 64), modules);
    grower.grown()
}

impl<'a> Grower<'a> {
    pub(crate) fn new(random: &'a mut Random, size: usize) -> Self {
        let depth = match size {
            0..=299 => 3,
            300..=2_999 => 4,
            3_000..=7_999 => 6,
            _ => 12,
        };
        Grower {
            random,
            fields: Vec::new(),
            bytes: Vec::new(),
            model: Model::default(),
            cards: vec![0; crate::cards::CARDS],
            refused: Vec::new(),
            depth,
            width: if size < 8_000 { NARROW } else { 50 },
            calm: false,
        }
    }

    pub(crate) fn grown(self) -> Grown {
        Grown {
            fields: self.fields,
            model: self.model,
            refused: self.refused,
        }
    }

    /// Modules that each bring the one before, whose declared names are substituted or stand for
    /// themselves.
    fn chain(&mut self) {
        const LIMIT: usize = 4_000;
        let modules = 3 + self.random.below(3) as u16;
        let calm = self.random.chance(50);
        for module in 1..=modules {
            self.keep(Field::Module(module));
            self.calm = calm && module < modules;
            if module == 1 {
                for name in 1..=3 {
                    let count = self.random.pick(&[0, 0, 0, 1, 1, 2, 2, 5]);
                    self.propose(Field::Constant(name, count), LIMIT);
                }
                if !self.calm {
                    self.propose(Field::Variable(4), LIMIT);
                }
                for _ in 0..3 {
                    let field = match self.random.below(3) {
                        0 if !self.calm => self.delicate(),
                        _ => self.definition(),
                    };
                    self.propose(field, LIMIT);
                }
            } else {
                if !self.calm {
                    self.propose(Field::Variable(5), LIMIT);
                }
                let before = self.model.modules.last().map(|m| m.scope.declared.clone());
                for declared in before.unwrap_or_default() {
                    let Operator { name, count, .. } = declared;
                    let field = match declared.meaning {
                        _ if self.random.chance(35) => continue,
                        Meaning::Variable(_) => Field::Variable(name),
                        _ if self.random.chance(15) => self.stand_in(),
                        _ => Field::Constant(name, count),
                    };
                    self.propose(field, LIMIT);
                }
                let mut brought = 0;
                for _ in 0..12 {
                    let mut field = self.instance();
                    if let Field::Instance {
                        name,
                        parameters,
                        module: of,
                        ..
                    } = &mut field
                    {
                        if *of != module - 1 {
                            continue;
                        }
                        // A module with a named instance cannot be brought on.
                        if module < modules && (*name, *parameters) != (0, 0) {
                            continue;
                        }
                    }
                    brought += self.propose(field, LIMIT) as usize;
                    if brought > (module == modules) as usize {
                        break;
                    }
                }
                let field = self.definition();
                self.propose(field, LIMIT);
            }
            self.keep(Field::End);
        }
    }

    fn file(&mut self, size: usize, modules: usize) {
        for number in 1..=modules {
            let limit = size * number / modules;
            let mut name = self.random.pick(&MODULES);
            while self.model.module(name).is_some() {
                name = self.random.number() as u16 | 1;
            }
            self.keep(Field::Module(name));
            if !self.model.modules.is_empty() && self.random.chance(45) {
                let field = self.extends();
                self.propose(field, limit + 40);
            }
            self.calm = self.random.chance(30);
            let mut failures = 0;
            let fewest = if self.random.chance(12) { 0 } else { 3 };
            let mut kept = 0;
            while failures < 25 && (kept < fewest || self.bytes.len() < limit) {
                if self.width > NARROW && self.random.chance(50) && kept > 3 {
                    self.bulk(limit);
                    continue;
                }
                let field = self.field();
                if self.propose(field, limit.max(200) + 100) {
                    kept += 1;
                    failures = 0;
                } else {
                    failures += 1;
                }
            }
            self.keep(Field::End);
        }
    }

    pub(crate) fn keep(&mut self, field: Field) {
        field.write(&mut self.bytes);
        self.model.add(&field);
        self.fields.push(field);
    }

    /// Keeps a field if the file is accepted with it and not longer than wanted.
    pub(crate) fn propose(&mut self, field: Field, limit: usize) -> bool {
        let before = self.bytes.len();
        field.write(&mut self.bytes);
        Field::End.write(&mut self.bytes);
        let short = self.bytes.len() <= limit.min(LARGEST - 64);
        let reply = reference::packed_check(&self.bytes, &mut self.cards);
        let accepted = reply <= 256;
        if !accepted && self.refused.len() < 4 {
            self.refused.push(self.bytes.clone());
        }
        self.bytes.truncate(before);
        if accepted && short {
            self.model.cards.copy_from_slice(&self.cards);
            self.keep(field);
        }
        accepted && short
    }

    /// Keeps a large theorem, which is lawful as it is written.
    fn bulk(&mut self, limit: usize) {
        let depth = self.random.below(self.depth) + 1;
        let formula = self.written(0, 3, depth, false);
        let short = self.bytes.len() + formula.bytes().len() < limit.min(LARGEST - 64);
        if formula.nesting() <= 32 && (short || self.bytes.len() + 100 < limit) {
            self.keep(Field::Theorem(if short { formula } else { lit(1) }));
        } else {
            self.keep(Field::Assume(lit(0)));
        }
    }

    fn declared_name(&mut self) -> u16 {
        match self.random.below(20) {
            0 => 65_535,
            1 => 256,
            _ => 1 + self.random.below(7) as u16,
        }
    }

    fn name(&mut self) -> u16 {
        match self.random.below(20) {
            0..=2 => self.declared_name(),
            3 => self.random.number() as u16 | 1,
            _ => 10 + self.random.below(300) as u16,
        }
    }

    fn extends(&mut self) -> Field {
        let count = self.random.pick(&[1, 1, 2, 2, 3]);
        let mut names: Vec<u16> = (0..count)
            .map(|_| self.random.pick(&self.model.modules).name)
            .collect();
        if self.random.chance(15) {
            names.push(names[0]);
        }
        Field::Extends(names)
    }

    pub(crate) fn expression(&mut self, parameters: usize, most: u8, depth: usize) -> Expr {
        let wild = self.random.chance(6);
        self.written(parameters, most, depth, wild)
    }

    fn written(&mut self, parameters: usize, most: u8, depth: usize, wild: bool) -> Expr {
        let style = Style {
            parameters,
            most,
            wild,
        };
        let scope = self.model.scope().expect("inside a module");
        let mut writer = Writer {
            random: self.random,
            model: &self.model,
            scope,
            style,
            budget: self.width * depth,
        };
        writer.expression(depth)
    }

    fn depth(&mut self) -> usize {
        if self.random.chance(2) {
            return 32;
        }
        1 + self.random.below(self.depth)
    }

    fn field(&mut self) -> Field {
        match self.random.below(100) {
            0..=16 => {
                let name = self.declared_name();
                let count = match self.random.below(8) {
                    0 => self.wide(),
                    _ => self.random.pick(&[0, 0, 0, 1, 1, 2, 3]),
                };
                Field::Constant(name, count)
            }
            17..=27 if !self.calm => Field::Variable(self.declared_name()),
            28..=32 if !self.calm => self.delicate(),
            33 | 34 if !self.calm => self.masked(),
            35 => self.binding(),
            36..=40 if !self.model.modules.is_empty() => self.stand_in(),
            41..=58 => self.definition(),
            59..=88 if !self.model.modules.is_empty() => self.instance(),
            89..=92 => {
                let depth = self.depth();
                Field::Assume(self.expression(0, 0, depth))
            }
            93..=97 => {
                let depth = self.depth();
                Field::Theorem(self.expression(0, 3, depth))
            }
            98 => self.nested(),
            _ => self.definition(),
        }
    }

    /// More parameters or arguments than a few.
    fn wide(&mut self) -> u8 {
        self.random.pick(&[4, 5, 6, 7, 8])
    }

    pub(crate) fn definition(&mut self) -> Field {
        let parameters = match self.random.below(8) {
            0 => self.wide(),
            _ => self.random.pick(&[0, 0, 1, 1, 2, 2, 3]),
        };
        let depth = self.depth();
        let most = if self.calm {
            0
        } else {
            self.random.pick(&[0, 1, 2, 3, 3])
        };
        let body = self.expression(parameters as usize, most, depth);
        Field::Definition(self.name(), parameters, body)
    }

    /// A definition under a name that an earlier module declares, so that it can stand there for
    /// itself; now and then a declaration.
    fn stand_in(&mut self) -> Field {
        let module = self.random.below(self.model.modules.len());
        let declared = self.model.modules[module].scope.declared.clone();
        if declared.is_empty() {
            return self.definition();
        }
        let Operator { name, count, .. } = self.random.pick(&declared);
        match self.random.below(4) {
            0 if count == 0 && !self.calm => Field::Variable(name),
            1 => Field::Constant(name, count),
            _ => {
                let most = self.random.pick(&[0, 0, 1]);
                let body = self.expression(count as usize, most, 2);
                Field::Definition(name, count, body)
            }
        }
    }

    /// A definition with a parameter below binders, so that what is put in has to be moved.
    fn binding(&mut self) -> Field {
        let parameters = self.random.pick(&[1, 1, 2, 3, 7]);
        let mut body = self.expression(parameters as usize, 1, 2);
        for _ in 0..1 + self.random.below(3) {
            let index = syntax::p(self.random.below(parameters as usize) as u8);
            body = syntax::and(body, syntax::and(index.clone(), syntax::b(0)));
            body = match self.random.below(3) {
                0 => syntax::op(128 + self.random.below(4) as u8, &[body]),
                1 => syntax::op(132 + self.random.below(8) as u8, &[index, body]),
                _ => syntax::op(140 + self.random.below(2) as u8, &[body]),
            };
        }
        Field::Definition(self.name(), parameters, body)
    }

    /// A definition that takes its parameters at some levels only, or not together.
    fn masked(&mut self) -> Field {
        let parameters = match self.random.below(3) {
            0 => self.wide(),
            _ => self.random.pick(&[2, 2, 3]),
        };
        let index = |random: &mut Random| syntax::p(random.below(parameters as usize) as u8);
        let mut inner = syntax::and(syntax::p(0), index(self.random));
        for _ in 0..self.random.below(1 + parameters as usize) {
            let other = self.random.pick(&[lit(1), prime(lit(2)), always(lit(3))]);
            let other = if self.random.chance(60) {
                index(self.random)
            } else {
                other
            };
            inner = syntax::and(inner, other);
        }
        let body = match self.random.below(6) {
            0 => syntax::op(119, &[inner]),
            1 => syntax::op(122, &[inner, index(self.random)]),
            2 => syntax::op(140, &[inner]),
            3 => syntax::and(syntax::op(113, &[inner]), index(self.random)),
            4 => inner,
            _ => always(inner),
        };
        Field::Definition(self.name(), parameters, body)
    }

    /// A definition whose nesting is 32.
    fn nested(&mut self) -> Field {
        let inner = self.expression(0, 3, 2);
        let body = syntax::wrap(32 - inner.nesting(), inner);
        Field::Definition(self.name(), 0, body)
    }

    /// An operator with arguments of several levels, most often below another operator: what becomes of
    /// it in an instance hangs on the operator's substitute.
    fn delicate(&mut self) -> Field {
        let scope = self.model.scope().expect("inside a module");
        let wide: Vec<Operator> = scope
            .operators
            .iter()
            .copied()
            .filter(|operator| operator.count > 0)
            .collect();
        if wide.is_empty() {
            return self.definition();
        }
        let operator = self.random.pick(&wide);
        let parameters = self.random.pick(&[0, 0, 1, 2]);
        let arguments: Vec<Expr> = (0..operator.count)
            .map(|_| {
                let inner = self.expression(parameters as usize, 1, 1);
                match self.random.below(3) {
                    0 => prime(inner),
                    1 => always(inner),
                    _ => inner,
                }
            })
            .collect();
        let inner = Expr::Name(operator.name, arguments);
        let body = match self.random.below(4) {
            0 => inner,
            1 => syntax::op(113, &[inner]),
            2 => syntax::op(115, &[inner, lit(0)]),
            _ => always(inner),
        };
        Field::Definition(self.name(), parameters, body)
    }

    fn instance(&mut self) -> Field {
        let last = self.model.modules.len() - 1;
        let of = match self.random.below(10) {
            0..=5 => last,
            _ => self.random.below(last + 1),
        };
        let module = self.model.modules[of].clone();
        let (name, parameters) = match self.random.below(100) {
            0..=54 => (0, 0),
            55..=60 => (self.name(), self.wide()),
            _ => (self.name(), self.random.pick(&[0, 0, 1, 1, 2, 3])),
        };
        let mut with = Vec::new();
        for declared in &module.scope.declared {
            let scope = self.model.scope().expect("inside a module");
            let same = scope.operator(declared.name);
            let stands = same.is_some_and(|operator| operator.count == declared.count);
            if self.random.chance(if stands { 65 } else { 8 }) {
                continue;
            }
            let most = match declared.meaning {
                _ if declared.count > 0 => 0,
                _ if module.constant => 3,
                Meaning::Variable(_) => 1,
                _ => 0,
            };
            let depth = 1 + self.random.below(3);
            let count = (parameters + declared.count) as usize;
            let substitute = self.expression(count, most, depth);
            with.push((declared.name, substitute));
        }
        Field::Instance {
            name,
            parameters,
            module: module.name,
            with,
        }
    }
}
