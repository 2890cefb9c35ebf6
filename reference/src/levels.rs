//! Levels: straight from cards, and as forms that hold all levels of an expression at once.

use crate::cards::Card;
use crate::context::Declaration;
use crate::expressions::{Node, Texts};
use crate::limits::Limits;
use crate::rows::{self, higher, Gives, Row, Takes};
use crate::summaries::Summary;

/// Levels an expression of a module by the cards, parameters at the given levels.
pub fn by_cards(
    texts: &Texts,
    text: u32,
    declarations: &[Declaration],
    cards: &[Card],
    parameters: &[u8],
) -> u8 {
    let mut reading = ByCards {
        texts,
        at: text as usize,
        declarations,
        cards,
        parameters,
        binders: Vec::new(),
    };
    reading.expression()
}

struct ByCards<'a> {
    texts: &'a Texts,
    at: usize,
    declarations: &'a [Declaration],
    cards: &'a [Card],
    parameters: &'a [u8],
    binders: Vec<u8>,
}

impl ByCards<'_> {
    fn expression(&mut self) -> u8 {
        let node = self.texts.nodes[self.at];
        self.at += 1;
        let mut levels = [0; Limits::PARAMETERS];
        match node {
            Node::Parameter(index) => self.parameters[index as usize],
            Node::Bound(index) => self.binders[self.binders.len() - 1 - index as usize],
            Node::Literal(_) => 0,
            Node::BuiltIn(code) => {
                let row = rows::known(code);
                let count = row.arguments as usize;
                for (index, level) in levels[..count].iter_mut().enumerate() {
                    let binds = row.binds_in(index);
                    self.binders.extend(binds);
                    *level = self.expression();
                    if binds.is_some() {
                        self.binders.pop();
                    }
                }
                row.level(&levels[..count])
            }
            Node::Declared { id, count } => {
                self.arguments(&mut levels[..count as usize]);
                declared_level(&self.declarations[id as usize], &levels[..count as usize])
            }
            Node::Defined { number, count } => {
                self.arguments(&mut levels[..count as usize]);
                self.cards[number as usize].at(&levels[..count as usize])
            }
        }
    }

    fn arguments(&mut self, levels: &mut [u8]) {
        for level in levels {
            *level = self.expression();
        }
    }
}

/// The level of a declared name with arguments of these levels.
pub fn declared_level(declaration: &Declaration, arguments: &[u8]) -> u8 {
    let own = declaration.variable as u8;
    arguments.iter().fold(own, |a, &b| higher(a, b))
}

/// The level of an expression as a function of its parameters' levels.
///
/// Levels are ordered 0, 1, then 2 beside 3, then 4. A row that does not take every level takes the
/// higher of two just if it takes both, since none takes 2 and 3. So each parameter counts by itself:
/// the level is 4 if a parameter of `no_action` is at 2, one of `no_temporal` at 3, or one that occurs
/// at 4; otherwise it is the highest of `base` and the parameters in `weights`. A parameter that occurs
/// is in one of the three. A base of 4 stays 4.
#[derive(Clone, Copy, Debug, PartialEq, Eq)]
pub struct Form {
    base: u8,
    /// One bit a parameter, as in the two below; there are up to `Limits::SLOTS`.
    weights: u16,
    no_action: u16,
    no_temporal: u16,
}

impl Form {
    const fn constant(level: u8) -> Self {
        Form {
            base: level,
            weights: 0,
            no_action: 0,
            no_temporal: 0,
        }
    }

    /// The level with the parameters at the given levels.
    pub fn at(&self, levels: &[u8]) -> u8 {
        let mut highest = self.base;
        for (index, &level) in levels.iter().enumerate() {
            let has = |mask: u16| mask >> index & 1 == 1;
            let weighs = has(self.weights);
            let wrong = match level {
                0 | 1 => false,
                2 => has(self.no_action),
                3 => has(self.no_temporal),
                _ => has(self.no_action | self.no_temporal),
            };
            if wrong {
                return 4;
            }
            if weighs {
                highest = higher(highest, level);
            }
        }
        highest
    }

    /// The card of a definition with this form.
    pub fn card(&self, parameters: u8) -> Card {
        Card::probed(parameters as usize, |levels| self.at(levels))
    }

    /// Adds what is wrong inside the other expression, whatever becomes of its level.
    fn need(&mut self, other: &Form) {
        if other.base == 4 {
            self.base = 4;
        }
        self.no_action |= other.no_action;
        self.no_temporal |= other.no_temporal;
    }

    /// Adds that the other expression is not taken at 2.
    fn refuse_action(&mut self, other: &Form) {
        if other.base == 2 {
            self.base = 4;
        }
        self.no_action |= other.weights;
    }

    /// Adds that the other expression is not taken at 3.
    fn refuse_temporal(&mut self, other: &Form) {
        if other.base == 3 {
            self.base = 4;
        }
        self.no_temporal |= other.weights;
    }

    /// Raises the level to that of the other expression.
    fn raise(&mut self, other: &Form) {
        self.base = higher(self.base, other.base);
        self.weights |= other.weights;
    }
}

impl Summary for Form {
    #[inline]
    fn parameter(index: usize) -> Self {
        Form {
            weights: 1 << index,
            ..Form::constant(0)
        }
    }

    #[inline]
    fn bound(level: u8) -> Self {
        Form::constant(level)
    }

    #[inline]
    fn literal() -> Self {
        Form::constant(0)
    }

    fn declared(declaration: &Declaration, arguments: &[Self]) -> Self {
        let mut form = Form::constant(declaration.variable as u8);
        for argument in arguments {
            form.need(argument);
            form.raise(argument);
        }
        form
    }

    fn built_in(row: &Row, arguments: &[Self]) -> Self {
        let mut form = match row.gives {
            Gives::Highest => Form::constant(0),
            Gives::Always(level) => Form::constant(level),
        };
        for (argument, takes) in arguments.iter().zip(row.takes) {
            form.need(argument);
            // A row that does not take every level gives its own.
            match takes {
                Takes::Any => form.raise(argument),
                Takes::AtMost(most) => {
                    form.refuse_temporal(argument);
                    if most < 2 {
                        form.refuse_action(argument);
                    }
                }
                Takes::NoTransition => form.refuse_action(argument),
            }
        }
        form
    }

    fn apply(&self, arguments: &[Self]) -> Self {
        let mut form = Form::constant(self.base);
        for (index, argument) in arguments.iter().enumerate() {
            let has = |mask: u16| mask >> index & 1 == 1;
            if has(self.weights | self.no_action | self.no_temporal) {
                form.need(argument);
            }
            if has(self.no_action) {
                form.refuse_action(argument);
            }
            if has(self.no_temporal) {
                form.refuse_temporal(argument);
            }
            if has(self.weights) {
                form.raise(argument);
            }
        }
        form
    }
}
