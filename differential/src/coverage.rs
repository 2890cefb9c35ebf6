//! Counts of what occurred in a run, and what has to occur.

use crate::cards::{self, CARDS, MOST};
use crate::cases::{Call, Case, Outcome};
use crate::checker::Offer;
use crate::dropping;
use crate::faults;
use crate::lawful::{self, MOVES};
use crate::limits;
use crate::mixed_substitutes;
use crate::mixing;
use crate::model::{Definition, Meaning, Model, Module, Operator, Scope};
use crate::rows;
use crate::substitutes;
use crate::syntax::{Expr, Field};
use crate::wide;
use reference::Seen;
use std::collections::{BTreeMap, BTreeSet};
use std::fmt::{self, Display, Formatter};

/// The parts of the counts.
#[derive(Clone, Copy, Debug, PartialEq, Eq, PartialOrd, Ord)]
pub enum Section {
    Cause,
    Construct,
    Fault,
    Limit,
    Substitute,
    Mixing,
    MixedSubstitutes,
    Lawful,
    /// What has four to eight parameters or arguments.
    Wide,
    /// What becomes of the arguments of operators through instances, in accepted files.
    Dropping,
    /// Masks, weights and pairs of the cards of accepted files.
    Card,
    /// What the second opinion on lawful instances looked at.
    Staying,
    Query,
}

/// The causes that there are.
const CAUSES: [u32; 18] = [
    1, 2, 3, 4, 5, 6, 7, 8, 9, 10, 11, 12, 13, 14, 16, 17, 18, 21,
];
/// No reply has this number: a run with one fails.
const UNUSED: u32 = 15;

/// Fewest of each kind that the second opinion has to look at.
const FEWEST: u64 = 20;

/// Counts of what occurred.
#[derive(Clone, Debug, Default, PartialEq, Eq)]
pub struct Coverage {
    counts: BTreeMap<(Section, String), u64>,
    codes: BTreeSet<u8>,
    /// Files by kind of verdict.
    pub accepted: u64,
    pub refused: u64,
}

const CONSTRUCTS: [&str; 116] = [
    "module",
    "module with nothing",
    "EXTENDS",
    "EXTENDS of several",
    "EXTENDS repeat",
    "EXTENDS diamond",
    "EXTENDS with an instance name",
    "CONSTANT",
    "CONSTANT of 1",
    "CONSTANT of 2",
    "CONSTANT of 3",
    "CONSTANT of 4",
    "CONSTANT of 5",
    "CONSTANT of 6",
    "CONSTANT of 7",
    "CONSTANT of 8",
    "VARIABLE",
    "definition of 0",
    "definition of 1",
    "definition of 2",
    "definition of 3",
    "definition of 4",
    "definition of 5",
    "definition of 6",
    "definition of 7",
    "definition of 8",
    "INSTANCE unnamed",
    "INSTANCE named, 0 parameters",
    "INSTANCE named, 1 parameters",
    "INSTANCE named, 2 parameters",
    "INSTANCE named, 3 parameters",
    "INSTANCE named, 4 parameters",
    "INSTANCE named, 5 parameters",
    "INSTANCE named, 6 parameters",
    "INSTANCE named, 7 parameters",
    "INSTANCE named, 8 parameters",
    "INSTANCE that brings nothing",
    "INSTANCE twice over",
    "INSTANCE three times over",
    "INSTANCE of a constant module",
    "INSTANCE of a constant module, substitute at 1",
    "INSTANCE of a constant module, substitute at 2",
    "INSTANCE of a constant module, substitute at 3",
    "INSTANCE of a module with variables",
    "INSTANCE of a module extending another",
    "written for a constant",
    "written for a variable",
    "written for an operator of 1",
    "written for an operator of 2",
    "written for an operator of 3",
    "written for an operator of 4",
    "written for an operator of 5",
    "written for an operator of 6",
    "written for an operator of 7",
    "written for an operator of 8",
    "written over instance parameters",
    "written with a binder",
    "itself, a constant for a constant",
    "itself, a constant for a variable",
    "itself, a variable for a variable",
    "itself, a variable for a constant",
    "itself, a declared operator",
    "itself, a definition for a constant or variable",
    "itself, a defined operator",
    "ASSUME",
    "THEOREM",
    "parameter",
    "bound variable 0",
    "bound variable 1 up",
    "declared constant",
    "declared variable",
    "declared operator",
    "defined name",
    "defined operator",
    "brought operator, unnamed",
    "I!F",
    "I!F with arguments",
    "I!F with instance parameters",
    "I!F with 4 to 7 arguments",
    "I!F with 8 arguments",
    "name with 4 arguments",
    "name with 5 arguments",
    "name with 6 arguments",
    "name with 7 arguments",
    "name with 8 arguments",
    "definition brought, 4 parameters",
    "definition brought, 5 parameters",
    "definition brought, 6 parameters",
    "definition brought, 7 parameters",
    "definition brought, 8 parameters",
    "literal",
    "dropped argument",
    "dropped argument at level 4",
    "codes 0-15",
    "codes 16-47",
    "codes 48-95",
    "codes 96-103",
    "codes 112-125",
    "codes 128-131",
    "codes 132-139",
    "codes 140-141",
    "every code",
    "nesting 32",
    "definition at 0",
    "definition at 1",
    "definition at 2",
    "definition at 3",
    "card that mixes at (2, 3)",
    "card that takes (2, 3)",
    "card unlike its source's",
    "file under 64 bytes",
    "file under 1,024 bytes",
    "file under 8,192 bytes",
    "file under 32,768 bytes",
    "file of 32,768 bytes",
    "256 definitions",
];

const QUERIES: [&str; 58] = [
    "check",
    "card memory under 4,096",
    "card memory of 4,096",
    "card memory over 4,096",
    "card memory of 32,000",
    "query of a refused file",
    "level",
    "level replies 0",
    "level replies 1",
    "level replies 2",
    "level replies 3",
    "level replies 4",
    "level over 0",
    "level over 1",
    "level over 2",
    "level over 3",
    "level over 4",
    "level over 5",
    "level over 6",
    "level over 7",
    "level over 8",
    "level over 9",
    "level given above 4",
    "level given above 4 among nine",
    "level given 4",
    "level given 2 and 3 replies 4",
    "level given 2 and 3 replies less",
    "level refused 3",
    "level refused 5",
    "level refused 9",
    "level refused 10",
    "level refused 17",
    "expand",
    "expand over parameters",
    "expand over 4 to 7",
    "expand over 8",
    "expand over 9",
    "expand, exact room",
    "expand, one byte short",
    "expand, one byte more",
    "expand, no room",
    "expand, exactly 65,535",
    "expand, index moved",
    "expand, over 65,535 with room",
    "expand refused 3",
    "expand refused 5",
    "expand refused 9",
    "expand refused 10",
    "expand refused 17",
    "expand refused 18",
    "module 0",
    "empty expression",
    "alike 0",
    "alike 1",
    "alike refused 17",
    "body of an own definition",
    "body of a brought definition",
    "body refused 17",
];

/// Whatever has to occur in a run of what is asked.
pub fn required(asked: Offer) -> Vec<(Section, String)> {
    let mut all = Vec::new();
    let causes = CAUSES.iter().filter(|&&cause| match cause {
        17 => asked >= Offer::Queries,
        18 => asked >= Offer::Expansions,
        _ => true,
    });
    all.extend(causes.map(|cause| (Section::Cause, cause.to_string())));
    all.extend(CONSTRUCTS.map(|what| (Section::Construct, what.to_string())));
    let plans = faults::plans();
    all.extend(plans.iter().map(|plan| (Section::Fault, plan.label())));
    all.extend(limits::labels().into_iter().map(|l| (Section::Limit, l)));
    let substitutes = substitutes::labels().into_iter();
    all.extend(substitutes.map(|label| (Section::Substitute, label)));
    let mixing = mixing::labels().into_iter();
    all.extend(mixing.map(|label| (Section::Mixing, label)));
    let substitutes = mixed_substitutes::labels().into_iter();
    all.extend(substitutes.map(|label| (Section::MixedSubstitutes, label)));
    let lawful = lawful::labels().into_iter();
    all.extend(lawful.map(|label| (Section::Lawful, label)));
    let wide = wide::labels().into_iter();
    all.extend(wide.map(|label| (Section::Wide, label)));
    let dropping = dropping::labels().into_iter();
    all.extend(dropping.map(|label| (Section::Dropping, label)));
    all.extend(of_cards().into_iter().map(|label| (Section::Card, label)));
    let staying = looked_at(&Seen::default()).into_iter();
    all.extend(staying.map(|(what, _)| (Section::Staying, what)));
    if asked > Offer::Checks {
        let kinds = QUERIES.iter().filter(|what| {
            let expansion = what.starts_with("expand");
            !expansion || asked == Offer::Expansions
        });
        all.extend(kinds.map(|what| (Section::Query, what.to_string())));
    }
    all
}

/// Masks of a parameter that there is.
const MASKS: [u8; 5] = [31, 15, 11, 7, 3];

/// What has to occur among the cards of accepted files.
fn of_cards() -> Vec<String> {
    let mut all: Vec<String> = (0..=MOST)
        .map(|count| format!("parameters {count}"))
        .collect();
    for at in 0..MOST {
        all.extend(MASKS.map(|mask| format!("mask {mask} of parameter {at}")));
        all.push(format!("weight of parameter {at}"));
        all.push(format!("no weight of parameter {at}, though it is used"));
    }
    all.extend(cards::pairs(MOST).map(|(first, second)| format!("pair {first}, {second}")));
    all.push("pair with 2 for the first only".into());
    all.push("pair with 3 for the first only".into());
    all.push("all 28 pairs".into());
    all
}

/// What the second opinion looked at, by kind.
fn looked_at(seen: &Seen) -> Vec<(String, u64)> {
    let mut all = vec![
        ("INSTANCE".to_string(), seen.instances),
        ("INSTANCE, and 16".to_string(), seen.named_inside),
        ("definition brought on".to_string(), seen.chained),
        (
            "constant module, below the highest substitute".to_string(),
            seen.below,
        ),
    ];
    all.extend(MOVES.iter().map(|only| (only.label(), only.count(seen))));
    all
}

impl Coverage {
    /// Adds what the second opinion looked at.
    pub fn staying(&mut self, seen: &Seen) {
        for (what, count) in looked_at(seen) {
            *self.counts.entry((Section::Staying, what)).or_insert(0) += count;
        }
    }

    pub fn count(&mut self, section: Section, what: impl Into<String>) {
        *self.counts.entry((section, what.into())).or_insert(0) += 1;
    }

    pub fn get(&self, section: Section, what: &str) -> u64 {
        let found = self.counts.get(&(section, what.to_string()));
        found.copied().unwrap_or(0)
    }

    /// What has to occur and did not, or not often enough, and the number 15 if it did.
    pub fn missing(&self, asked: Offer) -> Vec<String> {
        let required = required(asked).into_iter();
        let mut missing: Vec<String> = required
            .filter(|(section, what)| {
                let fewest = match section {
                    Section::Staying => FEWEST,
                    _ => 1,
                };
                self.get(*section, what) < fewest
            })
            .map(|(section, what)| format!("{section:?}: {what}"))
            .collect();
        if self.get(Section::Cause, &UNUSED.to_string()) > 0 {
            missing.push(format!("Cause: {UNUSED} occurred, which is not used"));
        }
        missing
    }

    fn construct(&mut self, what: &str) {
        debug_assert!(CONSTRUCTS.contains(&what), "{what}");
        self.count(Section::Construct, what);
    }

    pub fn query(&mut self, what: &str) {
        debug_assert!(QUERIES.contains(&what), "{what}");
        self.count(Section::Query, what);
    }

    /// Counts a call and its outcome. `verdict` is the verdict on the file.
    pub fn case(&mut self, case: &Case, outcome: &Outcome, verdict: Option<(u32, u32)>) {
        let refusal = case.refusal(outcome);
        if let Some((cause, _)) = refusal {
            self.count(Section::Cause, cause.to_string());
        }
        self.query(match case.cards {
            0..CARDS => "card memory under 4,096",
            CARDS => "card memory of 4,096",
            32_000 => "card memory of 32,000",
            _ => "card memory over 4,096",
        });
        if case.call == Call::Check {
            return self.query("check");
        }
        if matches!(refusal, Some((1, _))) {
            return;
        }
        if verdict.is_some() {
            return self.query("query of a refused file");
        }
        let reply = outcome.reply;
        match &case.call {
            Call::Check => (),
            Call::Level {
                module,
                expr,
                levels,
            } => {
                self.query("level");
                self.expression(*module, expr);
                let above = levels.iter().any(|&level| level > 4);
                if above {
                    self.query("level given above 4");
                }
                if above && levels.len() > MOST {
                    self.query("level given above 4 among nine");
                }
                if levels.len() <= MOST + 1 {
                    self.query(&format!("level over {}", levels.len()));
                }
                if levels.contains(&4) {
                    self.query("level given 4");
                }
                if rows::mixed(levels) && !levels.contains(&4) && refusal.is_none() {
                    match reply {
                        4 => self.query("level given 2 and 3 replies 4"),
                        _ => self.query("level given 2 and 3 replies less"),
                    }
                }
                match refusal {
                    Some((cause, _)) => self.query(&format!("level refused {cause}")),
                    None => self.query(&format!("level replies {reply}")),
                }
            }
            Call::Expand {
                module,
                expr,
                params,
                room,
            } => {
                self.query("expand");
                self.expression(*module, expr);
                match params {
                    0 => (),
                    1..=3 => self.query("expand over parameters"),
                    4..=7 => self.query("expand over 4 to 7"),
                    8 => self.query("expand over 8"),
                    _ => self.query("expand over 9"),
                }
                if *room == 0 {
                    self.query("expand, no room");
                }
                match refusal {
                    Some((18, _)) => {
                        self.query("expand refused 18");
                        if *room > 65_535 {
                            self.query("expand, over 65,535 with room");
                        }
                    }
                    Some((cause, _)) => self.query(&format!("expand refused {cause}")),
                    None => {
                        let length = reply as usize;
                        if length == *room {
                            self.query("expand, exact room");
                        }
                        if length + 1 == *room {
                            self.query("expand, one byte more");
                        }
                        let before = highest_index(expr);
                        if highest_index(&outcome.out[..length.min(*room)]) > before {
                            self.query("expand, index moved");
                        }
                        if length == 65_535 {
                            self.query("expand, exactly 65,535");
                        }
                    }
                }
            }
            Call::Alike { .. } => match refusal {
                Some((cause, _)) => self.query(&format!("alike refused {cause}")),
                None => self.query(&format!("alike {reply}")),
            },
            Call::Body { .. } => {
                if let Some((cause, _)) = refusal {
                    self.query(&format!("body refused {cause}"));
                }
            }
        }
    }

    fn expression(&mut self, module: u16, expr: &[u8]) {
        if module == 0 {
            self.query("module 0");
        }
        if expr.is_empty() {
            self.query("empty expression");
        }
    }

    /// Counts the constructs of an accepted file.
    pub fn file(&mut self, bytes: usize, fields: &[Field], cards: &[u8]) {
        let mut model = Model {
            cards: cards.to_vec(),
            ..Model::default()
        };
        for field in fields {
            self.field(&model, field);
            let before = model.definitions.len();
            model.add(field);
            for number in before..model.definitions.len() {
                self.card(&model, number);
            }
        }
        for what in dropping::seen(fields, cards) {
            self.count(Section::Dropping, what);
        }
        for module in &model.modules {
            self.construct("module");
            if module.fields == 1 {
                self.construct("module with nothing");
            }
        }
        if model.definitions.len() == 256 {
            self.construct("256 definitions");
        }
        self.construct(match bytes {
            0..=63 => "file under 64 bytes",
            64..=1_023 => "file under 1,024 bytes",
            1_024..=8_191 => "file under 8,192 bytes",
            8_192..=32_767 => "file under 32,768 bytes",
            _ => "file of 32,768 bytes",
        });
        if rows::codes().all(|code| self.codes.contains(&code)) {
            self.construct("every code");
        }
    }

    fn card(&mut self, model: &Model, number: usize) {
        let card = model.card(number);
        self.construct(&format!("definition at {}", card[1].min(3)));
        let Definition {
            parameters, chain, ..
        } = model.definitions[number];
        if parameters > 3 && chain > 0 {
            self.construct(&format!("definition brought, {parameters} parameters"));
        }
        self.parts(card);
        if parameters < 2 {
            return;
        }
        // What the first two parameters give at 2 and 3: 4 though each alone is taken; or 3, the second's
        // own, though the first is not dropped.
        let mut levels = vec![0; parameters as usize];
        let mut at = |first, second| {
            (levels[0], levels[1]) = (first, second);
            cards::read(card, &levels)
        };
        match (at(2, 0), at(0, 3), at(2, 3)) {
            (..=3, ..=3, 4) => self.construct("card that mixes at (2, 3)"),
            (_, 3, 3) if at(4, 0) == 4 => self.construct("card that takes (2, 3)"),
            _ => (),
        }
    }

    /// Counts masks, weights and pairs of a card.
    fn parts(&mut self, card: &[u8]) {
        let count = card[0] as usize;
        let (masks, bits) = (&card[3..11], cards::pair_bits(card));
        self.count(Section::Card, format!("parameters {count}"));
        for (at, mask) in masks[..count].iter().enumerate() {
            self.count(Section::Card, format!("mask {mask} of parameter {at}"));
            match (card[2] >> at & 1, mask) {
                (1, _) => self.count(Section::Card, format!("weight of parameter {at}")),
                (_, 31) => (),
                _ => self.count(
                    Section::Card,
                    format!("no weight of parameter {at}, though it is used"),
                ),
            }
        }
        for (bit, (first, second)) in cards::pairs(count).enumerate() {
            if bits >> bit & 1 == 0 {
                continue;
            }
            self.count(Section::Card, format!("pair {first}, {second}"));
            match (masks[first], masks[second]) {
                (7, _) => self.count(Section::Card, "pair with 2 for the first only"),
                (_, 7) => self.count(Section::Card, "pair with 3 for the first only"),
                _ => (),
            }
        }
        if bits == 0x0FFF_FFFF {
            self.count(Section::Card, "all 28 pairs");
        }
    }

    fn field(&mut self, model: &Model, field: &Field) {
        let none = Scope::default();
        let scope = model.scope().unwrap_or(&none);
        match field {
            Field::Extends(names) => self.extends(model, names),
            Field::Constant(_, count) => match count {
                0 => self.construct("CONSTANT"),
                _ => self.construct(&format!("CONSTANT of {count}")),
            },
            Field::Variable(_) => self.construct("VARIABLE"),
            Field::Definition(_, parameters, _) => {
                self.construct(&format!("definition of {parameters}"));
            }
            Field::Instance {
                name,
                parameters,
                module,
                with,
            } => {
                match name {
                    0 => self.construct("INSTANCE unnamed"),
                    _ => self.construct(&format!("INSTANCE named, {parameters} parameters")),
                }
                if let Some(module) = model.module(*module) {
                    self.instance(model, scope, module, *parameters, with);
                }
            }
            Field::Assume(_) => self.construct("ASSUME"),
            Field::Theorem(_) => self.construct("THEOREM"),
            Field::Module(_) | Field::End | Field::Raw(_) => (),
        }
        for expr in field.expressions() {
            if expr.nesting() == 32 {
                self.construct("nesting 32");
            }
            self.tokens(model, scope, expr);
        }
    }

    fn extends(&mut self, model: &Model, names: &[u16]) {
        self.construct("EXTENDS");
        let distinct: BTreeSet<u16> = names.iter().copied().collect();
        if distinct.len() > 1 {
            self.construct("EXTENDS of several");
        }
        if distinct.len() < names.len() {
            self.construct("EXTENDS repeat");
        }
        let scopes: Vec<&Scope> = distinct
            .iter()
            .filter_map(|&name| model.module(name).map(|module| &module.scope))
            .collect();
        let shared = scopes.iter().enumerate().any(|(at, left)| {
            let mut others = scopes[at + 1..].iter();
            others.any(|right| left.operators.iter().any(|o| right.operators.contains(o)))
        });
        if shared {
            self.construct("EXTENDS diamond");
        }
        if scopes.iter().any(|scope| !scope.instances.is_empty()) {
            self.construct("EXTENDS with an instance name");
        }
    }

    fn instance(
        &mut self,
        model: &Model,
        scope: &Scope,
        module: &Module,
        parameters: u8,
        with: &[(u16, Expr)],
    ) {
        let order = &module.scope.order;
        if order.is_empty() {
            self.construct("INSTANCE that brings nothing");
        }
        let longest = order.iter().map(|&d| model.definitions[d].chain).max();
        match longest.unwrap_or(0) {
            0 => (),
            1 => self.construct("INSTANCE twice over"),
            _ => self.construct("INSTANCE three times over"),
        }
        self.construct(if module.constant {
            "INSTANCE of a constant module"
        } else {
            "INSTANCE of a module with variables"
        });
        let first = model.definitions.len();
        for (place, &source) in order.iter().enumerate() {
            let same = parameters == 0 && model.card(source) != model.card(first + place);
            if same {
                self.construct("card unlike its source's");
            }
        }
        if module.scope.extends {
            self.construct("INSTANCE of a module extending another");
        }
        for declared in &module.scope.declared {
            let written = with.iter().find(|(name, _)| *name == declared.name);
            match written {
                Some((_, expr)) => self.written(model, scope, module, parameters, declared, expr),
                None => self.implied(scope, declared),
            }
        }
    }

    fn written(
        &mut self,
        model: &Model,
        scope: &Scope,
        module: &Module,
        parameters: u8,
        declared: &Operator,
        expr: &Expr,
    ) {
        match (declared.count, declared.meaning) {
            (0, Meaning::Variable(_)) => self.construct("written for a variable"),
            (0, _) => self.construct("written for a constant"),
            (count, _) => self.construct(&format!("written for an operator of {count}")),
        }
        if mentions(
            expr,
            &|e| matches!(e, Expr::Parameter(i) if *i < parameters),
        ) {
            self.construct("written over instance parameters");
        }
        if mentions(expr, &|e| matches!(e, Expr::BuiltIn(128.., _))) {
            self.construct("written with a binder");
        }
        let zeros = [0; 2 * MOST];
        let level = model.level(scope, expr, &zeros, &mut Vec::new());
        if module.constant && declared.count == 0 && (1..=3).contains(&level) {
            self.construct(&format!(
                "INSTANCE of a constant module, substitute at {level}"
            ));
        }
    }

    fn implied(&mut self, scope: &Scope, declared: &Operator) {
        let Some(operator) = scope.operator(declared.name) else {
            return;
        };
        self.construct(match (declared.count, declared.meaning, operator.meaning) {
            (1.., _, Meaning::Defined(_)) => "itself, a defined operator",
            (1.., _, _) => "itself, a declared operator",
            (_, _, Meaning::Defined(_)) => "itself, a definition for a constant or variable",
            (_, Meaning::Variable(_), Meaning::Variable(_)) => "itself, a variable for a variable",
            (_, Meaning::Variable(_), _) => "itself, a constant for a variable",
            (_, _, Meaning::Variable(_)) => "itself, a variable for a constant",
            _ => "itself, a constant for a constant",
        });
    }

    fn tokens(&mut self, model: &Model, scope: &Scope, expr: &Expr) {
        let mut called = None;
        match expr {
            Expr::Parameter(_) => self.construct("parameter"),
            Expr::Bound(0) => self.construct("bound variable 0"),
            Expr::Bound(_) => self.construct("bound variable 1 up"),
            Expr::Literal(_) => self.construct("literal"),
            Expr::BuiltIn(code, _) => {
                self.codes.insert(*code);
                self.construct(match code {
                    0..=15 => "codes 0-15",
                    16..=47 => "codes 16-47",
                    48..=95 => "codes 48-95",
                    96..=103 => "codes 96-103",
                    104..=127 => "codes 112-125",
                    128..=131 => "codes 128-131",
                    132..=139 => "codes 132-139",
                    140.. => "codes 140-141",
                });
            }
            Expr::Name(name, _) => {
                called = scope.operator(*name);
                if expr.arguments().len() > 3 {
                    let count = expr.arguments().len();
                    self.construct(&format!("name with {count} arguments"));
                }
                if let Some(operator) = called {
                    self.construct(match (operator.meaning, operator.count) {
                        (Meaning::Constant(_), 0) => "declared constant",
                        (Meaning::Constant(_), _) => "declared operator",
                        (Meaning::Variable(_), _) => "declared variable",
                        (Meaning::Defined(_), 0) => "defined name",
                        (Meaning::Defined(_), _) => "defined operator",
                    });
                    if let Meaning::Defined(number) = operator.meaning {
                        if model.definitions[number].chain > 0 {
                            self.construct("brought operator, unnamed");
                        }
                    }
                }
            }
            Expr::Brought(instance, name, arguments) => {
                called = scope.brought(*instance, *name);
                self.construct("I!F");
                match arguments.len() {
                    0 => (),
                    4..MOST => self.construct("I!F with 4 to 7 arguments"),
                    MOST => self.construct("I!F with 8 arguments"),
                    _ => self.construct("I!F with arguments"),
                }
                if scope.instance(*instance).is_some_and(|i| i.parameters > 0) {
                    self.construct("I!F with instance parameters");
                }
            }
        }
        for (at, argument) in expr.arguments().iter().enumerate() {
            if called.is_some_and(|operator| model.drops(operator, at)) {
                self.construct("dropped argument");
                let (zeros, mut binders) = ([0; 2 * MOST], vec![0; 32]);
                if model.level(scope, argument, &zeros, &mut binders) == 4 {
                    self.construct("dropped argument at level 4");
                }
            }
            self.tokens(model, scope, argument);
        }
    }

    /// The counts of one section.
    pub fn section(&self, section: Section) -> Vec<(&str, u64)> {
        let counts = self.counts.iter();
        counts
            .filter(|((of, _), _)| *of == section)
            .map(|((_, what), count)| (what.as_str(), *count))
            .collect()
    }
}

/// One more than the highest bound index of an expression, 0 if there is none.
fn highest_index(bytes: &[u8]) -> usize {
    fn highest(expr: &Expr) -> usize {
        let own = match expr {
            Expr::Bound(index) => *index as usize + 1,
            _ => 0,
        };
        let inner = expr.arguments().iter().map(highest).max();
        own.max(inner.unwrap_or(0))
    }
    Expr::read(bytes).as_ref().map_or(0, highest)
}

fn mentions(expr: &Expr, what: &dyn Fn(&Expr) -> bool) -> bool {
    what(expr) || expr.arguments().iter().any(|part| mentions(part, what))
}

impl Display for Coverage {
    fn fmt(&self, f: &mut Formatter) -> fmt::Result {
        writeln!(
            f,
            "files: {} accepted, {} refused",
            self.accepted, self.refused
        )?;
        let count = |cause: u32| self.get(Section::Cause, &cause.to_string());
        let causes = CAUSES.map(|cause| format!("{cause}: {}", count(cause)));
        writeln!(f, "refusals by cause: {}", causes.join(", "))?;
        for section in [
            Section::Construct,
            Section::Dropping,
            Section::Card,
            Section::Staying,
            Section::Query,
        ] {
            let counts = self.section(section);
            writeln!(f, "{section:?}, {} kinds:", counts.len())?;
            for (what, count) in counts {
                writeln!(f, "  {count:8} {what}")?;
            }
        }
        for section in [
            Section::Fault,
            Section::Limit,
            Section::Substitute,
            Section::Mixing,
            Section::MixedSubstitutes,
            Section::Lawful,
            Section::Wide,
        ] {
            let counts = self.section(section);
            let fewest = counts.iter().map(|(_, count)| count).min().unwrap_or(&0);
            writeln!(
                f,
                "{section:?}, {} kinds as meant, each at least {fewest} times",
                counts.len()
            )?;
        }
        Ok(())
    }
}
