//! Makes a case that shows a difference small.

use crate::cards::CARDS;
use crate::cases::{Call, Case};
use crate::model::Model;
use crate::syntax::{self, op, Expr, Field};
use std::ops::Range;
use std::time::{Duration, Instant};

/// Most candidates that are tried.
const BUDGET: usize = 12_000;
/// Longest time taken; only large cases need it.
const TIME: Duration = Duration::from_secs(60);

/// Shrinks a case as long as it keeps a property, which it has to have.
pub fn shrink(case: &Case, keeps: &mut dyn FnMut(&Case) -> bool) -> Case {
    let mut shrinker = Shrinker {
        best: case.clone(),
        keeps,
        budget: BUDGET,
        begin: Instant::now(),
    };
    loop {
        let before = weight(&shrinker.best);
        shrinker.call();
        shrinker.fields();
        shrinker.parts();
        shrinker.call();
        shrinker.bytes();
        if weight(&shrinker.best) >= before || shrinker.budget == 0 {
            return shrinker.best;
        }
    }
}

/// What is made smaller.
fn weight(case: &Case) -> usize {
    let call = match &case.call {
        Call::Check => 0,
        Call::Level { expr, levels, .. } => {
            let sum: usize = levels.iter().map(|&level| level as usize).sum();
            10 + 300 * levels.len() + 100 * expr.len() + sum
        }
        Call::Expand {
            expr, params, room, ..
        } => 10 + 100 * expr.len() + 300 * *params as usize + (*room).min(65_600) / 1_000,
        Call::Alike { a, b } => 10 + (*a).min(300) as usize + (*b).min(300) as usize,
        Call::Body { d } => 10 + (*d).min(300) as usize,
    };
    let memory = (case.cards != CARDS) as usize + (case.fill != 0) as usize;
    1_000 * case.file.len() + 10 * call + memory
}

/// For each definition the field that added it, and the one that holds its body: no two have both.
fn origins(fields: &[Field]) -> Vec<(usize, usize)> {
    let mut model = Model::default();
    let mut origins = Vec::new();
    for (number, field) in fields.iter().enumerate() {
        model.add(field);
        if model.definitions.len() > reference::Limits::DEFINITIONS {
            break;
        }
        let added = &model.definitions[origins.len()..];
        origins.extend(added.iter().map(|definition| (number, definition.field)));
    }
    origins
}

struct Shrinker<'a> {
    best: Case,
    keeps: &'a mut dyn FnMut(&Case) -> bool,
    budget: usize,
    begin: Instant,
}

impl Shrinker<'_> {
    /// Takes a candidate that is smaller and keeps the property.
    fn offer(&mut self, candidate: Case) -> bool {
        if self.budget == 0 || weight(&candidate) >= weight(&self.best) {
            return false;
        }
        self.budget -= 1;
        if self.begin.elapsed() > TIME {
            self.budget = 0;
        }
        let kept = (self.keeps)(&candidate);
        if kept {
            self.best = candidate;
        }
        kept
    }

    fn offer_call(&mut self, call: Call) -> bool {
        let candidate = Case {
            call,
            ..self.best.clone()
        };
        self.offer(candidate)
    }

    /// A file, also with the definitions asked for one or more numbers lower.
    fn offer_file(&mut self, file: Vec<u8>) -> bool {
        let candidate = Case {
            file,
            ..self.best.clone()
        };
        let mut others = Vec::new();
        match candidate.call {
            Call::Alike { a, b } => {
                // A definition less may be several less before the one asked for: it is brought.
                let steps = (1..=5).flat_map(|less| [(less, less), (0, less), (less, 0)]);
                others.extend(steps.map(|(x, y)| Call::Alike {
                    a: a.saturating_sub(x),
                    b: b.saturating_sub(y),
                }));
            }
            Call::Body { d } => {
                others.extend([1, 2, 3].map(|less| Call::Body {
                    d: d.saturating_sub(less),
                }));
            }
            _ => (),
        }
        if self.offer(candidate.clone()) {
            return true;
        }
        others.into_iter().any(|call| {
            let candidate = candidate.clone();
            self.offer(Case { call, ..candidate })
        })
    }

    /// The file without some of its fields. If the definitions asked for are still there, they are asked for by
    /// the numbers that they have then.
    fn offer_without(&mut self, gone: Range<usize>) -> bool {
        let before = syntax::fields(&self.best.file);
        let mut after = before.clone();
        after.drain(gone.clone());
        let file = syntax::file(&after);
        let asked = match self.best.call {
            Call::Alike { a, b } => vec![a, b],
            Call::Body { d } => vec![d],
            _ => return self.offer_file(file),
        };
        let (before, after) = (origins(&before), origins(&after));
        let moved = |field: usize| match field {
            _ if gone.contains(&field) => None,
            _ if field < gone.start => Some(field),
            _ => Some(field - gone.len()),
        };
        let found = asked.iter().map(|&number| {
            let &(by, body) = before.get(number as usize)?;
            let origin = (moved(by)?, moved(body)?);
            let number = after.iter().position(|&other| other == origin)?;
            Some(number as u32)
        });
        let call = match found.collect::<Option<Vec<u32>>>().as_deref() {
            Some(&[a, b]) => Call::Alike { a, b },
            Some(&[d]) => Call::Body { d },
            _ => return self.offer_file(file),
        };
        let candidate = self.best.clone();
        self.offer(Case {
            file,
            call,
            ..candidate
        })
    }

    fn call(&mut self) {
        self.offer_call(Call::Check);
        let plain = Case {
            cards: CARDS,
            fill: 0,
            ..self.best.clone()
        };
        self.offer(plain);
        match self.best.call.clone() {
            Call::Check => (),
            Call::Level {
                module,
                expr,
                levels,
            } => {
                for at in (0..levels.len()).rev() {
                    let mut fewer = levels.clone();
                    fewer.remove(at);
                    let (expr, levels) = (expr.clone(), fewer);
                    self.offer_call(Call::Level {
                        module,
                        expr,
                        levels,
                    });
                }
                self.query_expression(&|call, expr| match call {
                    Call::Level { module, levels, .. } => Call::Level {
                        module,
                        expr,
                        levels,
                    },
                    other => other,
                });
            }
            Call::Expand {
                module,
                expr,
                params,
                room,
            } => {
                for room in 0..4 {
                    let expr = op(0, &[]).bytes();
                    self.offer_call(Call::Expand {
                        module,
                        expr,
                        params: 0,
                        room,
                    });
                }
                for (params, room) in [(0, room), (params, 0), (params, 100), (params, 1_000)] {
                    let expr = expr.clone();
                    self.offer_call(Call::Expand {
                        module,
                        expr,
                        params,
                        room,
                    });
                }
                self.query_expression(&|call, expr| match call {
                    Call::Expand {
                        module,
                        params,
                        room,
                        expr: before,
                    } => Call::Expand {
                        module,
                        // An exact room stays about exact.
                        room: (room + expr.len()).saturating_sub(before.len()),
                        expr,
                        params,
                    },
                    other => other,
                });
                self.query_expression(&|call, expr| match call {
                    Call::Expand {
                        module,
                        params,
                        room,
                        ..
                    } => Call::Expand {
                        module,
                        room,
                        expr,
                        params,
                    },
                    other => other,
                });
            }
            Call::Alike { a, b } => {
                for (a, b) in [(0, 0), (0, 1), (1, 0), (1, 1), (0, b), (a, 0), (a, a)] {
                    self.offer_call(Call::Alike { a, b });
                }
            }
            Call::Body { d } => {
                for d in [0, 1, 2, d / 2, d.saturating_sub(1)] {
                    self.offer_call(Call::Body { d });
                }
            }
        }
    }

    fn query_expression(&mut self, put: &dyn Fn(Call, Vec<u8>) -> Call) {
        let bytes = |call: &Call| match call {
            Call::Level { expr, .. } | Call::Expand { expr, .. } => expr.clone(),
            _ => Vec::new(),
        };
        let mut number = 0;
        while let Some(expr) = Expr::read(&bytes(&self.best.call)) {
            if number >= expr.size() {
                return;
            }
            let simpler = simpler(&expr, number);
            let taken = simpler.into_iter().any(|expr| {
                let call = put(self.best.call.clone(), expr.bytes());
                self.offer_call(call)
            });
            number += !taken as usize;
        }
        let mut at = 0;
        while at < bytes(&self.best.call).len() {
            let mut fewer = bytes(&self.best.call);
            fewer.remove(at);
            let call = put(self.best.call.clone(), fewer);
            at += !self.offer_call(call) as usize;
        }
    }

    /// Removes fields, many at first.
    fn fields(&mut self) {
        let mut chunk = syntax::fields(&self.best.file).len().div_ceil(2);
        while chunk > 0 {
            let mut at = 0;
            loop {
                let count = syntax::fields(&self.best.file).len();
                if at >= count {
                    break;
                }
                if !self.offer_without(at..(at + chunk).min(count)) {
                    at += 1;
                }
            }
            chunk /= 2;
        }
        self.modules();
        self.declarations();
    }

    /// Removes declarations together with what is substituted for them.
    fn declarations(&mut self) {
        let mut at = 0;
        loop {
            let mut fields = syntax::fields(&self.best.file);
            let gone = match fields.get(at) {
                None => return,
                Some(Field::Constant(name, _) | Field::Variable(name)) => *name,
                Some(_) => {
                    at += 1;
                    continue;
                }
            };
            fields.remove(at);
            for field in &mut fields {
                if let Field::Instance { with, .. } = field {
                    with.retain(|(name, _)| *name != gone);
                }
            }
            at += !self.offer_file(syntax::file(&fields)) as usize;
        }
    }

    /// Removes whole modules, and the ends between two.
    fn modules(&mut self) {
        let mut at = 0;
        loop {
            let mut fields = syntax::fields(&self.best.file);
            if at >= fields.len() {
                break;
            }
            if fields[at] == Field::End {
                let next = fields.get(at + 1);
                if matches!(next, Some(Field::Module(_))) {
                    fields.drain(at..at + 2);
                    if self.offer_file(syntax::file(&fields)) {
                        continue;
                    }
                }
            } else if matches!(fields[at], Field::Module(_)) {
                let length = fields[at..].iter().position(|field| *field == Field::End);
                if let Some(length) = length {
                    let removed: Vec<Field> = fields.drain(at..=at + length).collect();
                    if self.offer_file(syntax::file(&fields)) || self.renamed(&removed, &fields) {
                        continue;
                    }
                }
            }
            at += 1;
        }
    }

    /// Offers a file without a module, another one named in its place.
    fn renamed(&mut self, removed: &[Field], fields: &[Field]) -> bool {
        let Some(Field::Module(gone)) = removed.first() else {
            return false;
        };
        let names = fields.iter().filter_map(|field| match field {
            Field::Module(name) => Some(*name),
            _ => None,
        });
        names.collect::<Vec<u16>>().into_iter().any(|other| {
            let mut fields = fields.to_vec();
            for field in &mut fields {
                if let Field::Instance { module, .. } = field {
                    if module == gone {
                        *module = other;
                    }
                }
            }
            self.offer_file(syntax::file(&fields))
        })
    }

    /// Simplifies fields one by one.
    fn parts(&mut self) {
        let mut at = 0;
        while at < syntax::fields(&self.best.file).len() {
            let fields = syntax::fields(&self.best.file);
            let taken = simpler_fields(&fields[at]).into_iter().any(|field| {
                let mut fields = fields.clone();
                fields[at] = field;
                self.offer_file(syntax::file(&fields))
            });
            at += !taken as usize;
        }
    }

    /// Removes bytes of a small file.
    fn bytes(&mut self) {
        for chunk in [16, 8, 4, 3, 2, 1] {
            let mut at = 0;
            while self.best.file.len() <= 300 && at + chunk <= self.best.file.len() {
                let mut file = self.best.file.clone();
                file.drain(at..at + chunk);
                at += !self.offer_file(file) as usize;
            }
        }
    }
}

/// An expression with a part put into its place or made the smallest.
fn simpler(expr: &Expr, number: usize) -> Vec<Expr> {
    let mut candidates = vec![op(0, &[]), Expr::Literal(0)];
    let mut whole = expr.clone();
    let part = whole.part_mut(number).clone();
    candidates.extend(part.arguments().iter().cloned());
    candidates
        .into_iter()
        .map(|candidate| {
            *whole.part_mut(number) = candidate;
            whole.clone()
        })
        .collect()
}

fn simpler_fields(field: &Field) -> Vec<Field> {
    let mut candidates = Vec::new();
    match field {
        Field::Extends(names) => {
            for at in 0..names.len() {
                let mut fewer = names.clone();
                fewer.remove(at);
                candidates.push(Field::Extends(fewer));
            }
        }
        Field::Instance {
            name,
            parameters,
            module,
            with,
        } => {
            for at in 0..with.len() {
                let mut fewer = with.clone();
                fewer.remove(at);
                candidates.push(Field::Instance {
                    name: *name,
                    parameters: *parameters,
                    module: *module,
                    with: fewer,
                });
            }
        }
        _ => (),
    }
    for (which, expr) in field.expressions().into_iter().enumerate() {
        for number in 0..expr.size().min(400) {
            for simpler in simpler(expr, number) {
                let mut simpler_field = field.clone();
                *simpler_field.expressions_mut()[which] = simpler;
                candidates.push(simpler_field);
            }
        }
    }
    candidates
}
