//! Queries for accepted files.

use crate::accepted::{Style, Writer};
use crate::cards::{CARDS, MOST};
use crate::cases::{Call, Case};
use crate::damage;
use crate::model::{Meaning, Model, Module, Operator};
use crate::random::Random;
use crate::syntax::{self, and, lit, n, op, p, wrap, Expr, Field};

/// A case, and what it is meant to be.
#[derive(Clone, Debug)]
pub struct Query {
    pub case: Case,
    pub label: Option<&'static str>,
}

/// Card memory of some length.
pub fn card_memory(random: &mut Random) -> usize {
    match random.below(20) {
        0 | 1 => CARDS - 1,
        2 => random.below(CARDS),
        3 | 4 => CARDS + 1,
        5 => CARDS + random.below(2_000),
        // As much as cards took before L7.
        6 => 32_000,
        _ => CARDS,
    }
}

/// A query of an accepted file.
pub fn query(random: &mut Random, file: &[u8], model: &Model) -> Query {
    let (call, label) = match random.below(10) {
        0..=3 => (level(random, model), None),
        4..=7 => expand(random, file, model),
        8 => (alike(random, model), None),
        _ => body(random, model),
    };
    let case = Case {
        file: file.to_vec(),
        call,
        cards: card_memory(random),
        fill: random.byte(),
    };
    Query { case, label }
}

/// A query of a file that is refused, or of which nothing is known.
pub fn blind(random: &mut Random, file: &[u8]) -> Case {
    let module = random.below(5) as u16;
    let expr = random.pick(&[lit(0).bytes(), p(0).bytes(), n(1, &[]).bytes(), vec![9]]);
    let call = match random.below(4) {
        0 => Call::Level {
            module,
            expr,
            levels: random.pick(&[vec![], vec![0], vec![5]]),
        },
        1 => Call::Expand {
            module,
            expr,
            params: random.below(MOST + 2) as u8,
            room: random.pick(&[0, 2, 3, 40]),
        },
        2 => Call::Alike {
            a: random.below(3) as u32,
            b: random.below(3) as u32,
        },
        _ => Call::Body {
            d: random.below(3) as u32,
        },
    };
    Case {
        file: file.to_vec(),
        call,
        cards: card_memory(random),
        fill: random.byte(),
    }
}

/// A module of the file; now and then none.
fn module<'a>(random: &mut Random, model: &'a Model) -> (u16, Option<&'a Module>) {
    if model.modules.is_empty() || random.chance(4) {
        let name = random.pick(&[0, 0, 65_534, 12_345]);
        return (name, model.module(name));
    }
    let module = &model.modules[random.below(model.modules.len())];
    (module.name, Some(module))
}

fn expression(
    random: &mut Random,
    model: &Model,
    module: Option<&Module>,
    count: usize,
) -> Vec<u8> {
    let none = Default::default();
    let scope = module.map_or(&none, |module| &module.scope);
    let wild = random.chance(45);
    let style = Style {
        parameters: count,
        most: 3,
        wild,
    };
    let depth = 1 + random.below(6);
    let mut writer = Writer {
        random,
        model,
        scope,
        style,
        budget: 60,
    };
    let mut expr = writer.expression(depth);
    match random.below(40) {
        0..=3 => {
            damage::expression(random, &mut expr);
            expr.bytes()
        }
        4 => {
            let mut bytes = expr.bytes();
            damage::bytes(random, &mut bytes);
            bytes
        }
        5 => wrap(33 - expr.nesting().min(32), expr).bytes(),
        6 => wrap(32 - expr.nesting().min(32), expr).bytes(),
        7 if random.chance(30) => Vec::new(),
        8 if random.chance(20) => {
            let copies = 1 + random.below(4_000);
            syntax::tree(copies.min(60_000 / expr.bytes().len() + 1), &|_| {
                expr.clone()
            })
            .bytes()
        }
        9 => op(48, &[expr, syntax::b(0)]).bytes(),
        11..=14 => {
            let known = scope.operators.iter().map(|o| (0, *o));
            let brought = scope
                .instances
                .iter()
                .flat_map(|i| i.operators.iter().map(move |o| (i.name, *o)));
            let calls: Vec<(u16, Operator)> = known
                .chain(brought)
                .filter(|(_, operator)| operator.count > 0)
                .collect();
            match calls.is_empty() {
                true => expr.bytes(),
                false => bound_call(random, &calls, expr).bytes(),
            }
        }
        10 | 15..=20 => {
            // What instances brought, over the parameters: shows how instances put theirs first.
            let unnamed = scope.operators.iter().filter(|o| match o.meaning {
                Meaning::Defined(number) => model.definitions[number].chain > 0,
                _ => false,
            });
            let named = scope
                .instances
                .iter()
                .flat_map(|i| i.operators.iter().map(move |o| (i.name, o)));
            let calls: Vec<(u16, &Operator)> = unnamed.map(|o| (0, o)).chain(named).collect();
            if calls.is_empty() {
                return expr.bytes();
            }
            let (instance, operator) = random.pick(&calls);
            let arguments = (0..operator.count)
                .map(|at| match (at as usize) < count {
                    true => p(at),
                    false => lit(at as u16),
                })
                .collect();
            match instance {
                0 => Expr::Name(operator.name, arguments).bytes(),
                _ => Expr::Brought(instance, operator.name, arguments).bytes(),
            }
        }
        _ => expr.bytes(),
    }
}

/// A call below binders, with their variables as arguments.
fn bound_call(random: &mut Random, calls: &[(u16, Operator)], expr: Expr) -> Expr {
    let (instance, operator) = random.pick(calls);
    let binders = 1 + random.below(3);
    let arguments: Vec<Expr> = (0..operator.count)
        .map(|_| {
            let variable = syntax::b(random.below(binders) as u16);
            match random.below(4) {
                0 => op(128, &[and(variable, syntax::b(0))]),
                1 => wrap(1, variable),
                _ => variable,
            }
        })
        .collect();
    let mut call = match instance {
        0 => Expr::Name(operator.name, arguments),
        _ => Expr::Brought(instance, operator.name, arguments),
    };
    for at in 0..binders {
        call = match random.below(3) {
            0 if at + 1 == binders => op(132 + random.below(8) as u8, &[expr.clone(), call]),
            1 => op(140 + random.below(2) as u8, &[call]),
            _ => op(128 + random.below(4) as u8, &[call]),
        };
    }
    call
}

/// How many parameters a query has: up to the most, and now and then one more.
fn parameters(random: &mut Random) -> usize {
    match random.below(20) {
        0..=5 => 0,
        6..=14 => 1 + random.below(3),
        15..=18 => 4 + random.below(MOST - 3),
        _ => MOST + 1,
    }
}

fn level(random: &mut Random, model: &Model) -> Call {
    let (name, module) = module(random, model);
    let count = parameters(random);
    let from: &[u8] = match random.below(8) {
        // Only what does not mix.
        0 | 1 => &[2, 3],
        // Of many at any level one is 4 most often.
        2 => &[0, 1, 2],
        3 => &[0, 1, 3],
        4 => &[0, 1, 2, 3],
        _ => &[0, 1, 2, 3, 4],
    };
    let mut levels: Vec<u8> = (0..count).map(|_| random.pick(from)).collect();
    if count > 0 && random.chance(6) {
        let at = random.below(count);
        levels[at] = random.pick(&[5, 6, 255]);
    }
    Call::Level {
        module: name,
        expr: expression(random, model, module, count),
        levels,
    }
}

fn expand(random: &mut Random, file: &[u8], model: &Model) -> (Call, Option<&'static str>) {
    let (name, module) = module(random, model);
    let params = parameters(random) as u8;
    let expr = expression(random, model, module, params as usize);
    let (mut cards, mut out) = (vec![0; CARDS], vec![0; 65_535]);
    let length = reference::expand(file, &mut cards, name, &expr, params, &mut out);
    let length = length.map_or(20, |length| length as usize);
    let (room, label) = match random.below(12) {
        0 => (0, None),
        1 | 2 => (length - 1, Some("expand, one byte short")),
        3..=5 => (length, None),
        6 => (length + 1, None),
        7 => (length.saturating_sub(2), None),
        8 => (65_535, None),
        9 => (65_536 + random.below(100), None),
        _ => (random.below(2 * length), None),
    };
    let call = Call::Expand {
        module: name,
        expr,
        params,
        room,
    };
    (call, label)
}

fn number(random: &mut Random, model: &Model) -> u32 {
    let count = model.definitions.len();
    match random.below(12) {
        0 => count as u32,
        1 => random.pick(&[255, 256, 257, 65_536, u32::MAX]),
        _ => random.below(count.max(1)) as u32,
    }
}

fn alike(random: &mut Random, model: &Model) -> Call {
    let a = number(random, model);
    let b = match random.below(4) {
        0 => a,
        _ => number(random, model),
    };
    Call::Alike { a, b }
}

fn body(random: &mut Random, model: &Model) -> (Call, Option<&'static str>) {
    let d = number(random, model);
    let label = model.definitions.get(d as usize).map(|definition| {
        if definition.chain == 0 {
            "body of an own definition"
        } else {
            "body of a brought definition"
        }
    });
    (Call::Body { d }, label)
}

/// A file with an operator that doubles its argument, and a query whose expansion has exactly so
/// many bytes, at least 2.
pub fn of_length(length: usize) -> (Vec<u8>, Vec<u8>) {
    const TWICE: u16 = 2;
    fn doubled(times: usize) -> Expr {
        (0..times).fold(lit(9), |inner, _| n(TWICE, &[inner]))
    }
    fn make(length: usize) -> Expr {
        match length {
            2 => op(3, &[]),
            3 => lit(9),
            4..=8 => wrap(1, make(length - 2)),
            _ => {
                // The expansion of a literal doubled k times has 5 · 2ᵏ − 2 bytes.
                let mut times = 0;
                while 5 * (2 << times) - 2 + 4 <= length {
                    times += 1;
                }
                and(doubled(times), make(length - 2 - (5 * (1 << times) - 2)))
            }
        }
    }
    let file = [
        Field::Module(1),
        Field::Definition(TWICE, 1, and(p(0), p(0))),
        Field::End,
    ];
    (syntax::file(&file), make(length).bytes())
}
