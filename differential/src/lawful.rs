//! Lawful instances, and what becomes of the level of each definition that they bring, parameters at 0:
//! definitions of constant modules stay at 0 or rise to the level of a substitute, those of other modules
//! stay or fall. Each move alone by every way, two of one INSTANCE, of two INSTANCEs, and each beside cause 16.
//! With them come unlawful neighbours, causes 14 and 21, that would bring a 4, a higher level, or a 2 for a 3.

use crate::random::Random;
use crate::syntax::{self, always, and, b, instance, lit, n, op, p, prime, wrap, Expr, Field};
use reference::Seen;

/// What becomes of a level.
#[derive(Clone, Copy, Debug, PartialEq, Eq)]
pub struct Move {
    /// Whether the module instanced is constant.
    pub constant: bool,
    /// The level there, and the level brought.
    pub own: u8,
    pub brought: u8,
}

const fn constant(brought: u8) -> Move {
    Move {
        constant: true,
        own: 0,
        brought,
    }
}

const fn other(own: u8, brought: u8) -> Move {
    Move {
        constant: false,
        own,
        brought,
    }
}

fn module_label(constant: bool) -> &'static str {
    match constant {
        true => "constant module",
        false => "other module",
    }
}

/// Every move that there is.
pub const MOVES: [Move; 13] = [
    constant(0),
    constant(1),
    constant(2),
    constant(3),
    other(0, 0),
    other(1, 0),
    other(1, 1),
    other(2, 0),
    other(2, 1),
    other(2, 2),
    other(3, 0),
    other(3, 1),
    other(3, 3),
];

impl Move {
    /// A name for the counts.
    pub fn label(&self) -> String {
        let module = module_label(self.constant);
        format!("{module}, {} to {}", self.own, self.brought)
    }

    /// How often the second opinion saw it.
    pub fn count(&self, seen: &Seen) -> u64 {
        let by_level = match self.constant {
            true => &seen.constant,
            false => &seen.other,
        };
        by_level[self.own as usize][self.brought as usize]
    }
}

/// How a definition gets from its module into another.
#[derive(Clone, Copy, Debug, PartialEq, Eq)]
enum Way {
    /// The substitutes are written.
    Written,
    /// The declared names stand for themselves: definitions of the other module.
    Themselves,
    /// The module instanced extends the one that has all.
    Extended,
    /// The module instanced brings it from the one that has all.
    Brought,
    /// The substitutes are over a parameter of the instance.
    Parameter,
}

const WAYS: [(Way, &str); 5] = [
    (Way::Written, "written"),
    (Way::Themselves, "themselves"),
    (Way::Extended, "extended"),
    (Way::Brought, "brought"),
    (Way::Parameter, "over a parameter"),
];

/// What a module that is instanced has of instances itself.
#[derive(Clone, Copy, Debug, PartialEq, Eq)]
enum Inside {
    /// None but what the way asks for, and that without a name.
    Unnamed,
    /// What the way asks for has a name.
    Named,
    /// A named one of an empty module too.
    Nothing,
}

#[derive(Clone, Copy, Debug)]
enum Plan {
    Alone(Move, usize),
    OneInstance(Move, Move),
    TwoInstances(Move, Move),
    /// The module instanced has a named instance, which brings it or brings nothing.
    Sixteen(Move, bool),
    /// The one of this number is not lawful.
    Unlawful(usize),
}

/// What is not lawful, its cause, and whether the module is constant.
const UNLAWFUL: [(&str, u32, bool); 11] = [
    ("variable at 2", 14, false),
    ("variable at 2, primed", 14, false),
    ("variable at 3, primed", 14, false),
    ("constant at 1", 14, false),
    ("constant at 2", 14, false),
    ("constant at 3", 14, false),
    ("operator at 1", 14, false),
    ("operator at 2 that drops a 3", 14, false),
    ("operator at 3", 14, false),
    ("operator at 2 over a 2", 14, true),
    ("a 2 and a 3", 21, true),
];

impl Plan {
    fn label(&self) -> String {
        match self {
            Plan::Alone(only, way) => format!("{}: {}", only.label(), WAYS[*way].1),
            Plan::OneInstance(first, second) => {
                format!("{} with {}", first.label(), second.label())
            }
            Plan::TwoInstances(first, second) => {
                format!("{}, then {}", first.label(), second.label())
            }
            Plan::Sixteen(only, true) => format!("{}, under a name, and 16", only.label()),
            Plan::Sixteen(only, false) => format!("{}, and 16", only.label()),
            Plan::Unlawful(number) => {
                let (what, cause, constant) = UNLAWFUL[*number];
                let module = module_label(constant);
                format!("{module}, {what}: {cause}")
            }
        }
    }

    fn moves(&self) -> Vec<Move> {
        match *self {
            Plan::Alone(only, _) | Plan::Sixteen(only, _) => vec![only],
            Plan::OneInstance(first, second) | Plan::TwoInstances(first, second) => {
                vec![first, second]
            }
            Plan::Unlawful(_) => Vec::new(),
        }
    }
}

/// Every plan; each move comes by one way before the next, and beside 16, and what is unlawful, before there
/// are pairs.
fn plans() -> Vec<Plan> {
    let mut plans = Vec::new();
    for way in 0..WAYS.len() {
        plans.extend(MOVES.map(|only| Plan::Alone(only, way)));
    }
    for under_a_name in [false, true] {
        plans.extend(MOVES.map(|only| Plan::Sixteen(only, under_a_name)));
    }
    plans.extend((0..UNLAWFUL.len()).map(Plan::Unlawful));
    let pairs = || {
        let all = MOVES.iter().enumerate();
        all.flat_map(|(at, &first)| MOVES[at + 1..].iter().map(move |&second| (first, second)))
    };
    // A constant module and one that is not are two, and a 2 beside a 3 is cause 21.
    let together = pairs().filter(|(first, second)| {
        let mixed = first.constant && (first.brought, second.brought) == (2, 3);
        first.constant == second.constant && !mixed
    });
    plans.extend(together.map(|(first, second)| Plan::OneInstance(first, second)));
    plans.extend(pairs().map(|(first, second)| Plan::TwoInstances(first, second)));
    plans
}

/// The number of plans.
pub fn count() -> usize {
    plans().len()
}

/// The labels of all plans.
pub fn labels() -> Vec<String> {
    plans().iter().map(Plan::label).collect()
}

/// A file with what it is meant to show.
#[derive(Clone, Debug)]
pub struct Lawful {
    pub label: String,
    pub file: Vec<u8>,
    pub moves: Vec<Move>,
    /// The cause that it is refused with, and where; else it is accepted.
    pub refusal: Option<(u32, u32)>,
}

/// Names of one piece; those of another come ten later.
const A: u16 = 1;
const K: u16 = 2;
const U: u16 = 3;
const D: u16 = 4;
const E: u16 = 5;
/// Names of the last module and of what has a named instance.
const X: u16 = 90;
const C: u16 = 91;
const I: u16 = 92;
const J: u16 = 95;
/// Modules: two for each piece, an empty one, and the last.
const EMPTY: u16 = 8;
pub const LAST: u16 = 9;

/// What a module declares and defines for one move, and what is put for the names.
struct Piece {
    declared: Vec<Field>,
    defined: Vec<Field>,
    /// Name, arguments, and the expression over them.
    with: Vec<(u16, u8, Expr)>,
}

fn x() -> Expr {
    n(X, &[])
}

/// An expression of the last module at a level.
fn at(level: u8, random: &mut Random) -> Expr {
    let choices = match level {
        0 => [lit(7), n(C, &[]), wrap(1, n(C, &[]))],
        1 => [x(), and(x(), lit(0)), op(113, &[prime(x())])],
        2 => [prime(x()), and(x(), prime(x())), op(114, &[x()])],
        _ => [
            always(x()),
            and(x(), always(x())),
            op(120, &[prime(x()), x()]),
        ],
    };
    random.pick(&choices)
}

/// A piece for one move. A name that a constant module's definition drops stands for something at the
/// level `dropped`.
fn piece(only: Move, base: u16, dropped: u8, random: &mut Random) -> Piece {
    let [a, k, u, d, e] = [A, K, U, D, E].map(|name| base + name);
    let (name, state) = (|| n(a, &[]), || n(u, &[]));
    let define = |body: Expr| vec![Field::Definition(d, 0, body)];
    if only.constant {
        let mut declared = vec![Field::Constant(a, 0)];
        let mut with = vec![(a, 0, at(only.brought.max(dropped), random))];
        let defined = match (only.brought, random.below(4)) {
            (0, 0) => vec![Field::Definition(d, 1, and(p(0), lit(5)))],
            (0, _) => {
                declared.push(Field::Constant(k, 2));
                with.push((k, 2, random.pick(&[lit(0), p(1), wrap(1, p(1))])));
                define(n(k, &[name(), lit(5)]))
            }
            (_, 0) => define(random.pick(&[name(), and(name(), lit(1)), op(132, &[name(), b(0)])])),
            (_, 1) => vec![Field::Definition(d, 1, and(p(0), name()))],
            (_, 2) => {
                declared.push(Field::Constant(k, 2));
                with.push((
                    k,
                    2,
                    random.pick(&[p(0), and(p(0), p(1)), op(128, &[p(0)])]),
                ));
                define(n(k, &[name(), lit(5)]))
            }
            _ => {
                let inner = Field::Definition(e, 1, op(96, &[p(0), lit(2), name()]));
                vec![inner, Field::Definition(d, 0, n(e, &[lit(3)]))]
            }
        };
        return Piece {
            declared,
            defined,
            with,
        };
    }
    let mut declared = vec![Field::Variable(u)];
    let mut with = Vec::new();
    // What falls does so because a constant stands for the variable, or because an operator drops it.
    let dropping = match only.own {
        2 => random.pick(&[prime(state()), op(114, &[state()])]),
        _ => random.pick(&[always(state()), op(120, &[prime(state()), state()])]),
    };
    let mut through = |kept: Expr, operator: Expr| {
        declared.push(Field::Constant(k, 2));
        with.push((k, 2, operator));
        n(k, &[kept, dropping.clone()])
    };
    let (body, for_state) = match (only.own, only.brought) {
        (0, _) => (random.pick(&[lit(5), wrap(2, lit(5))]), 1),
        (1, 0) => (random.pick(&[state(), and(lit(0), state())]), 0),
        (1, _) => match random.chance(50) {
            true => (state(), 1),
            false => (op(113, &[prime(state())]), 0),
        },
        (_, 0) => match random.chance(50) {
            true => (through(state(), lit(0)), 1),
            false => (through(state(), p(0)), 0),
        },
        (_, 1) => (through(state(), random.pick(&[p(0), wrap(1, p(0))])), 1),
        _ => match random.below(3) {
            0 => (dropping, 0),
            1 => (through(state(), random.pick(&[p(1), and(p(0), p(1))])), 1),
            _ => (and(state(), dropping), 1),
        },
    };
    with.push((u, 0, at(for_state, random)));
    Piece {
        declared,
        defined: define(body),
        with,
    }
}

/// A piece that is not lawful.
fn unlawful(what: &str, random: &mut Random) -> Piece {
    let (name, state) = (|| n(A, &[]), || n(U, &[]));
    let operator = |first: Expr| n(K, &[first, lit(5)]);
    let mut high = |level| at(level, random);
    let (body, with) = match what {
        "variable at 2" => (state(), vec![(U, 0, high(2))]),
        "variable at 2, primed" => (prime(state()), vec![(U, 0, high(2))]),
        "variable at 3, primed" => (prime(state()), vec![(U, 0, high(3))]),
        "constant at 1" => (name(), vec![(A, 0, high(1))]),
        "constant at 2" => (always(name()), vec![(A, 0, high(2))]),
        "constant at 3" => (prime(name()), vec![(A, 0, high(3))]),
        "operator at 1" => (operator(lit(0)), vec![(K, 2, and(p(0), high(1)))]),
        "operator at 2 that drops a 3" => (operator(always(state())), vec![(K, 2, high(2))]),
        "operator at 3" => (prime(operator(lit(0))), vec![(K, 2, and(high(3), p(1)))]),
        "operator at 2 over a 2" => (operator(name()), vec![(K, 2, prime(p(0))), (A, 0, high(2))]),
        _ => {
            let sum = op(52, &[name(), n(E, &[])]);
            (sum, vec![(A, 0, high(2)), (E, 0, high(3))])
        }
    };
    let mut piece = Piece {
        declared: Vec::new(),
        defined: vec![Field::Definition(D, 0, body)],
        with,
    };
    // What the module declares and the definition does not need stands for something lawful.
    for (name, count) in [(A, 0), (K, 2), (E, 0)] {
        piece.declared.push(Field::Constant(name, count));
        if piece.with.iter().all(|(other, _, _)| *other != name) {
            piece.with.push((name, count, lit(6)));
        }
    }
    piece
}

/// Moves the parameters of an expression behind one of the instance.
fn behind_one(expr: &Expr) -> Expr {
    let mut moved = expr.clone();
    for number in 0..moved.size() {
        if let Expr::Parameter(index) = moved.part_mut(number) {
            *index += 1;
        }
    }
    moved
}

/// A file under construction.
struct Site<'a> {
    random: &'a mut Random,
    /// The modules before the last, and the fields of that one.
    fields: Vec<Field>,
    inside: Vec<Field>,
}

impl Site<'_> {
    fn module(&mut self, name: u16, inside: Vec<Field>) {
        self.fields.push(Field::Module(name));
        self.fields.extend(inside);
        self.fields.push(Field::End);
    }

    /// Adds the module of some pieces and an INSTANCE of it, the one of this number.
    fn bring(&mut self, number: u16, pieces: Vec<Piece>, way: Way, inside: Inside) {
        let (has_all, instanced) = (1 + 2 * number, 2 + 2 * number);
        let part = |part: fn(&Piece) -> &[Field]| -> Vec<Field> {
            pieces
                .iter()
                .flat_map(|piece| part(piece).to_vec())
                .collect()
        };
        let declared = part(|piece| &piece.declared);
        let mut all = declared.clone();
        all.extend(part(|piece| &piece.defined));
        let inner_name = match inside {
            Inside::Named => J + number,
            _ => 0,
        };
        match way {
            Way::Extended => {
                self.module(has_all, all);
                all = vec![Field::Extends(vec![has_all])];
            }
            Way::Brought => {
                self.module(has_all, all);
                all = declared;
                all.push(instance(inner_name, 0, has_all, &[]));
            }
            _ => (),
        }
        if inside == Inside::Nothing {
            all.push(instance(J + number, 0, EMPTY, &[]));
        }
        self.module(instanced, all);
        let over = u8::from(way == Way::Parameter);
        let mut with = Vec::new();
        for (name, count, expr) in pieces.into_iter().flat_map(|piece| piece.with) {
            match way {
                Way::Themselves if expr == x() => self.inside.push(Field::Variable(name)),
                Way::Themselves => self.inside.push(Field::Definition(name, count, expr)),
                Way::Parameter => with.push((name, and(behind_one(&expr), p(0)))),
                _ => with.push((name, expr)),
            }
        }
        self.random.shuffle(&mut with);
        let name = match over == 1 || self.random.chance(50) {
            true => I + number,
            false => 0,
        };
        self.inside.push(instance(name, over, instanced, &with));
    }
}

/// The file of one plan.
pub fn build(number: usize, random: &mut Random) -> Lawful {
    let plan = plans()[number];
    let mut site = Site {
        random,
        fields: Vec::new(),
        inside: vec![Field::Variable(X), Field::Constant(C, 0)],
    };
    let any = |site: &mut Site| site.random.pick(&WAYS).0;
    match plan {
        Plan::Alone(only, way) => {
            let dropped = high(only, site.random);
            let piece = piece(only, 0, dropped, site.random);
            site.bring(0, vec![piece], WAYS[way].0, Inside::Unnamed);
        }
        Plan::Sixteen(only, under_a_name) => {
            let dropped = high(only, site.random);
            let piece = piece(only, 0, dropped, site.random);
            if under_a_name {
                site.bring(0, vec![piece], Way::Brought, Inside::Named);
            } else {
                site.module(EMPTY, Vec::new());
                let way = any(&mut site);
                site.bring(0, vec![piece], way, Inside::Nothing);
            }
        }
        Plan::Unlawful(number) => {
            let (what, _, constant) = UNLAWFUL[number];
            let mut piece = unlawful(what, site.random);
            if !constant {
                piece.declared.push(Field::Variable(U));
                if piece.with.iter().all(|(name, _, _)| *name != U) {
                    piece.with.push((U, 0, x()));
                }
            }
            let way = any(&mut site);
            site.bring(0, vec![piece], way, Inside::Unnamed);
        }
        Plan::OneInstance(first, second) => {
            // What is dropped must not mix with what is not.
            let dropped = [first.brought, second.brought, 1].into_iter().max();
            let dropped = dropped.filter(|_| first.brought == 0).unwrap_or(0);
            let pieces = vec![
                piece(first, 0, dropped, site.random),
                piece(second, 10, 0, site.random),
            ];
            let way = any(&mut site);
            site.bring(0, pieces, way, Inside::Unnamed);
        }
        Plan::TwoInstances(first, second) => {
            for (number, only) in [first, second].into_iter().enumerate() {
                let number = number as u16;
                let dropped = high(only, site.random);
                let piece = piece(only, 10 * number, dropped, site.random);
                let way = any(&mut site);
                site.bring(number, vec![piece], way, Inside::Unnamed);
            }
        }
    }
    let Site {
        mut fields, inside, ..
    } = site;
    fields.push(Field::Module(LAST));
    fields.extend(inside);
    let cause = match plan {
        Plan::Sixteen(..) => Some(16),
        Plan::Unlawful(number) => Some(UNLAWFUL[number].1),
        _ => None,
    };
    // The INSTANCE is the last field but the end.
    let refusal = cause.map(|cause| (cause, fields.len() as u32 - 1));
    fields.push(Field::End);
    Lawful {
        label: plan.label(),
        file: syntax::file(&fields),
        moves: plan.moves(),
        refusal,
    }
}

/// The level of what a definition of a constant module drops where it stays at 0.
fn high(only: Move, random: &mut Random) -> u8 {
    match only.constant && only.brought == 0 {
        true => 1 + random.below(3) as u8,
        false => 0,
    }
}
