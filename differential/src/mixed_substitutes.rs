//! Instances with a 2 and a 3 among their substitutes, and their lawful neighbours: cause 21 where the
//! module is constant, cause 14 where it is not or where an operator's substitute is not at 0.

use crate::random::Random;
use crate::syntax::{self, always, and, instance, lit, n, p, prime, wrap, Expr, Field};

/// Modules to instance, and whether nothing but the two decides: else cause 14 holds of all their instances.
const MODULES: [(&str, bool); 14] = [
    (OPERATOR_BETWEEN, true),
    (OPERATOR_AFTER, false),
    ("no definition", true),
    ("a definition over neither", true),
    ("a definition over one", true),
    ("a definition over both", true),
    ("all extended", true),
    ("a brought definition", true),
    ("a definition over its parameter", true),
    ("a variable", false),
    ("an extended variable", false),
    ("a definition at 2", false),
    ("a definition at 3", false),
    ("a brought definition at 2", false),
];

/// An operator is declared between the two names, and the module's definition is over it.
const OPERATOR_BETWEEN: &str = "an operator between";
/// An operator is declared after the two names, and what stands for it is not at 0.
const OPERATOR_AFTER: &str = "an operator at 1 after";

/// Where the two substitutes come from.
const WAYS: [&str; 13] = [
    "both written",
    "both themselves",
    "2 written",
    "3 written",
    "both extended",
    "both brought",
    "2 in one INSTANCE, 3 in another",
    "parameter and 3",
    "parameter and 2",
    "1 and 2",
    "1 and 3",
    "2 and 2",
    "3 and 3",
];

/// Those of the ways that mix; what looks most like them comes at once after them.
const MIXED: usize = 6;

/// An instance with two substitutes to look at.
#[derive(Clone, Debug)]
pub struct Substituted {
    pub label: String,
    pub file: Vec<u8>,
    pub cause: Option<u32>,
}

/// Modules that declare as much as they may: a 2 for the first name and a 3 for the last, or twice a 3.
const MANY: [(&str, bool); 2] = [
    ("first and last of 62", false),
    ("first and last of 62, of one kind", true),
];
const MOST: u16 = 62;

/// The number of combinations, and of those with many names.
pub fn count() -> usize {
    MODULES.len() * WAYS.len() + MANY.len()
}

/// Module and way of a combination: all modules come with one way before the next.
fn combination(number: usize) -> (usize, usize) {
    (number % MODULES.len(), number / MODULES.len())
}

fn label(number: usize) -> String {
    let (module, way) = combination(number);
    match WAYS.get(way) {
        Some(how) => format!("{}: {how}", MODULES[module].0),
        None => MANY[module].0.to_string(),
    }
}

/// The labels of all of them.
pub fn labels() -> Vec<String> {
    (0..count()).map(label).collect()
}

// Names that the instanced module declares; more constants stand between the two.
const LEFT: u16 = 1;
const RIGHT: u16 = 9;
const OPERATOR: u16 = 10;
const X: u16 = 20;
const U: u16 = 21;
const D: u16 = 22;
const E: u16 = 23;
// Modules: what is extended or brought by the instanced one; that one; what the last one extends or
// brings; the last one.
const INNER: u16 = 1;
const INSTANCED: u16 = 2;
const OUTER: u16 = 3;
const LAST: u16 = 4;

fn module(name: u16, inside: &[Field]) -> Vec<Field> {
    let mut fields = vec![Field::Module(name)];
    fields.extend_from_slice(inside);
    fields.push(Field::End);
    fields
}

/// The instanced module, after what it needs.
fn instanced(kind: &str, names: &[u16]) -> Vec<Field> {
    let (left, right) = (|| n(LEFT, &[]), || n(RIGHT, &[]));
    let mut inside: Vec<Field> = names.iter().map(|&name| Field::Constant(name, 0)).collect();
    let high = Field::Definition(D, 0, prime(lit(0)));
    let extends = Field::Extends(vec![INNER]);
    let mut fields = Vec::new();
    match kind {
        OPERATOR_BETWEEN => {
            inside.insert(1, Field::Constant(OPERATOR, 1));
            inside.push(Field::Definition(D, 0, n(OPERATOR, &[left()])));
        }
        OPERATOR_AFTER => inside.push(Field::Constant(OPERATOR, 1)),
        "no definition" => (),
        "a definition over neither" => inside.push(Field::Definition(D, 0, lit(5))),
        "a definition over one" => inside.push(Field::Definition(D, 0, left())),
        "a definition over both" => inside.push(Field::Definition(D, 0, and(left(), right()))),
        "all extended" => {
            inside.push(Field::Definition(D, 1, and(left(), p(0))));
            fields.extend(module(INNER, &inside));
            inside = vec![extends];
        }
        "a brought definition" => {
            let own = [Field::Constant(E, 0), Field::Definition(D, 0, n(E, &[]))];
            fields.extend(module(INNER, &own));
            inside.push(instance(0, 0, INNER, &[(E, left())]));
        }
        "a definition over its parameter" => {
            inside.push(Field::Definition(D, 1, and(p(0), right())));
        }
        "a variable" => inside.push(Field::Variable(U)),
        "an extended variable" => {
            fields.extend(module(INNER, &[Field::Variable(U)]));
            inside.insert(0, extends);
        }
        "a definition at 2" => inside.push(high),
        "a definition at 3" => inside.push(Field::Definition(D, 0, always(lit(0)))),
        _ => {
            fields.extend(module(INNER, &[high]));
            inside.push(instance(0, 0, INNER, &[]));
        }
    }
    fields.extend(module(INSTANCED, &inside));
    fields
}

/// An instance of a module with as many names as there may be, most of them standing for themselves.
fn many((label, lawful): (&str, bool)) -> Substituted {
    let names = || 1..=MOST;
    let mut inside: Vec<Field> = names().map(|name| Field::Constant(name, 0)).collect();
    let mut fields = module(INSTANCED, &inside);
    inside = vec![Field::Variable(MOST + 1)];
    inside.extend((2..MOST).map(|name| Field::Definition(name, 0, n(MOST + 1, &[]))));
    inside.push(Field::Definition(MOST, 0, always(lit(0))));
    let first = if lawful {
        always(lit(1))
    } else {
        prime(lit(1))
    };
    inside.push(instance(0, 0, INSTANCED, &[(1, first)]));
    fields.extend(module(LAST, &inside));
    Substituted {
        label: label.to_string(),
        file: syntax::file(&fields),
        cause: (!lawful).then_some(21),
    }
}

/// The file of one combination, or one with many names.
pub fn build(number: usize, random: &mut Random) -> Substituted {
    let (module_number, way) = combination(number);
    if way == WAYS.len() {
        return many(MANY[module_number]);
    }
    let (kind, of_the_two) = MODULES[module_number];
    let x = || n(X, &[]);
    let between = random.below(4) as u16;
    let names: Vec<u16> = [LEFT]
        .into_iter()
        .chain(2..2 + between)
        .chain([RIGHT])
        .collect();
    let mut fields = instanced(kind, &names);
    let state = random.pick(&[x(), and(x(), lit(0))]);
    let action = random.pick(&[prime(x()), prime(lit(0)), and(x(), prime(x()))]);
    let temporal = random.pick(&[always(x()), always(lit(0)), and(x(), always(x()))]);
    // Half of the combinations have the 3 declared first, whatever the seed: the stored ones too.
    let turned = (module_number + way) % 2 == 1;
    let ends = match turned {
        true => [RIGHT, LEFT],
        false => [LEFT, RIGHT],
    };
    let [first, second] = ends;
    let define = |name: u16, body: &Expr| Field::Definition(name, 0, body.clone());
    let both = [define(first, &action), define(second, &temporal)];
    let mut inside = vec![Field::Variable(X), Field::Variable(U)];
    let mut with: Vec<(u16, Expr)> = Vec::new();
    // What both names stand for in a second INSTANCE.
    let mut elsewhere = None;
    let mut parameter = false;
    match WAYS[way] {
        "both written" => with.extend([(first, action), (second, temporal)]),
        "both themselves" => inside.extend(both),
        "2 written" => {
            with.push((first, action));
            inside.push(define(second, &temporal));
        }
        "3 written" => {
            inside.push(define(first, &action));
            with.push((second, temporal));
        }
        "both extended" => {
            let own = [vec![Field::Variable(X)], both.to_vec()].concat();
            fields.extend(module(OUTER, &own));
            inside = vec![Field::Extends(vec![OUTER]), Field::Variable(U)];
        }
        "both brought" => {
            let own = [vec![Field::Variable(X)], both.to_vec()].concat();
            fields.extend(module(OUTER, &own));
            inside.push(instance(0, 0, OUTER, &[]));
        }
        "2 in one INSTANCE, 3 in another" => {
            let (here, there) = match turned {
                true => (temporal, action),
                false => (action, temporal),
            };
            with.extend(ends.map(|name| (name, here.clone())));
            elsewhere = Some(there);
        }
        "1 and 2" => with.extend([(first, state), (second, action)]),
        "1 and 3" => with.extend([(first, state), (second, temporal)]),
        "2 and 2" => {
            with.push((first, action.clone()));
            inside.push(define(second, &action));
        }
        "3 and 3" => {
            with.push((first, temporal.clone()));
            inside.push(define(second, &temporal));
        }
        other => {
            parameter = true;
            let high = if other.ends_with('2') {
                action
            } else {
                temporal
            };
            with.extend([(first, random.pick(&[p(0), wrap(2, p(0))])), (second, high)]);
        }
    }
    for name in 2..2 + between {
        match random.below(3) {
            0 => inside.push(Field::Constant(name, 0)),
            1 if of_the_two => with.push((name, x())),
            _ => with.push((name, lit(name))),
        }
    }
    let (name, own) = match random.below(3) {
        _ if parameter => (50, 1),
        0 => (0, 0),
        other => (50, other as u8 - 1),
    };
    match (kind, random.below(3)) {
        // At the level of its argument, which counts as 0 like the instance's parameters.
        (OPERATOR_BETWEEN, 0) => inside.push(Field::Constant(OPERATOR, 1)),
        (OPERATOR_BETWEEN, 1) => inside.push(Field::Definition(OPERATOR, 1, p(0))),
        (OPERATOR_BETWEEN, _) => with.push((OPERATOR, wrap(2, p(own)))),
        (OPERATOR_AFTER, 0) => inside.push(Field::Definition(OPERATOR, 1, x())),
        (OPERATOR_AFTER, _) => with.push((OPERATOR, and(p(own), x()))),
        _ => (),
    }
    random.shuffle(&mut with);
    inside.push(instance(name, own, INSTANCED, &with));
    if let Some(there) = elsewhere {
        let of_both = with.iter_mut().filter(|(name, _)| ends.contains(name));
        of_both.for_each(|(_, expr)| *expr = there.clone());
        inside.push(instance(51, own, INSTANCED, &with));
    }
    fields.extend(module(LAST, &inside));
    let cause = match of_the_two {
        false => Some(14),
        true => (way < MIXED).then_some(21),
    };
    Substituted {
        label: label(number),
        file: syntax::file(&fields),
        cause,
    }
}
