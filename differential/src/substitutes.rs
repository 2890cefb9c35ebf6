//! Instances for every kind of module, of declared name and of substitute's level: lawful or not.

use crate::random::Random;
use crate::syntax::{self, always, and, instance, lit, n, p, prime, Expr, Field};

/// Why a module is constant or not.
const MODULES: [(&str, bool); 7] = [
    ("constant module", true),
    ("constant module, extending", true),
    ("module with a variable", false),
    ("module with an extended variable", false),
    ("module with a definition at 2", false),
    ("module with an extended definition at 2", false),
    ("module with a brought definition at 2", false),
];

const DECLARED: [&str; 5] = [
    "constant",
    "variable",
    "operator of 1",
    "operator of 2",
    "operator of 3",
];

/// An instance with one substitute to look at.
#[derive(Clone, Debug)]
pub struct Substituted {
    pub label: String,
    pub file: Vec<u8>,
    /// Whether the substitute is lawful; if not, the cause is 14.
    pub lawful: bool,
}

/// Module, declared name and level of each combination.
fn combinations() -> Vec<(usize, usize, u8)> {
    let mut all = Vec::new();
    for module in 0..MODULES.len() {
        for (declared, what) in DECLARED.iter().enumerate() {
            // A module that declares a variable is not constant.
            if *what == "variable" && !matches!(module, 2 | 3) {
                continue;
            }
            all.extend((0..4).map(|level| (module, declared, level)));
        }
    }
    all
}

/// The number of combinations.
pub fn count() -> usize {
    combinations().len()
}

fn label((module, declared, level): (usize, usize, u8)) -> String {
    let (module, _) = MODULES[module];
    format!("{module}, {} at {level}", DECLARED[declared])
}

/// The labels of all combinations.
pub fn labels() -> Vec<String> {
    combinations().into_iter().map(label).collect()
}

/// The file of one combination.
pub fn build(number: usize, random: &mut Random) -> Substituted {
    const S: u16 = 1;
    const U: u16 = 2;
    const D: u16 = 3;
    const X: u16 = 4;
    const OTHER: u16 = 5;
    let combination = combinations()[number];
    let (kind, declared, level) = combination;
    let arguments = declared.saturating_sub(1) as u8;
    let declaration = match declared {
        1 => Field::Variable(S),
        _ => Field::Constant(S, arguments),
    };
    let module = |name: u16, inside: &[Field]| {
        let mut fields = vec![Field::Module(name)];
        fields.extend_from_slice(inside);
        fields.push(Field::End);
        fields
    };
    // Module 3 is instanced; what it extends or brings is in module 1 or 2.
    let high = Field::Definition(D, 0, prime(lit(0)));
    let low = Field::Definition(D, 1, p(0));
    let mut fields = Vec::new();
    match kind {
        0 => fields.extend(module(3, &[declaration, low])),
        1 => {
            fields.extend(module(1, &[declaration, low]));
            fields.extend(module(3, &[Field::Extends(vec![1])]));
        }
        2 => fields.extend(module(3, &[Field::Variable(U), declaration])),
        3 => {
            fields.extend(module(1, &[Field::Variable(U)]));
            fields.extend(module(3, &[Field::Extends(vec![1]), declaration]));
        }
        4 => fields.extend(module(3, &[declaration, high])),
        5 => {
            fields.extend(module(1, &[high]));
            fields.extend(module(3, &[Field::Extends(vec![1]), declaration]));
        }
        _ => {
            fields.extend(module(1, &[high]));
            fields.extend(module(3, &[declaration, instance(0, 0, 1, &[])]));
        }
    }
    let x = || n(X, &[]);
    let at_level = match level {
        0 => random.pick(&[lit(7), n(OTHER, &[])]),
        1 => random.pick(&[x(), and(x(), lit(0))]),
        2 => random.pick(&[prime(x()), prime(lit(1))]),
        _ => random.pick(&[always(x()), always(lit(0))]),
    };
    let over = |own: u8, inner: Expr, random: &mut Random| match arguments {
        0 => inner,
        _ => match random.below(2) {
            0 => inner,
            _ => and(inner, p(own + random.below(arguments as usize) as u8)),
        },
    };
    let mut inside = vec![
        Field::Variable(X),
        Field::Constant(OTHER, 0),
        Field::Variable(U),
    ];
    let own = random.below(4 - arguments as usize).min(2) as u8;
    let mut with = Vec::new();
    match random.below(3) {
        0 => {
            // Stands for itself.
            let body = over(0, at_level, random);
            inside.push(match (level, arguments) {
                (0, _) if random.chance(50) => Field::Constant(S, arguments),
                (1, 0) if random.chance(50) => Field::Variable(S),
                _ => Field::Definition(S, arguments, body),
            });
        }
        _ => with.push((S, over(own, at_level, random))),
    }
    let name = if random.chance(60) { 9 } else { 0 };
    let own = if name == 0 { 0 } else { own };
    // An unnamed instance has no parameters for its substitutes.
    if name == 0 {
        for (_, expr) in &mut with {
            for number in 0..expr.size() {
                if let Expr::Parameter(index) = expr.part_mut(number) {
                    *index %= arguments;
                }
            }
        }
    }
    // Definitions brought must leave room for the instance's parameters.
    inside.push(instance(name, own.min(2), 3, &with));
    fields.extend(module(4, &inside));
    let constant = MODULES[kind].1;
    let most = match declared {
        0 if constant => 3,
        0 => 0,
        1 => 1,
        _ => 0,
    };
    Substituted {
        label: label(combination),
        file: syntax::file(&fields),
        lawful: level <= most,
    }
}
