//! A small deterministic generator of accepted files and of expressions for their modules.

use super::build::*;
use crate::context::{Entity, Module};
use crate::expressions::Operator;
use crate::judge::Program;

/// A small deterministic source of numbers.
pub struct Random(u64);

impl Random {
    pub fn new(seed: u64) -> Self {
        Random(seed.wrapping_mul(0x9E37_79B9_7F4A_7C15) | 1)
    }

    fn next(&mut self) -> u64 {
        self.0 ^= self.0 << 13;
        self.0 ^= self.0 >> 7;
        self.0 ^= self.0 << 17;
        self.0 >> 11
    }

    /// A number below a bound.
    pub fn below(&mut self, bound: usize) -> usize {
        (self.next() % bound as u64) as usize
    }

    pub fn chance(&mut self, percent: usize) -> bool {
        self.below(100) < percent
    }

    pub fn pick<T: Copy>(&mut self, from: &[T]) -> T {
        from[self.below(from.len())]
    }
}

/// What expressions of a module can name.
#[derive(Default)]
pub struct Vocabulary {
    operators: Vec<(u16, u8)>,
    instance_operators: Vec<(u16, u16, u8)>,
}

impl Vocabulary {
    pub fn of(program: &Program, module: &Module) -> Self {
        let tables = &program.tables;
        let mut words = Vocabulary::default();
        for &(name, entity) in &module.context {
            match entity {
                Entity::Operator(operator) => {
                    words.operators.push((name, tables.parameters(operator)));
                }
                Entity::Instance(instance) => {
                    let start = tables.instances[instance as usize].start;
                    let of = &tables.modules[tables.instances[instance as usize].module];
                    for &(plain, place) in &of.plain {
                        let number = (start + place as u16) as u8;
                        let count = tables.parameters(Operator::Defined(number));
                        words.instance_operators.push((name, plain, count));
                    }
                }
            }
        }
        words
    }
}

const CODES: [u8; 24] = [
    0, 16, 48, 49, 52, 96, 112, 113, 114, 115, 117, 118, 119, 120, 122, 123, 124, 128, 129, 132,
    139, 140, 141, 16,
];
const PLAIN: [u8; 6] = [16, 48, 49, 50, 96, 128];

/// An expression with known names, known indices and right argument counts.
pub fn expression(
    random: &mut Random,
    words: &Vocabulary,
    parameters: usize,
    binders: usize,
    depth: usize,
) -> Bytes {
    let leaf = depth == 0 || random.chance(15);
    let kind = random.below(100);
    if leaf || kind < 10 {
        let nullary: Vec<u16> = words
            .operators
            .iter()
            .filter(|&&(_, count)| count == 0)
            .map(|&(name, _)| name)
            .collect();
        return match random.below(10) {
            0..=4 if parameters > 0 => p(random.below(parameters) as u8),
            0..=6 if binders > 0 => b(random.below(binders) as u16),
            0..=8 if !nullary.is_empty() => n(random.pick(&nullary), &[]),
            8 => op(1, &[]),
            _ => lit(random.below(300) as u16),
        };
    }
    let arguments = |count: u8, random: &mut Random| -> Vec<Bytes> {
        (0..count)
            .map(|_| expression(random, words, parameters, binders, depth - 1))
            .collect()
    };
    if kind < 45 && !words.operators.is_empty() {
        let (name, count) = random.pick(&words.operators);
        return n(name, &arguments(count, random));
    }
    if kind < 55 && !words.instance_operators.is_empty() {
        let (instance, name, count) = random.pick(&words.instance_operators);
        return io(instance, name, &arguments(count, random));
    }
    let code = if random.chance(55) {
        random.pick(&PLAIN)
    } else {
        random.pick(&CODES)
    };
    let row = crate::rows::known(code);
    let parts: Vec<Bytes> = (0..row.arguments as usize)
        .map(|index| {
            let inside = binders + row.binds_in(index).is_some() as usize;
            expression(random, words, parameters, inside, depth - 1)
        })
        .collect();
    op(code, &parts)
}

/// A name for a declaration: from few, so that declared names often stand for themselves.
fn declared_name(random: &mut Random) -> u16 {
    random.below(7) as u16 + 1
}

/// A name for a definition or an instance; now and then one for a declaration.
fn name(random: &mut Random) -> u16 {
    if random.chance(15) {
        declared_name(random)
    } else {
        random.below(60) as u16 + 10
    }
}

/// How files are judged while they grow.
pub type Judging = fn(&[u8]) -> Result<Program, crate::Refusal>;

fn depth(random: &mut Random) -> usize {
    random.below(4) + 1
}

/// A declared operator with arguments of several levels below another operator: what becomes of it in
/// an instance hangs on the operator's substitute.
fn delicate(random: &mut Random, words: &Vocabulary) -> Bytes {
    let wide: Vec<(u16, u8)> = words
        .operators
        .iter()
        .copied()
        .filter(|&(_, count)| count > 1)
        .collect();
    if wide.is_empty() {
        return always(lit(0));
    }
    let (name, count) = random.pick(&wide);
    let arguments: Vec<Bytes> = (0..count)
        .map(|_| {
            let inner = expression(random, words, 0, 0, 1);
            match random.below(3) {
                0 => prime(inner),
                1 => always(inner),
                _ => inner,
            }
        })
        .collect();
    let inner = n(name, &arguments);
    match random.below(4) {
        0 => inner,
        1 => op(113, &[inner]),
        2 => op(115, &[inner, lit(0)]),
        _ => always(inner),
    }
}

fn instance_field(random: &mut Random, program: &Program, words: &Vocabulary) -> Bytes {
    let tables = &program.tables;
    let ended = tables.modules.len() - 1;
    let module = if random.chance(60) {
        &tables.modules[ended - 1]
    } else {
        &tables.modules[random.below(ended)]
    };
    let unnamed = random.chance(65);
    let (own, parameters) = if unnamed {
        (0, 0)
    } else {
        (name(random), random.pick(&[0, 0, 0, 1, 1, 1, 2, 2, 4, 5]))
    };
    let mut with = Vec::new();
    for &id in &module.declared {
        let declaration = &tables.declarations[id as usize];
        if random.chance(45) {
            continue;
        }
        let count = parameters as usize + declaration.count as usize;
        let deep = random.below(3);
        let substitute = expression(random, words, count, 0, deep);
        // A constant module may take any of them, but not a 2 beside a 3; in others they are unlawful.
        let high = module.constant && declaration.count == 0 || random.chance(10);
        let substitute = match random.below(8) {
            0 | 1 if high => prime(substitute),
            2 | 3 if high => always(substitute),
            _ => substitute,
        };
        with.push((declaration.name, substitute));
    }
    instance(own, parameters, module.name, &with)
}

/// A file that is accepted.
pub fn file(random: &mut Random, judge: Judging) -> Bytes {
    grow(random, judge, &mut |_| ())
}

/// A file that is accepted; the files that came up on the way and are not are handed over.
pub fn grow(random: &mut Random, judge: Judging, refused: &mut dyn FnMut(&[u8])) -> Bytes {
    let mut file = Bytes::new();
    let modules = random.below(6) as u16 + 2;
    for number in 1..=modules {
        file.extend(module(number));
        let mut wanted = 2 + random.below(6);
        if number > 1 && random.chance(40) {
            let count = random.below(2) + 1;
            let names: Vec<u16> = (0..count)
                .map(|_| random.below(number as usize - 1) as u16 + 1)
                .collect();
            let more = [file.clone(), extends(&names)].concat();
            let whole = [more.clone(), end()].concat();
            match judge(&whole) {
                Ok(_) => file = more,
                Err(_) => refused(&whole),
            }
        }
        for _ in 0..60 {
            if wanted == 0 {
                break;
            }
            let program = judge(&[file.clone(), end()].concat()).expect("kept fields");
            let current = program.tables.modules.last().expect("a module");
            let words = Vocabulary::of(&program, current);
            let kind = random.below(100);
            let field = if kind < 22 {
                constant(
                    declared_name(random),
                    random.pick(&[0, 0, 0, 0, 1, 1, 1, 1, 2, 2, 3, 5, 8]),
                )
            } else if kind < 35 {
                variable(declared_name(random))
            } else if kind < 43 {
                def(name(random), 0, delicate(random, &words))
            } else if kind < 65 || number == 1 {
                let parameters =
                    random.pick(&[0, 0, 0, 0, 1, 1, 1, 1, 2, 2, 2, 2, 3, 3, 4, 5, 6, 7, 8]);
                let deep = depth(random);
                let body = expression(random, &words, parameters as usize, 0, deep);
                def(name(random), parameters, body)
            } else if kind < 96 {
                instance_field(random, &program, &words)
            } else {
                let deep = depth(random);
                theorem(expression(random, &words, 0, 0, deep))
            };
            let more = [file.clone(), field].concat();
            let whole = [more.clone(), end()].concat();
            match judge(&whole) {
                Ok(_) => {
                    file = more;
                    wanted -= 1;
                }
                Err(_) => refused(&whole),
            }
        }
        file.extend(end());
    }
    file
}

/// A file of three modules, each bringing the one before, whose definitions hang on what is put for
/// their operators. It may be refused.
pub fn delicate_file(random: &mut Random) -> Bytes {
    const K: u16 = 1;
    const U: u16 = 2;
    const C: u16 = 3;
    let count = random.pick(&[2, 3]);
    let mut file = [module(1), constant(K, count), variable(U), constant(C, 0)].concat();
    let words = Vocabulary {
        operators: vec![(K, count), (U, 0), (C, 0)],
        instance_operators: Vec::new(),
    };
    for name in 10..14 {
        let more = [file.clone(), def(name, 0, delicate(random, &words))].concat();
        if Program::judge(&[more.clone(), end()].concat()).is_ok() {
            file = more;
        }
    }
    file.extend(end());
    for number in 2..=3 {
        file.extend([module(number), constant(K, count), variable(U)].concat());
        let own = if random.chance(50) { 0 } else { 20 + number };
        let any = |random: &mut Random| p(random.below(count as usize) as u8);
        let mut with = Vec::new();
        if random.chance(80) {
            let substitute = match random.below(5) {
                0 => and(any(random), any(random)),
                1 => n(K, &vec![any(random); count as usize]),
                2 => op(128, &[any(random)]),
                3 => lit(0),
                _ => any(random),
            };
            with.push((K, substitute));
        }
        if number == 2 {
            with.push((C, lit(4)));
            file.extend(constant(C, 0));
        } else if random.chance(50) {
            with.push((U, lit(5)));
        }
        if number == 3 {
            file.extend(constant(C, 0));
        }
        file.extend(instance(own, 0, number - 1, &with));
        file.extend(end());
    }
    file
}

/// A file with an instance of a constant module, and the level of what is put for each of its names:
/// written, or standing for itself.
pub fn mixing_file(random: &mut Random) -> (Bytes, Vec<u8>) {
    const X: u16 = 50;
    let count = random.below(4) as u16 + 1;
    let mut inside = Bytes::new();
    let (mut outside, mut with) = (variable(X), Vec::new());
    let mut levels = Vec::new();
    for name in 1..=count {
        inside.extend(constant(name, 0));
        let level = random.pick(&[0, 1, 1, 2, 2, 3, 3]);
        levels.push(level);
        let x = || wrap(level as usize, n(X, &[]));
        let expr = match level {
            0 => lit(name),
            1 => x(),
            2 => and(x(), prime(x())),
            _ => and(always(x()), lit(0)),
        };
        match random.below(3) {
            0 => outside.extend(def(name, 0, expr)),
            _ => with.insert(random.below(with.len() + 1), (name, expr)),
        }
    }
    // Definitions of the constant module, over some of its names or none.
    for number in 0..random.below(3) {
        let name = || n(1, &[]);
        let body = match random.below(4) {
            0 => lit(0),
            1 => name(),
            2 => and(name(), n(count, &[])),
            _ => op(97, &[n(count, &[]), p(0), name()]),
        };
        inside.extend(def(20 + number as u16, 1, body));
    }
    let last = instance(random.pick(&[0, 9]), 0, 1, &with);
    let file = [module(1), inside, end(), module(2), outside, last, end()];
    (file.concat(), levels)
}
