//! A second opinion that lawful instances stay lawful, so that cause 15 (a brought definition is 4 with
//! parameters at 0) never holds where 14 and 21 do not: "with parameters at 0, every brought definition of
//! an instance that clears 14 and 21 has a level no higher than in its own module, or, if the module is
//! constant, no higher than the highest substitute. Outside constant modules a 3 never becomes a 2."
//!
//! Every definition is expanded in full and levelled the long way, in its own module and where it is
//! brought; so is every substitute, and whether a module is constant is found so too. No card is read.

use crate::context::{Instance, Module, Substitute};
use crate::judge::{Program, Rules};
use crate::limits::Limits;
use crate::long_way::{highest, LongWay};
use crate::refusal::Cause;
use std::ops::AddAssign;

/// What is said of the INSTANCE fields of a file: nothing is broken, or what is; and what was looked at.
#[derive(Clone, Debug, Default, PartialEq, Eq)]
pub struct Opinion {
    pub broken: Vec<Broken>,
    pub seen: Seen,
}

/// A brought definition that does not keep to the sentences above.
#[derive(Clone, Copy, Debug, PartialEq, Eq)]
pub struct Broken {
    /// The number of the INSTANCE field.
    pub field: u32,
    /// The number of the definition, and of the one in the module instanced.
    pub definition: u32,
    pub original: u32,
    pub breach: Breach,
}

/// How it does not.
#[derive(Clone, Copy, Debug, PartialEq, Eq)]
pub enum Breach {
    /// It is 4: what cause 15 was for.
    Four,
    /// The module is not constant, and it is higher than there.
    Higher { own: u8, brought: u8 },
    /// The module is not constant, and a 3 became a 2.
    TemporalToAction,
    /// The module is constant, and it is not below the highest substitute.
    AboveSubstitutes { highest: u8, brought: u8 },
}

/// What was looked at. A level is that with parameters at 0.
#[derive(Clone, Copy, Debug, Default, PartialEq, Eq)]
pub struct Seen {
    /// INSTANCE fields, and those of them that cause 16 holds of.
    pub instances: u64,
    pub named_inside: u64,
    /// Definitions of constant modules by their level there, and then by the level brought.
    pub constant: [[u64; 5]; 5],
    /// Definitions of other modules likewise.
    pub other: [[u64; 5]; 5],
    /// Definitions of constant modules that stay below the highest substitute.
    pub below: u64,
    /// Definitions that were brought to where they are brought from.
    pub chained: u64,
    /// Definitions with an expansion of more tokens than the fuel lasts for, somewhere.
    pub given_up: u64,
}

impl AddAssign for Seen {
    fn add_assign(&mut self, more: Seen) {
        self.instances += more.instances;
        self.named_inside += more.named_inside;
        for own in 0..5 {
            for brought in 0..5 {
                self.constant[own][brought] += more.constant[own][brought];
                self.other[own][brought] += more.other[own][brought];
            }
        }
        self.below += more.below;
        self.chained += more.chained;
        self.given_up += more.given_up;
    }
}

/// The second opinion on every INSTANCE field of a file that clears 4 to 14 and 21, whatever becomes of
/// the rest of the file. Trees of more than `fuel` tokens are given up.
pub fn staying_lawful(file: &[u8], fuel: usize) -> Opinion {
    staying_lawful_by(Rules::PAPERS, file, fuel)
}

/// The same where other rules say what an INSTANCE clears: by wrong ones something breaks.
pub fn staying_lawful_by(rules: Rules, file: &[u8], fuel: usize) -> Opinion {
    let judged = Program::judge_by(rules, file);
    let named_inside = judged
        .refusal
        .is_some_and(|refusal| refusal.number == Cause::NamedInstance as u32);
    if !named_inside {
        return opinion(&judged.program, fuel);
    }
    // That field clears all the others, so what it would bring is looked at as well.
    let lenient = Rules {
        named_inside: false,
        ..rules
    };
    let judged = Program::judge_by(lenient, &file[..judged.read]);
    let mut opinion = opinion(&judged.program, fuel);
    opinion.seen.named_inside += 1;
    opinion
}

/// The levels of a program the long way, parameters at 0; `None` where the fuel does not last.
struct AtZero<'p> {
    program: &'p Program,
    way: LongWay<'p>,
    definitions: Vec<Option<u8>>,
}

const ZEROS: [u8; Limits::SLOTS] = [0; Limits::SLOTS];

fn opinion(program: &Program, fuel: usize) -> Opinion {
    let way = LongWay::new(program, fuel);
    let numbers = 0..program.tables.definitions.len();
    let level = |number| Some(way.level(way.definition(number)?, &ZEROS));
    let definitions = numbers.map(level).collect();
    let levels = AtZero {
        program,
        way,
        definitions,
    };
    let mut opinion = Opinion::default();
    for instance in &program.tables.instances {
        levels.instance(instance, &mut opinion);
    }
    opinion
}

impl AtZero<'_> {
    fn instance(&self, instance: &Instance, opinion: &mut Opinion) {
        let tables = &self.program.tables;
        let module = &tables.modules[instance.module];
        let constant = self.constant(module);
        opinion.seen.instances += 1;
        for (place, &original) in module.order.iter().enumerate() {
            let number = instance.start as usize + place;
            let own = self.definitions[original as usize];
            let brought = self.definitions[number];
            let substitutes = match constant {
                Some(true) => self.substitutes(instance, module),
                _ => Some(Vec::new()),
            };
            let (Some(constant), Some(own), Some(brought), Some(substitutes)) =
                (constant, own, brought, substitutes)
            else {
                opinion.seen.given_up += 1;
                continue;
            };
            let seen = &mut opinion.seen;
            let chained = tables.definitions[original as usize].brought.is_some();
            seen.chained += chained as u64;
            let by_level = match constant {
                true => &mut seen.constant,
                false => &mut seen.other,
            };
            by_level[own as usize][brought as usize] += 1;
            seen.below += (constant && brought < highest(&substitutes)) as u64;
            let breaches = match constant {
                true => of_constant(&substitutes, brought),
                false => of_other(own, brought),
            };
            let broken = breaches.into_iter().map(|breach| Broken {
                field: instance.field,
                definition: number as u32,
                original: original as u32,
                breach,
            });
            opinion.broken.extend(broken);
        }
    }

    /// "A module is constant when it declares no variable, extended ones included, and all its definitions
    /// are level 0 with parameters at 0."
    fn constant(&self, module: &Module) -> Option<bool> {
        let declarations = &self.program.tables.declarations;
        let mut declared = module.declared.iter();
        if declared.any(|&id| declarations[id as usize].variable) {
            return Some(false);
        }
        let levels = || module.order.iter().map(|&d| self.definitions[d as usize]);
        if levels().any(|level| level.is_some_and(|level| level > 0)) {
            return Some(false);
        }
        levels().all(|level| level == Some(0)).then_some(true)
    }

    /// The levels of what stands for each declared name of the module, itself or what is written.
    fn substitutes(&self, instance: &Instance, module: &Module) -> Option<Vec<u8>> {
        let level = |&id: &u8| {
            let count = self.program.tables.declarations[id as usize].count;
            let own = instance.parameters as usize;
            let substitute: Substitute = instance.substitutes[id as usize]?;
            let tree = self.way.substitute(substitute, own, count)?;
            Some(self.way.level(&tree, &ZEROS))
        };
        module.declared.iter().map(level).collect()
    }
}

/// How a definition of a constant module breaks, brought at this level. The highest of no substitute is 0;
/// it is that of action and temporal levels kept apart, so a 2 is not below a 3.
fn of_constant(substitutes: &[u8], brought: u8) -> Vec<Breach> {
    let highest_of_them = highest(substitutes);
    let above = highest(&[highest_of_them, brought]) != highest_of_them;
    let above = above.then_some(Breach::AboveSubstitutes {
        highest: highest_of_them,
        brought,
    });
    four(brought).chain(above).collect()
}

/// How a definition of another module breaks, at one level there and brought at the other.
fn of_other(own: u8, brought: u8) -> Vec<Breach> {
    let higher = (brought > own).then_some(Breach::Higher { own, brought });
    let changed = (own == 3 && brought == 2).then_some(Breach::TemporalToAction);
    four(brought).chain(higher).chain(changed).collect()
}

fn four(brought: u8) -> impl Iterator<Item = Breach> {
    (brought == 4).then_some(Breach::Four).into_iter()
}

#[cfg(test)]
mod tests {
    use super::*;

    /// Above the substitutes is by the order in which neither of 2 and 3 is below the other.
    #[test]
    fn bounds_of_a_constant_module() {
        let above = |highest, brought| Breach::AboveSubstitutes { highest, brought };
        assert_eq!(of_constant(&[1, 3], 2), [above(3, 2)]);
        assert_eq!(of_constant(&[2], 3), [above(2, 3)]);
        assert_eq!(of_constant(&[], 1), [above(0, 1)]);
        assert_eq!(of_constant(&[3], 1), []);
        assert_eq!(of_constant(&[1, 2], 2), []);
        assert_eq!(of_constant(&[], 0), []);
    }
}
