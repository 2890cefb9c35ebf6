//! The operations: each checks the file afresh, fills the lent card memory, and answers.

use crate::context::{Dictionary, Scope};
use crate::expansion;
use crate::expressions::{self, Faults, Layout};
use crate::judge::Program;
use crate::levels;
use crate::limits::Limits;
use crate::long_way::LongWay;
use crate::refusal::{Cause, Refusal};

/// Checks a file and fills the cards.
///
/// The reply is the number of definitions, and their cards are written. A refusal 1 leaves the
/// card memory as it was, any other refusal sets its first 4,096 bytes to 0.
pub fn check(file: &[u8], cards: &mut [u8]) -> Result<u32, Refusal> {
    accept(file, cards).map(|program| program.cards.len() as u32)
}

/// The level of an expression at the end of a module, its parameters at the given levels.
pub fn level(
    file: &[u8],
    cards: &mut [u8],
    module: u16,
    expr: &[u8],
    levels: &[u8],
) -> Result<u32, Refusal> {
    let mut program = accept(file, cards)?;
    let text = program.query_with_levels(module, expr, levels)?;
    Ok(program.level(text, levels) as u32)
}

/// The length of an expression's expansion at the end of a module; the expansion itself is
/// written to the output.
pub fn expand(
    file: &[u8],
    cards: &mut [u8],
    module: u16,
    expr: &[u8],
    params: u8,
    out: &mut [u8],
) -> Result<u32, Refusal> {
    let mut program = accept(file, cards)?;
    let count = params as usize;
    let text = program.query(module, expr, count, false)?;
    match expansion::expand(&program.tables, &program.texts, text, count, out) {
        Some(length) => Ok(length as u32),
        None => Err(Cause::TooLong.at(0)),
    }
}

/// Whether two definitions are alike: 1 if so, else 0.
pub fn alike(file: &[u8], cards: &mut [u8], a: u32, b: u32) -> Result<u32, Refusal> {
    let program = accept(file, cards)?;
    let (a, b) = (program.known(a)?, program.known(b)?);
    // A card holds the parameter count.
    Ok((program.cards[a] == program.cards[b]) as u32)
}

/// Where the body of a definition begins in the file, and its length; for a brought definition
/// those of the original.
pub fn body(file: &[u8], cards: &mut [u8], d: u32) -> Result<(u32, u32), Refusal> {
    let program = accept(file, cards)?;
    let number = program.known(d)?;
    Ok(program.tables.definitions[number].body)
}

/// The level of an expression the long way: expanded in full, and levelled without any card.
/// `None` if a tree of more than `fuel` tokens comes up.
pub fn long_way(
    file: &[u8],
    module: u16,
    expr: &[u8],
    levels: &[u8],
    fuel: usize,
) -> Option<Result<u32, Refusal>> {
    let asked = Program::judge(file).and_then(|mut program| {
        let text = program.query_with_levels(module, expr, levels)?;
        Ok((program, text))
    });
    let (program, text) = match asked {
        Ok(asked) => asked,
        Err(refusal) => return Some(Err(refusal)),
    };
    let way = LongWay::new(&program, fuel);
    let tree = way.expand(text)?;
    Some(Ok(way.level(&tree, levels) as u32))
}

/// The expansion of an expression the long way, in the file's own tokens. `None` if a tree of more
/// than `fuel` tokens comes up, or a bound index that passes two bytes.
pub fn long_way_expansion(
    file: &[u8],
    module: u16,
    expr: &[u8],
    params: u8,
    fuel: usize,
) -> Option<Result<Vec<u8>, Refusal>> {
    let asked = Program::judge(file).and_then(|mut program| {
        let text = program.query(module, expr, params as usize, false)?;
        Ok((program, text))
    });
    let (program, text) = match asked {
        Ok(asked) => asked,
        Err(refusal) => return Some(Err(refusal)),
    };
    let way = LongWay::new(&program, fuel);
    let tree = way.expand(text)?;
    way.bytes(&tree).map(Ok)
}

/// The level of a definition the long way, a brought one as its instance brings it; as many
/// levels from 0 to 4 have to be given as it has parameters. `None` if a tree of more than `fuel`
/// tokens comes up.
pub fn long_way_definition(
    file: &[u8],
    d: u32,
    levels: &[u8],
    fuel: usize,
) -> Option<Result<u32, Refusal>> {
    let asked = Program::judge(file).and_then(|program| {
        let number = program.known(d)?;
        check_levels(levels, program.fields)?;
        let count = program.tables.definitions[number].parameters as usize;
        if levels.len() != count {
            return Err(Cause::ArgumentCount.at(program.fields));
        }
        Ok((program, number))
    });
    let (program, number) = match asked {
        Ok(asked) => asked,
        Err(refusal) => return Some(Err(refusal)),
    };
    let way = LongWay::new(&program, fuel);
    let tree = way.definition(number)?;
    Some(Ok(way.level(tree, levels) as u32))
}

/// Judges the file and leaves the card memory as the outcome wants it.
fn accept(file: &[u8], cards: &mut [u8]) -> Result<Program, Refusal> {
    if cards.len() < Limits::CARDS {
        return Err(Cause::CardMemory.at(0));
    }
    match Program::judge(file) {
        Ok(program) => {
            for (lent, card) in cards.chunks_exact_mut(Limits::CARD).zip(&program.cards) {
                lent.copy_from_slice(card.bytes());
            }
            Ok(program)
        }
        Err(refusal) => {
            cards[..Limits::CARDS].fill(0);
            Err(refusal)
        }
    }
}

/// Causes 3 and 5 of given levels alone.
fn check_levels(levels: &[u8], place: usize) -> Result<(), Refusal> {
    if levels.iter().any(|&level| level > 4) {
        Err(Cause::Layout.at(place))
    } else if levels.len() > Limits::PARAMETERS {
        Err(Cause::Limit.at(place))
    } else {
        Ok(())
    }
}

impl Program {
    /// The number of a definition of the file.
    fn known(&self, number: u32) -> Result<usize, Refusal> {
        let number = number as usize;
        if number < self.tables.definitions.len() {
            Ok(number)
        } else {
            Err(Cause::NoSuch.at(0))
        }
    }

    /// Levels a text of a module's own world by the cards.
    pub fn level(&self, text: u32, levels: &[u8]) -> u8 {
        let declarations = &self.tables.declarations;
        levels::by_cards(&self.texts, text, declarations, &self.cards, levels)
    }

    fn query_with_levels(
        &mut self,
        module: u16,
        expr: &[u8],
        levels: &[u8],
    ) -> Result<u32, Refusal> {
        let broken = levels.iter().any(|&level| level > 4);
        self.query(module, expr, levels.len(), broken)
    }

    /// Reads a query's expression at the end of a module. `broken` says that the levels given
    /// with it are at fault.
    pub fn query(
        &mut self,
        module: u16,
        expr: &[u8],
        parameters: usize,
        broken: bool,
    ) -> Result<u32, Refusal> {
        let place = self.fields;
        let module = self.tables.modules.iter().find(|m| m.name == module);
        let module = module.ok_or(Cause::NoSuch.at(0))?;
        let layout = expressions::layout(expr);
        if broken || layout == Layout::Broken {
            return Err(Cause::Layout.at(place));
        }
        if layout == Layout::OverLimit || parameters > Limits::PARAMETERS {
            return Err(Cause::Limit.at(place));
        }
        let scope = Scope {
            tables: &self.tables,
            context: &module.context,
            dictionary: &Dictionary::of(&module.context),
        };
        let mut faults = Faults::default();
        let text = self.texts.read(expr, &scope, parameters, &mut faults);
        if faults.unknown {
            Err(Cause::Unknown.at(place))
        } else if faults.miscounted {
            Err(Cause::ArgumentCount.at(place))
        } else {
            Ok(text)
        }
    }
}
