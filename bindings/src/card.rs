//! Cards: what is kept of a definition's levels, and how the level at any levels of its parameters
//! is read.

use crate::{CARD, MAX_PARAMETERS};
use std::error::Error;
use std::fmt::{self, Debug, Display, Formatter, LowerHex};

/// The highest level; an expression that has it is not level-correct.
const INCORRECT: u8 = 4;

/// The card of one definition (paper 02, L7). Parameters are counted from 0, and bit 0 is the
/// lowest.
///
/// - Byte 0: the parameter count.
/// - Byte 1: the level with all at 0.
/// - Byte 2: the weights; bit i is set if some taken level of parameter i, others at 0, raises the
///   level.
/// - Bytes 3 to 10: a mask of levels taken per parameter; bit l is set if the parameter at l,
///   others at 0, is not 4.
/// - Bytes 11 to 14: the pairs, highest byte first; bit j(j - 1)/2 + i, for i below j, is set if
///   one at 2 and the other at 3, others at 0, gives 4 though each alone does not.
/// - Byte 15: zero.
///
/// Unused masks and bits are 0. Equal cards mean equal levels whatever levels the parameters have.
#[derive(Clone, Copy, PartialEq, Eq, Hash)]
pub struct Card {
    bytes: [u8; CARD],
}

impl Card {
    /// The card with these bytes, `None` if they are not laid out as a card is: a count above 8, a
    /// level above 4, or something set that is not used.
    pub fn new(bytes: [u8; CARD]) -> Option<Card> {
        let [count, level, weights, masks @ .., _, _, _, _, last] = bytes;
        let used = usize::from(count);
        if used > MAX_PARAMETERS || level > INCORRECT || last != 0 {
            return None;
        }
        let card = Card { bytes };
        let fits = u32::from(weights) >> used == 0
            && masks[..used]
                .iter()
                .all(|mask| mask >> (INCORRECT + 1) == 0)
            && masks[used..].iter().all(|&mask| mask == 0)
            && card.pairs() >> pair_bit(0, used) == 0;
        fits.then_some(card)
    }

    /// The card of a definition of an accepted file, given by its number: `None` beyond the memory,
    /// and where it holds something else.
    pub fn of(cards: &[u8], definition: usize) -> Option<Card> {
        let bytes = cards.chunks_exact(CARD).nth(definition)?;
        Card::new(bytes.try_into().ok()?)
    }

    pub fn bytes(&self) -> &[u8; CARD] {
        &self.bytes
    }

    /// How many parameters there are, 0 to 8.
    pub fn parameters(&self) -> usize {
        usize::from(self.bytes[0])
    }

    /// The level with all parameters at 0.
    pub fn level_at_zero(&self) -> u8 {
        self.bytes[1]
    }

    /// Whether some taken level of the parameter, others at 0, raises the level.
    pub fn weighs(&self, parameter: usize) -> bool {
        parameter < self.parameters() && self.bytes[2] >> parameter & 1 == 1
    }

    /// Bit l is set if level l is taken: 31, 15, 7, 11, 3, or 0 where nothing is; 0 of a parameter
    /// that is not there.
    pub fn mask(&self, parameter: usize) -> u8 {
        let masks = &self.bytes[3..3 + MAX_PARAMETERS];
        masks.get(parameter).copied().unwrap_or(0)
    }

    /// Whether the parameter at this level, others at 0, is level-correct.
    pub fn takes(&self, parameter: usize, level: u8) -> bool {
        level <= INCORRECT && self.mask(parameter) >> level & 1 == 1
    }

    /// Whether the two parameters, in either order, give 4 where one is at 2 and the other at 3
    /// though each alone does not.
    pub fn clash(&self, one: usize, other: usize) -> bool {
        let (i, j) = (one.min(other), one.max(other));
        i < j && j < self.parameters() && self.pairs() >> pair_bit(i, j) & 1 == 1
    }

    /// All pairs that clash, the lower parameter first.
    pub fn clashes(&self) -> impl Iterator<Item = (usize, usize)> + '_ {
        let all =
            (0..self.parameters()).flat_map(|i| (i + 1..self.parameters()).map(move |j| (i, j)));
        all.filter(|&(i, j)| self.clash(i, j))
    }

    fn pairs(&self) -> u32 {
        let [.., a, b, c, d, _] = self.bytes;
        u32::from_be_bytes([a, b, c, d])
    }

    /// The level with the parameters at these levels, one for each: 4 if a level is not taken or a
    /// pair that clashes holds a 2 and a 3; else the highest of the level with all at 0 and the
    /// levels of the parameters that weigh.
    pub fn level(&self, levels: &[u8]) -> Result<u8, BadLevels> {
        self.reading(levels).map(Reading::level)
    }

    /// The same with the reason.
    pub fn reading(&self, levels: &[u8]) -> Result<Reading, BadLevels> {
        let parameters = self.parameters();
        if levels.len() != parameters {
            let given = levels.len();
            return Err(BadLevels::Count { parameters, given });
        }
        if let Some(parameter) = levels.iter().position(|&level| level > INCORRECT) {
            let level = levels[parameter];
            return Err(BadLevels::Level { parameter, level });
        }
        let at = |parameter: usize| levels[parameter];
        if let Some(parameter) = (0..parameters).find(|&i| !self.takes(i, at(i))) {
            let level = at(parameter);
            return Ok(Reading::NotTaken { parameter, level });
        }
        let mixes = |i, j| matches!((at(i), at(j)), (2, 3) | (3, 2));
        if let Some((i, j)) = self.clashes().find(|&(i, j)| mixes(i, j)) {
            let (action, temporal) = if at(i) == 2 { (i, j) } else { (j, i) };
            return Ok(Reading::Clash { action, temporal });
        }
        let weighted = (0..parameters).filter(|&i| self.weighs(i));
        let highest = weighted.rev().max_by_key(|&i| at(i));
        Ok(match highest.filter(|&i| at(i) > self.level_at_zero()) {
            Some(parameter) => Reading::Raised {
                parameter,
                level: at(parameter),
            },
            None => Reading::AsAtZero {
                level: self.level_at_zero(),
            },
        })
    }

    /// The card in words, on one line, the parameters called by these names; where there is none,
    /// by p and the number.
    pub fn words<'c>(&'c self, names: &'c [String]) -> Words<'c> {
        Words { card: self, names }
    }
}

/// "Pair bit j(j - 1)/2 + i, for i below j and counting from 0"
fn pair_bit(i: usize, j: usize) -> usize {
    j * j.saturating_sub(1) / 2 + i
}

/// How a card gives a level at a choice of levels.
#[derive(Clone, Copy, Debug, PartialEq, Eq)]
pub enum Reading {
    /// 4: the first parameter whose level is not taken.
    NotTaken { parameter: usize, level: u8 },
    /// 4: two that clash, one at 2 and the other at 3.
    Clash { action: usize, temporal: usize },
    /// The first of the parameters that weigh that has the highest level, above that with all at 0.
    Raised { parameter: usize, level: u8 },
    /// The level with all at 0: no parameter that weighs is above it.
    AsAtZero { level: u8 },
}

impl Reading {
    pub fn level(self) -> u8 {
        match self {
            Reading::NotTaken { .. } | Reading::Clash { .. } => INCORRECT,
            Reading::Raised { level, .. } | Reading::AsAtZero { level } => level,
        }
    }
}

/// Levels at which no card of that many parameters can be read.
#[derive(Clone, Copy, Debug, PartialEq, Eq)]
pub enum BadLevels {
    /// As many levels are wanted as there are parameters.
    Count { parameters: usize, given: usize },
    /// A level is 0 to 4.
    Level { parameter: usize, level: u8 },
}

impl Display for BadLevels {
    fn fmt(&self, f: &mut Formatter) -> fmt::Result {
        match self {
            BadLevels::Count { parameters, given } => {
                write!(
                    f,
                    "{given} levels are given, and there are {parameters} parameters"
                )
            }
            BadLevels::Level { parameter, level } => {
                write!(
                    f,
                    "the level given for p{parameter} is {level}, and levels are 0 to 4"
                )
            }
        }
    }
}

impl Error for BadLevels {}

/// A card in words: the level with all at 0; of each parameter the levels taken, and whether it
/// weighs; what clashes.
pub struct Words<'c> {
    card: &'c Card,
    names: &'c [String],
}

impl Words<'_> {
    fn name(&self, parameter: usize) -> String {
        let name = self.names.get(parameter);
        name.map_or_else(|| format!("p{parameter}"), String::clone)
    }

    /// The parameters that are taken at the same levels and weigh alike, as one.
    fn groups(&self) -> Vec<Vec<usize>> {
        let kind = |each: usize| (self.card.mask(each), self.card.weighs(each));
        let mut groups: Vec<Vec<usize>> = Vec::new();
        for parameter in 0..self.card.parameters() {
            match groups
                .iter_mut()
                .find(|group| kind(group[0]) == kind(parameter))
            {
                Some(group) => group.push(parameter),
                None => groups.push(vec![parameter]),
            }
        }
        groups
    }

    fn list(&self, parameters: &[usize]) -> String {
        let names: Vec<String> = parameters.iter().map(|&each| self.name(each)).collect();
        names.join(", ")
    }

    /// Levels are digits run together.
    fn group(&self, f: &mut Formatter, group: &[usize]) -> fmt::Result {
        let taken = (0..=INCORRECT).filter(|&level| self.card.takes(group[0], level));
        let taken: String = taken.map(|level| char::from(b'0' + level)).collect();
        let taken = if taken.is_empty() { "none" } else { &taken };
        write!(f, "; {} {taken}", self.list(group))?;
        match (self.card.weighs(group[0]), group.len()) {
            (false, _) => Ok(()),
            (true, 1) => f.write_str(" weighs"),
            (true, _) => f.write_str(" weigh"),
        }
    }

    fn clashes(&self, f: &mut Formatter) -> fmt::Result {
        let pairs: Vec<(usize, usize)> = self.card.clashes().collect();
        let within = |each: &usize| pairs.iter().any(|&(i, j)| i == *each || j == *each);
        let meet: Vec<usize> = (0..self.card.parameters()).filter(within).collect();
        if meet.len() > 2 && pairs.len() == pair_bit(0, meet.len()) {
            return write!(f, "; any two of {} clash", self.list(&meet));
        }
        for (place, (i, j)) in pairs.into_iter().enumerate() {
            let before = if place == 0 { "; clash" } else { "," };
            write!(f, "{before} {}/{}", self.name(i), self.name(j))?;
        }
        Ok(())
    }
}

impl Display for Words<'_> {
    fn fmt(&self, f: &mut Formatter) -> fmt::Result {
        write!(f, "level {}", self.card.level_at_zero())?;
        for group in self.groups() {
            self.group(f, &group)?;
        }
        self.clashes(f)
    }
}

impl Display for Card {
    fn fmt(&self, f: &mut Formatter) -> fmt::Result {
        Display::fmt(&self.words(&[]), f)
    }
}

impl Debug for Card {
    fn fmt(&self, f: &mut Formatter) -> fmt::Result {
        write!(f, "Card({self:x}: {self})")
    }
}

/// The 32 digits of the listing.
impl LowerHex for Card {
    fn fmt(&self, f: &mut Formatter) -> fmt::Result {
        let mut bytes = self.bytes.iter();
        bytes.try_for_each(|byte| write!(f, "{byte:02x}"))
    }
}

#[cfg(test)]
mod tests;
