//! Cards: found by probing an expression's levels as L7 words it, and read at a vector of levels.

use crate::limits::Limits;

/// A card: "byte 0 the parameter count, 1 the level with all at 0, 2 the weights, 3 to 10 a mask of levels
/// taken per parameter, 11 to 14 the pairs (big-endian), 15 zero."
#[derive(Clone, Copy, Debug, PartialEq, Eq, Hash)]
pub struct Card([u8; Limits::CARD]);

const LEVEL: usize = 1;
const WEIGHTS: usize = 2;
const MASKS: usize = 3;
const PAIRS: usize = 11;

/// The bit of a pair of parameters, `i` below `j`.
fn pair_bit(i: usize, j: usize) -> u32 {
    1 << (j * (j - 1) / 2 + i)
}

impl Card {
    /// The card of an expression over so many parameters, given its level at any vector.
    pub fn probed(parameters: usize, level_at: impl Fn(&[u8]) -> u8) -> Self {
        let at = |places: &[(usize, u8)]| {
            let mut levels = [0; Limits::PARAMETERS];
            for &(parameter, level) in places {
                levels[parameter] = level;
            }
            level_at(&levels[..parameters])
        };
        let mut bytes = [0; Limits::CARD];
        let zero = at(&[]);
        bytes[0] = parameters as u8;
        bytes[LEVEL] = zero;
        for i in 0..parameters {
            for level in 0..=4 {
                let alone = at(&[(i, level)]);
                // "Bit l of a mask is set if the parameter at l, others at 0, is not 4."
                let taken = alone != 4;
                bytes[MASKS + i] |= (taken as u8) << level;
                // "A weight bit i is set if some taken level of parameter i, others at 0, raises the level."
                let raises = taken && alone > zero;
                bytes[WEIGHTS] |= (raises as u8) << i;
            }
        }
        let mut pairs = 0u32;
        for j in 0..parameters {
            for i in 0..j {
                // "... if one at 2 and the other at 3, others at 0, gives 4 though each alone does not."
                let mix = |action, temporal| {
                    let (two, three) = ((action, 2), (temporal, 3));
                    at(&[two, three]) == 4 && at(&[two]) != 4 && at(&[three]) != 4
                };
                if mix(i, j) || mix(j, i) {
                    pairs |= pair_bit(i, j);
                }
            }
        }
        bytes[PAIRS..PAIRS + 4].copy_from_slice(&pairs.to_be_bytes());
        Card(bytes)
    }

    pub fn of(bytes: [u8; Limits::CARD]) -> Self {
        Card(bytes)
    }

    pub fn bytes(&self) -> &[u8; Limits::CARD] {
        &self.0
    }

    /// The level with all parameters at 0.
    pub fn at_zero(&self) -> u8 {
        self.0[LEVEL]
    }

    /// "The level at any vector is 4 if a level is not taken or a set pair holds a 2 and a 3; else the highest
    /// of byte 1 and the weighted levels."
    pub fn at(&self, levels: &[u8]) -> u8 {
        let [.., a, b, c, d, _] = self.0;
        let pairs = u32::from_be_bytes([a, b, c, d]);
        let mut highest = self.0[LEVEL];
        for (j, &level) in levels.iter().enumerate() {
            if self.0[MASKS + j] >> level & 1 == 0 {
                return 4;
            }
            for (i, &other) in levels[..j].iter().enumerate() {
                let holds = matches!((other, level), (2, 3) | (3, 2));
                if holds && pairs & pair_bit(i, j) != 0 {
                    return 4;
                }
            }
            if self.0[WEIGHTS] >> j & 1 == 1 {
                highest = highest.max(level);
            }
        }
        highest
    }
}
