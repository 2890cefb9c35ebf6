//! Cards as the second judge works them out and the generator reads them: L7 once more, in other words than
//! the reference's. It may be misread on purpose.

use crate::book::Misreading;

/// Bytes of a card.
pub const CARD: usize = 16;
/// Bytes of card memory that a checker needs.
pub const CARDS: usize = 4_096;
/// Most parameters or arguments.
pub const MOST: usize = 8;

/// Every pair of parameters in the order of their bits.
pub fn pairs(count: usize) -> impl Iterator<Item = (usize, usize)> {
    (1..count).flat_map(|second| (0..second).map(move |first| (first, second)))
}

/// The pairs of a card as one number.
pub fn pair_bits(card: &[u8]) -> u32 {
    card[11..15]
        .iter()
        .fold(0, |all, &byte| all << 8 | byte as u32)
}

/// The level that a card says at a vector.
pub fn read(card: &[u8], levels: &[u8]) -> u8 {
    let taken = |(mask, &level): (&u8, &u8)| mask & 1 << level != 0;
    let bits = pair_bits(card);
    let mut held = pairs(levels.len()).enumerate();
    let mixed = held.any(|(bit, (first, second))| {
        let both = levels[first] * levels[second] == 6 && levels[first] < 4 && levels[second] < 4;
        bits >> bit & 1 == 1 && both
    });
    if mixed || !card[3..].iter().zip(levels).all(taken) {
        return 4;
    }
    let weighted = levels.iter().enumerate();
    let weighted = weighted.filter(|(at, _)| card[2] >> at & 1 == 1);
    weighted.map(|(_, &level)| level).fold(card[1], u8::max)
}

/// Whether the parameter of this number is dropped: even 4 is taken.
pub fn drops(card: &[u8], parameter: usize) -> bool {
    card[3 + parameter] == 31
}

/// The card of a definition of so many parameters, from its level at any vector.
pub fn write(
    count: usize,
    misreading: Option<Misreading>,
    level: impl Fn(&[u8]) -> u8,
) -> [u8; CARD] {
    let probe = Probe {
        count,
        misreading,
        level,
    };
    let mut card = [0; CARD];
    (card[0], card[1]) = (count as u8, probe.with(&[]));
    for at in 0..count {
        card[3 + at] = probe.mask(at);
        card[2] |= probe.weight(at);
    }
    let bits = probe.pairs();
    card[11..15].copy_from_slice(&match misreading {
        Some(Misreading::PairsLowFirst) => bits.to_le_bytes(),
        _ => bits.to_be_bytes(),
    });
    match misreading {
        Some(Misreading::MasksBeyond) => card[3 + count..11].fill(31),
        Some(Misreading::CountLast) => card.swap(0, 15),
        _ => (),
    }
    card
}

/// Levels of a definition at vectors of few levels other than 0.
struct Probe<L> {
    count: usize,
    misreading: Option<Misreading>,
    level: L,
}

impl<L: Fn(&[u8]) -> u8> Probe<L> {
    fn with(&self, changes: &[(usize, u8)]) -> u8 {
        let mut levels = [0; MOST];
        changes.iter().for_each(|&(at, value)| levels[at] = value);
        (self.level)(&levels[..self.count])
    }

    fn mask(&self, at: usize) -> u8 {
        let taken = (0..5).filter(|&value| self.with(&[(at, value)]) < 4);
        let mask = taken.fold(0u8, |all, value| all | 1 << value);
        match self.misreading {
            Some(Misreading::MaskIsCeiling) if mask > 0 => u8::MAX >> mask.leading_zeros(),
            Some(Misreading::FourNeverTaken) => mask & 15,
            _ => mask,
        }
    }

    /// The weight of a parameter, as its bit.
    fn weight(&self, at: usize) -> u8 {
        let alone: Vec<u8> = (0..5).map(|value| self.with(&[(at, value)])).collect();
        let mut raised = alone.iter().filter(|&&level| level > alone[0]);
        let raises = match self.misreading {
            Some(Misreading::WeighsIfUsed) => alone[4] == 4,
            Some(Misreading::FourWeighs) => raised.next().is_some(),
            _ => raised.any(|&level| level < 4),
        };
        let bit = match self.misreading {
            Some(Misreading::WeightsTurned) => MOST - 1 - at,
            _ => at,
        };
        u8::from(raises) << bit
    }

    fn pairs(&self) -> u32 {
        let mut bits = 0;
        for (number, (first, second)) in pairs(self.count).enumerate() {
            let set = match self.misreading {
                Some(Misreading::OneCeiling) => false,
                Some(Misreading::ActionFirst) => self.meets(first, second),
                Some(Misreading::TemporalFirst) => self.meets(second, first),
                Some(Misreading::BothWays) => {
                    self.meets(first, second) && self.meets(second, first)
                }
                _ => self.meets(first, second) || self.meets(second, first),
            };
            let bit = match self.misreading {
                Some(Misreading::PairsByRow) => {
                    let mut rows = (0..MOST).flat_map(|i| (i + 1..MOST).map(move |j| (i, j)));
                    let found = rows.position(|pair| pair == (first, second));
                    found.expect("a pair")
                }
                _ => number,
            };
            bits |= u32::from(set) << bit;
        }
        bits
    }

    /// Whether 2 for the one and 3 for the other give 4 though each alone does not.
    fn meets(&self, action: usize, temporal: usize) -> bool {
        let (two, three) = ((action, 2), (temporal, 3));
        let each = self.with(&[two]) < 4 && self.with(&[three]) < 4;
        let though = self.misreading == Some(Misreading::PairsThoughAlone);
        self.with(&[two, three]) == 4 && (each || though)
    }
}

#[cfg(test)]
mod tests {
    use super::*;

    /// The two ways of reading and of writing a card agree, on levels that no body has too.
    #[test]
    fn as_the_reference_reads_them() {
        let file = [1, 0, 2, 0, 1, 5, 0, 9, 0, 3, 2, 4, 49, 0, 0, 0, 1, 7, 0, 0];
        let mut lent = [0; CARDS];
        assert_eq!(reference::check(&file, &mut lent), Ok(1));
        let highest = |levels: &[u8]| crate::rows::highest(levels);
        assert_eq!(lent[..CARD], write(2, None, highest));
        for levels in reference::vectors(2) {
            assert_eq!(read(&lent, levels), highest(levels));
        }
        let eight = write(8, None, highest);
        assert_eq!(eight[11..15], [15, 255, 255, 255]);
        for levels in reference::vectors(8) {
            assert_eq!(read(&eight, levels), highest(levels));
        }
        assert!(pairs(8)
            .enumerate()
            .all(|(bit, (i, j))| j * (j - 1) / 2 + i == bit));
    }
}
