//! The table of built-in operators as the generator sees it.

/// Arguments of a built-in, 3 at most.
#[derive(Clone, Copy, Debug)]
pub struct Row {
    pub arguments: usize,
    /// For each argument a mask: bit l is set if level l is taken.
    pub takes: [u8; 3],
    /// The level given, or `None` for the highest of the arguments, which is 4 of a 2 and a 3.
    pub gives: Option<u8>,
    /// The level of the variable bound in the last argument.
    pub binds: Option<u8>,
}

const ANY: u8 = 0b01111;
const STATE: u8 = 0b00011;
const ACTION: u8 = 0b00111;
const NO_ACTION: u8 = 0b01011;

/// The codes that exist.
pub fn codes() -> impl Iterator<Item = u8> {
    (0..=u8::MAX).filter(|&code| row(code).is_some())
}

/// The codes that do not exist.
pub fn unknown_codes() -> Vec<u8> {
    (0..=u8::MAX).filter(|&code| row(code).is_none()).collect()
}

/// Codes that do not exist, beside those that do, each with as many arguments as its neighbour.
pub const BESIDE: [(u8, usize); 5] = [(104, 3), (111, 1), (126, 2), (127, 1), (142, 1)];

/// The row of a code, if there is one.
pub fn row(code: u8) -> Option<Row> {
    let make = |arguments, takes, gives, binds| {
        Some(Row {
            arguments,
            takes,
            gives,
            binds,
        })
    };
    let plain = |arguments| make(arguments, [ANY; 3], None, None);
    match code {
        0..=15 => plain(0),
        16..=47 => plain(1),
        48..=95 => plain(2),
        96..=103 => plain(3),
        112 | 114 => make(1, [STATE; 3], Some(2), None),
        113 => make(1, [ACTION; 3], Some(1), None),
        115 | 116 => make(2, [ACTION, STATE, ANY], Some(2), None),
        117 => make(2, [ACTION; 3], Some(2), None),
        118 | 119 => make(1, [NO_ACTION; 3], Some(3), None),
        120 | 121 => make(2, [ACTION, STATE, ANY], Some(3), None),
        122 | 123 => make(2, [NO_ACTION; 3], Some(3), None),
        124 | 125 => make(2, [STATE, ACTION, ANY], Some(3), None),
        128..=131 => make(1, [ANY; 3], None, Some(0)),
        132..=139 => make(2, [ANY; 3], None, Some(0)),
        140 | 141 => make(1, [NO_ACTION; 3], Some(3), Some(1)),
        _ => None,
    }
}

impl Row {
    /// The level of the variable bound in this argument, if one is.
    pub fn binds_in(&self, argument: usize) -> Option<u8> {
        self.binds.filter(|_| argument + 1 == self.arguments)
    }

    /// The level over arguments of these levels.
    pub fn level(&self, levels: &[u8]) -> u8 {
        let taken = levels.iter().zip(self.takes).all(|(l, t)| t >> l & 1 == 1);
        if !taken {
            return 4;
        }
        self.gives.unwrap_or_else(|| highest(levels))
    }
}

/// Whether levels hold both a 2 and a 3.
pub fn mixed(levels: &[u8]) -> bool {
    levels.contains(&2) && levels.contains(&3)
}

/// The highest of some levels, 0 if there are none: action and temporal do not mix.
pub fn highest(levels: &[u8]) -> u8 {
    match mixed(levels) {
        true => 4,
        false => levels.iter().copied().max().unwrap_or(0),
    }
}

#[cfg(test)]
mod tests {
    use super::*;

    #[test]
    fn codes_beside_are_unknown() {
        let unknown = unknown_codes();
        for (code, arguments) in BESIDE {
            assert!(unknown.contains(&code), "code {code}");
            let mut neighbours = [code - 1, code + 1].into_iter().filter_map(row);
            assert!(
                neighbours.any(|row| row.arguments == arguments),
                "code {code}"
            );
        }
    }
}
