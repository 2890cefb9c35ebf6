//! The table of built-in operators.

/// Which levels an argument may have.
#[derive(Clone, Copy, Debug, PartialEq, Eq)]
pub enum Takes {
    /// Any level but 4, which comes through.
    Any,
    /// At most this level.
    AtMost(u8),
    /// Constant, state or temporal: 0, 1 or 3.
    NoTransition,
}

/// The level of an application whose arguments are taken.
#[derive(Clone, Copy, Debug, PartialEq, Eq)]
pub enum Gives {
    /// The highest level of the arguments, 0 if there are none, and 4 of a 2 and a 3.
    Highest,
    /// This level.
    Always(u8),
}

impl Takes {
    /// Whether an argument may have this level.
    pub fn takes(self, level: u8) -> bool {
        match self {
            Takes::Any => level <= 3,
            Takes::AtMost(most) => level <= most,
            Takes::NoTransition => matches!(level, 0 | 1 | 3),
        }
    }
}

/// The higher of two levels. Action and temporal do not mix: of 2 and 3 it is 4.
#[inline]
pub const fn higher(a: u8, b: u8) -> u8 {
    match (a, b) {
        (2, 3) | (3, 2) => 4,
        _ if a > b => a,
        _ => b,
    }
}

/// One row of the table.
#[derive(Clone, Copy, Debug, PartialEq, Eq)]
pub struct Row {
    pub arguments: u8,
    pub takes: [Takes; 3],
    pub gives: Gives,
    /// The level of the bound variable; its scope is the last argument.
    pub binds: Option<u8>,
}

impl Row {
    const fn plain(arguments: u8) -> Option<Row> {
        Some(Row {
            arguments,
            takes: [Takes::Any; 3],
            gives: Gives::Highest,
            binds: None,
        })
    }

    const fn one(takes: Takes, level: u8) -> Option<Row> {
        Some(Row {
            arguments: 1,
            takes: [takes, Takes::Any, Takes::Any],
            gives: Gives::Always(level),
            binds: None,
        })
    }

    const fn two(first: Takes, second: Takes, level: u8) -> Option<Row> {
        Some(Row {
            arguments: 2,
            takes: [first, second, Takes::Any],
            gives: Gives::Always(level),
            binds: None,
        })
    }

    const fn binding(self, level: u8) -> Option<Row> {
        Some(Row {
            binds: Some(level),
            ..self
        })
    }

    /// The level of the variable that this row binds in the argument, if it binds one there.
    pub fn binds_in(&self, argument: usize) -> Option<u8> {
        if argument + 1 == self.arguments as usize {
            self.binds
        } else {
            None
        }
    }

    /// The level of an application to arguments of the given levels.
    pub fn level(&self, arguments: &[u8]) -> u8 {
        let mut highest = 0;
        for (&level, takes) in arguments.iter().zip(&self.takes) {
            if !takes.takes(level) {
                return 4;
            }
            highest = higher(highest, level);
        }
        match self.gives {
            Gives::Highest => highest,
            Gives::Always(level) => level,
        }
    }
}

const fn make(code: u8) -> Option<Row> {
    use Takes::{AtMost, NoTransition};
    const fn some(row: Option<Row>) -> Row {
        match row {
            Some(row) => row,
            None => panic!("a row"),
        }
    }
    match code {
        0..=15 => Row::plain(0),
        16..=47 => Row::plain(1),
        48..=95 => Row::plain(2),
        96..=103 => Row::plain(3),
        112 | 114 => Row::one(AtMost(1), 2),
        113 => Row::one(AtMost(2), 1),
        115 | 116 => Row::two(AtMost(2), AtMost(1), 2),
        117 => Row::two(AtMost(2), AtMost(2), 2),
        118 | 119 => Row::one(NoTransition, 3),
        120 | 121 => Row::two(AtMost(2), AtMost(1), 3),
        122 | 123 => Row::two(NoTransition, NoTransition, 3),
        124 | 125 => Row::two(AtMost(1), AtMost(2), 3),
        128..=131 => some(Row::plain(1)).binding(0),
        132..=139 => some(Row::plain(2)).binding(0),
        140 | 141 => some(Row::one(NoTransition, 3)).binding(1),
        _ => None,
    }
}

static ROWS: [Option<Row>; 256] = {
    let mut rows = [None; 256];
    let mut code = 0;
    while code < 256 {
        rows[code] = make(code as u8);
        code += 1;
    }
    rows
};

/// The row of a code, if the code exists.
#[inline]
pub fn row(code: u8) -> Option<&'static Row> {
    ROWS[code as usize].as_ref()
}

/// The row of a code that is known to exist.
#[inline]
pub fn known(code: u8) -> &'static Row {
    row(code).expect("codes without a row are turned down by the layout")
}
