//! Spellings: a table for names of modules, one for names of operators and instances, and the
//! spellings of parameters and bound variables.

use crate::ast::Space;
use std::collections::{BTreeMap, HashMap};
use std::fmt;

/// Words that are no names: those of the notation, and words of TLA+ that it leaves out.
const RESERVED: &[&str] = &[
    "ASSUME",
    "ASSUMPTION",
    "AXIOM",
    "CASE",
    "CHOOSE",
    "CONSTANT",
    "CONSTANTS",
    "DOMAIN",
    "ELSE",
    "ENABLED",
    "EXCEPT",
    "EXTENDS",
    "IF",
    "IN",
    "INSTANCE",
    "LAMBDA",
    "LET",
    "LOCAL",
    "MODULE",
    "MODULES",
    "NAMES",
    "OPERATORS",
    "OTHER",
    "RECURSIVE",
    "SUBSET",
    "THEN",
    "THEOREM",
    "UNCHANGED",
    "UNION",
    "VARIABLE",
    "VARIABLES",
    "WITH",
];

/// Whether the word is kept from being a name.
pub(crate) fn reserved(word: &str) -> bool {
    RESERVED.binary_search(&word).is_ok()
        || word.starts_with("WF_")
        || word.starts_with("SF_")
        || numbered(word, "op").is_some()
        || numbered(word, "bind").is_some()
}

/// The digits of a word that is a stem followed by digits only.
pub(crate) fn numbered<'w>(word: &'w str, stem: &str) -> Option<&'w str> {
    let digits = word.strip_prefix(stem)?;
    (!digits.is_empty() && digits.bytes().all(|byte| byte.is_ascii_digit())).then_some(digits)
}

/// The number that a word of the form `n12` stands for under a NAMES header.
pub(crate) fn plain_number(word: &str) -> Option<u16> {
    let digits = numbered(word, "n").filter(|digits| !digits.starts_with('0'))?;
    digits.parse().ok()
}

/// Whether a local name has the form of an invented one (`p0`, `x12_`); such spellings are not
/// kept.
pub(crate) fn invented(word: &str) -> bool {
    let stem = word.trim_end_matches('_');
    numbered(stem, "p").is_some() || numbered(stem, "x").is_some()
}

/// Whether the word can be a name: letters, digits and `_`, not beginning with a digit, with at
/// least one letter, and not reserved.
pub(crate) fn identifier(word: &str) -> bool {
    word.bytes()
        .all(|byte| byte.is_ascii_alphanumeric() || byte == b'_')
        && !word.starts_with(|first: char| first.is_ascii_digit())
        && word.bytes().any(|byte| byte.is_ascii_alphabetic())
        && !reserved(word)
}

/// Why a spelling was not taken.
#[derive(Clone, Copy, Debug, PartialEq, Eq)]
pub enum NameFault {
    /// It is not an identifier, or it is a reserved word.
    NotAnIdentifier,
    /// The number is 0.
    NumberZero,
    /// Another number of the space has this spelling.
    SpellingTaken,
    /// The number has another spelling.
    NumberTaken,
}

impl fmt::Display for NameFault {
    fn fmt(&self, f: &mut fmt::Formatter<'_>) -> fmt::Result {
        f.write_str(match self {
            NameFault::NotAnIdentifier => "not an identifier, or a reserved word",
            NameFault::NumberZero => "a name is never 0",
            NameFault::SpellingTaken => "another number has this spelling",
            NameFault::NumberTaken => "the number has another spelling",
        })
    }
}

impl std::error::Error for NameFault {}

#[derive(Clone, Debug, Default, PartialEq, Eq)]
struct Table {
    spellings: BTreeMap<u16, String>,
    numbers: HashMap<String, u16>,
}

/// The spellings known for the names of a file. Any may be missing.
#[derive(Clone, Debug, Default, PartialEq, Eq)]
pub struct Names {
    modules: Table,
    operators: Table,
    /// By the number of the field and the place among the field's local names: its parameters,
    /// then, substitute by substitute, those of the substituted name and the bound variables.
    locals: BTreeMap<(usize, usize), String>,
}

impl Names {
    /// A table without spellings.
    pub fn new() -> Names {
        Names::default()
    }

    fn table(&self, space: Space) -> &Table {
        match space {
            Space::Modules => &self.modules,
            Space::Operators => &self.operators,
        }
    }

    /// The spelling of a name.
    pub fn spelling(&self, space: Space, number: u16) -> Option<&str> {
        self.table(space).spellings.get(&number).map(String::as_str)
    }

    /// The number of a spelling.
    pub fn number(&self, space: Space, spelling: &str) -> Option<u16> {
        self.table(space).numbers.get(spelling).copied()
    }

    /// All names of a space that have a spelling, by number.
    pub fn all(&self, space: Space) -> impl Iterator<Item = (u16, &str)> {
        let spellings = self.table(space).spellings.iter();
        spellings.map(|(&number, spelling)| (number, spelling.as_str()))
    }

    /// How many names of a space have a spelling.
    pub fn count(&self, space: Space) -> usize {
        self.table(space).spellings.len()
    }

    /// Gives a name its spelling.
    pub fn set(&mut self, space: Space, number: u16, spelling: &str) -> Result<(), NameFault> {
        if number == 0 {
            return Err(NameFault::NumberZero);
        }
        if !identifier(spelling) {
            return Err(NameFault::NotAnIdentifier);
        }
        let table = match space {
            Space::Modules => &mut self.modules,
            Space::Operators => &mut self.operators,
        };
        if table.numbers.contains_key(spelling) {
            return Err(NameFault::SpellingTaken);
        }
        if table.spellings.contains_key(&number) {
            return Err(NameFault::NumberTaken);
        }
        table.spellings.insert(number, spelling.to_string());
        table.numbers.insert(spelling.to_string(), number);
        Ok(())
    }

    /// The spelling of a parameter or bound variable, by the number of its field and its place
    /// among the field's local names.
    pub fn local(&self, field: usize, place: usize) -> Option<&str> {
        self.locals.get(&(field, place)).map(String::as_str)
    }

    pub(crate) fn set_local(&mut self, field: usize, place: usize, spelling: &str) {
        self.locals.insert((field, place), spelling.to_string());
    }

    /// Gives every name another number.
    pub(crate) fn renumber(&mut self, number: impl Fn(Space, u16) -> Option<u16>) {
        for (space, table) in [
            (Space::Modules, &mut self.modules),
            (Space::Operators, &mut self.operators),
        ] {
            let old = std::mem::take(table);
            for (was, spelling) in old.spellings {
                if let Some(now) = number(space, was) {
                    table.numbers.insert(spelling.clone(), now);
                    table.spellings.insert(now, spelling);
                }
            }
        }
    }

    /// Forgets the spellings of parameters and bound variables.
    pub fn forget_locals(&mut self) {
        self.locals.clear();
    }
}

#[cfg(test)]
mod tests {
    use super::*;

    #[test]
    fn reserved_words_are_sorted() {
        assert!(RESERVED.windows(2).all(|pair| pair[0] < pair[1]));
    }

    #[test]
    fn identifiers() {
        for good in [
            "x", "_x", "x1", "Depth_2", "opx", "n12", "WF", "op", "binder1",
        ] {
            assert!(identifier(good), "{good}");
        }
        for bad in [
            "", "_", "__", "_1", "1x", "x-y", "op3", "bind128", "WF_x", "SF_", "LET", "é",
        ] {
            assert!(!identifier(bad), "{bad}");
        }
        assert_eq!(plain_number("n12"), Some(12));
        assert_eq!(plain_number("n65535"), Some(65535));
        for other in ["n0", "n012", "n65536", "n", "m1", "n1x"] {
            assert_eq!(plain_number(other), None, "{other}");
        }
        assert!(invented("p0") && invented("x12__") && !invented("x") && !invented("px1"));
    }

    #[test]
    fn spellings_are_one_to_one() {
        let mut names = Names::new();
        let space = Space::Operators;
        assert_eq!(names.set(space, 3, "x"), Ok(()));
        assert_eq!(names.set(space, 4, "x"), Err(NameFault::SpellingTaken));
        assert_eq!(names.set(space, 3, "y"), Err(NameFault::NumberTaken));
        assert_eq!(names.set(space, 0, "y"), Err(NameFault::NumberZero));
        assert_eq!(names.set(space, 5, "LET"), Err(NameFault::NotAnIdentifier));
        assert_eq!(names.set(Space::Modules, 4, "x"), Ok(()));
        assert_eq!(names.spelling(space, 3), Some("x"));
        assert_eq!(names.number(Space::Modules, "x"), Some(4));
    }
}
