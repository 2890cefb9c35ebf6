//! Causes and refusals.

/// What can be wrong with a file or a query. The order in which causes are judged is that of `judge`
/// and `queries`; a number says nothing of it. The number 15 is not used.
#[derive(Clone, Copy, Debug, PartialEq, Eq)]
#[repr(u32)]
pub enum Cause {
    CardMemory = 1,
    FileSize = 2,
    Layout = 3,
    Order = 4,
    Limit = 5,
    ModuleNameUsed = 6,
    ModuleNotEnded = 7,
    NameTaken = 8,
    Unknown = 9,
    ArgumentCount = 10,
    Substitution = 11,
    NotLevelCorrect = 12,
    AssumeLevel = 13,
    SubstituteLevel = 14,
    NamedInstance = 16,
    NoSuch = 17,
    TooLong = 18,
    MixedSubstitutes = 21,
}

impl Cause {
    /// The refusal for this cause at a place.
    pub fn at(self, place: usize) -> Refusal {
        Refusal {
            number: self as u32,
            place: place as u32,
        }
    }
}

/// A numbered refusal and its place.
#[derive(Clone, Copy, Debug, PartialEq, Eq)]
pub struct Refusal {
    pub number: u32,
    pub place: u32,
}
