//! Every limit of the checker, fixed by name in one place.

/// The limits of the checker.
pub struct Limits;

impl Limits {
    /// Most bytes of a file.
    pub const FILE: usize = 32_768;
    /// Most modules of a file.
    pub const MODULES: usize = 16;
    /// Most declarations of a file.
    pub const DECLARATIONS: usize = 64;
    /// Most definitions of a file.
    pub const DEFINITIONS: usize = 256;
    /// Most parameters or arguments of an operator.
    pub const PARAMETERS: usize = 8;
    /// Deepest nesting of a written expression.
    pub const NESTING: usize = 32;
    /// Bytes of one card.
    pub const CARD: usize = 16;
    /// Bytes of card memory that a caller has to lend.
    pub const CARDS: usize = Self::CARD * Self::DEFINITIONS;
    /// Longest expansion, in bytes.
    pub const EXPANSION: usize = 65_535;
    /// Most parameters of a piece of text read inside instances: those of the instances around
    /// it (at most 8, since they bring a definition) and the arguments of a substitute (at most 8).
    pub const SLOTS: usize = 2 * Self::PARAMETERS;
}
