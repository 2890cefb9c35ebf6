//! Built-in codes: how many arguments each takes, and how each is spelled.

/// The first code of a binder.
pub const BINDERS: u8 = 128;
/// The first code of a binder over a set.
pub const SET_BINDERS: u8 = 132;
/// The first code of a temporal binder.
pub const TEMPORAL_BINDERS: u8 = 140;
/// Conjunction.
pub const AND: u8 = 49;
/// Disjunction.
pub const OR: u8 = 50;
/// [A]_v.
pub const SQUARE: u8 = 115;
/// <<A>>_v.
pub const ANGLE: u8 = 116;

pub(crate) const PRIME: u8 = 112;
pub(crate) const BOX: u8 = 118;
pub(crate) const DIAMOND: u8 = 119;
pub(crate) const BOX_SQUARE: u8 = 120;
pub(crate) const DIAMOND_ANGLE: u8 = 121;
pub(crate) const WEAK: u8 = 124;
pub(crate) const STRONG: u8 = 125;

/// The number of arguments that a built-in takes, `None` if no built-in has the code.
pub fn arguments(code: u8) -> Option<usize> {
    match code {
        0..=15 => Some(0),
        16..=47 => Some(1),
        48..=95 => Some(2),
        96..=103 => Some(3),
        112..=114 => Some(1),
        115..=117 => Some(2),
        118..=119 => Some(1),
        120..=125 => Some(2),
        128..=131 => Some(1),
        132..=139 => Some(2),
        140..=141 => Some(1),
        _ => None,
    }
}

/// Whether the code is a binder's: its last argument is its body.
pub fn binds(code: u8) -> bool {
    (BINDERS..=141).contains(&code)
}

/// Whether the code is that of a binder over a set: its first argument is the set.
pub fn binds_over_set(code: u8) -> bool {
    (SET_BINDERS..TEMPORAL_BINDERS).contains(&code)
}

/// How tightly a form holds together; operators of a higher rank bind tighter.
pub(crate) mod rank {
    pub const BINDER: u8 = 0;
    pub const LEADS: u8 = 1;
    pub const JUNCTION: u8 = 2;
    pub const PREFIX: u8 = 3;
    pub const RELATION: u8 = 4;
    pub const COMPOSITION: u8 = 5;
    pub const SUM: u8 = 6;
    pub const PRODUCT: u8 = 7;
    pub const ATOM: u8 = 8;
}

/// The spelling and rank of an infix operator.
pub(crate) fn infix(code: u8) -> Option<(&'static str, u8)> {
    Some(match code {
        48 => ("=", rank::RELATION),
        AND => ("/\\", rank::JUNCTION),
        OR => ("\\/", rank::JUNCTION),
        51 => ("#", rank::RELATION),
        52 => ("+", rank::SUM),
        53 => (">", rank::RELATION),
        54 => ("*", rank::PRODUCT),
        117 => ("\\cdot", rank::COMPOSITION),
        122 => ("~>", rank::LEADS),
        123 => ("-+->", rank::LEADS),
        _ => return None,
    })
}

/// The spelling of a prefix operator, as it is put before its argument.
pub(crate) fn prefix(code: u8) -> Option<&'static str> {
    Some(match code {
        113 => "ENABLED ",
        114 => "UNCHANGED ",
        BOX => "[]",
        DIAMOND => "<>",
        _ => return None,
    })
}

/// The spelling of a binder.
pub(crate) fn binder(code: u8) -> String {
    match code {
        128 | 132 => "\\E".to_string(),
        129 | 133 => "\\A".to_string(),
        130 | 134 => "CHOOSE".to_string(),
        140 => "\\EE".to_string(),
        141 => "\\AA".to_string(),
        _ => format!("bind{code}"),
    }
}
