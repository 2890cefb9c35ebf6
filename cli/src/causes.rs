//! The numbers of refusals in words, each cause with the smallest file that shows it.

/// The smallest file that is refused by a number.
pub enum Example {
    /// In the readable notation.
    Text(&'static str),
    /// Bytes that have no readable form.
    Bytes(&'static [u8]),
    /// No file alone shows it.
    None,
}

pub struct Cause {
    pub number: u32,
    /// The cause as the table of refusals has it.
    pub title: &'static str,
    pub meaning: &'static str,
    pub example: Example,
}

/// A number that no refusal has any more. It is no cause, and nothing is refused with it.
pub struct Unused {
    pub number: u32,
    /// What it meant, and why it cannot arise.
    pub meaning: &'static str,
}

/// What a number is.
pub enum Numbered {
    Cause(&'static Cause),
    Unused(&'static Unused),
}

/// What a number is, if it is or was a cause's.
pub fn numbered(number: u32) -> Option<Numbered> {
    if number == UNUSED.number {
        return Some(Numbered::Unused(&UNUSED));
    }
    cause(number).map(Numbered::Cause)
}

fn cause(number: u32) -> Option<&'static Cause> {
    CAUSES.iter().find(|cause| cause.number == number)
}

/// The cause of a refusal, as the table has it.
pub fn title(number: u32) -> &'static str {
    cause(number).map_or(UNKNOWN, |cause| cause.title)
}

/// Of a refusal by another archive than the one that these words are for.
const UNKNOWN: &str = "this program knows no cause with that number";

/// Levels 0 to 4.
pub const LEVELS: [&str; 5] = [
    "constant",
    "state",
    "transition",
    "temporal",
    "not level-correct",
];

/// A level with its word.
pub fn level(level: u8) -> String {
    match LEVELS.get(usize::from(level)) {
        Some(word) => format!("level {level} ({word})"),
        None => format!("level {level}"),
    }
}

/// What a built-in takes, if it does not take every level.
pub fn takes(code: u8) -> Option<&'static str> {
    Some(match code {
        112 => "' takes level 0 or 1",
        113 => "ENABLED takes level 0, 1 or 2",
        114 => "UNCHANGED takes level 0 or 1",
        115 => "[A]_v takes A at level 0, 1 or 2 and v at level 0 or 1",
        116 => "<<A>>_v takes A at level 0, 1 or 2 and v at level 0 or 1",
        117 => "\\cdot takes level 0, 1 or 2 on both sides",
        118 => "[] takes level 0, 1 or 3",
        119 => "<> takes level 0, 1 or 3",
        120 => "[][A]_v takes A at level 0, 1 or 2 and v at level 0 or 1",
        121 => "<><<A>>_v takes A at level 0, 1 or 2 and v at level 0 or 1",
        122 => "~> takes level 0, 1 or 3 on both sides",
        123 => "-+-> takes level 0, 1 or 3 on both sides",
        124 => "WF_v(A) takes v at level 0 or 1 and A at level 0, 1 or 2",
        125 => "SF_v(A) takes v at level 0 or 1 and A at level 0, 1 or 2",
        140 => "\\EE takes a body at level 0, 1 or 3",
        141 => "\\AA takes a body at level 0, 1 or 3",
        _ => return None,
    })
}

/// In the order in which they are judged.
const CAUSES: [Cause; 18] = [
    Cause {
        number: 1,
        title: "card memory under 4,096 bytes",
        meaning: "The caller lends the checker too little memory for the cards: 16 bytes for each of \
            256 definitions. Nothing is read and nothing is written. The programs here always lend enough; a program that calls the \
            archive itself may not.",
        example: Example::None,
    },
    Cause {
        number: 2,
        title: "file empty or over its limit",
        meaning: "A file has 1 to 32,768 bytes.",
        example: Example::Bytes(&[]),
    },
    Cause {
        number: 3,
        title: "layout: cut short, left over, an unknown tag, token or code, name 0, or an unnamed instance with parameters",
        meaning: "The bytes are not fields. A field is a tag from 1 to 9, a two-byte length and that \
            many bytes, which must be exactly what the tag asks for; an expression has every \
            argument that its tokens ask for and nothing more; a name is never 0; an instance \
            without a name has no parameters.",
        example: Example::Bytes(&[0]),
    },
    Cause {
        number: 4,
        title: "field outside its order, or the file ends inside a module",
        meaning: "A module begins with its module field and ends with its end field; all else stands \
            between them, and EXTENDS only right after the module field. Modules are not nested, \
            and the last one must end.",
        example: Example::Text("====\n"),
    },
    Cause {
        number: 5,
        title: "a limit passed",
        meaning: "16 modules, 64 declarations and 256 definitions in a file (those that instances \
            bring counted), 8 parameters or arguments (an instance's and an operator's own added \
            together, and likewise an instance's and those of an operator that it replaces), and \
            nesting 32 in an expression.",
        example: Example::Text("---- MODULE M ----\nCONSTANT K(_, _, _, _, _, _, _, _, _)\n"),
    },
    Cause {
        number: 6,
        title: "module name used before",
        meaning: "Two modules of a file have one name.",
        example: Example::Text("---- MODULE M ----\n====\n---- MODULE M ----\n"),
    },
    Cause {
        number: 7,
        title: "module named is not ended earlier",
        meaning: "EXTENDS or INSTANCE names a module that the file does not have, or that has not \
            ended where it is named: a module uses what stands before it.",
        example: Example::Text("---- MODULE M ----\nEXTENDS M\n"),
    },
    Cause {
        number: 8,
        title: "name already in the context, own or brought",
        meaning: "A field adds a name that means something in the module already: declared, defined, \
            an instance's name, extended, or brought by an instance without a name. Two extended \
            modules may bring one name only if it comes from the same field.",
        example: Example::Text("---- MODULE M ----\nVARIABLE x\nVARIABLE x\n"),
    },
    Cause {
        number: 9,
        title: "name, parameter or bound index unknown",
        meaning: "An expression uses a name that the module does not know at that place, an operator \
            that an instance does not bring, a parameter or bound variable that nothing \
            introduces, or an instance's name as an operator. Or a name that the instanced module \
            declares has no substitution and is not known here to stand for itself.",
        example: Example::Text("---- MODULE M ----\nASSUME ?p0\n"),
    },
    Cause {
        number: 10,
        title: "argument count wrong",
        meaning: "An operator is given another number of arguments than it takes; or a declared name \
            without a substitution stands for a name of the context with another number of \
            arguments.",
        example: Example::Text("---- MODULE M ----\nCONSTANT K(_)\nASSUME K\n"),
    },
    Cause {
        number: 11,
        title: "substituted name not declared there, or twice",
        meaning: "INSTANCE .. WITH replaces declared names of the instanced module (extended ones \
            included), each at most once; definitions cannot be replaced.",
        example: Example::Text(
            "---- MODULE M ----\n====\n---- MODULE N ----\nINSTANCE M WITH x <- op0\n",
        ),
    },
    Cause {
        number: 12,
        title: "not level-correct: level 4 in a body, substitute or formula",
        meaning: "With its parameters at level 0 the expression puts something where its level is not \
            taken: x'' primes a transition, []x' is temporal over a transition that is not of the form \
            [A]_v. Or it mixes an action (level 2) with a temporal formula (level 3): x' = 1 /\\ []P \
            speaks of a step and of a whole behaviour at once (if every step is meant, write \
            [][x' = 1]_x /\\ []P). In TLA+ such an expression has no meaning.",
        example: Example::Text("---- MODULE M ----\nTHEOREM op0''\n"),
    },
    Cause {
        number: 13,
        title: "ASSUME not level 0",
        meaning: "What is assumed speaks of constants only: no variable, no prime, nothing temporal.",
        example: Example::Text("---- MODULE M ----\nASSUME op0'\n"),
    },
    Cause {
        number: 14,
        title: "substitute's level not lawful",
        meaning: "An instance puts something in a declared name's place whose level is too high. In a \
            module with variables (or with a definition above level 0) a constant takes level 0 \
            only and a variable level 0 or 1; an operator with arguments always takes level 0. \
            This is the accident that the checker is for: a variable put for the unit constant of \
            a module that is in order by itself (samples/depth-accident).",
        example: Example::Text(
            "---- MODULE M ----\nVARIABLE x\n====\n---- MODULE N ----\nINSTANCE M WITH x <- op0'\n",
        ),
    },
    Cause {
        number: 21,
        title: "an instance of a constant module whose substitutes hold both a transition-level (2) and a temporal-level (3) expression",
        meaning: "In a constant module (no variable, no definition above level 0) constants without \
            arguments may be replaced by actions (level 2) or by temporal formulas (level 3), but \
            not by both in one instance: a definition may put any two of them side by side, and \
            action and temporal do not mix. Names that stand for themselves count, and so do names \
            that no definition uses. Put [][A]_v, which is temporal, for an action A; or split the \
            module, so that no instance takes both; and where a name stands for itself by accident, \
            write a substitution for it.",
        example: Example::Text(
            "---- MODULE M ----\nCONSTANTS a, b\n====\n---- MODULE N ----\nINSTANCE M WITH a <- op0', b <- []op0\n",
        ),
    },
    Cause {
        number: 16,
        title: "the module instanced has a named instance",
        meaning: "A module that has a named instance, its own or extended, cannot be instanced. \
            Instance it without a name inside, or bring its definitions another way.",
        example: Example::Text(
            "---- MODULE M ----\n====\n---- MODULE N ----\nI == INSTANCE M\n====\n---- MODULE O ----\nINSTANCE N\n",
        ),
    },
    Cause {
        number: 17,
        title: "no such module or definition",
        meaning: "A query names a module or a definition that the file does not have. No check of a \
            file is refused so.",
        example: Example::None,
    },
    Cause {
        number: 18,
        title: "expansion longer than the output or 65,535 bytes",
        meaning: "The expansion that a query asks for does not fit the memory lent for it, or is over \
            65,535 bytes. No check of a file is refused so.",
        example: Example::None,
    },
];

const UNUSED: Unused = Unused {
    number: 15,
    meaning: "No refusal has this number any more. It meant that a brought definition is 4 with \
        parameters at 0, and that cannot arise: an instance that clears 14 and 21 brings nothing \
        that is level 4 with its parameters at 0. \"Lawful instances stay lawful\" in the handbook \
        says why.",
};

// It is no cause's number, so no refusal is told as if it were.
const _: () = {
    let mut place = 0;
    while place < CAUSES.len() {
        assert!(CAUSES[place].number != UNUSED.number);
        place += 1;
    }
};

#[cfg(test)]
mod tests {
    use super::*;

    /// 1 to 14, 16 to 18 and 21, and 21 is judged after 14 and before 16.
    #[test]
    fn numbers() {
        let judged: Vec<u32> = CAUSES.iter().map(|cause| cause.number).collect();
        let expected: Vec<u32> = (1..=14).chain([21]).chain(16..=18).collect();
        assert_eq!(judged, expected);
        for cause in &CAUSES {
            assert_eq!(title(cause.number), cause.title);
            let found = numbered(cause.number);
            assert!(matches!(found, Some(Numbered::Cause(found)) if found.number == cause.number));
        }
        for number in [0, 19, 20, 22] {
            assert!(numbered(number).is_none(), "{number}");
            assert_eq!(title(number), UNKNOWN, "{number}");
        }
    }

    /// 15 is known and no cause: a refusal with it is one that this program does not know.
    #[test]
    fn unused() {
        assert!(matches!(numbered(15), Some(Numbered::Unused(unused)) if unused.number == 15));
        assert_eq!(title(15), UNKNOWN);
    }

    /// Both that speak of mixing say what to write instead.
    #[test]
    fn action_and_temporal_do_not_mix() {
        for number in [12, 21] {
            let meaning = cause(number).expect("a cause").meaning;
            for word in ["(level 2)", "(level 3)", "[]["] {
                assert!(meaning.contains(word), "{number}: {word}");
            }
        }
    }
}
