//! One call of a checker with all the memory it is lent, and what comes back.

use crate::cards::CARDS;
use crate::checker::{body_refusal, refusal, Checker, Offer};
use crate::syntax::{self, hex, Expr};
use std::fmt::{self, Display, Formatter};

/// An operation with its arguments.
#[derive(Clone, Debug, PartialEq, Eq)]
pub enum Call {
    Check,
    Level {
        module: u16,
        expr: Vec<u8>,
        levels: Vec<u8>,
    },
    Expand {
        module: u16,
        expr: Vec<u8>,
        params: u8,
        /// Bytes of the output.
        room: usize,
    },
    Alike {
        a: u32,
        b: u32,
    },
    Body {
        d: u32,
    },
}

impl Call {
    /// What a checker has to offer to be asked this.
    pub fn wants(&self) -> Offer {
        match self {
            Call::Check => Offer::Checks,
            Call::Level { .. } | Call::Alike { .. } | Call::Body { .. } => Offer::Queries,
            Call::Expand { .. } => Offer::Expansions,
        }
    }

    /// Makes this call: the packed reply. A checker is asked only what it offers.
    pub fn make(
        &self,
        checker: &dyn Checker,
        file: &[u8],
        cards: &mut [u8],
        out: &mut [u8],
    ) -> u64 {
        let queries = || checker.queries().expect("queries are offered");
        let expansions = || queries().expansions().expect("expansions are offered");
        match self {
            Call::Check => checker.check(file, cards).into(),
            Call::Level {
                module,
                expr,
                levels,
            } => queries().level(file, cards, *module, expr, levels).into(),
            Call::Expand {
                module,
                expr,
                params,
                ..
            } => expansions()
                .expand(file, cards, *module, expr, *params, out)
                .into(),
            Call::Alike { a, b } => queries().alike(file, cards, *a, *b).into(),
            Call::Body { d } => queries().body(file, cards, *d),
        }
    }
}

/// A call on a file, with card memory of some length that holds a pattern.
#[derive(Clone, Debug, PartialEq, Eq)]
pub struct Case {
    pub file: Vec<u8>,
    pub call: Call,
    /// Bytes of card memory.
    pub cards: usize,
    /// Chooses the pattern of lent memory.
    pub fill: u8,
}

/// What a call leaves behind.
#[derive(Clone, Debug, PartialEq, Eq)]
pub struct Outcome {
    pub reply: u64,
    pub cards: Vec<u8>,
    pub out: Vec<u8>,
}

/// What part of two outcomes differs.
#[derive(Clone, Copy, Debug, PartialEq, Eq)]
pub enum Part {
    Reply,
    Cards,
    Output,
}

/// A kind of difference.
#[derive(Clone, Copy, Debug, PartialEq, Eq)]
pub struct Kind {
    pub part: Part,
    pub causes: [Option<u32>; 2],
}

fn pattern(length: usize, fill: u8) -> Vec<u8> {
    // No byte of a card but a full one, and not the same everywhere.
    let byte = |at: usize| 0x80 | (at as u8).wrapping_mul(29).wrapping_add(fill);
    (0..length).map(byte).collect()
}

impl Case {
    pub fn new(file: &[u8], call: Call) -> Self {
        Case {
            file: file.to_vec(),
            call,
            cards: CARDS,
            fill: 0,
        }
    }

    /// The card memory as it is lent.
    pub fn lent_cards(&self) -> Vec<u8> {
        pattern(self.cards, self.fill)
    }

    /// The output as it is lent.
    pub fn lent_output(&self) -> Vec<u8> {
        match self.call {
            Call::Expand { room, .. } => pattern(room, self.fill.wrapping_add(7)),
            _ => Vec::new(),
        }
    }

    pub fn run(&self, checker: &dyn Checker) -> Outcome {
        let mut cards = self.lent_cards();
        let mut out = self.lent_output();
        let reply = self.call.make(checker, &self.file, &mut cards, &mut out);
        Outcome { reply, cards, out }
    }

    /// Number and place of a refusal.
    pub fn refusal(&self, outcome: &Outcome) -> Option<(u32, u32)> {
        match self.call {
            Call::Body { .. } => body_refusal(outcome.reply),
            _ => refusal(outcome.reply as u32),
        }
    }

    /// The reply in words.
    pub fn reply(&self, outcome: &Outcome) -> String {
        match (self.refusal(outcome), &self.call) {
            (Some((number, place)), _) => format!("refused {number} at {place}"),
            (None, Call::Body { .. }) => {
                let (start, length) = (outcome.reply >> 16, outcome.reply & 0xFFFF);
                format!("start {start}, length {length}")
            }
            (None, _) => outcome.reply.to_string(),
        }
    }

    /// The kind of a difference, which stays the same while a case is shrunk: whether reply, cards
    /// or output differ, and the causes of refusal on both sides.
    pub fn kind(&self, left: &Outcome, right: &Outcome) -> Option<Kind> {
        let part = if left.reply != right.reply {
            Part::Reply
        } else if left.cards != right.cards {
            Part::Cards
        } else if left.out != right.out {
            Part::Output
        } else {
            return None;
        };
        let cause = |outcome| self.refusal(outcome).map(|(cause, _)| cause);
        Some(Kind {
            part,
            causes: [cause(left), cause(right)],
        })
    }

    /// What differs between two outcomes.
    pub fn difference(&self, left: &Outcome, right: &Outcome) -> Option<String> {
        if left.reply != right.reply {
            return Some(format!(
                "replies: {} and {}",
                self.reply(left),
                self.reply(right)
            ));
        }
        for (what, left, right) in [
            ("card byte", &left.cards, &right.cards),
            ("output byte", &left.out, &right.out),
        ] {
            if let Some(at) = (0..left.len()).find(|&at| left[at] != right[at]) {
                let (left, right) = (left[at], right[at]);
                return Some(format!("{what} {at}: {left} and {right}"));
            }
        }
        None
    }
}

fn expression(expr: &[u8]) -> String {
    match Expr::read(expr) {
        Some(read) if expr.len() <= 2_000 => format!("{read} [{}]", hex(expr)),
        _ if expr.len() <= 2_000 => format!("[{}]", hex(expr)),
        _ => format!("{} bytes", expr.len()),
    }
}

impl Display for Call {
    fn fmt(&self, f: &mut Formatter) -> fmt::Result {
        match self {
            Call::Check => write!(f, "check"),
            Call::Level {
                module,
                expr,
                levels,
            } => write!(f, "level in {module} at {levels:?} of {}", expression(expr)),
            Call::Expand {
                module,
                expr,
                params,
                room,
            } => write!(
                f,
                "expand in {module} over {params} into {room} bytes, {}",
                expression(expr)
            ),
            Call::Alike { a, b } => write!(f, "alike {a} {b}"),
            Call::Body { d } => write!(f, "body {d}"),
        }
    }
}

impl Display for Case {
    fn fmt(&self, f: &mut Formatter) -> fmt::Result {
        writeln!(f, "call: {}", self.call)?;
        writeln!(f, "card memory: {} bytes", self.cards)?;
        writeln!(f, "file of {} bytes:", self.file.len())?;
        if self.file.len() > 4_000 {
            return writeln!(f, "  (too long to print)");
        }
        writeln!(f, "  {}", hex(&self.file))?;
        for (number, field) in syntax::fields(&self.file).iter().enumerate() {
            writeln!(f, "  {number:3} {field}")?;
        }
        Ok(())
    }
}
