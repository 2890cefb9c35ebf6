//! A second opinion on cards: what a card says at vectors of levels, against the level of the definition's
//! expansion there, found the long way; and that within a file equal cards are those of equal levels.

use crate::cards::Card;
use crate::judge::Program;
use crate::limits::Limits;
use crate::long_way::LongWay;
use crate::refusal::Refusal;
use std::collections::HashMap;
use std::ops::AddAssign;
use std::sync::OnceLock;

/// With so many parameters every vector is looked at; with more a sample is.
const ALL: usize = 3;
/// Vectors drawn for each set of levels below.
const DRAWN: usize = 24;
/// Levels that vectors of a sample are drawn from. Most cards say 4 where all levels come up.
const FROM: [&[u8]; 5] = [
    &[0, 1, 2, 3, 4],
    &[0, 1, 2],
    &[0, 1, 3],
    &[0, 2, 3],
    &[0, 1],
];

/// What is said of the cards of a file.
#[derive(Clone, Debug, Default, PartialEq, Eq)]
pub struct Exactness {
    pub inexact: Vec<Inexact>,
    pub compared: Compared,
}

/// What is wrong with a card.
#[derive(Clone, Debug, PartialEq, Eq)]
pub enum Inexact {
    /// At these levels the card does not say the level of the expansion.
    Level {
        definition: usize,
        levels: Vec<u8>,
        card: u8,
        long: u8,
    },
    /// The cards are equal, the levels are not.
    EqualCards { definitions: [usize; 2] },
    /// The levels are equal at all vectors that were looked at, the cards are not.
    EqualLevels { definitions: [usize; 2] },
}

/// What was looked at.
#[derive(Clone, Copy, Debug, Default, PartialEq, Eq)]
pub struct Compared {
    /// Definitions by their number of parameters.
    pub definitions: [u64; Limits::PARAMETERS + 1],
    pub vectors: u64,
    /// Definitions with the card of one before, and those with a card of their own.
    pub alike: u64,
    pub unlike: u64,
    /// Definitions with an expansion of more tokens than the fuel lasts for.
    pub given_up: u64,
}

impl AddAssign for Compared {
    fn add_assign(&mut self, more: Compared) {
        for (count, more) in self.definitions.iter_mut().zip(more.definitions) {
            *count += more;
        }
        self.vectors += more.vectors;
        self.alike += more.alike;
        self.unlike += more.unlike;
        self.given_up += more.given_up;
    }
}

/// The vectors that cards of so many parameters are looked at: all where they are few; else those a card is
/// probed at, all of 0, 2 and 3 on the first three parameters and on the last three, and some drawn.
pub fn vectors(parameters: usize) -> &'static [Vec<u8>] {
    static VECTORS: OnceLock<Vec<Vec<Vec<u8>>>> = OnceLock::new();
    let all = VECTORS.get_or_init(|| {
        let counts = 0..=Limits::PARAMETERS;
        let chosen = |count| match count {
            0..=ALL => every(count, &[0, 1, 2, 3, 4]),
            _ => sample(count),
        };
        counts.map(chosen).collect()
    });
    &all[parameters]
}

/// Every vector of these levels.
fn every(count: usize, from: &[u8]) -> Vec<Vec<u8>> {
    let mut vectors = vec![Vec::new()];
    for _ in 0..count {
        let longer = |shorter: &Vec<u8>| {
            let shorter = shorter.clone();
            from.iter().map(move |&l| [&shorter[..], &[l]].concat())
        };
        vectors = vectors.iter().flat_map(longer).collect();
    }
    vectors
}

fn sample(count: usize) -> Vec<Vec<u8>> {
    let mut vectors = vec![vec![0; count]];
    for i in 0..count {
        for level in 1..=4 {
            let mut alone = vec![0; count];
            alone[i] = level;
            vectors.push(alone);
        }
        for j in (0..count).filter(|&j| j != i) {
            let mut pair = vec![0; count];
            (pair[i], pair[j]) = (2, 3);
            vectors.push(pair);
        }
    }
    for three in every(3, &[0, 2, 3]) {
        for first in [0, count - 3] {
            let mut few = vec![0; count];
            few[first..first + 3].copy_from_slice(&three);
            vectors.push(few);
        }
    }
    let mut state = count as u64;
    for from in FROM {
        for _ in 0..DRAWN {
            let draw = |_| from[(next(&mut state) % from.len() as u64) as usize];
            vectors.push((0..count).map(draw).collect());
        }
    }
    vectors
}

fn next(state: &mut u64) -> u64 {
    *state = state.wrapping_mul(6_364_136_223_846_793_005);
    *state = state.wrapping_add(1_442_695_040_888_963_407);
    *state >> 33
}

/// The second opinion on these cards of a file, which has to be accepted. Trees of more than `fuel` tokens
/// are given up.
pub fn exact_cards(file: &[u8], cards: &[u8], fuel: usize) -> Result<Exactness, Refusal> {
    let program = Program::judge(file)?;
    let way = LongWay::new(&program, fuel);
    let mut opinion = Exactness::default();
    let mut earlier = Earlier::default();
    for (number, definition) in program.tables.definitions.iter().enumerate() {
        let Some(tree) = way.definition(number) else {
            opinion.compared.given_up += 1;
            continue;
        };
        let bytes = &cards[Limits::CARD * number..][..Limits::CARD];
        let card = Card::of(bytes.try_into().expect("a card's bytes"));
        let asked = vectors(definition.parameters as usize);
        let level = |vector: &Vec<u8>| way.level(tree, vector);
        let levels: Vec<u8> = asked.iter().map(level).collect();
        let wrong = asked.iter().zip(&levels).find(|(v, &l)| card.at(v) != l);
        let wrong = wrong.map(|(vector, &long)| Inexact::Level {
            definition: number,
            levels: vector.clone(),
            card: card.at(vector),
            long,
        });
        opinion.inexact.extend(wrong);
        opinion.compared.definitions[definition.parameters as usize] += 1;
        opinion.compared.vectors += asked.len() as u64;
        earlier.compare(number, card, (definition.parameters, levels), &mut opinion);
    }
    Ok(opinion)
}

/// Parameter count, and the levels at all vectors that are looked at.
type Levels = (u8, Vec<u8>);

/// The first definition of each card with its levels, and of all levels with its card.
#[derive(Default)]
struct Earlier {
    by_card: HashMap<Card, (usize, Levels)>,
    by_levels: HashMap<Levels, (usize, Card)>,
}

impl Earlier {
    /// Compares a definition with those before: equal cards are those of equal levels.
    fn compare(&mut self, number: usize, card: Card, levels: Levels, opinion: &mut Exactness) {
        let own = (number, levels.clone());
        let (first, same) = self.by_card.entry(card).or_insert(own);
        match *first == number {
            true => opinion.compared.unlike += 1,
            false => opinion.compared.alike += 1,
        }
        if *same != levels {
            let definitions = [*first, number];
            opinion.inexact.push(Inexact::EqualCards { definitions });
        }
        let (first, same) = *self.by_levels.entry(levels).or_insert((number, card));
        if same != card {
            let definitions = [first, number];
            opinion.inexact.push(Inexact::EqualLevels { definitions });
        }
    }
}
