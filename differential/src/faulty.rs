//! The reference with a fault put in, to try the comparison out.

use crate::book::{self, Book, Misreading};
use crate::cards::{CARD, CARDS, MOST};
use crate::checker::{
    body_refusal, refusal, refused, Checker, Expansions, Queries, Reference, BODY_REFUSED, REFUSED,
};
use crate::model::Model;
use crate::syntax::{fields, Expr, Field};

/// A fault that a checker could have.
#[derive(Clone, Copy, Debug, PartialEq, Eq)]
pub enum Fault {
    /// The place of a refusal by a field is one too high.
    PlaceNext,
    /// A file that ends inside a module is refused at its last field.
    PlaceOfOpenFile,
    /// Cause 18 has a place.
    PlaceOfEighteen,
    /// An unknown name is reported as a wrong argument count.
    NineAsTen,
    /// An unlawful substitute is reported as one that mixes.
    FourteenAsTwentyOne,
    /// The first card is copied to the second.
    CardCopied,
    /// The first card is copied to all others.
    OneCard,
    /// Cards stay at 0.
    CardsAtZero,
    /// A brought definition has its original's card.
    SourceCard,
    /// ENABLED is levelled like an operator of one argument.
    EnabledPlain,
    /// \EE is levelled like another binder.
    HidingPlain,
    /// In a file, a code is taken for the one before it: across an edge of the table's ranges.
    CodeBefore(u8),
    /// In a file, a code is taken for the one after it.
    CodeAfter(u8),
    /// A refusal leaves the cards as they were.
    CardsKept,
    /// A refusal leaves the last byte of the cards.
    ZeroedShort,
    /// A refusal clears all the memory lent.
    ZeroedBeyond,
    /// Acceptance clears the byte after the last card.
    PastLastCard,
    /// Short card memory is cleared.
    ShortMemoryCleared,
    /// Card memory of exactly 4,096 bytes is too short.
    MemoryOneMore,
    /// Card memory of less than 32,000 bytes is too short, as before L7.
    MemoryAsBefore,
    /// A refusal clears 32,000 bytes, if so many are lent.
    ZeroedAsBefore,
    /// A query's own refusal clears the cards.
    QueryClears,
    /// An unknown module or definition clears the cards.
    UnknownClears,
    /// A level query fills no cards.
    LevelFillsNothing,
    /// The level is worked out in the first module.
    OtherModule,
    /// A given level of 5 is taken for 4.
    LevelFive,
    /// A ninth parameter is left out.
    NinthParameter,
    /// A definition of eight parameters has one too many.
    EightRefused,
    /// So has an INSTANCE with the definitions that it brings, if these have eight in all.
    EightBroughtRefused,
    /// Module 0 is the first module.
    ModuleZero,
    /// An expansion needs one byte more than it has.
    EighteenEarly,
    /// An expansion of 65,535 bytes is too long.
    LongestRefused,
    /// Part of an expansion is written though it is too long.
    OutputOnRefusal,
    /// A byte after the expansion is changed.
    OutputPastEnd,
    /// Bound indices of an expansion are one too low.
    IndexUnmoved,
    /// Alike looks at the levels with parameters at 0 only.
    AlikeAtZero,
    /// It looks at all but the level with parameters at 0.
    AlikeButLevel,
    /// At all but the weights.
    AlikeButWeights,
    /// At all but the masks.
    AlikeButMasks,
    /// A definition is alike itself even if there is none.
    AlikeItself,
    /// The body of a brought definition is empty.
    BroughtBody,
    /// The body starts one byte early.
    BodyStart,
    /// A file of 32,768 bytes is too large.
    LargestRefused,
    /// The definition of number 255 is one too many.
    DefinitionLimit,
    /// The rules are misread.
    Misread(Misreading),
}

/// Every fault with its name.
pub const FAULTS: [(&str, Fault); 90] = [
    ("place-next", Fault::PlaceNext),
    ("place-of-open-file", Fault::PlaceOfOpenFile),
    ("place-of-eighteen", Fault::PlaceOfEighteen),
    ("nine-as-ten", Fault::NineAsTen),
    ("fourteen-as-twenty-one", Fault::FourteenAsTwentyOne),
    ("card-copied", Fault::CardCopied),
    ("one-card", Fault::OneCard),
    ("cards-at-zero", Fault::CardsAtZero),
    ("source-card", Fault::SourceCard),
    ("enabled-plain", Fault::EnabledPlain),
    ("hiding-plain", Fault::HidingPlain),
    ("104-as-103", Fault::CodeBefore(104)),
    ("103-as-104", Fault::CodeAfter(103)),
    ("128-as-127", Fault::CodeBefore(128)),
    ("127-as-128", Fault::CodeAfter(127)),
    ("140-as-139", Fault::CodeBefore(140)),
    ("139-as-140", Fault::CodeAfter(139)),
    ("142-as-141", Fault::CodeBefore(142)),
    ("141-as-142", Fault::CodeAfter(141)),
    ("cards-kept", Fault::CardsKept),
    ("zeroed-short", Fault::ZeroedShort),
    ("zeroed-beyond", Fault::ZeroedBeyond),
    ("past-last-card", Fault::PastLastCard),
    ("short-memory-cleared", Fault::ShortMemoryCleared),
    ("memory-one-more", Fault::MemoryOneMore),
    ("memory-as-before", Fault::MemoryAsBefore),
    ("zeroed-as-before", Fault::ZeroedAsBefore),
    ("query-clears", Fault::QueryClears),
    ("unknown-clears", Fault::UnknownClears),
    ("level-fills-nothing", Fault::LevelFillsNothing),
    ("other-module", Fault::OtherModule),
    ("level-five", Fault::LevelFive),
    ("ninth-parameter", Fault::NinthParameter),
    ("eight-refused", Fault::EightRefused),
    ("eight-brought-refused", Fault::EightBroughtRefused),
    ("module-zero", Fault::ModuleZero),
    ("eighteen-early", Fault::EighteenEarly),
    ("longest-refused", Fault::LongestRefused),
    ("output-on-refusal", Fault::OutputOnRefusal),
    ("output-past-end", Fault::OutputPastEnd),
    ("index-unmoved", Fault::IndexUnmoved),
    ("alike-at-zero", Fault::AlikeAtZero),
    ("alike-but-level", Fault::AlikeButLevel),
    ("alike-but-weights", Fault::AlikeButWeights),
    ("alike-but-masks", Fault::AlikeButMasks),
    ("alike-itself", Fault::AlikeItself),
    ("brought-body", Fault::BroughtBody),
    ("body-start", Fault::BodyStart),
    ("largest-refused", Fault::LargestRefused),
    ("definition-limit", Fault::DefinitionLimit),
    ("mixing-gives-3", Fault::Misread(Misreading::NoMixing)),
    ("neighbours-mix", Fault::Misread(Misreading::NeighboursMix)),
    ("no-mixing-of-three", Fault::Misread(Misreading::NotInThree)),
    (
        "no-mixing-declared",
        Fault::Misread(Misreading::NotInDeclared),
    ),
    (
        "no-mixing-in-binders",
        Fault::Misread(Misreading::NotInBinders),
    ),
    (
        "mixing-through-enabled",
        Fault::Misread(Misreading::ThroughEnabled),
    ),
    ("one-ceiling", Fault::Misread(Misreading::OneCeiling)),
    (
        "no-mixing-in-queries",
        Fault::Misread(Misreading::NotInQueries),
    ),
    ("21-unjudged", Fault::Misread(Misreading::NoTwentyOne)),
    ("21-of-any-module", Fault::Misread(Misreading::AnyModule)),
    ("21-before-14", Fault::Misread(Misreading::BeforeFourteen)),
    ("21-after-16", Fault::Misread(Misreading::AfterSixteen)),
    ("21-of-written", Fault::Misread(Misreading::WrittenOnly)),
    ("21-of-used", Fault::Misread(Misreading::UsedOnly)),
    (
        "21-of-neighbours",
        Fault::Misread(Misreading::NeighboursOnly),
    ),
    (
        "21-over-parameters",
        Fault::Misread(Misreading::ParametersAtTwo),
    ),
    (
        "21-over-arguments",
        Fault::Misread(Misreading::ArgumentsAtThree),
    ),
    ("21-first-come", Fault::Misread(Misreading::FirstCome)),
    (
        "21-of-every-instance",
        Fault::Misread(Misreading::EveryInstance),
    ),
    ("15-before-21", Fault::Misread(Misreading::FifteenFirst)),
    ("12-of-brought", Fault::Misread(Misreading::BroughtAsBody)),
    ("lawful-by-outcome", Fault::Misread(Misreading::ByOutcome)),
    ("no-rise", Fault::Misread(Misreading::NoRise)),
    (
        "none-above-substitutes",
        Fault::Misread(Misreading::NoneAbove),
    ),
    (
        "none-above-written",
        Fault::Misread(Misreading::NoneAboveWritten),
    ),
    ("3-stays-3", Fault::Misread(Misreading::ThreeStays)),
    (
        "15-over-parameters",
        Fault::Misread(Misreading::BroughtOverParameters),
    ),
    ("mask-is-ceiling", Fault::Misread(Misreading::MaskIsCeiling)),
    ("4-never-taken", Fault::Misread(Misreading::FourNeverTaken)),
    ("masks-beyond", Fault::Misread(Misreading::MasksBeyond)),
    ("weighs-if-used", Fault::Misread(Misreading::WeighsIfUsed)),
    ("4-weighs", Fault::Misread(Misreading::FourWeighs)),
    ("weights-turned", Fault::Misread(Misreading::WeightsTurned)),
    ("pairs-2-first", Fault::Misread(Misreading::ActionFirst)),
    ("pairs-3-first", Fault::Misread(Misreading::TemporalFirst)),
    ("pairs-both-ways", Fault::Misread(Misreading::BothWays)),
    (
        "pairs-though-alone",
        Fault::Misread(Misreading::PairsThoughAlone),
    ),
    ("pairs-by-row", Fault::Misread(Misreading::PairsByRow)),
    ("pairs-low-first", Fault::Misread(Misreading::PairsLowFirst)),
    ("count-last", Fault::Misread(Misreading::CountLast)),
];

impl Fault {
    pub fn named(name: &str) -> Option<Fault> {
        let mut found = FAULTS.iter().filter(|(of, _)| *of == name);
        found.next().map(|&(_, fault)| fault)
    }

    /// A file that shows the fault can be made smaller than this.
    pub fn most_bytes(self) -> usize {
        match self {
            Fault::LargestRefused | Fault::DefinitionLimit => usize::MAX,
            // An INSTANCE of a module that declares two names or three.
            Fault::Misread(_) => 90,
            _ => 70,
        }
    }
}

/// The reference with one fault.
pub struct Faulty(pub Fault);

/// Bytes of card memory before L7.
const BEFORE: usize = 32_000;

/// The first module's name.
fn first_module(file: &[u8]) -> u16 {
    match file {
        [_, _, _, high, low, ..] => u16::from_be_bytes([*high, *low]),
        _ => 0,
    }
}

/// Puts a code for another in the bodies of definitions.
fn recoded(file: &[u8], from: u8, to: u8) -> Vec<u8> {
    use crate::syntax::file as written;
    fn recode(expr: &mut Expr, from: u8, to: u8) {
        if let Expr::BuiltIn(code, _) = expr {
            if *code == from {
                *code = to;
            }
        }
        let parts = expr.arguments_mut().iter_mut();
        parts.for_each(|part| recode(part, from, to));
    }
    let mut fields = fields(file);
    for field in &mut fields {
        let expressions = field.expressions_mut().into_iter();
        expressions.for_each(|expr| recode(expr, from, to));
    }
    written(&fields)
}

/// Puts a code for another after every byte that could be the tag of a built-in, whether or not the
/// file can be read.
fn taken_for(file: &[u8], from: u8, to: u8) -> Vec<u8> {
    let mut seen = file.to_vec();
    for at in 1..seen.len() {
        if seen[at - 1..=at] == [4, from] {
            seen[at] = to;
        }
    }
    seen
}

impl Faulty {
    fn is(&self, fault: Fault) -> bool {
        self.0 == fault
    }

    /// What the call sees of the file.
    fn seen(&self, file: &[u8]) -> Vec<u8> {
        match self.0 {
            Fault::EnabledPlain => recoded(file, 113, 16),
            Fault::HidingPlain => recoded(file, 140, 128),
            Fault::CodeBefore(code) => taken_for(file, code, code - 1),
            Fault::CodeAfter(code) => taken_for(file, code, code + 1),
            _ => file.to_vec(),
        }
    }

    /// Spoils reply and cards of a file; `None` leaves the reply.
    fn spoil(&self, file: &[u8], before: &[u8], cards: &mut [u8]) -> Option<u32> {
        let mut right = vec![0; CARDS];
        let verdict = Reference.check(file, &mut right);
        if before.len() < CARDS {
            if self.is(Fault::ShortMemoryCleared) {
                cards.fill(0);
            }
            return None;
        }
        let short = match self.0 {
            Fault::MemoryOneMore => before.len() == CARDS,
            Fault::MemoryAsBefore => before.len() < BEFORE,
            _ => false,
        };
        if short {
            cards.copy_from_slice(before);
            return Some(refused(1, 0));
        }
        if let Some(place) = self.one_too_many(file, refusal(verdict)) {
            cards[..CARDS].fill(0);
            return Some(refused(5, place));
        }
        if self.is(Fault::LargestRefused) && file.len() == 32_768 {
            cards[..CARDS].fill(0);
            return Some(refused(2, 0));
        }
        match refusal(verdict) {
            Some((cause, place)) => match self.0 {
                Fault::PlaceNext if cause > 2 => Some(verdict + 1),
                Fault::PlaceOfOpenFile if cause == 4 && place > 0 => {
                    let whole = [file, &[7, 0, 0]].concat();
                    let closed = Reference.check(&whole, &mut right) <= 256;
                    closed.then(|| verdict - 1)
                }
                Fault::NineAsTen if cause == 9 => Some(refused(10, place)),
                Fault::FourteenAsTwentyOne if cause == 14 => Some(refused(21, place)),
                Fault::CardsKept => {
                    cards.copy_from_slice(before);
                    None
                }
                Fault::ZeroedShort => {
                    cards[CARDS - 1] = before[CARDS - 1];
                    None
                }
                Fault::ZeroedBeyond => {
                    cards.fill(0);
                    None
                }
                Fault::ZeroedAsBefore => {
                    let cleared = BEFORE.min(cards.len());
                    cards[..cleared].fill(0);
                    None
                }
                _ => None,
            },
            None => self.spoil_cards(file, verdict as usize, before, cards),
        }
    }

    /// The first field that has eight parameters in all, if that is too many and comes before the refusal.
    fn one_too_many(&self, file: &[u8], refusal: Option<(u32, u32)>) -> Option<u32> {
        if !self.is(Fault::EightRefused) && !self.is(Fault::EightBroughtRefused) {
            return None;
        }
        let mut model = Model::default();
        for (number, field) in fields(file).iter().enumerate() {
            if refusal.is_some_and(|(_, place)| place as usize <= number) {
                return None;
            }
            let before = model.definitions.len();
            model.add(field);
            let brings = matches!(field, Field::Instance { .. });
            let mut added = model.definitions[before..].iter();
            let eight = added.any(|each| each.parameters as usize == MOST);
            if eight && brings == self.is(Fault::EightBroughtRefused) {
                return Some(number as u32);
            }
        }
        None
    }

    fn spoil_cards(
        &self,
        file: &[u8],
        count: usize,
        before: &[u8],
        cards: &mut [u8],
    ) -> Option<u32> {
        let first = cards[..CARD].to_vec();
        match self.0 {
            Fault::CardCopied if count > 1 => cards[CARD..2 * CARD].copy_from_slice(&first),
            Fault::OneCard => {
                let filled = cards[..CARD * count].chunks_exact_mut(CARD);
                filled.for_each(|card| card.copy_from_slice(&first));
            }
            Fault::CardsAtZero => cards[..CARD * count].fill(0),
            Fault::PastLastCard if CARD * count < cards.len() => cards[CARD * count] = 0,
            Fault::SourceCard => {
                // Few, since every look at a body checks the file.
                for d in 1..count.min(30) {
                    if let Some(source) = source(file, d) {
                        cards.copy_within(CARD * source..CARD * (source + 1), CARD * d);
                    }
                }
            }
            Fault::DefinitionLimit if count == 256 => {
                cards.copy_from_slice(before);
                cards[..CARDS].fill(0);
                return Some(refused(5, 0));
            }
            _ => (),
        }
        None
    }

    /// Spoils the cards after a query that the file let through.
    fn spoil_query(&self, reply: Option<(u32, u32)>, cards: &mut [u8]) {
        match reply {
            Some((17, _)) if self.is(Fault::UnknownClears) => cards[..CARDS].fill(0),
            Some((3..=10 | 18, _)) if self.is(Fault::QueryClears) => cards[..CARDS].fill(0),
            _ => (),
        }
    }

    /// For a checker that misreads the rules: the cards it leaves, and the refusal of the file or what it
    /// made of it.
    fn misread(&self, file: &[u8], cards: &mut [u8]) -> Option<Result<Book, u32>> {
        let Fault::Misread(misreading) = self.0 else {
            return None;
        };
        if cards.len() < CARDS {
            return None;
        }
        Some(match book::judge(file, Some(misreading))? {
            Ok(book) => {
                let used = CARD * book.model.definitions.len();
                cards[..used].copy_from_slice(&book.model.cards[..used]);
                Ok(book)
            }
            Err((cause, place)) => {
                cards[..CARDS].fill(0);
                Err(refused(cause, place))
            }
        })
    }

    fn accepts(file: &[u8], cards: &[u8]) -> bool {
        cards.len() >= CARDS && Reference.check(file, &mut vec![0; CARDS]) <= 256
    }
}

/// The first definition with the same body, if it comes earlier.
fn source(file: &[u8], d: usize) -> Option<usize> {
    let mut cards = vec![0; CARDS];
    let body = Reference.body(file, &mut cards, d as u32);
    (0..d).find(|&other| Reference.body(file, &mut cards, other as u32) == body)
}

impl Checker for Faulty {
    fn name(&self) -> String {
        let found = FAULTS.iter().find(|(_, fault)| *fault == self.0);
        format!("faulty:{}", found.map_or("?", |(name, _)| name))
    }

    fn check(&self, file: &[u8], cards: &mut [u8]) -> u32 {
        if let Some(misread) = self.misread(file, cards) {
            return misread.map_or_else(|reply| reply, |book| book.model.definitions.len() as u32);
        }
        let before = cards.to_vec();
        let file = &self.seen(file)[..];
        let reply = Reference.check(file, cards);
        self.spoil(file, &before, cards).unwrap_or(reply)
    }

    fn queries(&self) -> Option<&dyn Queries> {
        Some(self)
    }
}

impl Queries for Faulty {
    fn level(&self, file: &[u8], cards: &mut [u8], module: u16, expr: &[u8], levels: &[u8]) -> u32 {
        if let Some(misread) = self.misread(file, cards) {
            // What is wrong with the expression does not hang on levels.
            let (plain, mut scratch) = (book::without_levels(file), vec![0; CARDS]);
            let asked = Reference.level(&plain, &mut scratch, module, expr, levels);
            return match (misread, Expr::read(expr)) {
                (Err(reply), _) => reply,
                (Ok(book), Some(expr)) if refusal(asked).is_none() => {
                    book.query(module, &expr, levels).into()
                }
                _ => asked,
            };
        }
        let before = cards.to_vec();
        let file = &self.seen(file)[..];
        let accepted = Self::accepts(file, cards);
        let known = Reference.level(file, cards, module, &[5, 0, 0], &[]) == 0;
        let module = match self.0 {
            Fault::OtherModule if known => first_module(file),
            Fault::ModuleZero if module == 0 => first_module(file),
            _ => module,
        };
        let levels: Vec<u8> = match self.0 {
            Fault::LevelFive => levels.iter().map(|&l| if l == 5 { 4 } else { l }).collect(),
            Fault::NinthParameter => levels.iter().copied().take(MOST).collect(),
            _ => levels.to_vec(),
        };
        let reply = Reference.level(file, cards, module, expr, &levels);
        if let Some(spoilt) = self.spoil(file, &before, cards) {
            return spoilt;
        }
        if accepted {
            self.spoil_query(refusal(reply), cards);
            if self.is(Fault::LevelFillsNothing) {
                cards.copy_from_slice(&before);
            }
        }
        reply
    }

    fn alike(&self, file: &[u8], cards: &mut [u8], a: u32, b: u32) -> u32 {
        if let Some(misread) = self.misread(file, cards) {
            let alike = |book: Book| book.model.alike(a, b).map_or(refused(17, 0), u32::from);
            return misread.map_or_else(|reply| reply, alike);
        }
        let before = cards.to_vec();
        let file = &self.seen(file)[..];
        let accepted = Self::accepts(file, cards);
        let mut reply = Reference.alike(file, cards, a, b);
        // Bytes that are left out.
        let unseen = match self.0 {
            Fault::AlikeAtZero => 2..CARD,
            Fault::AlikeButLevel => 1..2,
            Fault::AlikeButWeights => 2..3,
            Fault::AlikeButMasks => 3..11,
            _ => 0..0,
        };
        if accepted && refusal(reply).is_none() && !unseen.is_empty() {
            let card = |d: u32| {
                let mut card = cards[CARD * d as usize..][..CARD].to_vec();
                card[unseen.clone()].fill(0);
                card
            };
            reply = (card(a) == card(b)) as u32;
        }
        if let Some(spoilt) = self.spoil(file, &before, cards) {
            return spoilt;
        }
        if accepted {
            self.spoil_query(refusal(reply), cards);
            if self.is(Fault::AlikeItself) && a == b {
                return 1;
            }
        }
        reply
    }

    fn body(&self, file: &[u8], cards: &mut [u8], d: u32) -> u64 {
        if let Some(misread) = self.misread(file, cards) {
            let told = |reply: u32| BODY_REFUSED + u64::from(reply & !REFUSED);
            return match misread.map(|book| book.model.body(file, d)) {
                Ok(Some((start, length))) => 65_536 * start as u64 + length as u64,
                Ok(None) => told(refused(17, 0)),
                Err(reply) => told(reply),
            };
        }
        let before = cards.to_vec();
        let file = &self.seen(file)[..];
        let accepted = Self::accepts(file, cards);
        let reply = Reference.body(file, cards, d);
        if let Some(spoilt) = self.spoil(file, &before, cards) {
            return BODY_REFUSED + (spoilt & !(1 << 31)) as u64;
        }
        if !accepted {
            return reply;
        }
        self.spoil_query(body_refusal(reply), cards);
        let is_brought = body_refusal(reply).is_none() && source(file, d as usize).is_some();
        match self.0 {
            Fault::BroughtBody if is_brought => reply >> 16 << 16,
            Fault::BodyStart if body_refusal(reply).is_none() => reply - 65_536,
            _ => reply,
        }
    }
    fn expansions(&self) -> Option<&dyn Expansions> {
        Some(self)
    }
}

impl Expansions for Faulty {
    fn expand(
        &self,
        file: &[u8],
        cards: &mut [u8],
        module: u16,
        expr: &[u8],
        params: u8,
        out: &mut [u8],
    ) -> u32 {
        match self.misread(file, cards) {
            // The reference expands; a file that it refuses itself it refuses here too.
            Some(Ok(_)) => {
                let mut scratch = vec![0; CARDS];
                return Reference.expand(file, &mut scratch, module, expr, params, out);
            }
            Some(Err(reply)) => return reply,
            None => (),
        }
        let before = cards.to_vec();
        let lent = out.to_vec();
        let file = &self.seen(file)[..];
        let accepted = Self::accepts(file, cards);
        let module = match self.0 {
            Fault::ModuleZero if module == 0 => first_module(file),
            _ => module,
        };
        let params = match self.0 {
            Fault::NinthParameter => params.min(MOST as u8),
            _ => params,
        };
        let reply = Reference.expand(file, cards, module, expr, params, out);
        if let Some(spoilt) = self.spoil(file, &before, cards) {
            return spoilt;
        }
        if !accepted {
            return reply;
        }
        self.spoil_query(refusal(reply), cards);
        let length = reply as usize;
        match (self.0, refusal(reply)) {
            (Fault::PlaceOfEighteen, Some((18, _))) => return reply + 1,
            (Fault::OutputOnRefusal, Some((18, _))) if !out.is_empty() => out[0] = expr[0],
            (Fault::EighteenEarly, None) if length == out.len() => {
                out.copy_from_slice(&lent);
                return refused(18, 0);
            }
            (Fault::LongestRefused, None) if length == 65_535 => {
                out.copy_from_slice(&lent);
                return refused(18, 0);
            }
            (Fault::OutputPastEnd, None) if length < out.len() => out[length] = 0,
            (Fault::IndexUnmoved, None) => {
                if let Some(Expr::BuiltIn(128.., _)) = Expr::read(&out[..length]) {
                    // The first index above 0 in an expansion under a binder.
                    let found = (0..length.saturating_sub(2))
                        .find(|&at| out[at..at + 2] == [1, 0] && out[at + 2] > 0);
                    if let Some(at) = found {
                        out[at + 2] -= 1;
                    }
                }
            }
            _ => (),
        }
        reply
    }
}
