//! Compares two checkers on generated files and queries.

use crate::accepted;
use crate::book;
use crate::cards::{self, CARD, CARDS};
use crate::cases::{Call, Case, Outcome};
use crate::checker::{Checker, Offer};
use crate::coverage::{Coverage, Section};
use crate::damage;
use crate::dropping;
use crate::eight;
use crate::expansions;
use crate::families;
use crate::faults::{self, Plan};
use crate::instances;
use crate::lawful::{self, Move};
use crate::limits;
use crate::mixed_substitutes;
use crate::mixing;
use crate::model::Model;
use crate::queries;
use crate::random::Random;
use crate::shrink;
use crate::substitutes;
use crate::syntax;
use crate::wide;
use reference::{Compared, Rules, Seen};
use std::fmt::{self, Display, Formatter};

/// What to compare.
#[derive(Clone, Copy, Debug)]
pub struct Options {
    pub files: u64,
    pub seed: u64,
    pub queries: bool,
    /// Whether the hostile families and the realistic files come last.
    pub families: bool,
    /// By what an INSTANCE is lawful in the second opinion: by wrong rules it finds something.
    pub lawful: Rules,
}

/// Enough files for every count.
pub const DEFAULT_FILES: u64 = 2_200;
pub const DEFAULT_SEED: u64 = 1;

impl Default for Options {
    fn default() -> Self {
        Options {
            files: DEFAULT_FILES,
            seed: DEFAULT_SEED,
            queries: true,
            families: false,
            lawful: Rules::PAPERS,
        }
    }
}

/// A case on which two checkers differ, or a checker and the long way, or of which the second opinion on
/// lawful instances finds something.
#[derive(Clone, Debug)]
pub struct Difference {
    /// The number of the file in the run.
    pub number: u64,
    pub what: String,
    pub case: Case,
    /// The case made small, and its difference.
    pub shrunk: Case,
    pub shrunk_what: String,
}

impl Display for Difference {
    fn fmt(&self, f: &mut Formatter) -> fmt::Result {
        writeln!(
            f,
            "DIFFERENCE at file {} ({} bytes): {}",
            self.number,
            self.case.file.len(),
            self.what
        )?;
        writeln!(f, "shrunk: {}", self.shrunk_what)?;
        write!(f, "{}", self.shrunk)
    }
}

/// What a run found.
#[derive(Clone, Debug, Default)]
pub struct Report {
    pub coverage: Coverage,
    pub files: u64,
    pub bytes: u64,
    pub cases: u64,
    pub families: u64,
    /// Expansions among the calls, and those of them that were written.
    pub expansions: u64,
    pub written: u64,
    /// Calls left out because a checker does not offer them.
    pub not_offered: u64,
    /// Answers the same the long way, expansions among them, and those it gave up on.
    pub long_way: u64,
    pub expanded_the_long_way: u64,
    pub given_up: u64,
    /// Likeness and bodies that are what the generator knows.
    pub by_the_model: u64,
    /// Files judged the same by the book: the verdict, and every byte of every card.
    pub by_the_book: u64,
    /// Brought definitions that the second opinion on lawful instances looked at, and gave up.
    pub stayed_lawful: u64,
    pub opinions_given_up: u64,
    /// What the second opinion on cards compared.
    pub exact: Compared,
    pub difference: Option<Difference>,
}

impl Display for Report {
    fn fmt(&self, f: &mut Formatter) -> fmt::Result {
        writeln!(
            f,
            "{} files of {} bytes in all, {} calls of each checker, {} of them hostile or realistic",
            self.files, self.bytes, self.cases, self.families
        )?;
        writeln!(
            f,
            "{} of the calls are expansions, {} of them written",
            self.expansions, self.written
        )?;
        writeln!(
            f,
            "{} answers the same the long way, {} of them expansions; it gave up {} times",
            self.long_way, self.expanded_the_long_way, self.given_up
        )?;
        writeln!(
            f,
            "{} answers as the generator knows them, {} files judged the same by the book",
            self.by_the_model, self.by_the_book
        )?;
        writeln!(
            f,
            "{} brought definitions lawful by the second opinion; it gave up {} times",
            self.stayed_lawful, self.opinions_given_up
        )?;
        let Compared {
            definitions,
            vectors,
            alike,
            unlike,
            given_up,
        } = self.exact;
        writeln!(
            f,
            "{} cards exact at {vectors} vectors by the second opinion, by parameters {definitions:?}; {alike} equal to one before, {unlike} not; it gave up {given_up} times",
            definitions.iter().sum::<u64>(),
        )?;
        if self.not_offered > 0 {
            let count = self.not_offered;
            writeln!(f, "{count} calls left out: not offered by both checkers")?;
        }
        write!(f, "{}", self.coverage)
    }
}

/// A generated file.
#[derive(Clone, Debug, PartialEq, Eq)]
pub struct Generated {
    pub file: Vec<u8>,
    /// What it is meant to show, to be counted if it is refused so, or accepted.
    pub meant: Option<(Section, String, Option<Meant>)>,
    /// What becomes of the levels of definitions that it brings, to be found before it is counted.
    pub moves: Vec<Move>,
    /// Queries that come with it.
    pub calls: Vec<Call>,
}

/// A cause, and its place if that is known.
#[derive(Clone, Copy, Debug, PartialEq, Eq)]
pub struct Meant {
    pub cause: u32,
    pub place: Option<u32>,
}

/// The bytes and modules of an accepted file to grow.
fn size(random: &mut Random) -> (usize, usize) {
    let size = match random.below(100) {
        0..=9 => random.below(30),
        10..=49 => 30 + random.below(300),
        50..=79 => 300 + random.below(1_200),
        80..=95 => 1_500 + random.below(5_000),
        96..=98 => 8_000 + random.below(12_000),
        _ => 24_000 + random.below(8_700),
    };
    let modules = match random.below(20) {
        0 => 16,
        1 => 8,
        _ => 1 + random.below(if size < 30 { 1 } else { 5 }),
    };
    (size, modules)
}

/// Files of one turn.
const TURN: u64 = 34;

/// The file of this number in a run. Numbers take turns through all the kinds of files.
pub fn generate(seed: u64, number: u64) -> Generated {
    let mut random = Random::part(seed, number);
    let random = &mut random;
    let (turn, slot) = ((number / TURN) as usize, number % TURN);
    let plain = |file: Vec<u8>| Generated {
        file,
        meant: None,
        moves: Vec::new(),
        calls: Vec::new(),
    };
    match slot {
        2 => plain(accepted::grow_chain(random).bytes()),
        0 | 1 => {
            let (size, modules) = size(random);
            plain(accepted::grow(random, size, modules).bytes())
        }
        3 | 4 => {
            let number = 2 * turn + slot as usize - 3;
            let substituted = substitutes::build(number % substitutes::count(), random);
            let unlawful = Meant {
                cause: 14,
                place: None,
            };
            let meant = Some(unlawful).filter(|_| !substituted.lawful);
            Generated {
                meant: Some((Section::Substitute, substituted.label, meant)),
                ..plain(substituted.file)
            }
        }
        5..=12 => {
            let plans = faults::plans();
            let plan: Plan = plans[(8 * turn + slot as usize - 5) % plans.len()];
            let targeted = faults::build(plan, random);
            let meant = Meant {
                cause: targeted.cause,
                place: Some(targeted.place),
            };
            Generated {
                meant: Some((Section::Fault, plan.label(), Some(meant))),
                ..plain(targeted.file)
            }
        }
        13 => {
            let limited = limits::build(turn % limits::count(), random);
            let meant = limited.cause.map(|cause| Meant { cause, place: None });
            Generated {
                meant: Some((Section::Limit, limited.label, meant)),
                ..plain(limited.file)
            }
        }
        14 | 15 => {
            let (size, modules) = (20 + random.below(600), 1 + random.below(4));
            let grown = accepted::grow(random, size, modules);
            plain(syntax::file(&damage::fields(random, &grown.fields)))
        }
        16 | 17 => {
            let (size, modules) = (random.below(500), 1 + random.below(4));
            let mut file = accepted::grow(random, size, modules).bytes();
            damage::bytes(random, &mut file);
            plain(file)
        }
        18 if turn.is_multiple_of(4) => {
            // Expansions at the longest length.
            let length = random.pick(&[65_534, 65_535, 65_535, 65_536, 65_537, 30_000]);
            let (file, expr) = queries::of_length(length);
            let room = random.pick(&[length, length, length - 1, length + 1, 65_535, 70_000]);
            let call = |room| Call::Expand {
                module: 1,
                expr: expr.clone(),
                params: 0,
                room,
            };
            Generated {
                calls: vec![call(room), call(70_000)],
                ..plain(file)
            }
        }
        18 if turn % 4 == 1 => {
            let mut fields = accepted::grow(random, 100, 1).fields;
            damage::unknown_code(random, &mut fields, turn / 4);
            plain(syntax::file(&fields))
        }
        18 => plain(damage::random_bytes(random)),
        20..=22 => {
            let number = 3 * turn + slot as usize - 20;
            let mixed = mixing::build(number % mixing::count(), random);
            let meant = mixed.fault.map(|place| Meant {
                cause: 12,
                place: Some(place),
            });
            Generated {
                meant: Some((Section::Mixing, mixed.label, meant)),
                calls: mixed.calls,
                ..plain(mixed.file)
            }
        }
        23..=25 => {
            let number = 3 * turn + slot as usize - 23;
            let number = number % mixed_substitutes::count();
            let mixed = mixed_substitutes::build(number, random);
            let meant = mixed.cause.map(|cause| Meant { cause, place: None });
            Generated {
                meant: Some((Section::MixedSubstitutes, mixed.label, meant)),
                ..plain(mixed.file)
            }
        }
        30 | 31 => {
            let number = 2 * turn + slot as usize - 30;
            let wide = wide::build(number % wide::count(), random);
            let meant = wide.fault.map(|place| Meant {
                cause: 12,
                place: Some(place),
            });
            Generated {
                meant: Some((Section::Wide, wide.label, meant)),
                calls: wide.calls,
                ..plain(wide.file)
            }
        }
        26..=29 => {
            let number = 4 * turn + slot as usize - 26;
            let lawful = lawful::build(number % lawful::count(), random);
            let meant = lawful.refusal.map(|(cause, place)| Meant {
                cause,
                place: Some(place),
            });
            Generated {
                meant: Some((Section::Lawful, lawful.label, meant)),
                moves: lawful.moves,
                ..plain(lawful.file)
            }
        }
        32 | 33 => {
            let (grown, calls) = dropping::grow_dropping(random);
            Generated {
                calls,
                ..plain(grown.bytes())
            }
        }
        _ => {
            // A file that was refused while another grew.
            let grown = accepted::grow(random, 400, 4);
            match grown.refused.is_empty() {
                true => plain(grown.bytes()),
                false => plain(random.pick(&grown.refused)),
            }
        }
    }
}

struct Runner<'a> {
    left: &'a dyn Checker,
    right: &'a dyn Checker,
    /// What both can be asked.
    offer: Offer,
    report: Report,
    number: u64,
}

/// What two checkers can both be asked.
pub fn offer(left: &dyn Checker, right: &dyn Checker) -> Offer {
    left.offer().min(right.offer())
}

/// Compares two checkers, up to the first difference.
pub fn run(left: &dyn Checker, right: &dyn Checker, options: Options) -> Report {
    let mut runner = Runner {
        left,
        right,
        offer: offer(left, right),
        report: Report::default(),
        number: 0,
    };
    for number in 0..options.files {
        runner.number = number;
        if runner.file(options).is_none() {
            return runner.report;
        }
    }
    if options.families {
        runner.number = options.files;
        runner.families();
    }
    runner.report
}

/// Most tokens of a tree of the long way.
const FUEL: usize = 2_000;
/// The same where cards are looked at, at many vectors.
const EXACT: usize = 500;
/// Most bytes of a file that is judged by the book as well, and whose cards are looked at.
const BOOK: usize = 4_000;

impl Runner<'_> {
    /// Whether both sides offer a call; one left out is counted.
    fn offered(&mut self, call: &Call) -> bool {
        let offered = call.wants() <= self.offer;
        self.report.not_offered += u64::from(!offered);
        offered
    }

    /// Runs a case on both sides. `None` if they differ.
    fn compare(&mut self, case: &Case) -> Option<Outcome> {
        self.report.cases += 1;
        let left = case.run(self.left);
        let right = case.run(self.right);
        let Some(what) = case.difference(&left, &right) else {
            if case.call.wants() == Offer::Expansions {
                self.report.expansions += 1;
                self.report.written += u64::from(case.refusal(&left).is_none());
            }
            return Some(left);
        };
        let kind = case.kind(&left, &right);
        let shrunk = shrink::shrink(case, &mut |case| {
            let (left, right) = (case.run(self.left), case.run(self.right));
            case.kind(&left, &right) == kind
        });
        let (left, right) = (shrunk.run(self.left), shrunk.run(self.right));
        let shrunk_what = shrunk.difference(&left, &right).unwrap_or_default();
        self.report.difference = Some(Difference {
            number: self.number,
            what,
            case: case.clone(),
            shrunk,
            shrunk_what,
        });
        None
    }

    /// Compares the calls of all families. `None` at a difference.
    fn families(&mut self) -> Option<()> {
        let all = [
            families::usual(),
            families::checks(),
            families::queries(false),
            eight::families(false),
            instances::families(),
        ];
        for family in all.iter().flatten() {
            if !self.offered(&family.call) {
                continue;
            }
            let case = Case::new(&family.file, family.call.clone());
            let outcome = self.compare(&case)?;
            self.report.families += 1;
            let expanded = matches!(case.call, Call::Expand { .. });
            if expanded && case.refusal(&outcome).is_none() {
                self.rooms(&case, outcome.reply as usize)?;
            }
        }
        Some(())
    }

    /// Compares an expansion of so many bytes into outputs of other lengths. `None` at a difference.
    fn rooms(&mut self, case: &Case, length: usize) -> Option<()> {
        for room in expansions::rooms(length) {
            let call = expansions::into_room(&case.call, room);
            self.compare(&Case::new(&case.file, call))?;
            self.report.families += 1;
        }
        Some(())
    }

    /// Notes a difference from the long way.
    fn astray(&mut self, case: &Case, what: String) {
        self.report.difference = Some(Difference {
            number: self.number,
            shrunk: case.clone(),
            shrunk_what: what.clone(),
            what,
            case: case.clone(),
        });
    }

    /// Compares all the calls on one file. `None` at a difference.
    fn file(&mut self, options: Options) -> Option<()> {
        let generated = generate(options.seed, self.number);
        let mut random = Random::part(!options.seed, self.number);
        let random = &mut random;
        let file = generated.file;
        self.report.files += 1;
        self.report.bytes += file.len() as u64;
        let mut case = Case::new(&file, Call::Check);
        case.fill = random.byte();
        let outcome = self.compare(&case)?;
        let verdict = case.refusal(&outcome);
        self.report.coverage.case(&case, &outcome, verdict);
        let checked = case.clone();
        case.cards = queries::card_memory(random);
        if case.cards != CARDS {
            let outcome = self.compare(&case)?;
            self.report.coverage.case(&case, &outcome, verdict);
        }
        self.by_the_book(&checked, &outcome, verdict)?;
        let seen = self.second_opinion(&checked, options.lawful)?;
        if let Some((section, label, meant)) = generated.meant {
            let as_meant = match meant {
                None => verdict.is_none(),
                Some(Meant { cause, place }) => verdict.is_some_and(|(number, at)| {
                    number == cause && place.is_none_or(|place| place == at)
                }),
            };
            let moved = generated.moves.iter().all(|only| only.count(&seen) > 0);
            if as_meant && moved {
                self.report.coverage.count(section, label);
            }
        }
        for call in generated.calls.iter().filter(|_| options.queries) {
            if !self.offered(call) {
                continue;
            }
            let case = Case::new(&file, call.clone());
            let outcome = self.compare(&case)?;
            self.report.coverage.case(&case, &outcome, verdict);
        }
        if verdict.is_some() {
            self.report.coverage.refused += 1;
            if options.queries && random.chance(15) {
                let case = queries::blind(random, &file);
                if self.offered(&case.call) {
                    let outcome = self.compare(&case)?;
                    self.report.coverage.case(&case, &outcome, verdict);
                }
            }
            return Some(());
        }
        self.report.coverage.accepted += 1;
        let fields = syntax::fields(&file);
        let cards = &outcome.cards[..CARDS];
        self.report.coverage.file(file.len(), &fields, cards);
        let model = Model::of(&fields, cards);
        if file.len() <= BOOK {
            self.exact_cards(&checked, cards)?;
        }
        let long_way = file.len() < 2_000 && random.chance(60);
        if long_way && !model.definitions.is_empty() {
            for _ in 0..3 {
                self.card_the_long_way(random, &case, &model)?;
            }
        }
        if options.queries {
            for _ in 0..3 + random.below(4) {
                self.query(random, &file, &model, long_way)?;
            }
            if file.len() <= BOOK {
                self.nearly_alike(&file, &model)?;
            }
        }
        Some(())
    }

    /// Asks of definitions whose cards differ in one byte: for each byte the first two of the file.
    fn nearly_alike(&mut self, file: &[u8], model: &Model) -> Option<()> {
        let mut asked = [false; CARD];
        for (first, second) in cards::pairs(model.definitions.len()) {
            let both = model.card(first).iter().zip(model.card(second));
            let mut differ = both.enumerate().filter(|(_, (a, b))| a != b);
            let (Some((byte, _)), None) = (differ.next(), differ.next()) else {
                continue;
            };
            let [a, b] = [first, second].map(|number| number as u32);
            let call = Call::Alike { a, b };
            if std::mem::replace(&mut asked[byte], true) || !self.offered(&call) {
                continue;
            }
            let case = Case::new(file, call);
            let outcome = self.compare(&case)?;
            self.report.coverage.case(&case, &outcome, None);
            self.query_by_the_model(&case, &outcome, model)?;
        }
        Some(())
    }

    fn query(
        &mut self,
        random: &mut Random,
        file: &[u8],
        model: &Model,
        long_way: bool,
    ) -> Option<()> {
        let query = queries::query(random, file, model);
        if !self.offered(&query.case.call) {
            return Some(());
        }
        let outcome = self.compare(&query.case)?;
        let coverage = &mut self.report.coverage;
        coverage.case(&query.case, &outcome, None);
        let refusal = query.case.refusal(&outcome);
        let first = matches!(refusal, Some((1, _)));
        if let Some(label) = query.label.filter(|_| !first) {
            let short = label == "expand, one byte short";
            if !short || matches!(refusal, Some((18, _))) {
                coverage.query(label);
            }
        }
        if !first {
            self.query_by_the_model(&query.case, &outcome, model)?;
        }
        if long_way && !first {
            self.query_the_long_way(&query.case, &outcome)?;
        }
        Some(())
    }

    /// Compares likeness and bodies with what the generator knows of the file.
    fn query_by_the_model(&mut self, case: &Case, outcome: &Outcome, model: &Model) -> Option<()> {
        let known = match case.call {
            Call::Alike { a, b } => model.alike(a, b).map(u64::from),
            Call::Body { d } => {
                let part = model.body(&case.file, d);
                part.map(|(start, length)| 65_536 * start as u64 + length as u64)
            }
            _ => return Some(()),
        };
        let same = match known {
            Some(reply) => outcome.reply == reply,
            None => case.refusal(outcome) == Some((17, 0)),
        };
        if same {
            self.report.by_the_model += 1;
            return Some(());
        }
        let reply = case.reply(outcome);
        self.astray(
            case,
            format!("reply {reply}, the generator knows {known:?}"),
        );
        None
    }

    /// Compares a verdict and all cards with those of a second judge.
    fn by_the_book(
        &mut self,
        case: &Case,
        outcome: &Outcome,
        verdict: Option<(u32, u32)>,
    ) -> Option<()> {
        if case.file.len() > BOOK {
            return Some(());
        }
        let Some(judged) = book::judge(&case.file, None) else {
            return Some(());
        };
        let same = match (&judged, verdict) {
            (Ok(book), None) => {
                let used = CARD * book.model.definitions.len();
                outcome.cards[..used] == book.model.cards[..used]
            }
            (Err(refusal), Some(verdict)) => *refusal == verdict,
            _ => false,
        };
        if same {
            self.report.by_the_book += 1;
            return Some(());
        }
        let judged = judged.err();
        self.astray(
            case,
            format!("verdict {verdict:?}, by the book {judged:?}, or the cards differ"),
        );
        None
    }

    /// Asks for a second opinion that what the lawful INSTANCEs of a file bring stays lawful. `None` if it
    /// does not.
    fn second_opinion(&mut self, case: &Case, rules: Rules) -> Option<Seen> {
        let opinion = |file: &[u8]| reference::staying_lawful_by(rules, file, FUEL);
        let reference::Opinion { broken, seen } = opinion(&case.file);
        let Some(first) = broken.first() else {
            let looked_at = [seen.constant, seen.other];
            let definitions: u64 = looked_at.iter().flatten().flatten().sum();
            self.report.stayed_lawful += definitions;
            self.report.opinions_given_up += seen.given_up;
            self.report.coverage.staying(&seen);
            return Some(seen);
        };
        let shrunk = shrink::shrink(case, &mut |case| {
            let broken = opinion(&case.file).broken;
            broken.iter().any(|other| other.breach == first.breach)
        });
        let what =
            |broken: &[reference::Broken]| format!("not lawful where it is brought: {broken:?}");
        self.report.difference = Some(Difference {
            number: self.number,
            what: what(&broken),
            case: case.clone(),
            shrunk_what: what(&opinion(&shrunk.file).broken),
            shrunk,
        });
        None
    }

    /// Asks for a second opinion on the cards of an accepted file. `None` if one is not exact.
    fn exact_cards(&mut self, case: &Case, cards: &[u8]) -> Option<()> {
        let opinion = match reference::exact_cards(&case.file, cards, EXACT) {
            Ok(opinion) => opinion,
            Err(refusal) => {
                self.astray(case, format!("accepted, and refused: {refusal:?}"));
                return None;
            }
        };
        if opinion.inexact.is_empty() {
            self.report.exact += opinion.compared;
            return Some(());
        }
        self.astray(case, format!("cards not exact: {:?}", opinion.inexact));
        None
    }

    /// Compares a card at a vector with the long way's level.
    fn card_the_long_way(&mut self, random: &mut Random, case: &Case, model: &Model) -> Option<()> {
        let d = random.below(model.definitions.len());
        let count = model.definitions[d].parameters;
        let vectors = reference::vectors(count as usize);
        let levels = random.pick(vectors);
        let found = cards::read(model.card(d), &levels) as u32;
        match reference::long_way_definition(&case.file, d as u32, &levels, FUEL) {
            None => self.report.given_up += 1,
            Some(Ok(level)) if level == found => self.report.long_way += 1,
            Some(other) => {
                let what = format!("card {d} at {levels:?} says {found}, the long way {other:?}");
                self.astray(case, what);
                return None;
            }
        }
        Some(())
    }

    /// Compares a reply to a query with the long way's.
    fn query_the_long_way(&mut self, case: &Case, outcome: &Outcome) -> Option<()> {
        let refusal = case.refusal(outcome);
        let same = match &case.call {
            Call::Level {
                module,
                expr,
                levels,
            } => {
                let way = reference::long_way(&case.file, *module, expr, levels, FUEL);
                way.map(|way| match way {
                    Ok(level) => refusal.is_none() && level as u64 == outcome.reply,
                    Err(error) => refusal == Some((error.number, error.place)),
                })
            }
            Call::Expand {
                module,
                expr,
                params,
                room,
            } => {
                let way = reference::long_way_expansion(&case.file, *module, expr, *params, FUEL);
                way.map(|way| match way {
                    Ok(bytes) if bytes.len() > 65_535.min(*room) => {
                        matches!(refusal, Some((18, 0)))
                    }
                    Ok(bytes) => {
                        outcome.reply == bytes.len() as u64 && outcome.out.starts_with(&bytes)
                    }
                    Err(error) => refusal == Some((error.number, error.place)),
                })
            }
            _ => return Some(()),
        };
        match same {
            None => self.report.given_up += 1,
            Some(true) => {
                let expanded = case.call.wants() == Offer::Expansions;
                self.report.long_way += 1;
                self.report.expanded_the_long_way += u64::from(expanded);
            }
            Some(false) => {
                let reply = case.reply(outcome);
                self.astray(case, format!("reply {reply}, the long way another"));
                return None;
            }
        }
        Some(())
    }
}
