//! A run at the default seed holds every cause, construct, fault, limit and kind of query; and runs
//! follow from their seeds.

use differential::checker::{Checker, Offer, Queries, Reference};
use differential::coverage::{Coverage, Section};
use differential::dropping;
use differential::lawful;
use differential::random::Random;
use differential::runner::{generate, offer, run, Options};
use std::collections::BTreeMap;

#[test]
fn counts_are_complete_at_the_default_seed() {
    let report = run(&Reference, &Reference, Options::default());
    if let Some(difference) = report.difference {
        panic!("{difference}");
    }
    let missing = report.coverage.missing(Offer::Expansions);
    assert!(missing.is_empty(), "missing:\n{}", missing.join("\n"));
    assert!(report.long_way > 1_000, "{report}");
    assert!(report.by_the_book > 1_500, "{report}");
    let exact = report.exact;
    assert!(
        exact.definitions.iter().all(|&count| count > 100),
        "{report}"
    );
    assert!(
        exact.given_up < 50 && exact.alike > 1_000 && exact.unlike > 1_000,
        "{report}"
    );
}

/// The reference without its expansions.
struct NoExpansions;

impl Checker for NoExpansions {
    fn name(&self) -> String {
        "no expansions".into()
    }

    fn check(&self, file: &[u8], cards: &mut [u8]) -> u32 {
        Reference.check(file, cards)
    }

    fn queries(&self) -> Option<&dyn Queries> {
        Some(self)
    }
}

impl Queries for NoExpansions {
    fn level(&self, file: &[u8], cards: &mut [u8], module: u16, expr: &[u8], levels: &[u8]) -> u32 {
        Reference.level(file, cards, module, expr, levels)
    }

    fn alike(&self, file: &[u8], cards: &mut [u8], a: u32, b: u32) -> u32 {
        Reference.alike(file, cards, a, b)
    }

    fn body(&self, file: &[u8], cards: &mut [u8], d: u32) -> u64 {
        Reference.body(file, cards, d)
    }
}

#[test]
fn expansions_that_are_not_offered_are_counted() {
    assert_eq!(offer(&Reference, &NoExpansions), Offer::Queries);
    let report = run(&Reference, &NoExpansions, Options::default());
    assert!(report.difference.is_none());
    assert!(report.not_offered > 500, "{report}");
    assert!(report.by_the_model > 300, "{report}");
    let missing = report.coverage.missing(Offer::Queries);
    assert!(missing.is_empty(), "missing:\n{}", missing.join("\n"));
    let whole = report.coverage.missing(Offer::Expansions);
    assert!(whole.contains(&"Query: expand".to_string()));
}

#[test]
fn few_files_are_not_enough() {
    let options = Options {
        files: 20,
        ..Options::default()
    };
    let report = run(&Reference, &Reference, options);
    let missing = report.coverage.missing(Offer::Expansions);
    // What the second opinion has to look at has to be there more than once.
    let rise = lawful::MOVES[2];
    assert!(rise.constant && rise.brought == 2);
    let (section, what) = (Section::Staying, rise.label());
    let few = format!("{section:?}: {what}");
    assert!(missing.contains(&few), "missing:\n{}", missing.join("\n"));
    let mut coverage = report.coverage;
    for enough in [false, true] {
        assert_eq!(!coverage.missing(Offer::Expansions).contains(&few), enough);
        (0..20).for_each(|_| coverage.count(section, what.clone()));
    }
}

#[test]
fn no_reply_has_the_number_15() {
    let options = Options {
        files: 20,
        ..Options::default()
    };
    let mut coverage = run(&Reference, &Reference, options).coverage;
    let found = |coverage: &Coverage| {
        let missing = coverage.missing(Offer::Checks);
        missing.iter().any(|what| what.starts_with("Cause: 15"))
    };
    assert!(!found(&coverage));
    coverage.count(Section::Cause, "15");
    assert!(found(&coverage));
}

/// Chains of instances that drop arguments, in every way that there is; and whoever is asked of them is asked of
/// what was brought last.
#[test]
fn arguments_are_dropped_in_every_way() {
    let mut counts: BTreeMap<String, u32> = BTreeMap::new();
    for seed in 0..300 {
        let (grown, calls) = dropping::grow_dropping(&mut Random::new(seed));
        let mut cards = vec![0; reference::Limits::CARDS];
        let checked = reference::check(&grown.bytes(), &mut cards);
        assert!(checked.is_ok(), "{seed}: {checked:?}");
        assert!(grown.bytes().len() <= 4_000 && calls.len() == 3, "{seed}");
        for what in dropping::seen(&grown.fields, &cards) {
            *counts.entry(what).or_insert(0) += 1;
        }
    }
    for what in dropping::labels() {
        let count = counts.remove(&what).unwrap_or(0);
        println!("{count:4} {what}");
        assert!(count >= 5, "{what}: {count}");
    }
    assert!(counts.is_empty(), "{counts:?}");
}

#[test]
fn runs_follow_from_their_seeds() {
    let options = Options {
        files: 150,
        seed: 7,
        ..Options::default()
    };
    let first = run(&Reference, &Reference, options);
    let second = run(&Reference, &Reference, options);
    assert_eq!(first.coverage, second.coverage);
    assert_eq!(first.cases, second.cases);
    assert_eq!(first.bytes, second.bytes);
    let files = |seed: u64| (0..60).map(move |number| generate(seed, number));
    assert!(files(3).eq(files(3)));
    assert!(!files(3).eq(files(4)));
}

#[test]
fn families_are_as_they_are_meant() {
    use differential::cases::Case;
    use differential::families;
    for family in [families::usual(), families::checks()].iter().flatten() {
        let case = Case::new(&family.file, family.call.clone());
        let refusal = case.refusal(&case.run(&Reference));
        let expected = family.label.starts_with('h').then_some(16);
        assert_eq!(
            refusal.map(|(cause, _)| cause),
            expected,
            "{}",
            family.label
        );
    }
    for family in families::queries(false) {
        let case = Case::new(&family.file, family.call.clone());
        let refusal = case.refusal(&case.run(&Reference));
        let lawful = match refusal {
            Some((3, _)) => family.label.contains("a byte too many"),
            Some((5, _)) => family.label.contains("deep"),
            Some((9, _)) => family.label.contains("an unknown name"),
            _ => matches!(refusal, None | Some((18, _))),
        };
        assert!(lawful, "{}: {refusal:?}", family.label);
    }
}

/// Expansions in which calls nest deep: those that say so are as long as there is room for, or longer.
#[test]
fn deep_families_are_as_they_are_meant() {
    use differential::cases::Case;
    use differential::nesting;
    const TOO_LONG: [&str; 5] = ["too long", "65,520", "65,537", "compositions", "all of 230"];
    let mut at_the_limit = 0;
    for family in nesting::all() {
        let case = Case::new(&family.file, family.call.clone());
        let outcome = case.run(&Reference);
        let refused = case.refusal(&outcome);
        let meant = TOO_LONG.iter().any(|what| family.label.contains(what));
        let expected = meant.then_some((18, 0));
        assert_eq!(refused, expected, "{}", family.label);
        if family.label.contains("65,535 bytes") {
            assert_eq!(outcome.reply, 65_535, "{}", family.label);
        }
        at_the_limit += u32::from(outcome.reply == 65_535);
    }
    assert!(at_the_limit > 15, "{at_the_limit}");
}
