//! Every fault put into the reference is found soon, and shown by a small file; so is every wrong rule of
//! what is lawful in an INSTANCE, by the second opinion.

use differential::checker::Reference;
use differential::faulty::{Faulty, FAULTS};
use differential::runner::{generate, run, Options, DEFAULT_SEED};
use reference::{staying_lawful_by, Breach, Rules};
use std::collections::BTreeSet;

/// Files within which a fault has to be found.
const FILES: u64 = 1_200;

#[test]
fn every_fault_is_found_and_shrunk() {
    let mut wrong = Vec::new();
    for (name, fault) in FAULTS {
        let options = Options {
            files: FILES,
            ..Options::default()
        };
        let report = run(&Reference, &Faulty(fault), options);
        let Some(found) = report.difference else {
            wrong.push(format!("{name}: not found"));
            continue;
        };
        let size = found.shrunk.file.len();
        println!(
            "{name}: file {}, {} bytes to {size}, {}: {}",
            found.number,
            found.case.file.len(),
            found.shrunk.call,
            found.shrunk_what
        );
        if size >= fault.most_bytes() {
            wrong.push(format!("{name}: shrunk to {size} bytes only\n{found}"));
        }
        if size > found.case.file.len() {
            wrong.push(format!("{name}: grown to {size} bytes"));
        }
    }
    assert!(wrong.is_empty(), "{}", wrong.join("\n"));
}

#[test]
fn wrong_rules_are_found_by_the_second_opinion() {
    const PAPERS: Rules = Rules::PAPERS;
    let variable = |variable| Rules { variable, ..PAPERS };
    let constant = |constant| Rules { constant, ..PAPERS };
    let operator = |operator| Rules { operator, ..PAPERS };
    let unmixed = Rules {
        mixed: false,
        ..PAPERS
    };
    for lawful in [
        variable(2),
        variable(3),
        constant(1),
        constant(2),
        constant(3),
        operator(1),
        operator(2),
        operator(3),
        unmixed,
    ] {
        let options = Options {
            files: FILES,
            lawful,
            ..Options::default()
        };
        let report = run(&Reference, &Reference, options);
        let found = report.difference.expect("something is not lawful");
        let size = found.shrunk.file.len();
        println!(
            "{lawful:?}: file {}, {size} bytes: {}",
            found.number, found.shrunk_what
        );
        assert!(found.shrunk_what.starts_with("not lawful"), "{found}");
        assert!(size < 90, "{lawful:?}: {size} bytes\n{found}");
        // The file written out breaks by these rules and not by the papers'.
        let broken = |rules| staying_lawful_by(rules, &found.shrunk.file, 1_000).broken;
        assert!(!broken(lawful).is_empty());
        assert!(broken(PAPERS).is_empty());
    }
}

/// How a breach is called.
fn called(breach: Breach) -> &'static str {
    match breach {
        Breach::Four => "4",
        Breach::Higher { .. } => "higher",
        Breach::TemporalToAction => "3 to 2",
        Breach::AboveSubstitutes { .. } => "above substitutes",
    }
}

/// Every way of breaking comes up by some wrong rule, and no other.
#[test]
fn wrong_rules_break_in_every_way() {
    const PAPERS: Rules = Rules::PAPERS;
    for (lawful, expected) in [
        (
            Rules {
                variable: 2,
                ..PAPERS
            },
            &["4", "higher"][..],
        ),
        (
            Rules {
                operator: 1,
                ..PAPERS
            },
            &["higher"],
        ),
        (
            Rules {
                operator: 2,
                ..PAPERS
            },
            &["3 to 2", "4", "above substitutes", "higher"],
        ),
        (
            Rules {
                mixed: false,
                ..PAPERS
            },
            &["4"],
        ),
    ] {
        let files = (0..FILES).map(|number| generate(DEFAULT_SEED, number).file);
        let broken = files.flat_map(|file| staying_lawful_by(lawful, &file, 1_000).broken);
        let ways: BTreeSet<_> = broken.map(|broken| called(broken.breach)).collect();
        assert!(ways.iter().eq(expected), "{lawful:?}: {ways:?}");
    }
}
