//! Times two archives against each other: a few calls of one and as many of the other in turn, in
//! the same process and memory, so that what else the machine does falls on both.
//!
//! `versus [--only LABEL] [--samples NUMBER] [--reference]`: the families whose labels begin so;
//! with the reference beside them, in its turn too.
//!
//! Before L7 cards took 32,000 bytes, a card 125, and there were three parameters at most. So 32,000 bytes
//! are lent, cards are compared only if both archives write them alike, and families with more than three
//! parameters are left out if the archive before takes no more.

use differential::checker::{Checker, Reference};
use differential::eight;
use differential::families::{self, Family, Memory};
use differential::instances;
use differential::proved::Proved;
use differential::syntax::{self, p, prime, Field};
use std::process::ExitCode;
use std::time::{Duration, Instant};

/// The archive as it was, under other names: see build.rs.
mod before {
    #[allow(dead_code)]
    pub mod bindings {
        include!(concat!(env!("OUT_DIR"), "/bindings.rs"));
    }
    pub mod checker {
        include!(concat!(env!("OUT_DIR"), "/checker.rs"));
    }
}

const BEFORE: &dyn Checker = &before::checker::Proved;
const NOW: &dyn Checker = &Proved;
const REFERENCE: &dyn Checker = &Reference;

/// Card memory that is enough for either archive.
const LENT: usize = 32_000;

const USAGE: &str = "usage: versus [--only LABEL] [--samples NUMBER] [--reference]";

/// A sample is as many calls as take this long at least.
const SAMPLE: Duration = Duration::from_millis(2);
/// A family is sampled no longer than this, but a few times at least.
const FAMILY: Duration = Duration::from_secs(3);
const FEW: usize = 5;

/// So many calls of a family.
fn time(checker: &dyn Checker, family: &Family, memory: &mut Memory, calls: u32) -> Duration {
    let start = Instant::now();
    for _ in 0..calls {
        std::hint::black_box(family.call(checker, memory));
    }
    start.elapsed()
}

/// How many calls make a sample.
fn calls_of(family: &Family, memory: &mut Memory) -> u32 {
    let mut calls = 1;
    while time(NOW, family, memory, calls) < SAMPLE {
        calls *= 2;
    }
    calls
}

/// Numbers in order, the middle one, and those a quarter from each end.
fn quarters(mut numbers: Vec<f64>) -> [f64; 3] {
    numbers.sort_by(f64::total_cmp);
    let at = |part: usize| numbers[(numbers.len() - 1) * part / 4];
    [at(1), at(2), at(3)]
}

/// The sides, timed in turn on the same input.
struct Sides(Vec<&'static dyn Checker>);

impl Sides {
    fn new(reference: bool) -> Self {
        let mut sides = vec![BEFORE, NOW];
        sides.extend(reference.then_some(REFERENCE));
        Sides(sides)
    }

    /// The times of a call on each side, in seconds, sample by sample.
    fn sampled(&self, family: &Family, samples: usize) -> Vec<Vec<f64>> {
        let mut memory = Memory::of(LENT);
        let calls = calls_of(family, &mut memory);
        let mut times = vec![Vec::new(); self.0.len()];
        let start = Instant::now();
        for sample in 0..samples {
            if sample >= FEW && start.elapsed() > FAMILY {
                break;
            }
            // Each is the first in its turn.
            for turn in 0..self.0.len() {
                let side = (sample + turn) % self.0.len();
                let taken = time(self.0[side], family, &mut memory, calls).as_secs_f64();
                times[side].push(taken / f64::from(calls));
            }
        }
        times
    }

    fn heading(&self) {
        print!(
            "{:<66} {:>12} {:>12} {:>7} (middle half)  ",
            "microseconds of a call", "before", "now", "ratio"
        );
        if self.0.len() > 2 {
            print!(" {:>12} {:>7} {:>7}", "reference", "before", "now");
        }
        println!();
    }

    /// One line of the table, and the ratio's middle.
    fn compare(&self, family: &Family, samples: usize) -> f64 {
        let times = self.sampled(family, samples);
        let middle = |side: usize| quarters(times[side].clone())[1] * 1e6;
        let ratios = |side: usize, to: usize| {
            let pairs = times[side].iter().zip(&times[to]);
            quarters(pairs.map(|(one, other)| one / other).collect())
        };
        let [low, ratio, high] = ratios(1, 0);
        print!(
            "{:<66} {:>12.1} {:>12.1} {ratio:>7.3} ({low:.3} to {high:.3})",
            family.label,
            middle(0),
            middle(1),
        );
        if times.len() > 2 {
            let [before, now] = [0, 1].map(|side| ratios(side, 2)[1]);
            print!(" {:>12.1} {before:>7.2} {now:>7.2}", middle(2));
        }
        println!();
        ratio
    }
}

/// A file of one definition of so many parameters, the last one primed: what a checker makes of it.
fn defined(checker: &dyn Checker, parameters: u8) -> (u32, Vec<u8>) {
    let body = prime(p(parameters - 1));
    let file = syntax::file(&[
        Field::Module(1),
        Field::Definition(1, parameters, body),
        Field::End,
    ]);
    let mut cards = vec![0; LENT];
    (checker.check(&file, &mut cards), cards)
}

/// Whether both give the same reply and output, and the same cards if these are written alike.
fn agree(family: &Family, same_cards: bool) -> bool {
    let seen = |checker| {
        let mut memory = Memory::of(LENT);
        let reply = family.call(checker, &mut memory);
        (reply, memory)
    };
    let (before, now) = (seen(BEFORE), seen(NOW));
    let cards = !same_cards || before.1.cards() == now.1.cards();
    before.0 == now.0 && before.1.out() == now.1.out() && cards
}

fn main() -> ExitCode {
    let mut only = String::new();
    let mut samples = 40;
    let mut reference = false;
    let mut words = std::env::args().skip(1);
    while let Some(word) = words.next() {
        let mut value = || words.next().expect(USAGE);
        match word.as_str() {
            "--only" => only = value(),
            "--samples" => samples = value().parse().expect("a number"),
            "--reference" => reference = true,
            _ => panic!("{USAGE}"),
        }
    }
    assert!(samples > 0, "no samples");
    let mut all = families::usual();
    all.extend(families::checks());
    all.extend(families::queries(true));
    if defined(BEFORE, 8).0 == 1 {
        all.extend(eight::families(true));
        all.extend(instances::families());
    } else {
        println!("families with more than three parameters are left out: the archive before takes no more");
    }
    let same_cards = defined(BEFORE, 1).1 == defined(NOW, 1).1;
    if !same_cards {
        println!("cards are written otherwise by the archive before: only replies and outputs are compared");
    }
    all.retain(|family| family.label.starts_with(&only));
    assert!(!all.is_empty(), "no family's label begins with {only}");

    let sides = Sides::new(reference);
    sides.heading();
    let mut ratios = Vec::new();
    let mut differing = 0;
    for family in &all {
        ratios.push((sides.compare(family, samples), &family.label));
        if !agree(family, same_cards) {
            differing += 1;
            println!("    the two differ in reply or memory");
        }
    }
    ratios.sort_by(|a, b| a.0.total_cmp(&b.0));
    let ((least, _), (most, label)) = (ratios[0], ratios[ratios.len() - 1]);
    println!(
        "{} families, {differing} with another reply or memory; ratios from {least:.3} to {most:.3} ({label})",
        ratios.len()
    );
    match differing {
        0 => ExitCode::SUCCESS,
        _ => ExitCode::FAILURE,
    }
}
