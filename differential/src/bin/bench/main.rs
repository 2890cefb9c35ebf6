//! Times one or two level checkers on realistic files and on hostile families.

mod limited;

use differential::cases::Case;
use differential::checker::Checker;
use differential::checker_named;
use differential::eight;
use differential::families::{self, Family, Memory};
use differential::instances;
use std::iter;
use std::process::ExitCode;
use std::time::{Duration, Instant};

const USAGE: &str = "bench [--left CHECKER] [--right CHECKER] [--rounds N] [--large] [--only LABEL]
       bench --limit SECONDS [--left CHECKER] [--only LABEL]";

struct Arguments {
    left: String,
    right: Option<String>,
    rounds: usize,
    large: bool,
    /// What the labels begin with.
    only: String,
    /// One checker, all families, each call given up after so many seconds.
    limit: Option<Duration>,
    /// How many families come first, which another process has seen to.
    after: Option<usize>,
}

fn arguments() -> Result<Arguments, String> {
    let mut parsed = Arguments {
        left: "reference".into(),
        right: cfg!(feature = "proved").then(|| "proved".into()),
        rounds: 5,
        large: false,
        only: String::new(),
        limit: None,
        after: None,
    };
    let mut given = std::env::args().skip(1);
    while let Some(option) = given.next() {
        if option == "--large" {
            parsed.large = true;
            continue;
        }
        let value = given.next().ok_or(format!("{option} needs a value"))?;
        let number = || {
            let number = value.parse::<usize>();
            number.map_err(|_| format!("{value} is not a number"))
        };
        match option.as_str() {
            "--rounds" => parsed.rounds = number()?,
            "--limit" => parsed.limit = Some(Duration::from_secs(number()? as u64)),
            "--after" => parsed.after = Some(number()?),
            "--left" => parsed.left = value,
            "--right" => parsed.right = Some(value),
            "--only" => parsed.only = value,
            _ => return Err(format!("no option is named {option}")),
        }
    }
    Ok(parsed)
}

/// The best time of several rounds; slow ones are not repeated often.
fn best(checker: &dyn Checker, family: &Family, rounds: usize, memory: &mut Memory) -> Duration {
    let begin = Instant::now();
    let mut best = Duration::MAX;
    for _ in 0..rounds.max(1) {
        let start = Instant::now();
        std::hint::black_box(family.call(checker, memory));
        best = best.min(start.elapsed());
        if begin.elapsed() > Duration::from_secs(2) {
            break;
        }
    }
    best
}

/// The families whose labels begin so.
fn families(only: &str, large: bool) -> Vec<Family> {
    let mut all = families::usual();
    all.extend(families::checks());
    all.extend(families::queries(large));
    all.extend(eight::families(large));
    all.extend(instances::families());
    all.retain(|family| family.label.starts_with(only));
    all
}

fn compare(given: &Arguments) -> Result<(), String> {
    let left = checker_named(&given.left)?;
    let right = given.right.as_deref().map(checker_named).transpose()?;
    let mut memory = Memory::default();
    print!(
        "{:40} {:>8} {:>18} {:>12}",
        "", "bytes", "reply", "left (ms)"
    );
    match &right {
        Some(_) => println!(" {:>12} {:>7}", "right (ms)", "ratio"),
        None => println!(),
    }
    let milliseconds = |time: Duration| time.as_secs_f64() * 1e3;
    let families = families(&given.only, given.large);
    // Queries only where both sides answer them.
    let answered = |family: &&Family| {
        let mut sides = iter::once(&left).chain(&right);
        sides.all(|side| family.is_answered_by(&**side))
    };
    for family in families.iter().filter(answered) {
        let case = Case::new(&family.file, family.call.clone());
        let reply = case.reply(&case.run(&*left));
        let time = best(&*left, family, given.rounds, &mut memory);
        let bytes = family.bytes();
        let label = &family.label;
        print!(
            "{label:40} {bytes:>8} {reply:>18} {:>12.3}",
            milliseconds(time)
        );
        if let Some(right) = &right {
            let other = best(&**right, family, given.rounds, &mut memory);
            let ratio = other.as_secs_f64() / time.as_secs_f64();
            print!(" {:>12.3} {ratio:>7.2}", milliseconds(other));
        }
        println!();
    }
    Ok(())
}

/// Whether all went well.
fn run() -> Result<bool, String> {
    let given = arguments()?;
    let said = |error: std::io::Error| error.to_string();
    match (given.limit, given.after) {
        (None, _) => compare(&given).map(|()| true),
        (Some(limit), None) => limited::table(limit).map_err(said),
        (_, Some(after)) => {
            let checker = checker_named(&given.left)?;
            let mut families = families(&given.only, true);
            families.retain(|family| family.is_answered_by(&*checker));
            let rest = families.get(after..).unwrap_or_default();
            limited::make(&*checker, rest).map_err(said)?;
            Ok(true)
        }
    }
}

fn main() -> ExitCode {
    match run() {
        Ok(true) => ExitCode::SUCCESS,
        Ok(false) => ExitCode::FAILURE,
        Err(error) => {
            eprintln!("{error}\nusage: {USAGE}");
            ExitCode::FAILURE
        }
    }
}
