//! Compares two level checkers on generated files.

use differential::checker::Offer;
use differential::checker_named;
use differential::faulty::FAULTS;
use differential::runner::{offer, run, Options};
use std::process::ExitCode;
use std::time::Instant;

const USAGE: &str = "differential [--files N] [--seed S] [--left CHECKER] [--right CHECKER] \
                     [--queries]";

struct Arguments {
    options: Options,
    left: String,
    right: String,
}

fn arguments() -> Result<Arguments, String> {
    let mut parsed = Arguments {
        options: Options {
            queries: false,
            ..Options::default()
        },
        left: "reference".into(),
        right: if cfg!(feature = "proved") {
            "proved".into()
        } else {
            "reference".into()
        },
    };
    let mut given = std::env::args().skip(1);
    while let Some(option) = given.next() {
        if option == "--queries" {
            parsed.options.queries = true;
            parsed.options.families = true;
            continue;
        }
        let value = given.next().ok_or(format!("{option} needs a value"))?;
        let number = || {
            let number = value.parse::<u64>();
            number.map_err(|_| format!("{value} is not a number"))
        };
        match option.as_str() {
            "--files" => parsed.options.files = number()?,
            "--seed" => parsed.options.seed = number()?,
            "--left" => parsed.left = value,
            "--right" => parsed.right = value,
            _ => return Err(format!("no option is named {option}")),
        }
    }
    Ok(parsed)
}

fn compare() -> Result<bool, String> {
    let Arguments {
        options,
        left,
        right,
    } = arguments()?;
    let (left, right) = (checker_named(&left)?, checker_named(&right)?);
    let asked = match options.queries {
        true => offer(&*left, &*right),
        false => Offer::Checks,
    };
    if options.queries && asked == Offer::Checks {
        return Err("a checker of these answers no queries".into());
    }
    let (files, seed) = (options.files, options.seed);
    println!("{} and {}, seed {seed}", left.name(), right.name());
    let start = Instant::now();
    let report = run(&*left, &*right, options);
    if let Some(difference) = &report.difference {
        print!("{difference}");
        return Ok(false);
    }
    print!("{report}");
    println!("in {} s", start.elapsed().as_secs());
    let missing = report.coverage.missing(asked);
    for what in &missing {
        println!("MISSING {what}");
    }
    if !missing.is_empty() {
        println!("{} kinds did not occur in {files} files", missing.len());
    }
    Ok(missing.is_empty())
}

fn main() -> ExitCode {
    match compare() {
        Ok(true) => ExitCode::SUCCESS,
        Ok(false) => ExitCode::FAILURE,
        Err(error) => {
            let faults: Vec<&str> = FAULTS.iter().map(|(name, _)| *name).collect();
            eprintln!("{error}\nusage: {USAGE}");
            eprintln!("checkers: reference, proved, faulty:NAME");
            eprintln!("NAME: {}", faults.join(", "));
            ExitCode::FAILURE
        }
    }
}
