//! Times every input on both sides with criterion, then prints one table and the verdict.

use benchmarks::inputs::{self, Input};
use benchmarks::table::{Row, Table, Timed, LIMIT};
use benchmarks::time::Time;
use benchmarks::{ARCHIVE, REFERENCE};
use criterion::{BenchmarkId, Criterion, SamplingMode, Throughput};
use differential::cases::{Case, Outcome};
use differential::checker::Checker;
use differential::families::Memory;
use std::path::{Path, PathBuf};
use std::process::ExitCode;
use std::time::{Duration, Instant};
use std::{env, fs};

/// A call that takes longer is sampled as seldom as criterion lets one.
const SLOW: Duration = Duration::from_millis(5);

/// The directory of criterion's results: as its variable says, else one that is known here.
fn results() -> PathBuf {
    const VARIABLE: &str = "CRITERION_HOME";
    if let Some(directory) = env::var_os(VARIABLE) {
        return directory.into();
    }
    let directory = Path::new(env!("CARGO_TARGET_TMPDIR")).join("criterion");
    env::set_var(VARIABLE, &directory);
    directory
}

/// One call before any is sampled: what it leaves, and about how long it takes.
fn first(case: &Case, checker: &dyn Checker) -> (Outcome, Duration) {
    let start = Instant::now();
    let outcome = case.run(checker);
    (outcome, start.elapsed())
}

/// Has criterion sample one side, unless it is asked for others only.
fn sample(
    criterion: &mut Criterion,
    results: &Path,
    input: &Input,
    (side, checker): (&str, &dyn Checker),
    about: Duration,
) -> Timed {
    if about > LIMIT {
        return Timed::Once(Time::once(about));
    }
    let (group_name, slug) = (input.group.name(), input.slug());
    let directory = results.join(group_name).join(&slug).join(side);
    let estimates = directory.join("new").join("estimates.json");
    // Nothing of an earlier run is to be taken for this one's; there may be none.
    let _ = fs::remove_file(&estimates);

    let mut group = criterion.benchmark_group(group_name);
    group.throughput(Throughput::Bytes(input.family.bytes() as u64));
    group.warm_up_time(Duration::from_millis(300));
    group.measurement_time(Duration::from_secs(1));
    group.nresamples(20_000);
    if about > SLOW {
        group.sample_size(10).sampling_mode(SamplingMode::Flat);
    } else {
        group.sample_size(50);
    }
    let mut memory = Memory::default();
    group.bench_function(BenchmarkId::new(slug, side), |bencher| {
        bencher.iter(|| input.family.call(checker, &mut memory));
    });
    group.finish();
    Time::read(&estimates).map_or(Timed::Not, Timed::Sampled)
}

/// Both sides on one input. The reference comes before the archive and after it, so that a machine
/// that gets slower or faster meanwhile shows.
fn row<'a>(criterion: &mut Criterion, results: &Path, input: &'a Input) -> Row<'a> {
    let case = Case::new(&input.family.file, input.family.call.clone());
    let (expected, reference) = first(&case, REFERENCE);
    let (outcome, archive) = first(&case, ARCHIVE);
    let mut timed = |side, about| sample(criterion, results, input, side, about);
    let before = timed(("reference", REFERENCE), reference);
    let archive = timed(("archive", ARCHIVE), archive);
    let after = timed(("reference-again", REFERENCE), reference);
    Row {
        input,
        reply: case.reply(&expected),
        other: (outcome != expected).then(|| case.reply(&outcome)),
        reference: before.joined(after),
        archive,
    }
}

fn main() -> ExitCode {
    let results = results();
    let mut criterion = Criterion::default().configure_from_args().without_plots();
    let inputs = inputs::all();
    let rows = inputs.iter().map(|i| row(&mut criterion, &results, i));
    let table = Table(rows.collect());
    print!("\n{table}");
    if table.faults().is_empty() {
        ExitCode::SUCCESS
    } else {
        ExitCode::FAILURE
    }
}
