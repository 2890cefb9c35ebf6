//! Writes the stored vectors of the gate.
//!
//! `vectors listings SAMPLES FOLDER`: files one after another, each after its length, and the
//! listing that the reference gives of each. `vectors checks SAMPLES FOLDER`: the same files after
//! the number of bytes of card memory that are lent, and the reference's reply with a sum over all
//! of that memory. `vectors queries SAMPLES FOLDER`: the same with a query after each file, and of an
//! expansion a sum over all of the output too.
//! Numbers are three bytes, most significant first. The file `index` names them.
//! `vectors input NAME FOLDER`: one input of the listing program, as it is, and the reference's listing.

mod expansions;
mod inputs;
mod long;
mod queries;

use differential::checker::refusal;
use differential::random::Random;
use differential::syntax::{self, brought, instance, lit, n, op, p, Field};
use differential::{
    accepted, faults, lawful, limits, mixed_substitutes, mixing, rows, substitutes, wide,
};
use reference::{listing, packed_check};
use std::collections::HashSet;
use std::fmt::Write;
use std::path::{Path, PathBuf};
use std::process::ExitCode;
use std::{env, fs, io};

/// A file with a name to find it by.
struct Vector {
    label: String,
    file: Vec<u8>,
    /// Whether a check of it is lent enough memory whatever its turn: the samples, those of codes, those in
    /// which a 2 and a 3 meet, those of lawful instances, and those of four to eight parameters.
    whole: bool,
}

/// The files that some seeds give, the smallest first, each once.
fn built(seeds: u64, build: impl Fn(&mut Random) -> Vec<u8>) -> Vec<Vec<u8>> {
    let files: HashSet<_> = (0..seeds)
        .map(|seed| build(&mut Random::new(seed)))
        .collect();
    let mut files: Vec<_> = files.into_iter().collect();
    files.sort_by_key(|file| (file.len(), file.clone()));
    files
}

/// A module with the fields given, whole.
fn module(inside: &[Field]) -> Vec<u8> {
    let mut fields = vec![Field::Module(1)];
    fields.extend_from_slice(inside);
    fields.push(Field::End);
    syntax::file(&fields)
}

/// A definition for each built-in code, of its own parameters: the whole table by cards.
fn table() -> Vec<u8> {
    let define = |code: u8| {
        let arity = rows::row(code).expect("a code has a row").arguments as u8;
        let arguments: Vec<_> = (0..arity).map(p).collect();
        Field::Definition(100 + code as u16, arity, op(code, &arguments))
    };
    module(&rows::codes().map(define).collect::<Vec<_>>())
}

/// Formulas of codes that there are not, most of them beside one that there is, with up to three
/// arguments: none may be read as its neighbour.
fn missing_codes() -> Vec<(String, Vec<u8>)> {
    let with = |code: u8, arguments: usize| {
        let file = module(&[Field::Theorem(op(code, &vec![lit(0); arguments]))]);
        (format!("code {code}, arguments: {arguments}"), file)
    };
    let beside = rows::BESIDE.into_iter().map(|(code, _)| code);
    beside
        .chain([u8::MAX])
        .flat_map(|code| (0..=3).map(move |arguments| with(code, arguments)))
        .collect()
}

/// Bytes that are no field, after a module field: every way of being cut that a layout has.
fn cuts() -> Vec<(&'static str, Vec<u8>)> {
    let after_module = |bytes: &[u8]| {
        let mut file = Field::Module(1).bytes();
        file.extend_from_slice(bytes);
        file
    };
    [
        ("one byte left", &[7][..]),
        ("two bytes left", &[7, 0]),
        ("tag 0", &[0, 0, 0]),
        ("tag 10", &[10, 0, 0]),
        ("tag 255", &[255, 0, 0]),
        ("end of module, not empty", &[7, 0, 1, 0]),
        ("module named 0", &[1, 0, 2, 0, 0]),
        ("module, three bytes", &[1, 0, 3, 0, 2, 0]),
        ("EXTENDS of nothing", &[2, 0, 0]),
        ("EXTENDS, an odd number of bytes", &[2, 0, 3, 0, 2, 0]),
        ("EXTENDS of 0", &[2, 0, 4, 0, 2, 0, 0]),
        ("CONSTANT named 0", &[3, 0, 3, 0, 0, 0]),
        ("CONSTANT without a count", &[3, 0, 2, 0, 2]),
        ("VARIABLE named 0", &[4, 0, 2, 0, 0]),
        ("definition named 0", &[5, 0, 6, 0, 0, 0, 5, 0, 1]),
        ("definition without a body", &[5, 0, 3, 0, 2, 0]),
        ("bytes after a body", &[5, 0, 7, 0, 2, 0, 5, 0, 1, 0]),
        ("a body cut", &[5, 0, 5, 0, 2, 0, 5, 0]),
        (
            "INSTANCE, unnamed with a parameter",
            &[6, 0, 6, 0, 0, 1, 0, 1, 0],
        ),
        ("INSTANCE of module 0", &[6, 0, 6, 0, 2, 0, 0, 0, 0]),
        (
            "bytes after the substitutions",
            &[6, 0, 7, 0, 2, 0, 0, 1, 0, 0],
        ),
        ("a substitution missing", &[6, 0, 6, 0, 2, 0, 0, 1, 1]),
        (
            "a substitution of 0",
            &[6, 0, 13, 0, 2, 0, 0, 1, 1, 0, 0, 0, 3, 5, 0, 1],
        ),
        (
            "bytes after a substitute",
            &[6, 0, 14, 0, 2, 0, 0, 1, 1, 0, 3, 0, 4, 5, 0, 1, 0],
        ),
        ("ASSUME of nothing", &[8, 0, 0]),
        ("THEOREM of two expressions", &[9, 0, 6, 5, 0, 1, 5, 0, 1]),
        ("a token that there is not", &[9, 0, 1, 6]),
        ("a code that there is not", &[9, 0, 2, 4, 255]),
        ("a payload longer than the file", &[9, 255, 255, 5, 0, 1]),
    ]
    .into_iter()
    .map(|(label, bytes)| (label, after_module(bytes)))
    .collect()
}

/// I!F where I is no instance, where F is not among what I brought, and with wrong arguments.
fn instance_operators() -> Vec<(&'static str, Vec<u8>)> {
    let within = |formula| {
        syntax::file(&[
            Field::Module(1),
            Field::Definition(3, 1, p(0)),
            Field::End,
            Field::Module(2),
            instance(7, 1, 1, &[]),
            Field::Definition(8, 0, lit(0)),
            Field::Theorem(formula),
            Field::End,
        ])
    };
    vec![
        ("I!F", within(brought(7, 3, &[lit(0), lit(1)]))),
        (
            "I!F, I a definition",
            within(brought(8, 3, &[lit(0), lit(1)])),
        ),
        ("I!F, I unknown", within(brought(9, 3, &[lit(0), lit(1)]))),
        ("I!F, F not brought", within(brought(7, 8, &[]))),
        ("I!F, an argument short", within(brought(7, 3, &[lit(0)]))),
        ("I as an operator", within(n(7, &[]))),
    ]
}

/// Every planned fault, both sides of every limit, every kind of substitute, every way of a 2 and a 3 to
/// meet, everything that becomes of a level where it is brought, everything with four to eight parameters, cut
/// fields, the table of codes and those
/// just outside it, accepted files of several shapes, and the samples.
fn vectors(samples: &Path) -> io::Result<Vec<Vector>> {
    let mut all = Vec::new();
    let mut add = |label: String, file, whole| all.push(Vector { label, file, whole });
    for plan in faults::plans() {
        let keep = match plan {
            faults::Plan::Single(..) => 4,
            _ => 1,
        };
        let files = built(40, |random| faults::build(plan, random).file);
        for file in files.into_iter().take(keep) {
            add(plan.label(), file, false);
        }
    }
    for (number, label) in limits::labels().into_iter().enumerate() {
        let mut files = built(8, |random| limits::build(number, random).file);
        add(label, files.swap_remove(0), false);
    }
    for (number, label) in substitutes::labels().into_iter().enumerate() {
        let mut files = built(4, |random| substitutes::build(number, random).file);
        add(label, files.swap_remove(0), false);
    }
    for (number, label) in mixing::labels().into_iter().enumerate() {
        let mut files = built(4, |random| mixing::build(number, random).file);
        add(format!("2 and 3: {label}"), files.swap_remove(0), true);
    }
    for (number, label) in mixed_substitutes::labels().into_iter().enumerate() {
        let mut files = built(4, |random| mixed_substitutes::build(number, random).file);
        let label = format!("substitutes, 2 and 3: {label}");
        add(label, files.swap_remove(0), true);
    }
    for (number, label) in lawful::labels().into_iter().enumerate() {
        let mut files = built(4, |random| lawful::build(number, random).file);
        add(format!("brought: {label}"), files.swap_remove(0), true);
    }
    for (number, label) in wide::labels().into_iter().enumerate() {
        let files = built(8, |random| wide::build(number, random).file);
        // The largest: the smallest drops the most.
        let file = files.into_iter().next_back().expect("a file");
        add(format!("wide: {label}"), file, true);
    }
    for (label, file) in cuts().into_iter().chain(instance_operators()) {
        add(label.into(), file, false);
    }
    add("every built-in code".into(), table(), true);
    for seed in 0..40 {
        let chain = accepted::grow_chain(&mut Random::new(seed)).bytes();
        add(format!("a chain of instances, {seed}"), chain, false);
        let grown = accepted::grow(&mut Random::new(seed), 300, 1 + seed as usize % 8);
        add(format!("accepted, {seed}"), grown.bytes(), false);
    }
    for (label, file) in missing_codes().into_iter().chain(sample_files(samples)?) {
        add(label, file, true);
    }
    Ok(all)
}

/// The samples by name.
fn sample_files(samples: &Path) -> io::Result<Vec<(String, Vec<u8>)>> {
    let mut paths: Vec<_> = fs::read_dir(samples)?
        .filter_map(|entry| entry.ok().map(|entry| entry.path()))
        .filter(|path| path.extension().is_some_and(|kind| kind == "bin"))
        .collect();
    paths.sort();
    let read = |path: PathBuf| {
        let name = path.file_stem().unwrap_or_default().to_string_lossy();
        Ok((format!("sample {name}"), fs::read(&path)?))
    };
    paths.into_iter().map(read).collect()
}

fn three(number: usize) -> [u8; 3] {
    let bytes = (number as u32).to_be_bytes();
    [bytes[1], bytes[2], bytes[3]]
}

/// The memory that a check is lent a part of, and how much of it, in turn: at the limit, above it,
/// and now and then below it.
const MEMORY: usize = 40_000;
/// Memory that is enough, in turn.
const ENOUGH: [usize; 3] = [4_096, 40_000, 4_097];
/// The output that an expansion is lent a part of: more than the longest takes.
const OUTPUT: usize = 66_000;
const LENT: [usize; 11] = [
    4_096, 40_000, 4_097, 4_096, 32_000, 4_095, 4_096, 4_097, 40_000, 4_096, 0,
];

/// So much memory before a call: no byte is 0 or a level, and none is as the byte beside it.
fn marked(bytes: usize) -> Vec<u8> {
    (0..bytes).map(|at| 128 + (at % 64) as u8).collect()
}

/// A value or a refusal, and a sum over each memory.
fn reply_line(refusal: Option<(u32, u32)>, value: &str, memories: &[&[u8]]) -> String {
    let mut line = match refusal {
        None => format!("ok {value}"),
        Some((number, place)) => format!("refused {number} {place}"),
    };
    for memory in memories {
        let sum = |sum: u32, &byte: &u8| (sum * 31 + u32::from(byte)) % 65_521;
        write!(line, " {}", memory.iter().fold(0, sum)).expect("a string");
    }
    line + "\n"
}

/// The reply to a check with so many bytes of memory lent.
fn check_line(file: &[u8], lent: usize) -> String {
    let mut memory = marked(MEMORY);
    let reply = packed_check(file, &mut memory[..lent]);
    reply_line(refusal(reply), &reply.to_string(), &[&memory])
}

/// What the gate's program reads and prints, and an index of it.
#[derive(Default)]
struct Stored {
    input: Vec<u8>,
    output: Vec<u8>,
    index: String,
}

impl Stored {
    fn number(&mut self, number: usize) {
        self.input.extend(three(number));
    }

    fn file(&mut self, file: &[u8]) {
        self.number(file.len());
        self.input.extend(file);
    }

    fn answer(&mut self, number: usize, label: &str, bytes: usize, answer: &str) {
        let first = answer.lines().next().unwrap_or_default();
        writeln!(self.index, "{number}: {label}: {bytes} bytes: {first}").expect("a string");
        self.output.extend(answer.bytes());
    }

    fn write(&self, folder: &Path) -> io::Result<()> {
        fs::write(folder.join("stdin"), &self.input)?;
        fs::write(folder.join("stdout"), &self.output)?;
        if self.index.is_empty() {
            return Ok(());
        }
        fs::write(folder.join("index"), &self.index)
    }
}

fn listings(samples: &Path) -> io::Result<Stored> {
    let mut stored = Stored::default();
    for (number, Vector { label, file, .. }) in vectors(samples)?.iter().enumerate() {
        stored.file(file);
        let listing = String::from_utf8(listing(file)).expect("a listing is ASCII");
        stored.answer(number, label, file.len(), &listing);
    }
    Ok(stored)
}

fn checks(samples: &Path) -> io::Result<Stored> {
    let mut stored = Stored::default();
    for (number, Vector { label, file, whole }) in vectors(samples)?.iter().enumerate() {
        // With few exceptions files are small: the large ones are left to the listings.
        if file.len() > 2_000 && number % 16 != 0 {
            continue;
        }
        let lent = match whole {
            true => ENOUGH[number % ENOUGH.len()],
            false => LENT[number % LENT.len()],
        };
        stored.number(lent);
        stored.file(file);
        stored.answer(number, label, file.len(), &check_line(file, lent));
    }
    Ok(stored)
}

fn asked(samples: &Path) -> io::Result<Stored> {
    let mut stored = Stored::default();
    for (number, query) in queries::all(samples)?.iter().enumerate() {
        stored.number(query.lent);
        stored.file(&query.file);
        stored.input.extend(query.bytes());
        let label = format!("{}: {}", query.label, query.words());
        stored.answer(number, &label, query.file.len(), &query.answer());
    }
    Ok(stored)
}

/// A single input needs no index.
fn single(name: &str) -> io::Result<Stored> {
    let input = inputs::input(name).ok_or(io::ErrorKind::NotFound)?;
    Ok(Stored {
        output: listing(&input),
        input,
        ..Stored::default()
    })
}

const USAGE: &str = "vectors listings|checks|queries SAMPLES FOLDER
vectors input full|long|refused|nothing FOLDER";

fn main() -> ExitCode {
    let given: Vec<_> = env::args().skip(1).collect();
    let stored = match given.iter().map(String::as_str).collect::<Vec<_>>()[..] {
        ["listings", samples, _] => listings(Path::new(samples)),
        ["checks", samples, _] => checks(Path::new(samples)),
        ["queries", samples, _] => asked(Path::new(samples)),
        ["input", name, _] => single(name),
        _ => {
            eprintln!("{USAGE}");
            return ExitCode::from(2);
        }
    };
    match stored.and_then(|stored| stored.write(Path::new(&given[2]))) {
        Ok(()) => ExitCode::SUCCESS,
        Err(error) => {
            eprintln!("{error}");
            ExitCode::FAILURE
        }
    }
}
