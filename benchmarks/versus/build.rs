//! Links the archive as it was before, whose exports `tools/versus` has renamed, and writes the
//! bindings to it: those to the archive as it is now, under the other names.

use std::path::Path;
use std::{env, fs};

const DIRECTORY: &str = "RAFTERCLARY_BEFORE_DIR";

/// A source file without its inner comments and modules, which an included file may not have. What reads cards is in
/// such a module: it calls nothing.
fn source(path: &str) -> String {
    println!("cargo:rerun-if-changed={path}");
    let text = fs::read_to_string(path).unwrap_or_else(|error| panic!("{path}: {error}"));
    let left_out = ["//!", "mod card;", "pub use card::"];
    let lines = text
        .lines()
        .filter(|line| !left_out.iter().any(|start| line.starts_with(start)));
    lines.map(|line| format!("{line}\n")).collect()
}

fn main() {
    println!("cargo:rerun-if-env-changed={DIRECTORY}");
    let directory = env::var(DIRECTORY)
        .unwrap_or_else(|_| panic!("{DIRECTORY} must name the directory of libbefore.a"));
    println!("cargo:rerun-if-changed={directory}/libbefore.a");
    println!("cargo:rustc-link-search=native={directory}");
    println!("cargo:rustc-link-lib=static=before");

    let bindings = source("../../bindings/src/lib.rs").replace("rafterclary_", "before_");
    let checker = source("../../differential/src/proved.rs")
        .replace("crate::checker", "differential::checker")
        .replace("rafterclary::", "super::bindings::");
    let out = env::var("OUT_DIR").expect("cargo sets it");
    for (name, text) in [("bindings.rs", bindings), ("checker.rs", checker)] {
        fs::write(Path::new(&out).join(name), text).expect("it is written");
    }
}
