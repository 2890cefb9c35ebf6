//! The samples are among the stored vectors of the gate, with the listings that stand beside them.

use std::fs;
use std::path::{Path, PathBuf};

fn root() -> PathBuf {
    Path::new(env!("CARGO_MANIFEST_DIR")).join("..")
}

fn samples() -> Vec<PathBuf> {
    let entries = fs::read_dir(root().join("samples")).expect("samples");
    let paths = entries.map(|entry| entry.expect("an entry").path());
    let mut tagged: Vec<PathBuf> = paths
        .filter(|path| path.extension().is_some_and(|kind| kind == "bin"))
        .collect();
    tagged.sort();
    assert!(tagged.len() >= 20);
    tagged
}

#[test]
fn listings_are_the_reference_s() {
    for path in samples() {
        let file = fs::read(&path).expect("a file");
        let listing = fs::read(path.with_extension("listing")).expect("a listing");
        assert_eq!(reference::listing(&file), listing, "{}", path.display());
    }
}

/// They come last there, in the order of their names.
#[test]
fn the_gate_lists_them() {
    let (mut input, mut output) = (Vec::new(), Vec::new());
    for path in samples() {
        let file = fs::read(&path).expect("a file");
        input.extend(&(file.len() as u32).to_be_bytes()[1..]);
        input.extend(file);
        output.extend(fs::read(path.with_extension("listing")).expect("a listing"));
    }
    let stored = |name: &str| fs::read(root().join("crates/vectors").join(name)).expect(name);
    assert!(stored("stdin").ends_with(&input));
    assert!(stored("stdout").ends_with(&output));
}
