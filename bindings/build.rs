//! Links the proved checker's static library, librafterclary.a.

use std::env;

const DIRECTORY: &str = "RAFTERCLARY_LIB_DIR";

fn main() {
    println!("cargo:rerun-if-env-changed={DIRECTORY}");
    let directory = env::var(DIRECTORY)
        .unwrap_or_else(|_| panic!("{DIRECTORY} must name the directory of librafterclary.a"));
    println!("cargo:rerun-if-changed={directory}/librafterclary.a");
    println!("cargo:rustc-link-search=native={directory}");
    println!("cargo:rustc-link-lib=static=rafterclary");
}
