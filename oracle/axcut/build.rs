//! Makes the Rust of `docs/src` modules of this crate, each by its path, so that its text stands
//! nowhere in this repository.

use std::env;
use std::fmt::Write;
use std::fs;
use std::path::{Path, PathBuf};

const SYNTAX: [&str; 6] = ["context", "declaration", "def", "names", "program", "types"];
const TRAITS: [&str; 2] = ["free_vars", "linearize"];

fn main() {
    println!("cargo::rerun-if-env-changed=AXCUT_SRC");
    let sources = sources().join("lang/axcut/src");
    let sources = sources
        .canonicalize()
        .unwrap_or_else(|error| panic!("no Rust at {} ({error})", sources.display()));

    let mut syntax = modules(&sources.join("syntax"), &SYNTAX);
    syntax += &module("statements", &sources.join("syntax/statements/mod.rs"));
    write("syntax.rs", &syntax);
    write("traits.rs", &modules(&sources.join("traits"), &TRAITS));
    println!("cargo::rerun-if-changed={}", sources.display());
}

/// The folder that holds `docs/src`: named by `AXCUT_SRC`, or beside the repository.
fn sources() -> PathBuf {
    match env::var_os("AXCUT_SRC") {
        Some(folder) => folder.into(),
        None => Path::new(&variable("CARGO_MANIFEST_DIR")).join("../../../shared/docs/src"),
    }
}

fn modules(folder: &Path, names: &[&str]) -> String {
    names
        .iter()
        .map(|name| module(name, &folder.join(name).with_extension("rs")))
        .collect()
}

fn module(name: &str, file: &Path) -> String {
    let mut text = String::new();
    writeln!(text, "#[path = {:?}]\npub mod {name};", file).unwrap();
    text
}

fn write(name: &str, text: &str) {
    fs::write(Path::new(&variable("OUT_DIR")).join(name), text).unwrap();
}

fn variable(name: &str) -> String {
    env::var(name).unwrap()
}
