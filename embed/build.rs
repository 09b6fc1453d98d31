//! Makes the proved library current, for the target of the build, and links it, and hands on the list of layouts and the
//! interface's number. The archive is copied, so that what was built stays whole when the repository's target directory is
//! emptied.

use std::path::{Path, PathBuf};
use std::process::{Command, Stdio};

/// C's list of layouts.
const LAYOUT: &str = "include/nibl.layout";

/// C's header, which has the interface's number.
const HEADER: &str = "include/nibl.h";

/// What the library is made from, beside the crates: a change of one of these asks for it anew.
const SOURCES: [&str; 3] = ["crates.txt", "tools/library", "tools/current.sh"];

/// What of a crate it is made from. What rt keeps in its folder `out` is no part of it.
const PARTS: [&str; 3] = ["src", "specs", "proofs"];

/// What cargo says of this build.
fn said(name: &str) -> String {
    std::env::var(name).unwrap_or_else(|error| panic!("{name}: {error}"))
}

/// What tools/library is told for a target of Rust's: nothing on the machine that builds, else the compiler's name of it. Of
/// a RISC-V target that name leaves the extensions out, which the compiler is told apart.
fn words(target: &str, host: &str) -> Vec<String> {
    if target == host {
        return Vec::new();
    }
    let (processor, rest) = target.split_once('-').expect("a triple");
    let Some(machine) = processor.strip_prefix("riscv") else {
        return vec!["--target".into(), target.into()];
    };
    let (bits, extensions) = machine.split_at(2);
    vec![
        "--target".into(),
        format!("riscv{bits}-{rest}"),
        "--".into(),
        format!("-march=rv{bits}{extensions}"),
    ]
}

fn library(root: &Path) -> PathBuf {
    let tool = root.join("tools/library");
    let run = Command::new(&tool)
        .args(words(&said("TARGET"), &said("HOST")))
        .stderr(Stdio::inherit())
        .output();
    let run = run.unwrap_or_else(|error| panic!("{} does not start: {error}", tool.display()));
    assert!(run.status.success(), "{} failed", tool.display());
    let path = String::from_utf8(run.stdout).expect("a path in UTF-8");
    PathBuf::from(path.trim_end())
}

/// The list's lines as Rust has macros: with an exclamation mark and a semicolon.
fn layout(root: &Path) -> String {
    let list = std::fs::read_to_string(root.join(LAYOUT)).expect("the list of layouts is there");
    let lines = list.lines().filter(|line| line.starts_with("NIBL_"));
    lines
        .map(|line| line.replacen('(', "!(", 1) + ";\n")
        .collect()
}

/// The interface's number: `NIBL_VERSION` of the header.
fn version(root: &Path) -> String {
    let header = std::fs::read_to_string(root.join(HEADER)).expect("the header is there");
    let mut lines = header.lines();
    let number = lines.find_map(|line| line.strip_prefix("#define NIBL_VERSION "));
    number.expect("the header has the number").to_string()
}

/// The folders with the crates' sources.
fn sources(root: &Path) -> Vec<PathBuf> {
    let crates = std::fs::read_dir(root.join("crates")).expect("the crates are there");
    let crates = crates.map(|found| found.expect("a crate").path());
    let parts = crates.flat_map(|found| PARTS.map(|part| found.join(part)));
    parts.filter(|part| part.is_dir()).collect()
}

fn main() {
    let root = Path::new(env!("CARGO_MANIFEST_DIR")).join("..");
    let archive = library(&root);
    let out = said("OUT_DIR");
    std::fs::copy(&archive, Path::new(&out).join("libnibl.a")).expect("the archive is copied");
    std::fs::write(Path::new(&out).join("layout.rs"), layout(&root)).expect("the list is written");
    println!("cargo:rustc-link-search=native={out}");
    println!("cargo:rustc-link-lib=static=nibl");
    println!("cargo:rustc-env=NIBL_VERSION={}", version(&root));
    println!("cargo:rerun-if-changed={}", archive.display());
    let files = SOURCES.into_iter().chain([LAYOUT, HEADER]);
    for source in files.map(|file| root.join(file)).chain(sources(&root)) {
        println!("cargo:rerun-if-changed={}", source.display());
    }
}
