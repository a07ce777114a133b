//! Shows that the comparison can fail: builds copies of the reference with one change each
//! (changes.txt) and compares them with the reference. Every change must be noticed.
//!
//! Run at the top of the repository: broken [SCENARIOS [SEED]]

use evidence::changes::{self, Change};
use std::fs;
use std::path::{Path, PathBuf};
use std::process::{Command, ExitCode};

/// The changes, and what is changed.
const LIST: &str = "tools/evidence/changes.txt";
const REFERENCE: &str = "reference";

fn main() -> ExitCode {
    let words: Vec<String> = std::env::args().skip(1).collect();
    let scenarios = words.first().map_or("20000", String::as_str);
    let seed = words.get(1).map_or("1", String::as_str);
    let changes = changes::read(&fs::read_to_string(LIST).expect("run this at the top of the repository"));
    let mut unnoticed = 0;
    for change in &changes {
        let result = try_change(change, scenarios, seed);
        println!("{}: {}", change.name, result.as_deref().unwrap_or("NOT NOTICED"));
        unnoticed += result.is_none() as usize;
    }
    println!("{} changes, {unnoticed} not noticed", changes.len());
    if unnoticed == 0 {
        ExitCode::SUCCESS
    } else {
        ExitCode::FAILURE
    }
}

/// Builds a changed copy and compares. Gives what was noticed.
fn try_change(change: &Change, scenarios: &str, seed: &str) -> Option<String> {
    let copy = PathBuf::from("target/broken");
    copy_sources(&copy);
    for edit in &change.edits {
        let path = copy.join("src").join(&edit.file);
        let source = fs::read_to_string(&path).expect("a source file");
        fs::write(&path, edit.applied(&source)).expect("a changed file");
    }
    build(&copy);
    let programs = copy.join("target/release");
    let compare = std::env::current_exe().expect("a path").with_file_name("compare");
    let output = Command::new(compare)
        .args([programs.join("replay").to_str()?, programs.join("bench").to_str()?, scenarios, seed, "2"])
        .output()
        .expect("compare");
    let text = String::from_utf8_lossy(&output.stdout).into_owned();
    assert!(!text.is_empty(), "compare must say something");
    // A program that stops is noticed as one that writes something else.
    if text.starts_with("No difference") {
        return None;
    }
    let shown: Vec<&str> = text.lines().take(3).map(str::trim).collect();
    Some(shown.join(" | "))
}

fn copy_sources(copy: &Path) {
    fs::create_dir_all(copy.join("src/bin")).expect("a folder");
    let from = Path::new(REFERENCE);
    fs::copy(from.join("Cargo.toml"), copy.join("Cargo.toml")).expect("Cargo.toml");
    for folder in ["src", "src/bin"] {
        for entry in fs::read_dir(from.join(folder)).expect("sources").flatten() {
            if entry.path().is_file() {
                fs::copy(entry.path(), copy.join(folder).join(entry.file_name())).expect("a source file");
            }
        }
    }
}

fn build(copy: &Path) {
    let done = Command::new("cargo")
        .args(["build", "--quiet", "--release", "--offline", "--no-default-features"])
        .args(["--bin", "replay", "--bin", "bench", "--target-dir"])
        .arg(fs::canonicalize(copy).expect("a folder").join("target"))
        .arg("--manifest-path")
        .arg(copy.join("Cargo.toml"))
        .env("RUSTFLAGS", "-A warnings")
        .status()
        .expect("cargo");
    assert!(done.success(), "the changed copy must build");
}
