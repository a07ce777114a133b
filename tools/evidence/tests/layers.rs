//! The tools have no circles: each file uses only those below it.

use std::fs;

/// From the bottom to the top.
const ORDER: [&str; 20] = [
    "random",
    "changes",
    "small",
    "watch_packet",
    "watch_clock",
    "watch_position",
    "watch_counts",
    "watch_fixed",
    "watch",
    "names",
    "packets",
    "clauses",
    "material",
    "script",
    "scenarios",
    "short",
    "stored",
    "generator",
    "unproved",
    "trying",
];

fn source(name: &str) -> String {
    fs::read_to_string(format!("{}/src/{name}.rs", env!("CARGO_MANIFEST_DIR"))).expect("a source")
}

#[test]
fn each_file_uses_only_those_below_it() {
    for (place, name) in ORDER.iter().enumerate() {
        let source = source(name);
        for used in source.split("use crate::").skip(1) {
            let used = used.split(|c: char| !c.is_alphanumeric() && c != '_').next().unwrap_or_default();
            assert!(ORDER[..=place].contains(&used), "{name} uses {used}");
        }
    }
}

#[test]
fn every_file_has_its_place() {
    let library = source("lib");
    let named = library.lines().filter_map(|line| line.trim_start_matches("pub ").strip_prefix("mod "));
    for name in named.map(|name| name.trim_end_matches(';')) {
        assert!(ORDER.contains(&name), "{name}");
    }
}
