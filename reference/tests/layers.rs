//! The reading has no circles: each file uses only those below it.

use std::fs;

/// From the bottom to the top.
const ORDER: [&str; 11] =
    ["branch", "refusal", "crc", "receiver", "banks", "module", "bench", "host", "grammar", "fault", "replay"];

fn source(name: &str) -> String {
    fs::read_to_string(format!("{}/src/{name}.rs", env!("CARGO_MANIFEST_DIR"))).expect("a source")
}

#[test]
fn each_file_uses_only_those_below_it() {
    for (place, name) in ORDER.iter().enumerate() {
        let source = source(name);
        for used in source.split("crate::").skip(1) {
            let used = used.split(|c: char| !c.is_alphanumeric() && c != '_').next().unwrap_or_default();
            assert!(ORDER[..=place].contains(&used), "{name} uses {used}");
        }
    }
}

#[test]
fn every_file_has_its_place() {
    let library = source("lib");
    let mut named: Vec<&str> = library.lines().filter_map(|line| line.strip_prefix("pub mod ")).collect();
    named.iter_mut().for_each(|name| *name = name.trim_end_matches(';'));
    let mut order = ORDER;
    order.sort();
    named.sort();
    assert_eq!(named, order);
}
