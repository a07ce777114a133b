//! The tests of the proved programs: put together from the stored parts, answered by the reference, and reaching the
//! paper's branches. The choice is not made again.

use evidence::names::{names, totals};
use evidence::stored::{stored_scenario, CHOSEN, ONE_AT_A_TIME};
use evidence::watch::Watch;
use reference::bench::bench;
use reference::receiver::packet_length;
use reference::replay::{replay, watched};
use std::fs;

fn stored(name: &str) -> Vec<u8> {
    let path = format!("{}/../../crates/{name}", env!("CARGO_MANIFEST_DIR"));
    fs::read(&path).unwrap_or_else(|error| panic!("{path}: {error}"))
}

fn lines(text: &[u8]) -> usize {
    text.iter().filter(|&&byte| byte == b'\n').count()
}

#[test]
fn the_stored_scenario_is_its_parts() {
    assert!(stored("replay/stdin") == stored_scenario(), "generate stored > crates/replay/stdin");
}

#[test]
fn the_stored_outputs_are_the_references() {
    let scenario = stored("replay/stdin");
    assert!(stored("replay/stdout") == replay(&scenario).out, "replay");
    assert!(stored("replay/stdout") == watched(&scenario, &mut Watch).out, "who looks on changes nothing");
    assert!(stored("bench/stdout") == bench(&stored("bench/stdin")), "bench");
}

#[test]
fn a_person_can_read_them() {
    let (scenario, answers) = (stored("replay/stdin"), stored("replay/stdout"));
    assert!(
        scenario.iter().all(|&byte| byte == b'\n' || byte == b'\r' || (32..127).contains(&byte)),
        "all of it is text"
    );
    assert!(lines(&scenario) + lines(&answers) < 11_000);
    assert!(scenario.len() + answers.len() < 200_000);
    assert!(stored("bench/stdin").len() < 8_192);
    assert!(stored("bench/stdout").len() < 60_000);
}

#[test]
fn chosen_scenarios_are_named_for_a_branch() {
    let heads: Vec<&str> = CHOSEN.lines().filter(|line| line.contains(" (seed ")).collect();
    assert!((90..=120).contains(&heads.len()), "{} scenarios", heads.len());
    let names = names();
    for head in heads {
        let name = head.trim_start_matches("# ").split(" (seed ").next().unwrap_or_default();
        assert!(names.iter().any(|known| known == name), "no branch has the name: {name}");
    }
}

#[test]
fn the_stored_stream_has_every_first_byte() {
    let stream = stored("bench/stdin");
    let mut seen = [false; 256];
    let mut rest = stream.as_slice();
    while let Some(&first) = rest.first() {
        seen[first as usize] = true;
        rest = rest.get(packet_length(first) as usize..).unwrap_or_default();
    }
    assert!(seen.iter().all(|&seen| seen));
}

/// Branches that were taken while this ran, by name.
fn taken_by(act: impl FnOnce()) -> Vec<String> {
    let before = totals();
    act();
    let after = totals().into_iter().zip(before);
    after.filter(|(after, before)| after.1 > before.1).map(|(after, _)| after.0).collect()
}

#[test]
fn every_branch_is_reached_that_one_input_can_reach() {
    let mut taken = taken_by(|| {
        watched(&stored("replay/stdin"), &mut Watch);
    });
    taken.extend(taken_by(|| {
        bench(&stored("bench/stdin"));
    }));
    let missing: Vec<String> = names().into_iter().filter(|name| !taken.contains(name)).collect();
    assert_eq!(missing.len(), 13, "{missing:#?}");
    let unexplained: Vec<&String> = missing.iter().filter(|name| !ONE_AT_A_TIME.contains(&name.as_str())).collect();
    assert!(unexplained.is_empty(), "never reached: {unexplained:#?}");
}
