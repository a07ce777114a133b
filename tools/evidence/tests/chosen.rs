//! Each chosen scenario reaches the branch that it is named for. The counts here are those of this test alone.

use evidence::stored::{BY_HAND, CHOSEN};
use evidence::watch::Watch;
use reference::branch;
use reference::replay::watched;

/// How often a branch is taken by the stored scenario up to this place of its chosen part.
fn times(name: &str, end: usize) -> u64 {
    let before = branch::times(name);
    watched([BY_HAND, &CHOSEN[..end]].concat().as_bytes(), &mut Watch);
    branch::times(name) - before
}

#[test]
fn each_reaches_the_branch_that_it_is_named_for() {
    let heads = CHOSEN.match_indices(" (seed ").map(|(at, _)| CHOSEN[..at].rfind("\n# ").expect("a head") + 1);
    let mut places: Vec<usize> = heads.collect();
    places.push(CHOSEN.len());
    let mut astray = Vec::new();
    for place in places.windows(2) {
        let name = CHOSEN[place[0] + 2..].split(" (seed ").next().unwrap_or_default();
        if times(name, place[1]) == times(name, place[0]) {
            astray.push(name);
        }
    }
    assert!(astray.is_empty(), "{astray:#?}");
}
