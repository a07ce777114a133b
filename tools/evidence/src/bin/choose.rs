//! Finds random scenarios for the branches that the stored scenario reaches too seldom.
//!
//! choose SEEDS TIMES: looks at the scenarios of the seeds 1 to SEEDS and writes those that it takes to reach every
//! branch TIMES times together with stored/by-hand.txt and stored/chosen.txt, to be added to the latter. The stored
//! ones stay as they are: a choice is made once, and added to where a new rule asks for it.

use evidence::generator::{scenario_file, MARK};
use evidence::names::totals;
use evidence::short::short;
use evidence::stored::{BY_HAND, CHOSEN, ONE_AT_A_TIME};
use evidence::watch::Watch;
use reference::grammar::Statement;
use reference::module::{wrong_lengths, Lent, Module};
use reference::replay::{watched, Watcher};

/// How many scenarios of a seed are looked at.
const EACH: usize = 100;

/// Scenarios that write more than this are too long to be read.
const LONGEST: usize = 4_000;

/// The last line of what makes a record possible again.
const RESTART: &str = "\nrestart\n";

struct Candidate {
    text: String,
    seed: u64,
    number: usize,
    /// Whether it reaches each branch.
    reaches: Vec<bool>,
    length: usize,
}

fn main() {
    let words: Vec<u64> = std::env::args().skip(1).filter_map(|word| word.parse().ok()).collect();
    let [seeds, times] = words[..] else {
        eprintln!("choose SEEDS TIMES");
        std::process::exit(2);
    };
    let names: Vec<String> = totals().into_iter().map(|(name, _)| name).collect();
    let reached = Counted::of(&[BY_HAND, CHOSEN].concat());
    let mut needed: Vec<u64> = reached.times.iter().map(|count| times.saturating_sub(*count)).collect();
    for (name, needed) in names.iter().zip(&mut needed) {
        if ONE_AT_A_TIME.contains(&name.as_str()) || name.starts_with("bench: ") {
            *needed = 0;
        }
    }
    let by_hand = Counted::of(BY_HAND);
    let mut candidates: Vec<Candidate> = (1..=seeds).flat_map(|seed| candidates_of(seed, &by_hand)).collect();
    eprintln!("{} candidates, {} branches needed", candidates.len(), needed.iter().filter(|&&n| n > 0).count());
    let mut text = [BY_HAND, CHOSEN].concat();
    while let Some(best) = best(&candidates, &needed) {
        let chosen = candidates.swap_remove(best);
        let name = telling(&chosen, &candidates, &needed, &names, &text);
        let written = headed(&chosen, name, &text);
        print!("{written}");
        text.push_str(&written);
        for (needed, reaches) in needed.iter_mut().zip(&chosen.reaches) {
            *needed = needed.saturating_sub(*reaches as u64);
        }
    }
    for (name, _) in names.iter().zip(&needed).filter(|(_, needed)| **needed > 0) {
        eprintln!("not reached often enough: {name}");
    }
}

/// How often a scenario takes each branch, and how much it writes.
struct Counted {
    times: Vec<u64>,
    written: usize,
}

impl Counted {
    fn of(text: &str) -> Counted {
        let before = totals();
        let written = watched(text.as_bytes(), &mut Watch).out.len();
        let times = totals().iter().zip(before).map(|((_, after), (_, before))| after - before).collect();
        Counted { times, written }
    }
}

/// The scenarios of a seed but the first, whose sizes would come too late, and the last, which may stop the program.
fn candidates_of(seed: u64, by_hand: &Counted) -> Vec<Candidate> {
    let text = String::from_utf8_lossy(&scenario_file(seed, EACH).text).into_owned();
    let mut scenarios: Vec<String> = text.split(MARK).skip(1).map(|scenario| format!("{MARK}{scenario}")).collect();
    scenarios.pop();
    let known = |number: &usize| CHOSEN.contains(&format!("(seed {seed}, scenario {number})\n"));
    let numbered = scenarios.into_iter().enumerate().skip(1).filter(|(number, text)| is_text(text) && !known(number));
    numbered.filter_map(|(number, text)| candidate(seed, number, &text, by_hand)).collect()
}

fn is_text(text: &str) -> bool {
    text.bytes().all(|byte| byte == b'\n' || (32..127).contains(&byte))
}

fn candidate(seed: u64, number: usize, text: &str, by_hand: &Counted) -> Option<Candidate> {
    let text = short(text.split_once('\n')?.1);
    let whole = Counted::of(&[BY_HAND, &text].concat());
    let length = text.len() + whole.written - by_hand.written;
    let reaches = whole.times.iter().zip(&by_hand.times).map(|(with, without)| with > without).collect();
    (length <= LONGEST).then_some(Candidate { text, seed, number, reaches, length })
}

/// The candidate that reaches the most of what is needed for its length, if any reaches something.
fn best(candidates: &[Candidate], needed: &[u64]) -> Option<usize> {
    let gain = |candidate: &Candidate| {
        let new = candidate.reaches.iter().zip(needed).filter(|(reaches, needed)| **reaches && **needed > 0).count();
        1_000_000 * new / (300 + candidate.length)
    };
    let best = (0..candidates.len()).max_by_key(|&place| gain(&candidates[place]))?;
    (gain(&candidates[best]) > 0).then_some(best)
}

/// The needed branch that the fewest others reach, and best one that no scenario before is named for.
fn telling<'a>(chosen: &Candidate, others: &[Candidate], needed: &[u64], names: &'a [String], before: &str) -> &'a str {
    let wanted = (0..names.len()).filter(|&place| chosen.reaches[place] && needed[place] > 0);
    let rare = wanted.min_by_key(|&place| {
        let used = before.contains(&format!("\n# {} (seed", names[place]));
        (used, others.iter().filter(|other| other.reaches[place]).count())
    });
    rare.map_or("", |place| &names[place])
}

/// The scenario with its name. Where a restart alone makes the record new, what stands before it is left out.
fn headed(chosen: &Candidate, name: &str, before: &str) -> String {
    let mut possible = Possible(false);
    watched(format!("{before}set actual 0\n").as_bytes(), &mut possible);
    let text = match chosen.text.find(RESTART) {
        Some(at) if possible.0 => &chosen.text[at + 1..],
        _ => &chosen.text,
    };
    format!("\n# {name} (seed {}, scenario {})\n{text}", chosen.seed, chosen.number)
}

/// Whether the record, the lengths and the sheets are in order at the last statement.
struct Possible(bool);

impl Watcher for Possible {
    fn feed(&mut self, _: &Module, _: &[u64], _: &[u8], _: &Lent) {}
    fn statement(&mut self, module: &Module, _: &Statement, lent: &Lent) {
        let sheets = wrong_lengths(lent).is_empty() && lent.banks().broken_rules().is_empty();
        self.0 = module.broken_clauses().is_empty() && sheets && lent.room.len() == 84;
    }
}
