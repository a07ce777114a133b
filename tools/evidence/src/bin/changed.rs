//! Small changes of the proved code, one at a time: does outside evidence notice them, and does the prover
//! refuse them?
//!
//! Run at the top of the repository, with `rt` on the path:
//!
//! changed list [COUNT [SEED]]           makes small changes from the sources and writes them as a list: all of them,
//!                                       COUNT spread over the functions, or COUNT drawn at random by SEED
//! changed edits                         the same of the must-fail edits that change code alone
//! changed try LIST RESULTS [JOBS]       runs the programs vectors, bench and replay unproved on each change
//! changed prove LIST RESULTS [JOBS]     asks the prover about each change; the crates here should be proved first
//! changed figures LIST RESULTS          how many changes of each crate had which result
//! changed table LIST TRIED PROVED       the results as a table
//!
//! RESULTS is added to; a change that has its line there already is passed over.

use evidence::changes::{self, Change, Edit};
use evidence::small::{changes_of, chosen, drawn, Small};
use evidence::trying::{crate_of, Copied, Found};
use std::collections::{BTreeMap, HashMap};
use std::fs::{self, File, OpenOptions};
use std::io::Write;
use std::path::{Path, PathBuf};
use std::process::ExitCode;
use std::sync::atomic::{AtomicUsize, Ordering};
use std::sync::Mutex;

/// The parser of scenarios: of the tests and not of the product's rules, so one change a function will do.
const PARSER: &str = "scenario";

fn main() -> ExitCode {
    let words: Vec<String> = std::env::args().skip(1).collect();
    let words: Vec<&str> = words.iter().map(String::as_str).collect();
    match words.as_slice() {
        ["list"] => list(chosen(all_changes(true), usize::MAX)),
        ["list", count] => list(chosen(all_changes(true), count.parse().expect("a count"))),
        ["list", count, seed] => {
            let count = count.parse().expect("a count");
            list(drawn(all_changes(false), count, seed.parse().expect("a seed")))
        }
        ["edits"] => edits(),
        ["try", list, results] => try_all(list, results, 1),
        ["try", list, results, jobs] => try_all(list, results, jobs.parse().expect("how many jobs")),
        ["prove", list, results] => prove_all(list, results, 1),
        ["prove", list, results, jobs] => prove_all(list, results, jobs.parse().expect("how many jobs")),
        ["figures", list, results] => figures(list, results),
        ["table", list, tried, proved] => table(list, tried, proved),
        _ => {
            eprintln!("changed list [COUNT [SEED]] | edits | try LIST RESULTS [JOBS] | prove LIST RESULTS [JOBS]");
            eprintln!("        | figures LIST RESULTS | table LIST TRIED PROVED");
            return ExitCode::from(2);
        }
    }
    ExitCode::SUCCESS
}

/// Libraries of the program `replay`: like the programs they promise nothing (docs/LOOSER.md).
const OF_A_PROGRAM: [&str; 4] = ["panel", "reading", "faults", "trial"];

/// The libraries in the order of crates.txt. Programs notice changes and are not changed; nor is the static library,
/// which only calls one of them.
fn product_crates() -> Vec<String> {
    let text = fs::read_to_string("crates.txt").expect("crates.txt: run this at the top of the repository");
    let names = text.lines().filter(|line| !line.starts_with('#')).filter_map(|line| line.split(':').next());
    let is_program =
        |name: &str| OF_A_PROGRAM.contains(&name) || Path::new("crates").join(name).join("src/main.rt").exists();
    names.filter(|name| !name.contains(' ') && !is_program(name)).map(str::to_string).collect()
}

/// The files of a folder with this ending, by name.
fn files_of(folder: &Path, ending: &str) -> Vec<PathBuf> {
    let Ok(entries) = fs::read_dir(folder) else { return Vec::new() };
    let mut files: Vec<PathBuf> = entries.flatten().map(|entry| entry.path()).collect();
    files.retain(|file| file.extension().is_some_and(|extension| extension == ending));
    files.sort();
    files
}

/// Every small change of the libraries; where that is asked, few of the parser's.
fn all_changes(few_of_parser: bool) -> Vec<Small> {
    let mut all = Vec::new();
    for name in product_crates() {
        for file in files_of(&Path::new("crates").join(&name).join("src"), "rt") {
            let source = fs::read_to_string(&file).expect("a source");
            let shown = file.strip_prefix("crates").expect("under crates");
            let mut changes = changes_of(shown.to_str().expect("a name"), &source);
            changes.iter_mut().for_each(|small| small.bookkeeping |= few_of_parser && name == PARSER);
            all.extend(changes);
        }
    }
    all
}

fn list(changes: Vec<Small>) {
    for small in changes {
        print!("{}", changes::written(&small.change));
    }
}

fn edits() {
    for name in product_crates() {
        for file in files_of(&Path::new("crates").join(&name).join("must-fail"), "edit") {
            let label = file.file_stem().and_then(|stem| stem.to_str()).expect("a name");
            if let Some(change) = edit_read(&name, label, &fs::read_to_string(&file).expect("an edit")) {
                print!("{}", changes::written(&change));
            }
        }
    }
}

/// A must-fail edit as a change of whole lines; nothing of one that changes more than code.
fn edit_read(name: &str, label: &str, text: &str) -> Option<Change> {
    let mut change = Change { name: format!("{name}/must-fail/{label}"), edits: Vec::new() };
    let (mut file, mut old) = ("", "");
    let mut sources: HashMap<String, String> = HashMap::new();
    for line in text.lines() {
        if let Some(rest) = line.strip_prefix("file: ") {
            file = rest;
        } else if let Some(rest) = line.strip_prefix("old: ") {
            old = rest;
        } else if let Some(rest) = line.strip_prefix("new:") {
            if !file.starts_with("src/") {
                return None;
            }
            let path = format!("{name}/{file}");
            let source = sources
                .entry(path.clone())
                .or_insert_with_key(|path| fs::read_to_string(Path::new("crates").join(path)).expect("a source"));
            let edit = whole_lines(&path, source, old, rest.strip_prefix(' ').unwrap_or(rest));
            *source = edit.applied(source);
            change.edits.push(edit);
        }
    }
    Some(change)
}

/// The edit that changes the line in which the old text stands.
fn whole_lines(file: &str, source: &str, old: &str, new: &str) -> Edit {
    let number = source.lines().position(|line| line.contains(old)).expect("the old text");
    let line = source.lines().nth(number).expect("a line");
    let replaced = line.replacen(old, new, 1);
    let new = if replaced.trim().is_empty() { String::new() } else { format!("{replaced}\n") };
    Edit { file: file.to_string(), line: number + 1, old: format!("{line}\n"), new }
}

fn read_list(list: &str) -> Vec<Change> {
    changes::read(&fs::read_to_string(list).expect("the list of changes"))
}

/// What a change is known by in the results.
fn key(change: &Change) -> String {
    let edits: Vec<String> =
        change.edits.iter().map(|edit| format!("{} -> {}", edit.old.trim(), edit.new.trim())).collect();
    format!("{} | {}", change.name, edits.join(" ; "))
}

/// The results so far, by key.
fn read_results(results: &str) -> HashMap<String, String> {
    let text = fs::read_to_string(results).unwrap_or_default();
    let lines = text.lines().filter_map(|line| line.rsplit_once('\t'));
    lines.map(|(key, result)| (key.to_string(), result.to_string())).collect()
}

fn result_text(found: Found, no: &str) -> String {
    match found {
        Found::Yes(place) => place,
        Found::No => no.to_string(),
        Found::NotCompiled => "does not compile".to_string(),
    }
}

/// Goes through the changes that have no result yet, some at a time, each job on a copy of its own.
fn go_through(list: &str, results: &str, copies: Vec<Copied>, act: impl Fn(&Copied, &Change) -> String + Sync) {
    let known = read_results(results);
    let changes: Vec<Change> = read_list(list).into_iter().filter(|change| !known.contains_key(&key(change))).collect();
    let file = OpenOptions::new().create(true).append(true).open(results).expect("the results");
    let file: Mutex<File> = Mutex::new(file);
    let next = AtomicUsize::new(0);
    std::thread::scope(|scope| {
        for copy in &copies {
            scope.spawn(|| {
                while let Some(change) = changes.get(next.fetch_add(1, Ordering::Relaxed)) {
                    let result = act(copy, change);
                    writeln!(file.lock().unwrap(), "{}\t{result}", key(change)).expect("a result");
                }
            });
        }
    });
}

/// A copy for each job, outside the repository: `rt ci` refuses sources in any folder there but those of its crates.
fn copies(what: &str, jobs: usize) -> Vec<Copied> {
    let folder = std::env::temp_dir().join("muralintak-changed");
    (0..jobs).map(|job| Copied::new(Path::new("."), folder.join(format!("{what}{job}")))).collect()
}

fn try_all(list: &str, results: &str, jobs: usize) {
    go_through(list, results, copies("try", jobs), |copy, change| {
        if copy.programs_with(crate_of(change)).is_empty() {
            return "no program calls it".to_string();
        }
        result_text(copy.noticed(change), "NOT NOTICED")
    });
}

/// A change is asked about until the first crate that refuses it.
fn prove_all(list: &str, results: &str, jobs: usize) {
    go_through(list, results, copies("prove", jobs), |copy, change| result_text(copy.refused(change), "NOT REFUSED"));
}

/// A row for each crate, and the changes that nobody noticed or refused.
fn figures(list: &str, results: &str) {
    let results = read_results(results);
    let mut rows: BTreeMap<String, [usize; 5]> = BTreeMap::new();
    let mut passed = Vec::new();
    for change in read_list(list) {
        let place = match results.get(&key(&change)).map(String::as_str) {
            Some("NOT NOTICED" | "NOT REFUSED" | "no program calls it") => 2,
            Some("does not compile") => 3,
            Some(_) => 1,
            None => 4,
        };
        for name in [crate_of(&change), "~ all"] {
            let row = rows.entry(name.to_string()).or_default();
            row[0] += 1;
            row[place] += 1;
        }
        if place == 2 {
            passed.push(key(&change));
        }
    }
    println!("| crate | changes | noticed or refused | neither | did not compile | no result yet |\n|---|---|---|---|---|---|");
    for (name, [made, noticed, neither, uncompiled, none]) in rows {
        let name = name.trim_start_matches("~ ");
        println!("| {name} | {made} | {noticed} | {neither} | {uncompiled} | {none} |");
    }
    for change in passed {
        println!("- {change}");
    }
}

/// The most letters of a line that the table shows.
const SHOWN: usize = 80;

/// Code in the table: cut, and with no mark that a table knows.
fn code(text: &str) -> String {
    let text = text.trim().replace('|', "\\|");
    match text.char_indices().nth(SHOWN) {
        Some((at, _)) => format!("`{}..`", &text[..at]),
        None if text.is_empty() => "nothing".to_string(),
        None => format!("`{text}`"),
    }
}

/// A row for each line of a source: the line, and what it became, by whom that was noticed and whether the prover
/// refused it (+).
fn table(list: &str, tried: &str, proved: &str) {
    let (tried, proved) = (read_results(tried), read_results(proved));
    let mut rows: Vec<(String, Vec<String>)> = Vec::new();
    let mut counts: BTreeMap<String, usize> = BTreeMap::new();
    for change in read_list(list) {
        let of = |results: &HashMap<String, String>| results.get(&key(&change)).cloned().unwrap_or("-".to_string());
        let (noticed, refused) = (of(&tried), refused_kind(&of(&proved)));
        if noticed == "does not compile" || noticed == "-" {
            let kind = if noticed == "-" { "0 made, but not tried" } else { "0 made, but not compiled" };
            *counts.entry(kind.to_string()).or_default() += 1;
            continue;
        }
        *counts.entry(format!("1 {}", noticed_kind(&noticed))).or_default() += 1;
        *counts.entry(format!("2 {refused}")).or_default() += 1;
        let mark = match refused {
            "refused by the prover" => " +",
            "NOT REFUSED" => " NOT REFUSED",
            _ => "",
        };
        let parts: Vec<String> = change.edits.iter().map(|edit| difference(&edit.old, &edit.new)).collect();
        let begin = format!("{} | {}", change.name, code(&change.edits[0].old));
        if rows.last().is_none_or(|(last, _)| *last != begin) {
            rows.push((begin, Vec::new()));
        }
        // Lines of a stored output move when it is made anew; the results have them.
        let noticed = noticed.split(" line ").next().unwrap_or_default();
        rows.last_mut().expect("a row").1.push(format!("{}: {noticed}{mark}", parts.join(" and ")));
    }
    for (kind, count) in counts {
        println!("- {}: {count}", &kind[2..]);
    }
    println!("\n| place | line | becomes: noticed by |\n|---|---|---|");
    for (begin, parts) in rows {
        println!("| {begin} | {} |", parts.join("; "));
    }
}

/// What of a line became something else.
fn difference(old: &str, new: &str) -> String {
    let (old, new) = (old.trim(), new.trim());
    if new.is_empty() {
        return "dropped".to_string();
    }
    let front = old.bytes().zip(new.bytes()).take_while(|(a, b)| a == b).count();
    let front = (0..=front).rev().find(|&at| parts(old, at) && parts(new, at)).unwrap_or(0);
    let most = old.len().min(new.len()) - front;
    let back = old.bytes().rev().zip(new.bytes().rev()).take(most).take_while(|(a, b)| a == b).count();
    let back = (0..=back).rev().find(|&at| parts(old, old.len() - at) && parts(new, new.len() - at)).unwrap_or(0);
    format!("{} to {}", code(&old[front..old.len() - back]), code(&new[front..new.len() - back]))
}

/// Whether a word or a mark ends or begins at this place.
fn parts(line: &str, at: usize) -> bool {
    let class = |byte: u8| match byte {
        b'<' | b'>' | b'=' | b'!' | b'&' | b'|' => 1,
        _ if byte.is_ascii_alphanumeric() || byte == b'_' => 2,
        _ => 0,
    };
    let (front, back) = line.as_bytes().split_at(at);
    match (front.last(), back.first()) {
        (Some(&one), Some(&two)) => class(one) == 0 || class(one) != class(two),
        _ => true,
    }
}

/// What is counted together: by the program that noticed.
fn noticed_kind(noticed: &str) -> String {
    match noticed.split_once(' ') {
        Some((program @ ("vectors" | "bench" | "replay"), _)) => format!("noticed by {program}"),
        _ => noticed.to_lowercase(),
    }
}

fn refused_kind(refused: &str) -> &'static str {
    match refused {
        "-" => "not put to the prover",
        "NOT REFUSED" => "NOT REFUSED",
        "does not compile" => "not compiled for the prover",
        _ => "refused by the prover",
    }
}
