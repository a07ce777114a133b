//! Runs `rt` on a changed copy of the crates: the programs unproved, or the prover.

use crate::changes::{Change, Edit};
use crate::generator::{byte_stream, fixed_files, scenario_file};
use crate::stored::BY_HAND;
use crate::unproved;
use reference::bench::bench;
use reference::replay::replay;
use std::fs::{self, File};
use std::path::{Path, PathBuf};
use std::process::{Command, Output, Stdio};

/// The programs that are run, in this order.
const PROGRAMS: [&str; 3] = ["vectors", "bench", "replay"];

/// The bytes of the bench's short input.
const SHORT_BYTES: usize = 4096;

/// The seeds of the random inputs: one of each kind of file.
const SEEDS: u64 = 30;

/// How many scenarios a file holds.
const SCENARIOS: usize = 100;

/// What a program is given besides its stored input, by name, and what it must write.
fn more_inputs(program: &str) -> Box<dyn Iterator<Item = (String, Vec<u8>)>> {
    let seeds = (1..=SEEDS).map(|seed| (format!("seed {seed}"), seed));
    match program {
        "replay" => {
            let random = seeds.map(|(name, seed)| (name, scenario_file(seed, SCENARIOS).text));
            Box::new(fixed_files().into_iter().chain(random))
        }
        "bench" => Box::new(seeds.map(|(name, seed)| (name, byte_stream(seed)))),
        _ => Box::new(std::iter::empty()),
    }
}

/// What a program must write.
fn wanted(program: &str, input: &[u8]) -> Vec<u8> {
    match program {
        "replay" => replay(input).out,
        _ => bench(input),
    }
}

/// A program with a short input and what it must write for it, for `rt try`.
struct Trial {
    program: &'static str,
    stdin: Vec<u8>,
    stdout: Vec<u8>,
}

fn trials(crates: &Path) -> Vec<Trial> {
    let stored = |program: &str, name: &str| fs::read(crates.join(program).join(name)).unwrap_or_default();
    let vectors = Trial { program: "vectors", stdin: Vec::new(), stdout: stored("vectors", "stdout") };
    let mut bytes = stored("bench", "stdin");
    bytes.truncate(SHORT_BYTES);
    let short = Trial { program: "bench", stdout: bench(&bytes), stdin: bytes };
    let by_hand = BY_HAND.as_bytes();
    let by_hand = Trial { program: "replay", stdout: replay(by_hand).out, stdin: by_hand.to_vec() };
    vec![vectors, short, by_hand]
}

/// How far a tool came with a change.
pub enum Found {
    /// It was noticed, or refused: where.
    Yes(String),
    No,
    /// It is no change: the compiler does not take it.
    NotCompiled,
}

/// A copy of the repository's crates, to be changed.
pub struct Copied {
    root: PathBuf,
    trials: Vec<Trial>,
}

impl Drop for Copied {
    fn drop(&mut self) {
        let _ = fs::remove_dir_all(&self.root);
    }
}

impl Copied {
    /// Copies the crates of the repository at `from`, as text. What its checks kept `rt` takes from there by itself.
    pub fn new(from: &Path, root: PathBuf) -> Copied {
        let _ = fs::remove_dir_all(&root);
        fs::create_dir_all(root.join("tools")).expect("a folder");
        fs::copy(from.join("crates.txt"), root.join("crates.txt")).expect("crates.txt");
        fs::copy(from.join("tools/unproved"), root.join("tools/unproved")).expect("tools/unproved");
        copy_folder(&from.join("crates"), &root.join("crates"));
        let trials = trials(&from.join("crates"));
        Copied { root, trials }
    }

    /// Makes the change, does something, and puts the files back.
    fn changed<T>(&self, change: &Change, act: impl FnOnce() -> T) -> T {
        let path = |edit: &Edit| self.root.join("crates").join(&edit.file);
        let texts: Vec<(PathBuf, String)> =
            change.edits.iter().map(|edit| (path(edit), fs::read_to_string(path(edit)).expect("a source"))).collect();
        for edit in &change.edits {
            let source = fs::read_to_string(path(edit)).expect("a source");
            fs::write(path(edit), edit.applied(&source)).expect("a changed source");
        }
        let result = act();
        for (path, text) in texts {
            fs::write(path, text).expect("the source");
        }
        result
    }

    /// Runs the programs that the changed crate is part of until one notices: on all that is stored, on random
    /// inputs, then by `rt try` on less, which sees what is undefined too.
    pub fn noticed(&self, change: &Change) -> Found {
        let reaching = self.programs_with(crate_of(change));
        self.changed(change, || {
            let stored = reaching.iter().map(|program| self.run_stored(program));
            let more = reaching.iter().map(|program| self.run_more(program));
            let trials = self.trials.iter().filter(|trial| reaching.contains(&trial.program));
            let mut all = stored.chain(more).chain(trials.map(|trial| self.run_trial(trial)));
            all.find(|found| !matches!(found, Found::No)).unwrap_or(Found::No)
        })
    }

    /// The programs that a crate is part of.
    pub fn programs_with(&self, name: &str) -> Vec<&'static str> {
        PROGRAMS.into_iter().filter(|program| self.reached_by(program).iter().any(|part| part == name)).collect()
    }

    /// The program, compiled and not proved.
    fn compiled(&self, name: &str) -> Option<PathBuf> {
        unproved::build(&self.root, name)
    }

    fn run_stored(&self, name: &str) -> Found {
        let Some(program) = self.compiled(name) else { return Found::NotCompiled };
        let folder = self.root.join("crates").join(name);
        let wanted = fs::read(folder.join("stdout")).expect("the stored output");
        match unproved::run(&program, &folder.join("stdin"), &wanted) {
            Some(wrong) => Found::Yes(format!("{name} {wrong}")),
            None => Found::No,
        }
    }

    /// On more inputs, as the comparison makes them.
    fn run_more(&self, name: &str) -> Found {
        let Some(program) = self.compiled(name) else { return Found::NotCompiled };
        let file = self.root.join("input");
        for (input, bytes) in more_inputs(name) {
            fs::write(&file, &bytes).expect("a file");
            if let Some(wrong) = unproved::run(&program, &file, &wanted(name, &bytes)) {
                return Found::Yes(format!("{name}, {input}, {wrong}"));
            }
        }
        Found::No
    }

    /// The lines of crates.txt: a crate, and what it stands on. The toolchain's libraries have none.
    fn crates(&self) -> Vec<(String, Vec<String>)> {
        let text = fs::read_to_string(self.root.join("crates.txt")).expect("crates.txt");
        let lines = text.lines().filter(|line| !line.starts_with('#'));
        let split = lines.filter_map(|line| line.split_once(':'));
        let own = |name: &str| name.split_whitespace().next().unwrap_or_default().to_string();
        split.map(|(name, on)| (own(name), on.split_whitespace().map(str::to_string).collect())).collect()
    }

    /// A crate and all that it stands on.
    fn reached_by(&self, name: &str) -> Vec<String> {
        let crates = self.crates();
        let mut reached = vec![name.to_string()];
        let mut place = 0;
        while place < reached.len() {
            let on = crates.iter().find(|(name, _)| *name == reached[place]).map(|(_, on)| on.clone());
            for part in on.unwrap_or_default() {
                if !reached.contains(&part) {
                    reached.push(part);
                }
            }
            place += 1;
        }
        reached
    }

    /// Runs `rt try` on a short input. The interpreter may run out of steps, which says nothing.
    fn run_trial(&self, trial: &Trial) -> Found {
        let input = self.root.join("input");
        fs::write(&input, &trial.stdin).expect("a file");
        let input = File::open(input).expect("a file");
        trial_read(trial, &self.rt("try", trial.program, input.into()))
    }

    /// Whether the prover refuses the changed crate, or one that stands on it.
    pub fn refused(&self, change: &Change) -> Found {
        let changed = crate_of(change).to_string();
        let crates: Vec<String> = self.crates().into_iter().map(|(name, _)| name).collect();
        let above = |name: &&String| self.reached_by(name).contains(&changed);
        self.changed(change, || {
            let mut tried = 0;
            let mut answer = Found::No;
            for name in crates.iter().filter(above) {
                tried += 1;
                answer = self.prove(name);
                if !matches!(answer, Found::No) {
                    break;
                }
            }
            if tried > 1 {
                // The crates above begin the next time with what the repository's own checks kept.
                for name in crates.iter().filter(above) {
                    let _ = fs::remove_dir_all(self.root.join("crates").join(name).join("out"));
                }
            }
            answer
        })
    }

    /// What `rt` says of a crate, in that crate's folder.
    fn rt(&self, word: &str, name: &str, input: Stdio) -> Output {
        let folder = self.root.join("crates").join(name);
        Command::new("rt").arg(word).current_dir(folder).stdin(input).output().expect("rt")
    }

    fn prove(&self, name: &str) -> Found {
        let said = self.rt("check", name, Stdio::null());
        let text = [said.stdout, said.stderr].concat();
        let text = String::from_utf8_lossy(&text);
        if text.lines().any(|line| line.starts_with("logic=proved")) {
            return Found::No;
        }
        if !text.lines().any(|line| line.starts_with("logic=not-proved")) {
            return Found::NotCompiled;
        }
        let place = text.lines().find_map(first_error).unwrap_or_default();
        Found::Yes(format!("{name} {place}").trim().to_string())
    }
}

/// The crate of a change's first edit.
pub fn crate_of(change: &Change) -> &str {
    change.edits[0].file.split('/').next().unwrap_or_default()
}

/// Where the prover's first complaint stands, without the folders before it.
fn first_error(line: &str) -> Option<String> {
    let place = match line.split_once(": error") {
        Some((place, _)) => place,
        None => line.strip_prefix("note: ")?.split(' ').next()?.trim_end_matches(':'),
    };
    let parts: Vec<&str> = place.split('/').collect();
    let from = parts.iter().rposition(|part| ["src", "specs", "proofs"].contains(part))?;
    Some(parts[from..].join("/"))
}

/// What `rt try` says of a trial, by its status: 0 where the program ended, 4 where it is undefined, 5 where the
/// interpreter and the compiled program differ.
fn trial_read(trial: &Trial, ran: &Output) -> Found {
    let program = trial.program;
    let said = String::from_utf8_lossy(&ran.stderr);
    match ran.status.code() {
        Some(0) if ran.stdout == trial.stdout => Found::No,
        Some(0) => {
            let same = ran.stdout.iter().zip(&trial.stdout).take_while(|(one, two)| one == two).count();
            let line = 1 + trial.stdout[..same].iter().filter(|&&byte| byte == b'\n').count();
            Found::Yes(format!("{program} line {line} of the short input"))
        }
        Some(4) => {
            let fault = said.lines().find_map(|line| line.split_once(": fault kind="));
            Found::Yes(format!("{program} is undefined: {}", fault.map_or("", |(_, reason)| reason)))
        }
        Some(5) => Found::Yes(format!("{program}: two runs differ")),
        _ => Found::Yes(format!("UNCLEAR: {}", said.lines().next().unwrap_or_default())),
    }
}

fn copy_folder(from: &Path, to: &Path) {
    fs::create_dir_all(to).expect("a folder");
    for entry in fs::read_dir(from).unwrap_or_else(|error| panic!("{}: {error}", from.display())).flatten() {
        let (old, new) = (entry.path(), to.join(entry.file_name()));
        if old.ends_with("out") {
            continue;
        }
        if old.is_dir() {
            copy_folder(&old, &new);
        } else {
            fs::copy(&old, &new).expect("a file");
        }
    }
}
