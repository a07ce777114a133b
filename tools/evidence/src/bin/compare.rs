//! Runs random scenarios and byte streams through two programs, or several such pairs, and through the reference,
//! and compares what they write on standard output and on standard error, byte for byte.
//!
//! compare REPLAY BENCH SCENARIOS SEED [JOBS [REPLAY BENCH]..]
//!
//! REPLAY and BENCH are the commands that start the programs (a path, or a path and its words in one
//! argument). The first difference is shown with the statements that lead to it. Without one, the counted
//! branches of the paper are written; a branch that was never reached is a failure too.

use evidence::generator::{byte_stream, fixed_files, scenario_file, scenarios_of, MARK};
use evidence::names::totals;
use evidence::watch::Watch;
use reference::receiver::packet_length;
use std::io::{Read, Write};
use std::process::{Command, ExitCode, Stdio};
use std::sync::atomic::{AtomicU64, Ordering};
use std::sync::mpsc::channel;
use std::sync::Mutex;
use std::time::Duration;

/// How many scenarios a usual file holds.
const BATCH: usize = 100;

/// A program that takes longer for one input is killed, which counts as a difference.
const LIMIT: Duration = Duration::from_secs(300);

/// The most lines that lead to a difference that are shown.
const SHOWN: usize = 300;

/// A pair of programs.
struct Side {
    replay: String,
    bench: String,
}

struct Plan {
    sides: Vec<Side>,
    first: u64,
    /// The seed after the last.
    end: u64,
    jobs: u64,
}

/// What was compared.
#[derive(Default)]
struct Sums {
    files: AtomicU64,
    scenarios: AtomicU64,
    lines: AtomicU64,
    written: AtomicU64,
    streams: AtomicU64,
    bytes: AtomicU64,
    commands: AtomicU64,
}

fn main() -> ExitCode {
    let Some(plan) = plan() else {
        eprintln!("compare REPLAY BENCH SCENARIOS SEED [JOBS [REPLAY BENCH]..]");
        return ExitCode::from(2);
    };
    let sums = Sums::default();
    if let Some(difference) = compare_fixed(&plan, &sums).or_else(|| compare_all(&plan, &sums)) {
        println!("{difference}");
        return ExitCode::FAILURE;
    }
    report(&plan, &sums)
}

fn plan() -> Option<Plan> {
    let words: Vec<String> = std::env::args().skip(1).collect();
    let [replay, bench, scenarios, seed, rest @ ..] = words.as_slice() else { return None };
    let scenarios: usize = scenarios.parse().ok()?;
    let first: u64 = seed.parse().ok()?;
    let jobs = rest.first().map_or(Some(1), |jobs| jobs.parse().ok())?;
    let mut sides = vec![Side { replay: replay.clone(), bench: bench.clone() }];
    for pair in rest.get(1..).unwrap_or(&[]).chunks(2) {
        let [replay, bench] = pair else { return None };
        sides.push(Side { replay: replay.clone(), bench: bench.clone() });
    }
    Some(Plan { sides, first, end: end(first, scenarios), jobs })
}

/// The seed after the last that is needed for this many scenarios.
fn end(first: u64, scenarios: usize) -> u64 {
    let mut seed = first;
    let mut held = 0;
    while held < scenarios {
        held += scenarios_of(seed, BATCH);
        seed += 1;
    }
    seed
}

/// Compares seed by seed until the end or the first difference.
fn compare_all(plan: &Plan, sums: &Sums) -> Option<String> {
    let next = AtomicU64::new(plan.first);
    let found: Mutex<Option<(u64, String)>> = Mutex::new(None);
    std::thread::scope(|scope| {
        for _ in 0..plan.jobs {
            scope.spawn(|| loop {
                let seed = next.fetch_add(1, Ordering::Relaxed);
                if seed >= plan.end {
                    return;
                }
                let difference = compare_scenarios(plan, seed, sums).or_else(|| compare_stream(plan, seed, sums));
                if let Some(difference) = difference {
                    next.store(plan.end, Ordering::Relaxed);
                    keep_lowest(&found, seed, difference);
                }
            });
        }
    });
    found.into_inner().unwrap().map(|(_, difference)| difference)
}

fn keep_lowest(found: &Mutex<Option<(u64, String)>>, seed: u64, difference: String) {
    let mut found = found.lock().unwrap();
    if found.as_ref().is_none_or(|(lowest, _)| seed < *lowest) {
        *found = Some((seed, difference));
    }
}

fn add(sum: &AtomicU64, amount: usize) {
    sum.fetch_add(amount as u64, Ordering::Relaxed);
}

fn count_lines(text: &[u8]) -> usize {
    text.iter().filter(|&&byte| byte == b'\n').count()
}

/// What a program writes for this input, standard error behind standard output, or what went wrong with it.
fn run(command: &str, input: &[u8]) -> Result<Vec<u8>, String> {
    let mut words = command.split(' ').filter(|word| !word.is_empty());
    let mut child = Command::new(words.next().ok_or("no program")?)
        .args(words)
        .stdin(Stdio::piped())
        .stdout(Stdio::piped())
        .stderr(Stdio::piped())
        .spawn()
        .map_err(|error| format!("{command}: {error}"))?;
    let mut stdin = child.stdin.take().ok_or("no input")?;
    let mut stdout = child.stdout.take().ok_or("no output")?;
    let mut stderr = child.stderr.take().ok_or("no standard error")?;
    let child = Mutex::new(child);
    let (ended, watch) = channel();
    let (mut output, mut said) = (Vec::new(), Vec::new());
    let read = std::thread::scope(|scope| {
        scope.spawn(move || {
            // A program that stops at a bad line need not read the rest.
            let _ = stdin.write_all(input);
        });
        let child = &child;
        scope.spawn(move || {
            if watch.recv_timeout(LIMIT).is_err() {
                let _ = child.lock().unwrap().kill();
            }
        });
        let said = &mut said;
        let errors = scope.spawn(move || stderr.read_to_end(said));
        let read = stdout.read_to_end(&mut output);
        let _ = errors.join();
        let _ = ended.send(());
        read
    });
    read.map_err(|error| format!("{command}: {error}"))?;
    let status = child.into_inner().unwrap().wait().map_err(|error| format!("{command}: {error}"))?;
    // A program that complained ends with 1.
    if status.code() != Some(!said.is_empty() as i32) {
        return Err(format!("{command} ended with {status}: {}", String::from_utf8_lossy(&said)));
    }
    Ok([output, said].concat())
}

/// The first line that differs, counted from 0, if any.
fn first_difference(one: &[u8], two: &[u8]) -> Option<usize> {
    if one == two {
        return None;
    }
    let same = one.iter().zip(two).take_while(|(a, b)| a == b).count();
    Some(count_lines(&one[..same]))
}

fn text_line(text: &[u8], line: usize) -> String {
    match text.split(|&byte| byte == b'\n').nth(line) {
        Some(bytes) if !bytes.is_empty() => String::from_utf8_lossy(bytes).into_owned(),
        _ => "(nothing)".to_string(),
    }
}

fn compare_scenarios(plan: &Plan, seed: u64, sums: &Sums) -> Option<String> {
    let file = scenario_file(seed, BATCH);
    add(&sums.scenarios, file.scenarios);
    compare_file(plan, &file.text, &format!("seed {seed} (generate replay {seed})"), sums)
}

fn compare_fixed(plan: &Plan, sums: &Sums) -> Option<String> {
    fixed_files().iter().find_map(|(name, text)| compare_file(plan, text, name, sums))
}

fn compare_file(plan: &Plan, text: &[u8], name: &str, sums: &Sums) -> Option<String> {
    let wanted = reference::replay::watched(text, &mut Watch);
    let written = [wanted.out, wanted.said].concat();
    add(&sums.files, 1);
    add(&sums.lines, count_lines(text));
    add(&sums.written, count_lines(&written));
    plan.sides.iter().find_map(|side| scenario_difference(&side.replay, text, &written, &wanted.causes, name))
}

/// How what a program writes for a scenario differs from the reference, if it does.
fn scenario_difference(program: &str, text: &[u8], written: &[u8], causes: &[usize], name: &str) -> Option<String> {
    let given = match run(program, text) {
        Ok(given) => given,
        Err(error) => return Some(format!("{name}: {error}")),
    };
    let line = first_difference(written, &given)?;
    let cause = causes.get(line).copied().unwrap_or(count_lines(text) + 1);
    Some(format!(
        "Difference at {name}, written line {}, by {program}.\n  reference: {}\n  program:   {}\n\
         The scenario up to its line {cause}:\n{}",
        line + 1,
        text_line(written, line),
        text_line(&given, line),
        leading_lines(text, cause)
    ))
}

/// The lines from the mark of a scenario to this line.
fn leading_lines(text: &[u8], cause: usize) -> String {
    let lines: Vec<&[u8]> = text.split(|&byte| byte == b'\n').take(cause).collect();
    let begin = lines.iter().rposition(|line| line.starts_with(MARK.as_bytes())).unwrap_or(0);
    let skipped = (lines.len() - begin).saturating_sub(SHOWN);
    let mut shown = String::new();
    if skipped > 0 {
        shown.push_str(&format!("  ({skipped} lines before)\n"));
    }
    for (place, line) in lines.iter().enumerate().skip(begin + skipped) {
        shown.push_str(&format!("  {:>6}  {}\n", place + 1, String::from_utf8_lossy(line)));
    }
    shown
}

fn compare_stream(plan: &Plan, seed: u64, sums: &Sums) -> Option<String> {
    let bytes = byte_stream(seed);
    let wanted = reference::bench::bench(&bytes);
    add(&sums.streams, 1);
    add(&sums.bytes, bytes.len());
    add(&sums.commands, count_lines(&wanted));
    plan.sides.iter().find_map(|side| stream_difference(&side.bench, &bytes, &wanted, seed))
}

/// How what a program writes for a byte stream differs from the reference, if it does.
fn stream_difference(program: &str, bytes: &[u8], wanted: &[u8], seed: u64) -> Option<String> {
    let given = match run(program, bytes) {
        Ok(given) => given,
        Err(error) => return Some(format!("seed {seed}: {error}")),
    };
    let line = first_difference(wanted, &given)?;
    Some(format!(
        "Difference at seed {seed} (generate bench {seed}), written line {}, by {program}.\n  reference: {}\n  \
         program:   {}\nThe commands up to it:\n{}",
        line + 1,
        text_line(wanted, line),
        text_line(&given, line),
        leading_commands(bytes, line)
    ))
}

/// The commands of a byte stream up to this one.
fn leading_commands(bytes: &[u8], last: usize) -> String {
    let mut rest = bytes;
    let mut commands = Vec::new();
    while commands.len() <= last && !rest.is_empty() {
        let (packet, behind) = rest.split_at((packet_length(rest[0]) as usize).min(rest.len()));
        commands.push(format!("  {packet:02X?}\n"));
        rest = behind;
    }
    commands[commands.len().saturating_sub(SHOWN)..].concat()
}

fn report(plan: &Plan, sums: &Sums) -> ExitCode {
    let sum = |sum: &AtomicU64| sum.load(Ordering::Relaxed);
    println!("No difference. Seeds {} to {}.", plan.first, plan.end - 1);
    println!(
        "replay: {} scenarios in {} files, {} lines in, {} lines out",
        sum(&sums.scenarios),
        sum(&sums.files),
        sum(&sums.lines),
        sum(&sums.written)
    );
    println!("bench: {} streams, {} bytes in, {} commands", sum(&sums.streams), sum(&sums.bytes), sum(&sums.commands));
    let totals = totals();
    for (name, count) in &totals {
        println!("{count:>12}  {name}");
    }
    let missing: Vec<&String> = totals.iter().filter(|(_, count)| *count == 0).map(|(name, _)| name).collect();
    if missing.is_empty() {
        println!("All {} branches were reached.", totals.len());
        return ExitCode::SUCCESS;
    }
    println!("Never reached: {} of {} branches.", missing.len(), totals.len());
    for name in missing {
        println!("  {name}");
    }
    ExitCode::FAILURE
}
