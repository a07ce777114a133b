//! Writes scenarios for `replay` or a byte stream for `bench`.
//!
//! generate replay SEED [SCENARIOS]      random scenarios
//! generate bench SEED                   a random byte stream
//! generate stored                       the stored scenario: by hand, chosen, and the line at its end
//! generate short                        a scenario from standard input, its edges as lines `bytes` where that is the same

use evidence::generator::{byte_stream, scenario_file};
use evidence::short::short;
use evidence::stored::stored_scenario;
use std::io::{Read, Write};

fn main() -> std::io::Result<()> {
    let words: Vec<String> = std::env::args().skip(1).collect();
    let number = |place: usize| words.get(place).and_then(|word| word.parse::<u64>().ok());
    let bytes = match (words.first().map(String::as_str), number(1)) {
        (Some("replay"), Some(seed)) => scenario_file(seed, number(2).unwrap_or(100) as usize).text,
        (Some("bench"), Some(seed)) => byte_stream(seed),
        (Some("stored"), _) => stored_scenario(),
        (Some("short"), _) => {
            let mut text = String::new();
            std::io::stdin().read_to_string(&mut text)?;
            short(&text).into_bytes()
        }
        _ => {
            eprintln!("generate replay SEED [SCENARIOS] | bench SEED | stored | short");
            std::process::exit(2);
        }
    };
    std::io::stdout().write_all(&bytes)
}
