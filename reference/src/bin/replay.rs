//! A scenario on standard input, what it gives on standard output, what is wrong with it on standard error. Then the
//! status is 1, as `./run` has it.

use std::io::{Read, Write};
use std::process::ExitCode;

fn main() -> std::io::Result<ExitCode> {
    let mut scenario = Vec::new();
    std::io::stdin().read_to_end(&mut scenario)?;
    let run = reference::replay::replay(&scenario);
    std::io::stdout().write_all(&run.out)?;
    std::io::stderr().write_all(&run.said)?;
    Ok(if run.said.is_empty() { ExitCode::SUCCESS } else { ExitCode::FAILURE })
}
