//! Bus bytes on standard input, a line for each command on standard output.

use std::io::{Read, Write};

fn main() -> std::io::Result<()> {
    let mut bytes = Vec::new();
    std::io::stdin().read_to_end(&mut bytes)?;
    std::io::stdout().write_all(&reference::bench::bench(&bytes))
}
