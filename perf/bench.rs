//! The bench over the reference: bus bytes on standard input, a line for each command on standard output.

#![no_main]

use std::ffi::c_char;
use std::fs::File;
use std::io::{Read, Write};
use std::os::fd::FromRawFd;

fn run() -> std::io::Result<()> {
    let mut bytes = Vec::new();
    unsafe { File::from_raw_fd(0) }.read_to_end(&mut bytes)?;
    unsafe { File::from_raw_fd(1) }.write_all(&reference::bench::bench(&bytes))
}

#[no_mangle]
pub extern "C" fn main(_argc: i32, _argv: *const *const c_char) -> i32 {
    run().is_err() as i32
}
