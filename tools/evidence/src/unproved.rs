//! Builds a program from source with no proof, by `tools/unproved`, and runs it.
//!
//! `rt try` runs a program on an interpreter, and compiled with checks of memory, which is too slow for all that is
//! stored.

use std::fs::File;
use std::io::Read;
use std::path::{Path, PathBuf};
use std::process::{Child, Command, Stdio};
use std::sync::mpsc::channel;
use std::sync::Mutex;
use std::time::Duration;

/// A program that takes longer for its stored input does not end.
const LIMIT: Duration = Duration::from_secs(60);

/// Compiles and links a program of the repository at `root` from its source; nothing where that fails.
pub fn build(root: &Path, name: &str) -> Option<PathBuf> {
    let built = Command::new("sh")
        .arg(root.join("tools/unproved"))
        .arg(name)
        .stdin(Stdio::null())
        .stdout(Stdio::null())
        .stderr(Stdio::null())
        .status()
        .expect("a shell");
    built.success().then(|| root.join("target/unproved").join(name))
}

/// Runs a program on an input until it writes something else than is wanted. Says what went wrong, if anything.
pub fn run(program: &Path, stdin: &Path, wanted: &[u8]) -> Option<String> {
    let mut child = start(program, stdin);
    let mut stdout = child.stdout.take().expect("an output");
    let child = Mutex::new(child);
    let (ended, watch) = channel::<()>();
    let mut same = 0;
    let differs = std::thread::scope(|scope| {
        let child = &child;
        let watcher = scope.spawn(move || {
            let late = watch.recv_timeout(LIMIT).is_err();
            let _ = child.lock().unwrap().kill();
            late
        });
        let differs = !writes(&mut stdout, wanted, &mut same);
        let status = (!differs).then(|| child.lock().unwrap().wait());
        let _ = ended.send(());
        if watcher.join().expect("the watcher") {
            return Some("does not end".to_string());
        }
        match status {
            Some(Ok(status)) if !status.success() => Some(format!("stops: {status}")),
            Some(_) => None,
            None => Some(format!("line {}", 1 + wanted[..same].iter().filter(|&&byte| byte == b'\n').count())),
        }
    });
    let _ = child.into_inner().unwrap().wait();
    differs
}

fn start(program: &Path, stdin: &Path) -> Child {
    let input = File::open(stdin).map_or_else(|_| Stdio::null(), Stdio::from);
    let mut words = Command::new(program);
    words.stdin(input).stdout(Stdio::piped()).stderr(Stdio::null()).spawn().expect("the program")
}

/// Whether exactly the wanted bytes come; counts those that were the same.
fn writes(stdout: &mut impl Read, wanted: &[u8], same: &mut usize) -> bool {
    let mut block = [0; 65536];
    loop {
        let length = stdout.read(&mut block).unwrap_or(0);
        if length == 0 {
            return *same == wanted.len();
        }
        let alike = block[..length].iter().zip(&wanted[*same..]).take_while(|(one, two)| one == two).count();
        *same += alike;
        if alike < length {
            return false;
        }
    }
}
