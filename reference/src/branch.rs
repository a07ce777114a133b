//! How often each branch of the paper was taken, by name. This knows nothing of what it counts.

use std::cell::Cell;
use std::collections::HashMap;
use std::sync::atomic::{AtomicU64, Ordering};
use std::sync::{OnceLock, RwLock};

/// Whether anything is counted.
pub const COUNTING: bool = cfg!(feature = "counting");

/// Counts one passage through the branch of this name. Without the feature it costs nothing.
#[macro_export]
macro_rules! branch {
    ($($name:tt)*) => {
        if $crate::branch::COUNTING {
            $crate::branch::mark(&format!($($name)*));
        }
    };
}

static COUNTS: OnceLock<RwLock<HashMap<String, AtomicU64>>> = OnceLock::new();

fn counts() -> &'static RwLock<HashMap<String, AtomicU64>> {
    COUNTS.get_or_init(Default::default)
}

thread_local! {
    static QUIET: Cell<bool> = const { Cell::new(false) };
}

/// Does something and counts nothing of it: a look ahead is no passage.
pub fn quietly<T>(act: impl FnOnce() -> T) -> T {
    let before = QUIET.replace(true);
    let result = act();
    QUIET.set(before);
    result
}

/// Counts a branch.
pub fn mark(name: &str) {
    if QUIET.get() {
        return;
    }
    if let Some(count) = counts().read().unwrap().get(name) {
        count.fetch_add(1, Ordering::Relaxed);
        return;
    }
    counts().write().unwrap().entry(name.to_string()).or_default().fetch_add(1, Ordering::Relaxed);
}

/// How often the branch of this name was taken so far.
pub fn times(name: &str) -> u64 {
    counts().read().unwrap().get(name).map_or(0, |count| count.load(Ordering::Relaxed))
}

/// The names of all branches that were taken so far, sorted.
pub fn taken() -> Vec<String> {
    let mut names: Vec<String> = counts().read().unwrap().keys().cloned().collect();
    names.sort();
    names
}
