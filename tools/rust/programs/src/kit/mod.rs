//! Stand-ins for the toolchain's libraries, by what their functions promise: only what the programs use.
pub mod std;
