//! A second reading of document 01, amended by requests C-02, C-03, C-12, C-05 and C-13: module, host, bench and replay
//! in plain Rust.
//!
//! It was written from the documents, and replay from the page on scenarios (docs/REPLAY.md); it shares nothing with the
//! proved code, so that a misreading in one of them shows as a difference. It is clear and slow: the module goes
//! edge by edge, without blocks and without tables.
//!
//! From the bottom to the top: branch, refusal, crc, receiver, banks, module, bench, host, grammar, fault, replay. Each
//! uses only those before it.

#[macro_use]
pub mod branch;
pub mod banks;
pub mod bench;
pub mod crc;
pub mod fault;
pub mod grammar;
pub mod host;
pub mod module;
pub mod receiver;
pub mod refusal;
pub mod replay;
