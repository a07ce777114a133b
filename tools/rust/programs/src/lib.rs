//! The libraries of the proved programs, in their Rust form.
#![forbid(unsafe_code)]

pub mod kit;
