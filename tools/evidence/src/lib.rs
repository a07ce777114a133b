//! Tools around the second reading: what it is compared with and how, and small changes that the comparison and the
//! prover must notice.
//!
//! From the bottom to the top: random, changes, small, watch_packet, watch_clock, watch_position, watch_counts,
//! watch_fixed, watch, names, packets, clauses, material, script, scenarios, short, stored, generator, unproved, trying.
//! Each uses only those before it.

pub mod changes;
mod clauses;
pub mod generator;
mod material;
pub mod names;
pub mod packets;
pub mod random;
mod scenarios;
mod script;
pub mod short;
pub mod small;
pub mod stored;
pub mod trying;
mod unproved;
pub mod watch;
mod watch_clock;
mod watch_counts;
mod watch_fixed;
mod watch_packet;
mod watch_position;
