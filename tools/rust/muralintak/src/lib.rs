//! The SUSI bus, for modules and hosts: no allocation, no dependency, no `unsafe`, no `std`.
//!
//! # The face
//!
//! None of these asks anything of its caller. What is not right is refused, with the cause ([`refusals::Refusal`]),
//! and then nothing has changed.
//!
//! | for | entry |
//! |---|---|
//! | a receiver: falling clock edges in, packets out | [`line::Receiver::edge`]; in place, [`firmware::muralintak_edge`] |
//! | a module: edges in, replies out | [`module::feed`], [`module::restart`], [`module::post`], [`module::set_status`], [`module::set_wait`] |
//! | the same for a long recording | [`onward::feed`] |
//! | a display: how many states and functions are on | [`counts::shown_counts`]; counted anew, [`counts::checked_counts`] |
//! | the cells of a bank, where they stand | [`view::bank_view`]; why there are none, [`view::view_refusal`] |
//! | a host: commands to packets, bank replies to cells | [`host::encode`], [`host::read_bank`] |
//! | what a packet means | [`command::Command`] |
//!
//! ```
//! use muralintak::line::Receiver;
//! use muralintak::refusals::Refusal;
//!
//! let mut receiver = Receiver::new();
//! for (i, level) in [0u8, 0, 0, 0, 0, 1, 1, 0, 1, 1, 0, 0, 0, 0, 0, 0].into_iter().enumerate() {
//!     let heard = receiver.edge(100 * i as u64, level)?;
//!     receiver = heard.receiver;
//!     if let Some(packet) = heard.packet {
//!         assert_eq!((packet.length, packet.bytes), (2, [0x60, 0x03, 0]));
//!     }
//! }
//! # Ok::<(), Refusal>(())
//! ```
//!
//! # What is proved, and what is believed
//!
//! The Rattle sources are proved to do what their definitions say, on the language's machine with its sizes of
//! 64 bits. Each file here was written from one of them by a tool of few rules, which leaves the statements as
//! they are; that tool and the Rust compiler are believed. A doc comment names a function's promise where it has
//! one, and what it asks of its caller: a function that asks for something may panic or answer wrongly without it.
#![no_std]
#![forbid(unsafe_code)]

// Every crate of the proved sources that the face stands on is a module of the same name; their `mod` lines follow.
