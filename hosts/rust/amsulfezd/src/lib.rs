//! The proved calls of `hosts/c/amsulfezd.h` for Rust hosts, and the records and answers that go with them.
//!
//! | Module | What it holds |
//! |---|---|
//! | [`record`] | the poll record: telegrams, decisions, the clock |
//! | [`trace`] | a trace: its header, a writer, an iterator over its entries |
//! | [`answer`] | the 64-bit answer, and an iterator over a buffer of them |
//! | [`refusal`] | the refusal numbers of documents 01 and 02 and their words |
//! | [`run`] | what the call returns, and the text that the program `replay` prints |
//! | [`heard`] | when an address was heard: the entry's bytes, and the text of all of them; a table beside a station, only where the static library is linked |
//! | [`counts`] | how often a station claimed the token, removed a neighbour and met its own address: bytes and text |
//! | `replay` | the calls on traces, safe; only where the static library is linked |
//! | [`frame`] | the bytes of frames; reading and writing them, safe, only where the static library is linked |
//! | `settings` | settings in a header's bytes, safe; only where the static library is linked |
//! | `station` | a station in bytes, stepped one entry at a time, with a table of who was heard or without, safe; only where the static library is linked |
//! | `fdl` | a live station with the shape of profirust's: `poll(now, phy, app)`; only where the static library is linked |
//! | [`capture`] | a bus monitor's text; importing and exporting it, safe, only where the static library is linked |
//! | [`simulation`] | a setup of several stations, as bytes and as text; simulating it, safe, only where the static library is linked |
//! | [`number`] | the error of a number that the documents do not have |
//! | [`words`] | numbers and settings in words |
//!
//! Nothing here knows what a station does. Records are written and read, answers are read, and every answer comes
//! from the proved program or library. An error says that bytes, words or numbers from elsewhere are not what they
//! should be, or that a value does not fit its field; what the call is proved to do is no error of this library.
//!
//! The library is linked where the environment variable `AMSULFEZD_STATICLIB_DIR` names the folder of `libamsulfezd.a`
//! when this package is built, for x86-64. Without it the package reads and writes all the same.
//!
//! ```
//! use amsulfezd::answer::{Answer, NextStation, Sent, State};
//! use amsulfezd::record::{Decision, Poll, Telegram};
//! use amsulfezd::trace::{Header, TraceBuilder};
//!
//! // A trace: address 5, 500 kbaud, one application.
//! let mut trace = TraceBuilder::new(Header::new(5, 6, 1));
//! trace.online();
//! trace.poll(&Poll::at(1_000).telegram(Telegram::token(9, 9)).pending(3))?;
//! trace.poll(&Poll::at(7_664).normal(0, Decision::asks(20, 10)))?;
//! let bytes = trace.into_bytes();
//! assert_eq!(bytes.len(), 16 + 1 + 19 + 15);
//!
//! // An answer of document 01's example 12: station 5 is alone.
//! let answer = Answer::try_from(0x0242_1400_3000_01fc)?;
//! assert_eq!(answer.state, State::ClaimToken);
//! assert_eq!(answer.sent, Sent::Token { to: 5 });
//! assert_eq!(answer.next_station, NextStation::Nobody);
//! # Ok::<(), Box<dyn std::error::Error>>(())
//! ```

// `linked` is set by build.rs. Older compilers do not know the lint of unknown cfgs.
#![allow(unknown_lints, unexpected_cfgs)]

pub mod answer;
mod bits;
pub mod capture;
pub mod counts;
#[cfg(linked)]
pub mod fdl;
pub mod frame;
pub mod heard;
pub mod number;
pub mod record;
pub mod refusal;
#[cfg(linked)]
pub mod replay;
pub mod run;
#[cfg(linked)]
pub mod settings;
pub mod simulation;
#[cfg(linked)]
pub mod station;
pub mod trace;
pub mod words;
