//! The published Rust with document 01's helpers, and what holds other calls to it by running.
//!
//! Each folder leans on those before it: `helpers` (with the published text), then `generator` and `coverage`, which do not
//! know each other, then `comparison`, then the programs. `frames` has a reader and a writer of frames, `captures` an importer and an
//! exporter of captures, `simulations` a bus with several stations, and what is tried of them; they lean on the records of
//! `helpers`, `captures` on the frames, `simulations` on the station and its header, and take seeds, points, words and the
//! comparison of calls from the others.
#![forbid(unsafe_code)]

/// The published text writes `log::warn!`: the macros of `helpers/log.rs` stand at the root of this crate.
extern crate self as log;

/// Document 01's helpers: the names that the published files use, ring, records, port and trace.
mod helpers {
    pub mod baud;
    pub mod counts;
    pub mod dp;
    pub mod editions;
    pub mod fdl;
    pub mod heard;
    pub mod log;
    pub mod phy;
    pub mod port;
    pub mod records;
    pub mod ring;
    pub mod time;
    pub mod trace;
}

/// The published `active.rs` as `build.rs` writes it.
mod station {
    #![allow(dead_code, unused_variables, clippy::all)]
    include!(concat!(env!("OUT_DIR"), "/station.rs"));
    pub use active::{ConnectivityState, FdlActiveStation, Watched};
}

/// Seeded traces.
pub mod generator {
    mod bad_records;
    mod entries;
    mod headers;
    pub mod ordinary;
    mod seed;
    mod traces;
    pub(crate) use seed::Seed;
    pub use traces::trace;
}

/// The cases that generated traces have to reach, by name.
pub mod coverage {
    mod beside;
    pub mod counts;
    mod events;
    pub mod heard;
    mod met;
    pub mod moves;
    mod passive;
    mod points;
    mod poll;
    mod refusals;
    mod tally;
    pub use met::Met;
    pub use points::Points;
    pub(crate) use refusals::{stray_point, stray_points};
    pub(crate) use tally::{Point, Tally};
}

/// Holding other calls to the oracle's.
pub mod comparison {
    pub mod beside;
    pub mod calls;
    pub mod calls_program;
    pub mod compare;
    pub mod program;
    pub mod run;
    pub mod shorten;
    pub mod speed;
    pub mod steps;
    mod words;
    pub use words::hex;
}

/// Frames (document 02, P1): a reader and a writer, and holding others to them.
pub mod frames {
    pub mod compare;
    pub mod frame;
    pub(crate) mod met;
    pub mod tries;
}

/// Captures (document 02, P13): an importer and an exporter, and holding others to them.
pub mod captures {
    pub mod capture;
    pub mod compare;
    mod met;
    pub mod tries;
}

/// A simulated bus (document 02, P12): several published stations on it, and holding other calls to it.
pub mod simulations {
    pub mod compare;
    mod met;
    pub mod simulation;
    pub mod tries;
}

/// The settings table by the published `parameters.rs`.
pub mod settings_table;

/// What the program run_watchdog prints, by the published `parameters.rs`.
pub mod watchdog_lines;

// The published files find these names at the root.
pub use helpers::{baud, baud::Baudrate, counts, dp, editions, fdl, heard, phy, port, records, ring, time, trace};

/// The lines that the published text says, as far as they are counted.
pub use helpers::log as lines;

/// A station's address, as the published files name it.
pub type Address = u8;

/// The published check of `src/lib.rs`.
pub fn debug_assert_address(addr: Address) {
    debug_assert!(addr <= 127, "PROFIBUS address cannot be bigger than 127, got {}!", addr);
}
