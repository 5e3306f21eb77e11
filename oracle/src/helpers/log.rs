//! The log macros that the published text calls. Logging is not taken, so a line is read by the
//! compiler and its parts are never evaluated. With the feature `published_helpers` they are evaluated
//! and dropped, as with a logger that is switched on. Lines that say one of document 02's events (P6)
//! are counted, which shows in a run of the published text what the oracle's rule is held to.

use std::cell::Cell;

thread_local! {
    static SAID: Cell<[u32; 3]> = Cell::new([0; 3]);
}

/// What the lines on the token claimed, on a station removed after the third attempt and on our own address begin with.
const LINES: [&[&str]; 3] = [
    &["Token lost! Generating a new one.", "Generating new token due to silent bus."],
    &["Token was also not received on third attempt"],
    &["Witnessed collision of another active station", "Witnessed second collision of another active station"],
];

/// Takes note of a line by its words.
pub fn said(words: &str) {
    for (place, lines) in LINES.iter().enumerate() {
        if lines.iter().any(|line| words.starts_with(line)) {
            SAID.with(|said| {
                let mut counts = said.get();
                counts[place] += 1;
                said.set(counts);
            });
        }
    }
}

/// How many lines of each sort were said since this was last asked: claims, removals, collisions.
pub fn take() -> [u32; 3] {
    SAID.with(|said| said.replace([0; 3]))
}

#[doc(hidden)]
#[macro_export]
macro_rules! log_line {
    ($words:tt $($part:tt)*) => {{
        $crate::lines::said($words);
        if cfg!(feature = "published_helpers") {
            drop(format!($words $($part)*));
        }
    }};
}

#[macro_export]
macro_rules! trace {
    ($($part:tt)*) => { $crate::log_line!($($part)*) };
}

#[macro_export]
macro_rules! debug {
    ($($part:tt)*) => { $crate::log_line!($($part)*) };
}

#[macro_export]
macro_rules! info {
    ($($part:tt)*) => { $crate::log_line!($($part)*) };
}

#[macro_export]
macro_rules! warn {
    ($($part:tt)*) => { $crate::log_line!($($part)*) };
}
