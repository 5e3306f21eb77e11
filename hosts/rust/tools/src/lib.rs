//! A replayed trace in words and as a picture.
//!
//! | Module | What it holds |
//! |---|---|
//! | [`explain`] | one line in words for each entry |
//! | [`heard`] | who was heard, and when, as a table |
//! | [`counts`] | how often the station claimed the token, removed a neighbour and met its own address |
//! | [`bus`] | a simulated bus: who got the token when, what became of each telegram |
//! | [`view`] | what is shown of a trace: a range of its entries, the notes beside it |
//! | [`picture`] | a trace and its answers as a picture |
//! | [`from_replay`] | a trace, its answers and its notes |
//!
//! Nothing here knows what a station does: the answers come from the proved program or library.

pub mod bus;
pub mod counts;
pub mod explain;
pub mod from_replay;
pub mod heard;
pub mod picture;
pub mod view;
