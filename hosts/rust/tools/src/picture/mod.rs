//! A replayed trace as a picture: an SVG file without script that any browser opens.
//!
//! Time goes to the right, one column for each entry, as the gaps between polls differ by factors of a million; the
//! clock and the time since the poll before stand in each column. Below are the events, the station's state and the bus:
//! a lane for our station and one for each address that occurs, with each telegram as an arrow from its source to its
//! destination. A station's lane begins with the first telegram from it or to it, and ends where an answer says that it
//! is out of the ring. What does not happen in a quiet ring has the class `alarm`, and nothing else is red. The pointer
//! over any part shows the words of [`crate::explain`].
//!
//! | Module | What it holds |
//! |---|---|
//! | `svg` | elements and text of an SVG file, escaped |
//! | `arrows` | the telegrams of an entry as arrows between places on the bus |
//! | `presence` | how long each station is on the bus |
//! | `events` | what is named over the bus, and the notes beside the trace |
//! | `layout` | where each column, row and lane stands |
//! | `axis` | clocks, the gaps between polls, and which labels have room |
//! | `shapes` | arrows and marks |
//! | `lanes` | the names of the rows, and the lanes |
//! | `draw` | the other parts of the picture |
//! | `legend` | the styles, and the legend that shows them |
//! | `bus` | a simulated bus as a picture: a lane for each station |
//!
//! Nothing is worked out anew: a picture is made from the trace and the answers that the proved program or library gave.

pub mod arrows;
mod axis;
pub mod bus;
mod draw;
mod events;
mod lanes;
mod layout;
mod legend;
pub mod presence;
mod shapes;
mod svg;

use crate::explain::{Explanation, NotThisTrace};
use crate::from_replay::Replay;

/// The picture of a replay, as the text of an SVG file.
pub fn picture(replay: &Replay) -> Result<String, NotThisTrace> {
    let explained = Explanation::of(&replay.trace, &replay.answers, &replay.run)?;
    Ok(draw::draw(replay, &explained))
}
