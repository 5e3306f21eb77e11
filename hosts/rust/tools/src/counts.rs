//! How often the station claimed the token, removed a neighbour and met its own address, in words: printed from the counts that
//! the proved call gave. Nothing is counted here.

use crate::explain::{check_run, ending, thousands, NotThisTrace};
use amsulfezd::counts::Counts;
use amsulfezd::run::Run;
use amsulfezd::trace::{Edition, Header};
use amsulfezd::words::settings;

/// The settings, a line for each count, and how the run ended. A refused header has no counts.
pub fn table(trace: &[u8], counts: Option<Counts>, run: &Run) -> Result<String, NotThisTrace> {
    check_run(trace, run)?;
    let heading = Header::from_bytes(trace).map_or(String::new(), |header| {
        format!("{}\n\n", settings(&header, Edition::of(trace)))
    });
    let lines = counts.map_or(String::new(), |counts| {
        let line =
            |count: u32, what: &str| format!("{:>13}  {}\n", thousands(u64::from(count)), what);
        line(counts.claims, "lost tokens claimed")
            + &line(counts.removals, "neighbours removed after a third token")
            + &line(counts.meetings, "meetings of its own address")
            + "\n"
    });
    Ok(format!("{}{}{}\n", heading, lines, ending(run, trace)))
}

/// The same as one sentence, for the end of an explanation and the margin of a picture.
pub fn sentence(counts: &Counts) -> String {
    let times = |count: u32| match count {
        1 => "once".to_string(),
        count => format!("{} times", thousands(u64::from(count))),
    };
    format!(
        "In this trace the station claimed the token {}, removed a neighbour {} and met its own address {}.",
        times(counts.claims),
        times(counts.removals),
        times(counts.meetings)
    )
}
