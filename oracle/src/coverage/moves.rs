//! Moving a header to the other edition: what is lent and with how much room, and the cases that have to be met.

use super::points::Points;
use crate::editions::{other_edition, Edition};
use crate::trace::{Header, Trace};

/// The lengths of the buffers: one byte too few, enough and more, for both editions.
pub const ROOMS: [usize; 6] = [0, 13, 14, 15, 16, 20];

/// What a header's move does, from edition 1 and from edition 2.
const FROM: [&str; 2] = ["edition 1 to 2", "edition 2 to 1"];
/// The refusals of a header's move, in their order. In edition 2 every number of applications is good.
const REFUSED: [u8; 13] = [17, 1, 10, 2, 3, 4, 25, 5, 6, 7, 11, 8, 14];

/// What is lent of a trace: all of it, what stands before its entries, and, where the header is accepted, the header in the
/// other edition, which is the way back.
pub fn lent(trace: &Trace) -> Vec<Vec<u8>> {
    let mut lent = vec![trace.bytes(), trace.header.clone()];
    if let Some(header) = Header::accepted(&lent[0]) {
        lent.push(header.write_as(Edition::of(&lent[0]).other()));
    }
    lent
}

fn from(lent: &[u8]) -> &'static str {
    FROM[usize::from(Edition::of(lent) == Edition::Second)]
}

pub fn name_points(points: &mut Points) {
    let mut names = Vec::new();
    for from in FROM {
        names.extend(ROOMS.iter().map(|room| format!("{}, room for {}", from, room)));
        names.extend(REFUSED.iter().map(|number| format!("{}, refused {}", from, number)));
        names.push(format!("{}, and back to the same bytes", from));
        names.push(format!("{}, bytes behind the header", from));
        names.push(format!("{}, refused and no room either", from));
    }
    names.retain(|name| *name != format!("{}, refused 11", FROM[1]));
    points.group("header moved", names);
}

/// Counts the moves of this trace's header; gives how many calls they are.
pub fn see(points: &mut Points, trace: &Trace) -> u64 {
    let mut calls = 0;
    for lent in lent(trace) {
        let mut hit = |words: String| points.hit("header moved", format_args!("{}, {}", from(&lent), words));
        for room in ROOMS {
            calls += 1;
            let mut out = vec![trace.fill; room];
            let returned = other_edition(&lent, &mut out);
            let (written, number) = (returned as usize / 256, returned % 256);
            if number != 0 && number != 18 {
                hit(format!("refused {}", number));
                if room == 0 {
                    hit("refused and no room either".to_string());
                }
                continue;
            }
            hit(format!("room for {}", room));
            if number == 18 {
                continue;
            }
            let length = Edition::of(&lent).length();
            if lent.len() > length {
                hit("bytes behind the header".to_string());
            }
            let mut back = vec![trace.fill; length];
            let returned = other_edition(&out[..written], &mut back);
            let same = returned == 256 * length as u64 && back == lent[..length];
            hit(if same { "and back to the same bytes" } else { "and back to other bytes" }.to_string());
        }
    }
    calls
}
