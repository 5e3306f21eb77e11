//! A trace and its answers as a page for a browser: one HTML file with its style, its program and its data, which asks for
//! nothing else. `page/` has the parts.

use amsulfezd::answer::{NextStation, Notice, STATES};
use amsulfezd::refusal::ALL;
use amsulfezd::words::thousands;
use amsulfezd_tools::counts::sentence;
use amsulfezd_tools::explain::{place_of, Alarm, Explanation, Line, NotThisTrace};
use amsulfezd_tools::from_replay::Replay;
use amsulfezd_tools::picture::arrows::{arrows, Arrow, Place, KINDS};
use amsulfezd_tools::picture::presence::stays;
use serde_json::{json, Value};
use std::collections::HashMap;

/// The number of a lane without an address, beside the addresses 0 to 127.
const NO_ADDRESS: u8 = 128;

/// The page of a replay.
pub fn page(replay: &Replay) -> Result<String, NotThisTrace> {
    let explained = Explanation::of(&replay.trace, &replay.answers, &replay.run)?;
    // Inside a script nothing may look like the end of it.
    let data = data(replay, &explained).to_string().replace('<', "\\u003c");
    let text = include_str!("page/page.html");
    Ok([
        ("{{title}}", escaped(&replay.name)),
        ("{{style}}", include_str!("page/page.css").to_string()),
        ("{{program}}", include_str!("page/page.js").to_string()),
        ("{{data}}", data),
    ]
    .iter()
    .fold(text.to_string(), |text, (mark, part)| {
        text.replacen(mark, part, 1)
    }))
}

/// A text for HTML.
fn escaped(text: &str) -> String {
    text.replace('&', "&amp;")
        .replace('<', "&lt;")
        .replace('>', "&gt;")
}

/// Texts that are kept once each.
#[derive(Default)]
struct Texts {
    all: Vec<String>,
    places: HashMap<String, usize>,
}

impl Texts {
    fn place(&mut self, text: &str) -> usize {
        if let Some(&place) = self.places.get(text) {
            return place;
        }
        self.all.push(text.to_string());
        self.places.insert(text.to_string(), self.all.len() - 1);
        self.all.len() - 1
    }
}

/// What the page's program reads: a list for each column, with a value for each entry.
fn data(replay: &Replay, explained: &Explanation) -> Value {
    let own = explained.header.map_or(0, |header| header.address);
    let lines = &explained.lines;
    let all: Vec<Vec<Arrow>> = lines.iter().map(|line| arrows(own, line)).collect();
    let mut texts = Texts::default();
    let (mut came, mut did) = (Vec::new(), Vec::new());
    for line in lines {
        came.push(texts.place(&line.came));
        did.push(texts.place(&line.did));
    }
    let column = |of: fn(&Line) -> Value| lines.iter().map(of).collect::<Vec<Value>>();
    // First arrow of each entry, and five numbers for each arrow.
    let mut first = vec![0];
    let mut flat: Vec<u8> = Vec::new();
    for arrows in &all {
        for arrow in arrows {
            let kind = KINDS
                .iter()
                .position(|&kind| kind == arrow.kind)
                .expect("one of the kinds");
            flat.extend([
                kind as u8,
                arrow.way as u8,
                lane(arrow.from),
                lane(arrow.to),
                u8::from(arrow.own_address),
            ]);
        }
        first.push(flat.len() / 5);
    }
    let notes: Vec<Value> = replay
        .view
        .notes
        .iter()
        .map(|note| json!([place_of(note, lines), note.clock, note.words]))
        .collect();
    let stays: Vec<Value> = stays(own, lines, &all)
        .iter()
        .map(|stay| {
            json!([
                stay.address,
                stay.first,
                stay.heard.map(|(_, last)| last),
                stay.left
            ])
        })
        .collect();
    let heard: Value = replay.heard.as_ref().map_or(Value::Null, |heard| {
        let row = |(address, entry): &(u8, amsulfezd::heard::Heard)| {
            let response = entry
                .station_type
                .map_or("none seen".to_string(), |kind| kind.to_string());
            json!([
                address,
                entry.times,
                thousands(entry.first),
                thousands(entry.last),
                response
            ])
        };
        heard.iter().map(row).collect()
    });
    json!({
        "name": replay.name,
        "own": own,
        "settings": explained.settings,
        "ending": explained.ending,
        "ended": replay.run.ending_number(),
        "states": STATES.iter().map(|state| format!("{:?}", state)).collect::<Vec<_>>(),
        "kinds": KINDS.iter().map(|kind| kind.words()).collect::<Vec<_>>(),
        "letters": KINDS.iter().map(|kind| kind.letter()).collect::<Vec<_>>(),
        "refusals": ALL.iter().map(|refusal| json!([refusal.number(), refusal.words()])).collect::<Vec<_>>(),
        "texts": texts.all,
        "clock": column(|line| json!(line.clock)),
        "came": came,
        "did": did,
        "before": column(|line| json!(u8::from(line.before))),
        "state": column(|line| json!(u8::from(line.answer.state))),
        "next": column(|line| json!(match line.answer.next_station {
            NextStation::Nobody => -1,
            NextStation::Station(address) => i32::from(address),
        })),
        "refusal": column(|line| json!(line.answer.refusal.map_or(0, |refusal| refusal.number()))),
        "notice": column(|line| json!(match line.answer.notice {
            Notice::Nothing => 0,
            Notice::Reply { .. } => 1,
            Notice::Timeout { .. } => 2,
        })),
        "told": column(|line| json!(match line.answer.notice {
            Notice::Nothing => -1,
            Notice::Reply { address, .. } | Notice::Timeout { address, .. } => i32::from(address),
        })),
        "alarm": column(|line| json!(match line.alarm {
            None => 0,
            Some(Alarm::Left(_)) => 1,
            Some(Alarm::Claim) => 2,
            Some(Alarm::Offline) => 3,
            Some(Alarm::Listens) => 4,
        })),
        "arrows": flat,
        "first": first,
        "notes": notes,
        "stays": stays,
        "heard": heard,
        "counts": replay.view.counts.as_ref().map(sentence),
    })
}

fn lane(place: Place) -> u8 {
    place.address().unwrap_or(NO_ADDRESS)
}

#[cfg(test)]
mod tests {
    use super::*;

    /// Each state and each kind of telegram has a colour, light and dark.
    #[test]
    fn colours() {
        let style = include_str!("page/page.css");
        let states = (0..STATES.len()).map(|number| format!("--s{}:#", number));
        let kinds = (0..KINDS.len()).map(|number| format!("--k{}:#", number));
        for colour in states.chain(kinds) {
            assert_eq!(style.matches(&colour).count(), 2, "{}", colour);
        }
        // Light and dark, no two states have one colour.
        for dress in style.split(":root.dark").take(2) {
            let colour = |number: usize| {
                let mark = format!("--s{}:#", number);
                let at = dress.find(&mark).expect("it has one") + mark.len();
                dress[at..at + 6].to_string()
            };
            let all: std::collections::BTreeSet<String> = (0..STATES.len()).map(colour).collect();
            assert_eq!(all.len(), STATES.len());
        }
    }
}
