//! What is named over the bus: a station last heard, a station out of the ring, a claimed token, our own address in use
//! elsewhere, and the notes beside the trace.

use super::arrows::Place;
use super::axis::clock_words;
use super::layout::{Columns, LABEL};
use super::presence::Stay;
use super::svg::{shortened, text_width, Px};
use crate::explain::{place_of, Alarm, Line};
use crate::view::Note;

/// What an event is.
#[derive(Debug, Clone, Copy, PartialEq, Eq)]
pub enum Kind {
    /// A station that is out of the ring later was heard for the last time.
    LastHeard,
    /// A station is out of the ring.
    Left,
    /// Our station claims the token, or gives way to another one with its address.
    Ours,
    Note,
}

impl Kind {
    /// The name of its style. All that does not happen in a quiet ring has the alarm's.
    pub fn class(self) -> &'static str {
        match self {
            Kind::LastHeard => "event last-heard",
            Kind::Left => "event left alarm",
            Kind::Ours => "event ours alarm",
            Kind::Note => "event note",
        }
    }
}

/// Something that is named over the bus.
#[derive(Debug, Clone, PartialEq, Eq)]
pub struct Event {
    pub kind: Kind,
    pub x: Px,
    /// The lane down to which its line goes; through all of them if there is none.
    pub lane: Option<Place>,
    /// The words beside its line.
    pub label: String,
    /// What the pointer shows.
    pub words: String,
    /// In which line its label stands, counted from 0; none if there is no room for it.
    pub line: Option<usize>,
}

/// So many lines of labels at most.
const LINES: usize = 6;
/// A longer label is cut.
const WIDEST: Px = 420;
/// The distance of a label from its line.
pub const ASIDE: Px = 4;

/// The events of the entries that are shown, from left to right.
pub fn events(
    own: u8,
    lines: &[Line],
    stays: &[Stay],
    notes: &[Note],
    columns: &Columns,
) -> Vec<Event> {
    let mut events = Vec::new();
    for stay in stays {
        events.extend(of_stay(stay, columns));
    }
    let shown = lines
        .iter()
        .enumerate()
        .filter(|(entry, _)| columns.shows(*entry));
    for (entry, line) in shown {
        events.extend(of_ours(own, line, columns.before(entry)));
    }
    for note in notes {
        events.extend(of_note(note, lines, columns));
    }
    events.sort_by_key(|event| event.x);
    stack(&mut events);
    events
}

impl Event {
    fn new(kind: Kind, x: Px, lane: Option<Place>, label: &str, words: String) -> Event {
        Event {
            kind,
            x,
            lane,
            label: shortened(label, LABEL, WIDEST),
            words,
            line: None,
        }
    }

    /// Where its label ends.
    pub fn end(&self) -> Px {
        self.x + ASIDE + text_width(self.label.chars().count(), LABEL)
    }
}

/// How many lines the labels take.
pub fn label_lines(events: &[Event]) -> usize {
    let lines = events.iter().filter_map(|event| event.line);
    lines.max().map_or(0, |line| line + 1)
}

/// The end of a stay, and the last telegram before it.
fn of_stay(stay: &Stay, columns: &Columns) -> Vec<Event> {
    let left = match stay.left {
        Some(left) => left,
        None => return Vec::new(),
    };
    let lane = Some(Place::Address(stay.address));
    let mut events = Vec::new();
    if let Some((_, last)) = stay.heard.filter(|&(_, last)| columns.shows(last)) {
        let label = format!("{} last heard", stay.address);
        let x = columns.after(last).min(columns.before(left));
        events.push(Event::new(Kind::LastHeard, x, lane, &label, stay.words()));
    }
    if columns.shows(left) {
        let label = format!("{} is out of the ring", stay.address);
        let x = columns.before(left);
        events.push(Event::new(Kind::Left, x, lane, &label, stay.words()));
    }
    events
}

/// What our own station was led to.
fn of_ours(own: u8, line: &Line, x: Px) -> Option<Event> {
    let label = match line.alarm? {
        Alarm::Claim => "token lost, claimed".to_string(),
        Alarm::Offline => format!("{} in use elsewhere: offline", own),
        Alarm::Listens => format!("{} in use elsewhere: listens", own),
        Alarm::Left(_) => return None,
    };
    let words = format!("entry {}: {}", line.number, line.did);
    Some(Event::new(
        Kind::Ours,
        x,
        Some(Place::Address(own)),
        &label,
        words,
    ))
}

/// A note before an entry that is shown, or after the last of all if that is shown.
fn of_note(note: &Note, lines: &[Line], columns: &Columns) -> Option<Event> {
    let place = place_of(note, lines);
    let x = if columns.shows(place) {
        columns.before(place)
    } else if place == lines.len() && columns.shows(place.checked_sub(1)?) {
        columns.end
    } else {
        return None;
    };
    let words = format!("{}: {}", clock_words(note.clock), note.words);
    Some(Event::new(Kind::Note, x, None, &note.words, words))
}

/// Gives each label its line: under every label that reaches over it, so that no line of an event crosses a label.
fn stack(events: &mut [Event]) {
    let mut reached = [0; LINES];
    for event in events {
        let above = reached.iter().rposition(|&end| end + ASIDE > event.x);
        let line = above.map_or(0, |above| above + 1);
        if line < LINES {
            reached[line] = event.end();
            event.line = Some(line);
        }
    }
}
