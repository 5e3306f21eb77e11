//! The pictures: stored ones, what each shows compared with the trace and its answers, and places that have to be readable.
//!
//! A stored picture is drawn anew by `make picture TRACE=traces/NAME.trace OUT=hosts/rust/tools/tests/pictures/NAME.svg`,
//! and then looked at; that of README.md by `make picture TRACE=traces/night.trace FROM=18 TO=30 OUT=docs/night.svg`.

mod common;
mod drawing;

use amsulfezd::answer::{Answer, NextStation, Notice, Outcome, Sent, State, STATES};
use amsulfezd::counts;
use amsulfezd::record::{Decision, Poll, StationType, Telegram};
use amsulfezd::run::{from_text, to_text, Run};
use amsulfezd::trace::{entries, Entry, Header, TraceBuilder};
use amsulfezd_tools::counts::sentence;
use amsulfezd_tools::explain::explain;
use amsulfezd_tools::from_replay::Replay;
use amsulfezd_tools::picture::picture;
use amsulfezd_tools::view::{notes, Note, Range, View};
use common::{made, package, printed, refuses_bad_input, trace};
use drawing::{places, read, Element};

/// The traces whose pictures are stored.
const STORED: [&str; 9] = [
    "example12",
    "night",
    "applications",
    "gap-poll",
    "collision-active-idle",
    "refused-entries",
    "slow-reply",
    "cut-entry",
    "passive/spare-logger",
];

/// A replay with a trace of traces/, its expected answers and its notes.
fn stored_replay(name: &str) -> Replay {
    let text =
        std::fs::read_to_string(trace(&format!("{}.answers", name))).expect("the trace's answers");
    let mut replay = replay_of(
        name,
        std::fs::read(trace(&format!("{}.trace", name))).expect("the trace"),
        &text,
    );
    if let Ok(text) = std::fs::read_to_string(trace(&format!("{}.notes", name))) {
        replay.view.notes = notes(&text).expect("notes");
    }
    if let Ok(text) = std::fs::read_to_string(trace(&format!("{}.counts", name))) {
        replay.view.counts = counts::from_text(&text).expect("counts").0;
    }
    replay
}

/// The same of a range of its entries.
fn cut(mut replay: Replay, first: usize, last: usize) -> Replay {
    let (from, to) = (first.to_string(), last.to_string());
    let range = Range::of(Some(&from), Some(&to), replay.answers.len());
    replay.view.range = Some(range.expect("a range of the trace"));
    replay
}

fn replay_of(name: &str, trace: Vec<u8>, answers: &str) -> Replay {
    let (answers, run) = from_text(answers).expect("a run");
    Replay {
        name: name.to_string(),
        trace,
        answers,
        run,
        view: View::default(),
        heard: None,
    }
}

/// The names of all traces of traces/, without their ending.
fn all_traces() -> Vec<String> {
    let list = package().join("../../../crates/run_traces/args");
    let text = std::fs::read_to_string(list).expect("the list of traces");
    text.lines()
        .map(|line| line.strip_suffix(".trace").expect("a trace").to_string())
        .collect()
}

/// The picture of a replay, read back.
fn drawn(replay: &Replay) -> Element {
    let text = picture(replay).expect("a picture");
    read(&text).unwrap_or_else(|error| panic!("{} is not well formed: {}", replay.name, error))
}

/// A drawn picture has the parts, words and texts of the stored one in their order, and is the same to the byte.
#[test]
fn stored_pictures() {
    let folder = package().join("tests/pictures");
    for name in STORED {
        let file = folder.join(format!("{}.svg", name.replace('/', "-")));
        let stored = std::fs::read_to_string(&file).expect("the stored picture");
        same_picture(name, &printed(picture, name, (None, None)), &stored);
    }
    let files = std::fs::read_dir(&folder).expect("the folder");
    let pictures = files.filter(|file| {
        let path = file.as_ref().expect("a file").path();
        path.extension().map_or(false, |ending| ending == "svg")
    });
    assert_eq!(pictures.count(), STORED.len(), "every picture is compared");
}

fn same_picture(name: &str, drawn: &str, stored: &str) {
    let outline = |text: &str| read(text).expect("a well-formed picture").outline();
    assert_eq!(outline(drawn), outline(stored), "{}", name);
    assert!(drawn == stored, "{} has its parts in other places", name);
}

/// The picture of README.md is that of the night's middle, and fits a page.
#[test]
fn the_picture_of_the_readme() {
    let file = package().join("../../../docs/night.svg");
    let stored = std::fs::read_to_string(file).expect("the picture of README.md");
    let drawn = printed(picture, "night", (Some("18"), Some("30")));
    same_picture("docs/night.svg", &drawn, &stored);
    let picture = read(&stored).expect("a well-formed picture");
    assert_eq!(picture.number("width"), 900);
    let ground = picture.only("paper");
    assert_eq!(ground.number("width"), 900, "it has a ground of its own");
    assert_eq!(ground.number("height"), picture.number("height"));
}

/// What an entry has to show, counted from its bytes and its answer.
#[derive(Debug, PartialEq, Eq)]
struct Shown {
    /// Each arrow's classes, and the names of the lanes where it begins and ends.
    arrows: Vec<(String, String, String)>,
    command: Option<String>,
    refusal: Option<String>,
    notice: Option<String>,
    busy: bool,
    pending: bool,
}

/// An arrow's classes and ends for a telegram that came.
fn came(own: u8, telegram: &Telegram, way: &str) -> (String, String, String) {
    let (kind, from, to) = match *telegram {
        Telegram::Token {
            source,
            destination,
        } => ("token", source.to_string(), destination.to_string()),
        Telegram::ShortConfirmation => ("confirmation", "-".to_string(), own.to_string()),
        Telegram::Request {
            source,
            destination,
            status_request: true,
        } => (
            "status-request",
            source.to_string(),
            destination.to_string(),
        ),
        Telegram::Request {
            source,
            destination,
            status_request: false,
        } => ("request", source.to_string(), destination.to_string()),
        Telegram::Response {
            source,
            destination,
            ..
        } => ("response", source.to_string(), destination.to_string()),
    };
    let collision = if telegram.source() == Some(own) {
        " own-address alarm"
    } else {
        ""
    };
    (format!("arrow {} {}{}", kind, way, collision), from, to)
}

/// An arrow's classes and ends for what an answer says was sent. Whether an application expects a reply is taken from
/// its decision in the record.
fn sent(own: u8, poll: &Poll, answer: &Answer) -> Option<(String, String, String)> {
    let (kind, to) = match answer.sent {
        Sent::Nothing => return None,
        Sent::Token { to } => ("token", to.to_string()),
        Sent::StatusRequest { to } => ("status-request", to.to_string()),
        Sent::StatusResponse { to, .. } => ("response", to.to_string()),
        Sent::Application {
            application, high, ..
        } => {
            let decisions = poll.decisions[usize::from(application)];
            let decision = if high {
                decisions.high
            } else {
                decisions.normal
            };
            let to = match decision {
                Decision::Sends {
                    reply_from: Some(address),
                    ..
                } => address.to_string(),
                Decision::Sends {
                    reply_from: None, ..
                } => "-".to_string(),
                Decision::Declines => panic!("an application that declines sent"),
            };
            ("application", to)
        }
    };
    Some((format!("arrow {} sent", kind), own.to_string(), to))
}

/// What the entry and its answer ask for.
fn expected(header: &Header, entry: &Entry, answer: &Answer) -> Shown {
    let own = header.address;
    let mut arrows = Vec::new();
    let mut pending = false;
    let mut command = None;
    match *entry {
        Entry::Online => command = Some("online".to_string()),
        Entry::Offline => command = Some("offline".to_string()),
        Entry::Passive => command = Some("passive".to_string()),
        Entry::Cut(_) => panic!("an entry that is cut has no answer"),
        Entry::Poll(record) => {
            if let Some(poll) = Poll::from_bytes(record, usize::from(header.applications)) {
                for (index, telegram) in poll.telegrams.iter().enumerate() {
                    let way = match answer.refusal {
                        Some(_) => "refused",
                        None if index < usize::from(answer.consumed) => "received",
                        None => "unread",
                    };
                    arrows.push(came(own, telegram, way));
                }
                arrows.extend(sent(own, &poll, answer));
                pending = answer.refusal.is_none() && poll.pending > 0 && poll.telegrams.is_empty();
            }
        }
    }
    Shown {
        arrows,
        command,
        refusal: answer.refusal.map(|refusal| refusal.number().to_string()),
        notice: match answer.notice {
            Notice::Nothing => None,
            Notice::Reply { .. } => Some("notice reply".to_string()),
            Notice::Timeout { .. } => Some("notice timeout alarm".to_string()),
        },
        busy: answer.outcome == Outcome::Transmission && answer.sent == Sent::Nothing,
        pending,
    }
}

/// A drawn lane.
struct Lane {
    name: String,
    y: i32,
    /// Its parts from left to right: where each begins and ends, and its class.
    parts: Vec<(i32, i32, String)>,
    /// The x of each place where its name is repeated.
    repeated: Vec<i32>,
}

impl Lane {
    fn covers(&self, x: i32) -> bool {
        self.parts.iter().any(|&(from, to, _)| from <= x && x <= to)
    }
}

/// The lanes from top to bottom.
fn lanes(picture: &Element) -> Vec<Lane> {
    let lanes = picture.only("lanes").with_class("lane");
    lanes.into_iter().map(lane).collect()
}

fn lane(lane: &Element) -> Lane {
    let name = &lane.only("lane-name").text;
    let mut heights = Vec::new();
    let mut parts = Vec::new();
    for path in lane.find(&|element| element.name == "path") {
        let class = path.attribute("class").to_string();
        let (from, y) = path.point(&class);
        let to = path.attribute("d").rsplit('H').next().expect("an end");
        heights.push(y);
        parts.push((from, to.parse().expect("a number"), class));
    }
    heights.dedup();
    assert_eq!(heights.len(), 1, "lane {} is on one height", name);
    assert!(parts.windows(2).all(|two| two[0].1 <= two[1].0));
    let repeated = lane.with_class("faint").into_iter();
    Lane {
        name: name.split(' ').next().expect("a name").to_string(),
        y: heights[0],
        parts,
        repeated: repeated.map(|text| text.number("x")).collect(),
    }
}

/// The only lane with this name.
fn lane_of(picture: &Element, name: &str) -> Lane {
    let mut found = lanes(picture);
    found.retain(|lane| lane.name == name);
    assert_eq!(found.len(), 1, "lanes of {}", name);
    found.remove(0)
}

/// Where the column of the entry with this number begins.
fn column_of(picture: &Element, number: usize) -> i32 {
    let id = format!("entry-{}", number);
    let entry = picture.find(&|element| element.attribute("id") == id);
    entry[0].only("column").number("x")
}

/// An event as it is drawn: its classes, its label, and the x of its line.
fn drawn_events(picture: &Element) -> Vec<(String, String, i32)> {
    let events = picture.with_class("events");
    let events = events
        .into_iter()
        .flat_map(|group| group.with_class("event"));
    events
        .map(|event| {
            assert!(event.title().is_some(), "an event has words");
            let label = text_of(event, "label").unwrap_or_default();
            let (x, _) = event.point("leader");
            (event.attribute("class").to_string(), label, x)
        })
        .collect()
}

/// The text of the only part with this class, if there is one.
fn text_of(element: &Element, class: &str) -> Option<String> {
    let found = element.with_class(class);
    assert!(found.len() <= 1, "{} twice", class);
    found.first().map(|element| element.text.clone())
}

/// What a drawn entry shows. Each arrow must lie inside the entry's column, and on lanes that are there.
fn shown(entry: &Element, lanes: &[Lane]) -> Shown {
    let lane_at = |x: i32, y: i32| {
        let lane = lanes.iter().find(|lane| lane.y == y);
        let lane = lane.expect("a lane where the arrow ends");
        assert!(lane.covers(x), "lane {} is there", lane.name);
        lane.name.clone()
    };
    let column = entry.only("column");
    let (left, width) = (column.number("x"), column.number("width"));
    let arrows = entry.with_class("arrow").into_iter().map(|arrow| {
        let (_, from) = arrow.point("line");
        let (x, to) = arrow.point("head");
        assert!(left < x && x < left + width, "an arrow in its column");
        (
            arrow.attribute("class").to_string(),
            lane_at(x, from),
            lane_at(x, to),
        )
    });
    let notices = entry.with_class("notice");
    assert!(notices.len() <= 1);
    Shown {
        arrows: arrows.collect(),
        command: text_of(entry, "command"),
        refusal: text_of(entry, "number"),
        notice: notices
            .first()
            .map(|notice| notice.attribute("class").to_string()),
        busy: !entry.with_class("busy").is_empty(),
        pending: !entry.with_class("pending").is_empty(),
    }
}

/// Each block of a row: its words and the entries that it covers, the first and the last. So many entries come before
/// those that are drawn.
fn blocks(picture: &Element, group: &str, before: usize) -> Vec<(String, usize, usize)> {
    let columns: Vec<i32> = picture
        .with_class("column")
        .iter()
        .map(|column| column.number("x"))
        .collect();
    let blocks = picture.only(group).with_class("block");
    blocks
        .iter()
        .map(|block| {
            let (start, end) = (block.number("x"), block.number("x") + block.number("width"));
            let covered = columns.iter().filter(|&&x| start <= x && x < end);
            let first = columns.iter().position(|&x| x == start);
            let first = first.expect("a block begins with a column");
            let words = block.title().expect("words").to_string();
            (words, before + first + 1, before + first + covered.count())
        })
        .collect()
}

/// The stretches of equal values, as blocks: the words of the value, the first entry and the last. So many entries come
/// before the first value.
fn stretches(values: &[String], before: usize) -> Vec<(String, usize, usize)> {
    let mut found: Vec<(String, usize, usize)> = Vec::new();
    for (number, value) in (before + 1..).zip(values) {
        match found.last_mut() {
            Some((there, _, last)) if there == value => *last = number,
            _ => found.push((value.clone(), number, number)),
        }
    }
    for (words, first, last) in &mut found {
        *words = if first == last {
            format!("{} after entry {}", words, first)
        } else {
            format!("{} after entries {} to {}", words, first, last)
        };
    }
    found
}

/// A picture shows each entry as the trace and the answers say, in the words of explain.
fn shows_the_run(replay: &Replay) -> Element {
    let picture = drawn(replay);
    let range = replay.view.shown(replay.answers.len());
    let entries_drawn = picture.with_class("entry");
    assert_eq!(entries_drawn.len(), range.len());
    let explained = explain(&replay.trace, &replay.answers, &replay.run, &replay.view);
    let explained = explained.expect("an explanation");
    let mut last = explained.lines().rev();
    if let Some(counts) = &replay.view.counts {
        assert_eq!(last.next(), Some(&sentence(counts)[..]));
        assert_eq!(joined(&picture, "counts"), sentence(counts));
    }
    let ending = last.next().expect("an ending");
    assert_eq!(joined(&picture, "footer"), ending);
    let header = match Header::from_bytes(&replay.trace) {
        Some(header) => header,
        None => return picture,
    };
    let (heading, table) = explained.split_once("\n\n").expect("a heading");
    let mut said = joined(&picture, "settings");
    if replay.view.range.is_some() {
        said = format!("{}\n{}", said, joined(&picture, "range"));
    }
    assert_eq!(said, heading);
    if replay.answers.is_empty() {
        assert!(picture.with_class("lanes").is_empty());
        return picture;
    }
    let lanes = lanes(&picture);
    let mut touched = vec![header.address.to_string()];
    let lines = table.lines().filter(|line| !line.starts_with("   *"));
    let all = entries(&replay.trace).zip(&replay.answers).enumerate();
    let all = all.skip(range.start).take(range.len());
    for (element, ((index, (entry, answer)), line)) in entries_drawn.iter().zip(all.zip(lines)) {
        assert_eq!(element.attribute("id"), format!("entry-{}", index + 1));
        let wanted = expected(&header, &entry, answer);
        assert_eq!(
            shown(element, &lanes),
            wanted,
            "{}, entry {}",
            replay.name,
            index + 1
        );
        for (_, from, to) in wanted.arrows {
            touched.extend([from, to]);
        }
        has_words(element, index + 1, line);
        has_clock(element, &entry, answer);
    }
    has_lanes(replay, &lanes, touched);
    has_blocks(replay, &picture);
    let ends: Vec<Option<String>> = picture
        .with_class("end")
        .iter()
        .map(|end| text_of(end, "number"))
        .collect();
    let ending = replay.run.ending_number();
    let wanted = match ending {
        0 => Vec::new(),
        _ if range.end < replay.answers.len() => Vec::new(),
        number => vec![Some(number.to_string())],
    };
    assert_eq!(ends, wanted);
    picture
}

/// Our lane, then in order the lanes of all places at which arrows begin or end. A range may have others too: those of
/// stations that were heard before.
fn has_lanes(replay: &Replay, lanes: &[Lane], mut touched: Vec<String>) {
    let own = touched[0].clone();
    let mut names: Vec<String> = lanes.iter().map(|lane| lane.name.clone()).collect();
    if replay.view.range.is_some() {
        names.retain(|name| touched.contains(name));
    }
    touched.retain(|name| *name != own);
    touched.sort_by_key(|name| name.parse().unwrap_or(u32::MAX));
    touched.dedup();
    touched.insert(0, own);
    assert_eq!(names, touched, "the lanes of {}", replay.name);
    assert!(lanes.windows(2).all(|two| two[0].y < two[1].y));
}

/// The states and the next stations are the answers'; before a range stand those that the entry before led to.
fn has_blocks(replay: &Replay, picture: &Element) {
    let range = replay.view.shown(replay.answers.len());
    let state = |answer: &Answer| format!("{:?}", answer.state);
    let next = |answer: &Answer| match answer.next_station {
        NextStation::Nobody => "alone".to_string(),
        NextStation::Station(address) => format!("next station {}", address),
    };
    let shown = &replay.answers[range.clone()];
    let states: Vec<String> = shown.iter().map(state).collect();
    let nexts: Vec<String> = shown.iter().map(next).collect();
    for (group, values) in [("states", states), ("next-stations", nexts)] {
        assert_eq!(
            blocks(picture, group, range.start),
            stretches(&values, range.start)
        );
    }
    let lead_in: Vec<&str> = picture
        .with_class("lead-in")
        .into_iter()
        .flat_map(|lead_in| lead_in.with_class("block"))
        .map(|block| block.title().expect("words"))
        .collect();
    let wanted = match range.start {
        0 => Vec::new(),
        start => {
            let before = &replay.answers[start - 1];
            let when = |what: String| format!("{} before entry {}", what, start + 1);
            vec![when(state(before)), when(next(before))]
        }
    };
    assert_eq!(lead_in, wanted);
}

/// The lines of a text with this class, joined.
fn joined(picture: &Element, class: &str) -> String {
    let lines: Vec<String> = picture
        .with_class(class)
        .iter()
        .map(|line| line.text.clone())
        .collect();
    lines.join(" ")
}

/// The words over an entry are those of its line of explain, and each telegram, refusal and notice has words too.
fn has_words(entry: &Element, number: usize, line: &str) {
    let words: Vec<&str> = entry.title().expect("words").split('\n').collect();
    let (first, rest) = words.split_first().expect("a line");
    assert!(
        first.split(',').next() == Some(&format!("entry {}", number)[..]),
        "{}",
        first
    );
    assert_eq!(rest.len(), 3);
    let squeezed = |text: &str| text.split_whitespace().collect::<Vec<_>>().join(" ");
    assert!(
        squeezed(line).ends_with(&squeezed(&rest.join(" "))),
        "{} | {}",
        line,
        rest.join(" ")
    );
    for arrow in entry.with_class("arrow") {
        let title = arrow.title().expect("words");
        assert!(title.ends_with(&words.join("\n")), "{}", title);
    }
    for class in ["refusal", "notice"] {
        for mark in entry.with_class(class) {
            assert!(mark.title().expect("words").contains(rest[2]));
        }
    }
}

/// A clock that is written is the record's, faint if the record was refused.
fn has_clock(drawn: &Element, entry: &Entry, answer: &Answer) {
    for clock in drawn.with_class("clock") {
        let written = clock.text.replace(',', "");
        let record = match entry {
            Entry::Poll(record) => record,
            other => panic!("{:?} has no clock", other),
        };
        let wanted = Poll::clock_of(record).expect("a record with a clock");
        assert_eq!(written, wanted.to_string());
        assert_eq!(clock.has_class("faint"), answer.refusal.is_some());
    }
}

/// No two texts cover each other, and all is inside the picture.
fn is_readable(name: &str, picture: &Element) {
    let (width, height) = (picture.number("width"), picture.number("height"));
    assert_eq!(
        picture.attribute("viewBox"),
        format!("0 0 {} {}", width, height)
    );
    let places = places(picture);
    for (index, place) in places.iter().enumerate() {
        assert!(
            0.0 <= place.left && place.right <= f64::from(width),
            "{}: {:?}",
            name,
            place
        );
        assert!(
            0.0 <= place.top && place.bottom <= f64::from(height),
            "{}: {:?}",
            name,
            place
        );
        for other in &places[..index] {
            let apart = !place.overlaps(other);
            assert!(apart, "{}: {} covers {}", name, place.words, other.words);
        }
    }
    for rectangle in picture.find(&|element| element.name == "rect") {
        assert!(rectangle.number("x") >= 0 && rectangle.number("y") >= 0);
        assert!(rectangle.number("x") + rectangle.number("width") <= width);
        assert!(rectangle.number("y") + rectangle.number("height") <= height);
    }
    let mut heads: Vec<(i32, i32)> = picture
        .with_class("arrow")
        .iter()
        .map(|arrow| arrow.point("head"))
        .collect();
    heads.sort_unstable();
    let apart = heads.windows(2).all(|two| two[1].0 - two[0].0 >= 7);
    assert!(apart, "{}: the arrows stand apart", name);
}

#[test]
fn every_trace_is_shown_as_its_answers_say() {
    let names = all_traces();
    assert!(names.len() > 20, "only {} traces", names.len());
    for name in names {
        let picture = shows_the_run(&stored_replay(&name));
        is_readable(&name, &picture);
    }
}

/// What the pictures of two traces show, counted by hand from their stories.
#[test]
fn known_counts() {
    let count = |picture: &Element, class: &str| {
        picture
            .find(&|element| element.attribute("class") == class)
            .len()
    };
    let night = drawn(&stored_replay("night"));
    for (class, wanted) in [
        ("entry", 36),
        ("arrow token sent", 7),
        ("arrow token received", 5),
        ("arrow application sent", 7),
        ("arrow response received", 7),
        ("arrow response sent", 1),
        ("arrow status-request received", 1),
        ("arrow request received", 1),
        ("notice reply", 6),
        ("notice timeout alarm", 0),
        ("refusal alarm", 0),
        ("lane-name", 5),
    ] {
        assert_eq!(count(&night, class), wanted, "{}", class);
    }
    let seconds: Vec<&str> = night.only("seconds").with_class("block-name")[..]
        .iter()
        .map(|text| &text.text[..])
        .collect();
    assert_eq!(seconds, ["2:09:59", "2:10:00"]);
    let refused = drawn(&stored_replay("refused-entries"));
    assert_eq!(count(&refused, "refusal alarm"), 22);
    assert_eq!(count(&refused, "command"), 3);
}

/// A trace of 500 entries: a ring with a second master and two slaves, with silence, bad records, commands, long gaps.
fn long_trace() -> Vec<u8> {
    let mut long = Long {
        trace: TraceBuilder::new(Header::new(5, 6, 2)),
        clock: 7_200_000_000,
        left: 500,
    };
    long.command(TraceBuilder::online);
    long.poll(1000, |poll| poll);
    for _ in 0..2 {
        long.poll(500, |poll| poll.telegram(Telegram::token(9, 9)).pending(3));
    }
    long.poll(300, |poll| {
        poll.telegram(Telegram::status_request(9, 5)).pending(6)
    });
    long.poll(66, |poll| poll);
    let mut round = 0;
    while long.left > 0 {
        round += 1;
        long.round(round);
    }
    long.trace.into_bytes()
}

/// Writes the long trace.
struct Long {
    trace: TraceBuilder,
    clock: u64,
    left: usize,
}

impl Long {
    fn command(&mut self, command: fn(&mut TraceBuilder)) {
        if self.left > 0 {
            self.left -= 1;
            command(&mut self.trace);
        }
    }

    fn poll(&mut self, after: u64, change: impl Fn(Poll) -> Poll) {
        if self.left > 0 {
            self.left -= 1;
            self.clock += after;
            let poll = change(Poll::at(self.clock));
            self.trace.poll(&poll).expect("a poll that fits");
        }
    }

    /// The token goes on, the station is passive for a while and is asked, and is let in again, or claims the lost token.
    fn spare(&mut self, round: u32) {
        self.poll(200, |poll| poll.telegram(Telegram::token(9, 9)).pending(3));
        self.command(TraceBuilder::passive);
        self.poll(200, |poll| {
            poll.telegram(Telegram::status_request(9, 5)).pending(6)
        });
        self.poll(66, |poll| poll);
        self.command(TraceBuilder::online);
        if round % 12 == 1 {
            self.poll(20_000, |poll| poll);
            self.poll(132, |poll| poll);
            self.poll(132, |poll| poll);
            self.poll(1, |poll| poll);
            self.poll(200, |poll| poll.telegram(Telegram::token(9, 9)).pending(3));
            return;
        }
        self.poll(500, |poll| {
            poll.telegram(Telegram::status_request(9, 5)).pending(6)
        });
        self.poll(66, |poll| poll);
    }

    /// The token comes, two applications ask a slave each, the token goes on, the other master asks.
    fn round(&mut self, round: u32) {
        let response = |from: u8, to: u8| Telegram::response(from, to, StationType::Slave);
        self.poll(1000, |poll| poll.telegram(Telegram::token(9, 5)).pending(3));
        self.poll(66, |poll| poll.normal(0, Decision::asks(20, 10)));
        self.poll(534, |poll| poll.telegram(response(20, 5)).pending(6));
        self.poll(66, |poll| poll.normal(1, Decision::asks(21, 10)));
        if round % 4 == 0 {
            self.poll(700, |poll| poll);
        } else {
            self.poll(200, |poll| poll.pending(4));
            self.poll(334, |poll| poll.telegram(response(21, 5)).pending(6));
        }
        self.poll(66, |poll| poll.normal(1, Decision::tells(8)));
        self.poll(200, |poll| poll.transmitting());
        self.poll(300, |poll| poll);
        self.poll(1, |poll| poll);
        match round % 6 {
            0 => {
                for _ in 0..4 {
                    self.poll(466, |poll| poll);
                }
            }
            1 => self.spare(round),
            2 => self.poll(2_000_000, |poll| {
                poll.telegram(Telegram::token(9, 12))
                    .telegram(Telegram::ShortConfirmation)
                    .telegram(Telegram::token(12, 5))
            }),
            3 => self.command(|trace| trace.record(&[0; 7]).expect("a record that fits")),
            _ => self.poll(200, |poll| {
                poll.telegram(Telegram::request(9, 20))
                    .telegram(response(20, 9))
            }),
        }
        if round == 20 {
            self.command(TraceBuilder::offline);
            self.command(TraceBuilder::online);
        }
    }
}

/// The long trace with the answers that the proved library gave. Both are stored, so that make picture draws them too.
fn long_replay() -> Replay {
    let folder = package().join("tests/pictures");
    let answers = std::fs::read_to_string(folder.join("long.answers")).expect("the answers");
    let trace = std::fs::read(folder.join("long.trace")).expect("the trace");
    replay_of("long.trace", trace, &answers)
}

/// After a change the wanted trace is left in the folder of temporary files, and the example `replay_file` prints its
/// answers.
#[test]
fn the_long_trace_is_the_stored_one() {
    let wanted = long_trace();
    if long_replay().trace != wanted {
        let file = std::env::temp_dir().join("long.trace");
        std::fs::write(&file, wanted).expect("the file is written");
        panic!(
            "tests/pictures/long.trace is not the trace made here, which is now in {}",
            file.display()
        );
    }
}

#[test]
fn five_hundred_entries_stay_readable() {
    let replay = long_replay();
    assert_eq!(replay.answers.len(), 500);
    for &state in STATES {
        let mut answers = replay.answers.iter();
        assert!(answers.any(|answer| answer.state == state), "{:?}", state);
    }
    let picture = shows_the_run(&replay);
    is_readable("500 entries", &picture);
    let width = picture.number("width");
    assert!(width <= 6000, "{} pixels wide", width);
    let columns = picture.with_class("column");
    assert!(columns.iter().all(|column| column.number("width") >= 8));
    assert!(
        picture.with_class("number-of-entry").len() >= 100,
        "every fifth entry has its number"
    );
    let clocks = picture.with_class("clock").len();
    assert!(clocks >= 200, "only {} clocks are written", clocks);
}

/// 10 entries have all their labels.
#[test]
fn ten_entries_have_every_label() {
    let mut trace = TraceBuilder::new(Header::new(5, 6, 1));
    for step in 0..10 {
        trace.poll(&Poll::at(1000 + step * step)).expect("a poll");
    }
    let answers = "01000000000001fc\n".repeat(10) + "10 0\n";
    let picture = shows_the_run(&replay_of("ten", trace.into_bytes(), &answers));
    is_readable("10 entries", &picture);
    assert_eq!(picture.with_class("number-of-entry").len(), 10);
    assert_eq!(picture.with_class("clock").len(), 10);
    assert_eq!(
        picture.with_class("bar").len() - picture.only("legend").with_class("bar").len(),
        9
    );
    assert!(picture.number("width") <= 1400);
}

/// The time since the poll before: long gaps and a clock that goes back are marked, labels that have no room are left
/// out, and a command or a refused record between two polls changes nothing.
#[test]
fn gaps_are_marked() {
    let mut trace = TraceBuilder::new(Header::new(5, 6, 1));
    let mut clock = 1000;
    for entry in 1..=199 {
        match entry {
            50 | 51 => clock += 1_000_000,
            100 => clock -= 3,
            120 => clock += 12_000_000,
            150 => clock += 9,
            160 => clock += 10,
            _ => clock += 1,
        }
        trace.poll(&Poll::at(clock)).expect("a poll");
    }
    trace.offline();
    trace.record(&[0xff; 8]).expect("a record that fits");
    trace.poll(&Poll::at(clock)).expect("a poll");
    let answers = "01000000000001fc\n".repeat(199)
        + "00000000000001fc\n68000000000001fc\n01000000000001fc\n202 0\n";
    let picture = shows_the_run(&replay_of("gaps", trace.into_bytes(), &answers));
    is_readable("gaps", &picture);
    let entries = picture.with_class("entry");
    let mut marks = Vec::new();
    for (index, entry) in entries.iter().enumerate() {
        for class in ["long", "back"] {
            for bar in entry.find(&|part| part.name == "rect" && part.has_class(class)) {
                let label = text_in(entry, class);
                marks.push((index + 1, class, bar.number("height"), label));
            }
        }
    }
    assert_eq!(
        marks,
        [
            (50, "long", 28, "+1,000 ms".to_string()),
            (51, "long", 28, "".to_string()),
            (100, "back", 4, "-3".to_string()),
            (120, "long", 32, "+12 s".to_string()),
            (160, "long", 8, "+10".to_string()),
        ]
    );
    let bar = |entry: usize| entries[entry - 1].with_class("bar").len();
    assert_eq!((bar(1), bar(2), bar(150)), (0, 1, 1));
    assert_eq!((bar(200), bar(201), bar(202)), (0, 0, 1));
    let lines = picture.with_class("gap").len();
    assert_eq!(lines, 5, "a line through the lanes for each");
}

/// The text with this class, empty if there is none.
fn text_in(element: &Element, class: &str) -> String {
    let texts = element.find(&|part| part.name == "text" && part.has_class(class));
    texts
        .first()
        .map_or(String::new(), |text| text.text.clone())
}

/// In the night the panel, station 9, is heard last with entry 21, its plug is pulled at the time of entry 24, and entry
/// 27 takes it out of the ring: there its lane ends. The lanes of the cabinets begin when they are asked, and go on.
#[test]
fn the_night_is_told() {
    let night = drawn(&stored_replay("night"));
    let column = |number: usize| column_of(&night, number);
    let wanted = [
        ("event last-heard", "9 last heard", column(22)),
        ("event note", "the panel's plug is pulled", column(24)),
        ("event left alarm", "9 is out of the ring", column(27)),
    ];
    let wanted = wanted.map(|(class, label, x)| (class.to_string(), label.to_string(), x));
    assert_eq!(drawn_events(&night), wanted);
    let part = |from, to, class: &str| (from, to, class.to_string());
    let panel = lane_of(&night, "9");
    assert_eq!(
        panel.parts,
        [
            part(column(3), column(22), "present"),
            part(column(22), column(27), "silent"),
        ]
    );
    assert_eq!(panel.repeated, [], "it does not reach the right end");
    let events = night.only("events");
    let bar = events.only("bar-across");
    assert_eq!(bar.number("x") + bar.number("width") / 2, column(27));
    assert_eq!(bar.number("y") + bar.number("height") / 2, panel.y);
    let (ring, height) = events.only("last-heard").point("ring");
    assert_eq!((ring + 4, height), (column(22), panel.y));
    let end = lane_of(&night, "5").parts[0].1;
    for (name, asked) in [("20", 11), ("21", 13), ("22", 15)] {
        let cabinet = lane_of(&night, name);
        assert_eq!(
            cabinet.parts,
            [
                part(column(asked), column(asked + 1), "silent"),
                part(column(asked + 1), end, "present"),
            ]
        );
        assert_eq!(cabinet.repeated.len(), 1, "its name at the right end");
    }
    let legend = night.only("legend");
    let alarms = |part: &Element| part.with_class("alarm").len();
    assert_eq!(
        alarms(&night) - alarms(legend),
        1,
        "red but for the leaving"
    );
}

/// The entries after which an answer says that the next station is another one, as a token was sent while the pass before
/// was checked, with the station that was the next one.
fn leavings(replay: &Replay) -> Vec<(usize, String)> {
    let two = replay.answers.windows(2).enumerate();
    two.filter(|(_, two)| {
        two[0].state == State::CheckTokenPass
            && matches!(two[1].sent, Sent::Token { .. })
            && two[0].next_station != two[1].next_station
    })
    .map(|(index, two)| (index + 2, two[0].next_station.to_string()))
    .collect()
}

/// Each station that leaves the ring is marked where it does; its lane ends there, and begins again with the next
/// telegram from it or to it.
#[test]
fn every_leaving_ends_a_lane() {
    let mut replays: Vec<Replay> = all_traces()
        .iter()
        .map(|name| stored_replay(name))
        .collect();
    replays.push(long_replay());
    let (mut count, mut back) = (0, 0);
    for replay in &replays {
        let picture = drawn(replay);
        let leavings = leavings(replay);
        count += leavings.len();
        let marks: Vec<(String, i32)> = drawn_events(&picture)
            .into_iter()
            .filter(|(class, _, _)| class == "event left alarm")
            .map(|(_, label, x)| (label, x))
            .collect();
        let wanted: Vec<(String, i32)> = leavings
            .iter()
            .map(|(entry, name)| {
                let label = format!("{} is out of the ring", name);
                (label, column_of(&picture, *entry))
            })
            .collect();
        assert_eq!(marks, wanted, "{}", replay.name);
        for (entry, name) in &leavings {
            let lane = lane_of(&picture, name);
            let end = column_of(&picture, *entry);
            assert!(lane.parts.iter().any(|part| part.1 == end), "it ends there");
            let next = lane
                .parts
                .iter()
                .map(|part| part.0)
                .find(|&from| from >= end);
            let again = (*entry..=replay.answers.len()).find(|&later| {
                let arrows = picture.with_class("entry")[later - 1].with_class("arrow");
                arrows.iter().any(|arrow| {
                    let ends = [arrow.point("line").1, arrow.point("head").1];
                    ends.contains(&lane.y)
                })
            });
            assert_eq!(next, again.map(|later| column_of(&picture, later)));
            back += usize::from(again.is_some());
        }
    }
    assert_eq!(
        (count, back),
        (21, 4),
        "leavings, and stations that come back"
    );
}

/// The settings say that a header is of edition 2, and the entries are drawn as those behind the same settings in edition 1.
#[test]
fn the_edition_is_said_and_changes_no_entry() {
    let words = "; header of edition 2";
    for name in ["example12", "night", "applications"] {
        let first = drawn(&stored_replay(name));
        let second = drawn(&stored_replay(&format!("edition-2/{}", name)));
        let settings = joined(&first, "settings");
        assert_eq!(joined(&second, "settings"), settings + words);
        let titles = |picture: &Element| -> Vec<String> {
            let entries = picture.with_class("entry");
            let words = |entry: &&Element| entry.title().expect("words").to_string();
            entries.iter().map(words).collect()
        };
        assert_eq!(titles(&first), titles(&second), "{}", name);
    }
}

/// An entry has something red exactly if it is refused, an application's time ran out, our own address was heard, or the
/// clock went back: a wait is calm, however long it is. Over the bus only a leaving, a claim and a station that gives way
/// are red, of the states only the claim.
#[test]
fn only_alarms_are_red() {
    let mut replays: Vec<Replay> = all_traces()
        .iter()
        .map(|name| stored_replay(name))
        .collect();
    replays.push(long_replay());
    let mut waits = 0;
    for replay in &replays {
        let header = match Header::from_bytes(&replay.trace) {
            Some(header) if !replay.answers.is_empty() => header,
            _ => continue,
        };
        let picture = drawn(replay);
        let mut last_clock = 0;
        let all = entries(&replay.trace).zip(&replay.answers);
        for (element, (entry, answer)) in picture.with_class("entry").iter().zip(all) {
            let alarm = is_alarm(&header, &entry, answer, &mut last_clock);
            let red = element.with_class("alarm");
            assert_eq!(
                !red.is_empty(),
                alarm,
                "{}: {:?}",
                replay.name,
                element.title()
            );
            let waited = matches!(answer.outcome, Outcome::Bus | Outcome::Delay);
            waits += usize::from(waited && !alarm);
        }
        for block in picture.only("states").with_class("block") {
            assert_eq!(block.has_class("alarm"), block.has_class("ClaimToken"));
        }
        let claims = replay.answers.iter().filter(|answer| {
            answer.state == State::ClaimToken && matches!(answer.sent, Sent::Token { .. })
        });
        let gave_way = replay.answers.windows(2).filter(|two| {
            let (before, after) = (two[0].state, two[1].state);
            let moved = matches!(before, State::Offline | State::PassiveIdle);
            let listens = after == State::ListenToken && !moved;
            // two collisions in the poll that begins to listen lead from Offline to Offline
            two[1].outcome == Outcome::Bus
                && (after == State::Offline || (before != after && listens))
        });
        let wanted = leavings(replay).len() + claims.count() + gave_way.count();
        let events = drawn_events(&picture);
        let red = events
            .iter()
            .filter(|(class, _, _)| class.ends_with("alarm"));
        assert_eq!(red.count(), wanted, "{}", replay.name);
    }
    assert!(waits > 200, "only {} waits", waits);
}

/// Whether an entry is out of the ordinary by itself. The clock is that of the last accepted poll before it.
fn is_alarm(header: &Header, entry: &Entry, answer: &Answer, last_clock: &mut u64) -> bool {
    let timeout = matches!(answer.notice, Notice::Timeout { .. });
    let record = match entry {
        Entry::Poll(record) => record,
        _ => return answer.refusal.is_some(),
    };
    if answer.refusal.is_some() {
        return true;
    }
    let poll = Poll::from_bytes(record, usize::from(header.applications)).expect("a record");
    let mut senders = poll.telegrams.iter().map(Telegram::source);
    let collision = senders.any(|source| source == Some(header.address));
    let went_back = poll.clock < *last_clock;
    *last_clock = poll.clock;
    timeout || collision || went_back
}

/// Of all styles only those of the class alarm are red: red by much more than green and blue.
#[test]
fn only_the_alarms_style_is_red() {
    let text = picture(&stored_replay("night")).expect("a picture");
    let (_, styles) = text.split_once("<style>\n").expect("a style sheet");
    let (styles, _) = styles.split_once("</style>").expect("its end");
    let mut red = Vec::new();
    for (rule, colour) in styles
        .lines()
        .flat_map(|line| line.split('#').skip(1).map(move |colour| (line, colour)))
    {
        let digits: String = colour.chars().take_while(char::is_ascii_hexdigit).collect();
        let part = |index: usize| match digits.len() {
            3 => 17 * i32::from_str_radix(&digits[index..=index], 16).expect("a digit"),
            6 => i32::from_str_radix(&digits[2 * index..2 * index + 2], 16).expect("two digits"),
            _ => panic!("a colour: {}", rule),
        };
        if part(0) - part(1).max(part(2)) > 60 {
            red.push(rule);
        }
    }
    assert!(red.len() >= 4, "{:?}", red);
    assert!(
        red.iter().all(|rule| rule.starts_with(".alarm")),
        "{:?}",
        red
    );
}

/// The legend has a sample of each kind of mark that the picture has, and of no other.
#[test]
fn the_legend_shows_what_there_is() {
    let samples = [
        ("token", "T token"),
        ("confirmation", "C short confirmation"),
        ("unread", "dashed: not looked at, or in a refused record"),
        ("own-address", "from our own address: a collision"),
        ("silent", "named, but not heard"),
        ("last-heard", "last heard"),
        ("left", "out of the ring: took none of three tokens"),
        ("ours", "we claim a lost token, or give way"),
        ("note", "note beside the trace"),
        ("reply", "an application got its reply"),
        ("timeout", "an application's time ran out"),
        ("mark", "refused, with the number"),
        ("pending", "bytes pending, no telegram yet"),
        ("busy", "a transmission is going on"),
        ("long", "at least 10 times the median"),
        ("back", "the clock goes back"),
        ("alarm", "red: an alarm; all else is ordinary"),
    ];
    let mut seen = vec![0; samples.len()];
    for name in all_traces() {
        let picture = drawn(&stored_replay(&name));
        let legend = match &picture.with_class("legend")[..] {
            [legend] => *legend,
            _ => continue,
        };
        for (seen, (class, words)) in seen.iter_mut().zip(samples) {
            let drawn = picture.with_class(class).len() - legend.with_class(class).len();
            let dashed = class == "unread" && !picture.with_class("refused").is_empty();
            let texts = legend.find(&|part| part.text == words);
            assert_eq!(texts.len() == 1, drawn > 0 || dashed, "{}: {}", name, words);
            *seen += texts.len();
        }
    }
    assert!(seen.iter().all(|&count| count > 0), "{:?}", seen);
}

/// A reader who does not see the picture is told its name and what happens.
#[test]
fn the_picture_has_a_description() {
    let night = drawn(&stored_replay("night"));
    assert_eq!(night.attribute("role"), "img");
    let named: Vec<&str> = night.attribute("aria-labelledby").split(' ').collect();
    let texts: Vec<(&str, &str)> = night.children[..2]
        .iter()
        .map(|child| (child.attribute("id"), &child.text[..]))
        .collect();
    assert_eq!(named, [texts[0].0, texts[1].0]);
    assert_eq!(texts[0].1, "night");
    assert!(
        texts[1].1.contains(
            "In this order: 9 last heard; the panel's plug is pulled; 9 is out of the ring. The trace was read"
        ),
        "{}",
        texts[1].1
    );
}

/// Notes stand at their times, also before and after all polls; a long one is cut, but whole in its words; where there are
/// too many the last have no label.
#[test]
fn notes_are_marked() {
    let note = |clock: u64, words: &str| Note {
        clock,
        words: words.to_string(),
    };
    let mut replay = stored_replay("night");
    let long = "long ".repeat(40);
    replay.view.notes = vec![
        note(7_800_003_322, "after all"),
        note(7_799_993_301, &long),
        note(0, "first of all"),
    ];
    let picture = shows_the_run(&replay);
    is_readable("notes", &picture);
    let mut notes = drawn_events(&picture);
    notes.retain(|(class, _, _)| class == "event note");
    let places: Vec<i32> = notes.iter().map(|note| note.2).collect();
    let last = picture.with_class("column")[35];
    let end = last.number("x") + last.number("width");
    assert_eq!(
        places,
        [column_of(&picture, 2), column_of(&picture, 13), end]
    );
    assert_eq!(
        (&notes[0].1[..], &notes[2].1[..]),
        ("first of all", "after all")
    );
    assert!(notes[1].1.starts_with("long long") && notes[1].1.ends_with("..."));
    let words: Vec<&str> = picture
        .with_class("note")
        .into_iter()
        .filter_map(Element::title)
        .collect();
    assert_eq!(
        words[1],
        format!("7,799,993,301 us (2:09:59.993301): {}", long)
    );

    replay.view.notes = (0..9).map(|_| note(7_800_000_000, "again")).collect();
    let picture = shows_the_run(&replay);
    is_readable("many notes", &picture);
    let mut notes = drawn_events(&picture);
    notes.retain(|(class, _, _)| class == "event note");
    assert_eq!(notes.len(), 9);
    let labelled = notes.iter().filter(|(_, label, _)| label == "again");
    assert_eq!(labelled.count(), 6);
}

/// A range shows its entries and no other, after the state, the next station and the stations that the entries before it
/// led to.
#[test]
fn a_range_is_shown() {
    let night = |first, last| cut(stored_replay("night"), first, last);
    let middle = shows_the_run(&night(18, 30));
    is_readable("18 to 30", &middle);
    assert_eq!(joined(&middle, "range"), "Entries 18 to 30 of 36");
    let names = |picture: &Element| -> Vec<String> {
        lanes(picture).into_iter().map(|lane| lane.name).collect()
    };
    assert_eq!(names(&middle), ["5", "9", "20", "21", "22"], "22 was heard");
    let start = lane_of(&middle, "5").parts[0].0;
    for name in ["9", "20", "21", "22"] {
        assert_eq!(lane_of(&middle, name).parts[0].0, start, "{}", name);
    }
    assert_eq!(drawn_events(&middle).len(), 3);

    let silence = shows_the_run(&night(22, 27));
    let column = column_of(&silence, 27);
    let silent = (start, column, "silent".to_string());
    assert_eq!(lane_of(&silence, "9").parts, [silent], "heard before");
    let labels = |picture: &Element| -> Vec<String> {
        let events = drawn_events(picture).into_iter();
        events.map(|(_, label, _)| label).collect()
    };
    let pulled = "the panel's plug is pulled";
    assert_eq!(labels(&silence), [pulled, "9 is out of the ring"]);

    let before = shows_the_run(&night(1, 23));
    assert!(before.with_class("lead-in").is_empty());
    assert_eq!(labels(&before), ["9 last heard"]);
    let end = lane_of(&before, "5").parts[0].1;
    assert_eq!(
        lane_of(&before, "9").parts.last().map(|part| part.1),
        Some(end)
    );

    let after = shows_the_run(&night(28, 36));
    assert_eq!(names(&after), ["5", "20", "21", "22"], "9 has left");
    assert_eq!(labels(&after), [""; 0]);
    shows_the_run(&night(24, 24));
    shows_the_run(&night(1, 36));
}

/// Ranges of the long trace, one from each hundred on, and of a trace that is cut: its ending belongs to its last entry.
#[test]
fn every_range_is_readable() {
    for first in (1..500).step_by(99) {
        for last in [first + 1, first + 80]
            .into_iter()
            .filter(|&last| last <= 500)
        {
            let picture = shows_the_run(&cut(long_replay(), first, last));
            is_readable(&format!("{} to {}", first, last), &picture);
        }
    }
    let ends = |first, last| {
        let picture = shows_the_run(&cut(stored_replay("cut-entry"), first, last));
        picture.with_class("end").len()
    };
    assert_eq!((ends(2, 4), ends(2, 5)), (0, 1));
}

/// Every address at once, and eight telegrams in a poll: a lane for each, and room for each arrow.
#[test]
fn every_address_has_its_lane() {
    let mut trace = TraceBuilder::new(Header::new(5, 6, 1));
    for first in (0..128).step_by(16) {
        let mut poll = Poll::at(1000 + u64::from(first));
        for address in (first..first + 16).step_by(2) {
            poll = poll.telegram(Telegram::token(address, address + 1));
        }
        trace.poll(&poll).expect("a poll");
    }
    let answers = "01000000000001fc\n".repeat(8) + "8 0\n";
    let picture = shows_the_run(&replay_of("lanes", trace.into_bytes(), &answers));
    is_readable("every address", &picture);
    assert_eq!(lanes(&picture).len(), 128);
    assert_eq!(picture.with_class("arrow").len(), 64);
    assert_eq!(
        picture.with_class("unread").len() - 1,
        64,
        "and the legend's"
    );
}

/// A name with every character that has a meaning in an SVG file, and one that it may not have.
#[test]
fn the_name_is_escaped() {
    let mut replay = stored_replay("example12");
    replay.name = "<a> & \"b\" 'c' \u{1b}.trace".to_string();
    let picture = drawn(&replay);
    let wanted = "<a> & \"b\" 'c' \u{fffd}.trace";
    assert_eq!(picture.title(), Some(wanted));
    assert_eq!(text_of(&picture, "name"), Some(wanted.to_string()));
}

/// A name that is longer than the picture is wide is cut, but whole in the picture's title.
#[test]
fn a_long_name_is_cut() {
    let mut replay = stored_replay("example12");
    replay.name = "n".repeat(255);
    let picture = shows_the_run(&replay);
    is_readable("long name", &picture);
    assert_eq!(picture.title(), Some(&replay.name[..]));
    assert!(text_of(&picture, "name").expect("a name").ends_with("n..."));
}

/// The checker of well-formed files finds each fault.
#[test]
fn the_checker_finds_faults() {
    let file = |body: &str| {
        read(&format!(
            "<?xml version=\"1.0\" encoding=\"UTF-8\"?>\n{}",
            body
        ))
    };
    assert!(file("<a b=\"1\">x &amp; y<c/></a>\n").is_ok());
    for bad in [
        "",
        "<a>",
        "</a>",
        "<a><b></a></b>",
        "<a/><a/>",
        "<a/>x",
        "<a>&</a>",
        "<a>&what;</a>",
        "<a b=1/>",
        "<a b=\"1\" b=\"2\"/>",
        "<a b=\"1/>",
        "<a><</a>",
        "<a>\u{1}</a>",
        "<a",
    ] {
        assert!(file(bad).is_err(), "{:?}", bad);
    }
    assert!(read("<a/>").is_err(), "no declaration");
}

#[test]
fn bad_input_is_one_line() {
    refuses_bad_input(picture);
}

/// A picture has the name of the trace's file, and the notes beside it.
#[test]
fn a_picture_is_named_after_the_file() {
    let folder = std::env::temp_dir().join(format!("amsulfezd-named-{}", std::process::id()));
    std::fs::create_dir_all(&folder).expect("a folder");
    let file = folder.join("a & b.trace");
    let mut replay = stored_replay("night");
    replay.name = "a & b.trace".to_string();
    replay.view.counts = None;
    std::fs::write(&file, &replay.trace).expect("the file is written");
    let notes = trace("night.notes");
    std::fs::copy(notes, folder.join("a & b.notes")).expect("the notes are copied");
    let answers = std::fs::read(trace("night.answers")).expect("the answers");
    let printed = made(picture, &file, &answers);
    std::fs::remove_dir_all(&folder).expect("the folder goes");
    assert!(printed == Ok(picture(&replay).expect("a picture")));
}

/// No room for an answer: the picture ends with the mark 18.
#[test]
fn no_room_is_marked() {
    let mut replay = stored_replay("example12");
    replay.answers.truncate(3);
    let run = Run {
        entries: 3,
        ending: Some(amsulfezd::refusal::Refusal::NoRoom),
    };
    let picture = shows_the_run(&replay_of(
        "room",
        replay.trace,
        &to_text(&replay.answers, &run),
    ));
    assert_eq!(
        text_of(picture.only("end"), "number"),
        Some("18".to_string())
    );
}
