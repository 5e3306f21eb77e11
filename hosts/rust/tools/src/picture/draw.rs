//! The parts of the picture.

use super::arrows::{arrows, Arrow};
use super::axis::{clock_words, entry_step, gaps, second_words, seconds, take, Gap};
use super::events::{events, label_lines, Event, Kind, ASIDE};
use super::lanes::{draw_lanes, draw_row_names};
use super::layout::{
    lanes, Column, Columns, Row, Rows, EVENT, GUTTER, HEADING, LABEL, LONGEST_COMMAND, MARGIN,
    NAME, SMALL, THIRD, TINY,
};
use super::legend::{draw_legend, state_class, STYLE};
use super::presence::{stays, Stay};
use super::shapes::{
    arrow_shape, lane_end_shape, last_heard_shape, loop_shape, notice_shape, pending_shape,
    refusal_shape,
};
use super::svg::{shortened, text_width, wrapped, Anchor, Px, Svg};
use crate::counts::sentence;
use crate::explain::{thousands, Explanation, Line};
use crate::from_replay::Replay;
use crate::heard::sentences;
use amsulfezd::answer::{Answer, NextStation, Notice, Outcome, Sent, State};
use amsulfezd::refusal::Refusal;
use amsulfezd::trace::Entry;
use std::ops::Range;

/// The text of the picture of a replay.
pub fn draw(replay: &Replay, explained: &Explanation) -> String {
    let scene = Scene::of(replay, explained);
    let width = scene.columns.text_width();
    let mut svg = Svg::default();
    let mut bottom = draw_heading(&mut svg, replay, explained, width);
    if !scene.all.is_empty() {
        let ending = replay
            .run
            .ending
            .map(|refusal| (refusal, &explained.ending[..]));
        bottom = draw_bus(&mut svg, &scene, bottom, ending);
        bottom = draw_legend(&mut svg, bottom + 8, width);
    }
    if let Some(entries) = &replay.heard {
        bottom += 6;
        for words in sentences(entries) {
            bottom = draw_text(&mut svg, "heard", bottom, width, &words);
        }
    }
    bottom = draw_text(&mut svg, "footer", bottom + 6, width, &explained.ending);
    if let Some(counts) = &replay.view.counts {
        bottom = draw_text(&mut svg, "counts", bottom, width, &sentence(counts));
    }
    let description = description(explained, &scene.events);
    let (width, height) = (scene.columns.width, bottom + MARGIN);
    whole(svg, &replay.name, &description, width, height, STYLE)
}

/// What is drawn, and where from left to right.
struct Scene<'a> {
    own: u8,
    /// Every line, and which of them are shown.
    all: &'a [Line<'a>],
    shown: Range<usize>,
    /// The arrows of every line.
    arrows: Vec<Vec<Arrow>>,
    stays: Vec<Stay>,
    events: Vec<Event>,
    columns: Columns,
}

impl<'a> Scene<'a> {
    fn of(replay: &Replay, explained: &'a Explanation) -> Scene<'a> {
        let own = explained.header.map_or(0, |header| header.address);
        let all = &explained.lines[..];
        let shown = replay.view.shown(all.len());
        let arrows: Vec<Vec<Arrow>> = all.iter().map(|line| arrows(own, line)).collect();
        let stays = stays(own, all, &arrows);
        let mut columns = Columns::of(shown.clone(), &arrows);
        let events = events(own, all, &stays, &replay.view.notes, &columns);
        for event in &events {
            columns.width = columns.width.max(event.end() + MARGIN);
        }
        Scene {
            own,
            all,
            shown,
            arrows,
            stays,
            events,
            columns,
        }
    }
}

/// Draws rows and lanes from `top` on, with the mark and the words of a trace that was not read to its end if its last
/// entry is shown; gives where they end.
fn draw_bus(svg: &mut Svg, scene: &Scene, top: Px, ending: Option<(Refusal, &str)>) -> Px {
    let (all, shown, columns) = (scene.all, &scene.shown, &scene.columns);
    let ending = ending.filter(|_| shown.end == all.len());
    let lanes = lanes(scene.own, shown.clone(), &scene.arrows, &scene.stays);
    let lines = &all[shown.clone()];
    let event_lines = label_lines(&scene.events);
    let marked = ending.is_some();
    let rows = Rows::of(top, lines, &lanes, event_lines, marked, columns);
    draw_row_names(svg, &rows);
    draw_lanes(svg, scene.own, &rows, columns, &scene.stays);
    let mut bus = Bus {
        svg,
        all,
        shown: shown.clone(),
        arrows: &scene.arrows[shown.clone()],
        columns,
        rows: &rows,
    };
    bus.draw_entries();
    bus.draw_events(&scene.events);
    bus.draw_blocks();
    bus.draw_lead_in();
    if let Some((refusal, words)) = ending {
        bus.draw_ending(refusal, words);
    }
    rows.bottom
}

/// The picture in a few words, for a reader who does not see it.
fn description(explained: &Explanation, events: &[Event]) -> String {
    let mut parts: Vec<String> = explained.settings.iter().cloned().collect();
    let labels: Vec<&str> = events.iter().map(|event| &event.label[..]).collect();
    if !labels.is_empty() {
        parts.push(format!("In this order: {}", labels.join("; ")));
    }
    parts.push(explained.ending.clone());
    parts.join(". ")
}

/// The file: its size, its words, its style and what was drawn.
pub fn whole(
    drawn: Svg,
    name: &str,
    description: &str,
    width: Px,
    height: Px,
    style: &str,
) -> String {
    let mut svg = Svg::default();
    let (wide, high) = (width.to_string(), height.to_string());
    svg.open(
        "svg",
        "",
        &[
            ("xmlns", "http://www.w3.org/2000/svg"),
            ("version", "1.1"),
            ("width", &wide),
            ("height", &high),
            ("viewBox", &format!("0 0 {} {}", width, height)),
            ("font-family", "monospace"),
            ("role", "img"),
            ("aria-labelledby", "title description"),
        ],
    );
    svg.words("title", "title", name);
    svg.words("desc", "description", description);
    svg.plain("style", style);
    svg.rectangle("paper", 0, 0, width, height);
    let mut text = svg.into_text();
    text.push_str(&drawn.into_text());
    text.push_str("</svg>\n");
    format!("<?xml version=\"1.0\" encoding=\"UTF-8\"?>\n{}", text)
}

/// The trace's name, its settings, which entries are shown and the times of their first and last poll; gives where they
/// end.
fn draw_heading(svg: &mut Svg, replay: &Replay, explained: &Explanation, width: Px) -> Px {
    let top = MARGIN + NAME;
    let short = shortened(&replay.name, NAME, width - 2 * MARGIN);
    svg.text("name", MARGIN, top, NAME, Anchor::Start, &short);
    let mut bottom = top + 4;
    if let Some(settings) = &explained.settings {
        bottom = draw_text(svg, "settings", bottom, width, settings);
    }
    if let Some(range) = &replay.view.range {
        bottom = draw_text(svg, "range", bottom, width, &range.to_string());
    }
    let shown = &explained.lines[replay.view.shown(explained.lines.len())];
    let clocks = || shown.iter().filter_map(Line::accepted_clock);
    if let (Some(first), Some(last)) = (clocks().next(), clocks().next_back()) {
        let words = format!(
            "First poll at {}, last poll at {}",
            clock_words(first),
            clock_words(last)
        );
        bottom = draw_text(svg, "extent", bottom, width, &words);
    }
    bottom + 10
}

/// A text in lines of this width; gives where it ends.
pub fn draw_text(svg: &mut Svg, class: &str, top: Px, width: Px, words: &str) -> Px {
    let mut bottom = top;
    for line in wrapped(words, HEADING, width - 2 * MARGIN) {
        bottom += HEADING + 4;
        svg.text(class, MARGIN, bottom, HEADING, Anchor::Start, &line);
    }
    bottom
}

/// All that explain says of an entry.
fn entry_words(line: &Line) -> String {
    let clock = match line.clock {
        Some(clock) => format!(", {}", clock_words(clock)),
        None => String::new(),
    };
    format!(
        "entry {}{}\n{}\n{}\n{}",
        line.number,
        clock,
        line.came,
        line.state_words(),
        line.did
    )
}

/// The part of the picture that has columns.
struct Bus<'a> {
    svg: &'a mut Svg,
    /// Every line, and which of them are shown.
    all: &'a [Line<'a>],
    shown: Range<usize>,
    /// The arrows of each line that is shown.
    arrows: &'a [Vec<Arrow>],
    columns: &'a Columns,
    rows: &'a Rows,
}

impl<'a> Bus<'a> {
    /// The lines that are shown.
    fn lines(&self) -> &'a [Line<'a>] {
        &self.all[self.shown.clone()]
    }

    /// A group for each entry. The words of the entry are shown wherever no part has words of its own.
    fn draw_entries(&mut self) {
        let gaps = gaps(self.all);
        let gaps = &gaps[self.shown.clone()];
        let labelled = self.gap_labels(gaps);
        let numbered = self.numbered();
        let mut last_clock = Px::MIN / 2;
        for (index, line) in self.lines().iter().enumerate() {
            let column = self.columns.columns[index];
            let words = entry_words(line);
            let id = format!("entry-{}", line.number);
            self.svg.open("g", "entry", &[("id", &id)]);
            self.svg.title(&words);
            self.draw_column(&column, line);
            if numbered[index] {
                self.draw_number(&column, line.number);
            }
            if last_clock + SMALL + 3 <= column.middle() && self.draw_clock(&column, line) {
                last_clock = column.middle();
            }
            if let Some(gap) = &gaps[index] {
                self.draw_gap(&column, gap, labelled[index]);
            }
            self.draw_command(&column, line);
            self.draw_refusal(&column, line);
            self.draw_notice(&column, line);
            self.draw_pending(&column, line);
            for (place, arrow) in self.arrows[index].iter().enumerate() {
                let count = self.arrows[index].len();
                let slot = column.width / count as Px;
                self.draw_arrow(column.arrow(place, count), slot, arrow, &words);
            }
            self.svg.close("g");
        }
    }

    /// Which entries have their number: the first, and those at each step that have room.
    fn numbered(&self) -> Vec<bool> {
        let step = entry_step(self.shown.end, self.columns.base);
        let mut taken = Vec::new();
        let lines = self.lines().iter().enumerate();
        lines
            .map(|(index, line)| {
                let x = self.columns.columns[index].middle();
                let wanted = index == 0 || line.number % step == 0;
                wanted && take(&mut taken, x, &line.number.to_string())
            })
            .collect()
    }

    /// Which gaps have a label: the long ones and those that go back first, then, in wide columns, those that have room.
    fn gap_labels(&self, gaps: &[Option<Gap>]) -> Vec<bool> {
        let mut labelled = vec![false; gaps.len()];
        let mut taken = Vec::new();
        for first in [true, false] {
            for (index, gap) in gaps.iter().enumerate() {
                let (gap, x) = match gap {
                    Some(gap) => (gap, self.columns.columns[index].middle()),
                    None => continue,
                };
                let wanted = if first {
                    gap.class() != "bar"
                } else {
                    gap.class() == "bar" && self.columns.has_room_for(3)
                };
                if wanted {
                    labelled[index] = take(&mut taken, x, &gap.words());
                }
            }
        }
        labelled
    }

    /// The ground of an entry's column, on which the pointer rests; grey where a transmission was found going on.
    fn draw_column(&mut self, column: &Column, line: &Line) {
        let (top, bottom) = (self.rows.entry.top, self.rows.bottom);
        let busy =
            line.answer.outcome == Outcome::Transmission && line.answer.sent == Sent::Nothing;
        if busy {
            let top = self.rows.command.top;
            self.svg
                .rectangle("busy", column.x, top, column.width, bottom - top);
        }
        self.svg
            .rectangle("column", column.x, top, column.width, bottom - top);
    }

    /// An entry's number.
    fn draw_number(&mut self, column: &Column, number: usize) {
        let x = column.middle();
        let base = self.rows.entry.base(SMALL);
        let words = number.to_string();
        self.svg
            .text("number-of-entry", x, base, SMALL, Anchor::Middle, &words);
    }

    /// The clock of a poll, turned; says whether there is one.
    fn draw_clock(&mut self, column: &Column, line: &Line) -> bool {
        let clock = match line.clock {
            Some(clock) => thousands(clock),
            None => return false,
        };
        let class = if line.answer.refusal.is_some() {
            "clock faint"
        } else {
            "clock"
        };
        let (x, y) = (column.middle() + 3, self.rows.clock.bottom() - 4);
        self.svg.text(class, x, y, SMALL, Anchor::Up, &clock);
        true
    }

    /// The bar of the time since the poll before, and a line down through the lanes where that is long.
    fn draw_gap(&mut self, column: &Column, gap: &Gap, labelled: bool) {
        let row = self.rows.since;
        let width = (self.columns.base - 2).min(12);
        let height = gap.height();
        let x = column.middle();
        self.svg.rectangle(
            gap.class(),
            x - width / 2,
            row.bottom() - height,
            width,
            height,
        );
        if labelled {
            let class = if gap.class() == "bar" {
                "faint"
            } else {
                gap.class()
            };
            self.svg.text(
                class,
                x,
                row.top + SMALL + 2,
                SMALL,
                Anchor::Middle,
                &gap.words(),
            );
        }
        if gap.class() != "bar" {
            let top = row.top + SMALL + 5;
            let path = format!("M{} {}V{}", column.x, top, self.rows.bottom);
            let class = format!("gap {}", gap.class());
            self.svg.path(&class, &path);
        }
    }

    /// The word of a command.
    fn draw_command(&mut self, column: &Column, line: &Line) {
        let word = match line.entry {
            Entry::Online => "online",
            Entry::Offline => "offline",
            Entry::Passive => "passive",
            Entry::Poll(_) | Entry::Cut(_) => return,
        };
        let row = self.rows.command;
        if self.columns.has_room_for(LONGEST_COMMAND) {
            let (x, y) = (column.middle(), row.base(SMALL));
            self.svg.text("command", x, y, SMALL, Anchor::Middle, word);
        } else {
            let (x, y) = (column.middle() + 3, row.bottom() - 3);
            self.svg.text("command", x, y, TINY, Anchor::Up, word);
        }
    }

    /// The mark of a refusal.
    fn draw_refusal(&mut self, column: &Column, line: &Line) {
        if let Some(refusal) = line.answer.refusal {
            let row = self.rows.refusal;
            self.svg.open("g", "refusal alarm", &[]);
            self.svg.title(&format!("{}: {}", line.came, line.did));
            refusal_shape(
                self.svg,
                column.middle(),
                row.top + row.height / 2,
                &refusal.number().to_string(),
                column.width,
            );
            self.svg.close("g");
        }
    }

    /// The sign of a notice, with the application where there is room.
    fn draw_notice(&mut self, column: &Column, line: &Line) {
        let (reply, application) = match line.answer.notice {
            Notice::Nothing => return,
            Notice::Reply { application, .. } => (true, application),
            Notice::Timeout { application, .. } => (false, application),
        };
        let row = self.rows.notice;
        let words = format!("A{}", application);
        let room = self.columns.base >= 16 + text_width(words.len(), SMALL);
        let x = column.middle() - if room { 8 } else { 0 };
        let class = if reply {
            "notice reply"
        } else {
            "notice timeout alarm"
        };
        self.svg.open("g", class, &[]);
        self.svg.title(&line.did);
        notice_shape(self.svg, reply, x, row.top + row.height / 2);
        if room {
            self.svg
                .text("", x + 6, row.base(SMALL), SMALL, Anchor::Start, &words);
        }
        self.svg.close("g");
    }

    /// The sign of bytes that are no telegram yet.
    fn draw_pending(&mut self, column: &Column, line: &Line) {
        if let (Some(poll), None) = (&line.poll, line.answer.refusal) {
            if poll.pending != 0 && poll.telegrams.is_empty() {
                pending_shape(self.svg, column.middle(), self.rows.lanes[0].1);
            }
        }
    }

    /// A telegram, with the letter of its kind where there is room.
    fn draw_arrow(&mut self, x: Px, slot: Px, arrow: &Arrow, words: &str) {
        let lane = |place| {
            self.rows
                .lane_of(place)
                .expect("a lane for each place of an arrow")
        };
        let (from, to) = (lane(arrow.from), lane(arrow.to));
        let mut class = format!("arrow {} {}", arrow.kind.class(), arrow.way.class());
        if arrow.own_address {
            class.push_str(" own-address alarm");
        }
        self.svg.open("g", &class, &[]);
        self.svg.title(&format!("{}\n{}", arrow.words, words));
        if from == to {
            let height = self.rows.lane.min(28);
            loop_shape(self.svg, x, from, slot.min(20), height);
        } else {
            arrow_shape(self.svg, x, from, to);
        }
        let needed = if from == to { 34 } else { 24 };
        if slot >= needed {
            let (aside, y) = if from == to {
                (10, from - 4)
            } else if from < to {
                (4, from + 11)
            } else {
                (4, from - 4)
            };
            self.svg
                .text("letter", x + aside, y, SMALL, Anchor::Start, &arrow.letter);
        }
        self.svg.close("g");
    }

    /// Each event: a line down to its lane or through all lanes, its mark, and its label.
    fn draw_events(&mut self, events: &[Event]) {
        self.svg.open("g", "events", &[]);
        for event in events {
            let lane = event.lane.and_then(|place| self.rows.lane_of(place));
            let row = self.rows.events;
            let top = match event.line {
                Some(line) => row.top + 3 + line as Px * EVENT,
                None => row.bottom(),
            };
            let bottom = lane.unwrap_or(self.rows.bottom);
            self.svg.open("g", event.kind.class(), &[]);
            self.svg.title(&event.words);
            let path = format!("M{} {}V{}", event.x, top, bottom);
            self.svg.path("leader", &path);
            match event.kind {
                Kind::LastHeard => last_heard_shape(self.svg, event.x, bottom),
                Kind::Left => lane_end_shape(self.svg, event.x, bottom),
                Kind::Ours | Kind::Note => (),
            }
            if event.line.is_some() {
                let (x, base) = (event.x + ASIDE, top + LABEL);
                self.svg
                    .text("label", x, base, LABEL, Anchor::Start, &event.label);
            }
            self.svg.close("g");
        }
        self.svg.close("g");
    }

    /// The blocks of the clock's seconds, of the state and of the next station: one for each stretch of entries that
    /// have the same.
    fn draw_blocks(&mut self) {
        let seconds = seconds(self.all);
        let seconds = &seconds[self.shown.clone()];
        self.svg.open("g", "seconds", &[]);
        for (first, last) in stretches(seconds) {
            if let Some(second) = seconds[first] {
                let name = second_words(second);
                let words = format!("clock {}, {}", name, self.entries_words(first, last));
                let stretch = self.stretch(first, last);
                self.draw_block(self.rows.second, &stretch, "block plain", &name, &words);
            }
        }
        self.svg.close("g");
        let answers: Vec<Answer> = self.lines().iter().map(|line| line.answer).collect();
        self.svg.open("g", "states", &[]);
        let states: Vec<State> = answers.iter().map(|answer| answer.state).collect();
        for (first, last) in stretches(&states) {
            let after = format!("after {}", self.entries_words(first, last));
            let stretch = self.stretch(first, last);
            self.draw_state(&stretch, states[first], &after);
        }
        self.svg.close("g");
        self.svg.open("g", "next-stations", &[]);
        let next: Vec<NextStation> = answers.iter().map(|answer| answer.next_station).collect();
        for (first, last) in stretches(&next) {
            let after = format!("after {}", self.entries_words(first, last));
            let stretch = self.stretch(first, last);
            self.draw_next_station(&stretch, next[first], &after);
        }
        self.svg.close("g");
    }

    /// What the entries before those shown led to.
    fn draw_lead_in(&mut self) {
        let column = match self.columns.lead_in {
            Some(column) => column,
            None => return,
        };
        let before = self.all[self.shown.start - 1].answer;
        let number = format!("before entry {}", self.shown.start + 1);
        self.svg.open("g", "lead-in", &[]);
        let base = self.rows.entry.base(SMALL);
        self.svg.text(
            "faint",
            column.middle(),
            base,
            SMALL,
            Anchor::Middle,
            "before",
        );
        self.draw_state(&column, before.state, &number);
        self.draw_next_station(&column, before.next_station, &number);
        self.svg.close("g");
    }

    /// The block of a state.
    fn draw_state(&mut self, stretch: &Column, state: State, when: &str) {
        let name = format!("{:?}", state);
        let words = format!("{} {}", name, when);
        let class = format!("block {}", state_class(state));
        self.draw_block(self.rows.state, stretch, &class, &name, &words);
    }

    /// The block of a next station; of a station that is alone, a block that says so.
    fn draw_next_station(&mut self, stretch: &Column, next: NextStation, when: &str) {
        let (name, words) = match next {
            NextStation::Nobody => ("alone".to_string(), format!("alone {}", when)),
            NextStation::Station(address) => {
                let name = address.to_string();
                let words = format!("next station {} {}", name, when);
                (name, words)
            }
        };
        let row = self.rows.next_station;
        self.draw_block(row, stretch, "block plain", &name, &words);
    }

    /// The columns of some entries and what stands between them, as one.
    fn stretch(&self, first: usize, last: usize) -> Column {
        let columns = &self.columns.columns;
        let x = columns[first].x;
        let next = columns.get(last + 1);
        Column {
            x,
            width: next.map_or(self.columns.end, |next| next.x) - x,
        }
    }

    /// A block over some columns, with its name if that fits on one line or on three.
    fn draw_block(&mut self, row: Row, stretch: &Column, class: &str, name: &str, words: &str) {
        let (x, width) = (stretch.x, stretch.width);
        self.svg
            .titled_rectangle(class, x, row.top, width, row.height, words);
        let middle = stretch.middle();
        let parts = capitalised(name);
        let longest = parts.iter().map(String::len).max().unwrap_or(0);
        if text_width(name.len(), LABEL) + 6 <= width {
            let base = row.base(LABEL);
            self.svg
                .text("block-name", middle, base, LABEL, Anchor::Middle, name);
        } else if text_width(longest, THIRD) + 2 <= width {
            let above = THIRD * parts.len() as Px + parts.len() as Px;
            let mut y = row.top + (row.height - above) / 2;
            for part in &parts {
                y += THIRD + 1;
                self.svg
                    .text("block-name", middle, y - 2, THIRD, Anchor::Middle, part);
            }
        }
    }

    /// "entries 2 to 5", for two indices among those shown.
    fn entries_words(&self, first: usize, last: usize) -> String {
        let number = |index: usize| self.shown.start + index + 1;
        if first == last {
            format!("entry {}", number(first))
        } else {
            format!("entries {} to {}", number(first), number(last))
        }
    }

    /// The mark of a trace that was not read to its end.
    fn draw_ending(&mut self, refusal: Refusal, words: &str) {
        let row = self.rows.refusal;
        let x = self.columns.end + GUTTER / 2;
        self.svg.open("g", "end alarm", &[]);
        self.svg.title(words);
        let path = format!("M{} {}V{}", x, row.bottom(), self.rows.bottom);
        self.svg.path("ending", &path);
        let number = refusal.number().to_string();
        refusal_shape(self.svg, x, row.top + row.height / 2, &number, GUTTER);
        self.svg.close("g");
    }
}

/// The first and last index of each stretch of equal values.
fn stretches<T: PartialEq>(values: &[T]) -> Vec<(usize, usize)> {
    let mut found: Vec<(usize, usize)> = Vec::new();
    for (index, value) in values.iter().enumerate() {
        match found.last_mut() {
            Some((first, last)) if values[*first] == *value => *last = index,
            _ => found.push((index, index)),
        }
    }
    found
}

/// A name cut before each capital letter.
fn capitalised(name: &str) -> Vec<String> {
    let mut parts: Vec<String> = Vec::new();
    for letter in name.chars() {
        match parts.last_mut() {
            Some(part) if !letter.is_ascii_uppercase() => part.push(letter),
            _ => parts.push(letter.to_string()),
        }
    }
    parts
}
