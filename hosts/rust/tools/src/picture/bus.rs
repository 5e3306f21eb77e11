//! A simulated bus as a picture: a lane for each station in the colours of its states, each telegram as an arrow from its sender
//! to its destination, and those that were lost red and crossed. There is a column for each tick at which something was sent or a
//! station came to another state. Telegrams to addresses that no station has go to a lane below.

use super::arrows::Kind;
use super::draw::{draw_text, whole};
use super::layout::{Column, LABEL, MARGIN, NAME, SMALL, TINY};
use super::legend::{draw_legend, state_class, STYLE};
use super::shapes::{arrow_shape, loop_shape, notice_shape};
use super::svg::{shortened, text_width, Anchor, Px, Svg};
use crate::bus::{Bus, Change, Fate, Sending};
use amsulfezd::answer::{Sent, State};
use amsulfezd::words::thousands;
use std::ops::RangeInclusive;

/// What the styles of a trace's picture lack.
const LOST: &str =
    ".lost .line{stroke-dasharray:3 2}\n.cross .line{stroke-dasharray:none;stroke-width:2}\n";

/// The lanes begin here; their names stand to the left.
const LEFT: Px = 92;
/// The width of a page.
const PAGE: Px = 900;
/// The columns are as wide as this, and never narrower; between them, they fill a page.
const WIDEST: Px = 60;
const NARROWEST: Px = 14;
/// The height of a lane's strip, and the distance of two lanes.
const STRIP: Px = 12;
const LANE: Px = 52;
/// The height of the clocks, which are turned.
const CLOCKS: Px = 84;
/// So many columns are drawn at most.
pub const MOST_COLUMNS: usize = 600;

/// The picture of a run, or of the part of it between two clocks.
pub fn bus_picture(bus: &Bus, name: &str, clocks: RangeInclusive<u64>) -> String {
    let mut at: Vec<u64> = bus.sent.iter().map(|one| one.clock).collect();
    at.extend(bus.changes.iter().map(|change| change.clock));
    at.retain(|clock| clocks.contains(clock));
    at.sort_unstable();
    at.dedup();
    let all = at.len();
    at.truncate(MOST_COLUMNS);
    let scene = Scene::of(bus, at);
    let width = scene.width();
    let mut svg = Svg::default();
    svg.text(
        "name",
        MARGIN,
        MARGIN + NAME,
        NAME,
        Anchor::Start,
        &shortened(name, NAME, width - 2 * MARGIN),
    );
    let mut top = draw_text(
        &mut svg,
        "settings",
        MARGIN + NAME + 4,
        width,
        &bus.heading(),
    );
    if scene.clocks.len() < all {
        let words = format!(
            "The first {} of {} columns are drawn",
            thousands(scene.clocks.len() as u64),
            thousands(all as u64)
        );
        top = draw_text(&mut svg, "range", top, width, &words);
    }
    let mut bottom = scene.draw(&mut svg, top + 10);
    bottom = draw_legend(&mut svg, bottom + 8, width);
    let lost = bus.sent.iter().filter(|one| one.fate == Fate::Lost).count();
    let words = format!(
        "{} telegrams were sent, {} of them were lost.",
        thousands(bus.sent.len() as u64),
        thousands(lost as u64)
    );
    bottom = draw_text(&mut svg, "footer", bottom + 6, width, &words);
    let description = format!("{}. {}", bus.heading(), words);
    let style = format!("{}{}", STYLE, LOST);
    whole(svg, name, &description, width, bottom + MARGIN, &style)
}

/// What is drawn, and where from left to right.
struct Scene<'a> {
    bus: &'a Bus,
    /// The clock of each column.
    clocks: Vec<u64>,
    /// The width of a column.
    column: Px,
    /// Whether a telegram goes to an address that no station has.
    strangers: bool,
}

impl<'a> Scene<'a> {
    fn of(bus: &'a Bus, clocks: Vec<u64>) -> Scene<'a> {
        let room = (PAGE - LEFT - MARGIN) / clocks.len().max(1) as Px;
        let mut scene = Scene {
            bus,
            clocks,
            column: room.clamp(NARROWEST, WIDEST),
            strangers: false,
        };
        let drawn = |one: &Sending| scene.column_at(one.clock).is_some();
        let strangers = bus
            .sent
            .iter()
            .any(|one| drawn(one) && scene.lane_of(one).is_none());
        scene.strangers = strangers;
        scene
    }

    fn width(&self) -> Px {
        (LEFT + self.column * self.clocks.len() as Px + MARGIN).max(PAGE)
    }

    /// The column of a clock, if it is drawn.
    fn column_at(&self, clock: u64) -> Option<Column> {
        let index = self.clocks.binary_search(&clock).ok()?;
        Some(Column {
            x: LEFT + self.column * index as Px,
            width: self.column,
        })
    }

    /// The place of the station that a telegram goes to, if there is one.
    fn lane_of(&self, one: &Sending) -> Option<usize> {
        let stations = &self.bus.stations;
        stations
            .iter()
            .position(|station| Some(station.address) == one.to())
    }

    /// Draws clocks, lanes and arrows from `top` on; gives where they end.
    fn draw(&self, svg: &mut Svg, top: Px) -> Px {
        let lanes = top + CLOCKS + LANE * 2 / 3;
        let count = self.bus.stations.len() as Px;
        let below = lanes + LANE * count;
        for (index, clock) in self.clocks.iter().enumerate() {
            let x = LEFT + self.column * index as Px + self.column / 2;
            let words = thousands(*clock);
            svg.text("", x + 3, top + CLOCKS - 4, SMALL, Anchor::Up, &words);
        }
        svg.text(
            "faint",
            MARGIN,
            top + CLOCKS - 4,
            LABEL,
            Anchor::Start,
            "clock, us",
        );
        for (place, station) in self.bus.stations.iter().enumerate() {
            let y = lanes + LANE * place as Px;
            let words = format!("station {}", station.address);
            svg.text("name", MARGIN, y + 4, LABEL, Anchor::Start, &words);
            self.draw_strip(svg, place, y);
        }
        if self.strangers {
            svg.text("faint", MARGIN, below + 4, LABEL, Anchor::Start, "nobody");
            let path = format!("M{} {}H{}", LEFT, below, self.width() - MARGIN);
            svg.path("silent", &path);
        }
        for (index, clock) in self.clocks.iter().enumerate() {
            let column = Column {
                x: LEFT + self.column * index as Px,
                width: self.column,
            };
            // they stand in the order in which they were sent
            let first = self.bus.sent.partition_point(|one| one.clock < *clock);
            let of_column: Vec<&Sending> = self.bus.sent[first..]
                .iter()
                .take_while(|one| one.clock == *clock)
                .collect();
            for (number, one) in of_column.iter().enumerate() {
                let x = column.arrow(number, of_column.len());
                self.draw_arrow(svg, x, lanes, below, one);
            }
        }
        below + if self.strangers { LANE / 2 } else { 0 }
    }

    /// The states of a station, a block for each stretch of columns.
    fn draw_strip(&self, svg: &mut Svg, place: usize, y: Px) {
        let changes: Vec<&Change> = self
            .bus
            .changes
            .iter()
            .filter(|change| change.place == place)
            .collect();
        let mut blocks: Vec<(usize, usize, State, u64)> = Vec::new();
        for (index, clock) in self.clocks.iter().enumerate() {
            let until = changes.partition_point(|change| change.clock <= *clock);
            let change = match until.checked_sub(1) {
                Some(last) => changes[last],
                None => continue,
            };
            match blocks.last_mut() {
                Some((_, end, _, since)) if *since == change.clock => *end = index + 1,
                _ => blocks.push((index, index + 1, change.state, change.clock)),
            }
        }
        for (from, to, state, since) in blocks {
            let words = format!(
                "station {}: {:?} since {} us",
                self.bus.stations[place].address,
                state,
                thousands(since)
            );
            let x = LEFT + self.column * from as Px;
            let class = format!("block {}", state_class(state));
            let width = self.column * (to - from) as Px;
            svg.titled_rectangle(&class, x, y - STRIP / 2, width, STRIP, &words);
        }
    }

    /// A telegram: an arrow to its station's lane, or to the lane below with the address that nobody has.
    fn draw_arrow(&self, svg: &mut Svg, x: Px, lanes: Px, below: Px, one: &Sending) {
        let kind = match one.sent {
            Sent::Token { .. } => Kind::Token,
            Sent::StatusRequest { .. } => Kind::StatusRequest,
            _ => Kind::Response,
        };
        let lost = one.fate == Fate::Lost;
        let class = format!("{}{}", kind.class(), if lost { " lost alarm" } else { "" });
        let from = lanes + LANE * one.place as Px;
        svg.open("g", &class, &[]);
        svg.title(&self.arrow_words(one));
        let middle = match self.lane_of(one) {
            Some(to) if to == one.place => {
                let height = LANE / 2;
                loop_shape(svg, x, from - STRIP / 2, 7, height);
                from - STRIP / 2 - height * 3 / 4
            }
            to => {
                let to = to.map_or(below, |to| lanes + LANE * to as Px);
                let down = if from < to { 1 } else { -1 };
                arrow_shape(svg, x, from + down * STRIP / 2, to - down * STRIP / 2);
                if to == below {
                    let words = one.to().map_or(String::new(), |to| to.to_string());
                    let left = x - text_width(words.len(), TINY) / 2;
                    svg.text("", left, below + STRIP, TINY, Anchor::Start, &words);
                }
                (from + to) / 2
            }
        };
        if lost {
            svg.open("g", "cross", &[]);
            notice_shape(svg, false, x, middle);
            svg.close("g");
        }
        svg.close("g");
    }

    fn arrow_words(&self, one: &Sending) -> String {
        let fate = match one.fate {
            Fate::Heard(clock) => format!("heard by the others at {} us", thousands(clock)),
            Fate::Lost => "lost: it met another telegram".to_string(),
            Fate::Underway => "on its way when the run ends".to_string(),
        };
        format!(
            "{} us: station {} sends {}\nends at {} us, {}",
            thousands(one.clock),
            self.bus.stations[one.place].address,
            one.words(),
            thousands(one.end),
            fate
        )
    }
}
