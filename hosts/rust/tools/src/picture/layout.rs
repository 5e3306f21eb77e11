//! Where each column, row and lane stands. The numbers are pixels at the picture's own size.

use super::arrows::{Arrow, Place};
use super::presence::Stay;
use super::svg::{text_width, Px};
use crate::explain::{thousands, Line};
use amsulfezd::answer::Notice;
use amsulfezd::trace::Entry;
use std::ops::Range;

/// The sizes of type: of most labels, of small ones inside a column, of a state's name on three lines, of what is turned
/// inside the narrowest column, of the heading's lines.
pub const LABEL: Px = 11;
pub const SMALL: Px = 10;
pub const THIRD: Px = 9;
pub const TINY: Px = 8;
pub const HEADING: Px = 12;
pub const NAME: Px = 17;

/// The space around the picture.
pub const MARGIN: Px = 12;
/// The columns begin here; the names of rows and lanes stand to the left.
const LEFT: Px = 132;
/// The width of a page. A picture is never narrower, so that its heading has room.
const PAGE: Px = 900;
/// The columns of a few entries are as wide as this, ..
const WIDEST_COLUMN: Px = 110;
/// .. those of some more fill a page as long as they are not narrower than this, ..
const NARROWEST_ON_PAGE: Px = 48;
/// .. beyond that the columns together are about as wide as this, ..
const WISHED: Px = 1700;
/// .. and never narrower.
const NARROWEST_COLUMN: Px = 8;
/// The width of the column before a range of entries, which shows what the entries before it led to.
const LEAD_IN: Px = 46;
/// A column with several arrows gives each at least so much where the columns are not narrower.
const ARROW: Px = 24;
/// In a picture wider than a screen the names of the lanes are repeated in a gutter whenever the columns went on for
/// this far.
const BETWEEN_GUTTERS: Px = 1000;
const SCREEN: Px = 2200;
/// The heading and the legend are not wider, so that they are seen at once.
const WIDEST_TEXT: Px = 1500;
/// The width of a gutter, which has room for three digits, and of the place of the ending's mark.
pub const GUTTER: Px = 40;
/// What stands right of the columns: the ending's mark, the lanes' names, the margin.
const RIGHT: Px = 2 * GUTTER + MARGIN;
/// The distance of lanes: between these two, the less the more lanes there are.
const WIDEST_LANE: Px = 40;
const NARROWEST_LANE: Px = 14;
/// All lanes together are about so high, if that is possible.
const LANES: Px = 480;

/// A part of the picture from left to right.
#[derive(Debug, Clone, Copy)]
pub struct Column {
    pub x: Px,
    pub width: Px,
}

impl Column {
    /// The x of its end.
    pub fn end(&self) -> Px {
        self.x + self.width
    }

    /// The x of its middle.
    pub fn middle(&self) -> Px {
        self.x + self.width / 2
    }

    /// The x of one of several arrows.
    pub fn arrow(&self, index: usize, count: usize) -> Px {
        self.x + self.width * (2 * index as Px + 1) / (2 * count as Px)
    }
}

/// A part of the picture from top to bottom.
#[derive(Debug, Clone, Copy)]
pub struct Row {
    pub top: Px,
    pub height: Px,
}

impl Row {
    /// The y of its end.
    pub fn bottom(&self) -> Px {
        self.top + self.height
    }

    /// The y at which a text of this size stands in its middle.
    pub fn base(&self, size: Px) -> Px {
        self.top + (self.height + size * 7 / 10) / 2
    }

    /// A row of this height under it.
    fn then(&self, height: Px) -> Row {
        Row {
            top: self.bottom(),
            height,
        }
    }

    /// The same if it is needed, else a row of no height.
    fn then_if(&self, needed: bool, height: Px) -> Row {
        self.then(if needed { height } else { 0 })
    }
}

/// The columns of the entries that are shown and what stands between them.
#[derive(Debug, Clone)]
pub struct Columns {
    /// The index of the first entry that is shown.
    first: usize,
    /// The width of a column with at most one arrow.
    pub base: Px,
    /// What the entries before the first one led to; none if there are no entries before.
    pub lead_in: Option<Column>,
    pub columns: Vec<Column>,
    /// Where the lanes' names are repeated.
    pub gutters: Vec<Px>,
    /// Where the last column ends.
    pub end: Px,
    /// The width of the whole picture.
    pub width: Px,
}

impl Columns {
    /// One column for each entry that is shown, wide enough for its arrows.
    pub fn of(shown: Range<usize>, arrows: &[Vec<Arrow>]) -> Columns {
        let lead_in = if shown.start == 0 {
            None
        } else {
            Some(Column {
                x: LEFT,
                width: LEAD_IN,
            })
        };
        let start = lead_in.map_or(LEFT, |column| column.end());
        let base = column_width(shown.len(), PAGE - start - RIGHT);
        let widths = arrows[shown.clone()]
            .iter()
            .map(|arrows| base.max(arrows.len() as Px * base.min(ARROW)));
        let wide = start + widths.clone().sum::<Px>() > SCREEN;
        let mut columns = Vec::new();
        let mut gutters = Vec::new();
        let mut x = start;
        let mut since_gutter = 0;
        for width in widths {
            if wide && since_gutter >= BETWEEN_GUTTERS {
                gutters.push(x);
                x += GUTTER;
                since_gutter = 0;
            }
            columns.push(Column { x, width });
            x += width;
            since_gutter += width;
        }
        Columns {
            first: shown.start,
            base,
            lead_in,
            columns,
            gutters,
            end: x,
            width: (x + RIGHT).max(PAGE),
        }
    }

    /// Where the rows and lanes begin.
    pub fn start(&self) -> Px {
        LEFT
    }

    /// Where the lanes end.
    pub fn lanes_end(&self) -> Px {
        self.end + GUTTER
    }

    /// Whether the entry with this index is shown.
    pub fn shows(&self, entry: usize) -> bool {
        entry >= self.first && entry - self.first < self.columns.len()
    }

    /// Where the column of an entry begins: for an entry before those shown where the lanes begin, for one after them
    /// where the lanes end.
    pub fn before(&self, entry: usize) -> Px {
        self.place(entry, |column| column.x)
    }

    /// Where the column of an entry ends, with the same rule.
    pub fn after(&self, entry: usize) -> Px {
        self.place(entry, Column::end)
    }

    fn place(&self, entry: usize, of: fn(&Column) -> Px) -> Px {
        match entry.checked_sub(self.first) {
            None => self.start(),
            Some(index) => self.columns.get(index).map_or(self.lanes_end(), of),
        }
    }

    /// How wide the heading and the legend may be.
    pub fn text_width(&self) -> Px {
        self.width.min(WIDEST_TEXT)
    }

    /// Whether a horizontal text of so many small characters fits into every column.
    pub fn has_room_for(&self, characters: usize) -> bool {
        text_width(characters, SMALL) + 4 <= self.base
    }
}

/// How wide a column is where so many fill a page whose columns have this width together.
fn column_width(count: usize, page: Px) -> Px {
    let count = (count as Px).max(1);
    let wished = if page / count >= NARROWEST_ON_PAGE {
        page
    } else {
        WISHED
    };
    (wished / count).clamp(NARROWEST_COLUMN, WIDEST_COLUMN)
}

/// The rows over the bus, and the lanes of the bus.
#[derive(Debug, Clone)]
pub struct Rows {
    pub entry: Row,
    pub clock: Row,
    pub second: Row,
    pub since: Row,
    pub events: Row,
    pub command: Row,
    pub refusal: Row,
    pub state: Row,
    pub next_station: Row,
    pub notice: Row,
    /// The lanes' places and their y: our station, the other addresses going up, telegrams without an address.
    pub lanes: Vec<(Place, Px)>,
    /// The distance of two lanes.
    pub lane: Px,
    /// Where the lanes end.
    pub bottom: Px,
}

/// The words of the commands, turned where a column has no room for them.
pub const LONGEST_COMMAND: usize = 7;

impl Rows {
    /// The rows of a picture whose heading ends at `top`, with these lanes, so many lines of events, and the mark of an
    /// ending or not. A row that would be empty has no height.
    pub fn of(
        top: Px,
        lines: &[Line],
        lanes: &[Place],
        events: usize,
        ending: bool,
        columns: &Columns,
    ) -> Rows {
        let clocks = lines.iter().filter_map(|line| line.clock);
        let clock = clocks.map(|clock| thousands(clock).len()).max();
        let commands = lines
            .iter()
            .any(|line| !matches!(line.entry, Entry::Poll(_)));
        let refusals = ending || lines.iter().any(|line| line.answer.refusal.is_some());
        let notices = lines
            .iter()
            .any(|line| line.answer.notice != Notice::Nothing);
        let command = if columns.has_room_for(LONGEST_COMMAND) {
            16
        } else {
            text_width(LONGEST_COMMAND, TINY) + 6
        };
        let entry = Row { top, height: 16 };
        let clock = entry.then(text_width(clock.unwrap_or(0), SMALL) + 8);
        let second = clock.then(16);
        let since = second.then(50);
        let events = since.then_if(events > 0, events as Px * EVENT + 6);
        let command = events.then_if(commands, command);
        let refusal = command.then_if(refusals, 20);
        let state = refusal.then(34);
        let next_station = state.then(16);
        let notice = next_station.then_if(notices, 24);
        let lane = (LANES / lanes.len() as Px).clamp(NARROWEST_LANE, WIDEST_LANE);
        let first = notice.bottom() + 32;
        Rows {
            entry,
            clock,
            second,
            since,
            events,
            command,
            refusal,
            state,
            next_station,
            notice,
            lane,
            bottom: first + lane * (lanes.len() as Px - 1) + 16,
            lanes: (0..)
                .zip(lanes)
                .map(|(index, &place)| (place, first + lane * index))
                .collect(),
        }
    }

    /// The y of a place's lane, if it has one.
    pub fn lane_of(&self, place: Place) -> Option<Px> {
        let lane = self.lanes.iter().find(|(there, _)| *there == place);
        lane.map(|&(_, y)| y)
    }
}

/// The height of one line of events.
pub const EVENT: Px = 16;

/// The places that have a lane: our station, then in order the other places at which arrows of the entries that are
/// shown begin or end, and the stations whose stay goes on when the first of them comes.
pub fn lanes(own: u8, shown: Range<usize>, arrows: &[Vec<Arrow>], stays: &[Stay]) -> Vec<Place> {
    let ours = Place::Address(own);
    let staying = stays.iter().filter(|stay| stay.goes_on_at(shown.start));
    let staying = staying.map(|stay| Place::Address(stay.address));
    let touched = arrows[shown.clone()].iter().flatten();
    let mut others: Vec<Place> = touched
        .flat_map(|arrow| [arrow.from, arrow.to])
        .chain(staying)
        .filter(|&place| place != ours)
        .collect();
    others.sort();
    others.dedup();
    let mut lanes = vec![ours];
    lanes.extend(others);
    lanes
}
