//! The names of the rows, and the lanes of the bus.

use super::arrows::Place;
use super::layout::{Columns, Rows, GUTTER, LABEL, MARGIN, SMALL};
use super::presence::Stay;
use super::svg::{Anchor, Px, Svg};

/// The names of the rows.
pub fn draw_row_names(svg: &mut Svg, rows: &Rows) {
    svg.open("g", "rows", &[]);
    for (row, name) in [
        (rows.entry, "entry"),
        (rows.clock, "clock, us"),
        (rows.second, "clock, h:mm:ss"),
        (rows.since, "us since last poll"),
        (rows.events, "events"),
        (rows.command, "command"),
        (rows.refusal, "refusal"),
        (rows.state, "state"),
        (rows.next_station, "next station"),
        (rows.notice, "notice"),
    ] {
        if row.height > 0 {
            let base = row.base(LABEL);
            svg.text("row", MARGIN, base, LABEL, Anchor::Start, name);
        }
    }
    svg.close("g");
}

/// A part of a lane.
#[derive(Debug, Clone, Copy, PartialEq, Eq)]
struct Part {
    from: Px,
    to: Px,
    class: &'static str,
}

/// Draws each lane with its name. That of another station reaches from the first telegram from it or to it to where it
/// is out of the ring.
pub fn draw_lanes(svg: &mut Svg, own: u8, rows: &Rows, columns: &Columns, stays: &[Stay]) {
    svg.open("g", "lanes", &[]);
    for &(place, y) in &rows.lanes {
        let whole = |class| Part {
            from: columns.start(),
            to: columns.lanes_end(),
            class,
        };
        let stays = stays
            .iter()
            .filter(|stay| place == Place::Address(stay.address));
        let (name, aside, words, parts) = match place {
            Place::Address(address) if address == own => (
                address.to_string(),
                " (this station)",
                format!("station {}: this station", address),
                vec![whole("own")],
            ),
            Place::Address(address) => (
                address.to_string(),
                "",
                stays
                    .clone()
                    .map(Stay::words)
                    .collect::<Vec<_>>()
                    .join("\n"),
                stays.flat_map(|stay| parts(stay, columns)).collect(),
            ),
            Place::NoAddress => (
                "-".to_string(),
                " (no address)",
                "telegrams that do not say from whom or to whom they are".to_string(),
                vec![whole("present")],
            ),
        };
        svg.open("g", "lane", &[]);
        svg.title(&words);
        let long = format!("{}{}", name, aside);
        svg.text("lane-name", MARGIN, y + 3, LABEL, Anchor::Start, &long);
        for part in &parts {
            svg.path(part.class, &format!("M{} {}H{}", part.from, y, part.to));
        }
        repeat_name(svg, &name, y, columns, &parts);
        svg.close("g");
    }
    svg.close("g");
}

/// The parts of the lane of a stay: dotted where the station was named but not heard yet, or not any more.
fn parts(stay: &Stay, columns: &Columns) -> Vec<Part> {
    let begin = columns.before(stay.first);
    let end = stay
        .left
        .map_or(columns.lanes_end(), |left| columns.before(left));
    let (heard, lost) = match (stay.heard, stay.left) {
        (Some((first, last)), Some(_)) => (columns.before(first), columns.after(last).min(end)),
        (Some((first, _)), None) => (columns.before(first), end),
        (None, _) => (end, end),
    };
    let part = |from, to, class| Part { from, to, class };
    [
        part(begin, heard, "silent"),
        part(heard, lost, "present"),
        part(lost, end, "silent"),
    ]
    .into_iter()
    .filter(|part| part.from < part.to)
    .collect()
}

/// The lane's name in each gutter that it crosses, and at its right end if it reaches that.
fn repeat_name(svg: &mut Svg, name: &str, y: Px, columns: &Columns, parts: &[Part]) {
    let crosses = |x: Px| parts.iter().any(|part| part.from <= x && x < part.to);
    for &x in columns.gutters.iter().filter(|&&x| crosses(x)) {
        let (x, y) = (x + GUTTER / 2, y - 2);
        svg.text("faint", x, y, SMALL, Anchor::Middle, name);
    }
    let end = columns.lanes_end();
    if crosses(end - 1) {
        svg.text("faint", end + 4, y + 3, SMALL, Anchor::Start, name);
    }
}
