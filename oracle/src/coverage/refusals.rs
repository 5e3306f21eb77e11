//! Refused headers and refused records: which rule was broken, and where.

use super::points::Points;
use crate::baud::LEAST_SLOT_BITS;
use crate::editions::{Edition, SECOND};
use crate::records::{split, Decision, Place, PollRecord, Telegram, DECISION, TELEGRAM};
use crate::trace::Header;

/// The groups of headers of an edition: refused ones, those at an edge, those with two faults, and those with a rotation at the
/// edge of its room for a gap poll.
fn header_groups(edition: Edition) -> [&'static str; 4] {
    match edition {
        Edition::First => ["refused header", "header at an edge", "header with two faults", "room for a gap poll"],
        Edition::Second => [
            "refused header of edition 2",
            "header of edition 2 at an edge",
            "header of edition 2 with two faults",
            "room for a gap poll in edition 2",
        ],
    }
}

/// Headers at and just outside the edges of each field's range; after the colon the number of the refusal.
const HEADER_EDGES: [&str; 41] = [
    "address 0",
    "address 125",
    "address 126: 1",
    "address 127: 1",
    "address 128: 1",
    "address 129: 1",
    "address 131: 1",
    "address 255: 1",
    "baud 10",
    "baud 11: 10",
    "baud 255: 10",
    "slot 65535",
    "HSA own + 1",
    "HSA 126",
    "HSA own: 3",
    "HSA 127: 3",
    "rotation 256",
    "rotation 16777960",
    "rotation 255: 4",
    "rotation 16777961: 4",
    "gap 1",
    "gap 100",
    "gap 0: 5",
    "gap 101: 5",
    "retry 1",
    "retry 15",
    "retry 0: 6",
    "retry 16: 6",
    "min Tsdr 11",
    "min Tsdr 255",
    "min Tsdr 10: 7",
    "applications 1",
    "applications 8",
    "applications 0: 11",
    "applications 9: 11",
    "factors none",
    "factors 255, 255",
    "factors 0, 1: 8",
    "factors 1, 0: 8",
    "last byte 1: 14",
    "last byte 255: 14",
];

/// The same in edition 2, where a field can be no larger than its bits: a retry of 16 and no application cannot be written.
const SECOND_EDGES: [&str; 48] = [
    "address 0",
    "address 125",
    "address 126: 1",
    "address 127: 1",
    "baud 0",
    "baud 10",
    "baud 11: 10",
    "baud 15: 10",
    "slot 65535",
    "slot 0: 2",
    "HSA own + 1",
    "HSA 126",
    "HSA 0: 3",
    "HSA own: 3",
    "HSA 127: 3",
    "rotation 256",
    "rotation 16777960",
    "rotation 0: 4",
    "rotation 255: 4",
    "rotation 16777961: 4",
    "rotation 33554431: 4",
    "gap 1",
    "gap 100",
    "gap 0: 5",
    "gap 101: 5",
    "gap 127: 5",
    "retry 1",
    "retry 15",
    "retry 0: 6",
    "min Tsdr 11",
    "min Tsdr 255",
    "min Tsdr 0: 7",
    "min Tsdr 10: 7",
    "applications 1",
    "applications 2",
    "applications 3",
    "applications 4",
    "applications 5",
    "applications 6",
    "applications 7",
    "applications 8",
    "factors none",
    "factors 255, 255",
    "factors 0, 1: 8",
    "factors 1, 0: 8",
    "last bits 1: 14",
    "last bits 64: 14",
    "last bits 127: 14",
];

/// Two faults in one header: the first of document 01's order gives the number.
const TWO_FAULTS: [(u8, u8); 10] =
    [(1, 10), (10, 3), (2, 3), (3, 4), (4, 5), (5, 6), (6, 7), (7, 11), (11, 8), (8, 14)];

/// The same in edition 2, which has no 11.
const SECOND_TWO_FAULTS: [(u8, u8); 9] = [(1, 10), (10, 3), (2, 3), (3, 4), (4, 5), (5, 6), (6, 7), (7, 8), (8, 14)];

/// Neighbours of an edition's order.
fn neighbours(edition: Edition) -> &'static [(u8, u8)] {
    match edition {
        Edition::First => &TWO_FAULTS,
        Edition::Second => &SECOND_TWO_FAULTS,
    }
}

/// What the first byte of a trace can be, and how many bytes there are.
const FIRST_BYTES: [&str; 4] = ["82h", "0 to 125", "126 or 127", "128 to 255 but 82h"];
const LENGTHS: [&str; 6] = ["under 13", "13", "14", "15", "16", "more"];

/// Document 02's 25 with one other fault and no third: it comes "directly after 4".
const WITHOUT_ROOM: [(u8, u8); 11] =
    [(1, 25), (10, 25), (2, 25), (3, 25), (4, 25), (25, 5), (25, 6), (25, 7), (25, 11), (25, 8), (25, 14)];

/// Slots and rotations at the edge of the room for a gap poll; after the colon the number of the refusal. The least rotation
/// of all has room for a slot of 156; from slot 65,436 on, slot bits + 100 do not fit into 16 bits.
const ROOM_EDGES: [&str; 12] = [
    "slot 156, rotation 256",
    "slot 157, rotation 256: 25",
    "slot 65435, rotation 65534: 25",
    "slot 65435, rotation 65535",
    "slot 65436, rotation 65535: 25",
    "slot 65436, rotation 65536",
    "slot 65535, rotation 65634: 25",
    "slot 65535, rotation 65635",
    "slot 65535, rotation 256: 25",
    "any slot, rotation slot + 99: 25",
    "any slot, rotation slot + 100",
    "any slot, rotation slot + 101",
];

/// Rules that a decision breaks.
const BAD_DECISIONS: [&str; 10] = [
    "14: a bit of the last seven",
    "14: reply without send",
    "14: address without send",
    "14: length without send",
    "14: address without reply",
    "15: without reply",
    "15: with reply",
    "14 before 15 in one decision",
    "15 before 14 in a later decision",
    "15 before 14 in a telegram",
];

/// For each kind of telegram, the fields that should be zero.
const STRAY: [(&str, &[&str]); 4] = [
    ("token", &["status request", "station type", "status", "zero"]),
    ("short confirmation", &["destination", "source", "status request", "station type", "status", "zero"]),
    ("request", &["station type", "status", "zero"]),
    ("response", &["status request", "zero"]),
];

pub fn name_points(points: &mut Points) {
    let slots = (0..LEAST_SLOT_BITS.len())
        .flat_map(|code| [format!("least slot at code {}", code), format!("one slot bit too few at code {}: 2", code)]);
    for edition in [Edition::First, Edition::Second] {
        let [refused, at_edge, two_faults, room] = header_groups(edition);
        // edition 2 cannot say that there is no application
        let said = |number: u8| edition == Edition::First || number != 11;
        let numbers = [1, 10, 2, 3, 4, 25, 5, 6, 7, 11, 8, 14, 17].into_iter();
        points.group(refused, numbers.filter(|number| said(*number)));
        let edges = if edition == Edition::First { &HEADER_EDGES[..] } else { &SECOND_EDGES };
        points.group(at_edge, edges.iter().map(|edge| edge.to_string()).chain(slots.clone()));
        let pairs =
            neighbours(edition).iter().chain(&WITHOUT_ROOM).filter(|(first, second)| said(*first) && said(*second));
        points.group(two_faults, pairs.map(|(first, second)| format!("{} before {}", first, second)));
        points.group(room, ROOM_EDGES);
    }
    let with_lengths = |first| LENGTHS.map(|length| format!("{}, {} bytes", first, length));
    points.group("first byte and length", FIRST_BYTES.iter().flat_map(with_lengths));
    let in_decisions = (0..16).flat_map(|i| [(14, Place::Decision(i)), (15, Place::Decision(i))]);
    let in_telegrams = (0..8).map(|i| (14, Place::Telegram(i)));
    let others = [(12, Place::Head), (12, Place::Length), (13, Place::Count)];
    points.group("refused record", others.into_iter().chain(in_decisions).chain(in_telegrams).map(place_name));
    points
        .group("bad length", ["7 bytes with a count above 8", "one byte too few", "one too many", "13 with that many"]);
    points.group("bad decision", BAD_DECISIONS);
    points.group("bad telegram", stray_points());
}

/// For each kind of telegram and each of its fields that should be zero a name.
pub fn stray_points() -> impl Iterator<Item = String> {
    STRAY.iter().flat_map(|(kind, fields)| fields.iter().map(move |field| stray_name(kind, field)))
}

fn place_name((number, place): (u8, Place)) -> String {
    format!("{} {:?}", number, place)
}

fn stray_name(kind: &str, field: &str) -> String {
    format!("{}: {}", kind, field)
}

/// A trace's first byte and its length, and its header, if it has one.
pub fn see_start(points: &mut Points, trace: &[u8]) {
    let first = match trace.first() {
        None => return points.hit(header_groups(Edition::First)[0], 17),
        Some(&SECOND) => 0,
        Some(0..=125) => 1,
        Some(126 | 127) => 2,
        Some(_) => 3,
    };
    let length = LENGTHS[trace.len().clamp(12, 17) - 12];
    points.hit("first byte and length", format_args!("{}, {} bytes", FIRST_BYTES[first], length));
    let edition = Edition::of(trace);
    match Header::read(trace) {
        Some(header) => see_header(points, edition, &header),
        None => points.hit(header_groups(edition)[0], 17),
    }
}

fn see_header(points: &mut Points, edition: Edition, h: &Header) {
    let [refused, at_edge, two_faults, _] = header_groups(edition);
    let last = if edition == Edition::First { "last byte" } else { "last bits" };
    let faults = h.faults();
    let value = |name: &str, value: u32| format!("{} {}", name, value);
    let hsa = match u32::from(h.hsa).checked_sub(h.address.into()) {
        Some(0) => "HSA own".to_string(),
        Some(1) => "HSA own + 1".to_string(),
        _ => value("HSA", h.hsa.into()),
    };
    let factors = match h.factors {
        (0, 0) => "factors none".to_string(),
        (f1, f2) => format!("factors {}, {}", f1, f2),
    };
    let mut values = vec![
        (1, value("address", h.address.into())),
        (10, value("baud", h.baud.into())),
        (2, value("slot", h.slot.into())),
        (3, hsa),
        (4, value("rotation", h.rotation)),
        (5, value("gap", h.gap.into())),
        (6, value("retry", h.retry.into())),
        (7, value("min Tsdr", h.min_tsdr.into())),
        (11, value("applications", h.applications.into())),
        (8, factors),
        (14, value(last, h.zero.into())),
    ];
    match LEAST_SLOT_BITS.get(usize::from(h.baud)) {
        Some(least) if h.slot == *least => values.push((2, value("least slot at code", h.baud.into()))),
        Some(least) if h.slot == *least - 1 => values.push((2, value("one slot bit too few at code", h.baud.into()))),
        _ => {}
    }
    for (number, point) in values {
        if faults.is_empty() {
            points.hit_if_named(at_edge, point);
        } else if faults == [number] || (number == 1 && faults == [1, 3]) || (number == 4 && faults == [4, 25]) {
            // no HSA is above an address of 126 or more, and few slots leave a rotation below 256 its room
            points.hit_if_named(at_edge, format_args!("{}: {}", point, number));
        }
    }
    see_room(points, edition, h, &faults);
    if let Some(number) = faults.first() {
        points.hit(refused, number);
    }
    for (first, second) in neighbours(edition) {
        if faults.starts_with(&[*first, *second]) {
            points.hit(two_faults, format_args!("{} before {}", first, second));
        }
    }
}

/// The rotation's room for a gap poll: at its edges, and where there is too little and one fault more.
fn see_room(points: &mut Points, edition: Edition, h: &Header, faults: &[u8]) {
    let [_, _, two_faults, room] = header_groups(edition);
    let refused = match faults {
        [] => "",
        [25] => ": 25",
        _ => {
            // no HSA is above an address of 126 or more
            let pair = if faults == [1, 3, 25] { &[1, 25] } else { faults };
            if let Some((first, second)) = WITHOUT_ROOM.iter().find(|(first, second)| pair == [*first, *second]) {
                points.hit(two_faults, format_args!("{} before {}", first, second));
            }
            return;
        }
    };
    points.hit_if_named(room, format_args!("slot {}, rotation {}{}", h.slot, h.rotation, refused));
    let more = i64::from(h.rotation) - i64::from(h.slot);
    points.hit_if_named(room, format_args!("any slot, rotation slot + {}{}", more, refused));
}

/// A record that is refused.
pub fn see_record(points: &mut Points, applications: u8, bytes: &[u8]) {
    let (number, place) = match PollRecord::decode(applications, bytes) {
        Ok(_) => return,
        Err(refused) => refused,
    };
    points.hit("refused record", place_name((number, place)));
    let middle = 8 + 6 * usize::from(applications);
    let count = bytes.get(6).map_or(0, |byte| usize::from(byte / 8 % 16));
    let right = middle + 4 * count;
    match place {
        Place::Head if bytes.len() == 7 && count > 8 => points.hit("bad length", "7 bytes with a count above 8"),
        Place::Head => {}
        Place::Count if bytes.len() == right => points.hit("bad length", "13 with that many"),
        Place::Count => {}
        Place::Length if bytes.len() + 1 == right => points.hit("bad length", "one byte too few"),
        Place::Length if bytes.len() == right + 1 => points.hit("bad length", "one too many"),
        Place::Length => {}
        Place::Decision(i) => {
            let (decision, later) = bytes[8 + 3 * i..middle].split_at(3);
            see_decision(points, number, decision);
            if number == 15 && later.chunks(3).any(|word| Decision::decode(word) == Err(14)) {
                points.hit("bad decision", "15 before 14 in a later decision");
            }
            if number == 15 && bytes[middle..].chunks(4).any(|word| Telegram::decode(word).is_none()) {
                points.hit("bad decision", "15 before 14 in a telegram");
            }
        }
        Place::Telegram(i) => see_telegram(points, &bytes[middle + 4 * i..middle + 4 * i + 4]),
    }
}

fn see_decision(points: &mut Points, number: u8, word: &[u8]) {
    let [sends, expects_reply, address, length, zero] = split(DECISION, word);
    let mut hit = |point| points.hit("bad decision", point);
    if number == 15 {
        return hit(if expects_reply == 0 { "15: without reply" } else { "15: with reply" });
    }
    if sends == 1 && length == 0 {
        hit("14 before 15 in one decision");
    }
    // the rule that is broken alone
    match [zero != 0, sends == 0 && expects_reply != 0, address != 0, sends == 0 && length != 0] {
        [true, false, _, false] => hit("14: a bit of the last seven"),
        [false, true, false, false] => hit("14: reply without send"),
        [false, false, true, false] if sends == 0 => hit("14: address without send"),
        [false, false, true, false] if expects_reply == 0 => hit("14: address without reply"),
        [false, false, false, true] => hit("14: length without send"),
        _ => {}
    }
}

fn see_telegram(points: &mut Points, word: &[u8]) {
    if let Some(point) = stray_point(word) {
        points.hit("bad telegram", point);
    }
}

/// The name of the one field of a telegram's word that is set and should be zero.
pub fn stray_point(word: &[u8]) -> Option<String> {
    let [kind, destination, source, status_request, station_type, status, zero] = split(TELEGRAM, word);
    let (kind, fields) = STRAY[kind as usize];
    let set = [
        ("destination", destination),
        ("source", source),
        ("status request", status_request),
        ("station type", station_type),
        ("status", status),
        ("zero", zero),
    ];
    let stray: Vec<&str> =
        set.iter().filter(|(name, v)| *v != 0 && fields.contains(name)).map(|(name, _)| *name).collect();
    match stray.as_slice() {
        [field] => Some(stray_name(kind, field)),
        _ => None,
    }
}
