//! The cases that the calls have to reach, by name: each refusal and which of two faults decides, each number of stations and baud
//! code, what becomes of a telegram, what a record lists, who transmits, and the states that a run leads to.

use super::simulation::{Setup, Transmission, HEAD, MOST, MOST_TICKS, STATION, STATIONS, TICK};
use super::tries::Try;
use crate::comparison::calls::{Made, Meets};
use crate::coverage::Point::{self, Numbered, Said};
use crate::coverage::{Points, Tally};
use crate::records::{state, Answer, PollRecord, Sent};
use crate::trace::{Header, ANSWER};

const CALL: &str = "call";
const REFUSED: &str = "setup refused";
const TWO_SETTINGS: &str = "station with two bad settings";
const TWO_STATIONS: &str = "two stations with a bad setting each, as given";
const AS_GIVEN: &str = "compared as given";
const ACCEPTED: &str = "stations of a run";
const CODE: &str = "baud code of a run";
const GIVEN: &str = "order in which stations are given";
const TICKS: &str = "ticks of a run";
const LISTED: &str = "telegrams that a record lists";
const KEPT: &str = "telegrams kept from the record before";
const ARRIVED: &str = "a telegram arrives";
const TRANSMITTING: &str = "a record says transmitting";
const SENT: &str = "sent";
const FATE: &str = "what becomes of a telegram";
const MEETING: &str = "two telegrams";
const STATE: &str = "state after a poll";
const OUTCOME: &str = "outcome of a poll";
const ROOM: &str = "room";

/// What has been met.
#[derive(Default)]
pub struct Met {
    tally: Tally,
}

/// The kinds of fault in the order of their refusals, and the group of what each decides over.
const ORDER: [(&str, &str); 9] = [
    ("29", "29 before"),
    ("17", "17 before"),
    ("28", "28 before"),
    ("35", "35 before"),
    ("30", "30 before"),
    ("27", "27 before"),
    ("settings", "a bad setting before"),
    ("place", "29 for the place before"),
    ("18", "18"),
];

/// The refusals of a station's settings, in their order.
const SETTINGS: [u8; 10] = [1, 10, 2, 3, 4, 25, 5, 6, 7, 8];

/// Two refusals of settings as one number: the first × 100 + the second.
fn pair(first: u8, second: u8) -> usize {
    100 * usize::from(first) + usize::from(second)
}

impl Met {
    fn hit(&mut self, group: &'static str, point: Point) {
        self.tally.hit(group, point);
    }

    /// The faults of a setup of which the head is there, each found by itself, over the whole stations that are there.
    fn see_refused(&mut self, setup: &[u8], place: Option<u8>, room: usize, number: u64) {
        self.hit(REFUSED, Numbered("number", number as usize));
        if setup.len() < HEAD {
            return self.hit(REFUSED, Said("fewer bytes than the head has"));
        }
        let count = usize::from(setup[0]);
        let field = |at: usize| u64::from(u32::from_be_bytes([setup[at], setup[at + 1], setup[at + 2], setup[at + 3]]));
        let (tick, ticks) = (field(1), field(5));
        let stations: Vec<&[u8]> = setup[HEAD..].chunks_exact(STATION).collect();
        let codes = stations.iter().any(|one| one[1] != stations[0][1]);
        let mut addresses: Vec<u8> = stations.iter().map(|one| one[0]).collect();
        addresses.sort_unstable();
        let equal = addresses.windows(2).any(|two| two[0] == two[1]);
        let faults: Vec<Vec<u8>> = stations.iter().map(|one| settings_of(one).faults()).collect();
        let bad_settings = faults.iter().any(|faults| !faults.is_empty());
        let bad_place = place.map_or(false, |place| usize::from(place) >= count);
        let need = match place {
            None => (ANSWER * count) as u64 * ticks,
            // more, where a record lists telegrams
            Some(_) => 17 + 15 * ticks,
        };
        let there = [
            !STATIONS.contains(&count),
            setup.len() != HEAD + STATION * count,
            !TICK.contains(&tick),
            ticks > MOST_TICKS,
            codes,
            equal,
            bad_settings,
            bad_place,
            (room as u64) < need,
        ];
        let mut faults_there = ORDER.iter().zip(there).filter(|(_, there)| *there).map(|(kind, _)| *kind);
        if let Some((_, decides)) = faults_there.next() {
            faults_there.for_each(|(over, _)| self.tally.hit(decides, Said(over)));
        }
        if number == 27 && equal && addresses.windows(2).any(|two| two[0] == two[1] && two[0] > 125) {
            self.hit(AS_GIVEN, Said("two addresses that are none"));
        }
        if number == 30 && stations.iter().any(|one| one[1] > 10) {
            self.hit(AS_GIVEN, Said("a baud code that is none"));
        }
        if number == 30
            && stations.windows(2).all(|two| two[0][1] == two[1][1] || two[1] == stations[stations.len() - 1])
        {
            self.hit(AS_GIVEN, Said("the last baud code alone differs"));
        }
        let side_by_side = stations.windows(2).any(|two| two[0][0] == two[1][0]);
        if number == 27 && !side_by_side {
            self.hit(AS_GIVEN, Said("equal addresses that are not given side by side"));
        }
        if number == 1 && addresses.contains(&0x82) {
            self.hit(AS_GIVEN, Said("82h as address"));
        }
        // it came to the settings
        if there[..6].iter().all(|there| !there) {
            for faults in &faults {
                for (i, first) in faults.iter().enumerate() {
                    for second in &faults[i + 1..] {
                        self.hit(TWO_SETTINGS, Numbered("the first × 100 + the second:", pair(*first, *second)));
                    }
                }
            }
            let bad: Vec<u8> = faults.iter().filter_map(|faults| faults.first().copied()).collect();
            if let [first, second, ..] = bad[..] {
                self.hit(TWO_STATIONS, Numbered("the first × 100 + the second:", pair(first, second)));
            }
        }
    }

    /// A run, all of it seen again.
    fn see_run(&mut self, bytes: &[u8], setup: &Setup) {
        let count = setup.stations.len();
        self.hit(ACCEPTED, Numbered("stations:", count));
        self.hit(CODE, Numbered("code", setup.stations[0].baud.into()));
        let given: Vec<u8> = bytes[HEAD..].chunks(STATION).map(|station| station[0]).collect();
        self.hit(GIVEN, Said(if given.windows(2).all(|two| two[0] < two[1]) { "rising" } else { "another" }));
        match setup.ticks {
            0 => self.hit(TICKS, Said("none")),
            1 => self.hit(TICKS, Said("one")),
            _ => self.hit(TICKS, Said("more")),
        }
        let mut before: Vec<(PollRecord, Answer)> = Vec::new();
        let mut polls: Vec<(u64, usize, PollRecord, Answer)> = Vec::new();
        let sent = setup.run(&mut |k, place, record, answer| polls.push((k, place, record.clone(), *answer)));
        for (_, place, record, answer) in polls {
            self.see_poll(before.get(place), &record, &answer);
            if before.len() == place {
                before.push((record, answer));
            } else {
                before[place] = (record, answer);
            }
        }
        self.see_bus(setup, &sent);
    }

    fn see_poll(&mut self, before: Option<&(PollRecord, Answer)>, record: &PollRecord, answer: &Answer) {
        let kept = before.map_or(0, |(record, answer)| record.telegrams.len() - usize::from(answer.consumed));
        let listed = record.telegrams.len();
        self.hit(LISTED, Numbered("telegrams:", listed));
        self.hit(KEPT, Numbered("telegrams:", kept));
        // what was kept may have been pushed out
        let arrived = before
            .map_or(false, |(before, answer)| record.telegrams != before.telegrams[usize::from(answer.consumed)..]);
        if arrived {
            self.hit(
                ARRIVED,
                Said(match kept {
                    0 => "alone",
                    MOST => "the oldest falls away",
                    _ => "behind others",
                }),
            );
        }
        match (record.transmitting, before.map_or(false, |(before, _)| before.transmitting), listed > 0) {
            (true, false, _) => self.hit(TRANSMITTING, Said("at the tick after the start")),
            (true, true, _) => self.hit(TRANSMITTING, Said("at a later tick")),
            (false, _, _) => self.hit(TRANSMITTING, Said("no")),
        }
        if record.transmitting && listed > 0 {
            self.hit(TRANSMITTING, Said("while telegrams wait"));
        }
        let named = match answer.sent {
            Sent::Nothing => Said("nothing"),
            Sent::Token { .. } => match before {
                Some((_, before)) if answer.next_station == 127 && before.next_station != 127 => {
                    Said("token, alone again")
                }
                _ if answer.next_station == 127 => Said("token, alone"),
                _ => Said("token, with others"),
            },
            Sent::StatusRequest { .. } => Said("status request"),
            Sent::StatusResponse { response_type, .. } => Numbered("status response, type", response_type.into()),
            Sent::Application { .. } => Said("application"),
        };
        self.hit(SENT, named);
        self.hit(STATE, Numbered("state", answer.state.into()));
        self.hit(OUTCOME, Numbered("outcome", answer.outcome.into()));
    }

    fn see_bus(&mut self, setup: &Setup, sent: &[Transmission]) {
        let last = setup.tick * setup.ticks.saturating_sub(1);
        for (i, one) in sent.iter().enumerate() {
            let lost = one.lost(sent);
            let due = (one.end + setup.tick - 1) / setup.tick * setup.tick;
            let fate = match (lost, due > last) {
                (true, _) => "lost",
                (false, true) => "the run ends before it is due",
                (false, false) if due == one.end => "delivered at its end",
                (false, false) if due == one.start + setup.tick => "delivered at the tick after, its end between",
                (false, false) => "delivered at a later tick, its end between",
            };
            self.hit(FATE, Said(fate));
            for other in &sent[i + 1..] {
                if other.start > one.end {
                    break;
                }
                let words = if other.start == one.end {
                    "one starts at the other's end"
                } else if other.start == one.start {
                    "of the same tick"
                } else {
                    "one starts within the other"
                };
                self.hit(MEETING, Said(words));
                let spoiled = sent[..i].iter().rev().take(8).any(|first| first.meets(one) && !first.meets(other));
                if one.meets(other) && spoiled {
                    self.hit(MEETING, Said("a lost one spoils a third"));
                }
            }
        }
    }

    fn see_room(&mut self, made: &Made, needed: u64) {
        let (number, room) = (made.returned % 256, made.buffer.len() as u64);
        match number {
            0 if room == needed => self.hit(ROOM, Said("just enough")),
            0 => self.hit(ROOM, Said("more than is needed")),
            _ if room == 0 => self.hit(ROOM, Said("none")),
            _ if room + 1 == needed => self.hit(ROOM, Said("a byte less than is needed")),
            _ => self.hit(ROOM, Said("too little")),
        }
    }
}

/// A station's settings as they stand in a setup.
fn settings_of(bytes: &[u8]) -> Header {
    Header {
        address: bytes[0],
        baud: bytes[1],
        slot: u16::from_be_bytes([bytes[2], bytes[3]]),
        rotation: u32::from_be_bytes([bytes[4], bytes[5], bytes[6], bytes[7]]),
        gap: bytes[8],
        hsa: bytes[9],
        retry: bytes[10],
        min_tsdr: bytes[11],
        applications: 1,
        factors: (bytes[12], bytes[13]),
        zero: 0,
    }
}

/// Whether a station can have both refusals, the first before the second: a slot has no least without a baud code.
fn in_one_station(first: u8, second: u8) -> bool {
    let place = |number: u8| SETTINGS.iter().position(|other| *other == number);
    place(first) < place(second) && (first, second) != (10, 2)
}

/// Whether the first refusal of one station and that of a later one can be these: all have one baud code, so that with 10 each has
/// 10 or an address above 125 before it.
fn in_two_stations(first: u8, second: u8) -> bool {
    let before = |number: u8| number == 1 || number == 10;
    if first == 10 || second == 10 {
        before(first) && before(second)
    } else {
        true
    }
}

impl Meets<Try> for Met {
    fn see(&mut self, one: &Try, made: &Made) {
        let (setup, place) = match one {
            Try::Simulate(setup, _) => (setup, None),
            Try::Trace(setup, place, _) => (setup, Some(*place)),
        };
        self.hit(CALL, Said(if place.is_some() { "simulated_trace" } else { "simulate" }));
        let number = made.returned % 256;
        if number != 0 {
            self.see_refused(setup, place, made.buffer.len(), number);
        }
        let read = match Setup::read(setup) {
            Ok(read) => read,
            Err(_) => return,
        };
        match place {
            None => {
                self.see_room(made, ANSWER as u64 * read.stations.len() as u64 * read.ticks);
                if number == 0 {
                    self.see_run(setup, &read);
                }
            }
            // how long a trace is that had no room is not known
            Some(_) if number == 0 => self.see_room(made, made.returned / 256),
            Some(_) => (),
        }
    }

    fn points(&self) -> Points {
        let mut points = Points::default();
        let numbered = |words: &'static str, range: std::ops::RangeInclusive<usize>| {
            range.map(move |number| Numbered(words, number))
        };
        points.group(CALL, ["simulate", "simulated_trace"]);
        let numbers =
            [17, 29, 28, 35, 30, 27, 1, 10, 2, 3, 4, 25, 5, 6, 7, 8, 18].map(|number| Numbered("number", number));
        points.group(REFUSED, numbers.into_iter().chain([Said("fewer bytes than the head has")]));
        for (i, (_, decides)) in ORDER[..8].iter().enumerate() {
            points.group(decides, ORDER[i + 1..].iter().map(|(over, _)| *over));
        }
        let pairs = |can: fn(u8, u8) -> bool| {
            let all = SETTINGS.into_iter().flat_map(|first| SETTINGS.map(|second| (first, second)));
            all.filter(move |(first, second)| can(*first, *second))
                .map(|(first, second)| Numbered("the first × 100 + the second:", pair(first, second)))
        };
        points.group(TWO_SETTINGS, pairs(in_one_station));
        points.group(TWO_STATIONS, pairs(in_two_stations));
        let as_given = [
            "two addresses that are none",
            "a baud code that is none",
            "82h as address",
            "the last baud code alone differs",
            "equal addresses that are not given side by side",
        ];
        points.group(AS_GIVEN, as_given);
        points.group(ACCEPTED, numbered("stations:", STATIONS));
        points.group(CODE, numbered("code", 0..=10));
        points.group(GIVEN, ["rising", "another"]);
        points.group(TICKS, ["none", "one", "more"]);
        points.group(LISTED, numbered("telegrams:", 0..=MOST));
        points.group(KEPT, numbered("telegrams:", 0..=MOST));
        points.group(ARRIVED, ["alone", "behind others", "the oldest falls away"]);
        let transmitting = ["no", "at the tick after the start", "at a later tick", "while telegrams wait"];
        points.group(TRANSMITTING, transmitting);
        let tokens = ["nothing", "token, alone", "token, alone again", "token, with others", "status request"];
        points.group(SENT, tokens.into_iter().map(Said).chain(numbered("status response, type", 1..=3)));
        let fates = [
            "lost",
            "the run ends before it is due",
            "delivered at its end",
            "delivered at the tick after, its end between",
            "delivered at a later tick, its end between",
        ];
        points.group(FATE, fates);
        let meetings = [
            "one starts at the other's end",
            "of the same tick",
            "one starts within the other",
            "a lost one spoils a third",
        ];
        points.group(MEETING, meetings);
        // no application sends, and no station goes offline: none is given its own telegram
        let states = [
            state::LISTEN_TOKEN,
            state::ACTIVE_IDLE,
            state::USE_TOKEN,
            state::CLAIM_TOKEN,
            state::PASS_TOKEN,
            state::CHECK_TOKEN_PASS,
            state::AWAIT_STATUS_RESPONSE,
        ];
        points.group(STATE, states.map(|number| Numbered("state", number.into())));
        points.group(OUTCOME, numbered("outcome", 2..=4));
        let rooms = ["just enough", "more than is needed", "none", "a byte less than is needed", "too little"];
        points.group(ROOM, rooms);
        self.tally.count_in(&mut points);
        points
    }
}
