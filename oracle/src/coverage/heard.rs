//! Who was heard: which addresses are asked with how much room, and the cases that have to be met.

use super::points::Points;
use crate::heard::{asked, summarize, Heard, Summary, ENTRY};
use crate::records::{state::*, Answer, PollRecord, Sent, Telegram, LAST_CLOCK};
use crate::ring::LAST;
use crate::trace::{replay_trace, Trace};

/// Addresses above the last one.
const ABOVE: [u8; 5] = [126, 127, 128, 130, 255];

/// Rooms that are too small.
const SMALL: [usize; 3] = [0, 1, ENTRY - 1];

/// What is asked of each trace: every address with just enough room or some bytes more, those above with room and without, and
/// the first and the last address with too little.
pub fn questions() -> Vec<(u8, usize)> {
    let mut questions: Vec<(u8, usize)> =
        (0..=LAST).map(|address| (address, ENTRY + usize::from(address % 3))).collect();
    questions.extend(ABOVE.iter().flat_map(|address| [(*address, ENTRY), (*address, 0)]));
    questions.extend(SMALL.iter().flat_map(|room| [(0, *room), (LAST, *room)]));
    questions
}

/// The numbers of a refused header, in their order.
const REFUSED: [u8; 13] = [17, 1, 10, 2, 3, 4, 25, 5, 6, 7, 11, 8, 14];

/// How a trace that was run ends.
const ENDINGS: [&str; 4] = ["0", "0, no entry", "17 in an entry", "entries without room for their answers"];

/// What is heard, and what is not.
const CASES: [&str; 35] = [
    "first time",
    "again",
    "three times and more in one poll",
    "a token",
    "a request",
    "a status request",
    "a response to us",
    "a response to another",
    "our own address",
    "address 0",
    "address 125",
    "clock 0 is first",
    "clock 2^48 - 1 is last",
    "last is below first",
    "last goes back and stays above first",
    "a type of status Ok",
    "a type of another status",
    "a token leaves the type",
    "a request leaves the type",
    "a response after tokens or requests alone",
    "a type again after going offline",
    "again after offline by command",
    "again after a second collision",
    "behind a second collision in its poll",
    "the second collision itself",
    "in CheckTokenPass",
    "skipped: a short confirmation",
    "skipped: 126",
    "skipped: 127",
    "not consumed: a transmission goes on",
    "not consumed: offline",
    "not consumed: behind the first where a reply is awaited",
    "not consumed: a request waits",
    "not consumed: the token is claimed or passed",
    "not consumed: the token is held",
];

pub fn name_points(points: &mut Points) {
    let each = |address| [format!("{} heard", address), format!("{} never heard", address)];
    points.group("asked for", (0..=LAST).flat_map(each));
    let mut refused: Vec<String> = SMALL.iter().map(|room| format!("18, room for {}", room)).collect();
    for address in ABOVE {
        refused.extend([format!("26, {}", address), format!("26, {}, no room", address)]);
    }
    for number in REFUSED {
        refused.extend([format!("{}", number), format!("{}, no room", number), format!("26 before {}", number)]);
    }
    points.group("asked for and refused", refused);
    points.group("asked for, ending", ENDINGS);
    let types = (0..4).flat_map(|kind| [format!("{}", kind), format!("{} after another", kind)]);
    points.group("station type heard", types);
    points.group("who is heard", CASES);
}

/// Counts the questions that are asked of this trace; gives how many calls they are.
pub fn see(points: &mut Points, trace: &Trace) -> u64 {
    let bytes = trace.bytes();
    let run = summarize(&bytes);
    let questions = questions();
    for (address, room) in &questions {
        let number = asked(&run, *address, &mut vec![trace.fill; *room]) % 256;
        let no_room = if *room < ENTRY { ", no room" } else { "" };
        match (&run, number) {
            (_, 26) => {
                points.hit("asked for and refused", format_args!("26, {}{}", address, no_room));
                if let Err(header) = run {
                    points.hit("asked for and refused", format_args!("26 before {}", header));
                }
            }
            (Err(_), _) => points.hit("asked for and refused", format_args!("{}{}", number, no_room)),
            (Ok(_), 18) => points.hit("asked for and refused", format_args!("18, room for {}", room)),
            (Ok(made), _) => {
                let said = made.summary.entry(*address).map_or("never heard", |_| "heard");
                points.hit("asked for", format_args!("{} {}", address, said));
            }
        }
    }
    if let Ok(made) = run {
        let ending = usize::from(made.entries == 0) + 2 * usize::from(made.ending == 17);
        points.hit("asked for, ending", ENDINGS[ending.min(2)]);
        if replay_trace(&bytes, &mut vec![0; trace.room]) / 256 < made.entries {
            points.hit("asked for, ending", ENDINGS[3]);
        }
    }
    questions.len() as u64
}

/// How the station went offline.
const BY: [&str; 2] = ["again after offline by command", "again after a second collision"];

/// A trace as it is heard, entry by entry.
#[derive(Default)]
pub struct Hearing {
    summary: Summary,
    /// What was known when the station last went offline, and how it did.
    offline: Option<(Summary, &'static str)>,
}

impl Hearing {
    /// The station was taken offline.
    pub fn offline(&mut self) {
        self.offline = Some((self.summary.clone(), BY[0]));
    }

    /// An accepted poll: the station's own address and its state before it.
    pub fn see(&mut self, points: &mut Points, own: u8, was: u8, record: &PollRecord, answer: &Answer) {
        let (taken, left) = record.telegrams.split_at(usize::from(answer.consumed));
        let collided = !taken.is_empty() && answer.state == OFFLINE;
        let known = self.summary.clone();
        for (i, telegram) in taken.iter().enumerate() {
            let mut cases = self.cases(own, record.clock, telegram);
            let source = telegram.source();
            let same = |other: &&Telegram| other.source() == source;
            let heard = source.map_or(false, |source| source <= LAST);
            let mut when = |condition: bool, case: &'static str| cases.extend((heard && condition).then_some(case));
            when(taken[..=i].iter().filter(same).count() == 3, "three times and more in one poll");
            when(was == CHECK_TOKEN_PASS, "in CheckTokenPass");
            when(collided && source == Some(own) && i + 1 == taken.len(), "the second collision itself");
            let by_own = taken[..i].iter().filter(|other| other.source() == Some(own)).count();
            when(collided && by_own == 2, "behind a second collision in its poll");
            if let (Some((gone, how)), Some(source)) = (&self.offline, source.filter(|_| heard)) {
                let kept = gone.entry(source);
                when(kept.is_some() && known.entry(source) == kept, how);
                let typed = kept.map_or(false, |kept| kept.station_type.is_some());
                let response = matches!(telegram, Telegram::Response { .. });
                when(response && typed, "a type again after going offline");
            }
            cases.iter().for_each(|case| points.hit("who is heard", case));
            see_type(points, telegram, source.filter(|_| heard).and_then(|source| self.summary.entry(source)));
            self.summary.telegram(record.clock, telegram);
        }
        if !left.is_empty() {
            points.hit("who is heard", not_consumed(was, answer));
        }
        if collided {
            self.offline = Some((self.summary.clone(), BY[1]));
        }
    }

    /// The cases of one telegram that is consumed, before it is heard.
    fn cases(&self, own: u8, clock: u64, telegram: &Telegram) -> Vec<&'static str> {
        let source = match telegram.source() {
            None => return vec!["skipped: a short confirmation"],
            Some(126) => return vec!["skipped: 126"],
            Some(127) => return vec!["skipped: 127"],
            Some(source) => source,
        };
        let before = self.summary.entry(source);
        let Heard { first, last, station_type, .. } =
            before.unwrap_or(Heard { times: 0, first: clock, last: clock, station_type: None });
        let (again, typed) = (before.is_some(), station_type.is_some());
        let mut met = vec![if again { "again" } else { "first time" }];
        let mut when = |condition: bool, case: &'static str| met.extend(condition.then_some(case));
        when(source == own, "our own address");
        when(source == 0, "address 0");
        when(source == LAST, "address 125");
        when(!again && clock == 0, "clock 0 is first");
        when(clock == LAST_CLOCK, "clock 2^48 - 1 is last");
        when(clock < first, "last is below first");
        when(first < clock && clock < last, "last goes back and stays above first");
        match *telegram {
            Telegram::ShortConfirmation => {}
            Telegram::Token { .. } => {
                when(true, "a token");
                when(typed, "a token leaves the type");
            }
            Telegram::Request { status_request, .. } => {
                when(true, if status_request { "a status request" } else { "a request" });
                when(typed, "a request leaves the type");
            }
            Telegram::Response { destination, status, .. } => {
                when(true, if destination == own { "a response to us" } else { "a response to another" });
                when(true, if status == 0 { "a type of status Ok" } else { "a type of another status" });
                when(again && !typed, "a response after tokens or requests alone");
            }
        }
        met
    }
}

/// The type of a response, and whether another one stood there.
fn see_type(points: &mut Points, telegram: &Telegram, before: Option<Heard>) {
    if let (Telegram::Response { station_type, .. }, true) = (*telegram, telegram.source().map_or(false, |s| s <= LAST))
    {
        points.hit("station type heard", station_type);
        if before.and_then(|heard| heard.station_type).map_or(false, |old| old != station_type) {
            points.hit("station type heard", format_args!("{} after another", station_type));
        }
    }
}

/// Why telegrams of a poll were not consumed.
fn not_consumed(was: u8, answer: &Answer) -> &'static str {
    match (was, answer.outcome, answer.sent) {
        (_, 1, _) => "not consumed: offline",
        (_, 2, Sent::Nothing) => "not consumed: a transmission goes on",
        (AWAIT_DATA_RESPONSE | AWAIT_STATUS_RESPONSE, ..) => "not consumed: behind the first where a reply is awaited",
        (_, _, Sent::Token { .. }) => "not consumed: the token is claimed or passed",
        (LISTEN_TOKEN | ACTIVE_IDLE | PASSIVE_IDLE, ..) => "not consumed: a request waits",
        _ => "not consumed: the token is held",
    }
}
