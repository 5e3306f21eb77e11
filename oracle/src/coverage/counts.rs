//! The life counters: with how much room they are asked for, and the cases that have to be met. Each poll's events are also
//! held to the lines that the published text logs, and to the ring.

use super::points::Points;
use super::poll::Poll;
use crate::counts::{asked, count, events, Counts, Looks, COUNTS};
use crate::records::{state::*, Sent, Telegram};
use crate::trace::{Trace, ANSWER};

/// The rooms that are asked with: too small ones, just enough, more.
pub const ROOMS: [usize; 5] = [0, 1, COUNTS - 1, COUNTS, COUNTS + 3];

/// The numbers of a refused header, in their order.
const REFUSED: [u8; 13] = [17, 1, 10, 2, 3, 4, 25, 5, 6, 7, 11, 8, 14];

/// How a trace that was run ends.
const ENDINGS: [&str; 4] = ["0", "0, no entry", "17 in an entry", "entries without room for their answers"];

/// The counts by their names, and what they come to in a trace.
const NAMES: [&str; 3] = ["claims", "removals", "meetings"];
const AT_THE_END: [&str; 4] = ["0", "1", "2", "3 and more"];

/// How a station goes offline.
const BY: [&str; 2] = ["offline by command", "offline by collision"];

const GROUP: &str = "life counted";
const NOT: &str = "life not counted";
const AT_ONCE: &str = "life events in one poll";
const KEPT: &str = "life kept";

/// What is counted.
const COUNTED: [&str; 21] = [
    "claim in the poll that starts listening",
    "claim in the poll that leaves PassiveIdle",
    "claim from ListenToken",
    "claim from ActiveIdle",
    "removal, another is next",
    "removal, alone now",
    "first meeting in the poll that starts listening",
    "second meeting in the poll that starts listening",
    "second meeting in the poll that leaves PassiveIdle",
    "first meeting in ListenToken",
    "second meeting in ListenToken",
    "meeting in ListenToken by a token",
    "meeting in ListenToken by a request",
    "meeting in ListenToken by a response",
    "meeting in ListenToken by a token to us",
    "first meeting in ActiveIdle",
    "second meeting in ActiveIdle",
    "meeting in ActiveIdle by a token to us",
    "first meeting in CheckTokenPass",
    "second meeting in CheckTokenPass",
    "meeting in CheckTokenPass by its first telegram",
];

/// What is not.
const NOT_COUNTED: [&str; 20] = [
    "the second claiming token",
    "the pause between the claiming tokens",
    "the first token again",
    "the second token again",
    "the third token, and the slot is not over",
    "the third token, and somebody is heard",
    "a token witnessed in ListenToken takes out others",
    "a token witnessed in ActiveIdle takes out others",
    "a token witnessed in CheckTokenPass takes out others",
    "a token witnessed in PassiveIdle takes out others",
    "behind the second meeting in ListenToken",
    "behind the second meeting in ActiveIdle",
    "behind the second meeting in CheckTokenPass",
    "no token in ActiveIdle",
    "no token in CheckTokenPass",
    "while a reply is awaited",
    "while a gap's reply is awaited",
    "in PassiveIdle",
    "not consumed",
    "offline",
];

/// The states that meet our own address, as they are named above.
fn meets(state: u8) -> Option<&'static str> {
    match state {
        OFFLINE => Some("the poll that starts listening"),
        LISTEN_TOKEN => Some("ListenToken"),
        ACTIVE_IDLE => Some("ActiveIdle"),
        CHECK_TOKEN_PASS => Some("CheckTokenPass"),
        _ => None,
    }
}

/// The state of a station before a poll: Offline where the poll starts listening.
fn before(poll: &Poll) -> u8 {
    match poll.handled_in() {
        LISTEN_TOKEN if poll.was.state != LISTEN_TOKEN => OFFLINE,
        state => state,
    }
}

pub fn name_points(points: &mut Points) {
    points.group(GROUP, COUNTED);
    points.group(NOT, NOT_COUNTED);
    let several = [("the poll that starts listening", 2), ("ListenToken", 2), ("ActiveIdle", 3), ("CheckTokenPass", 3)];
    points
        .group(AT_ONCE, several.iter().flat_map(|(state, most)| (2..=*most).map(move |n| format!("{}: {}", state, n))));
    let kept = |name: &str| BY.map(|how| [format!("{} over {}", name, how), format!("{} after {}", name, how)]);
    points.group(KEPT, NAMES.iter().flat_map(|name| kept(name).concat()));
    let ends = NAMES.iter().flat_map(|name| AT_THE_END.map(|count| format!("{} {}", name, count)));
    points.group("counts at the end", ends);
    let mut refused: Vec<String> = ROOMS[..3].iter().map(|room| format!("18, room for {}", room)).collect();
    refused.extend(REFUSED.iter().flat_map(|number| [format!("{}", number), format!("{}, no room", number)]));
    points.group("counts asked for and refused", refused);
    points.group("counts asked for, ending", ENDINGS);
}

/// Counts the questions that are asked of this trace; gives how many calls they are.
pub fn see(points: &mut Points, trace: &Trace) -> u64 {
    let bytes = trace.bytes();
    let run = count(&bytes);
    for room in ROOMS {
        let number = asked(&run, &mut vec![trace.fill; room]) % 256;
        let refused = "counts asked for and refused";
        match run {
            Err(_) if room == 0 => points.hit(refused, format_args!("{}, no room", number)),
            Err(_) if room >= COUNTS => points.hit(refused, number),
            Ok(_) if room < COUNTS => points.hit(refused, format_args!("{}, room for {}", number, room)),
            _ => {}
        }
    }
    if let Ok(made) = run {
        let ending = usize::from(made.entries == 0) + 2 * usize::from(made.ending == 17);
        points.hit("counts asked for, ending", ENDINGS[ending.min(2)]);
        if ((trace.room / ANSWER) as u64) < made.entries {
            points.hit("counts asked for, ending", ENDINGS[3]);
        }
        for (name, count) in named(made.counts) {
            let count = AT_THE_END[count.min(3) as usize];
            points.hit("counts at the end", format_args!("{} {}", name, count));
        }
    }
    ROOMS.len() as u64
}

/// Each count by its name.
fn named(counts: Counts) -> [(&'static str, u32); 3] {
    [(NAMES[0], counts.claims), (NAMES[1], counts.removals), (NAMES[2], counts.meetings)]
}

/// A trace as its life is counted, poll by poll.
#[derive(Default)]
pub struct Living {
    counts: Counts,
    /// What was counted when the station last went offline, and how it did.
    offline: Option<(Counts, &'static str)>,
}

impl Living {
    /// The station was taken offline.
    pub fn offline(&mut self) {
        self.offline = Some((self.counts, BY[0]));
    }

    /// An accepted poll, and how many lines of each sort the published text said in it.
    pub fn see(&mut self, points: &mut Points, poll: &Poll, said: [u32; 3]) {
        let (was, is) = (&poll.was, &poll.is);
        let met = events(poll.own, was, &poll.record, &poll.answer, is);
        if [met.claims, met.removals, met.meetings] != said {
            points.hit(GROUP, format_args!("{:?}, but the published text said {:?}", met, said));
        }
        let sends = matches!(poll.answer.sent, Sent::Token { .. });
        if (met.removals == 1) != (sends && poll.size_after < poll.size) {
            points.hit(
                GROUP,
                format_args!("{} removals, but the ring had {} and has {}", met.removals, poll.size, poll.size_after),
            );
        }
        see_claims(points, poll, met);
        see_removals(points, poll, met);
        see_meetings(points, poll, met);
        let before = self.counts;
        self.counts.add(met);
        if let Some((gone, how)) = self.offline {
            let each = named(gone).into_iter().zip(named(before)).zip(named(self.counts));
            for (((name, gone), (_, before)), (_, now)) in each.filter(|(((_, gone), _), _)| *gone > 0) {
                if was.state == OFFLINE && is.state != OFFLINE {
                    points.hit(KEPT, format_args!("{} over {}", name, how));
                }
                if before == gone && now > gone {
                    points.hit(KEPT, format_args!("{} after {}", name, how));
                }
            }
        }
        if is.state == OFFLINE && poll.answer.consumed > 0 {
            self.offline = Some((self.counts, BY[1]));
        }
    }
}

fn see_claims(points: &mut Points, poll: &Poll, met: Counts) {
    let sends = matches!(poll.answer.sent, Sent::Token { .. });
    if met.claims == 1 && poll.was.state == PASSIVE_IDLE {
        points.hit(GROUP, "claim in the poll that leaves PassiveIdle");
    }
    match before(poll) {
        OFFLINE if met.claims == 1 => points.hit(GROUP, "claim in the poll that starts listening"),
        LISTEN_TOKEN if met.claims == 1 => points.hit(GROUP, "claim from ListenToken"),
        ACTIVE_IDLE if met.claims == 1 => points.hit(GROUP, "claim from ActiveIdle"),
        CLAIM_TOKEN if sends => points.hit(NOT, "the second claiming token"),
        CLAIM_TOKEN => points.hit(NOT, "the pause between the claiming tokens"),
        _ => {}
    }
}

fn see_removals(points: &mut Points, poll: &Poll, met: Counts) {
    let sends = matches!(poll.answer.sent, Sent::Token { .. });
    let heard = poll.answer.consumed > 0;
    let alone = poll.size_after == 1;
    if poll.was.state == CHECK_TOKEN_PASS {
        match (poll.was.attempt, sends) {
            (1, true) => points.hit(NOT, "the first token again"),
            (2, true) => points.hit(NOT, "the second token again"),
            (3, false) if heard => points.hit(NOT, "the third token, and somebody is heard"),
            (3, false) => points.hit(NOT, "the third token, and the slot is not over"),
            _ => {}
        }
    }
    if met.removals == 1 {
        points.hit(GROUP, if alone { "removal, alone now" } else { "removal, another is next" });
    } else if poll.size_after < poll.size && poll.is.state != OFFLINE {
        let state = match poll.handled_in() {
            PASSIVE_IDLE => "PassiveIdle",
            state => meets(state).unwrap_or("another state"),
        };
        points.hit(NOT, format_args!("a token witnessed in {} takes out others", state));
    }
}

fn see_meetings(points: &mut Points, poll: &Poll, met: Counts) {
    let (taken, left) = poll.record.telegrams.split_at(usize::from(poll.answer.consumed));
    let by_us = |telegram: &&Telegram| telegram.source() == Some(poll.own);
    if left.iter().any(|telegram| by_us(&telegram)) {
        points.hit(NOT, if poll.was.offline() { "offline" } else { "not consumed" });
    }
    let looks = Looks::of(&poll.was);
    if looks == Looks::Nowhere && taken.iter().any(|telegram| by_us(&telegram)) {
        match poll.handled_in() {
            PASSIVE_IDLE => points.hit(NOT, "in PassiveIdle"),
            AWAIT_DATA_RESPONSE => points.hit(NOT, "while a reply is awaited"),
            AWAIT_STATUS_RESPONSE => points.hit(NOT, "while a gap's reply is awaited"),
            state => points.hit(NOT, format_args!("in state {}", state)),
        }
    }
    let state = match meets(before(poll)) {
        Some(state) if looks != Looks::Nowhere => state,
        _ => return,
    };
    if met.meetings > 1 {
        // four can be heard, but seldom
        points.hit(AT_ONCE, format_args!("{}: {}", state, met.meetings.min(3)));
    }
    let active = looks == Looks::Idle;
    let listens = meets(poll.handled_in()).unwrap_or(state);
    let mut counted = 0;
    let mut in_a_row = poll.was.collision_count;
    for (place, telegram) in taken.iter().enumerate() {
        let token = match *telegram {
            Telegram::Token { destination, .. } => Some(destination),
            _ => None,
        };
        if !by_us(&telegram) {
            if active && token.is_some() && in_a_row < 2 {
                in_a_row = 0;
            }
            continue;
        }
        if in_a_row == 2 {
            points.hit(NOT, format_args!("behind the second meeting in {}", listens));
            continue;
        }
        if active && token.is_none() {
            points.hit(NOT, format_args!("no token in {}", state));
            continue;
        }
        counted += 1;
        in_a_row += 1;
        let which = if in_a_row == 1 { "first" } else { "second" };
        points.hit(GROUP, format_args!("{} meeting in {}", which, state));
        if poll.was.state == PASSIVE_IDLE && in_a_row == 2 {
            points.hit(GROUP, "second meeting in the poll that leaves PassiveIdle");
        }
        match (before(poll), token) {
            (CHECK_TOKEN_PASS, _) if place == 0 => points.hit(GROUP, "meeting in CheckTokenPass by its first telegram"),
            (ACTIVE_IDLE, Some(to)) if to == poll.own => points.hit(GROUP, "meeting in ActiveIdle by a token to us"),
            (OFFLINE | LISTEN_TOKEN, Some(to)) => {
                points.hit(GROUP, "meeting in ListenToken by a token");
                if to == poll.own {
                    points.hit(GROUP, "meeting in ListenToken by a token to us");
                }
            }
            (OFFLINE | LISTEN_TOKEN, None) => {
                let kind = if matches!(telegram, Telegram::Response { .. }) { "response" } else { "request" };
                points.hit(GROUP, format_args!("meeting in ListenToken by a {}", kind));
            }
            _ => {}
        }
    }
    if counted != met.meetings {
        points.hit(GROUP, format_args!("{} meetings in {}, but {} were seen", met.meetings, state, counted));
    }
}
