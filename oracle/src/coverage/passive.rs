//! The passive station (document 02, P10): the cases that have to be met, those of its readings among them.

use super::events::is_request_to;
use super::met::OfStates;
use super::points::Points;
use super::poll::Poll;
use crate::fdl::Watched;
use crate::records::{state::*, Answer, Sent, Telegram};
use crate::trace::Entry;

/// For each state, the states in which a poll can leave it where the station is passive: "Offline, ListenToken and ActiveIdle
/// become PassiveIdle at the next poll; the other states go on until they reach one of these".
pub const REACHED: OfStates =
    [&[9], &[9], &[9], &[3, 5, 6], &[3, 4], &[2, 3, 5, 6], &[3, 6, 7, 8], &[1, 2, 3, 7], &[2, 3, 6, 7, 8], &[9]];

/// The outcomes.
pub const OUTCOMES_OF: OfStates =
    [&[2, 3, 4], &[2, 3, 4], &[2, 3, 4], &[2, 4], &[2, 4], &[2, 3, 4], &[2, 4], &[2, 3, 4], &[2, 3, 4], &[2, 3, 4]];

/// What is sent: a station that has become passive answers and sends nothing else.
pub const SENT_OF: OfStates = [&[0], &[0], &[0], &[0, 4], &[0, 1], &[0, 4], &[0, 1, 2], &[0, 1], &[0, 1], &[0, 3]];

const CASES: [&str; 51] = [
    // the move
    "moved from Offline while a transmission goes on",
    "moved from ListenToken while a transmission goes on",
    "moved from ActiveIdle while a transmission goes on",
    "a refused record does not move Offline",
    "a refused record does not move ListenToken",
    "a refused record does not move ActiveIdle",
    "and online with no poll between, in Offline",
    "and online with no poll between, in ListenToken",
    "and online with no poll between, in ActiveIdle",
    "and online with no poll between, in another state",
    "and online with no poll between, a request of ListenToken is answered",
    "and online with no poll between, a request of ActiveIdle is answered",
    "again before the move",
    "online and passive again with no poll between, in PassiveIdle",
    "online and passive again with no poll between, a request of PassiveIdle is answered",
    "after a second collision, activity known",
    "ListenToken left where the token was lost",
    "ActiveIdle left where the token was lost",
    // what is forgotten and what is kept
    "forgets a request of ListenToken",
    "forgets a request of ActiveIdle",
    "forgets a collision of ListenToken",
    "forgets a collision of ActiveIdle",
    "forgets the remembered station",
    "keeps a ready ring",
    "keeps a lap, not ready",
    "keeps pending bytes",
    "keeps a gap walk",
    "keeps the next application",
    // PassiveIdle: quiet
    "quiet, activity unknown: unknown still",
    "quiet, activity unknown: a second poll at the same clock is no transmission",
    "quiet, activity unknown: online the lost-token time later does not claim",
    "pending bytes make an unknown activity known",
    // PassiveIdle: our own address
    "own token not witnessed",
    "own status request to us, last, not noted",
    "own response",
    "three telegrams of our own in one poll",
    // PassiveIdle: requests
    "request noted",
    "request that is not last is not noted",
    "request to another is not noted",
    "request of 126 answered",
    "request of 127 answered",
    "answered, ready",
    "answered, not ready",
    "pause of a request unfinished",
    "telegrams are gone while a request waits for its pause",
    "telegrams are gone in the poll that answers",
    "eight telegrams in one poll",
    // the states that go on
    "alone, passes the token to itself",
    "CheckTokenPass is given the token again",
    "reached within a poll, ListenToken or ActiveIdle is shown, then PassiveIdle",
    "online again claims at once, others in the ring",
];

pub fn name_points(points: &mut Points) {
    points.group("passive", CASES);
}

/// What is remembered of a trace from entry to entry.
#[derive(Default)]
pub struct Passive {
    /// The station before the first passive since the last accepted poll.
    told: Option<Watched>,
    /// PassiveIdle before the first online since the last accepted poll.
    away: Option<Watched>,
    /// Both commands came with no poll between: the state, and the request that was noted before.
    kept: Option<(u8, u8)>,
    /// The clock of the last poll, where PassiveIdle was quiet in it and knows of no activity.
    quiet: Option<u64>,
    /// The last poll went on in another state and reached ListenToken or ActiveIdle.
    reached: bool,
}

impl Passive {
    /// A command, or a record that is refused.
    pub fn see_entry(&mut self, points: &mut Points, entry: Entry, was: &Watched, answer: &Answer) {
        let mut hit = |case: &str| points.hit("passive", case);
        match entry {
            Entry::Poll(_) if answer.refusal == 0 => {}
            Entry::Poll(_) if was.passive => match was.state {
                OFFLINE => hit("a refused record does not move Offline"),
                LISTEN_TOKEN => hit("a refused record does not move ListenToken"),
                ACTIVE_IDLE => hit("a refused record does not move ActiveIdle"),
                _ => {}
            },
            Entry::Poll(_) => {}
            Entry::Passive => {
                if was.passive && was.state <= ACTIVE_IDLE {
                    hit("again before the move");
                }
                if !was.passive {
                    self.told = Some(*was);
                    self.kept = None;
                }
                if let Some(before) = self.away.take() {
                    hit("online and passive again with no poll between, in PassiveIdle");
                    self.kept = before.status_request.map(|source| (PASSIVE_IDLE, source));
                }
            }
            Entry::Online => {
                if was.passive && was.state == PASSIVE_IDLE {
                    self.away = Some(*was);
                }
                if let Some(before) = self.told.take() {
                    hit(match before.state {
                        OFFLINE => "and online with no poll between, in Offline",
                        LISTEN_TOKEN => "and online with no poll between, in ListenToken",
                        ACTIVE_IDLE => "and online with no poll between, in ActiveIdle",
                        _ => "and online with no poll between, in another state",
                    });
                    self.kept = before.status_request.map(|source| (before.state, source));
                }
            }
            Entry::Offline => *self = Passive::default(),
        }
    }

    /// An accepted poll.
    pub fn see_poll(&mut self, points: &mut Points, poll: &Poll) {
        let mut met = Vec::new();
        let (was, is, answer) = (&poll.was, &poll.is, &poll.answer);
        let mut when = |condition: bool, case: &'static str| met.extend(condition.then_some(case));
        let ongoing = answer.outcome == 2 && answer.sent == Sent::Nothing;
        let answered = match answer.sent {
            Sent::StatusResponse { destination, .. } => Some(destination),
            _ => None,
        };
        let before = self.kept.take();
        let kept = |state| before.map_or(false, |kept| kept.0 == state && answered == Some(kept.1));
        when(kept(LISTEN_TOKEN), "and online with no poll between, a request of ListenToken is answered");
        when(kept(ACTIVE_IDLE), "and online with no poll between, a request of ActiveIdle is answered");
        when(kept(PASSIVE_IDLE), "online and passive again with no poll between, a request of PassiveIdle is answered");
        let reached = std::mem::take(&mut self.reached);
        let quiet = self.quiet.take();
        let since_quiet = quiet.map(|clock| poll.record.clock as i64 - clock as i64);
        (self.told, self.away) = (None, None);
        let lost = poll.parameters.token_lost_timeout().total_micros() as i64;
        if was.online && was.state == PASSIVE_IDLE {
            let late = since_quiet.map_or(false, |since| since >= lost);
            let listens = is.state == LISTEN_TOKEN && answer.outcome == 3;
            when(late && listens, "quiet, activity unknown: online the lost-token time later does not claim");
            when(is.state == CLAIM_TOKEN && poll.size > 1, "online again claims at once, others in the ring");
        }
        if was.passive && poll.handled_in() != PASSIVE_IDLE {
            when(was.state == PASS_TOKEN && is.state == USE_TOKEN, "alone, passes the token to itself");
            let given = was.state == CHECK_TOKEN_PASS && is.state == USE_TOKEN && answer.consumed > 0;
            when(given, "CheckTokenPass is given the token again");
            self.reached = is.state == LISTEN_TOKEN || is.state == ACTIVE_IDLE;
        }
        if poll.handled_in() == PASSIVE_IDLE {
            if was.state != PASSIVE_IDLE {
                entered(poll, ongoing, &mut when);
                when(reached, "reached within a poll, ListenToken or ActiveIdle is shown, then PassiveIdle");
            }
            let silent = !ongoing && poll.record.telegrams.is_empty() && was.last_bus_activity.is_none();
            if silent && poll.record.pending == 0 {
                when(is.last_bus_activity.is_none(), "quiet, activity unknown: unknown still");
                let stands = since_quiet == Some(0) && answer.outcome == 3;
                when(stands, "quiet, activity unknown: a second poll at the same clock is no transmission");
                self.quiet = is.last_bus_activity.is_none().then_some(poll.record.clock);
            }
            when(silent && is.last_bus_activity.is_some(), "pending bytes make an unknown activity known");
            if !ongoing {
                idle(poll, answered, &mut when);
            }
        }
        met.iter().for_each(|case| points.hit("passive", case));
    }
}

/// Notes a case where a condition holds.
type When<'a> = &'a mut dyn FnMut(bool, &'static str);

/// The poll that moves a station to PassiveIdle.
fn entered(poll: &Poll, ongoing: bool, when: When) {
    let was = &poll.was;
    let (listen, active) = (was.state == LISTEN_TOKEN, was.state == ACTIVE_IDLE);
    when(ongoing && was.state == OFFLINE, "moved from Offline while a transmission goes on");
    when(ongoing && listen, "moved from ListenToken while a transmission goes on");
    when(ongoing && active, "moved from ActiveIdle while a transmission goes on");
    when(was.state == OFFLINE && was.last_bus_activity.is_some(), "after a second collision, activity known");
    let grew = poll.record.pending > was.pending_bytes as u16;
    let lost =
        poll.waited().map_or(false, |waited| waited >= poll.parameters.token_lost_timeout().total_micros() as i64);
    when(lost && !grew && listen, "ListenToken left where the token was lost");
    when(lost && !grew && active, "ActiveIdle left where the token was lost");
    let request = was.status_request.is_some() && poll.record.telegrams.is_empty();
    when(request && listen, "forgets a request of ListenToken");
    when(request && active, "forgets a request of ActiveIdle");
    when(was.collision_count > 0 && listen, "forgets a collision of ListenToken");
    when(was.collision_count > 0 && active, "forgets a collision of ActiveIdle");
    when(was.new_previous_station.is_some(), "forgets the remembered station");
    when(poll.ready, "keeps a ready ring");
    when(poll.laps == 1 && !poll.ready, "keeps a lap, not ready");
    when(was.pending_bytes > 0 && poll.is.pending_bytes == was.pending_bytes, "keeps pending bytes");
    when(was.gap_poll.is_some(), "keeps a gap walk");
    when(was.next_application > 0, "keeps the next application");
}

/// A poll that is handled in PassiveIdle, with no transmission going on.
fn idle(poll: &Poll, answered: Option<u8>, when: When) {
    let (own, telegrams) = (poll.own, &poll.record.telegrams);
    if let Some(destination) = answered {
        when(destination == 126, "request of 126 answered");
        when(destination == 127, "request of 127 answered");
        when(poll.ready, "answered, ready");
        when(!poll.ready, "answered, not ready");
        return when(!telegrams.is_empty(), "telegrams are gone in the poll that answers");
    }
    if poll.request().is_some() {
        when(telegrams.is_empty(), "pause of a request unfinished");
        return when(!telegrams.is_empty(), "telegrams are gone while a request waits for its pause");
    }
    let by_own = |telegram: &&Telegram| telegram.source() == Some(own);
    let others = |telegram: &Telegram| is_request_to(telegram, own) && telegram.source() != Some(own);
    let requests = |telegram: &Telegram| matches!(telegram, Telegram::Request { status_request: true, .. });
    let owned: Vec<&Telegram> = telegrams.iter().filter(by_own).collect();
    let (last, earlier) = match telegrams.split_last() {
        Some(split) => split,
        None => return,
    };
    when(owned.iter().any(|t| matches!(t, Telegram::Token { .. })), "own token not witnessed");
    let asks_itself = is_request_to(last, own) && last.source() == Some(own);
    when(asks_itself && poll.is.status_request.is_none(), "own status request to us, last, not noted");
    when(owned.iter().any(|t| matches!(t, Telegram::Response { .. })), "own response");
    when(owned.len() >= 3, "three telegrams of our own in one poll");
    when(poll.is.status_request.is_some(), "request noted");
    when(earlier.iter().any(others), "request that is not last is not noted");
    when(requests(last) && !is_request_to(last, own), "request to another is not noted");
    when(telegrams.len() == 8, "eight telegrams in one poll");
}
