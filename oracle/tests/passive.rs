//! The passive station (document 02, P10) through the oracle, against answers stated by hand.

use oracle::records::{Answer, Decision, PollRecord, Sent, Telegram};
use oracle::trace::{Entry, Header, Runner};

/// Address 5, one bit is 2 us: pause 66, slot 400, lost token 6,400.
fn fresh() -> Runner {
    Runner::new(&Header::EXAMPLE_12)
}

fn at(clock: u64) -> PollRecord {
    PollRecord::silent(clock, 1)
}

fn hearing(clock: u64, telegrams: &[Telegram]) -> PollRecord {
    PollRecord { telegrams: telegrams.to_vec(), ..at(clock) }
}

/// Outcome, state, sent, consumed.
fn said(answer: Answer) -> (u8, u8, Sent, u8) {
    assert_eq!(answer.refusal, 0);
    (answer.outcome, answer.state, answer.sent, answer.consumed)
}

fn token(destination: u8) -> Sent {
    Sent::Token { destination }
}

fn slave(destination: u8) -> Sent {
    Sent::StatusResponse { destination, response_type: 0 }
}

const NOTHING: Sent = Sent::Nothing;

/// A station that is passive, polled once at 1000 without a telegram.
fn passive() -> Runner {
    let mut runner = fresh();
    runner.entry(Entry::Passive);
    runner.poll(&at(1000));
    runner
}

#[test]
fn the_commands_own_answer_shows_the_old_state() {
    let mut runner = fresh();
    assert_eq!(said(runner.entry(Entry::Passive)), (0, 0, NOTHING, 0));
    assert_eq!(said(runner.poll(&at(1000))), (3, 9, NOTHING, 0));
    assert_eq!(said(runner.entry(Entry::Online)), (0, 9, NOTHING, 0));
    assert_eq!(said(runner.poll(&at(1001))), (3, 1, NOTHING, 0));
    assert_eq!(said(runner.entry(Entry::Passive)), (0, 1, NOTHING, 0));
    assert_eq!(said(runner.entry(Entry::Passive)), (0, 1, NOTHING, 0));
    // the move comes first, also in a poll that finds a transmission
    assert_eq!(said(runner.poll(&at(1001))), (2, 9, NOTHING, 0));
    assert_eq!(said(runner.entry(Entry::Offline)), (0, 0, NOTHING, 0));
}

#[test]
fn a_refused_record_moves_nothing() {
    let mut runner = fresh();
    runner.entry(Entry::Passive);
    let answer = runner.entry(Entry::Poll(&[0; 7]));
    assert_eq!((answer.refusal, answer.state), (12, 0));
    assert_eq!(said(runner.poll(&at(1000))), (3, 9, NOTHING, 0));
}

/// A quiet poll leaves an unknown activity unknown.
#[test]
fn a_quiet_poll_asks_for_no_time() {
    let mut runner = passive();
    assert_eq!(runner.station.watch().last_bus_activity, None);
    assert_eq!(said(runner.poll(&at(1000))), (3, 9, NOTHING, 0));
    runner.entry(Entry::Online);
    // 10,000 us after the first poll: the activity is taken to be now
    assert_eq!(said(runner.poll(&at(11_000))), (3, 1, NOTHING, 0));
    assert_eq!(said(runner.poll(&at(17_399))), (3, 1, NOTHING, 0));
    assert_eq!(said(runner.poll(&at(17_400))), (2, 4, token(5), 0));
    // bytes that are pending make it known
    let mut runner = passive();
    assert_eq!(said(runner.poll(&PollRecord { pending: 1, ..at(1000) })), (3, 9, NOTHING, 0));
    assert_eq!(said(runner.poll(&PollRecord { pending: 1, ..at(1000) })), (2, 9, NOTHING, 0));
}

#[test]
fn it_never_claims_and_online_may_at_once() {
    let mut runner = passive();
    assert_eq!(said(runner.poll(&hearing(2000, &[Telegram::token(9, 12)]))), (3, 9, NOTHING, 1));
    for clock in [2001, 8399, 8400, 8401, 100_000] {
        assert_eq!(said(runner.poll(&at(clock))), (3, 9, NOTHING, 0));
    }
    runner.entry(Entry::Online);
    assert_eq!(said(runner.poll(&at(8400))), (2, 4, token(5), 0));
}

#[test]
fn requests_are_answered_with_slave() {
    for source in [9, 126, 127] {
        let mut runner = passive();
        let answer = runner.poll(&hearing(2000, &[Telegram::token(9, 9), Telegram::status_request(source, 5)]));
        assert_eq!(said(answer), (4, 9, NOTHING, 2));
        // until then nothing is consumed
        assert_eq!(said(runner.poll(&hearing(2065, &[Telegram::token(9, 12)]))), (4, 9, NOTHING, 0));
        assert_eq!(said(runner.poll(&hearing(2066, &[Telegram::token(9, 12)]))), (2, 9, slave(source), 0));
        // six bytes are 66 bits, 132 us
        assert_eq!(said(runner.poll(&at(2198))), (2, 9, NOTHING, 0));
        assert_eq!(said(runner.poll(&at(2199))), (3, 9, NOTHING, 0));
    }
    // a ready ring makes no difference
    let mut runner = passive();
    runner.poll(&hearing(2000, &[Telegram::token(9, 9), Telegram::token(9, 9), Telegram::status_request(9, 5)]));
    assert!(runner.station.inspect_token_ring().ready_for_ring());
    assert_eq!(said(runner.poll(&at(2066))), (2, 9, slave(9), 0));
}

#[test]
fn a_request_that_is_not_last_or_not_to_us_is_not_noted() {
    let mut runner = passive();
    let not_last = [Telegram::status_request(9, 5), Telegram::ShortConfirmation];
    assert_eq!(said(runner.poll(&hearing(2000, &not_last))), (3, 9, NOTHING, 2));
    assert_eq!(said(runner.poll(&hearing(2100, &[Telegram::status_request(9, 6)]))), (3, 9, NOTHING, 1));
    let other = Telegram::Request { destination: 5, source: 9, status_request: false };
    assert_eq!(said(runner.poll(&hearing(2200, &[other]))), (3, 9, NOTHING, 1));
    assert_eq!(said(runner.poll(&at(3000))), (3, 9, NOTHING, 0));
}

/// "its own address as source changes nothing": consumed, activity marked, pending 0, and nothing else.
#[test]
fn our_own_address_as_source() {
    let mut runner = passive();
    let before = format!("{:?}", runner.station.inspect_token_ring());
    let own = [Telegram::token(5, 9), Telegram::token(5, 9), Telegram::token(5, 9), Telegram::status_request(5, 5)];
    let heard = PollRecord { pending: 12, ..hearing(2000, &own) };
    assert_eq!(said(runner.poll(&heard)), (3, 9, NOTHING, 4));
    assert_eq!(format!("{:?}", runner.station.inspect_token_ring()), before);
    let watched = runner.station.watch();
    assert_eq!((watched.status_request, watched.pending_bytes, watched.passive), (None, 0, true));
    assert_eq!(watched.last_bus_activity.map(|last| last.total_micros()), Some(2000));
}

/// Passive and online with no poll between: a noted request is kept, and a collision is counted still.
#[test]
fn passive_and_online_without_a_poll() {
    let mut runner = fresh();
    runner.entry(Entry::Online);
    runner.poll(&hearing(1000, &[Telegram::token(5, 9)]));
    runner.poll(&hearing(1100, &[Telegram::status_request(9, 5)]));
    let before = format!("{:?}", runner.station);
    runner.entry(Entry::Passive);
    runner.entry(Entry::Online);
    assert_eq!(format!("{:?}", runner.station), before);
    let not_ready = Sent::StatusResponse { destination: 9, response_type: 1 };
    assert_eq!(said(runner.poll(&at(1166))), (2, 1, not_ready, 0));
    assert_eq!(said(runner.poll(&hearing(1400, &[Telegram::token(5, 9)]))), (3, 0, NOTHING, 1));
    // with a poll between, both are forgotten
    let mut runner = fresh();
    runner.entry(Entry::Online);
    runner.poll(&hearing(1000, &[Telegram::token(5, 9)]));
    runner.poll(&hearing(1100, &[Telegram::status_request(9, 5)]));
    runner.entry(Entry::Passive);
    assert_eq!(said(runner.poll(&at(1166))), (3, 9, NOTHING, 0));
    runner.entry(Entry::Online);
    assert_eq!(said(runner.poll(&at(1200))), (3, 1, NOTHING, 0));
    assert_eq!(said(runner.poll(&hearing(1400, &[Telegram::token(5, 9)]))), (3, 1, NOTHING, 1));
}

/// The ring with its laps, pending bytes, hold, gap and application are kept.
#[test]
fn what_is_kept() {
    let mut runner = Runner::new(&Header { applications: 2, ..Header::EXAMPLE_12 });
    let silent = |clock| PollRecord::silent(clock, 2);
    let heard = |clock, telegrams: &[Telegram]| PollRecord { telegrams: telegrams.to_vec(), ..silent(clock) };
    runner.entry(Entry::Online);
    // two laps: ready; asked by 9 and answered; given the token, which the second application uses
    runner.poll(&heard(1000, &[Telegram::token(9, 9), Telegram::token(9, 9), Telegram::status_request(9, 5)]));
    runner.poll(&silent(1066));
    runner.poll(&heard(1300, &[Telegram::token(9, 5)]));
    let mut sends = silent(1400);
    sends.decisions[1].0 = Decision::Sends { reply: Some(20), length: 1 };
    runner.poll(&sends);
    // an unexpected telegram leads to ActiveIdle
    let pending = PollRecord { pending: 3, ..heard(1500, &[Telegram::token(9, 12)]) };
    assert_eq!(said(runner.poll(&pending)), (3, 2, NOTHING, 1));
    let pending = PollRecord { pending: 7, ..silent(1600) };
    runner.poll(&pending);
    let (was, ring) = (runner.station.watch(), format!("{:?}", runner.station.inspect_token_ring()));
    assert_eq!((was.next_application, was.pending_bytes), (1, 7));
    runner.entry(Entry::Passive);
    assert_eq!(said(runner.poll(&silent(1700))), (3, 9, NOTHING, 0));
    let is = runner.station.watch();
    assert_eq!(oracle::fdl::Watched { state: was.state, online: true, passive: false, ..is }, was);
    assert_eq!(format!("{:?}", runner.station.inspect_token_ring()), ring);
}

/// "the other states go on until they reach one of these": alone with the token it passes it to itself for ever; the second
/// token of a claim is sent; ListenToken and ActiveIdle are left before the lost token is asked for.
#[test]
fn the_other_states_go_on() {
    let mut runner = fresh();
    runner.entry(Entry::Online);
    runner.poll(&at(1000));
    runner.poll(&at(7400));
    runner.entry(Entry::Passive);
    assert_eq!(said(runner.poll(&at(7532))), (2, 3, token(5), 0));
    let mut clock = 7532;
    for _ in 0..5 {
        assert_eq!(said(runner.poll(&at(clock + 132))), (4, 6, NOTHING, 0));
        clock += 133;
        assert_eq!(said(runner.poll(&at(clock))), (2, 3, token(5), 0));
    }
    let mut runner = fresh();
    runner.entry(Entry::Online);
    runner.poll(&at(1000));
    runner.entry(Entry::Passive);
    assert_eq!(said(runner.poll(&at(7400))), (3, 9, NOTHING, 0));
}

/// After a second collision with one telegram more, the activity is known.
#[test]
fn passive_after_a_second_collision() {
    let mut runner = fresh();
    runner.entry(Entry::Online);
    runner.poll(&hearing(1000, &[Telegram::token(5, 9), Telegram::token(5, 9), Telegram::token(9, 12)]));
    runner.entry(Entry::Passive);
    assert_eq!(said(runner.poll(&at(1000))), (2, 9, NOTHING, 0));
    runner.entry(Entry::Online);
    assert_eq!(said(runner.poll(&at(7400))), (2, 4, token(5), 0));
}
