//! Joining a ring, losing a neighbour, finding one.

use crate::story::*;
use amsulfezd::answer::State::*;
use amsulfezd::record::{Poll, StationType, Telegram};
use amsulfezd::trace::Header;

pub fn stories() -> Vec<Story> {
    vec![
        silent_neighbours(
            "silent-neighbour-1",
            &[9],
            "A neighbour falls silent: one other station",
        ),
        silent_neighbours(
            "silent-neighbour-2",
            &[9, 17],
            "A neighbour falls silent: two other stations",
        ),
        silent_neighbours(
            "silent-neighbour-5",
            &[9, 17, 30, 60, 100],
            "A neighbour falls silent: five other stations",
        ),
        joining(),
        gap(),
    ]
}

/// Station 5 at 500 kbaud with one application: 1 bit is 2 us, slot 400, pause 66, lost 6,400.
pub fn station_5() -> Header {
    Header::new(5, 6, 1)
}

/// Station 5 is put online at `start` and let into a ring of others, given in ring order from 5 on. It ends in
/// ActiveIdle, with its answer on the bus until `start` + 1,498.
pub fn join(story: &mut Story, start: u64, others: &[u8]) {
    let first = others[0];
    let last = others[others.len() - 1];
    let round: Vec<Telegram> = (0..others.len())
        .map(|i| Telegram::token(others[i], others[(i + 1) % others.len()]))
        .collect();
    let heard_all = others.len() as u8;
    story.online("the station is put online; it moves with the next poll");
    story.poll(
        Poll::at(start),
        bus(ListenToken),
        "first poll: it listens; the last activity, unknown so far, is taken to be now",
    );
    story.next_station(first);
    story.poll(
        heard(start + 500, &round),
        bus(ListenToken).consumed(heard_all),
        "the token goes once round the others: they join the ring as we see it, and laps is 1",
    );
    story.poll(
        heard(start + 1000, &round),
        bus(ListenToken).consumed(heard_all),
        "a second round without a change: laps is 2, the ring is ready",
    );
    story.poll(
        heard(start + 1300, &[Telegram::status_request(last, 5)]),
        delay(ListenToken).consumed(1),
        "the station before us in the ring asks who we are; the request is noted and waits for the pause",
    );
    story.poll(
        Poll::at(start + 1366),
        sends_status_response(ActiveIdle, last, StationType::WithoutToken),
        "the pause of 66 us is over: it answers \"without token\", as the ring is ready and the asker is its previous \
         station, and goes to ActiveIdle",
    );
}

/// The token comes from the previous station.
pub fn takes_token(story: &mut Story, clock: u64, from: u8) {
    story.poll(
        heard(clock, &[Telegram::token(from, 5)]),
        delay(UseToken).consumed(1),
        "the previous station passes the token to us, as the last telegram of the poll: we hold it",
    );
}

/// The only application has nothing to send.
pub fn declines(story: &mut Story, clock: u64) {
    story.poll(
        Poll::at(clock),
        delay(PassToken),
        "the application declines, so its cycle is complete: the token will be passed on",
    );
}

/// Demand 3: each of k others is tried three times and taken out, then the token comes back to us.
fn silent_neighbours(name: &'static str, others: &'static [u8], title: &'static str) -> Story {
    let mut story = Story::new(
        name,
        station_5(),
        title,
        "Station 5 is let into a ring, takes the token and passes it on. From then on the bus is dead: no telegram, no\n\
         byte, no transmission is reported. Each other station is sent the token three times, one slot time of 400 us\n\
         after the end of the token before, and is then taken out of the ring; after 3k tokens to the k others the\n\
         token goes to station 5 itself, which holds it. One microsecond before the slot time nothing happens.",
    );
    join(&mut story, 1000, others);
    takes_token(&mut story, 2700, others[others.len() - 1]);
    declines(&mut story, 2766);
    story.poll(
        Poll::at(2767),
        sends_token(CheckTokenPass, others[0]),
        "67 us after the last activity the token is passed to the next station; its 3 bytes end at 2,833",
    );
    story.poll(
        Poll::at(3232),
        bus(CheckTokenPass),
        "399 us after the end of the token: the slot time is not over",
    );
    let mut clock = 3233;
    for (i, &other) in others.iter().enumerate() {
        for attempt in 1..=3 {
            if i == 0 && attempt == 1 {
                continue;
            }
            story.next_station(other);
            let why = match attempt {
                1 => "the third token to the station before was not taken up either: it leaves the ring, and the next one gets a first token",
                2 => "400 us of silence: the token is sent to the same station a second time",
                _ => "400 us of silence again: the token is sent to the same station a third time",
            };
            story.poll(Poll::at(clock), sends_token(CheckTokenPass, other), why);
            clock += 66 + 400;
        }
    }
    story.alone();
    story.poll(
        Poll::at(clock),
        sends_token(UseToken, 5),
        "the last of the others leaves the ring: we are alone, the token goes to ourselves, and we hold it",
    );
    story.poll(
        Poll::at(clock + 66),
        transmission(UseToken),
        "our own token ends just now: a poll at the last activity counts as a transmission going on",
    );
    declines(&mut story, clock + 132);
    story
}

/// Letting oneself into a running ring, with each of the answers to a status request.
fn joining() -> Story {
    let mut story = Story::new(
        "joining",
        station_5(),
        "Joining a running ring",
        "Stations 9 and 30 pass the token to each other. Station 5 listens, is asked before it is ready, becomes ready\n\
         after two laps without a change, is asked by a station that is not the one before it, answers \"not ready\" and\n\
         goes to ActiveIdle all the same, and is let in. Later station 30 is gone and an unknown station 12 passes the\n\
         token to us: the first time it is only remembered, the second time it is accepted, and 30 leaves the ring.",
    );
    story.online("put online");
    story.poll(Poll::at(1000), bus(ListenToken), "it listens");
    story.next_station(9);
    story.poll(
        heard(2000, &[Telegram::token(9, 30)]),
        bus(ListenToken).consumed(1),
        "9 and 30 are added to the ring",
    );
    story.poll(
        heard(2500, &[Telegram::status_request(30, 5)]),
        delay(ListenToken).consumed(1),
        "30 asks who we are; the request is noted",
    );
    story.poll(
        Poll::at(2540),
        delay(ListenToken),
        "40 us after the request: the pause of 66 us is unfinished",
    );
    story.poll(
        Poll::at(2566),
        sends_status_response(ListenToken, 30, StationType::NotReady),
        "the pause is over: \"not ready\", as no two laps were seen; it goes on listening. The answer ends at 2,698",
    );
    story.poll(
        Poll::at(2698),
        transmission(ListenToken),
        "our answer is on the bus until just now",
    );
    story.poll(
        heard(3000, &[Telegram::token(30, 9)]),
        bus(ListenToken).consumed(1),
        "once round without a change: laps is 1",
    );
    story.poll(
        heard(3500, &[Telegram::token(9, 30)]),
        bus(ListenToken).consumed(1),
        "no lap: 30 is above 9",
    );
    story.poll(
        heard(4000, &[Telegram::token(30, 9)]),
        bus(ListenToken).consumed(1),
        "twice round: laps is 2, the ring is ready",
    );
    story.poll(
        heard(4200, &[Telegram::status_request(9, 5)]),
        delay(ListenToken).consumed(1),
        "9 asks, which is our next station, not our previous one",
    );
    story.poll(
        Poll::at(4266),
        sends_status_response(ActiveIdle, 9, StationType::NotReady),
        "\"not ready\", as 9 is not our previous station (30 is); but a ready station goes to ActiveIdle all the same",
    );
    story.poll(
        heard(4500, &[Telegram::status_request(30, 5)]),
        delay(ActiveIdle).consumed(1),
        "30 asks again; in ActiveIdle the request is noted too",
    );
    story.poll(
        Poll::at(4566),
        sends_status_response(ActiveIdle, 30, StationType::InRing),
        "in ActiveIdle the answer is \"in ring\"",
    );
    story.poll(
        heard(4800, &[Telegram::token(9, 30)]),
        bus(ActiveIdle).consumed(1),
        "a token between others is witnessed",
    );
    takes_token(&mut story, 5000, 30);
    declines(&mut story, 5066);
    story.poll(
        Poll::at(5067),
        sends_token(CheckTokenPass, 9),
        "67 us after the last activity the token goes to 9",
    );
    story.poll(
        heard(5400, &[Telegram::token(9, 30)]),
        bus(ActiveIdle).consumed(1),
        "9 has it and passes it on: ActiveIdle",
    );
    story.poll(
        heard(6000, &[Telegram::token(12, 5)]),
        bus(ActiveIdle).consumed(1),
        "a token to us from 12, which is not our previous station: remembered, not accepted, not witnessed",
    );
    story.poll(
        heard(6500, &[Telegram::token(12, 5)]),
        delay(UseToken).consumed(1),
        "12 tries again: accepted and witnessed; 12 is added and 30, which lies between 12 and 5, is taken out",
    );
    declines(&mut story, 6566);
    story.poll(
        Poll::at(6567),
        sends_token(CheckTokenPass, 9),
        "the token goes to 9",
    );
    story.poll(
        heard(6900, &[Telegram::token(9, 12), Telegram::token(12, 5)]),
        delay(UseToken).consumed(2),
        "9 passes to 12 and 12 to us, in one poll: 12 is our previous station now, so its token is accepted at once",
    );
    story
}

/// Gap polls of a lone station, down to the one that finds a station.
fn gap() -> Story {
    let header = Header {
        gap_wait: 1,
        hsa: 10,
        ..station_5()
    };
    let mut story = Story::new(
        "gap-poll",
        header,
        "Gap polls that find a station",
        "Station 5 is alone, claims the token and passes it to itself. With gap wait 1 two passes only count, from the\n\
         third on each pass first asks an address of the gap. 6 does not answer, 7 answers as a slave, 8 as a station\n\
         that is not ready: none joins the ring. 9 answers \"without token\" and becomes the next station. The walk ends\n\
         there, as the next candidate does not lie between 5 and 9.",
    );
    story.online("put online");
    story.poll(Poll::at(1000), bus(ListenToken), "it listens");
    story.poll(
        Poll::at(7400),
        sends_token(ClaimToken, 5),
        "6,400 us of silence, the lost-token time of 200 x (6 + 2 x 5) bits: it claims the token",
    );
    story.poll(
        Poll::at(7532),
        sends_token(UseToken, 5),
        "66 us after the end of the first, the claim is sent a second time: it holds the token",
    );
    declines(&mut story, 7664);
    story.poll(
        Poll::at(7665),
        sends_token(UseToken, 5),
        "pass 1: the gap count of 0 is not above the gap wait of 1; it becomes 1, and the token goes to ourselves",
    );
    declines(&mut story, 7797);
    story.poll(
        Poll::at(7798),
        sends_token(UseToken, 5),
        "pass 2: the count of 1 is not above 1; it becomes 2",
    );
    declines(&mut story, 7930);
    story.poll(
        Poll::at(7931),
        sends_status_request(6),
        "pass 3: the count of 2 is above 1; the walk starts at 5 and asks 6. The request ends at 8,063",
    );
    story.poll(
        Poll::at(8462),
        bus(AwaitStatusResponse),
        "399 us without an answer: the slot time is not over",
    );
    story.poll(
        Poll::at(8463),
        sends_token(UseToken, 5),
        "400 us: 6 is not there; the token is passed in the same poll, without another gap question",
    );
    declines(&mut story, 8595);
    story.poll(
        Poll::at(8596),
        sends_status_request(7),
        "the walk goes on with 7. The request ends at 8,728",
    );
    story.poll(
        heard(9000, &[Telegram::response(7, 5, StationType::Slave)]),
        delay(PassToken).consumed(1),
        "7 is a slave: the ring stays as it is",
    );
    story.poll(
        Poll::at(9066),
        sends_token(UseToken, 5),
        "66 us later the token goes to ourselves",
    );
    declines(&mut story, 9198);
    story.poll(
        Poll::at(9199),
        sends_status_request(8),
        "the walk goes on with 8. The request ends at 9,331",
    );
    story.poll(
        heard(9600, &[Telegram::response(8, 5, StationType::NotReady)]),
        delay(PassToken).consumed(1),
        "8 is not ready: the ring stays as it is",
    );
    story.poll(
        Poll::at(9666),
        sends_token(UseToken, 5),
        "the token goes to ourselves",
    );
    declines(&mut story, 9798);
    story.poll(
        Poll::at(9799),
        sends_status_request(9),
        "the walk goes on with 9. The request ends at 9,931",
    );
    story.next_station(9);
    story.poll(
        heard(
            10200,
            &[Telegram::response(9, 5, StationType::WithoutToken)],
        ),
        delay(PassToken).consumed(1),
        "9 answers \"without token\" with status Ok: it becomes our next station",
    );
    story.poll(
        Poll::at(10266),
        sends_token(CheckTokenPass, 9),
        "the token goes to 9; it ends at 10,332",
    );
    takes_token(&mut story, 10500, 9);
    declines(&mut story, 10566);
    story.poll(
        Poll::at(10567),
        sends_token(CheckTokenPass, 9),
        "the walk's next candidate is 0, as 9 + 1 is at HSA; it does not lie between 5 and 9, so the walk is over and \
         the count starts at 0; the token goes to 9",
    );
    story
}
