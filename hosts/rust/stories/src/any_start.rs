//! Document 02, P11: whatever the station was doing when the bus fell silent, it comes to hold the token, and asks its cabinets again.
//!
//! In each story the polls that count come exactly the lost-token time, 6,400 us, after the last activity. With one other station in
//! the ring the bound is 3 x 1 + 2 = 5 of them.

use crate::ring::{declines, join, station_5, takes_token};
use crate::story::*;
use amsulfezd::answer::State::*;
use amsulfezd::record::{Decision, Poll, StationType, Telegram};
use amsulfezd::trace::Header;

pub fn stories() -> Vec<Story> {
    vec![
        from_offline(),
        from_listen_token(),
        from_active_idle(),
        from_claim_token(),
        from_pass_token(),
        from_check_token_pass(),
        from_await_status_response(),
    ]
}

/// The application, asked again at last, asks cabinet 20 with 10 bytes.
fn asks_cabinet(story: &mut Story, clock: u64) {
    story.poll(
        Poll::at(clock).normal(0, Decision::asks(20, 10)),
        sends_request(0, 20, 10),
        "one counted poll more: the application is asked, within the hold time, and asks its cabinet",
    );
}

/// The two tokens of a claim, the first 6,400 us after the last activity, and then the cabinet.
fn claims(story: &mut Story, last_activity: u64, waits: Expected) {
    let first = last_activity + 6400;
    story.poll(
        Poll::at(first - 1),
        waits,
        "6,399 us after the last activity: the token is not lost yet, and the poll is not counted",
    );
    story.poll(
        Poll::at(first),
        sends_token(ClaimToken, 5),
        "counted poll 1: the token is lost and claimed, by a token to ourselves of 66 us",
    );
    story.poll(
        Poll::at(first + 6466),
        sends_token(UseToken, 5),
        "counted poll 2: the second token to ourselves; the token is held. Nobody has left the ring",
    );
    asks_cabinet(story, first + 12932);
}

/// Three tokens to 9, from this attempt on, then one to ourselves, each 6,400 us after the end of what was sent before; and then the
/// cabinet. `counted` is the number of the first of these polls.
fn passes(story: &mut Story, clock: u64, attempt: u8, counted: u8) {
    let mut clock = clock;
    let mut counted = counted;
    for attempt in attempt..=3 {
        let which = ["first", "second", "third"][attempt as usize - 1];
        story.poll(
            Poll::at(clock),
            sends_token(CheckTokenPass, 9),
            &format!("counted poll {}: the {} token to 9", counted, which),
        );
        clock += 6466;
        counted += 1;
    }
    story.alone();
    story.poll(
        Poll::at(clock),
        sends_token(UseToken, 5),
        &format!(
            "counted poll {}: 9 leaves the ring, the token goes to ourselves and is held",
            counted
        ),
    );
    asks_cabinet(story, clock + 6466);
}

/// Online, but no poll came since.
fn from_offline() -> Story {
    let mut story = Story::new(
        "any-start/offline",
        station_5(),
        "Silence from Offline",
        "Station 5 is put online on a dead bus. Its first poll finds the last activity unknown: it does not count, and from then\n\
         on the activity is known. Two counted polls lead to the token.",
    );
    story.online("put online; the state is Offline until the next poll");
    story.poll(
        Poll::at(1000),
        bus(ListenToken),
        "the last activity is unknown, so the poll is not counted; it is taken to be now",
    );
    claims(&mut story, 1000, bus(ListenToken));
    story
}

/// Listening, with a status request noted.
fn from_listen_token() -> Story {
    let mut story = Story::new(
        "any-start/listen-token",
        station_5(),
        "Silence from ListenToken",
        "Station 5 listens, has heard station 9, and has noted its status request when the bus falls silent. The request is\n\
         answered after its pause, long before the token is lost: that poll is not counted, and the answer is the one telegram\n\
         that comes before the two tokens of the claim.",
    );
    story.online("put online");
    story.poll(Poll::at(1000), bus(ListenToken), "it listens");
    story.next_station(9);
    story.poll(
        heard(1500, &[Telegram::token(9, 9)]),
        bus(ListenToken).consumed(1),
        "9 has the token to itself: it joins the ring as we see it",
    );
    story.poll(
        heard(2000, &[Telegram::status_request(9, 5)]),
        delay(ListenToken).consumed(1),
        "9 asks who we are; the request is noted. From here on the bus is silent",
    );
    story.poll(
        Poll::at(2066),
        sends_status_response(ListenToken, 9, StationType::NotReady),
        "66 us: the pause is over and the request is answered, \"not ready\" after one lap. The answer ends at 2,198",
    );
    claims(&mut story, 2198, bus(ListenToken));
    story
}

/// In the ring, without the token.
fn from_active_idle() -> Story {
    let mut story = Story::new(
        "any-start/active-idle",
        station_5(),
        "Silence from ActiveIdle",
        "Station 5 is let into the ring of station 9 and waits for the token when the bus falls silent. Two counted polls lead to\n\
         the token; 9 stays in the ring, as nobody has tried it.",
    );
    join(&mut story, 1000, &[9]);
    claims(&mut story, 2498, bus(ActiveIdle));
    story
}

/// The token claimed once, and a clock that goes back.
fn from_claim_token() -> Story {
    let mut story = Story::new(
        "any-start/claim-token",
        station_5(),
        "Silence from ClaimToken",
        "Station 5 has claimed the lost token and sent it once. Then its clock goes back: polls at or before the last activity\n\
         count as a transmission going on, and change nothing. One counted poll leads to the token.",
    );
    story.online("put online");
    story.poll(Poll::at(1000), bus(ListenToken), "it listens");
    story.next_station(9);
    story.poll(
        heard(1100, &[Telegram::token(9, 9)]),
        bus(ListenToken).consumed(1),
        "9 joins the ring as we see it; from here on the bus is silent",
    );
    story.poll(
        Poll::at(7500),
        sends_token(ClaimToken, 5),
        "6,400 us later: the token is lost and claimed; the first token to ourselves ends at 7,566",
    );
    story.poll(
        Poll::at(5000),
        transmission(ClaimToken),
        "the clock went back: before the last activity, so not counted",
    );
    story.poll(
        Poll::at(7566),
        transmission(ClaimToken),
        "the token ends just now: not counted",
    );
    story.poll(
        Poll::at(7631),
        delay(ClaimToken),
        "65 us after it: the pause is unfinished",
    );
    story.poll(
        Poll::at(13966),
        sends_token(UseToken, 5),
        "counted poll 1: the second token to ourselves; the token is held",
    );
    asks_cabinet(&mut story, 20432);
    story
}

/// A station whose gap count has come above its gap wait of 1, with 9 in the ring: it has the token and passes it on, with 6 to be
/// asked. Its last activity is 3,700.
pub fn question_due(story: &mut Story) {
    join(story, 1000, &[9]);
    takes_token(story, 2700, 9);
    declines(story, 2766);
    story.poll(
        Poll::at(2767),
        sends_token(CheckTokenPass, 9),
        "the gap count of 0 becomes 1; the token goes to 9 and ends at 2,833",
    );
    takes_token(story, 3200, 9);
    declines(story, 3266);
    story.poll(
        Poll::at(3267),
        sends_token(CheckTokenPass, 9),
        "the gap count of 1 becomes 2; the token goes to 9 and ends at 3,333",
    );
    takes_token(story, 3700, 9);
    declines(story, 3766);
}

/// Gap wait 1, and HSA 10, so that 6, 7 and 8 lie in the gap between 5 and 9.
pub fn with_gap() -> Header {
    Header {
        gap_wait: 1,
        hsa: 10,
        ..station_5()
    }
}

/// With a gap question due: the longest way.
fn from_pass_token() -> Story {
    let mut story = Story::new(
        "any-start/pass-token",
        with_gap(),
        "Silence from PassToken, with a gap question due",
        "Station 5 has the token, its application has declined, and 6 is to be asked before the token goes on to 9: then the bus\n\
         falls silent. A status request, three tokens to 9 and one to ourselves take the 3k + 2 = 5 counted polls of the bound.",
    );
    question_due(&mut story);
    story.poll(
        Poll::at(10100),
        sends_status_request(6),
        "counted poll 1, 6,400 us after the last activity: the gap count of 2 is above 1, and 6 is asked. The request ends at 10,232",
    );
    passes(&mut story, 16632, 1, 2);
    story
}

/// A pass into silence, with one token sent.
fn from_check_token_pass() -> Story {
    let mut story = Story::new(
        "any-start/check-token-pass",
        station_5(),
        "Silence from CheckTokenPass",
        "Station 5 has passed the token to 9 once and waits for a sign of life. Two tokens more to 9 and one to ourselves: 3k = 3\n\
         counted polls.",
    );
    join(&mut story, 1000, &[9]);
    takes_token(&mut story, 2700, 9);
    declines(&mut story, 2766);
    story.poll(
        Poll::at(2767),
        sends_token(CheckTokenPass, 9),
        "the first token to 9 ends at 2,833; from here on the bus is silent",
    );
    passes(&mut story, 9233, 2, 1);
    story
}

/// A gap question without an answer.
fn from_await_status_response() -> Story {
    let mut story = Story::new(
        "any-start/await-status-response",
        with_gap(),
        "Silence from AwaitStatusResponse",
        "Station 5 has asked 6 and waits for its answer. Three tokens to 9 and one to ourselves: 3k + 1 = 4 counted polls.",
    );
    question_due(&mut story);
    story.poll(
        Poll::at(3767),
        sends_status_request(6),
        "67 us after the last activity 6 is asked; the request ends at 3,899, and from here on the bus is silent",
    );
    passes(&mut story, 10299, 1, 1);
    story
}
