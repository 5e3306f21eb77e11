//! The night of the customer's letter.

use crate::ring::{declines, join, station_5, takes_token};
use crate::story::*;
use amsulfezd::answer::State::*;
use amsulfezd::record::{Decision, Poll, StationType, Telegram};

/// Ten past two in the morning, in microseconds since midnight.
const TEN_PAST_TWO: u64 = (2 * 60 + 10) * 60 * 1_000_000;

/// The application asks a cabinet, with 10 bytes.
fn asks(story: &mut Story, clock: u64, cabinet: u8, why: &str) {
    story.poll(
        Poll::at(clock).normal(0, Decision::asks(cabinet, 10)),
        sends_request(0, cabinet, 10),
        why,
    );
}

/// A cabinet answers.
fn answers(story: &mut Story, clock: u64, cabinet: u8) {
    story.poll(
        heard(
            clock,
            &[Telegram::response_with_status(
                cabinet,
                5,
                StationType::Slave,
                8,
            )],
        ),
        delay(UseToken).consumed(1).reply(0, cabinet),
        "the cabinet's reply (status 8: data) reaches the application",
    );
}

/// A panel is unplugged at 02:10, and the logger gets back to polling its other cabinets.
pub fn story() -> Story {
    let mut story = Story::new(
        "night",
        station_5(),
        "The letter's night: a panel is unplugged at 02:10",
        "The logger, station 5, shares the bus with an operator panel, station 9, and asks the cabinets 20, 21 and 22 for\n\
         their temperatures whenever it holds the token. The clock counts microseconds since midnight. At 02:10:00, which\n\
         is 7,800,000,000, somebody pulls the panel's plug just after the logger has passed the token to it. The logger\n\
         sends the token to the panel three times, one slot time apart, takes it out of the ring, takes the token itself\n\
         and asks its first cabinet again 1.43 ms after the plug was pulled; it goes on asking all three.",
    );
    let pulled = TEN_PAST_TWO;
    join(&mut story, pulled - 10_000, &[9]);
    takes_token(&mut story, pulled - 7_500, 9);
    story.poll(
        Poll::at(pulled - 7_434).normal(0, Decision::asks(20, 10)),
        delay(PassToken),
        "the first token of a station comes with its hold time over, since the last token time is 0 and the clock is far \
         on: only a high priority telegram may go, and the application has none; its normal one has to wait",
    );
    story.poll(
        Poll::at(pulled - 7_433),
        sends_token(CheckTokenPass, 9),
        "the token goes to the panel; it ends at 7,799,992,633",
    );
    story.poll(
        heard(pulled - 7_300, &[Telegram::token(9, 5)]),
        delay(UseToken).consumed(1),
        "the panel has nothing to do and passes the token back: it is accepted in the same poll",
    );
    asks(
        &mut story,
        pulled - 7_234,
        20,
        "now the hold time ends a rotation (64,872 us) after the token before: the application asks cabinet 20; 10 bytes are 220 us",
    );
    answers(&mut story, pulled - 6_700, 20);
    asks(
        &mut story,
        pulled - 6_634,
        21,
        "66 us later it asks cabinet 21",
    );
    answers(&mut story, pulled - 6_100, 21);
    asks(
        &mut story,
        pulled - 6_034,
        22,
        "66 us later it asks cabinet 22",
    );
    answers(&mut story, pulled - 5_500, 22);
    declines(&mut story, pulled - 5_434);
    story.poll(
        Poll::at(pulled - 5_433),
        sends_token(CheckTokenPass, 9),
        "the token goes to the panel",
    );
    story.poll(
        heard(pulled - 5_200, &[Telegram::request(9, 20)]),
        bus(ActiveIdle).consumed(1),
        "the panel is heard asking a cabinet, so it has the token: ActiveIdle",
    );
    story.poll(
        heard(
            pulled - 4_900,
            &[Telegram::response_with_status(20, 9, StationType::Slave, 8)],
        ),
        bus(ActiveIdle).consumed(1),
        "the cabinet answers the panel, not us",
    );
    takes_token(&mut story, pulled - 300, 9);
    declines(&mut story, pulled - 234);
    story.poll(
        Poll::at(pulled - 100),
        sends_token(CheckTokenPass, 9),
        "the token goes to the panel once more; it ends 34 us before 02:10:00. The panel never takes it up",
    );
    story.note(pulled, "the panel's plug is pulled");
    story.poll(
        Poll::at(pulled),
        bus(CheckTokenPass),
        "02:10:00, the plug is pulled; for the logger the slot time is still running",
    );
    story.poll(
        Poll::at(pulled + 366),
        sends_token(CheckTokenPass, 9),
        "400 us of silence: second token to the panel",
    );
    story.poll(
        Poll::at(pulled + 832),
        sends_token(CheckTokenPass, 9),
        "400 us of silence: third token to the panel",
    );
    story.alone();
    story.poll(
        Poll::at(pulled + 1_298),
        sends_token(UseToken, 5),
        "400 us of silence: the panel leaves the ring; the logger is alone and holds the token",
    );
    asks(
        &mut story,
        pulled + 1_430,
        20,
        "66 us after the end of its token it asks cabinet 20 again",
    );
    answers(&mut story, pulled + 1_950, 20);
    asks(&mut story, pulled + 2_016, 21, "it asks cabinet 21");
    answers(&mut story, pulled + 2_536, 21);
    asks(&mut story, pulled + 2_602, 22, "it asks cabinet 22");
    answers(&mut story, pulled + 3_122, 22);
    declines(&mut story, pulled + 3_188);
    story.poll(
        Poll::at(pulled + 3_189),
        sends_token(UseToken, 5),
        "the token goes to itself",
    );
    asks(
        &mut story,
        pulled + 3_321,
        20,
        "and the next round of the cabinets begins",
    );
    story
}
