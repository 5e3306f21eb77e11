//! Document 01's example 12, and a clock that goes back.

use crate::ring::{declines, station_5};
use crate::story::*;
use amsulfezd::answer::State::*;
use amsulfezd::record::{Poll, Telegram};

pub fn stories() -> Vec<Story> {
    vec![clock_goes_back()]
}

/// The first five entries of example 12: a lone station claims the token.
pub fn claims_as_example_12(story: &mut Story) {
    story.online("put online; the state stays Offline until the next poll");
    story.poll(
        Poll::at(1000),
        bus(ListenToken),
        "first poll: it listens; the last activity, unknown so far, is taken to be now",
    );
    story.poll(
        Poll::at(7399),
        bus(ListenToken),
        "6,399 us of silence: one less than the lost-token time of 200 x (6 + 2 x 5) bits",
    );
    story.poll(
        Poll::at(7400),
        sends_token(ClaimToken, 5),
        "6,400 us of silence: it claims the token by sending it to itself; 3 bytes are 33 bits, 66 us, and end at 7,466",
    );
    story.poll(
        Poll::at(7532),
        sends_token(UseToken, 5),
        "66 us after that, the pause of 33 bits: the claim is sent a second time, and it holds the token",
    );
}

/// Document 01's example 12.
pub fn example_12() -> Story {
    let mut story = Story::new(
        "example12",
        station_5(),
        "Document 01, example 12: a station alone on its bus claims the token",
        "Nobody else is there. After the lost-token time the station claims the token by sending it to itself twice.",
    );
    claims_as_example_12(&mut story);
    story.poll(
        Poll::at(7598),
        transmission(UseToken),
        "the second claim ends just now: a poll at the last activity counts as a transmission going on",
    );
    story
}

/// The clock may go back.
fn clock_goes_back() -> Story {
    let mut story = Story::new(
        "clock-goes-back",
        station_5(),
        "A clock that goes back",
        "A poll at or before the last activity counts as a transmission going on: it consumes nothing and does nothing. So a clock\n\
         that goes back stops the station until it has passed the last activity again. After a token at the clock's largest value\n\
         it never does; then only offline and online help.",
    );
    story.online("put online");
    story.poll(
        Poll::at(1000),
        bus(ListenToken),
        "it listens; the last activity is 1,000",
    );
    story.poll(
        heard(1000, &[Telegram::token(9, 12)]),
        transmission(ListenToken),
        "the clock stands still: the telegram is not consumed",
    );
    story.poll(
        heard(999, &[Telegram::token(9, 12)]),
        transmission(ListenToken),
        "the clock goes back: the same",
    );
    story.next_station(9);
    story.poll(
        heard(1001, &[Telegram::token(9, 12)]),
        bus(ListenToken).consumed(1),
        "one microsecond past the last activity: the telegram is consumed, 9 and 12 join the ring",
    );
    story.poll(
        Poll::at(0),
        transmission(ListenToken),
        "the clock goes back to 0; the last activity stays 1,001",
    );
    story.poll(Poll::at(1002), bus(ListenToken), "and comes again");
    story.poll(
        Poll::at(7400),
        bus(ListenToken),
        "6,399 us after the last activity: the polls in between have not moved it",
    );
    story.poll(
        Poll::at(7401),
        sends_token(ClaimToken, 5),
        "6,400 us: it claims the token, which ends at 7,467. A claim goes to ourselves although the ring has others",
    );
    story.poll(
        Poll::at(7533),
        sends_token(UseToken, 5),
        "the second claim ends at 7,599",
    );
    story.poll(
        Poll::at(7000),
        transmission(UseToken),
        "the clock goes back",
    );
    declines(&mut story, 7665);
    story.poll(
        Poll::at(7600),
        delay(PassToken),
        "the clock goes back, but not to the last activity: only the pause, 1 of 66 us, is unfinished",
    );
    story.poll(
        Poll::at((1 << 48) - 1),
        sends_token(CheckTokenPass, 9),
        "the largest clock value: the token goes to 9, and its end lies beyond every clock",
    );
    story.poll(
        Poll::at((1 << 48) - 1),
        transmission(CheckTokenPass),
        "so a transmission is going on",
    );
    story.poll(
        Poll::at(8000),
        transmission(CheckTokenPass),
        "whatever the clock says",
    );
    story.offline("taken offline: a fresh station");
    story.poll(Poll::at(8000), stays_offline(), "it is not online");
    story.online("put online");
    story.poll(
        Poll::at(8000),
        bus(ListenToken),
        "it listens; the last activity is 8,000",
    );
    story.poll(
        Poll::at(14400),
        sends_token(ClaimToken, 5),
        "6,400 us later it claims the token",
    );
    story
}
