//! Document 02, P3: at 12 Mbaud 12 bits take a microsecond, and times worked out from bits are rounded up.

use crate::ring::declines;
use crate::story::*;
use amsulfezd::answer::State::*;
use amsulfezd::record::{Decision, Poll, StationType, Telegram};
use amsulfezd::trace::Header;

/// Station 5 at 12 Mbaud with one application. Pause 33 bits, 2 3/4 us, so 3; slot 1,000 bits, 83 1/3, so 84; lost
/// 16,000 bits, 1,333 1/3, so 1,334; rotation 40,005 bits, 3,333 3/4, so 3,334; slot + 100 bits, 91 2/3, so 92.
fn station_5() -> Header {
    Header {
        slot_bits: 1000,
        rotation_bits: 40_005,
        gap_wait: 1,
        ..Header::new(5, 10, 1)
    }
}

pub fn story() -> Story {
    let mut story = Story::new(
        "twelve-mbaud",
        station_5(),
        "12 Mbaud: times are rounded up",
        "12 bits take a microsecond, so most times worked out from bits are no whole number of microseconds. Rounded down, as\n\
         document 01 had it, the pause of 33 bits was 2 us, which is 24 bits: the station spoke too soon. Rounded up, as document 02\n\
         (P3) has it, the pause is 3 us, a token or a pause is never taken to be shorter than it lasts, and all other times follow:\n\
         slot 84 us, lost token 1,334, rotation 3,334, slot + 100 bits 92, 6 bytes 6, 10 bytes 10. Each is rounded by itself.",
    );
    story.online("put online; the state stays Offline until the next poll");
    story.poll(
        Poll::at(1000),
        bus(ListenToken),
        "first poll: it listens; the last activity, unknown so far, is taken to be now",
    );
    story.poll(
        heard(1100, &[Telegram::status_request(9, 5)]),
        delay(ListenToken).consumed(1),
        "9 asks who we are; the request is noted and waits for the pause",
    );
    story.poll(
        Poll::at(1102),
        delay(ListenToken),
        "2 us later, which is 24 bits: the pause of 33 bits is not over. Here the station spoke too soon when times were rounded down",
    );
    story.poll(
        Poll::at(1103),
        sends_status_response(ListenToken, 9, StationType::NotReady),
        "3 us later, which is 36 bits: it answers \"not ready\"; 6 bytes are 66 bits, 5 1/2 us, and end at 1,109",
    );
    story.poll(
        Poll::at(2442),
        bus(ListenToken),
        "1,333 us of silence: the lost-token time of 1,000 x (6 + 2 x 5) bits is 1,333 1/3 us, and has not gone by",
    );
    story.poll(
        Poll::at(2443),
        sends_token(ClaimToken, 5),
        "1,334 us of silence: it claims the token by sending it to itself; 3 bytes are 33 bits, 2 3/4 us, and end at 2,446",
    );
    story.poll(
        Poll::at(2446),
        transmission(ClaimToken),
        "the claim ends just now: a poll at the last activity counts as a transmission going on",
    );
    story.poll(
        Poll::at(2448),
        delay(ClaimToken),
        "2 us after its end: the pause is not over",
    );
    story.poll(
        Poll::at(2449),
        sends_token(UseToken, 5),
        "3 us after its end: the claim is sent a second time, and it holds the token. It ends at 2,452",
    );
    story.poll(
        Poll::at(2454).normal(0, Decision::asks(20, 10)),
        delay(UseToken),
        "again 2 us after the end: the application is not asked yet",
    );
    story.poll(
        Poll::at(2455).normal(0, Decision::asks(20, 10)),
        sends_request(0, 20, 10),
        "again 3 us after the end: application 0 asks 20; 10 bytes are 110 bits, 9 1/6 us, and end at 2,465",
    );
    story.poll(
        Poll::at(2465),
        transmission(AwaitDataResponse),
        "so at 2,465 its telegram is still on the bus",
    );
    story.poll(
        Poll::at(2548),
        bus(AwaitDataResponse),
        "83 us after the end: the slot of 1,000 bits is 83 1/3 us, and is not over",
    );
    story.poll(
        Poll::at(2549),
        delay(PassToken).timeout(0, 20),
        "84 us: application 0 is told that 20 did not reply; it declines, so its cycle is complete",
    );
    story.poll(
        Poll::at(2550),
        sends_token(UseToken, 5),
        "pass 1: the token goes to ourselves and ends at 2,553",
    );
    story.poll(
        Poll::at(5782).normal(0, Decision::tells(6)),
        sends_data(0, false, 6),
        "the hold time ends a rotation after the token before, at 2,449 + 3,334 = 5,783: one microsecond before it, normal priority \
         is asked. 6 bytes are 66 bits, 5 1/2 us, and end at 5,788",
    );
    story.poll(
        Poll::at(5791).normal(0, Decision::tells(6)),
        delay(PassToken),
        "the hold time is over, and a cycle was done: the application is not asked",
    );
    story.poll(
        Poll::at(5792),
        sends_token(UseToken, 5),
        "pass 2: the token goes to ourselves and ends at 5,795",
    );
    declines(&mut story, 5798);
    story.poll(
        Poll::at(5799),
        sends_status_request(6),
        "pass 3: the count of 2 is above 1; the walk starts at 5 and asks 6. The request's 6 bytes end at 5,805",
    );
    story.poll(
        Poll::at(5888),
        bus(AwaitStatusResponse),
        "83 us without an answer: the slot is not over",
    );
    story.poll(
        Poll::at(5889),
        sends_token(UseToken, 5),
        "84 us: 6 is not there; the token is passed in the same poll, to ourselves, and ends at 5,892",
    );
    story.poll(
        Poll::at(9034).normal(0, Decision::tells(6)),
        delay(PassToken),
        "the gap is being polled, so slot + 100 bits are taken off the hold time. It ends at 5,792 + 3,334 - 92 = 9,034, just now: \
         only high priority is asked, and the application has none. (Rounded together, 38,905 bits would be 3,243 us.)",
    );
    story
}
