//! A station without neighbours: what its answers say, and when they name one.

use crate::ring::{declines, station_5, takes_token};
use crate::story::*;
use amsulfezd::answer::State::*;
use amsulfezd::record::{Poll, StationType, Telegram};
use amsulfezd::refusal::Refusal;
use amsulfezd::trace::Header;

/// A bad record: a silent poll's of this length, with one byte changed.
fn bad(length: usize, at: usize, byte: u8) -> Vec<u8> {
    let mut record = vec![0; length];
    record[at] = byte;
    record
}

/// Document 02, P5: alone, then two, then alone again; polls, commands and refused entries say it alike.
pub fn story() -> Story {
    let header = Header {
        gap_wait: 1,
        hsa: 8,
        ..station_5()
    };
    let mut story = Story::new(
        "alone",
        header,
        "A lone logger has no neighbour",
        "Station 5 is alone, and each answer says so by 127 as next station: of polls, of commands, of refused entries. Its tokens\n\
         go to itself, so their destination is 5. With HSA 8 its gap walk asks 6 and 7 and, from the start again, 0. Station 0\n\
         answers \"without token\" and is the next station from then on. It is unplugged, takes none of three tokens and leaves\n\
         the ring: the station is alone again.",
    );
    story.bad_record(
        &bad(8, 6, 0x48),
        Refusal::TelegramCount,
        "9 telegrams are announced: refused before it is online; a fresh station is alone",
    );
    story.online("put online; it is alone still");
    story.bad_record(
        &bad(7, 6, 0),
        Refusal::RecordLength,
        "7 bytes, fewer than 8: refused, and alone",
    );
    story.poll(Poll::at(1000), bus(ListenToken), "it listens");
    story.poll(
        Poll::at(7400),
        sends_token(ClaimToken, 5),
        "6,400 us of silence: it claims the token. The token's destination is our own address; the next station is nobody",
    );
    story.bad_record(
        &bad(14, 8, 0x80),
        Refusal::NoBytes,
        "a send of 0 bytes: refused in ClaimToken, and alone",
    );
    story.poll(
        Poll::at(7532),
        sends_token(UseToken, 5),
        "66 us after the end of the first, the second token to ourselves: it holds the token",
    );
    story.online("it is online already; alone");
    declines(&mut story, 7664);
    story.poll(
        Poll::at(7665),
        sends_token(UseToken, 5),
        "pass 1: nobody is next, so the token goes to ourselves; the gap count becomes 1",
    );
    declines(&mut story, 7797);
    story.poll(
        Poll::at(7798),
        sends_token(UseToken, 5),
        "pass 2: the count becomes 2",
    );
    declines(&mut story, 7930);
    story.poll(
        Poll::at(7931),
        sends_status_request(6),
        "pass 3: the count of 2 is above the gap wait of 1; alone, the walk goes over all other addresses below HSA: 6 is asked",
    );
    story.poll(
        Poll::at(8463),
        sends_token(UseToken, 5),
        "400 us after the end of the request: 6 is not there, and the token goes to ourselves",
    );
    declines(&mut story, 8595);
    story.poll(
        Poll::at(8596),
        sends_status_request(7),
        "the walk goes on with 7",
    );
    story.poll(
        heard(9000, &[Telegram::response(7, 5, StationType::Slave)]),
        delay(PassToken).consumed(1),
        "7 is a slave, which no ring has: alone",
    );
    story.poll(
        Poll::at(9066),
        sends_token(UseToken, 5),
        "the token goes to ourselves",
    );
    declines(&mut story, 9198);
    story.poll(
        Poll::at(9199),
        sends_status_request(0),
        "7 + 1 is at HSA, so the walk goes on with 0, below our own address",
    );
    story.next_station(0);
    story.poll(
        heard(9600, &[Telegram::response(0, 5, StationType::WithoutToken)]),
        delay(PassToken).consumed(1),
        "0 answers \"without token\" with status Ok: it joins the ring. From nobody the next station becomes 0",
    );
    story.bad_record(
        &bad(14, 13, 1),
        Refusal::ZeroBit,
        "a bit that should be zero: refused in a ring of two, and the answer names the neighbour",
    );
    story.poll(
        Poll::at(9666),
        sends_token(CheckTokenPass, 0),
        "the token goes to 0; it ends at 9,732",
    );
    takes_token(&mut story, 9900, 0);
    declines(&mut story, 9966);
    story.poll(
        Poll::at(9967),
        sends_token(CheckTokenPass, 0),
        "the walk's next candidate, 1, does not lie between 5 and 0: the walk is over, the count starts at 0, and the token goes \
         to 0. It ends at 10,033; 0 is unplugged and does not take it up",
    );
    story.poll(
        Poll::at(10433),
        sends_token(CheckTokenPass, 0),
        "400 us of silence: second token to 0",
    );
    story.online("it is online already; the next station is 0 still");
    story.poll(
        Poll::at(10899),
        sends_token(CheckTokenPass, 0),
        "400 us of silence: third token to 0; it ends at 10,965",
    );
    story.poll(
        Poll::at(11364),
        bus(CheckTokenPass),
        "399 us: the slot time is not over, and 0 is the next station",
    );
    story.alone();
    story.poll(
        Poll::at(11365),
        sends_token(UseToken, 5),
        "400 us: 0 leaves the ring in this poll, which passes the token to ourselves and says that we are alone",
    );
    story.bad_record(
        &bad(14, 13, 1),
        Refusal::ZeroBit,
        "the same record: refused, and alone again",
    );
    story.online("it is online already; alone");
    declines(&mut story, 11497);
    story.poll(
        Poll::at(11498),
        sends_token(UseToken, 5),
        "the token goes to ourselves; the gap count of 0 becomes 1",
    );
    story.offline("a fresh station, alone as before");
    story
}
