//! Document 02, P7: who was heard, and when.

use crate::bus::claims_as_example_12;
use crate::ring::station_5;
use crate::story::*;
use amsulfezd::answer::State::*;
use amsulfezd::record::{Decision, Poll, StationType, Telegram};

pub fn stories() -> Vec<Story> {
    vec![
        clock_goes_back(),
        types(),
        own_address(),
        several(),
        not_consumed(),
        cut(),
    ]
}

/// First is kept and last moves, whatever the clock does; offline in between.
fn clock_goes_back() -> Story {
    let mut story = Story::new(
        "heard/clock-goes-back",
        station_5(),
        "Who was heard: a clock that goes back, and offline in between",
        "First and last are in the order of hearing. A clock at or before the last activity consumes nothing, so nobody is\n\
         heard then; after offline and online the station is fresh and takes any clock, and what was heard is kept.",
    );
    story.online("put online");
    story.next_station(9);
    story.poll(
        heard(4000, &[Telegram::token(9, 12)]),
        bus(ListenToken).consumed(1),
        "9 is heard for the first time",
    );
    story.poll(
        heard(5000, &[Telegram::token(9, 12), Telegram::token(12, 9)]),
        bus(ListenToken).consumed(2),
        "9 again, and 12",
    );
    story.poll(
        heard(4500, &[Telegram::token(12, 9)]),
        transmission(ListenToken),
        "before the last activity: a transmission counts as going on, nothing is consumed, and 12 is not heard",
    );
    story.offline("taken offline: the station is fresh, and what was heard stays");
    story.poll(
        heard(5500, &[Telegram::token(12, 9)]),
        stays_offline(),
        "offline: nothing is consumed, and nobody is heard",
    );
    story.online("put online again");
    story.next_station(9);
    story.poll(
        heard(1000, &[Telegram::token(9, 12)]),
        bus(ListenToken).consumed(1),
        "the clock has gone back: 9 is heard a third time, at 1,000",
    );
    story.heard(9, 3, (4000, 1000), None, "last is below first");
    story.heard(
        12,
        1,
        (5000, 5000),
        None,
        "heard once; as destination it is never heard",
    );
    story
}

/// The type of the last response.
fn types() -> Story {
    let mut story = Story::new(
        "heard/types",
        station_5(),
        "Who was heard: the type of the last response",
        "A response gives the type, also with a status other than Ok and to another station. Telegrams that are no responses\n\
         leave it.",
    );
    story.online("put online");
    story.poll(
        heard(
            1000,
            &[
                Telegram::response(20, 9, StationType::Slave),
                Telegram::response_with_status(21, 9, StationType::NotReady, 3),
                Telegram::response(22, 9, StationType::InRing),
            ],
        ),
        bus(ListenToken).consumed(3),
        "three responses to 9: slave, not ready with status 3, in ring",
    );
    story.next_station(9);
    story.poll(
        heard(
            2000,
            &[
                Telegram::token(9, 22),
                Telegram::token(22, 9),
                Telegram::request(21, 9),
                Telegram::response(20, 9, StationType::WithoutToken),
            ],
        ),
        bus(ListenToken).consumed(4),
        "a token from 22 and a request from 21 leave their types; 20 says another",
    );
    story.heard(9, 1, (2000, 2000), None, "a token, and no response");
    story.heard(
        20,
        2,
        (1000, 2000),
        Some(StationType::WithoutToken),
        "the later response",
    );
    story.heard(
        21,
        2,
        (1000, 2000),
        Some(StationType::NotReady),
        "its status is not asked for; the request leaves the type",
    );
    story.heard(
        22,
        2,
        (1000, 2000),
        Some(StationType::InRing),
        "the token leaves the type",
    );
    story
}

/// Our own address as source, and telegrams behind a second collision.
fn own_address() -> Story {
    let mut story = Story::new(
        "heard/own-address",
        station_5(),
        "Who was heard: our own address, and telegrams behind a second collision",
        "Another station uses our address. It has an entry like any other. Telegrams behind the second collision are consumed,\n\
         and so they are heard, though the station is offline by then.",
    );
    story.online("put online");
    story.poll(
        heard(1000, &[Telegram::token(5, 9)]),
        bus(ListenToken).consumed(1),
        "first collision; a token from our own address is not witnessed",
    );
    story.poll(
        heard(
            2000,
            &[
                Telegram::response(5, 9, StationType::InRing),
                Telegram::token(9, 12),
                Telegram::token(5, 9),
            ],
        ),
        bus(Offline).consumed(3),
        "the second collision is the first telegram; the two behind it are consumed too",
    );
    story.poll(
        heard(3000, &[Telegram::token(9, 12)]),
        stays_offline(),
        "offline: nobody is heard",
    );
    story.heard(
        5,
        3,
        (1000, 2000),
        Some(StationType::InRing),
        "both collisions and the token behind them",
    );
    story.heard(9, 1, (2000, 2000), None, "behind the second collision");
    story
}

/// Several telegrams of one address in a poll; what is skipped.
fn several() -> Story {
    let mut story = Story::new(
        "heard/several",
        station_5(),
        "Who was heard: several in one poll, and who is skipped",
        "Each telegram counts, also several of one address in a poll. 126, 127 and short confirmations are skipped.",
    );
    story.online("put online");
    story.poll(
        heard(
            0,
            &[
                Telegram::request(0, 125),
                Telegram::request(126, 9),
                Telegram::request(0, 125),
                Telegram::ShortConfirmation,
                Telegram::response(127, 9, StationType::Slave),
                Telegram::request(125, 0),
                Telegram::request(0, 126),
                Telegram::response(126, 9, StationType::InRing),
            ],
        ),
        bus(ListenToken).consumed(8),
        "eight telegrams at clock 0: three from 0, one from 125, four that are skipped",
    );
    story.heard(0, 3, (0, 0), None, "three in one poll, at clock 0");
    story.heard(
        125,
        1,
        (0, 0),
        None,
        "the last address; 126 and 127 have no entry",
    );
    story
}

/// Telegrams that a poll does not consume.
fn not_consumed() -> Story {
    let mut story = Story::new(
        "heard/not-consumed",
        station_5(),
        "Who was heard: only what was consumed",
        "A station that holds the token consumes nothing, one that waits for a reply the first telegram alone.",
    );
    claims_as_example_12(&mut story);
    story.poll(
        Poll::at(7664)
            .telegram(Telegram::token(9, 12))
            .normal(0, Decision::asks(20, 10)),
        sends_request(0, 20, 10),
        "it holds the token: 9 is not heard (no byte is pending, which would count as activity). Its 10 bytes end at 7,884",
    );
    story.poll(
        heard(
            8000,
            &[
                Telegram::response(20, 5, StationType::Slave),
                Telegram::response(21, 5, StationType::Slave),
            ],
        ),
        delay(UseToken).consumed(1).reply(0, 20),
        "the reply of 20 is taken; 21 behind it is not consumed, and not heard",
    );
    story.heard(20, 1, (8000, 8000), Some(StationType::Slave), "the reply");
    story
}

/// A trace that ends inside an entry.
fn cut() -> Story {
    let mut story = Story::new(
        "heard/cut",
        station_5(),
        "Who was heard: a trace that ends inside an entry",
        "What the whole entries make is there; the entry that is cut is not heard.",
    );
    story.online("put online");
    story.next_station(9);
    story.poll(
        heard(1000, &[Telegram::token(9, 12)]),
        bus(ListenToken).consumed(1),
        "9 is heard",
    );
    let record = heard(2000, &[Telegram::token(9, 12)]).to_bytes(1);
    story.cut(
        &record.expect("a record that fits"),
        1,
        "a record with another token from 9, of which the last byte is missing",
    );
    story.heard(9, 1, (1000, 1000), None, "once: the second time is cut off");
    story
}
