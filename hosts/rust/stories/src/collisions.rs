//! Another station with our own address.

use crate::ring::{join, station_5};
use crate::story::*;
use amsulfezd::answer::State::*;
use amsulfezd::record::{Poll, StationType, Telegram};

pub fn stories() -> Vec<Story> {
    vec![in_listen_token(), in_active_idle()]
}

/// In ListenToken the count is kept, and the second collision takes the station offline.
fn in_listen_token() -> Story {
    let mut story = Story::new(
        "collision-listen-token",
        station_5(),
        "Address collision in ListenToken",
        "Another station uses our address, 5. In ListenToken any telegram from 5 counts, and the count is kept while\n\
         others are heard. At the second one the station goes offline and is fresh; only the command online brings it\n\
         back. If one more telegram follows in the same poll, the fresh station knows the last activity, so that after\n\
         online the very first poll may claim the token.",
    );
    story.online("put online");
    story.poll(Poll::at(1000), bus(ListenToken), "it listens");
    story.poll(
        heard(1500, &[Telegram::token(5, 9)]),
        bus(ListenToken).consumed(1),
        "a token from our own address: first collision; it is not witnessed",
    );
    story.next_station(9);
    story.poll(
        heard(2000, &[Telegram::token(9, 12)]),
        bus(ListenToken).consumed(1),
        "a token between others joins them to the ring; the count of collisions stays 1",
    );
    story.fresh();
    story.poll(
        heard(2500, &[Telegram::request(5, 20)]),
        bus(Offline).consumed(1),
        "a request from our own address: second collision; the station goes offline and is fresh",
    );
    story.poll(
        heard(3000, &[Telegram::token(9, 12)]),
        stays_offline(),
        "offline: nothing is consumed",
    );
    story.online("put online again");
    story.poll(
        Poll::at(9500),
        bus(ListenToken),
        "the last activity was forgotten, so it is taken to be now: it listens, and does not claim",
    );
    story.poll(
        heard(
            10000,
            &[
                Telegram::token(5, 9),
                Telegram::token(5, 9),
                Telegram::token(9, 12),
            ],
        ),
        bus(Offline).consumed(3),
        "two collisions and one telegram more in one poll: offline and fresh, but the last activity is 10,000",
    );
    story.online("put online a third time; the last activity is kept");
    story.poll(
        Poll::at(16400),
        sends_token(ClaimToken, 5),
        "6,400 us after it: the first poll goes from Offline by ListenToken to ClaimToken",
    );
    story
}

/// In ActiveIdle only tokens count, only back to back, and the second collision leads back to ListenToken.
fn in_active_idle() -> Story {
    let mut story = Story::new(
        "collision-active-idle",
        station_5(),
        "Address collision in ActiveIdle",
        "Station 5 is in the ring with 9 when another station with address 5 shows up. In ActiveIdle only tokens from 5\n\
         count, and only back to back: another station's token sets the count to 0. The second in a row leads back to\n\
         ListenToken; the ring is kept, so it is still ready and may come back at once.",
    );
    join(&mut story, 1000, &[9]);
    story.poll(
        heard(3000, &[Telegram::request(5, 20)]),
        bus(ActiveIdle).consumed(1),
        "a request from our own address: no token, not counted",
    );
    story.poll(
        heard(3500, &[Telegram::token(5, 9)]),
        bus(ActiveIdle).consumed(1),
        "a token from our own address: count 1",
    );
    story.poll(
        heard(4000, &[Telegram::token(9, 12)]),
        bus(ActiveIdle).consumed(1),
        "another station's token: count 0; 12 joins the ring, the next station stays 9",
    );
    story.poll(
        heard(4500, &[Telegram::token(5, 9)]),
        bus(ActiveIdle).consumed(1),
        "count 1 again",
    );
    story.poll(
        heard(5000, &[Telegram::token(5, 9)]),
        bus(ListenToken).consumed(1),
        "the second in a row: it leaves the ring and listens; the ring as we see it is kept (next station 9)",
    );
    story.poll(
        heard(5500, &[Telegram::status_request(12, 5)]),
        delay(ListenToken).consumed(1),
        "12, our previous station, asks who we are",
    );
    story.poll(
        Poll::at(5566),
        sends_status_response(ActiveIdle, 12, StationType::WithoutToken),
        "still ready: it answers \"without token\" and is in ActiveIdle again",
    );
    story.poll(
        heard(
            6000,
            &[
                Telegram::token(5, 9),
                Telegram::token(5, 9),
                Telegram::token(12, 5),
            ],
        ),
        bus(ListenToken).consumed(3),
        "two collisions and then the token to us in one poll: by then the state is ListenToken, and the token is not accepted",
    );
    story
}
