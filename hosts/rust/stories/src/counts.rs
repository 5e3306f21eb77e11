//! Document 02, P6: the counts of a station's life. Stories of their own, and what the other stories come to.

use crate::bus::claims_as_example_12;
use crate::ring::{declines, join, station_5, takes_token};
use crate::story::*;
use amsulfezd::answer::State::*;
use amsulfezd::counts::Counts;
use amsulfezd::record::{Decision, Poll, StationType, Telegram};

pub fn stories() -> Vec<Story> {
    vec![
        claim(),
        removals(),
        listen_token(),
        active_idle(),
        by_command(),
        by_collision(),
        cut(),
    ]
}

/// Claims, removals and meetings.
const fn counts(claims: u32, removals: u32, meetings: u32) -> Counts {
    Counts {
        claims,
        removals,
        meetings,
    }
}

/// What other stories come to, and why.
const OTHERS: [(&str, Counts, &str); 35] = [
    ("example12", counts(1, 0, 0), "one claim; its second token is no other"),
    ("silent-neighbour-1", counts(0, 1, 0), "9 is removed after its third token"),
    ("silent-neighbour-2", counts(0, 2, 0), "9, and then 17"),
    ("silent-neighbour-5", counts(0, 5, 0), "all five, one after the other"),
    ("joining", counts(0, 0, 0), "30 leaves the ring by a pass that jumps it, which is no removal of ours"),
    ("gap-poll", counts(1, 0, 0), "one claim"),
    ("any-start/offline", counts(1, 0, 0), "silence leads to one claim"),
    ("any-start/listen-token", counts(1, 0, 0), "silence leads to one claim"),
    ("any-start/active-idle", counts(1, 0, 0), "silence leads to one claim"),
    ("any-start/claim-token", counts(1, 0, 0), "polls that wait between the two tokens enter nothing"),
    ("any-start/pass-token", counts(0, 1, 0), "9 is removed after its third token; those before were taken"),
    ("any-start/check-token-pass", counts(0, 1, 0), "9 is removed after its third token"),
    ("any-start/await-status-response", counts(0, 1, 0), "9 is removed after its third token"),
    ("alone", counts(1, 1, 0), "it claims, and later removes 0; offline at the end keeps both"),
    ("night", counts(0, 1, 0), "the panel, after the plug was pulled; nothing was claimed, as the token came back by itself"),
    ("collision-listen-token", counts(1, 0, 4), "two collisions take it offline, and two more again; then it claims"),
    ("collision-active-idle", counts(0, 0, 5), "the request is no collision; five tokens from our own address are"),
    ("applications", counts(2, 0, 0), "from ListenToken, and once more from ActiveIdle when the token was given up"),
    ("slow-reply", counts(1, 0, 0), "one claim"),
    ("unexpected", counts(0, 0, 2), "both heard by the poll in CheckTokenPass"),
    ("clock-goes-back", counts(2, 0, 0), "one claim before it was offline, one after it"),
    ("fine-points", counts(0, 0, 0), "a status request from our own address is no collision in ActiveIdle"),
    ("twelve-mbaud", counts(1, 0, 0), "one claim"),
    ("gap-room", counts(1, 0, 0), "one claim"),
    ("refused-entries", counts(1, 0, 0), "one claim, of accepted entries; offline keeps it"),
    ("cut-entry", counts(1, 0, 0), "the claim is in a whole entry"),
    ("cut-short-entry", counts(0, 0, 0), "no whole entry has an event"),
    ("headers/accepted-limits", counts(0, 0, 0), "online alone is no event"),
    ("edition-2/example12", counts(1, 0, 0), "as in edition 1"),
    ("edition-2/night", counts(0, 1, 0), "as in edition 1"),
    ("edition-2/applications", counts(2, 0, 0), "as in edition 1"),
    ("heard/own-address", counts(0, 0, 2), "the telegrams behind the second collision are heard and not counted"),
    ("heard/several", counts(0, 0, 0), "no event"),
    ("heard/not-consumed", counts(1, 0, 0), "one claim"),
    ("heard/cut", counts(0, 0, 0), "no event"),
];

/// Stories whose header is refused or cut: there are no counts.
const REFUSED: [&str; 7] = [
    "headers/03-hsa",
    "headers/17-cut",
    "headers/25-site",
    "edition-2/13-bytes",
    "edition-2/14-zero",
    "edition-2/83h-16-bytes",
    "edition-2/10-baud",
];

/// States the counts of those of these stories that are named above.
pub fn state(stories: &mut [Story]) {
    let find = |stories: &mut [Story], name: &str, stated: Stated| {
        let story = stories.iter_mut().find(|story| story.name == name);
        let story = story.unwrap_or_else(|| panic!("there is no story {}", name));
        story.counts = Some(stated);
    };
    for (name, counts, why) in OTHERS {
        find(stories, name, Stated::Counts(counts, why));
    }
    for name in REFUSED {
        find(stories, name, Stated::Nothing);
    }
}

/// One claim with its second token, and another one after the token was lost again.
fn claim() -> Story {
    let mut story = Story::new(
        "counts/claim",
        station_5(),
        "Counts: a claim and its second token",
        "Each entry to ClaimToken is counted. The second token of a claim is sent in that state and is no entry. Later the token is\n\
         given up and lost: the station claims a second time, from ActiveIdle.",
    );
    claims_as_example_12(&mut story);
    declines(&mut story, 7664);
    story.poll(
        Poll::at(7665),
        sends_token(UseToken, 5),
        "the token goes to itself, which is no claim; it ends at 7,731",
    );
    story.poll(
        Poll::at(7797).normal(0, Decision::asks(20, 10)),
        sends_request(0, 20, 10),
        "it asks 20; the request ends at 8,017",
    );
    story.poll(
        heard(8200, &[Telegram::request(9, 20)]),
        bus(ActiveIdle).consumed(1),
        "a request of 9 is no reply: the token is given up",
    );
    story.poll(
        Poll::at(14599),
        bus(ActiveIdle),
        "6,399 us of silence: one less than the lost-token time",
    );
    story.poll(
        Poll::at(14600),
        sends_token(ClaimToken, 5),
        "6,400 us: it enters ClaimToken a second time; the token ends at 14,666",
    );
    story.poll(
        Poll::at(14700),
        delay(ClaimToken),
        "34 us later the pause is unfinished: it is in ClaimToken still, and does not enter it",
    );
    story.counts(
        2,
        0,
        0,
        "two entries to ClaimToken, at 7,400 and at 14,600; not the second token at 7,532",
    );
    story
}

/// Removal of a neighbour, and a neighbour that leaves by a token between others.
fn removals() -> Story {
    let mut story = Story::new(
        "counts/removals",
        station_5(),
        "Counts: the removal of a neighbour",
        "A removal is counted when nobody is heard after a third token. Station 12 leaves the ring by a token between others, which\n\
         is not counted; 9 gets three tokens and is removed.",
    );
    join(&mut story, 1000, &[9, 12]);
    story.poll(
        heard(
            3000,
            &[Telegram::token(9, 20), Telegram::token(20, 9)],
        ),
        bus(ActiveIdle).consumed(2),
        "a token from 9 to 20 jumps 12, which leaves the ring; 20 joins it, and is the station before us",
    );
    takes_token(&mut story, 3300, 20);
    declines(&mut story, 3366);
    story.poll(
        Poll::at(3367),
        sends_token(CheckTokenPass, 9),
        "the first token to 9; it ends at 3,433",
    );
    story.poll(
        Poll::at(3833),
        sends_token(CheckTokenPass, 9),
        "400 us of silence: the second; it ends at 3,899",
    );
    story.poll(
        Poll::at(4299),
        sends_token(CheckTokenPass, 9),
        "400 us of silence: the third; it ends at 4,365",
    );
    story.poll(
        Poll::at(4764),
        bus(CheckTokenPass),
        "399 us: the slot time is not over",
    );
    story.next_station(20);
    story.poll(
        Poll::at(4765),
        sends_token(CheckTokenPass, 20),
        "400 us: 9 is removed, and the token goes to 20; it ends at 4,831",
    );
    story.poll(
        heard(5000, &[Telegram::request(20, 40)]),
        bus(ActiveIdle).consumed(1),
        "20 has taken it",
    );
    story.counts(0, 1, 0, "9; 12 was not removed by us");
    story
}

/// Two collisions in ListenToken with telegrams behind them.
fn listen_token() -> Story {
    let mut story = Story::new(
        "counts/listen-token",
        station_5(),
        "Counts: collisions in ListenToken",
        "In ListenToken any telegram from our own address is a collision. The second takes the station offline. Telegrams behind it in\n\
         the same poll are consumed and not counted. Telegrams to our own address are none.",
    );
    story.online("put online");
    story.next_station(9);
    story.poll(
        heard(
            1000,
            &[
                Telegram::response(5, 9, StationType::InRing),
                Telegram::token(9, 12),
                Telegram::request(9, 5),
            ],
        ),
        bus(ListenToken).consumed(3),
        "a response from 5 in the first poll: the first collision; 9's token and its request to us are none",
    );
    story.fresh();
    story.poll(
        heard(
            1500,
            &[
                Telegram::token(5, 9),
                Telegram::token(5, 9),
                Telegram::request(5, 9),
            ],
        ),
        bus(Offline).consumed(3),
        "the second collision is the first telegram: offline. The two from 5 behind it are not counted",
    );
    story.poll(
        heard(2000, &[Telegram::token(5, 9)]),
        stays_offline(),
        "offline: nothing is consumed, and nothing counted",
    );
    story.counts(
        0,
        0,
        2,
        "the response and the first token of the second poll",
    );
    story
}

/// Collisions in ActiveIdle, one of them heard in CheckTokenPass.
fn active_idle() -> Story {
    let mut story = Story::new(
        "counts/active-idle",
        station_5(),
        "Counts: collisions in ActiveIdle, and one through CheckTokenPass",
        "In ActiveIdle tokens from our own address are collisions, each one counted, also where another's token ends the row. The\n\
         first telegram after a pass leads to ActiveIdle and is looked at there. Behind the second in a row nothing is counted.",
    );
    join(&mut story, 1000, &[9]);
    story.poll(
        heard(
            3000,
            &[
                Telegram::token(5, 9),
                Telegram::request(5, 20),
                Telegram::token(9, 9),
                Telegram::token(5, 9),
                Telegram::token(9, 9),
            ],
        ),
        bus(ActiveIdle).consumed(5),
        "two tokens from 5, each ended by one of 9: two collisions in one poll. The request from 5 is none",
    );
    takes_token(&mut story, 3300, 9);
    declines(&mut story, 3366);
    story.poll(
        Poll::at(3367),
        sends_token(CheckTokenPass, 9),
        "the token goes to 9; it ends at 3,433",
    );
    story.poll(
        heard(3600, &[Telegram::token(5, 9)]),
        bus(ActiveIdle).consumed(1),
        "a token from 5 is heard after the pass: ActiveIdle, and a third collision, the first of a row",
    );
    story.poll(
        heard(
            3800,
            &[
                Telegram::request(5, 20),
                Telegram::token(5, 9),
                Telegram::token(5, 9),
                Telegram::token(9, 5),
            ],
        ),
        bus(ListenToken).consumed(4),
        "the request leaves the row; the second of the row is a fourth collision and leads to ListenToken. The token from 5 behind \
         it is not counted, and that from 9 not accepted",
    );
    story.poll(
        heard(4000, &[Telegram::request(5, 20)]),
        bus(ListenToken).consumed(1),
        "in ListenToken a request from 5 is a collision: the fifth in all, the first there",
    );
    story.counts(0, 0, 5, "2 + 1 + 1 in ActiveIdle, 1 in ListenToken");
    story
}

/// Claims, a removal and collisions, each kept over going offline by command.
fn by_command() -> Story {
    let mut story = Story::new(
        "counts/offline-by-command",
        station_5(),
        "Counts: they survive going offline by command",
        "The command offline makes a fresh station but for its counts: what is counted afterwards is added to what was.",
    );
    claims_as_example_12(&mut story);
    story.offline("taken offline: the claim stays counted");
    join(&mut story, 1000, &[9]);
    story.poll(
        heard(2600, &[Telegram::token(5, 9)]),
        bus(ActiveIdle).consumed(1),
        "a collision",
    );
    takes_token(&mut story, 2800, 9);
    declines(&mut story, 2866);
    story.poll(
        Poll::at(2867),
        sends_token(CheckTokenPass, 9),
        "the first token to 9; it ends at 2,933",
    );
    story.poll(
        Poll::at(3333),
        sends_token(CheckTokenPass, 9),
        "the second; it ends at 3,399",
    );
    story.poll(
        Poll::at(3799),
        sends_token(CheckTokenPass, 9),
        "the third; it ends at 3,865",
    );
    story.alone();
    story.poll(
        Poll::at(4265),
        sends_token(UseToken, 5),
        "9 is removed, and the token goes to itself",
    );
    story.offline("taken offline: the claim, the collision and the removal stay counted");
    story.offline("and once more");
    claims_as_example_12(&mut story);
    story.offline("and at the end");
    story.counts(
        2,
        1,
        1,
        "a claim before it was first taken offline and one after; the removal and the collision between",
    );
    story
}

/// The same where a second collision takes the station offline.
fn by_collision() -> Story {
    let mut story = Story::new(
        "counts/offline-by-collision",
        station_5(),
        "Counts: they survive going offline by collision",
        "The second collision in ListenToken makes a fresh station but for its counts. With one telegram more the last activity is\n\
         known, so that the first poll after online may claim.",
    );
    story.online("put online");
    story.poll(
        heard(
            1000,
            &[
                Telegram::token(5, 9),
                Telegram::token(5, 9),
                Telegram::token(9, 12),
            ],
        ),
        bus(Offline).consumed(3),
        "two collisions in the first poll: offline; the last activity is 1,000",
    );
    story.online("put online");
    story.poll(
        Poll::at(7400),
        sends_token(ClaimToken, 5),
        "6,400 us after it: the first poll goes from Offline by ListenToken to ClaimToken",
    );
    story.offline("taken offline");
    story.online("put online");
    story.poll(
        heard(2000, &[Telegram::request(5, 9)]),
        bus(ListenToken).consumed(1),
        "a collision: the count of the state begins with 1, that of the life goes on with 3",
    );
    story.poll(
        heard(2500, &[Telegram::response(5, 9, StationType::Slave)]),
        bus(Offline).consumed(1),
        "the second: offline again",
    );
    story.counts(1, 0, 4, "the claim between, and four collisions");
    story
}

/// A trace that ends inside an entry.
fn cut() -> Story {
    let mut story = Story::new(
        "counts/cut",
        station_5(),
        "Counts: a trace that ends inside an entry",
        "The counts are those of the whole entries; the entry that is cut is not counted.",
    );
    story.online("put online");
    story.poll(
        heard(1000, &[Telegram::token(5, 9)]),
        bus(ListenToken).consumed(1),
        "a collision",
    );
    let record = heard(2000, &[Telegram::token(5, 9)]).to_bytes(1);
    story.cut(
        &record.expect("a record that fits"),
        1,
        "a record with another token from 5, of which the last byte is missing",
    );
    story.counts(0, 0, 1, "one: the second is cut off");
    story
}
