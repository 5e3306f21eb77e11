//! Document 02, P10: the passive station. It answers status requests, witnesses tokens, and never takes the token.

use crate::any_start::{question_due, with_gap};
use crate::ring::{declines, join, station_5, takes_token};
use crate::story::*;
use amsulfezd::answer::State::*;
use amsulfezd::record::{Decision, Poll, StationType, Telegram};

pub fn stories() -> Vec<Story> {
    vec![
        spare_logger(),
        in_offline(),
        in_listen_token(),
        in_active_idle(),
        in_use_token(),
        in_claim_token(),
        in_await_data_response(),
        in_pass_token(),
        in_check_token_pass(),
        in_await_status_response(),
        in_passive_idle(),
        after_a_collision(),
        own_address(),
        no_poll_between(),
        claims_at_once(),
        unknown_activity(),
    ]
}

/// A spare logger beside a working one.
fn spare_logger() -> Story {
    let mut story = Story::new(
        "passive/spare-logger",
        station_5(),
        "A spare logger beside a working one",
        "Logger 7 works in a ring with station 9. Logger 5 is its spare: it is passive, follows the ring, says \"slave\" to whoever\n\
         asks, and takes no token. When 7 and 9 are switched off it stays as quiet as they are. Then it is put online: its\n\
         last activity is long ago, so it claims the token in its first poll and asks the cabinet.",
    );
    story.passive("the spare is told to be passive; its state stays Offline until the next poll");
    story.poll(
        Poll::at(1000),
        bus(PassiveIdle),
        "first poll: it is passive; nothing is heard, and no time is asked for",
    );
    story.next_station(7);
    story.poll(
        heard(1500, &[Telegram::token(7, 9), Telegram::token(9, 7)]),
        bus(PassiveIdle).consumed(2),
        "the token goes once round 7 and 9: they join the ring as the spare sees it, and laps is 1",
    );
    story.poll(
        heard(2000, &[Telegram::token(7, 9), Telegram::token(9, 7)]),
        bus(PassiveIdle).consumed(2),
        "a second round without a change: laps is 2, the ring is ready",
    );
    story.poll(
        heard(2300, &[Telegram::status_request(9, 5)]),
        delay(PassiveIdle).consumed(1),
        "9, the station before us in the ring, asks who we are; the request is noted and waits for the pause",
    );
    story.poll(
        Poll::at(2365),
        delay(PassiveIdle),
        "65 us later: the pause is unfinished",
    );
    story.poll(
        Poll::at(2366),
        sends_status_response(PassiveIdle, 9, StationType::Slave),
        "66 us: it answers. An online station would say \"without token\" now; a passive one says \"slave\", ready or not. The \
         answer ends at 2,498",
    );
    story.poll(
        heard(2700, &[Telegram::token(9, 5)]),
        bus(PassiveIdle).consumed(1),
        "9 passes the token to us all the same: it is witnessed, and not taken",
    );
    story.poll(
        heard(2900, &[Telegram::status_request(126, 5)]),
        delay(PassiveIdle).consumed(1),
        "a service device without an address, 126, asks",
    );
    story.poll(
        Poll::at(2966),
        sends_status_response(PassiveIdle, 126, StationType::Slave),
        "66 us later it is answered; the answer ends at 3,098. From here on the bus is dead: 7 and 9 are switched off",
    );
    story.poll(
        Poll::at(9498),
        bus(PassiveIdle),
        "6,400 us after the last activity, where a station that listens would claim the token: it does not",
    );
    story.poll(
        Poll::at(20_000),
        bus(PassiveIdle),
        "nor later, however long it takes",
    );
    story.online("the spare is put online; it shows PassiveIdle until the next poll");
    story.poll(
        Poll::at(20_100),
        sends_token(ClaimToken, 5),
        "by a fresh ListenToken to ClaimToken in one poll: the last activity, 3,098, is more than 6,400 us ago. The ring is as it \
         was seen, with 7 as next station. The token ends at 20,166",
    );
    story.poll(
        Poll::at(20_232),
        sends_token(UseToken, 5),
        "66 us later the second token to ourselves; it holds the token. It ends at 20,298",
    );
    story.poll(
        Poll::at(20_364).normal(0, Decision::asks(20, 10)),
        sends_request(0, 20, 10),
        "the application asks the cabinet",
    );
    story.counts(
        1,
        0,
        0,
        "it claims when it is put online; while it was passive it did not",
    );
    story
}

/// Offline becomes PassiveIdle first thing in a poll.
fn in_offline() -> Story {
    let mut story = Story::new(
        "passive/offline",
        station_5(),
        "Passive in Offline",
        "The command's own answer shows the old state, and so does a second passive. The state changes first thing in the next\n\
         poll, before a transmission is asked for: so also in a poll that finds one going on.",
    );
    story.passive("told to be passive: the answer shows Offline");
    story.passive("and again: nothing");
    story.poll(
        heard(1000, &[Telegram::token(9, 12)]).transmitting(),
        transmission(PassiveIdle),
        "the port is transmitting: the state has changed all the same; nothing is consumed, and the activity is 1,000",
    );
    story.poll(
        Poll::at(1000),
        transmission(PassiveIdle),
        "a poll at the last activity counts as a transmission going on",
    );
    story.poll(
        Poll::at(1001),
        bus(PassiveIdle),
        "one microsecond later it is over",
    );
    story.offline("taken offline: a fresh station");
    story.poll(Poll::at(1002), stays_offline(), "it is offline");
    story.passive("passive again");
    story.poll(
        Poll::at(1002),
        bus(PassiveIdle),
        "and with the next poll it is passive; the activity was forgotten",
    );
    story.counts(0, 0, 0, "no event");
    story
}

/// ListenToken becomes PassiveIdle, which forgets the request and the collision and keeps the ring.
fn in_listen_token() -> Story {
    let mut story = Story::new(
        "passive/listen-token",
        station_5(),
        "Passive in ListenToken",
        "Station 5 listens, has met its own address once, has seen one lap and has noted a request when it is told to be passive.\n\
         Request and collision are forgotten, the lap is kept. The lost token is not asked for any more. Put online again it\n\
         listens afresh.",
    );
    story.online("put online");
    story.poll(Poll::at(1000), bus(ListenToken), "it listens");
    story.poll(
        heard(1200, &[Telegram::token(5, 9)]),
        bus(ListenToken).consumed(1),
        "a token from our own address: first collision",
    );
    story.next_station(9);
    story.poll(
        heard(1500, &[Telegram::token(9, 9)]),
        bus(ListenToken).consumed(1),
        "9 has the token to itself: it joins the ring as we see it, and laps is 1",
    );
    story.poll(
        heard(2000, &[Telegram::status_request(9, 5)]),
        delay(ListenToken).consumed(1),
        "9 asks who we are; the request is noted",
    );
    story.passive("told to be passive: the answer shows ListenToken");
    story.poll(
        Poll::at(2066),
        bus(PassiveIdle),
        "the pause is over, but the request is forgotten: nothing is sent",
    );
    story.poll(
        Poll::at(8400),
        bus(PassiveIdle),
        "6,400 us after the last activity: a station that listens would claim the token, this one does not",
    );
    story.poll(
        heard(8500, &[Telegram::token(9, 9)]),
        bus(PassiveIdle).consumed(1),
        "the lap was kept: with this one laps is 2, and the ring is ready",
    );
    story.online("put online: the answer shows PassiveIdle");
    story.poll(Poll::at(8600), bus(ListenToken), "a fresh ListenToken");
    story.poll(
        heard(8700, &[Telegram::token(5, 9)]),
        bus(ListenToken).consumed(1),
        "a token from our own address: the first again, as the earlier one is forgotten; it does not go offline",
    );
    story.poll(
        heard(8800, &[Telegram::status_request(9, 5)]),
        delay(ListenToken).consumed(1),
        "9 asks again",
    );
    story.poll(
        Poll::at(8866),
        sends_status_response(ActiveIdle, 9, StationType::WithoutToken),
        "the ring is ready and 9 is our previous station: \"without token\", and it takes part in the ring",
    );
    story.counts(0, 0, 2, "one collision before it was passive, and one after; neither is lost, though the station forgets the first");
    story
}

/// ActiveIdle becomes PassiveIdle, which forgets the remembered station.
fn in_active_idle() -> Story {
    let mut story = Story::new(
        "passive/active-idle",
        station_5(),
        "Passive in ActiveIdle",
        "Station 5 is in the ring with 9, remembers a token from the stranger 12 and has noted a request when it is told to be\n\
         passive. Request and stranger are forgotten; the ring is kept, ready as it was, so that after online one answer leads\n\
         back into it.",
    );
    join(&mut story, 1000, &[9]);
    story.poll(
        heard(2600, &[Telegram::token(12, 5)]),
        bus(ActiveIdle).consumed(1),
        "a token from 12, which is not our previous station: remembered",
    );
    story.poll(
        heard(2700, &[Telegram::status_request(9, 5)]),
        delay(ActiveIdle).consumed(1),
        "9 asks who we are; the request is noted",
    );
    story.passive("told to be passive: the answer shows ActiveIdle");
    story.poll(
        Poll::at(2766),
        bus(PassiveIdle),
        "the pause is over, but the request is forgotten: nothing is sent",
    );
    story.poll(
        Poll::at(9100),
        bus(PassiveIdle),
        "6,400 us after the last activity: no token is claimed",
    );
    story.poll(
        heard(9200, &[Telegram::token(9, 5)]),
        bus(PassiveIdle).consumed(1),
        "a token from our previous station: witnessed, and not taken",
    );
    story.online("put online: the answer shows PassiveIdle");
    story.poll(Poll::at(9300), bus(ListenToken), "a fresh ListenToken");
    story.poll(
        heard(9400, &[Telegram::status_request(9, 5)]),
        delay(ListenToken).consumed(1),
        "9 asks who we are",
    );
    story.poll(
        Poll::at(9466),
        sends_status_response(ActiveIdle, 9, StationType::WithoutToken),
        "the ring is ready still: \"without token\", and it is in the ring again. The answer ends at 9,598",
    );
    story.poll(
        heard(9700, &[Telegram::token(12, 5)]),
        bus(ActiveIdle).consumed(1),
        "12 is a stranger again, and is remembered anew",
    );
    story.poll(
        heard(9800, &[Telegram::token(12, 5)]),
        delay(UseToken).consumed(1),
        "the second time it is accepted; 12 joins the ring, the next station stays 9",
    );
    story.counts(0, 0, 0, "a stranger's token is no collision");
    story
}

/// The token to 9, who takes it up: ActiveIdle is shown, and PassiveIdle in the next poll.
fn taken_up(story: &mut Story, clock: u64) {
    story.poll(
        heard(clock, &[Telegram::token(9, 12)]),
        bus(ActiveIdle).consumed(1),
        "9 is heard and has the token; 12 joins the ring. ActiveIdle is reached within the poll and is shown",
    );
    story.poll(
        Poll::at(clock + 100),
        bus(PassiveIdle),
        "with the next poll it is passive",
    );
}

/// UseToken goes on: the application sends, the token is passed.
fn in_use_token() -> Story {
    let mut story = Story::new(
        "passive/use-token",
        station_5(),
        "Passive in UseToken",
        "Station 5 holds the token when it is told to be passive. Nothing hurries it: its application sends and gets its reply,\n\
         the token goes on to 9, and only when 9 has taken it up the station is passive.",
    );
    join(&mut story, 1000, &[9]);
    takes_token(&mut story, 2700, 9);
    story.passive("told to be passive: the answer shows UseToken");
    story.poll(
        Poll::at(2766).normal(0, Decision::asks(20, 10)),
        sends_request(0, 20, 10),
        "the application is asked, and asks its cabinet; the telegram ends at 2,986",
    );
    story.poll(
        heard(3300, &[Telegram::response(20, 5, StationType::Slave)]),
        delay(UseToken).consumed(1).reply(0, 20),
        "the reply comes",
    );
    declines(&mut story, 3366);
    story.poll(
        Poll::at(3367),
        sends_token(CheckTokenPass, 9),
        "the token goes to 9; it ends at 3,433",
    );
    taken_up(&mut story, 3600);
    story.counts(0, 0, 0, "no event");
    story
}

/// ClaimToken sends its second token; a passive station that is alone keeps the token.
fn in_claim_token() -> Story {
    let mut story = Story::new(
        "passive/claim-token",
        station_5(),
        "Passive in ClaimToken",
        "Station 5 has claimed the lost token once when it is told to be passive. It sends its second token, as the source does.\n\
         Alone with the token it passes it to itself for ever: UseToken and PassToken do not lead to PassiveIdle. Offline ends it.",
    );
    story.online("put online");
    story.poll(Poll::at(1000), bus(ListenToken), "it listens");
    story.poll(
        Poll::at(7400),
        sends_token(ClaimToken, 5),
        "6,400 us of silence: it claims the token, which ends at 7,466",
    );
    story.passive("told to be passive: the answer shows ClaimToken");
    story.poll(
        Poll::at(7532),
        sends_token(UseToken, 5),
        "the second token is sent: it holds the token",
    );
    declines(&mut story, 7664);
    story.poll(
        Poll::at(7665),
        sends_token(UseToken, 5),
        "nobody is next, so the token goes to ourselves",
    );
    declines(&mut story, 7797);
    story.poll(Poll::at(7798), sends_token(UseToken, 5), "and again");
    story.offline("taken offline: a fresh station");
    story.poll(
        Poll::at(7900),
        stays_offline(),
        "and neither online nor passive",
    );
    story.counts(
        1,
        0,
        0,
        "one claim; its second token, sent while passive, is no other",
    );
    story
}

/// AwaitDataResponse goes on; CheckTokenPass may be given the token again.
fn in_await_data_response() -> Story {
    let mut story = Story::new(
        "passive/await-data-response",
        station_5(),
        "Passive in AwaitDataResponse",
        "Station 5 waits for a reply when it is told to be passive. No reply comes: the application gets its timeout, and the\n\
         token goes to 9, which gives it back. CheckTokenPass may be given the token again: it is taken, and passed on once more.",
    );
    join(&mut story, 1000, &[9]);
    takes_token(&mut story, 2700, 9);
    story.poll(
        Poll::at(2766).normal(0, Decision::asks(20, 10)),
        sends_request(0, 20, 10),
        "the application asks its cabinet; the telegram ends at 2,986",
    );
    story.passive("told to be passive: the answer shows AwaitDataResponse");
    story.poll(
        Poll::at(3386),
        delay(PassToken).timeout(0, 20),
        "400 us without a reply: the application is told, and has nothing more to send",
    );
    story.poll(
        Poll::at(3387),
        sends_token(CheckTokenPass, 9),
        "the token goes to 9; it ends at 3,453",
    );
    takes_token(&mut story, 3600, 9);
    declines(&mut story, 3666);
    story.poll(
        Poll::at(3667),
        sends_token(CheckTokenPass, 9),
        "the token goes to 9 again; it ends at 3,733",
    );
    taken_up(&mut story, 3900);
    story.counts(0, 0, 0, "no event");
    story
}

/// PassToken goes on, into silence.
fn in_pass_token() -> Story {
    let mut story = Story::new(
        "passive/pass-token",
        station_5(),
        "Passive in PassToken, and the neighbour is silent",
        "Station 5 is about to pass the token to 9 when it is told to be passive. 9 is dead: it is sent three tokens and leaves\n\
         the ring. Then the station is alone with the token, and keeps it.",
    );
    join(&mut story, 1000, &[9]);
    takes_token(&mut story, 2700, 9);
    declines(&mut story, 2766);
    story.passive("told to be passive: the answer shows PassToken");
    story.poll(
        Poll::at(2767),
        sends_token(CheckTokenPass, 9),
        "the token goes to 9; it ends at 2,833",
    );
    story.poll(
        Poll::at(3233),
        sends_token(CheckTokenPass, 9),
        "400 us of silence: the second token",
    );
    story.poll(
        Poll::at(3699),
        sends_token(CheckTokenPass, 9),
        "400 us of silence: the third",
    );
    story.alone();
    story.poll(
        Poll::at(4165),
        sends_token(UseToken, 5),
        "400 us of silence: 9 leaves the ring, the token goes to ourselves and is held; it ends at 4,231",
    );
    declines(&mut story, 4297);
    story.poll(
        Poll::at(4298),
        sends_token(UseToken, 5),
        "to ourselves again, and so on",
    );
    story.counts(
        0,
        1,
        0,
        "9 is removed after its third token, by a passive station too",
    );
    story
}

/// CheckTokenPass reaches ListenToken by a second collision.
fn in_check_token_pass() -> Story {
    let mut story = Story::new(
        "passive/check-token-pass",
        station_5(),
        "Passive in CheckTokenPass, and another station has our address",
        "Station 5 has passed the token to 9 when it is told to be passive. Two tokens from its own address come: as an online\n\
         station it goes by ActiveIdle to ListenToken, which is shown, and is passive with the next poll.",
    );
    join(&mut story, 1000, &[9]);
    takes_token(&mut story, 2700, 9);
    declines(&mut story, 2766);
    story.poll(
        Poll::at(2767),
        sends_token(CheckTokenPass, 9),
        "the token goes to 9; it ends at 2,833",
    );
    story.passive("told to be passive: the answer shows CheckTokenPass");
    story.poll(
        Poll::at(2900),
        bus(CheckTokenPass),
        "it waits for a sign of life from 9, as before",
    );
    story.poll(
        heard(3000, &[Telegram::token(5, 9), Telegram::token(5, 9)]),
        bus(ListenToken).consumed(2),
        "two tokens from our own address in a row: by ActiveIdle to ListenToken in one poll",
    );
    story.poll(
        Poll::at(3100),
        bus(PassiveIdle),
        "with the next poll it is passive; the ring is kept",
    );
    story.counts(0, 0, 2, "both heard by the poll in CheckTokenPass");
    story
}

/// AwaitStatusResponse reaches ActiveIdle by an unexpected telegram.
fn in_await_status_response() -> Story {
    let mut story = Story::new(
        "passive/await-status-response",
        with_gap(),
        "Passive in AwaitStatusResponse, and something unexpected comes",
        "Station 5 has asked address 6 of the gap when it is told to be passive. A token between others comes in place of the\n\
         answer: it gives its token up and goes to ActiveIdle, which is shown, and is passive with the next poll.",
    );
    question_due(&mut story);
    story.poll(
        Poll::at(3767),
        sends_status_request(6),
        "67 us after the last activity 6 is asked; the request ends at 3,899",
    );
    story.passive("told to be passive: the answer shows AwaitStatusResponse");
    story.poll(
        heard(4100, &[Telegram::token(9, 12)]),
        bus(ActiveIdle).consumed(1),
        "not the status response that it waits for: ActiveIdle",
    );
    story.poll(
        Poll::at(4200),
        bus(PassiveIdle),
        "with the next poll it is passive",
    );
    story.counts(0, 0, 0, "no event");
    story
}

/// Passive when passive is nothing; requests, one at a time.
fn in_passive_idle() -> Story {
    let mut story = Story::new(
        "passive/passive-idle",
        station_5(),
        "Passive in PassiveIdle, and its requests",
        "A request is noted only as the last telegram of its poll. Until it is answered nothing is consumed, and neither passive\n\
         nor online and passive with no poll between make it forgotten. Whoever asks is told \"slave\", 126 and 127 too.",
    );
    story.passive("told to be passive");
    story.poll(Poll::at(1000), bus(PassiveIdle), "it is passive");
    story.passive("and again: nothing");
    story.next_station(9);
    story.poll(
        heard(
            1500,
            &[Telegram::status_request(9, 5), Telegram::token(9, 12)],
        ),
        bus(PassiveIdle).consumed(2),
        "a request to us that is not the last telegram is not noted; 9 and 12 join the ring",
    );
    story.poll(
        Poll::at(1566),
        bus(PassiveIdle),
        "and so it is not answered",
    );
    story.poll(
        heard(
            2000,
            &[Telegram::token(12, 9), Telegram::status_request(12, 5)],
        ),
        delay(PassiveIdle).consumed(2),
        "the request of 12 is the last telegram: noted",
    );
    story.passive("passive when passive: nothing");
    story.online("online: the answer shows PassiveIdle");
    story.passive("and passive with no poll between: nothing has happened");
    story.poll(
        heard(2040, &[Telegram::token(9, 7)]),
        delay(PassiveIdle),
        "while the request waits the telegram is not consumed, so 7 does not join; but its bytes are activity, and the pause \
         starts anew",
    );
    story.poll(
        Poll::at(2105),
        delay(PassiveIdle),
        "65 us later: the pause is unfinished",
    );
    story.poll(
        Poll::at(2106),
        sends_status_response(PassiveIdle, 12, StationType::Slave),
        "66 us later: it answers; the answer ends at 2,238",
    );
    story.poll(
        Poll::at(2238),
        transmission(PassiveIdle),
        "the answer ends just now",
    );
    story.poll(
        Poll::at(2239),
        bus(PassiveIdle),
        "and nothing more is to be sent",
    );
    story.poll(
        heard(2400, &[Telegram::status_request(127, 5)]),
        delay(PassiveIdle).consumed(1),
        "127 asks",
    );
    story.poll(
        Poll::at(2466),
        sends_status_response(PassiveIdle, 127, StationType::Slave),
        "and is answered; the answer ends at 2,598",
    );
    story.poll(
        heard(
            2800,
            &[
                Telegram::token(9, 12),
                Telegram::status_request(9, 20),
                Telegram::response(20, 9, StationType::Slave),
                Telegram::request(12, 20),
                Telegram::ShortConfirmation,
                Telegram::token(12, 9),
                Telegram::request(9, 5),
                Telegram::response(20, 5, StationType::Slave),
            ],
        ),
        bus(PassiveIdle).consumed(8),
        "eight telegrams in one poll: all are consumed, and none is a status request to us",
    );
    story.offline("taken offline: a fresh station");
    story.counts(0, 0, 0, "no event");
    story
}

/// After a second collision the activity may be known.
fn after_a_collision() -> Story {
    let mut story = Story::new(
        "passive/after-a-collision",
        station_5(),
        "Passive after a second collision",
        "A second collision in ListenToken takes the station offline; one telegram more in that poll leaves the activity known.\n\
         Passive is then as from Offline, with that activity.",
    );
    story.online("put online");
    story.poll(
        heard(
            1000,
            &[
                Telegram::token(5, 9),
                Telegram::token(5, 9),
                Telegram::token(9, 12),
            ],
        ),
        bus(Offline).consumed(3),
        "two collisions and one telegram more: offline and fresh, but the last activity is 1,000",
    );
    story.poll(Poll::at(1000), stays_offline(), "it is offline");
    story.passive("told to be passive: the answer shows Offline");
    story.poll(
        Poll::at(1000),
        transmission(PassiveIdle),
        "a poll at the last activity, which is known",
    );
    story.poll(Poll::at(1001), bus(PassiveIdle), "it is passive");
    story.online("put online");
    story.poll(
        Poll::at(7400),
        sends_token(ClaimToken, 5),
        "6,400 us after the last activity: from PassiveIdle by ListenToken to ClaimToken",
    );
    story.counts(
        1,
        0,
        2,
        "two collisions take it offline; then it claims from PassiveIdle, put online",
    );
    story
}

/// Our own address as source changes nothing.
fn own_address() -> Story {
    let mut story = Story::new(
        "passive/own-address",
        station_5(),
        "A passive station hears its own address",
        "Telegrams from our own address are consumed and mark activity, and change nothing else: no token is witnessed, no\n\
         request noted, no collision counted, however many there are. Online, two of them in the first poll take it offline.",
    );
    story.passive("told to be passive");
    story.next_station(9);
    story.poll(
        heard(1500, &[Telegram::token(9, 12)]),
        bus(PassiveIdle).consumed(1),
        "9 and 12 join the ring",
    );
    story.poll(
        heard(
            2000,
            &[
                Telegram::token(5, 7),
                Telegram::token(5, 7),
                Telegram::token(5, 7),
            ],
        ),
        bus(PassiveIdle).consumed(3),
        "three tokens from our own address to 7: not witnessed, so the next station stays 9; and it does not go offline",
    );
    story.poll(
        heard(2500, &[Telegram::status_request(5, 5)]),
        bus(PassiveIdle).consumed(1),
        "a status request from our own address to us, the last telegram: not noted, so the outcome is bus and not delay",
    );
    story.poll(
        Poll::at(2500),
        transmission(PassiveIdle),
        "they mark activity: a poll at the same clock counts as a transmission going on",
    );
    story.poll(
        Poll::at(2566),
        bus(PassiveIdle),
        "66 us later there is nothing to answer",
    );
    story.online("put online");
    story.fresh();
    story.poll(
        heard(3000, &[Telegram::token(5, 7), Telegram::token(5, 7)]),
        bus(Offline).consumed(2),
        "a fresh ListenToken counts from 0: two collisions in its first poll, and it goes offline",
    );
    story.passive("told to be passive");
    story.poll(
        Poll::at(3000),
        bus(PassiveIdle),
        "the second collision was the last telegram, so the activity is forgotten",
    );
    story.counts(
        0,
        0,
        2,
        "the four telegrams in PassiveIdle are not counted, the two in the poll that leaves it are",
    );
    story
}

/// Passive and online with no poll between: nothing has happened.
fn no_poll_between() -> Story {
    let mut story = Story::new(
        "passive/no-poll-between",
        station_5(),
        "Passive and online with no poll between",
        "The state changes with a poll, so passive and online with none between are as if neither had come: a request noted in\n\
         ListenToken or ActiveIdle is answered, a remembered station stays remembered, and a token that is held is held.",
    );
    story.passive("in Offline: told to be passive");
    story.online("and to be online");
    story.poll(Poll::at(1000), bus(ListenToken), "it listens");
    story.next_station(9);
    story.poll(
        heard(1500, &[Telegram::token(9, 9)]),
        bus(ListenToken).consumed(1),
        "9 has the token to itself: it joins the ring, and laps is 1",
    );
    story.poll(
        heard(2000, &[Telegram::status_request(9, 5)]),
        delay(ListenToken).consumed(1),
        "9 asks who we are; the request is noted",
    );
    story.passive("told to be passive");
    story.online("and to be online");
    story.poll(
        Poll::at(2066),
        sends_status_response(ListenToken, 9, StationType::NotReady),
        "the request was kept: after the pause it is answered, \"not ready\" after one lap. The answer ends at 2,198",
    );
    story.poll(
        heard(2300, &[Telegram::token(9, 9)]),
        bus(ListenToken).consumed(1),
        "a second lap: the ring is ready",
    );
    story.poll(
        heard(2400, &[Telegram::status_request(9, 5)]),
        delay(ListenToken).consumed(1),
        "9 asks again",
    );
    story.passive("told to be passive");
    story.passive("twice");
    story.online("and to be online");
    story.poll(
        Poll::at(2466),
        sends_status_response(ActiveIdle, 9, StationType::WithoutToken),
        "\"without token\", and it takes part in the ring. The answer ends at 2,598",
    );
    story.poll(
        heard(2700, &[Telegram::token(12, 5)]),
        bus(ActiveIdle).consumed(1),
        "a token from 12, which is not our previous station: remembered",
    );
    story.poll(
        heard(2800, &[Telegram::status_request(9, 5)]),
        delay(ActiveIdle).consumed(1),
        "9 asks; the request is noted",
    );
    story.passive("told to be passive");
    story.online("and to be online");
    story.poll(
        Poll::at(2866),
        sends_status_response(ActiveIdle, 9, StationType::InRing),
        "the request was kept, and is answered as in the ring; the answer ends at 2,998",
    );
    story.poll(
        heard(3100, &[Telegram::token(12, 5)]),
        delay(UseToken).consumed(1),
        "12 is remembered still: the second time its token is accepted, and it joins the ring",
    );
    story.passive("told to be passive");
    story.online("and to be online");
    declines(&mut story, 3166);
    story.poll(
        Poll::at(3167),
        sends_token(CheckTokenPass, 9),
        "the token goes to 9",
    );
    story.counts(0, 0, 0, "no event");
    story
}

/// Online again, and the token is claimed in the same poll.
fn claims_at_once() -> Story {
    let mut story = Story::new(
        "passive/claims-at-once",
        station_5(),
        "Online again, and the token is claimed in the first poll",
        "Online leads from PassiveIdle to a fresh ListenToken in the next poll. If the last activity is old enough by then, the\n\
         same poll claims the token; one microsecond earlier it does not.",
    );
    story.passive("told to be passive");
    story.next_station(9);
    story.poll(
        heard(1000, &[Telegram::token(9, 12)]),
        bus(PassiveIdle).consumed(1),
        "9 and 12 join the ring; the last activity is 1,000",
    );
    story.online("put online");
    story.poll(
        Poll::at(7399),
        bus(ListenToken),
        "6,399 us after the last activity: it listens",
    );
    story.passive("told to be passive");
    story.poll(
        Poll::at(7400),
        bus(PassiveIdle),
        "6,400 us: ListenToken is left before the lost token is asked for, so nothing is claimed",
    );
    story.online("put online");
    story.poll(
        Poll::at(7400),
        sends_token(ClaimToken, 5),
        "the same clock: from PassiveIdle by ListenToken to ClaimToken. The token ends at 7,466",
    );
    story.passive("told to be passive: the answer shows ClaimToken");
    story.online("and online again");
    story.poll(
        Poll::at(7532),
        sends_token(UseToken, 5),
        "66 us later the second token; it holds the token",
    );
    story.counts(1, 0, 0, "one claim, in the poll that leaves PassiveIdle");
    story
}

/// A quiet poll leaves an unknown activity unknown.
fn unknown_activity() -> Story {
    let mut story = Story::new(
        "passive/unknown-activity",
        station_5(),
        "Quiet polls of a passive station that knows of no activity",
        "Nobody asks for pause, slot or lost token in PassiveIdle, so a quiet poll leaves an unknown activity unknown. A second\n\
         poll at the same clock is no transmission, nor is one before it, and after online the lost-token time starts with the\n\
         first poll of ListenToken. Bytes that are pending make the activity known.",
    );
    story.passive("told to be passive");
    story.poll(Poll::at(1000), bus(PassiveIdle), "a quiet poll");
    story.poll(
        Poll::at(1000),
        bus(PassiveIdle),
        "the clock stands still: no activity is known, so no transmission is going on (outcome bus)",
    );
    story.poll(Poll::at(999), bus(PassiveIdle), "nor where it goes back");
    story.online("put online");
    story.poll(
        Poll::at(7400),
        bus(ListenToken),
        "6,400 us after the first poll: the last activity, unknown so far, is taken to be now, and nothing is claimed",
    );
    story.poll(
        Poll::at(13_799),
        bus(ListenToken),
        "6,399 us after that poll",
    );
    story.poll(
        Poll::at(13_800),
        sends_token(ClaimToken, 5),
        "6,400 us after it: it claims the token",
    );
    story.offline("taken offline: a fresh station");
    story.passive("told to be passive");
    story.poll(
        Poll::at(20_000).pending(3),
        bus(PassiveIdle),
        "three bytes are pending: that is activity, at 20,000",
    );
    story.poll(
        Poll::at(20_000).pending(3),
        transmission(PassiveIdle),
        "so a second poll at the same clock counts as a transmission going on",
    );
    story.counts(1, 0, 0, "one claim");
    story
}
