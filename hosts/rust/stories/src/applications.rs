//! The applications' turn: sends, replies, timeouts, high priority, telegrams that nobody expected.

use crate::ring::{declines, join, station_5, takes_token};
use crate::story::*;
use amsulfezd::answer::State::*;
use amsulfezd::record::{Decision, Poll, StationType, Telegram};
use amsulfezd::trace::Header;

pub fn stories() -> Vec<Story> {
    vec![several_applications(), slow_reply(), unexpected()]
}

/// A lone station claims the token at 7,400 and holds it from 7,532 on; its second claim ends at 7,598.
fn claims(story: &mut Story) {
    story.online("put online");
    story.poll(Poll::at(1000), bus(ListenToken), "it listens");
    story.poll(
        Poll::at(7400),
        sends_token(ClaimToken, 5),
        "6,400 us of silence: it claims the token",
    );
    story.poll(
        Poll::at(7532),
        sends_token(UseToken, 5),
        "the claim is sent a second time: it holds the token",
    );
}

/// Three applications take turns.
pub fn several_applications() -> Story {
    let mut story = Story::new(
        "applications",
        Header::new(5, 6, 3),
        "Three applications, with replies and timeouts",
        "A lone station with three applications. The turn stays with an application that sends and moves on only when one\n\
         declines. Replies and timeouts are reported to the application that sent. A timeout and the next send can\n\
         stand in one answer. A reply by another station than the one asked costs the token. When the hold time is over\n\
         before the first cycle, one high priority telegram may go.",
    );
    claims(&mut story);
    story.poll(
        Poll::at(7664).normal(0, Decision::asks(20, 10)),
        sends_request(0, 20, 10),
        "application 0 asks 20; its 10 bytes are 110 bits, 220 us, and end at 7,884",
    );
    story.poll(
        heard(8100, &[Telegram::response(20, 5, StationType::Slave)]),
        delay(UseToken).consumed(1).reply(0, 20),
        "20 replies: application 0 is told",
    );
    story.poll(
        Poll::at(8166)
            .normal(0, Decision::asks(21, 10))
            .normal(1, Decision::tells(20)),
        sends_request(0, 21, 10),
        "application 0 sends again: the turn did not move. The request ends at 8,386",
    );
    story.poll(
        Poll::at(8785).normal(1, Decision::tells(20)),
        bus(AwaitDataResponse),
        "399 us without a reply: it waits",
    );
    story.next_application(1);
    story.poll(
        Poll::at(8786).normal(1, Decision::tells(20)),
        sends_data(1, false, 20).timeout(0, 21),
        "400 us: application 0 is told that 21 did not reply; it declines, the turn moves to application 1, which sends 20 \
         bytes without reply in the same poll. They end at 9,226",
    );
    story.poll(
        Poll::at(9292).normal(1, Decision::asks(22, 8)),
        sends_request(1, 22, 8),
        "application 1 asks 22; 8 bytes are 176 us and end at 9,468",
    );
    story.poll(
        heard(9700, &[Telegram::ShortConfirmation]),
        delay(UseToken).consumed(1).reply(1, 22),
        "a short confirmation counts as the reply of the station asked",
    );
    story.next_application(0);
    story.poll(
        Poll::at(9766),
        delay(PassToken),
        "applications 1 and 2 decline; next would be 0, which was the first to decline with this token: the cycle is complete",
    );
    story.poll(
        Poll::at(9767),
        sends_token(UseToken, 5),
        "the token goes to ourselves and ends at 9,833",
    );
    story.next_application(1);
    story.poll(
        Poll::at(9899).normal(1, Decision::asks(22, 8)),
        sends_request(1, 22, 8),
        "application 0 declines, application 1 asks 22; the request ends at 10,075",
    );
    story.poll(
        heard(10300, &[Telegram::response(23, 5, StationType::Slave)]),
        bus(ActiveIdle).consumed(1),
        "a response from 23, which was not asked: the token is given up; the application is told nothing, and the turn stays",
    );
    story.poll(
        Poll::at(16700),
        sends_token(ClaimToken, 5),
        "6,400 us of silence: it claims the token",
    );
    story.poll(
        Poll::at(16832),
        sends_token(UseToken, 5),
        "and holds it again; the second claim ends at 16,898",
    );
    story.next_application(2);
    story.poll(
        Poll::at(16964).normal(2, Decision::asks(24, 255)),
        sends_request(2, 24, 255),
        "application 1 declines, application 2 asks 24 with 255 bytes: 2,805 bits, 5,610 us, to 22,574",
    );
    story.next_application(1);
    story.poll(
        Poll::at(22974),
        delay(PassToken).timeout(2, 24),
        "400 us: application 2 is told of the timeout; 2 and 0 decline, next would be 1, the first with this token: the cycle is \
         complete",
    );
    story.poll(
        Poll::at(22975),
        sends_token(UseToken, 5),
        "the token goes to ourselves and ends at 23,041",
    );
    story.next_application(2);
    story.poll(
        Poll::at(90000)
            .normal(1, Decision::asks(20, 10))
            .high(2, Decision::tells(6)),
        sends_data(2, true, 6),
        "the hold time ended at 16,832 + 64,872 = 81,704: only high priority is asked; application 1 has only a normal telegram, \
         application 2 sends 6 bytes at high priority. They end at 90,132",
    );
    story.poll(
        Poll::at(90198).high(2, Decision::tells(6)),
        delay(PassToken),
        "a cycle was done and the hold time is over: high priority is not asked again, the turn stays with 2",
    );
    story.poll(
        Poll::at(90199),
        sends_token(UseToken, 5),
        "the token goes to ourselves",
    );
    story
}

/// Bytes that trickle in, and a port that is still transmitting.
fn slow_reply() -> Story {
    let mut story = Story::new(
        "slow-reply",
        station_5(),
        "Bytes that trickle in",
        "Bytes in the receive buffer that have grown in number count as activity on the bus, before silence is judged: a poll that\n\
         reports them neither claims the token nor lets a slot expire. A number that has not grown does not. Half a telegram\n\
         that is never completed ends as a timeout.",
    );
    story.online("put online");
    story.poll(
        Poll::at(1000).transmitting(),
        transmission(ListenToken),
        "the port is still transmitting: the state becomes ListenToken, and nothing else is looked at",
    );
    story.poll(
        Poll::at(1500),
        bus(ListenToken),
        "it listens; the last activity was at 1,000",
    );
    story.poll(
        Poll::at(7400).pending(1),
        bus(ListenToken),
        "6,400 us after the last activity, but a byte has come in: activity now, no claim",
    );
    story.poll(
        Poll::at(13799).pending(1),
        bus(ListenToken),
        "6,399 us later; the number has not grown",
    );
    story.poll(
        Poll::at(13800).pending(1),
        sends_token(ClaimToken, 5),
        "6,400 us later: it claims the token; it ends at 13,866",
    );
    story.poll(
        Poll::at(13932).pending(1),
        sends_token(UseToken, 5),
        "the second claim ends at 13,998",
    );
    story.poll(
        Poll::at(14064).pending(1).normal(0, Decision::asks(20, 10)),
        sends_request(0, 20, 10),
        "the application asks 20; the request ends at 14,284",
    );
    story.poll(
        Poll::at(14684).pending(4),
        bus(AwaitDataResponse),
        "400 us, but three bytes more have come in: activity now, no timeout",
    );
    story.poll(
        heard(15000, &[Telegram::response(20, 5, StationType::Slave)]),
        delay(UseToken).consumed(1).reply(0, 20),
        "the reply is complete: the application is told",
    );
    story.poll(
        Poll::at(15066).normal(0, Decision::asks(20, 10)),
        sends_request(0, 20, 10),
        "it asks again; the request ends at 15,286",
    );
    story.poll(
        Poll::at(15600).pending(4),
        bus(AwaitDataResponse),
        "four bytes have come in: activity now",
    );
    story.poll(
        Poll::at(15999).pending(4),
        bus(AwaitDataResponse),
        "399 us without another byte",
    );
    story.poll(
        Poll::at(16000).pending(4),
        delay(PassToken).timeout(0, 20),
        "400 us: the rest never came; the application is told of the timeout and declines",
    );
    story.poll(
        Poll::at(16001).pending(2).transmitting(),
        transmission(PassToken),
        "the port reports a transmission that we did not begin: nothing is done, and it counts as activity",
    );
    story.poll(
        Poll::at(16066).pending(2),
        delay(PassToken),
        "65 us later the pause is unfinished",
    );
    story.poll(
        Poll::at(16067).pending(2),
        sends_token(UseToken, 5),
        "66 us later the token goes to ourselves; fewer bytes than before are no activity",
    );
    story
}

/// Telegrams that nobody expected.
fn unexpected() -> Story {
    let header = Header {
        gap_wait: 1,
        ..station_5()
    };
    let mut story = Story::new(
        "unexpected",
        header,
        "Telegrams that nobody expected",
        "While a reply, a status reply or a sign of life after a token pass is awaited, something else comes. The two states\n\
         that wait for a reply take the first telegram only; a wrong one costs the token. After a token pass every telegram is\n\
         handled as in ActiveIdle. A short confirmation there is one of document 01's listed differences: the Rust panics\n\
         where its log line is evaluated.",
    );
    join(&mut story, 1000, &[9]);
    takes_token(&mut story, 2700, 9);
    declines(&mut story, 2766);
    story.poll(
        Poll::at(2767),
        sends_token(CheckTokenPass, 9),
        "the token goes to 9; it ends at 2,833",
    );
    story.poll(
        heard(3000, &[Telegram::ShortConfirmation]),
        bus(ActiveIdle).consumed(1),
        "a short confirmation: somebody is there, ActiveIdle",
    );
    takes_token(&mut story, 3200, 9);
    story.poll(
        Poll::at(3266).normal(0, Decision::asks(20, 10)),
        sends_request(0, 20, 10),
        "the application asks 20; the request ends at 3,486",
    );
    story.poll(
        heard(
            3700,
            &[
                Telegram::token(9, 12),
                Telegram::response(20, 5, StationType::Slave),
            ],
        ),
        bus(ActiveIdle).consumed(1),
        "a token while a reply is awaited: only this first telegram is consumed; the token is given up, nobody is told, and the \
         token seen is not witnessed",
    );
    takes_token(&mut story, 3900, 9);
    declines(&mut story, 3966);
    story.poll(
        Poll::at(3967),
        sends_token(CheckTokenPass, 9),
        "the token goes to 9; it ends at 4,033",
    );
    story.poll(
        heard(4200, &[Telegram::token(30, 5)]),
        bus(ActiveIdle).consumed(1),
        "not 9 but 30 is heard, and passes the token to us: remembered, not accepted",
    );
    story.poll(
        heard(4400, &[Telegram::token(30, 5)]),
        delay(UseToken).consumed(1),
        "30 tries again: accepted; 30 joins the ring",
    );
    declines(&mut story, 4466);
    story.poll(
        Poll::at(4467),
        sends_status_request(6),
        "the third pass with gap wait 1: a gap poll of 6; it ends at 4,599",
    );
    story.poll(
        heard(4800, &[Telegram::response(7, 5, StationType::InRing)]),
        bus(ActiveIdle).consumed(1),
        "a response from 7, which was not asked: the token is given up, and 7 does not join",
    );
    takes_token(&mut story, 5000, 30);
    declines(&mut story, 5066);
    story.poll(
        Poll::at(5067),
        sends_status_request(7),
        "the walk goes on with 7; the request ends at 5,199",
    );
    story.poll(
        heard(
            5400,
            &[
                Telegram::response_with_status(7, 5, StationType::InRing, 3),
                Telegram::token(30, 5),
            ],
        ),
        delay(PassToken).consumed(1),
        "7 answers \"in ring\" but its status is not Ok: it does not join; the telegram after it is not consumed",
    );
    story.poll(
        Poll::at(5466),
        sends_token(CheckTokenPass, 9),
        "the token goes to 9; it ends at 5,532",
    );
    story.poll(
        heard(
            5700,
            &[
                Telegram::token(5, 9),
                Telegram::token(5, 9),
                Telegram::token(30, 5),
            ],
        ),
        bus(ListenToken).consumed(3),
        "two tokens from our own address after the pass: ActiveIdle, then a second collision in a row: ListenToken; the token to us \
         is not accepted",
    );
    story
}
