//! Points that are easy to get wrong and that no other story touches.

use crate::ring::{join, station_5, takes_token};
use crate::story::*;
use amsulfezd::answer::State::*;
use amsulfezd::record::{Decision, Poll, StationType, Telegram};

pub fn story() -> Story {
    let mut story = Story::new(
        "fine-points",
        station_5(),
        "Points that are easy to get wrong",
        "A request that waits for its pause keeps other telegrams from being read. Only the last telegram of a poll can be a token\n\
         or a request for us. A token from address 126, which can be in no ring, is accepted the second time. At the very end of\n\
         the hold time only high priority is asked, one microsecond before it normal priority is. A status request may be\n\
         the first sign of life after a token pass.",
    );
    join(&mut story, 1000, &[9]);
    story.poll(
        heard(3000, &[Telegram::status_request(5, 5)]),
        delay(ActiveIdle).consumed(1),
        "a status request from our own address: in ActiveIdle that is no collision; it is noted",
    );
    story.poll(
        heard(3040, &[Telegram::token(9, 12)]),
        delay(ActiveIdle),
        "while the request waits, the telegram is not consumed, so 12 does not join; but its bytes are activity, and the pause \
         starts anew",
    );
    story.poll(
        Poll::at(3105),
        delay(ActiveIdle),
        "65 us later: the pause is unfinished",
    );
    story.poll(
        Poll::at(3106),
        sends_status_response(ActiveIdle, 5, StationType::InRing),
        "66 us later: it answers, to its own address",
    );
    story.poll(
        heard(3400, &[Telegram::token(9, 5), Telegram::token(9, 12)]),
        bus(ActiveIdle).consumed(2),
        "a token to us that is not the last telegram: witnessed, not accepted; the next one adds 12 to the ring",
    );
    story.poll(
        heard(
            3600,
            &[Telegram::status_request(12, 5), Telegram::token(12, 9)],
        ),
        bus(ActiveIdle).consumed(2),
        "a request to us that is not the last telegram is not noted",
    );
    story.poll(Poll::at(3700), bus(ActiveIdle), "and so it is not answered");
    story.poll(
        heard(3800, &[Telegram::token(126, 5)]),
        bus(ActiveIdle).consumed(1),
        "a token from 126, which is not our previous station (12 is): remembered",
    );
    story.poll(
        heard(4000, &[Telegram::token(126, 5)]),
        delay(UseToken).consumed(1),
        "the second time it is accepted; 126 is above 125, so the ring stays as it is",
    );
    story.poll(
        Poll::at(64_871).normal(0, Decision::tells(6)),
        sends_data(0, false, 6),
        "the hold time ends at 0 + 64,872, a rotation after the last token time: one microsecond before it, normal priority \
         is asked. The telegram ends at 65,003",
    );
    story.poll(
        Poll::at(65_069)
            .normal(0, Decision::tells(6))
            .high(0, Decision::tells(6)),
        delay(PassToken),
        "the hold time is over, and a cycle was done: neither priority is asked",
    );
    story.poll(
        Poll::at(65_070),
        sends_token(CheckTokenPass, 9),
        "the token goes to 9; it ends at 65,136",
    );
    story.poll(
        heard(65_300, &[Telegram::status_request(9, 5)]),
        delay(ActiveIdle).consumed(1),
        "the first sign of life of 9 is a question to us: ActiveIdle, and the request is noted in the same poll",
    );
    story.poll(
        Poll::at(65_366),
        sends_status_response(ActiveIdle, 9, StationType::InRing),
        "66 us later it is answered; the answer ends at 65,498",
    );
    takes_token(&mut story, 65_600, 12);
    story.poll(
        Poll::at(68_872).normal(0, Decision::tells(6)),
        delay(PassToken),
        "the hold time ends at 4,000 + 64,872 = 68,872, just now: only high priority is asked, and the application has none",
    );
    story
}
