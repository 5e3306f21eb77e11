//! Document 02, P4: a rotation has room for a gap poll, slot bits + 100, or the header is refused with 25.

use crate::ring::{declines, station_5};
use crate::story::*;
use amsulfezd::answer::State::*;
use amsulfezd::record::{Decision, Poll, StationType, Telegram};
use amsulfezd::refusal::Refusal;
use amsulfezd::trace::Header;

/// Headers on both sides of the limit.
pub fn headers() -> Vec<Story> {
    vec![
        refused(
            "headers/25-site",
            with(6, 200, 256),
            "Refused header: the site's settings, slot 200 with rotation 256",
            "Nothing else is wrong with this header, and its slot and its rotation are accepted each by itself. A gap poll takes slot + 100\n\
             = 300 bits off the hold, 600 us; the rotation is 512 us. While the gap was polled the hold so ended 88 us before the token\n\
             time that it is counted from, and only high priority went out. The entry that follows, online, is not looked at.",
        ),
        refused(
            "headers/25-one-bit-short",
            with(6, 200, 299),
            "Refused header: slot 200 with rotation 299, one bit short",
            "The rotation must be at least slot bits + 100, which is 300; `gap-room` has 300 and is accepted.",
        ),
        refused(
            "headers/25-slot-157",
            with(0, 157, 256),
            "Refused header: slot 157 with rotation 256",
            "256 is the least rotation of all. From slot 157 on it has no room for a gap poll: 157 + 100 = 257.",
        ),
        refused(
            "headers/25-largest-slot",
            with(6, 65_535, 65_634),
            "Refused header: the largest slot with rotation 65,634",
            "65,535 + 100 = 65,635, one more than the rotation. The sum is counted as it is: in 16 bits it would be 99, and every rotation\n\
             would have room.",
        ),
        accepted(
            "headers/accepted-slot-156",
            with(0, 156, 256),
            "An accepted header: slot 156 with rotation 256",
            "156 + 100 = 256: the least rotation of all has just room. With a smaller slot every rotation has.",
        ),
        accepted(
            "headers/accepted-largest-slot",
            with(6, 65_535, 65_635),
            "An accepted header: the largest slot with rotation 65,635",
            "65,535 + 100 = 65,635: the rotation has just room.",
        ),
    ]
}

/// Station 5 with these settings.
fn with(baud: u8, slot_bits: u16, rotation_bits: u32) -> Header {
    Header {
        baud,
        slot_bits,
        rotation_bits,
        ..station_5()
    }
}

/// A header that is refused with 25.
fn refused(name: &'static str, header: Header, title: &'static str, tale: &'static str) -> Story {
    let mut story = Story::new(name, header, title, tale);
    story.header_refused(Refusal::GapRoom);
    story
}

/// A header that is accepted: online is answered.
fn accepted(name: &'static str, header: Header, title: &'static str, tale: &'static str) -> Story {
    let mut story = Story::new(name, header, title, tale);
    story.online("put online: the header is accepted");
    story
}

/// Something to send at both priorities: 6 bytes, which take 132 us.
fn both(clock: u64) -> Poll {
    Poll::at(clock)
        .normal(0, Decision::tells(6))
        .high(0, Decision::tells(6))
}

/// The edge of what is accepted, in use.
pub fn story() -> Story {
    let header = Header {
        gap_wait: 1,
        ..with(6, 200, 300)
    };
    let mut story = Story::new(
        "gap-room",
        header,
        "The least rotation that slot 200 may have",
        "Rotation 300 bits, 600 us, is just what a gap poll takes off the hold: slot + 100 bits. Station 5 is alone and passes the token\n\
         to itself; with gap wait 1 the third pass asks the gap. Without a gap question due, the hold ends 600 us after the token\n\
         time before this one, and normal priority goes out. With one due, it ends at that token time itself, and never before it:\n\
         only high priority goes out. With one bit less the header is refused: `headers/25-one-bit-short`.",
    );
    story.online("put online");
    story.poll(Poll::at(1000), bus(ListenToken), "it listens");
    story.poll(
        Poll::at(7400),
        sends_token(ClaimToken, 5),
        "6,400 us of silence: it claims the token",
    );
    story.poll(
        Poll::at(7532),
        sends_token(UseToken, 5),
        "the claim is sent a second time: it holds the token, of time 7,532. It ends at 7,598",
    );
    story.poll(
        both(7664),
        sends_data(0, true, 6),
        "the first token: its hold ended at 0 + 600, so high priority is asked. The telegram ends at 7,796",
    );
    story.poll(
        both(7862),
        delay(PassToken),
        "the hold is over, and a cycle was done: neither priority is asked",
    );
    story.poll(
        Poll::at(7863),
        sends_token(UseToken, 5),
        "pass 1 only counts: the token goes to ourselves, with the time 7,863. It ends at 7,929",
    );
    story.poll(
        both(7995),
        sends_data(0, false, 6),
        "no gap question is due: the hold ends at 7,532 + 600 = 8,132, and normal priority is asked. The telegram ends at 8,127",
    );
    story.poll(
        both(8193),
        delay(PassToken),
        "the hold is over, and a cycle was done",
    );
    story.poll(
        Poll::at(8194),
        sends_token(UseToken, 5),
        "pass 2 only counts: a token of time 8,194. It ends at 8,260",
    );
    declines(&mut story, 8326);
    story.poll(
        Poll::at(8327),
        sends_status_request(6),
        "pass 3: the gap is asked, from 6 on. The request ends at 8,459",
    );
    story.poll(
        heard(8500, &[Telegram::response(6, 5, StationType::Slave)]),
        delay(PassToken).consumed(1),
        "6 is a slave: the ring stays as it is",
    );
    story.poll(
        Poll::at(8566),
        sends_token(UseToken, 5),
        "66 us later the token goes to ourselves, with the time 8,566. It ends at 8,632",
    );
    story.poll(
        both(8698),
        sends_data(0, true, 6),
        "a gap question is due: the hold ended at 8,194 + 600 - 600 = 8,194, the token time that it is counted from, so only high \
         priority is asked. Without the question it would last until 8,794. The telegram ends at 8,830",
    );
    story.poll(
        both(8896),
        delay(PassToken),
        "the hold is over, and a cycle was done",
    );
    story.poll(
        Poll::at(8897),
        sends_status_request(7),
        "the walk goes on with 7. The request ends at 9,029",
    );
    story.poll(
        Poll::at(9429),
        sends_token(UseToken, 5),
        "400 us without an answer: the token goes to ourselves, with the time 9,429. It ends at 9,495",
    );
    story.poll(
        Poll::at(9561).normal(0, Decision::tells(6)),
        delay(PassToken),
        "the hold ended at 8,566 + 600 - 600 = 8,566: only high priority is asked, and the application has none",
    );
    story
}
