//! Document 02, P13: captures, each with what importing or exporting it leaves, stated by hand; and a site's capture of 500
//! lines, made by the rules that stand at its head.

use crate::story::*;
use amsulfezd::answer::State::*;
use amsulfezd::capture::ENTRY_LENGTH;
use amsulfezd::record::{Poll, StationType, Telegram};
use amsulfezd::refusal::Refusal;
use amsulfezd::trace::Header;

/// A call on captures, with its story.
pub struct CaptureStory {
    /// The files' name below `traces/`, without ending.
    pub name: &'static str,
    tale: &'static str,
    given: Given,
    room: usize,
    /// The bytes that are written, entry by entry or line by line.
    written: Vec<Vec<u8>>,
    /// What is refused, and the line or entry.
    refused: Option<(Refusal, u64)>,
}

/// What a call is given.
enum Given {
    Text(Vec<u8>),
    Entries(Vec<u8>),
}

impl CaptureStory {
    /// The files' endings and contents: what is given, what the call leaves, the story in words.
    pub fn files(&self) -> [(&'static str, Vec<u8>); 3] {
        let (given, left) = match &self.given {
            Given::Text(text) => (("capture", text.clone()), "imported"),
            Given::Entries(entries) => (("entries", entries.clone()), "exported"),
        };
        [
            given,
            (left, self.left()),
            ("txt", self.words().into_bytes()),
        ]
    }

    /// The number, the line or entry, and the bytes written.
    fn numbers(&self) -> (u8, u64, usize) {
        let (number, at) = self
            .refused
            .map_or((0, 0), |(refusal, at)| (refusal.number(), at));
        (number, at, self.written.concat().len())
    }

    /// The room, what is written, entries as hex digits and text as it is, and the three numbers.
    fn left(&self) -> Vec<u8> {
        let mut left = format!("room {}\n", self.room).into_bytes();
        for part in &self.written {
            match self.given {
                Given::Text(_) => {
                    let digits: String = part.iter().map(|byte| format!("{:02x}", byte)).collect();
                    left.extend(digits.bytes());
                    left.push(b'\n');
                }
                Given::Entries(_) => left.extend(part),
            }
        }
        let (number, at, bytes) = self.numbers();
        left.extend(format!("{} {} {}\n", number, at, bytes).bytes());
        left
    }

    fn words(&self) -> String {
        let (call, place) = match self.given {
            Given::Text(_) => ("imported", "line"),
            Given::Entries(_) => ("exported", "entry"),
        };
        let ends = match self.refused {
            Some((refusal, at)) => format!("{} {} is refused with {}", place, at, refusal),
            None => "nothing is refused".to_string(),
        };
        format!(
            "{}\n\nIt is {} with room for {} bytes: {}, and {} bytes are written.\n",
            self.tale.trim(),
            call,
            self.room,
            ends,
            self.numbers().2
        )
    }
}

/// The entry of a poll with these telegrams, for one application that declines.
fn entry(time: u64, telegrams: &[Telegram]) -> Vec<u8> {
    let poll = telegrams
        .iter()
        .fold(Poll::at(time), |poll, telegram| poll.telegram(*telegram));
    let record = poll.to_bytes(1).expect("it fits");
    [&[record.len() as u8], &record[..]].concat()
}

/// A text that is imported with room enough.
fn import(
    name: &'static str,
    tale: &'static str,
    text: &[u8],
    written: Vec<Vec<u8>>,
    refused: Option<(Refusal, u64)>,
) -> CaptureStory {
    let lines = text.iter().filter(|byte| **byte == b'\n').count();
    CaptureStory {
        name,
        tale,
        given: Given::Text(text.to_vec()),
        room: ENTRY_LENGTH * (lines + 1),
        written,
        refused,
    }
}

/// A text whose second line is refused with this number. Its first line is a short confirmation at 5 us.
fn second_line(
    name: &'static str,
    tale: &'static str,
    line: &str,
    refusal: Refusal,
) -> CaptureStory {
    let text = [b"5 e5\n", line.as_bytes()].concat();
    let first = entry(5, &[Telegram::ShortConfirmation]);
    import(name, tale, &text, vec![first], Some((refusal, 2)))
}

/// Entries that are exported with room for 200 bytes.
fn export(
    name: &'static str,
    tale: &'static str,
    entries: &[Vec<u8>],
    lines: &[&str],
    refused: Option<(Refusal, u64)>,
) -> CaptureStory {
    CaptureStory {
        name,
        tale,
        given: Given::Entries(entries.concat()),
        room: 200,
        written: lines.iter().map(|line| line.as_bytes().to_vec()).collect(),
        refused,
    }
}

/// Every story of `traces/captures` but the site's, in the order in which traces/README.md lists them.
pub fn stories() -> Vec<CaptureStory> {
    let mut all = accepted();
    all.extend(not_so_built());
    all.extend(refused_lines());
    all.extend(exports());
    all.push(site_again());
    all
}

fn accepted() -> Vec<CaptureStory> {
    let sc = Telegram::ShortConfirmation;
    vec![
        import(
            "captures/example",
            "Three lines, two of one time: a token from 9 to 5 and a short confirmation at 1,000 us make one entry of 23 bytes, a\n\
             status request from 9 to 5 at 1,200 us one of 19. The first byte of each is the record's length, 22 and\n\
             18; then the clock, 03e8 and 04b0; 1000 and 0800, the counts 2 and 1; six bytes of zero, an application that declines;\n\
             the telegrams' words.",
            b"1000 dc0509\n1000 e5\n1200 100509495716\n",
            vec![
                vec![
                    0x16, 0, 0, 0, 0, 0x03, 0xe8, 0x10, 0, 0, 0, 0, 0, 0, 0, 0x02, 0x89, 0, 0, 0x40, 0, 0, 0,
                ],
                vec![
                    0x12, 0, 0, 0, 0, 0x04, 0xb0, 0x08, 0, 0, 0, 0, 0, 0, 0, 0x82, 0x89, 0x80, 0,
                ],
            ],
            None,
        ),
        import(
            "captures/empty",
            "No line: no record.",
            b"",
            vec![],
            None,
        ),
        import(
            "captures/limits",
            "The times 0 and 2^48 - 1, and eight lines of one time, the most that a record has.",
            [&b"0 e5\n"[..], &b"281474976710655 E5\n".repeat(8)].concat().as_slice(),
            vec![entry(0, &[sc]), entry((1 << 48) - 1, &[sc; 8])],
            None,
        ),
        import(
            "captures/case",
            "Lower and upper case, from digit to digit: a token from 10 to 11, four times.",
            b"1 dc0b0a\n1 DC0B0A\n1 dC0b0A\n1 Dc0B0a\n",
            vec![entry(1, &[Telegram::token(10, 11); 4])],
            None,
        ),
        import(
            "captures/frames",
            "A frame of each start byte: SC, SD4, SD1 as status request, as another request and as response, SD2 and SD3. Data are\n\
             left out.",
            b"1 e5\n2 dc0509\n3 100509495716\n4 100509596716\n5 100514082116\n6 6805056805140812346716\n7 a205094901010101010101015f16\n",
            vec![
                entry(1, &[sc]),
                entry(2, &[Telegram::token(9, 5)]),
                entry(3, &[Telegram::status_request(9, 5)]),
                entry(4, &[Telegram::request(9, 5)]),
                entry(5, &[Telegram::response_with_status(20, 5, StationType::Slave, 8)]),
                entry(6, &[Telegram::response_with_status(20, 5, StationType::Slave, 8)]),
                entry(7, &[Telegram::request(9, 5)]),
            ],
            None,
        ),
    ]
}

/// Lines that are not built as they should be, each behind a good one.
fn not_so_built() -> Vec<CaptureStory> {
    let bad = [
        ("captures/31-no-line-feed", "A last line that is good but for its line feed.", "6 e5"),
        ("captures/31-empty-line", "A line feed alone.", "\n"),
        ("captures/31-carriage-return", "A line that ends in carriage return and line feed, as some systems write it.", "6 e5\r\n"),
        ("captures/31-tab", "A tab in the place of the space.", "6\te5\n"),
        ("captures/31-second-space", "Two spaces.", "6  e5\n"),
        ("captures/31-trailing-space", "A space behind the frame.", "6 e5 \n"),
        ("captures/31-no-time", "No time.", " e5\n"),
        ("captures/31-no-frame", "No frame.", "6 \n"),
        ("captures/31-no-space", "A time alone.", "6\n"),
        ("captures/31-leading-zero", "A time with a leading zero.", "06 e5\n"),
        ("captures/31-two-zeros", "Zero is written as one digit.", "00 e5\n"),
        ("captures/31-sign", "A sign.", "+6 e5\n"),
        ("captures/31-time-2-48", "A time of 2^48, which the clock does not have.", "281474976710656 e5\n"),
        (
            "captures/31-time-2-64",
            "A time of 2^64 + 6, which would be 6 in 64 bits.",
            "18446744073709551622 e5\n",
        ),
        ("captures/31-odd-digits", "An odd number of hex digits.", "6 e5e\n"),
        ("captures/31-no-hex-digit", "A letter that is no hex digit.", "6 g5\n"),
        (
            "captures/31-bytes-after",
            "Bytes after the frame: a short confirmation and a byte more.",
            "6 e5e5\n",
        ),
        (
            "captures/31-before-32",
            "A time below the one before in a line that is not built as it should be: 31 comes first.",
            "4 e\n",
        ),
    ];
    bad.map(|(name, tale, line)| second_line(name, tale, line, Refusal::CaptureLine))
        .into_iter()
        .collect()
}

/// The other refusals, and which comes first.
fn refused_lines() -> Vec<CaptureStory> {
    let sc = Telegram::ShortConfirmation;
    let eight = b"5 e5\n".repeat(8);
    let ninth = |name, tale, line: &[u8], refusal| {
        let text = [&eight[..], line].concat();
        import(
            name,
            tale,
            &text,
            vec![entry(5, &[sc; 8])],
            Some((refusal, 9)),
        )
    };
    let with_room = |mut story: CaptureStory, room| {
        story.room = room;
        story
    };
    let no_room = Some((Refusal::NoRoom, 2));
    vec![
        second_line("captures/32-time-falls", "A time below the one before.", "4 e5\n", Refusal::CaptureTime),
        second_line(
            "captures/32-before-20",
            "A time below the one before, with a frame that cannot be read: 32 comes first.",
            "4 00\n",
            Refusal::CaptureTime,
        ),
        ninth("captures/33-ninth", "The ninth line of one time.", b"5 e5\n", Refusal::CaptureCount),
        ninth(
            "captures/33-before-20",
            "The ninth line of one time with a frame that cannot be read: 33 comes first.",
            b"5 00\n",
            Refusal::CaptureCount,
        ),
        second_line("captures/19-cut", "A token without its second address.", "6 dc05\n", Refusal::FrameCut),
        second_line("captures/20-start-byte", "A frame that begins with 00.", "6 00\n", Refusal::StartByte),
        second_line("captures/21-header", "A header of SD2 with length 3.", "6 68030368\n", Refusal::FrameHeader),
        second_line("captures/22-check-byte", "58 in the place of 05 + 09 + 49 = 57.", "6 100509495816\n", Refusal::CheckByte),
        second_line("captures/23-end-byte", "17 in the place of 16.", "6 100509495717\n", Refusal::EndByte),
        second_line("captures/24-extension", "A token to 85, whose bit 7 is set.", "6 dc8509\n", Refusal::AddressExtension),
        second_line(
            "captures/34-function-code",
            "Function code c9, whose top bit is set: 05 + 09 + c9 = d7.",
            "6 100509c9d716\n",
            Refusal::FunctionCode,
        ),
        second_line(
            "captures/20-before-bytes-after",
            "A frame that cannot be read, with bytes after it: P1's number comes first.",
            "6 00e5\n",
            Refusal::StartByte,
        ),
        second_line(
            "captures/own-time-stands",
            "The bad line is of the time of the line before: that entry stands with its one telegram.",
            "5 dc05\n",
            Refusal::FrameCut,
        ),
        with_room(
            import(
                "captures/18-no-room-for-an-entry",
                "37 bytes: room for the first entry of 19, and 18 more, for the second line's entry one too few.",
                b"5 e5\n6 e5\n",
                vec![entry(5, &[sc])],
                no_room,
            ),
            37,
        ),
        with_room(
            import(
                "captures/18-no-room-for-a-telegram",
                "22 bytes: room for the first entry of 19, and 3 more, for the second line's telegram one too few. The entry keeps its\n\
                 length and its count.",
                b"5 e5\n5 e5\n",
                vec![entry(5, &[sc])],
                no_room,
            ),
            22,
        ),
        with_room(
            import(
                "captures/18-none",
                "No room at all.",
                b"5 e5\n",
                vec![],
                Some((Refusal::NoRoom, 1)),
            ),
            0,
        ),
        with_room(
            import(
                "captures/31-before-18",
                "A last line without line feed, and no room for it: 31 comes first.",
                b"5 e5\n6 e5",
                vec![entry(5, &[sc])],
                Some((Refusal::CaptureLine, 2)),
            ),
            19,
        ),
    ]
}

fn exports() -> Vec<CaptureStory> {
    let sc = Telegram::ShortConfirmation;
    let token = Telegram::token(9, 5);
    let bad = |record: &[u8]| [&[record.len() as u8], record].concat();
    let refused = |name: &'static str,
                   tale: &'static str,
                   second: Vec<u8>,
                   refusal: Refusal|
     -> CaptureStory {
        export(
            name,
            tale,
            &[entry(5, &[sc]), second],
            &["5 e5\n"],
            Some((refusal, 2)),
        )
    };
    let mut full = export(
        "captures/export-18",
        "Room for the first entry's line and for one of the second's two: the line that has room stands.",
        &[entry(5, &[sc]), entry(1000, &[token, sc])],
        &["5 e5\n", "1000 dc0509\n"],
        Some((Refusal::NoRoom, 2)),
    );
    full.room = 5 + 12 + 7;
    vec![
        export(
            "captures/export-kinds",
            "A line for each telegram, in lower case: a token from 126 to 127, a short confirmation, a status request, a response in\n\
             ring with status 15. The request that is no status request has no frame and gives no line.",
            &[entry(
                281_474_976_710_655,
                &[
                    Telegram::token(126, 127),
                    sc,
                    Telegram::request(9, 5),
                    Telegram::status_request(9, 5),
                    Telegram::response_with_status(126, 127, StationType::InRing, 15),
                ],
            )],
            &[
                "281474976710655 dc7f7e\n",
                "281474976710655 e5\n",
                "281474976710655 100509495716\n",
                "281474976710655 107f7e3f3c16\n",
            ],
            None,
        ),
        export(
            "captures/export-commands",
            "Online, offline, passive, a poll without telegrams, passive: no line.",
            &[vec![0, 1, 2], entry(5, &[]), vec![2]],
            &[],
            None,
        ),
        export(
            "captures/export-clock-goes-back",
            "A clock that stands still and goes back: each time as it is.",
            &[entry(7, &[sc]), entry(7, &[token]), entry(0, &[sc])],
            &["7 e5\n", "7 dc0509\n", "0 e5\n"],
            None,
        ),
        export(
            "captures/export-other-fields",
            "A poll that is transmitting, with 2,047 pending bytes and an application that would send: its telegram alone counts.",
            &[bad(&[
                0, 0, 0, 0, 0, 9, 0x8f, 0xff, 0xca, 0x05, 0, 0x80, 0x05, 0, 0x40, 0, 0, 0,
            ])],
            &["9 e5\n"],
            None,
        ),
        refused("captures/export-12", "A record for two applications.", bad(&[0; 20]), Refusal::RecordLength),
        refused(
            "captures/export-13",
            "A count of 9.",
            bad(&[0, 0, 0, 0, 0, 0, 0x48, 0]),
            Refusal::TelegramCount,
        ),
        refused(
            "captures/export-14",
            "A short confirmation with an address, behind a good telegram: nothing of the entry is written.",
            bad(&[
                0, 0, 0, 0, 0, 9, 0x10, 0, 0, 0, 0, 0, 0, 0, 0x40, 0, 0, 0, 0x40, 0x80, 0, 0,
            ]),
            Refusal::ZeroBit,
        ),
        refused(
            "captures/export-15",
            "An application that would send no byte.",
            bad(&[0, 0, 0, 0, 0, 9, 0, 0, 0x80, 0, 0, 0, 0, 0]),
            Refusal::NoBytes,
        ),
        refused("captures/export-17", "An entry that lacks its last byte.", entry(9, &[token])[..18].to_vec(), Refusal::Cut),
        full,
    ]
}

/*
 * The site's capture. Its rules:
 *
 * - Two masters pass the token to each other: 2, with the slaves 40 and 41, and 9, with the slaves 50 to 53.
 * - The monitor's clock ticks each millisecond, so that lines of one millisecond have one time. It begins at 4,000,000 us.
 * - A rotation takes five ticks of four lines each:
 *     tick 0  9 passes the token to 2; 2 asks 40 with SD2 and two data bytes, the rotation's number and 0; 40 answers with two
 *             data bytes, 0 and the rotation's number, function code 08; 2 sends 41 eight data bytes with SD3
 *     tick 1  41 confirms with SC; 2 asks 40 with SD1; 40 answers with SD1, function code 00; 2 asks an address of its gap for
 *             its status: 3 to 8 in turn. Nobody answers
 *     tick 2  2 passes the token to 9; 9 asks 50 with SD2, which answers with SD2, function code 08; 9 asks 51
 *     tick 3  51 answers; 9 asks 52 with SD2; 52 answers with SD2, function code 0a; 9 asks 53 with SD1
 *     tick 4  53 confirms with SC; 9 asks 53 again; 53 answers with SD1, function code 00; 9 asks an address of its gap: from 10
 *             on, one a rotation. Nobody answers
 * - There are 25 rotations, so 500 lines. From rotation 12 on the monitor writes upper case.
 *
 * What station 5 makes of it, polled with each tick's lines: it hears a lap of the token in rotations 0 and 1 and is ready
 * then. In rotation 2, and in every sixth from there on, 2 asks it in tick 1, as the last of that poll, and it answers in
 * tick 2, first "without token", by which it goes to ActiveIdle, later "in ring"; it takes none of that tick's telegrams.
 * Everything else it takes, and waits for the bus.
 */
const ROTATIONS: u64 = 25;
const BEGINS: u64 = 4_000_000;
const TICK: u64 = 1000;
const UPPER_FROM: u64 = 12;

/// A line of the site: its frame, and the telegram that it is.
struct Line {
    frame: Vec<u8>,
    telegram: Telegram,
}

/// A frame with a check byte and an end byte.
fn framed(before: &[u8], body: &[u8]) -> Vec<u8> {
    let check = body.iter().fold(0, |sum: u8, byte| sum.wrapping_add(*byte));
    [before, body, &[check, 0x16]].concat()
}

fn sd1(body: &[u8]) -> Vec<u8> {
    framed(&[0x10], body)
}

fn sd2(body: &[u8]) -> Vec<u8> {
    let length = body.len() as u8;
    framed(&[0x68, length, length, 0x68], body)
}

fn passes(from: u8, to: u8) -> Line {
    Line {
        frame: vec![0xdc, to, from],
        telegram: Telegram::token(from, to),
    }
}

/// A request that is no status request: function code 5d with SD1 and SD2, 45 with SD3.
fn asks(from: u8, to: u8, data: &[u8]) -> Line {
    let frame = match data.len() {
        0 => sd1(&[to, from, 0x5d]),
        8 => framed(&[0xa2], &[&[to, from, 0x45], data].concat()),
        _ => sd2(&[&[to, from, 0x5d], data].concat()),
    };
    Line {
        frame,
        telegram: Telegram::request(from, to),
    }
}

/// A slave's response with this status.
fn answers(from: u8, to: u8, status: u8, data: &[u8]) -> Line {
    let body = [&[to, from, status], data].concat();
    Line {
        frame: if data.is_empty() {
            sd1(&body)
        } else {
            sd2(&body)
        },
        telegram: Telegram::response_with_status(from, to, StationType::Slave, status),
    }
}

fn confirms() -> Line {
    Line {
        frame: vec![0xe5],
        telegram: Telegram::ShortConfirmation,
    }
}

fn asks_status(from: u8, to: u8) -> Line {
    Line {
        frame: sd1(&[to, from, 0x49]),
        telegram: Telegram::status_request(from, to),
    }
}

/// The lines of a tick.
fn tick(rotation: u64, tick: u64) -> [Line; 4] {
    let number = rotation as u8;
    match tick {
        0 => [
            passes(9, 2),
            asks(2, 40, &[number, 0]),
            answers(40, 2, 8, &[0, number]),
            asks(2, 41, &[1, 2, 3, 4, 5, 6, 7, 8]),
        ],
        1 => [
            confirms(),
            asks(2, 40, &[]),
            answers(40, 2, 0, &[]),
            asks_status(2, 3 + number % 6),
        ],
        2 => [
            passes(2, 9),
            asks(9, 50, &[number]),
            answers(50, 9, 8, &[number, number]),
            asks(9, 51, &[0x68, 0x16]),
        ],
        3 => [
            answers(51, 9, 8, &[0xff]),
            asks(9, 52, &[0]),
            answers(52, 9, 10, &[0x80]),
            asks(9, 53, &[]),
        ],
        _ => [
            confirms(),
            asks(9, 53, &[]),
            answers(53, 9, 0, &[]),
            asks_status(9, 10 + number),
        ],
    }
}

/// The ticks with their times.
fn ticks() -> impl Iterator<Item = (u64, u64, u64)> {
    (0..ROTATIONS).flat_map(|rotation| {
        (0..5).map(move |tick| (BEGINS + TICK * (5 * rotation + tick), rotation, tick))
    })
}

/// The site's text.
pub fn site_text() -> Vec<u8> {
    let mut text = String::new();
    for (time, rotation, at) in ticks() {
        for line in tick(rotation, at) {
            let digits: String = line
                .frame
                .iter()
                .map(|byte| format!("{:02x}", byte))
                .collect();
            let digits = if rotation < UPPER_FROM {
                digits
            } else {
                digits.to_ascii_uppercase()
            };
            text.push_str(&format!("{} {}\n", time, digits));
        }
    }
    assert_eq!(text.lines().count(), 500);
    text.into_bytes()
}

/// What station 5 makes of the site's capture.
pub fn site() -> Story {
    let mut story = Story::new(
        "captures/site",
        Header::new(5, 6, 1),
        "A site's capture, imported for a station that only listened",
        "captures/site.capture has 500 lines: two masters, 2 and 9, pass the token to each other and ask their slaves, 40 and 41, and\n\
         50 to 53; each asks an address of its gap in every rotation, and nobody answers. The monitor's clock ticks each millisecond,\n\
         so that four lines have one time and make one poll. The rules stand at the head of the site's part of\n\
         hosts/rust/stories/src/captures.rs. Imported for station 5, online from the start: it learns the ring of 2 and 9, is ready\n\
         after two laps of the token, and answers when 2 asks it, in rotation 2 and every sixth from there on. As nobody answered on\n\
         the bus, the capture goes on as before.",
    );
    story.online("put online before the first line");
    let mut state = ListenToken;
    for (time, rotation, at) in ticks() {
        let lines = tick(rotation, at);
        let poll = lines
            .iter()
            .fold(Poll::at(time), |poll, line| poll.telegram(line.telegram));
        if at == 0 && rotation == 0 {
            story.next_station(9);
        }
        // 3 + rotation % 6 is 5
        let asked = rotation % 6 == 2;
        let (expected, why) = match (at, asked) {
            (1, true) => (
                delay(state).consumed(4),
                "2 asks us for our status, as the last telegram: it is noted and waits for the pause",
            ),
            (2, true) if state == ListenToken => {
                state = ActiveIdle;
                (
                    sends_status_response(ActiveIdle, 2, StationType::WithoutToken),
                    "the pause is over, the ring is ready and 2 is our previous station: \"without token\"; this tick's telegrams are not taken",
                )
            }
            (2, true) => (
                sends_status_response(ActiveIdle, 2, StationType::InRing),
                "the pause is over: \"in ring\"; this tick's telegrams are not taken",
            ),
            (0, _) => (
                bus(state).consumed(4),
                "9 passes the token to 2, which asks 40 and sends 41 data",
            ),
            (1, _) => (
                bus(state).consumed(4),
                "2 asks 40 again and an address of its gap, not ours",
            ),
            (2, _) => (
                bus(state).consumed(4),
                "2 passes the token to 9, which asks 50 and 51",
            ),
            (3, _) => (bus(state).consumed(4), "51 and 52 answer; 9 asks 53"),
            _ => (
                bus(state).consumed(4),
                "53 answers; 9 asks an address of its gap",
            ),
        };
        story.poll(poll, expected, why);
    }
    story
}

/// The site's text as it is exported from its trace: without the requests that are no status requests, the responses without
/// their data, in lower case; and imported again.
fn site_again() -> CaptureStory {
    let (mut text, mut entries) = (String::new(), Vec::new());
    for (time, rotation, at) in ticks() {
        let mut kept = Vec::new();
        for line in tick(rotation, at) {
            let frame = match line.telegram {
                Telegram::Request {
                    status_request: false,
                    ..
                } => continue,
                // destination, source and function code without the data
                Telegram::Response { .. } if line.frame[0] == 0x68 => sd1(&line.frame[4..7]),
                _ => line.frame,
            };
            let digits: String = frame.iter().map(|byte| format!("{:02x}", byte)).collect();
            text.push_str(&format!("{} {}\n", time, digits));
            kept.push(line.telegram);
        }
        entries.push(entry(time, &kept));
    }
    import(
        "captures/site-again",
        "The text that captures/site.trace gives when it is exported: the lines of captures/site.capture in lower case, without the\n\
         requests that are no status requests, which P1 does not write, and the responses without their data. Imported again.",
        text.as_bytes(),
        entries,
        None,
    )
}
