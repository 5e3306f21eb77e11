//! Document 01, "Station": the poll record, its decisions and telegrams, and the answer.
//!
//! A layout is the list of its fields' widths, most significant bit first, in document 01's order. Bits are taken and
//! put one by one; there are no masks here.

/// "clock 48, transmitting 1, telegram count 4, pending bytes 11"
pub const HEAD: [usize; 4] = [48, 1, 4, 11];
/// "sends 1, expects reply 1, reply address 7, length 8, zero 7"
pub const DECISION: [usize; 5] = [1, 1, 7, 8, 7];
/// "kind 2, destination 7, source 7, status request 1, station type 2, status 4, zero 9"
pub const TELEGRAM: [usize; 7] = [2, 7, 7, 1, 2, 4, 9];
/// "refusal 5, outcome 3, state 4, sent kind 3, destination 7, response type 2, application 3, high 1, bytes 8, telegrams
/// consumed 4, notice 2, its application 3, its address 7, next application 3, next station 7, zero 2"
pub const ANSWER: [usize; 16] = [5, 3, 4, 3, 7, 2, 3, 1, 8, 4, 2, 3, 7, 3, 7, 2];

/// The clock's last value.
pub const LAST_CLOCK: u64 = (1 << 48) - 1;

/// "State after the entry, 0..8", by the names of the Rust, and document 02's "PassiveIdle (state 9".
pub mod state {
    pub const OFFLINE: u8 = 0;
    pub const LISTEN_TOKEN: u8 = 1;
    pub const ACTIVE_IDLE: u8 = 2;
    pub const USE_TOKEN: u8 = 3;
    pub const CLAIM_TOKEN: u8 = 4;
    pub const AWAIT_DATA_RESPONSE: u8 = 5;
    pub const PASS_TOKEN: u8 = 6;
    pub const CHECK_TOKEN_PASS: u8 = 7;
    pub const AWAIT_STATUS_RESPONSE: u8 = 8;
    pub const PASSIVE_IDLE: u8 = 9;
}

/// What a bit is worth at each place of its byte, from the left.
const PLACES: [u8; 8] = [128, 64, 32, 16, 8, 4, 2, 1];

/// The fields of these widths, read from the left.
pub fn split<const N: usize>(widths: [usize; N], bytes: &[u8]) -> [u64; N] {
    let mut at = 0;
    widths.map(|width| {
        (0..width).fold(0, |value, _| {
            let bit = bytes[at / 8] / PLACES[at % 8] % 2;
            at += 1;
            2 * value + u64::from(bit)
        })
    })
}

/// Fields of these widths, written from the left. They fill whole bytes.
pub fn join<const N: usize>(widths: [usize; N], values: [u64; N]) -> Vec<u8> {
    let mut bytes = vec![0; widths.iter().sum::<usize>() / 8];
    let mut end = 0;
    for (width, value) in widths.iter().zip(values) {
        end += width;
        let mut rest = value;
        for at in (end - width..end).rev() {
            bytes[at / 8] += (rest % 2) as u8 * PLACES[at % 8];
            rest /= 2;
        }
        assert_eq!(rest, 0, "{} does not fit into {} bits", value, width);
    }
    bytes
}

/// What an application decides.
#[derive(Debug, Clone, Copy, PartialEq, Eq)]
pub enum Decision {
    Declines,
    /// With the address from which a reply is expected, if one is. The length is never 0.
    Sends {
        reply: Option<u8>,
        length: u8,
    },
}

impl Decision {
    /// The decision, or the number of its refusal: "14 before 15 in one decision".
    pub fn decode(bytes: &[u8]) -> Result<Decision, u8> {
        let [sends, expects_reply, reply_address, length, zero] = split(DECISION, bytes);
        // "without a send all is zero, without a reply the address is"
        if zero != 0
            || (sends == 0 && (expects_reply != 0 || reply_address != 0 || length != 0))
            || (expects_reply == 0 && reply_address != 0)
        {
            return Err(14);
        }
        if sends == 0 {
            return Ok(Decision::Declines);
        }
        if length == 0 {
            return Err(15);
        }
        Ok(Decision::Sends { reply: (expects_reply == 1).then_some(reply_address as u8), length: length as u8 })
    }

    pub fn encode(&self) -> Vec<u8> {
        let fields = match *self {
            Decision::Declines => [0; 5],
            Decision::Sends { reply, length } => [1, reply.is_some() as u8, reply.unwrap_or(0), length, 0],
        };
        join(DECISION, fields.map(u64::from))
    }
}

/// "kind (token, short confirmation, request, response)", "station type (slave, not ready, without token, in ring)",
/// "status (0 = Ok)"
#[derive(Debug, Clone, Copy, PartialEq, Eq)]
pub enum Telegram {
    Token { destination: u8, source: u8 },
    ShortConfirmation,
    Request { destination: u8, source: u8, status_request: bool },
    Response { destination: u8, source: u8, station_type: u8, status: u8 },
}

impl Telegram {
    pub fn token(source: u8, destination: u8) -> Telegram {
        Telegram::Token { destination, source }
    }

    pub fn status_request(source: u8, destination: u8) -> Telegram {
        Telegram::Request { destination, source, status_request: true }
    }

    /// The telegram; `None` if a bit is set that should be zero.
    pub fn decode(bytes: &[u8]) -> Option<Telegram> {
        let [kind, destination, source, status_request, station_type, status, zero] = split(TELEGRAM, bytes);
        // "The status-request bit belongs to requests, type and status to responses, addresses to all but short
        // confirmations; elsewhere zero."
        if zero != 0
            || (kind != 2 && status_request != 0)
            || (kind != 3 && (station_type != 0 || status != 0))
            || (kind == 1 && (destination != 0 || source != 0))
        {
            return None;
        }
        let (destination, source) = (destination as u8, source as u8);
        Some(match kind {
            0 => Telegram::Token { destination, source },
            1 => Telegram::ShortConfirmation,
            2 => Telegram::Request { destination, source, status_request: status_request == 1 },
            _ => Telegram::Response { destination, source, station_type: station_type as u8, status: status as u8 },
        })
    }

    pub fn encode(&self) -> Vec<u8> {
        let fields = match *self {
            Telegram::Token { destination, source } => [0, destination, source, 0, 0, 0, 0],
            Telegram::ShortConfirmation => [1, 0, 0, 0, 0, 0, 0],
            Telegram::Request { destination, source, status_request } => {
                [2, destination, source, status_request as u8, 0, 0, 0]
            }
            Telegram::Response { destination, source, station_type, status } => {
                [3, destination, source, 0, station_type, status, 0]
            }
        };
        join(TELEGRAM, fields.map(u64::from))
    }

    /// "addresses to all but short confirmations"
    pub fn source(&self) -> Option<u8> {
        match *self {
            Telegram::ShortConfirmation => None,
            Telegram::Token { source, .. } | Telegram::Request { source, .. } | Telegram::Response { source, .. } => {
                Some(source)
            }
        }
    }
}

/// A poll record that is accepted.
#[derive(Debug, Clone, PartialEq, Eq)]
pub struct PollRecord {
    pub clock: u64,
    pub transmitting: bool,
    pub pending: u16,
    /// For each application the decision at normal and at high priority.
    pub decisions: Vec<(Decision, Decision)>,
    pub telegrams: Vec<Telegram>,
}

/// Where a record is bad. Decisions count application 0 normal, 0 high, 1 normal and so on.
#[derive(Debug, Clone, Copy, PartialEq, Eq)]
pub enum Place {
    Head,
    Count,
    Length,
    Decision(usize),
    Telegram(usize),
}

/// The refusal of a record: its number, and where it is bad.
pub type Refused = (u8, Place);

impl PollRecord {
    /// A silent poll at this time, in which every application declines.
    pub fn silent(clock: u64, applications: usize) -> PollRecord {
        let declines = (Decision::Declines, Decision::Declines);
        let decisions = vec![declines; applications];
        PollRecord { clock, transmitting: false, pending: 0, decisions, telegrams: Vec::new() }
    }

    /// "Poll: under 8 bytes 12; 13; length other than 8 + 6 × applications + 4 × telegrams 12; then left to right, 14
    /// before 15 in one decision."
    pub fn decode(applications: u8, bytes: &[u8]) -> Result<PollRecord, Refused> {
        if bytes.len() < 8 {
            return Err((12, Place::Head));
        }
        let [clock, transmitting, count, pending] = split(HEAD, &bytes[..8]);
        if count > 8 {
            return Err((13, Place::Count));
        }
        let (middle, count) = (8 + 6 * usize::from(applications), count as usize);
        if bytes.len() != middle + 4 * count {
            return Err((12, Place::Length));
        }
        let mut decided = Vec::new();
        for (i, word) in bytes[8..middle].chunks(3).enumerate() {
            decided.push(Decision::decode(word).map_err(|number| (number, Place::Decision(i)))?);
        }
        let mut telegrams = Vec::new();
        for (i, word) in bytes[middle..].chunks(4).enumerate() {
            telegrams.push(Telegram::decode(word).ok_or((14, Place::Telegram(i)))?);
        }
        let decisions = decided.chunks(2).map(|pair| (pair[0], pair[1])).collect();
        Ok(PollRecord { clock, transmitting: transmitting == 1, pending: pending as u16, decisions, telegrams })
    }

    pub fn encode(&self) -> Vec<u8> {
        let count = self.telegrams.len() as u64;
        let mut bytes = join(HEAD, [self.clock, self.transmitting.into(), count, self.pending.into()]);
        for (normal, high) in &self.decisions {
            bytes.extend(normal.encode());
            bytes.extend(high.encode());
        }
        for telegram in &self.telegrams {
            bytes.extend(telegram.encode());
        }
        bytes
    }

    /// The entry of a trace with this record.
    pub fn entry(&self) -> Vec<u8> {
        entry_of(&self.encode())
    }
}

/// "any L ≥ 3 a poll record of L bytes"
pub fn entry_of(record: &[u8]) -> Vec<u8> {
    let mut entry = vec![record.len() as u8];
    entry.extend_from_slice(record);
    entry
}

/// "Sent: 0 none, 1 token, 2 status request, 3 status response, 4 application (destination = reply address, else 0)."
#[derive(Debug, Clone, Copy, PartialEq, Eq)]
pub enum Sent {
    Nothing,
    Token {
        destination: u8,
    },
    StatusRequest {
        destination: u8,
    },
    StatusResponse {
        destination: u8,
        response_type: u8,
    },
    /// The number of bytes is never 0.
    Application {
        destination: u8,
        application: u8,
        high: bool,
        bytes: u8,
    },
}

impl Sent {
    /// "A token has 3 bytes, an FDL status request or response 6."
    pub fn bytes(&self) -> u8 {
        match *self {
            Sent::Nothing => 0,
            Sent::Token { .. } => 3,
            Sent::StatusRequest { .. } | Sent::StatusResponse { .. } => 6,
            Sent::Application { bytes, .. } => bytes,
        }
    }

    /// Document 01's number of the kind.
    pub fn kind(&self) -> u8 {
        match *self {
            Sent::Nothing => 0,
            Sent::Token { .. } => 1,
            Sent::StatusRequest { .. } => 2,
            Sent::StatusResponse { .. } => 3,
            Sent::Application { .. } => 4,
        }
    }
}

/// "notice 2 (reply 1, timeout 2), its application 3, its address 7"
#[derive(Debug, Clone, Copy, PartialEq, Eq)]
pub enum Notice {
    Nothing,
    Reply { application: u8, address: u8 },
    Timeout { application: u8, address: u8 },
}

/// An answer. "An entry refused with 12 to 16 gets an answer with number, state, next application and next station."; since
/// document 02, P10, "16 no longer occurs".
#[derive(Debug, Clone, Copy, PartialEq, Eq)]
pub struct Answer {
    pub refusal: u8,
    pub outcome: u8,
    pub state: u8,
    pub sent: Sent,
    pub consumed: u8,
    pub notice: Notice,
    pub next_application: u8,
    /// The number of who is next: document 02's 127 if that is nobody.
    pub next_station: u8,
}

impl Answer {
    /// "Fields with no meaning are zero."
    pub fn encode(&self) -> Vec<u8> {
        let [destination, response_type, application, high] = match self.sent {
            Sent::Nothing => [0, 0, 0, 0],
            Sent::Token { destination } | Sent::StatusRequest { destination } => [destination, 0, 0, 0],
            Sent::StatusResponse { destination, response_type } => [destination, response_type, 0, 0],
            Sent::Application { destination, application, high, .. } => [destination, 0, application, high as u8],
        };
        let (kind, bytes) = (self.sent.kind(), self.sent.bytes());
        let [notice, its_application, its_address] = match self.notice {
            Notice::Nothing => [0, 0, 0],
            Notice::Reply { application, address } => [1, application, address],
            Notice::Timeout { application, address } => [2, application, address],
        };
        let fields = [
            self.refusal,
            self.outcome,
            self.state,
            kind,
            destination,
            response_type,
            application,
            high,
            bytes,
            self.consumed,
            notice,
            its_application,
            its_address,
            self.next_application,
            self.next_station,
            0,
        ];
        join(ANSWER, fields.map(u64::from))
    }
}

#[cfg(test)]
mod tests {
    use super::*;

    #[test]
    fn the_fields_of_the_head() {
        // transmitting 1, count 0001, pending 111 and 11111111
        let mut bytes = vec![0x01, 0x02, 0x03, 0x04, 0x05, 0x06, 0x8f, 0xff];
        bytes.resize(8 + 6 + 4, 0);
        let record = PollRecord::decode(1, &bytes).expect("a record");
        assert_eq!((record.clock, record.transmitting, record.pending), (0x0102_0304_0506, true, 2047));
        assert_eq!(record.telegrams, [Telegram::Token { destination: 0, source: 0 }]);
        assert_eq!(record.encode(), bytes);
        assert_eq!(PollRecord::decode(1, &[0; 14]), Ok(PollRecord::silent(0, 1)));
    }

    #[test]
    fn the_order_of_the_refusals() {
        let refused = |bytes: &[u8]| PollRecord::decode(1, bytes).expect_err("a refusal");
        let changed = |changes: &[(usize, u8)], length| {
            let mut bytes = vec![0; length];
            changes.iter().for_each(|(at, byte)| bytes[*at] = *byte);
            refused(&bytes)
        };
        assert_eq!(refused(&[0xff; 7]), (12, Place::Head));
        assert_eq!(changed(&[(6, 9 * 8)], 8), (13, Place::Count));
        assert_eq!(changed(&[], 13), (12, Place::Length));
        assert_eq!(changed(&[], 15), (12, Place::Length));
        assert_eq!(changed(&[(8, 0x80)], 14), (15, Place::Decision(0)));
        assert_eq!(changed(&[(8, 0x80), (10, 1)], 14), (14, Place::Decision(0)));
        assert_eq!(changed(&[(8, 0x80), (13, 1)], 14), (15, Place::Decision(0)));
        assert_eq!(changed(&[(13, 1)], 14), (14, Place::Decision(1)));
        assert_eq!(changed(&[(6, 8), (17, 1)], 18), (14, Place::Telegram(0)));
    }

    #[test]
    fn decisions() {
        // 1 1 1111111 11111111 0000000, and 1 0 0000000 00000001 0000000
        let good = [
            ([0xff, 0xff, 0x80], Decision::Sends { reply: Some(127), length: 255 }),
            ([0x80, 0x00, 0x80], Decision::Sends { reply: None, length: 1 }),
            ([0, 0, 0], Decision::Declines),
        ];
        for (bytes, decision) in good {
            assert_eq!(Decision::decode(&bytes), Ok(decision));
            assert_eq!(decision.encode(), bytes);
        }
        for bytes in [[0xa0, 0, 0], [0x40, 0, 0], [0, 0, 0x80], [0, 0x80, 0], [0xff, 0xff, 0x81]] {
            assert_eq!(Decision::decode(&bytes), Err(14), "{:?}", bytes);
        }
        assert_eq!(Decision::decode(&[0x80, 0, 0]), Err(15));
    }

    #[test]
    fn telegrams() {
        let good = [
            // 00 0000101 1111110 0 00 0000 000000000
            ([0b0000_0010, 0b1111_1110, 0, 0], Telegram::Token { destination: 5, source: 126 }),
            // 11 0000001 0000010 0 11 1001 000000000
            (
                [0b1100_0000, 0b1000_0010, 0b0111_0010, 0],
                Telegram::Response { destination: 1, source: 2, station_type: 3, status: 9 },
            ),
            ([0x80, 0, 0x80, 0], Telegram::Request { destination: 0, source: 0, status_request: true }),
            ([0x40, 0, 0, 0], Telegram::ShortConfirmation),
        ];
        for (bytes, telegram) in good {
            assert_eq!(Telegram::decode(&bytes), Some(telegram));
            assert_eq!(telegram.encode(), bytes);
        }
        for bytes in [[0x40, 1, 0, 0], [0xc0, 0, 0x80, 0], [0, 0, 0x80, 0], [0xc0, 0, 0, 1], [0x80, 0, 0x40, 0]] {
            assert_eq!(Telegram::decode(&bytes), None, "{:?}", bytes);
        }
    }

    /// Each field alone, at its largest, by document 01's list of an answer's fields.
    #[test]
    fn the_places_of_an_answers_fields() {
        let answer = |refusal, outcome, state, sent, consumed, notice, next_application, next_station| {
            let answer = Answer { refusal, outcome, state, sent, consumed, notice, next_application, next_station };
            u64::from_be_bytes(answer.encode().try_into().expect("8 bytes"))
        };
        let (no, none) = (Sent::Nothing, Notice::Nothing);
        let application =
            |destination, application, high, bytes| Sent::Application { destination, application, high, bytes };
        assert_eq!(answer(31, 0, 0, no, 0, none, 0, 0), 31 << 59);
        assert_eq!(answer(0, 7, 0, no, 0, none, 0, 0), 7 << 56);
        assert_eq!(answer(0, 0, 15, no, 0, none, 0, 0), 15 << 52);
        assert_eq!(answer(0, 0, 0, Sent::Token { destination: 127 }, 0, none, 0, 0), 1 << 49 | 127 << 42 | 3 << 28);
        assert_eq!(answer(0, 0, 0, Sent::StatusRequest { destination: 1 }, 0, none, 0, 0), 2 << 49 | 1 << 42 | 6 << 28);
        let response = Sent::StatusResponse { destination: 1, response_type: 3 };
        assert_eq!(answer(0, 0, 0, response, 0, none, 0, 0), 3 << 49 | 1 << 42 | 3 << 40 | 6 << 28);
        assert_eq!(answer(0, 0, 0, application(0, 7, false, 255), 0, none, 0, 0), 4 << 49 | 7 << 37 | 255 << 28);
        assert_eq!(answer(0, 0, 0, application(9, 0, true, 1), 0, none, 0, 0), 4 << 49 | 9 << 42 | 1 << 36 | 1 << 28);
        assert_eq!(answer(0, 0, 0, no, 15, none, 0, 0), 15 << 24);
        assert_eq!(
            answer(0, 0, 0, no, 0, Notice::Reply { application: 7, address: 127 }, 0, 0),
            1 << 22 | 7 << 19 | 127 << 12
        );
        assert_eq!(answer(0, 0, 0, no, 0, Notice::Timeout { application: 0, address: 0 }, 0, 0), 2 << 22);
        assert_eq!(answer(0, 0, 0, no, 0, none, 7, 127), 7 << 9 | 127 << 2);
    }
}
