//! A live station with the shape of profirust's: `new`, `set_online`, and `poll` with a clock, a port and applications. Only where
//! the static library is linked (see `build.rs`).
//!
//! Names and order of use are those of the published `active.rs`. What differs, and why:
//!
//! - The proved station is asked with a record of the poll, so an application says what it would send before it is known whether it
//!   is its turn. [`FdlApplication::transmit_telegram`] therefore takes `&self` and is asked twice a poll, at both priorities;
//!   [`FdlApplication::transmitted`] tells what went out.
//! - The port hands over and takes the bytes of frames, which the proved calls read and write. A telegram that the station does not
//!   consume stays in the port, as in profirust.
//! - What profirust panics at is a [`Refusal`] or [`Unfit`], and a poll gives its [`Answer`].
//!
//! `examples/logger.rs` is a whole program.

use crate::answer::{Answer, Notice, Sent};
use crate::counts::Counts;
use crate::frame;
use crate::heard::Table;
use crate::record::{Decision, Poll, Telegram, Unfit};
use crate::refusal::Refusal;
use crate::station::Station;
use crate::trace::{entry_of, Header, OFFLINE, ONLINE, PASSIVE};

/// A point in time, in microseconds.
#[derive(Debug, Clone, Copy, PartialEq, Eq, PartialOrd, Ord, Hash)]
pub struct Instant {
    micros: u64,
}

impl Instant {
    pub const ZERO: Instant = Instant { micros: 0 };

    pub fn from_micros(micros: u64) -> Instant {
        Instant { micros }
    }

    pub fn total_micros(self) -> u64 {
        self.micros
    }
}

/// A port.
pub trait ProfibusPhy {
    /// Whether a transmission is going on. If so, no other call of the trait follows in this poll.
    fn poll_transmission(&mut self, now: Instant) -> bool;

    /// Sends as many bytes as `f` says that it has written to the buffer, which has room for a frame.
    fn transmit_data<F, R>(&mut self, now: Instant, f: F) -> R
    where
        F: FnOnce(&mut [u8]) -> (usize, R);

    /// Shows `f` all that was received and takes away as many bytes as it says, the oldest first.
    fn receive_data<F, R>(&mut self, now: Instant, f: F) -> R
    where
        F: FnOnce(&[u8]) -> (usize, R);

    /// How many bytes were received and not taken away.
    fn poll_pending_received_bytes(&mut self, now: Instant) -> usize {
        self.receive_data(now, |bytes| (0, bytes.len()))
    }
}

/// An application on the bus.
pub trait FdlApplication {
    /// What it would send if it were asked now; none is a decline. It is called in every poll, at both priorities, and what it gives
    /// is sent only where [`FdlApplication::transmitted`] follows.
    fn transmit_telegram(
        &self,
        now: Instant,
        fdl: &FdlActiveStation,
        tx: TelegramTx<'_>,
        high_prio_only: bool,
    ) -> Option<TelegramTxResponse>;

    /// What it would send at this priority was sent.
    fn transmitted(&mut self, _now: Instant, _fdl: &FdlActiveStation, _high_prio: bool) {}

    /// The reply of this address to what was sent last: the bytes of its frame, data too.
    fn receive_reply(&mut self, now: Instant, fdl: &FdlActiveStation, addr: u8, telegram: &[u8]);

    /// No reply came from this address.
    fn handle_timeout(&mut self, now: Instant, fdl: &FdlActiveStation, addr: u8);
}

/// Where an application writes the frame that it would send.
pub struct TelegramTx<'a> {
    frame: &'a mut Vec<u8>,
}

/// What an application would send: see [`TelegramTx::send`].
pub struct TelegramTxResponse {
    decision: Decision,
}

impl TelegramTx<'_> {
    /// A frame of at most 255 bytes, and the address that a reply is expected from, if one is. Of a longer frame the first 255
    /// bytes are sent; an empty one is refused in the poll's answer.
    pub fn send(self, frame: &[u8], expects_reply: Option<u8>) -> TelegramTxResponse {
        let frame = &frame[..frame.len().min(frame::LONGEST_READ)];
        self.frame.extend_from_slice(frame);
        let length = frame.len() as u8;
        TelegramTxResponse {
            decision: expects_reply
                .map_or(Decision::tells(length), |addr| Decision::asks(addr, length)),
        }
    }
}

/// The largest number of pending bytes and of telegrams that a record has.
const MOST_PENDING: usize = 2047;
const MOST_TELEGRAMS: usize = 8;

/// The station, and beside it who was heard.
pub struct FdlActiveStation {
    station: Station,
    address: u8,
    heard: Table,
}

impl FdlActiveStation {
    /// A station that is offline. The parameters are finished settings (see [`crate::settings::Settings`]), or the header of a trace.
    pub fn new(parameters: &[u8]) -> Result<FdlActiveStation, Refusal> {
        let station = Station::open(parameters)?;
        FdlActiveStation::of(parameters, station, Table::default())
    }

    /// A station that was saved, with the parameters that it was made of and who was heard until then: it goes on as if nothing had
    /// happened. Refused: [`Refusal::Station`] where the bytes are no station.
    pub fn restored(
        parameters: &[u8],
        bytes: &[u8],
        heard: Table,
    ) -> Result<FdlActiveStation, Refusal> {
        FdlActiveStation::of(parameters, Station::from_bytes(bytes)?, heard)
    }

    fn of(parameters: &[u8], station: Station, heard: Table) -> Result<FdlActiveStation, Refusal> {
        let header = Header::from_bytes(parameters).ok_or(Refusal::Cut)?;
        Ok(FdlActiveStation {
            station,
            address: header.address,
            heard,
        })
    }

    /// Takes part in the ring from the next poll on.
    pub fn set_online(&mut self) {
        self.command(ONLINE);
    }

    /// Goes offline at once.
    pub fn set_offline(&mut self) {
        self.command(OFFLINE);
    }

    /// Answers status requests and never takes the token, from the next poll on.
    pub fn set_passive(&mut self) {
        self.command(PASSIVE);
    }

    fn command(&mut self, command: u8) {
        self.station
            .step(&[command])
            .expect("a station takes every command");
    }

    /// Its bytes, to be saved, with the counts of its life.
    pub fn station(&self) -> &Station {
        &self.station
    }

    /// How often it claimed the token, removed a neighbour and met its own address.
    pub fn counts(&self) -> Counts {
        self.station.counts()
    }

    /// Who was heard since it was made or restored.
    pub fn heard(&self) -> &Table {
        &self.heard
    }

    /// Polls the bus with one application.
    pub fn poll<PHY: ProfibusPhy>(
        &mut self,
        now: Instant,
        phy: &mut PHY,
        app: &mut dyn FdlApplication,
    ) -> Result<Answer, Unfit> {
        self.poll_multi(now, phy, &mut [app])
    }

    /// Polls the bus with as many applications as its settings say; with another number of them the answer is a refusal
    /// ([`Refusal::RecordLength`]) and the station stays as it was. A clock of more than 48 bits, or a reply address of more than 7,
    /// is [`Unfit`].
    pub fn poll_multi<PHY: ProfibusPhy>(
        &mut self,
        now: Instant,
        phy: &mut PHY,
        apps: &mut [&mut dyn FdlApplication],
    ) -> Result<Answer, Unfit> {
        let mut poll = Poll::at(now.total_micros());
        poll.transmitting = phy.poll_transmission(now);
        let mut ends = Vec::new();
        if !poll.transmitting {
            poll.pending = phy.poll_pending_received_bytes(now).min(MOST_PENDING) as u16;
            ends = phy.receive_data(now, |bytes| received(bytes, &mut poll));
        }
        let mut offered = Vec::new();
        for (application, app) in apps.iter().enumerate() {
            for high in [false, true] {
                let mut frame = Vec::new();
                let tx = TelegramTx { frame: &mut frame };
                let decision = app
                    .transmit_telegram(now, self, tx, high)
                    .map_or(Decision::Declines, |response| response.decision);
                poll = if high {
                    poll.high(application, decision)
                } else {
                    poll.normal(application, decision)
                };
                offered.push(frame);
            }
        }

        let (_, answer) = self
            .station
            .step_heard(&entry_of(&poll, apps.len())?, &mut self.heard)
            .expect("a whole entry");

        if let Some(last) = usize::from(answer.consumed).checked_sub(1) {
            let taken = phy.receive_data(now, |bytes| (ends[last], bytes[..ends[0]].to_vec()));
            if let Notice::Reply {
                application,
                address,
            } = answer.notice
            {
                apps[usize::from(application)].receive_reply(now, self, address, &taken);
            }
        }
        if let Notice::Timeout {
            application,
            address,
        } = answer.notice
        {
            apps[usize::from(application)].handle_timeout(now, self, address);
        }
        if let Some(bytes) = self.to_send(answer.sent, &offered) {
            phy.transmit_data(now, |buffer| {
                buffer[..bytes.len()].copy_from_slice(&bytes);
                (bytes.len(), ())
            });
        }
        if let Sent::Application {
            application, high, ..
        } = answer.sent
        {
            apps[usize::from(application)].transmitted(now, self, high);
        }
        Ok(answer)
    }

    /// The frame of what the station sends, if it sends. The applications' frames stand by application and priority.
    fn to_send(&self, sent: Sent, offered: &[Vec<u8>]) -> Option<Vec<u8>> {
        let own = self.address;
        let telegram = match sent {
            Sent::Nothing => return None,
            Sent::Application {
                application, high, ..
            } => return Some(offered[2 * usize::from(application) + usize::from(high)].clone()),
            Sent::Token { to } => Telegram::token(own, to),
            Sent::StatusRequest { to } => Telegram::status_request(own, to),
            Sent::StatusResponse { to, station_type } => Telegram::response(own, to, station_type),
        };
        let mut bytes = vec![0; frame::LONGEST_WRITTEN];
        let word = telegram.word().expect("addresses of seven bits");
        let length = frame::write(word, &mut bytes).expect("a telegram that is written");
        bytes.truncate(length);
        Some(bytes)
    }
}

/// The telegrams that stand whole at the start of what was received go into the record, at most eight; gives how many bytes are
/// to be taken away, and where each of the frames ends. Bytes that are no frame are taken away, with all behind them, when nothing
/// stands before them.
fn received(bytes: &[u8], poll: &mut Poll) -> (usize, Vec<usize>) {
    let (mut ends, mut at) = (Vec::new(), 0);
    while ends.len() < MOST_TELEGRAMS && at < bytes.len() {
        match frame::read(&bytes[at..]) {
            Ok(frame) => {
                poll.telegrams.push(frame.telegram);
                at += frame.used;
                ends.push(at);
            }
            // more is to come
            Err(Refusal::FrameCut) => break,
            Err(_) if at == 0 => return (bytes.len(), ends),
            Err(_) => break,
        }
    }
    (0, ends)
}
