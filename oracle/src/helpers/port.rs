//! A port and applications that do what a poll record says and write down what the station did: the answer's fields are
//! taken from here.

use crate::fdl::{FdlActiveStation, FdlApplication, Telegram, TelegramTx, TelegramTxResponse};
use crate::phy::ProfibusPhy;
use crate::records::{Decision, Notice, PollRecord, Sent};
use crate::time::Instant;
use crate::Address;

/// The port of one poll.
pub struct RecordPort<'a> {
    record: &'a PollRecord,
    /// What the station sent.
    pub sent: Sent,
    /// How many telegrams the station took.
    pub consumed: usize,
}

impl<'a> RecordPort<'a> {
    pub fn new(record: &'a PollRecord) -> Self {
        RecordPort { record, sent: Sent::Nothing, consumed: 0 }
    }

    /// The telegrams not yet taken. The published trait forbids this call in a transmission.
    fn pending(&self) -> &'a [crate::records::Telegram] {
        assert!(!self.record.transmitting, "asked during a transmission");
        &self.record.telegrams[self.consumed..]
    }
}

impl ProfibusPhy for RecordPort<'_> {
    fn poll_transmission(&mut self, _now: Instant) -> bool {
        self.record.transmitting
    }

    fn transmit_telegram<F>(&mut self, _now: Instant, f: F) -> Option<TelegramTxResponse>
    where
        F: FnOnce(TelegramTx) -> Option<TelegramTxResponse>,
    {
        assert!(!self.record.transmitting, "sent during a transmission");
        let response = f(TelegramTx)?;
        assert_eq!(self.sent, Sent::Nothing, "sent twice in one poll");
        self.sent = response.sent;
        Some(response)
    }

    fn receive_telegram<F, R>(&mut self, _now: Instant, f: F) -> Option<R>
    where
        F: FnOnce(Telegram) -> R,
    {
        let first = self.pending().first()?;
        self.consumed += 1;
        Some(f(Telegram::of_record(first)))
    }

    fn receive_all_telegrams<F, R>(&mut self, _now: Instant, mut f: F) -> Option<R>
    where
        F: FnMut(Telegram, bool) -> R,
    {
        let mut said = None;
        let pending = self.pending();
        for (i, telegram) in pending.iter().enumerate() {
            self.consumed += 1;
            said = Some(f(Telegram::of_record(telegram), i + 1 == pending.len()));
        }
        said
    }

    fn poll_pending_received_bytes(&mut self, _now: Instant) -> usize {
        assert!(!self.record.transmitting, "asked during a transmission");
        usize::from(self.record.pending)
    }
}

/// One application in one poll.
pub struct RecordApplication {
    index: u8,
    normal: Decision,
    high: Decision,
    /// What the station told it.
    pub notice: Notice,
}

impl RecordApplication {
    /// The applications of a record, in their order.
    pub fn all(record: &PollRecord) -> Vec<RecordApplication> {
        let of = |(index, &(normal, high))| RecordApplication { index, normal, high, notice: Notice::Nothing };
        (0..).zip(&record.decisions).map(of).collect()
    }

    fn tell(&mut self, notice: Notice) {
        assert_eq!(self.notice, Notice::Nothing, "told twice in one poll");
        self.notice = notice;
    }
}

impl FdlApplication for RecordApplication {
    fn transmit_telegram(
        &mut self,
        _now: Instant,
        _fdl: &FdlActiveStation,
        tx: TelegramTx,
        high_prio_only: bool,
    ) -> Option<TelegramTxResponse> {
        let decision = if high_prio_only { self.high } else { self.normal };
        match decision {
            Decision::Declines => None,
            Decision::Sends { reply, length } => Some(tx.send_application(self.index, high_prio_only, reply, length)),
        }
    }

    fn receive_reply(&mut self, _now: Instant, _fdl: &FdlActiveStation, addr: Address, _telegram: Telegram) {
        self.tell(Notice::Reply { application: self.index, address: addr });
    }

    fn handle_timeout(&mut self, _now: Instant, _fdl: &FdlActiveStation, addr: Address) {
        self.tell(Notice::Timeout { application: self.index, address: addr });
    }
}
