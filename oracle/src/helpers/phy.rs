//! The port trait: the calls of profirust's `ProfibusPhy` that the station makes. Document 01 puts
//! the poll record in the port's place.

use crate::fdl::{Telegram, TelegramTx, TelegramTxResponse};
use crate::time::Instant;

pub trait ProfibusPhy {
    /// Whether a transmission is going on. If so, no other call of the trait may follow in this poll.
    fn poll_transmission(&mut self, now: Instant) -> bool;

    /// Sends the telegram that `f` makes, if it makes one.
    fn transmit_telegram<F>(&mut self, now: Instant, f: F) -> Option<TelegramTxResponse>
    where
        F: FnOnce(TelegramTx) -> Option<TelegramTxResponse>;

    /// Takes the first pending telegram, if there is one.
    fn receive_telegram<F, R>(&mut self, now: Instant, f: F) -> Option<R>
    where
        F: FnOnce(Telegram) -> R;

    /// Takes all pending telegrams, telling `f` which is the last; gives what `f` said to that one.
    fn receive_all_telegrams<F, R>(&mut self, now: Instant, f: F) -> Option<R>
    where
        F: FnMut(Telegram, bool) -> R;

    /// How many bytes are pending.
    fn poll_pending_received_bytes(&mut self, now: Instant) -> usize;
}
