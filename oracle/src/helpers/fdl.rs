//! The names that the published files expect in profirust's `fdl`: the published `parameters.rs` and
//! `active.rs`, and document 01's ring, telegrams and application trait in the place of the files that
//! are not at hand.

use crate::records;
use crate::records::Sent;
use crate::time::Instant;
use crate::Address;

pub use crate::ring::TokenRing;
pub use crate::station::{ConnectivityState, FdlActiveStation, Watched};
pub use parameters::{Parameters, ParametersBuilder};

/// The published `parameters.rs`.
#[allow(dead_code, clippy::all)]
pub mod parameters {
    include!("../../published/parameters.rs");

    /// The private function of the published file.
    pub fn factors(dur: crate::time::Duration) -> Option<Result<(u8, u8), ()>> {
        watchdog_factors(dur)
    }
}

#[derive(Debug, Clone, Copy, PartialEq, Eq)]
pub struct TokenTelegram {
    pub da: Address,
    pub sa: Address,
}

#[derive(Debug, Clone, Copy, PartialEq, Eq)]
pub struct ShortConfirmation;

/// "station type 2 (slave, not ready, without token, in ring)"
#[derive(Debug, Clone, Copy, PartialEq, Eq)]
pub enum ResponseState {
    Slave,
    MasterNotReady,
    MasterWithoutToken,
    MasterInRing,
}

/// "status 4 (0 = Ok)"
#[derive(Debug, Clone, Copy, PartialEq, Eq)]
pub enum ResponseStatus {
    Ok,
    Other(u8),
}

#[derive(Debug, Clone, Copy, PartialEq, Eq)]
pub enum FunctionCode {
    Request { status_request: bool },
    Response { state: ResponseState, status: ResponseStatus },
}

#[derive(Debug, Clone, Copy, PartialEq, Eq)]
pub struct DataTelegramHeader {
    pub da: Address,
    pub sa: Address,
    pub fc: FunctionCode,
}

#[derive(Debug, Clone, Copy, PartialEq, Eq)]
pub struct DataTelegram {
    pub h: DataTelegramHeader,
}

impl DataTelegram {
    /// Something, if this is an FDL status request.
    pub fn is_fdl_status_request(&self) -> Option<()> {
        match self.h.fc {
            FunctionCode::Request { status_request: true } => Some(()),
            _ => None,
        }
    }
}

#[derive(Debug, Clone, Copy, PartialEq, Eq)]
pub enum Telegram {
    Token(TokenTelegram),
    ShortConfirmation(ShortConfirmation),
    Data(DataTelegram),
}

impl Telegram {
    /// "addresses to all but short confirmations"
    pub fn source_address(&self) -> Option<Address> {
        match self {
            Telegram::Token(t) => Some(t.sa),
            Telegram::ShortConfirmation(_) => None,
            Telegram::Data(t) => Some(t.h.sa),
        }
    }

    /// The telegram that a poll record lists.
    pub fn of_record(telegram: &records::Telegram) -> Telegram {
        let data = |da, sa, fc| Telegram::Data(DataTelegram { h: DataTelegramHeader { da, sa, fc } });
        match *telegram {
            records::Telegram::Token { destination: da, source: sa } => Telegram::Token(TokenTelegram { da, sa }),
            records::Telegram::ShortConfirmation => Telegram::ShortConfirmation(ShortConfirmation),
            records::Telegram::Request { destination, source, status_request } => {
                data(destination, source, FunctionCode::Request { status_request })
            }
            records::Telegram::Response { destination, source, station_type, status } => {
                let state = match station_type {
                    0 => ResponseState::Slave,
                    1 => ResponseState::MasterNotReady,
                    2 => ResponseState::MasterWithoutToken,
                    _ => ResponseState::MasterInRing,
                };
                let status = match status {
                    0 => ResponseStatus::Ok,
                    other => ResponseStatus::Other(other),
                };
                data(destination, source, FunctionCode::Response { state, status })
            }
        }
    }
}

/// What was sent: document 01's "sent kind" with what belongs to it.
#[derive(Debug, Clone, Copy, PartialEq, Eq)]
pub struct TelegramTxResponse {
    pub sent: Sent,
    expects_reply: Option<Address>,
}

impl TelegramTxResponse {
    pub fn bytes_sent(&self) -> usize {
        usize::from(self.sent.bytes())
    }

    pub fn expects_reply(&self) -> Option<Address> {
        self.expects_reply
    }
}

/// Makes telegrams that are sent.
pub struct TelegramTx;

impl TelegramTx {
    pub fn send_token_telegram(self, da: Address, _sa: Address) -> TelegramTxResponse {
        TelegramTxResponse { sent: Sent::Token { destination: da }, expects_reply: None }
    }

    pub fn send_fdl_status_request(self, da: Address, _sa: Address) -> TelegramTxResponse {
        TelegramTxResponse { sent: Sent::StatusRequest { destination: da }, expects_reply: Some(da) }
    }

    pub fn send_fdl_status_response(
        self,
        da: Address,
        _sa: Address,
        state: ResponseState,
        _status: ResponseStatus,
    ) -> TelegramTxResponse {
        TelegramTxResponse {
            sent: Sent::StatusResponse { destination: da, response_type: state as u8 },
            expects_reply: None,
        }
    }

    /// An application's telegram: "4 application (destination = reply address, else 0)".
    pub fn send_application(
        self,
        application: u8,
        high: bool,
        reply: Option<Address>,
        bytes: u8,
    ) -> TelegramTxResponse {
        TelegramTxResponse {
            sent: Sent::Application { destination: reply.unwrap_or(0), application, high, bytes },
            expects_reply: reply,
        }
    }
}

/// The application trait: the three calls that the station makes.
pub trait FdlApplication {
    /// Possibly sends a telegram; `None` is a decline.
    fn transmit_telegram(
        &mut self,
        now: Instant,
        fdl: &FdlActiveStation,
        tx: TelegramTx,
        high_prio_only: bool,
    ) -> Option<TelegramTxResponse>;

    /// The reply to what was sent last.
    fn receive_reply(&mut self, now: Instant, fdl: &FdlActiveStation, addr: Address, telegram: Telegram);

    /// No reply came from this address.
    fn handle_timeout(&mut self, now: Instant, fdl: &FdlActiveStation, addr: Address);
}
