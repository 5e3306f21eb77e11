//! The telegrams of an entry as arrows between places on the bus.

use crate::explain::{application_words, telegram_words, Line};
use amsulfezd::answer::{Sent, State};
use amsulfezd::record::Telegram;

/// An end of an arrow.
#[derive(Debug, Clone, Copy, PartialEq, Eq, PartialOrd, Ord)]
pub enum Place {
    Address(u8),
    /// A short confirmation does not say who sent it, an application's telegram without a reply not where it goes.
    NoAddress,
}

impl Place {
    /// The address, if it has one.
    pub fn address(self) -> Option<u8> {
        match self {
            Place::Address(address) => Some(address),
            Place::NoAddress => None,
        }
    }
}

/// What kind of telegram an arrow is.
#[derive(Debug, Clone, Copy, PartialEq, Eq)]
pub enum Kind {
    Token,
    StatusRequest,
    Request,
    Response,
    Confirmation,
    Application,
}

/// Every kind, in the order of the legend.
pub const KINDS: [Kind; 6] = [
    Kind::Token,
    Kind::StatusRequest,
    Kind::Application,
    Kind::Request,
    Kind::Response,
    Kind::Confirmation,
];

impl Kind {
    /// The name of its style.
    pub fn class(self) -> &'static str {
        match self {
            Kind::Token => "token",
            Kind::StatusRequest => "status-request",
            Kind::Request => "request",
            Kind::Response => "response",
            Kind::Confirmation => "confirmation",
            Kind::Application => "application",
        }
    }

    /// Its name in the legend.
    pub fn words(self) -> &'static str {
        match self {
            Kind::Token => "token",
            Kind::StatusRequest => "status request",
            Kind::Request => "another's request",
            Kind::Response => "response",
            Kind::Confirmation => "short confirmation",
            Kind::Application => "application's telegram",
        }
    }

    /// The letter that stands beside it where there is room.
    pub fn letter(self) -> &'static str {
        match self {
            Kind::Token => "T",
            Kind::StatusRequest => "S",
            Kind::Request => "Q",
            Kind::Response => "R",
            Kind::Confirmation => "C",
            Kind::Application => "A",
        }
    }
}

/// What became of a telegram.
#[derive(Debug, Clone, Copy, PartialEq, Eq)]
pub enum Way {
    /// Our station sent it.
    Sent,
    /// It came and was consumed.
    Received,
    /// It came and was not looked at.
    Unread,
    /// It stands in a record that was refused.
    Refused,
}

impl Way {
    /// The name of its style.
    pub fn class(self) -> &'static str {
        match self {
            Way::Sent => "sent",
            Way::Received => "received",
            Way::Unread => "unread",
            Way::Refused => "refused",
        }
    }

    /// What the pointer shows after the telegram.
    fn words(self) -> &'static str {
        match self {
            Way::Sent => "sent",
            Way::Received => "received",
            Way::Unread => "received, not looked at",
            Way::Refused => "in a refused record",
        }
    }
}

/// A telegram between two places.
#[derive(Debug, Clone, PartialEq, Eq)]
pub struct Arrow {
    pub kind: Kind,
    pub way: Way,
    pub from: Place,
    pub to: Place,
    /// It came with our own address as its source: another station has it.
    pub own_address: bool,
    /// The letter of its kind, with the application's number where there is one.
    pub letter: String,
    pub words: String,
}

/// The telegrams of an entry in their order: those that came, then the one that was sent.
pub fn arrows(own: u8, line: &Line) -> Vec<Arrow> {
    let mut arrows = Vec::new();
    if let Some(poll) = &line.poll {
        for (index, telegram) in poll.telegrams.iter().enumerate() {
            let way = if line.answer.refusal.is_some() {
                Way::Refused
            } else if index < usize::from(line.answer.consumed) {
                Way::Received
            } else {
                Way::Unread
            };
            arrows.push(arrow(own, telegram, way));
        }
    }
    arrows.extend(sent(own, line));
    arrows
}

/// The arrow of a telegram. One without addresses goes to us from nowhere.
fn arrow(own: u8, telegram: &Telegram, way: Way) -> Arrow {
    let (kind, from, to) = match *telegram {
        Telegram::Token {
            source,
            destination,
        } => (
            Kind::Token,
            Place::Address(source),
            Place::Address(destination),
        ),
        Telegram::ShortConfirmation => (Kind::Confirmation, Place::NoAddress, Place::Address(own)),
        Telegram::Request {
            source,
            destination,
            status_request,
        } => (
            if status_request {
                Kind::StatusRequest
            } else {
                Kind::Request
            },
            Place::Address(source),
            Place::Address(destination),
        ),
        Telegram::Response {
            source,
            destination,
            ..
        } => (
            Kind::Response,
            Place::Address(source),
            Place::Address(destination),
        ),
    };
    Arrow {
        kind,
        way,
        from,
        to,
        own_address: way != Way::Sent && telegram.source() == Some(own),
        letter: kind.letter().to_string(),
        words: format!("{}: {}", way.words(), telegram_words(telegram)),
    }
}

/// The arrow of what an answer says was sent.
fn sent(own: u8, line: &Line) -> Option<Arrow> {
    match line.answer.sent {
        Sent::Nothing => None,
        Sent::Token { to } => Some(arrow(own, &Telegram::token(own, to), Way::Sent)),
        Sent::StatusRequest { to } => {
            Some(arrow(own, &Telegram::status_request(own, to), Way::Sent))
        }
        Sent::StatusResponse { to, station_type } => Some(arrow(
            own,
            &Telegram::response(own, to, station_type),
            Way::Sent,
        )),
        Sent::Application {
            application,
            high,
            reply_from,
            length,
        } => Some(Arrow {
            kind: Kind::Application,
            way: Way::Sent,
            from: Place::Address(own),
            to: if line.answer.state == State::AwaitDataResponse {
                Place::Address(reply_from)
            } else {
                Place::NoAddress
            },
            own_address: false,
            letter: format!("{}{}", Kind::Application.letter(), application),
            words: format!(
                "{}: {}",
                Way::Sent.words(),
                application_words(application, high, length)
            ),
        }),
    }
}
