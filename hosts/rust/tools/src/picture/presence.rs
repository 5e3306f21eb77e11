//! How long each station is on the bus, as far as telegrams and answers tell.

use super::arrows::{Arrow, Place, Way};
use crate::explain::{Alarm, Line};

/// A stay of a station on the bus. The numbers are indices of entries.
#[derive(Debug, Clone, PartialEq, Eq)]
pub struct Stay {
    pub address: u8,
    /// The first telegram from it or to it.
    pub first: usize,
    /// The first and the last telegram from it.
    pub heard: Option<(usize, usize)>,
    /// The entry that took it out of the ring.
    pub left: Option<usize>,
}

impl Stay {
    /// Whether it was heard before an entry and not taken out of the ring before it.
    pub fn goes_on_at(&self, entry: usize) -> bool {
        let heard_before = self.heard.map_or(false, |(first, _)| first < entry);
        heard_before && self.left.map_or(true, |left| left >= entry)
    }

    /// What is known of it, with the numbers of the entries.
    pub fn words(&self) -> String {
        let mut words = format!("station {}: ", self.address);
        words.push_str(&match self.heard {
            Some((first, last)) => format!("heard from entry {} to entry {}", first + 1, last + 1),
            None => format!("named in entry {}, not heard", self.first + 1),
        });
        if let Some(left) = self.left {
            words.push_str(&format!(", out of the ring with entry {}", left + 1));
        }
        words
    }
}

/// The stays of all stations but our own, in the order in which they begin. A telegram after a stay begins another one.
pub fn stays(own: u8, lines: &[Line], arrows: &[Vec<Arrow>]) -> Vec<Stay> {
    let mut stays = Vec::new();
    for (entry, (line, arrows)) in lines.iter().zip(arrows).enumerate() {
        for arrow in arrows {
            for address in [arrow.from, arrow.to]
                .into_iter()
                .filter_map(Place::address)
            {
                if address != own {
                    open_stay(&mut stays, address, entry);
                }
            }
            if let Some(sender) = heard_from(arrow).filter(|&sender| sender != own) {
                let heard = &mut open_stay(&mut stays, sender, entry).heard;
                *heard = Some((heard.map_or(entry, |(first, _)| first), entry));
            }
        }
        if let Some(Alarm::Left(address)) = line.alarm {
            open_stay(&mut stays, address, entry).left = Some(entry);
        }
    }
    stays
}

/// The stay of a station that has not ended; a new one if there is none.
fn open_stay(stays: &mut Vec<Stay>, address: u8, entry: usize) -> &mut Stay {
    let open = |stay: &Stay| stay.address == address && stay.left.is_none();
    let index = stays.iter().rposition(open).unwrap_or_else(|| {
        stays.push(Stay {
            address,
            first: entry,
            heard: None,
            left: None,
        });
        stays.len() - 1
    });
    &mut stays[index]
}

/// The sender of a telegram that came in an accepted record, looked at or not.
fn heard_from(arrow: &Arrow) -> Option<u8> {
    match arrow.way {
        Way::Received | Way::Unread => arrow.from.address(),
        Way::Sent | Way::Refused => None,
    }
}
