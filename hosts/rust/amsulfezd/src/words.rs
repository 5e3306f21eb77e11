//! Numbers and settings in words, as all texts about a trace have them.

use crate::trace::{Edition, Header, BAUD_RATES};

/// A number with a comma before each group of three digits.
pub fn thousands(number: u64) -> String {
    let digits = number.to_string();
    let mut grouped = String::new();
    for (place, digit) in digits.chars().enumerate() {
        if place != 0 && (digits.len() - place) % 3 == 0 {
            grouped.push(',');
        }
        grouped.push(digit);
    }
    grouped
}

/// The settings in words, on one line. That a header is of edition 1 goes without saying.
pub fn settings(header: &Header, edition: Edition) -> String {
    let rate = match BAUD_RATES.get(usize::from(header.baud)) {
        Some(&rate) => format!("{} bits a second", thousands(u64::from(rate))),
        None => "unknown".to_string(),
    };
    let watchdog = match header.watchdog_factors {
        (0, 0) => "no watchdog".to_string(),
        (first, second) => format!("watchdog factors {} and {}", first, second),
    };
    let zero = match header.zero {
        0 => String::new(),
        number => match edition {
            Edition::First => format!(", last byte {}", number),
            Edition::Second => format!(", last bits {}", number),
        },
    };
    let edition = match edition {
        Edition::First => "",
        Edition::Second => "; header of edition 2",
    };
    format!(
        "Station {}, baud code {} ({}), slot {} bits, rotation {} bits, gap wait {}, HSA {}, retry {}, min Tsdr {}, \
         {}, {}{}{}",
        header.address,
        header.baud,
        rate,
        header.slot_bits,
        thousands(u64::from(header.rotation_bits)),
        header.gap_wait,
        header.hsa,
        header.retry,
        header.min_tsdr,
        counted(usize::from(header.applications), "application"),
        watchdog,
        zero,
        edition
    )
}

/// "1 byte", "3 bytes".
pub fn counted(count: usize, what: &str) -> String {
    let plural = if count == 1 { "" } else { "s" };
    format!("{} {}{}", count, what, plural)
}
