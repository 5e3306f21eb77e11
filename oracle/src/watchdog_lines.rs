//! What the proved program run_watchdog prints, with the factors and the refusals of the published `parameters.rs`, which
//! finds the factors by trial.

use crate::settings_table::{factors, takes_watchdog};

/// How the factors of a time come about, or why it has none.
fn factors_lines(ms: u64) -> String {
    let units = ms / 10;
    let (f1, f2) = match factors(ms) {
        None => return format!("{} ms: no watchdog, so no factors\n", ms),
        Some(Ok(pair)) => pair,
        Some(Err(())) => {
            return format!("{} ms: refused with 9: {} units of 10 ms are more than 255 x 255 = 65025\n", ms, units)
        }
    };
    let first = match units {
        0 => format!("0 / 255 is 0, and the first factor is at least 1: {}\n", f1),
        _ => format!("{} / 255 rounded up is {}: the first factor\n", units, f1),
    };
    let second = format!("{} / {} rounded up is {}: the second factor\n", units, f1, f2);
    let time = u64::from(f1) * u64::from(f2) * 10;
    let made = format!("{} x {} x 10 ms is {} ms: the time that they make\n", f1, f2, time);
    format!("{} ms / 10 ms rounded down is {}: the units\n{}{}{}", ms, units, first, second, made)
}

/// What is printed of one argument.
pub fn lines(word: &str) -> String {
    let digits = word.len() <= 19 && word.bytes().all(|byte| byte.is_ascii_digit());
    let ms = match word.parse() {
        Ok(ms) if digits => ms,
        _ => return "a time is 1 to 19 decimal digits, in ms\n".to_string(),
    };
    if takes_watchdog(ms) {
        return factors_lines(ms);
    }
    format!("{}the settings refuse {} ms with 8: they take 10 to 650000 ms\n", factors_lines(ms), ms)
}
