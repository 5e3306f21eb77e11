//! `amsulfezd watchdog`: how the two watchdog factors of a time come about.
//!
//! The library's call gives the factors and not how they come about, so the rule of docs/FORMAT.md, section 9, is worked out
//! here; what is printed is held to what the proved program `run_watchdog` prints, for each of its times (`tests/commands.rs`), and
//! to the factors of the proved call for every time that settings take.

use super::examples;
use crate::{failure::Failure, output};
use amsulfezd::settings::Settings;
use clap::{Arg, ArgMatches, Command};

/// The longest time that two factors make, in units of 10 ms.
const MOST_UNITS: u64 = 255 * 255;

pub fn command(command: Command) -> Command {
    command
        .about("How the two watchdog factors of a time come about: the units, the two divisions, the time that they make")
        .long_about(
            "How the two watchdog factors of a time come about. The units are the time / 10 ms, rounded down. The first factor is \
             the units / 255, rounded up, and at least 1; the second is the units / the first factor, rounded up. Both times 10 \
             ms is the time that they make, which can be longer than the one that was asked for. More than 255 x 255 units are \
             refused with 9. The settings take 10 to 650000 ms and refuse others with 8, which makes the status 1.",
        )
        .arg(Arg::new("MS").required(true).num_args(1..).help("A time in milliseconds, of at most 19 digits"))
        .arg(output::option())
        .after_help(examples(&["amsulfezd watchdog 10000"]))
}

pub fn run(words: &ArgMatches) -> Result<(), Failure> {
    let mut text = String::new();
    let mut refused = Ok(());
    for word in words.get_many::<String>("MS").expect("it is required") {
        let digits = word.len() <= 19 && word.bytes().all(|byte| byte.is_ascii_digit());
        let ms: u64 = word.parse().ok().filter(|_| digits).ok_or_else(|| {
            Failure::Usage(format!(
                "a time is 1 to 19 decimal digits, in ms, not '{}'",
                word
            ))
        })?;
        text.push_str(&lines(ms));
        refused = refused.and(setting(ms));
    }
    output::text(words, None, &text)?;
    refused
}

/// How the factors of a time come about, or why it has none.
fn lines(ms: u64) -> String {
    let units = ms / 10;
    if ms == 0 {
        return "0 ms: no watchdog, so no factors\n".to_string();
    }
    if units > MOST_UNITS {
        return format!(
            "{} ms: refused with 9: {} units of 10 ms are more than 255 x 255 = {}\n",
            ms, units, MOST_UNITS
        );
    }
    let first = ((units + 254) / 255).max(1);
    let second = (units + first - 1) / first;
    let first_line = match units {
        0 => format!(
            "0 / 255 is 0, and the first factor is at least 1: {}",
            first
        ),
        _ => format!("{} / 255 rounded up is {}: the first factor", units, first),
    };
    format!(
        "{} ms / 10 ms rounded down is {}: the units\n{}\n{} / {} rounded up is {}: the second factor\n{} x {} x 10 ms is {} \
         ms: the time that they make\n",
        ms,
        units,
        first_line,
        units,
        first,
        second,
        first,
        second,
        first * second * 10
    )
}

/// What the settings say to a time, by the proved call.
fn setting(ms: u64) -> Result<(), Failure> {
    let mut settings = Settings::new(5, 6, 1).expect("these settings are accepted");
    match u32::try_from(ms).map(|ms| settings.watchdog_timeout(ms).is_ok()) {
        Ok(true) => Ok(()),
        _ => Err(Failure::Refused(format!(
            "the settings refuse {} ms with 8: they take 10 to 650000 ms",
            ms
        ))),
    }
}

#[cfg(test)]
mod tests {
    use super::*;
    use amsulfezd::trace::Header;

    /// Every time that settings take has the factors of the proved call.
    #[test]
    fn factors_of_the_proved_call() {
        let mut settings = Settings::new(5, 6, 1).expect("these settings are accepted");
        for ms in 10..=650_000 {
            settings.watchdog_timeout(ms).expect("settings take it");
            let header = Header::from_bytes(&settings.bytes()).expect("a header");
            let (first, second) = header.watchdog_factors;
            let made = format!("\n{} x {} x 10 ms is ", first, second);
            assert!(lines(u64::from(ms)).contains(&made), "{} ms", ms);
        }
    }
}
