//! A simulated bus in words: who got the token when, and what became of each telegram.
//!
//! It is read off a setup and the report that the proved call wrote for it. What a station does is not worked out here. When a
//! telegram ends and whether it met another follows from when it was sent and how long it is.

use amsulfezd::answer::{Answer, Sent, State};
use amsulfezd::simulation::Setup;
use amsulfezd::trace::{Header, BAUD_RATES};
use amsulfezd::words::{counted, thousands};

/// What became of a telegram.
#[derive(Debug, Clone, Copy, PartialEq, Eq)]
pub enum Fate {
    /// Every other station has it in its record at this clock.
    Heard(u64),
    /// It met another: nobody hears it.
    Lost,
    /// The run ends before it is heard.
    Underway,
}

/// A telegram that was sent.
#[derive(Debug, Clone, Copy, PartialEq, Eq)]
pub struct Sending {
    /// When it begins and ends, in microseconds.
    pub clock: u64,
    pub end: u64,
    /// The place of its station by rising address.
    pub place: usize,
    pub sent: Sent,
    pub fate: Fate,
}

impl Sending {
    /// To whom it goes.
    pub fn to(&self) -> Option<u8> {
        match self.sent {
            Sent::Token { to } | Sent::StatusRequest { to } | Sent::StatusResponse { to, .. } => {
                Some(to)
            }
            Sent::Nothing | Sent::Application { .. } => None,
        }
    }

    /// What it is, in words.
    pub fn words(&self) -> String {
        match self.sent {
            Sent::Token { to } => format!("the token to {}", to),
            Sent::StatusRequest { to } => format!("a status request to {}", to),
            Sent::StatusResponse { to, station_type } => {
                format!("a status response to {}: {}", to, station_type)
            }
            Sent::Nothing | Sent::Application { .. } => "a telegram".to_string(),
        }
    }
}

/// How a station got the token.
#[derive(Debug, Clone, Copy, PartialEq, Eq)]
pub enum How {
    /// It takes the token for lost and claims it.
    Claims,
    /// It has claimed it and uses it.
    Claimed,
    /// Another station passed it.
    From(u8),
    /// It passed it to itself: it is alone, or its neighbours are gone.
    Itself,
}

/// That a station got the token.
#[derive(Debug, Clone, Copy, PartialEq, Eq)]
pub struct Got {
    pub clock: u64,
    pub place: usize,
    pub how: How,
}

/// A state that a station comes to.
#[derive(Debug, Clone, Copy, PartialEq, Eq)]
pub struct Change {
    pub clock: u64,
    pub place: usize,
    pub state: State,
}

/// A run of a setup.
#[derive(Debug, Clone, PartialEq, Eq)]
pub struct Bus {
    pub setup: Setup,
    /// By rising address.
    pub stations: Vec<Header>,
    /// All telegrams, in the order in which they were sent.
    pub sent: Vec<Sending>,
    pub got: Vec<Got>,
    pub changes: Vec<Change>,
}

impl Bus {
    /// The run of a setup that was accepted, by its report: the answers tick by tick, within a tick by rising address.
    pub fn of(setup: &Setup, report: &[Answer]) -> Bus {
        let stations = setup.by_address();
        let count = stations.len().max(1);
        let tick = u64::from(setup.tick);
        let last = tick * u64::from(setup.ticks).saturating_sub(1);
        let mut sent = sendings(setup, report, count);
        for index in 0..sent.len() {
            sent[index].fate = fate(&sent, index, tick, last);
        }
        let (mut got, mut changes) = (Vec::new(), Vec::new());
        let mut states: Vec<Option<State>> = vec![None; count];
        // the token that each station heard last as its own, and how many sendings were looked at for it
        let mut tokens: Vec<Option<u8>> = vec![None; count];
        let mut heard = sent.iter().peekable();
        for (index, answer) in report.iter().enumerate() {
            let (clock, place) = (tick * (index / count) as u64, index % count);
            while let Some(one) = heard.next_if(|one| one.end <= clock) {
                if let (Fate::Heard(_), Sent::Token { to }) = (one.fate, one.sent) {
                    let station = stations.iter().position(|station| station.address == to);
                    if let Some(station) = station {
                        tokens[station] = Some(stations[one.place].address);
                    }
                }
            }
            let before = states[place].replace(answer.state);
            if before != Some(answer.state) {
                changes.push(Change {
                    clock,
                    place,
                    state: answer.state,
                });
                let how = match (before, answer.state) {
                    (_, State::ClaimToken) => Some(How::Claims),
                    (Some(State::ClaimToken), State::UseToken) => Some(How::Claimed),
                    (_, State::UseToken) if matches!(answer.sent, Sent::Token { .. }) => {
                        Some(How::Itself)
                    }
                    (_, State::UseToken) => tokens[place].map(How::From),
                    _ => None,
                };
                got.extend(how.map(|how| Got { clock, place, how }));
            }
        }
        Bus {
            setup: setup.clone(),
            stations,
            sent,
            got,
            changes,
        }
    }

    /// The setup in words, on one line.
    pub fn heading(&self) -> String {
        let code = self
            .stations
            .first()
            .map_or(0, |station| usize::from(station.baud));
        let rate = BAUD_RATES.get(code).map_or(0, |&rate| u64::from(rate));
        format!(
            "{} at {} bits a second, {} ticks of {} us",
            counted(self.stations.len(), "station"),
            thousands(rate),
            thousands(u64::from(self.setup.ticks)),
            thousands(u64::from(self.setup.tick))
        )
    }

    /// Who got the token when, which telegrams were lost, and a table of the stations, in words.
    pub fn words(&self) -> String {
        let mut lines: Vec<(u64, usize, String)> = Vec::new();
        for got in &self.got {
            let said = match got.how {
                How::Claims => "claims the token".to_string(),
                How::Claimed => "has the token that it claimed".to_string(),
                How::From(source) => format!("gets the token from {}", source),
                How::Itself => continue,
            };
            lines.push((got.clock, got.place, said));
        }
        for one in self.sent.iter().filter(|one| one.fate == Fate::Lost) {
            lines.push((one.clock, one.place, format!("{} is lost", one.words())));
        }
        // a station's telegram stands behind what it did
        lines.sort_by_key(|(clock, place, _)| (*clock, *place));
        let mut text = format!("{}\n\n       clock  station\n", self.heading());
        for (clock, place, said) in lines {
            text.push_str(&format!(
                "{:>12}  {:>7}  {}\n",
                thousands(clock),
                self.stations[place].address,
                said
            ));
        }
        text.push_str("\nstation  claims  tokens  from others   sent   lost\n");
        for (place, station) in self.stations.iter().enumerate() {
            let got = |which: fn(&How) -> bool| {
                let of_station = self.got.iter().filter(|got| got.place == place);
                of_station.filter(|got| which(&got.how)).count()
            };
            let sent = || self.sent.iter().filter(|one| one.place == place);
            text.push_str(&format!(
                "{:>7}  {:>6}  {:>6}  {:>11}  {:>5}  {:>5}\n",
                station.address,
                got(|how| *how == How::Claims),
                got(|how| *how != How::Claims),
                got(|how| matches!(how, How::From(_))),
                sent().count(),
                sent().filter(|one| one.fate == Fate::Lost).count()
            ));
        }
        text
    }
}

/// Every telegram of a report. Its fate is not known yet.
fn sendings(setup: &Setup, report: &[Answer], count: usize) -> Vec<Sending> {
    let sends = report.iter().enumerate();
    let sends = sends.filter(|(_, answer)| answer.sent != Sent::Nothing);
    sends
        .map(|(index, answer)| {
            let clock = u64::from(setup.tick) * (index / count) as u64;
            Sending {
                clock,
                end: clock + setup.time_of(answer.sent.length()),
                place: index % count,
                sent: answer.sent,
                fate: Fate::Underway,
            }
        })
        .collect()
}

/// What becomes of one of these telegrams: it is lost if another begins before it has ended or has not ended when it begins.
/// Those before it that can reach it are among the last sixteen: while one is on the bus, each of the seven others begins at most
/// two, since after its own it keeps the pause.
fn fate(sent: &[Sending], index: usize, tick: u64, last: u64) -> Fate {
    let one = &sent[index];
    let before = sent[index.saturating_sub(16)..index].iter();
    let after = sent[index + 1..]
        .iter()
        .take_while(|other| other.clock < one.end);
    if before.filter(|other| one.clock < other.end).count() + after.count() > 0 {
        return Fate::Lost;
    }
    match (one.end + tick - 1) / tick * tick {
        due if due > last => Fate::Underway,
        due => Fate::Heard(due),
    }
}

#[cfg(test)]
mod tests {
    use super::*;

    /// An answer of document 01's numbers.
    fn answers(digits: &[&str]) -> Vec<Answer> {
        let word = |digits: &&str| u64::from_str_radix(digits, 16).expect("digits");
        let of = |digits| Answer::try_from(word(digits)).expect("an answer");
        digits.iter().map(of).collect()
    }

    fn setup(tick: u32, ticks: u32) -> Setup {
        let stations = vec![Header::new(5, 6, 1), Header::new(2, 6, 1)];
        Setup {
            tick,
            ticks,
            stations,
        }
    }

    /// Document 02's two readings of one bus: station 2 claims at 4,000 us and 5 hears it, tick by tick of 2,000 us.
    #[test]
    fn one_claims_and_the_other_hears() {
        let report = answers(&[
            "03100000000001fc",
            "03100000000001fc",
            "03100000000001fc",
            "03100000000001fc",
            "02420800300001fc",
            "03100000000001fc",
            "02320800300001fc",
            "0310000001000008",
        ]);
        let bus = Bus::of(&setup(2000, 4), &report);
        let sent: Vec<_> = bus
            .sent
            .iter()
            .map(|one| (one.clock, one.end, one.place, one.fate))
            .collect();
        let stated = [
            (4000, 4066, 0, Fate::Heard(6000)),
            (6000, 6066, 0, Fate::Underway),
        ];
        assert_eq!(sent, stated);
        let stated = "2 stations at 500,000 bits a second, 4 ticks of 2,000 us\n\n       clock  station\n       4,000        2  \
                      claims the token\n       6,000        2  has the token that it claimed\n\nstation  claims  tokens  from \
                      others   sent   lost\n      2       1       1            0      2      0\n      5       0       0            \
                      0      0      0\n";
        assert_eq!(bus.words(), stated);
    }

    /// Both claim at one tick.
    #[test]
    fn what_meets_is_lost() {
        let report = answers(&[
            "03100000000001fc",
            "03100000000001fc",
            "02420800300001fc",
            "02421400300001fc",
        ]);
        let bus = Bus::of(&setup(8000, 2), &report);
        assert_eq!(
            bus.sent.iter().map(|one| one.fate).collect::<Vec<_>>(),
            [Fate::Lost; 2]
        );
        assert!(bus
            .words()
            .contains("8,000        5  the token to 5 is lost\n"));
    }
}
