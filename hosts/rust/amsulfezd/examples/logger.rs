//! A logger that runs the proved station itself, poll by poll, on a bus that is simulated in this program: the scene of
//! `hosts/c/logger.c`, and the same lines (`hosts/c/logger.txt`). It is station 5, with one application that asks the cabinets 20,
//! 21 and 22 for their temperatures, some 4 ms from round to round. An operator panel, station 9, is in its ring, and at 02:10:00 its
//! plug is pulled. With a FILE the logger is restarted a millisecond later: its station is saved, forgotten and loaded again.
//!
//! `AMSULFEZD_STATICLIB_DIR=$PWD/target/staticlib cargo run --manifest-path hosts/rust/Cargo.toml --example logger -- [FILE]`

#![allow(unknown_lints, unexpected_cfgs)]

fn main() {
    if let Err(why) = run() {
        eprintln!("logger: {}", why);
        std::process::exit(1);
    }
}

#[cfg(linked)]
fn run() -> Result<(), String> {
    let words: Vec<_> = std::env::args_os().skip(1).collect();
    let file = match &words[..] {
        [] => None,
        [file] => Some(std::path::Path::new(file)),
        _ => return Err("usage: logger [FILE]".to_string()),
    };
    linked::run(file)
}

#[cfg(not(linked))]
fn run() -> Result<(), String> {
    Err(
        "built without the proved calls: set AMSULFEZD_STATICLIB_DIR to the folder of libamsulfezd.a"
            .to_string(),
    )
}

#[cfg(linked)]
mod linked {
    use amsulfezd::answer::{Answer, NextStation, Sent, State};
    use amsulfezd::fdl::{
        FdlActiveStation, FdlApplication, Instant, ProfibusPhy, TelegramTx, TelegramTxResponse,
    };
    use amsulfezd::frame;
    use amsulfezd::heard::LAST_ADDRESS;
    use amsulfezd::record::Telegram;
    use amsulfezd::settings::Settings;
    use std::path::Path;

    const LOGGER: u8 = 5;
    const PANEL: u8 = 9;
    const CABINETS: [u8; 3] = [20, 21, 22];

    /// 500,000 bits a second: a bit takes 2 us, a byte 11 bits. The logger polls once a bit.
    const BAUD_CODE: u8 = 6;
    const BIT: u64 = 2;
    const BYTE: u64 = 11 * BIT;

    /// In microseconds since midnight: when the plug is pulled, when the scene begins and ends, when the logger is restarted.
    const PULLED: u64 = 130 * 60 * 1_000_000;
    const BEGIN: u64 = PULLED - 9_800;
    const END: u64 = PULLED + 8_000;
    const RESTARTED: u64 = PULLED + 1_000;

    /// The cabinets are asked again so long after the first of them was, or when the token comes next.
    const PERIOD: u64 = 4_000;

    /// After what a cabinet answers, the panel passes the token back, and the panel answers anything else.
    const CABINET_DELAY: u64 = 60;
    const PASS_DELAY: u64 = 66;
    const PANEL_DELAY: u64 = 100;

    /// Function codes: a request for data, a response with data.
    const REQUEST_DATA: u8 = 0x6d;
    const RESPONSE_DATA: u8 = 0x08;

    fn time(clock: u64) -> String {
        let seconds = clock / 1_000_000;
        let (hours, minutes) = (seconds / 3600, seconds / 60 % 60);
        format!(
            "{:02}:{:02}:{:02}.{:06}",
            hours,
            minutes,
            seconds % 60,
            clock % 1_000_000
        )
    }

    /// A frame with data.
    fn with_data(destination: u8, source: u8, code: u8, data: &[u8]) -> Vec<u8> {
        let body = [&[destination, source, code], data].concat();
        let length = body.len() as u8;
        let sum = body.iter().fold(0, |sum: u8, byte| sum.wrapping_add(*byte));
        [
            &[frame::SD2, length, length, frame::SD2],
            &body[..],
            &[sum, frame::END],
        ]
        .concat()
    }

    /// A frame without data, written by the proved call.
    fn framed(telegram: Telegram) -> Vec<u8> {
        let mut bytes = vec![0; frame::LONGEST_WRITTEN];
        let word = telegram.word().expect("addresses of seven bits");
        let length = frame::write(word, &mut bytes).expect("a telegram that is written");
        bytes.truncate(length);
        bytes
    }

    /// A frame, who sends it, and when its first bit stands on the wire.
    struct Frame {
        start: u64,
        sender: u8,
        bytes: Vec<u8>,
    }

    impl Frame {
        fn end(&self) -> u64 {
            self.start + BYTE * self.bytes.len() as u64
        }
    }

    /// The wire, the port of the logger, the panel and the cabinets. Nobody speaks out of turn, so there is one frame at a time.
    #[derive(Default)]
    struct Bus {
        /// The frame on the wire or about to be.
        frame: Option<Frame>,
        /// How many of its bytes have come to the port.
        arrived: usize,
        /// What the port has received and the logger has not yet taken.
        received: Vec<u8>,
        /// How far the panel has come with what it does before the logger is in the ring.
        panel_steps: usize,
        readings: [u16; CABINETS.len()],
    }

    impl Bus {
        /// Puts a frame on the wire. An unplugged panel does not.
        fn say(&mut self, start: u64, sender: u8, bytes: Vec<u8>) {
            if sender == PANEL && start >= PULLED {
                return;
            }
            assert!(self.frame.is_none(), "two frames on the wire");
            self.frame = Some(Frame {
                start,
                sender,
                bytes,
            });
            self.arrived = 0;
        }

        /// The panel, alone at first, passes the token to itself twice and then asks whether the logger is there.
        fn panel_begins(&mut self) {
            let steps = [
                (500, Telegram::token(PANEL, PANEL)),
                (1_000, Telegram::token(PANEL, PANEL)),
                (1_300, Telegram::status_request(PANEL, LOGGER)),
            ];
            if let Some((later, telegram)) = steps.get(self.panel_steps) {
                self.panel_steps += 1;
                self.say(BEGIN + later, PANEL, framed(*telegram));
            }
        }

        /// The bus up to this time: bytes come to the port as they end on the wire, but for the logger's own.
        fn run(&mut self, now: u64) {
            if let Some(frame) = &self.frame {
                let whole = now.saturating_sub(frame.start) / BYTE;
                let whole = frame.bytes.len().min(whole as usize);
                if frame.sender != LOGGER && self.arrived < whole {
                    self.received
                        .extend_from_slice(&frame.bytes[self.arrived..whole]);
                    self.arrived = whole;
                }
                if frame.end() <= now {
                    let end = frame.end();
                    let heard = frame::read(&frame.bytes).expect("a frame").telegram;
                    self.frame = None;
                    self.answer(end, heard);
                }
            }
        }

        /// A telegram has ended: whom it concerns answers.
        fn answer(&mut self, now: u64, heard: Telegram) {
            match heard {
                Telegram::Request {
                    source,
                    destination,
                    status_request: false,
                } => {
                    self.cabinet_answers(now, destination, source);
                }
                // It has the token, and asks the first cabinet itself.
                Telegram::Token {
                    source: LOGGER,
                    destination: PANEL,
                } => {
                    let bytes = with_data(CABINETS[0], PANEL, REQUEST_DATA, &[0]);
                    self.say(now + PANEL_DELAY, PANEL, bytes);
                }
                // A cabinet's answer, or the logger's, which is ready for the ring: the token goes to the logger.
                Telegram::Response {
                    source,
                    destination: PANEL,
                    ..
                } => {
                    let delay = if source == LOGGER {
                        PANEL_DELAY
                    } else {
                        PASS_DELAY
                    };
                    self.say(now + delay, PANEL, framed(Telegram::token(PANEL, LOGGER)));
                }
                Telegram::Token { source: PANEL, .. } => self.panel_begins(),
                _ => {}
            }
        }

        /// A cabinet answers with its temperature in tenths of a degree: its own address in degrees, a tenth more each time.
        fn cabinet_answers(&mut self, now: u64, cabinet: u8, asker: u8) {
            let readings = &mut self.readings[usize::from(cabinet - CABINETS[0])];
            let tenths = 10 * u16::from(cabinet) + *readings;
            if asker == LOGGER {
                *readings += 1;
            }
            let bytes = with_data(asker, cabinet, RESPONSE_DATA, &tenths.to_be_bytes());
            self.say(now + CABINET_DELAY, cabinet, bytes);
        }
    }

    impl ProfibusPhy for Bus {
        fn poll_transmission(&mut self, now: Instant) -> bool {
            let ours = |frame: &Frame| frame.sender == LOGGER && frame.start <= now.total_micros();
            self.frame.as_ref().map_or(false, ours)
        }

        fn transmit_data<F, R>(&mut self, now: Instant, f: F) -> R
        where
            F: FnOnce(&mut [u8]) -> (usize, R),
        {
            let mut buffer = [0; frame::LONGEST_READ];
            let (length, said) = f(&mut buffer);
            self.say(now.total_micros(), LOGGER, buffer[..length].to_vec());
            said
        }

        fn receive_data<F, R>(&mut self, _now: Instant, f: F) -> R
        where
            F: FnOnce(&[u8]) -> (usize, R),
        {
            let (taken, said) = f(&self.received);
            self.received.drain(..taken);
            said
        }
    }

    /// The application: which cabinet is asked next, and from when on.
    struct Temperatures {
        next: usize,
        due: u64,
    }

    impl FdlApplication for Temperatures {
        fn transmit_telegram(
            &self,
            now: Instant,
            _fdl: &FdlActiveStation,
            tx: TelegramTx<'_>,
            high_prio_only: bool,
        ) -> Option<TelegramTxResponse> {
            if high_prio_only || (self.next == 0 && now.total_micros() < self.due) {
                return None;
            }
            let cabinet = CABINETS[self.next];
            Some(tx.send(
                &with_data(cabinet, LOGGER, REQUEST_DATA, &[0]),
                Some(cabinet),
            ))
        }

        fn transmitted(&mut self, now: Instant, _fdl: &FdlActiveStation, _high_prio: bool) {
            if self.next == 0 {
                self.due = now.total_micros() + PERIOD;
            }
            self.next = (self.next + 1) % CABINETS.len();
        }

        fn receive_reply(
            &mut self,
            now: Instant,
            _fdl: &FdlActiveStation,
            addr: u8,
            telegram: &[u8],
        ) {
            let tenths = 256 * u32::from(telegram[7]) + u32::from(telegram[8]);
            let now = time(now.total_micros());
            println!(
                "{}  cabinet {}: {}.{} C",
                now,
                addr,
                tenths / 10,
                tenths % 10
            );
        }

        fn handle_timeout(&mut self, now: Instant, _fdl: &FdlActiveStation, addr: u8) {
            println!("{}  cabinet {}: no answer", time(now.total_micros()), addr);
        }
    }

    /// What the service desk wants to know of the ring, after a poll that found the station in this state.
    fn note_ring(now: u64, was: State, next: NextStation, answer: &Answer) {
        match (answer.next_station, next, answer.sent) {
            (NextStation::Nobody, NextStation::Station(gone), _) => {
                println!(
                    "{}  {} is out of the ring: the logger is alone",
                    time(now),
                    gone
                );
            }
            (NextStation::Station(new), _, _) if answer.next_station != next => {
                println!("{}  {} is in the ring", time(now), new);
            }
            (_, _, Sent::Token { to }) if was == State::CheckTokenPass => {
                println!("{}  {} is silent: the token once more", time(now), to);
            }
            _ => {}
        }
    }

    pub fn run(file: Option<&Path>) -> Result<(), String> {
        let words = |refusal| format!("the settings: {}", refusal);
        let mut settings = Settings::new(LOGGER, BAUD_CODE, 1).map_err(words)?;
        settings.gap_wait_rotations(100).map_err(words)?;
        let parameters = settings.finish().map_err(words)?;
        let mut station = FdlActiveStation::new(&parameters).map_err(words)?;
        let mut application = Temperatures {
            next: 0,
            due: BEGIN,
        };
        let mut bus = Bus::default();
        let (mut polls, mut state, mut next) = (0, State::Offline, NextStation::Nobody);
        station.set_online();
        bus.panel_begins();
        for now in (BEGIN..=END).step_by(BIT as usize) {
            if now == PULLED {
                println!("{}  the panel's plug is pulled", time(now));
            }
            if let (RESTARTED, Some(file)) = (now, file) {
                let failed = |error| format!("{}: {}", file.display(), error);
                let heard = station.heard().clone();
                std::fs::write(file, station.station().bytes()).map_err(failed)?;
                let saved = std::fs::read(file).map_err(failed)?;
                station = FdlActiveStation::restored(&parameters, &saved, heard).map_err(words)?;
            }
            bus.run(now);
            let answer = station
                .poll(Instant::from_micros(now), &mut bus, &mut application)
                .map_err(|unfit| unfit.to_string())?;
            polls += 1;
            note_ring(now, state, next, &answer);
            state = answer.state;
            next = answer.next_station;
        }
        let counts = station.counts();
        println!(
            "{} polls: {} tokens claimed, {} neighbour removed, our own address met {} times",
            polls, counts.claims, counts.removals, counts.meetings
        );
        for address in 0..=LAST_ADDRESS {
            if let Some(heard) = station.heard().of(address) {
                println!(
                    "heard {}: {} times, last at {}",
                    address,
                    heard.times,
                    time(heard.last)
                );
            }
        }
        Ok(())
    }
}
