//! The table that the proved settings program prints, worked out by the published `parameters.rs`. Document 01's time and baud types and
//! a list of peripherals stand in for the rest of profirust. A panic of the published code is written as the refusal that
//! document 01 gives. Document 02's 25 has no counterpart in the published code: it is asked of the record that its builder gives.

use crate::baud::BAUDRATES;
use crate::dp;
use crate::fdl::{parameters, Parameters, ParametersBuilder};
use crate::time::Duration;
use crate::trace::least_rotation;
use std::panic::{catch_unwind, AssertUnwindSafe};

/// What the published code answers, `None` where it panics.
fn tried<T>(work: impl FnOnce() -> T) -> Option<T> {
    catch_unwind(AssertUnwindSafe(work)).ok()
}

/// The ten numbers that end a line.
fn record(p: &Parameters) -> String {
    let (f1, f2) = p.watchdog_factors.unwrap_or((0, 0));
    let bytes = [p.gap_wait_rotations, p.highest_station_address, p.max_retry_limit, p.min_tsdr_bits, f1, f2];
    let rest: String = bytes.iter().map(|byte| format!(" {}", byte)).collect();
    format!("; {} {} {} {}{}", p.address, p.baudrate.code(), p.slot_bits, p.token_rotation_bits, rest)
}

fn builder(address: u8, code: u8) -> ParametersBuilder {
    ParametersBuilder::new(address, BAUDRATES[usize::from(code)].0)
}

/// The published factors of a time. A time that the published code cannot take is refused, as by document 01's 9.
pub fn factors(ms: u64) -> Option<Result<(u8, u8), ()>> {
    // A duration counts microseconds in 64 bits: a longer time cannot be asked of the published code.
    let askable = ms <= u64::MAX / 1000;
    let answer = askable.then(|| tried(|| parameters::factors(Duration::from_millis(ms)))).flatten();
    answer.unwrap_or(Some(Err(())))
}

fn factors_line(ms: u64) -> String {
    let words = match factors(ms) {
        None => "none".to_string(),
        Some(Ok((f1, f2))) => format!("{} {}", f1, f2),
        Some(Err(())) => "refused 9".to_string(),
    };
    format!("watchdog_factors {} ms: {}", ms, words)
}

/// The published setter takes the time.
pub fn takes_watchdog(ms: u64) -> bool {
    tried(|| {
        builder(0, 0).watchdog_timeout(Duration::from_millis(ms));
    })
    .is_some()
}

fn new_line((address, code): (u8, u8)) -> String {
    let words = match tried(|| builder(address, code).build()) {
        Some(p) => format!("accepted{}", record(&p)),
        None if address > 125 => "refused 1".to_string(),
        None => "refused 10".to_string(),
    };
    format!("new {} {}: {}", address, code, words)
}

/// A setter: its name, the number of its refusal, and the call.
type Setter = (&'static str, u8, fn(&mut ParametersBuilder, u64) -> &mut ParametersBuilder);

/// The setters in document 01's order.
const SETTERS: [Setter; 7] = [
    ("slot_bits", 2, |b, value| b.slot_bits(value as u16)),
    ("highest_station_address", 3, |b, value| b.highest_station_address(value as u8)),
    ("token_rotation_bits", 4, |b, value| b.token_rotation_bits(value as u32)),
    ("gap_wait_rotations", 5, |b, value| b.gap_wait_rotations(value as u8)),
    ("max_retry_limit", 6, |b, value| b.max_retry_limit(value as u8)),
    ("min_tsdr", 7, |b, value| b.min_tsdr(value as u8)),
    ("watchdog_timeout", 8, |b, value| b.watchdog_timeout(Duration::from_millis(value))),
];

/// One setter on new settings: a panic is the setter's refusal, and leaves the settings.
fn setter_line((name, number, set): Setter, (address, code): (u8, u8), value: u64) -> String {
    let after = tried(|| {
        let mut b = builder(address, code);
        set(&mut b, value);
        b.build()
    });
    let words = match after {
        Some(p) => format!("accepted{}", record(&p)),
        None => format!("refused {}{}", number, record(&builder(address, code).build())),
    };
    format!("{} {}: {}", name, value, words)
}

fn setter_lines() -> Vec<String> {
    let [slot, hsa, rotation, gap, retry, min_tsdr, watchdog] = SETTERS;
    let mut lines = Vec::new();
    let least = [100, 100, 100, 100, 100, 100, 200, 300, 400, 600, 1000];
    for (code, least) in (0..).zip(least) {
        lines.extend([least - 1, least].map(|bits| setter_line(slot, (5, code), bits)));
    }
    lines.extend([0, 65535].map(|bits| setter_line(slot, (5, 10), bits)));
    let hsas = [(5, 5), (5, 6), (5, 126), (5, 127), (0, 0), (0, 1), (125, 125), (125, 126), (125, 255)];
    lines.extend(hsas.map(|(address, value)| setter_line(hsa, (address, 6), value)));
    let others: [(Setter, &[u64]); 5] = [
        (rotation, &[255, 256, 16_777_960, 16_777_961]),
        (gap, &[0, 1, 100, 101]),
        (retry, &[0, 1, 15, 16]),
        (min_tsdr, &[10, 11, 255]),
        (watchdog, &[0, 9, 10, 650_000, 650_001]),
    ];
    for (setter, values) in others {
        lines.extend(values.iter().map(|value| setter_line(setter, (5, 6), *value)));
    }
    lines
}

/// The setters on the caller's record at the same boundaries. The published setters all work on the builder's own record, so
/// that what they answer is what the setters by value are held to.
fn in_place_lines() -> Vec<String> {
    let in_place = ["slot_bits ", "highest_station_address ", "token_rotation_bits "];
    let lines = setter_lines().into_iter().filter(|line| in_place.iter().any(|name| line.starts_with(name)));
    lines.map(|line| format!("set_{}", line)).collect()
}

/// One builder that is set again and again. A call that panics on a new builder is refused, and is not made on this one: the
/// published `slot_bits` would leave the refused value there.
fn one_record_lines(mut b: ParametersBuilder) -> Vec<String> {
    let [slot, hsa, rotation, ..] = SETTERS;
    let calls: [(Setter, u64); 8] = [
        (slot, 300),
        (hsa, 20),
        (rotation, 255),
        (rotation, 50_000),
        (slot, 199),
        (hsa, 5),
        (hsa, 126),
        (slot, 65_535),
    ];
    let line = |((name, number, set), value): (Setter, u64)| {
        let words = if tried(|| set(&mut builder(5, 6), value).build()).is_some() {
            set(&mut b, value);
            "accepted".to_string()
        } else {
            format!("refused {}", number)
        };
        format!("set_{} {}: {}{}", name, value, words, record(&b.build()))
    };
    calls.map(line).into()
}

fn slot_check_line(max_tsdr: u16) -> String {
    let b = builder(5, 6);
    let master = dp::DpMaster(vec![dp::Peripheral(dp::Options { max_tsdr })]);
    let words = if tried(|| b.build_verified(&master)).is_some() { "yes" } else { "no" };
    format!("slot_check {}: {}{}", max_tsdr, words, record(&b.build()))
}

fn times_line(p: &Parameters) -> String {
    let micros = |time: Duration| time.total_micros().to_string();
    let named = [
        ("slot_time", micros(p.slot_time())),
        ("min_tsdr_time", micros(p.min_tsdr_time())),
        ("token_lost_timeout", micros(p.token_lost_timeout())),
        ("token_rotation_time", micros(p.token_rotation_time())),
        ("watchdog_time", p.watchdog_timeout().map_or("none".to_string(), micros)),
    ];
    named.map(|(name, time)| format!("{} {}", name, time)).join(" ") + &record(p)
}

/// Document 02's 25, by its rule: the rotation has no room for a gap poll.
fn without_room(p: &Parameters) -> Option<u8> {
    (p.token_rotation_bits < least_rotation(p.slot_bits)).then_some(25)
}

/// A whole record, of which the published code has no check: its setters are tried in document 01's order, and 25 is asked
/// directly after 4, the third of them.
fn whole_line(p: &Parameters, code: u8, factors: (u8, u8)) -> String {
    let values = [
        p.slot_bits.into(),
        p.highest_station_address.into(),
        p.token_rotation_bits.into(),
        p.gap_wait_rotations.into(),
        p.max_retry_limit.into(),
        p.min_tsdr_bits.into(),
    ];
    let refused = |(setter, value): (&Setter, u64)| {
        let (_, number, set) = *setter;
        let accepted = tried(|| set(&mut builder(p.address, code), value).build()).is_some();
        (!accepted).then_some(number)
    };
    let first = (p.address > 125)
        .then_some(1)
        .or_else(|| (code > 10).then_some(10))
        .or_else(|| SETTERS.iter().zip(values).take(3).find_map(refused))
        .or_else(|| without_room(p))
        .or_else(|| SETTERS.iter().zip(values).skip(3).find_map(refused))
        .or_else(|| ((factors.0 == 0) != (factors.1 == 0)).then_some(8));
    match first {
        Some(number) => format!("build: refused {}", number),
        None => format!("build: accepted{}", record(p)),
    }
}

/// The settings whole, then with one fault more before the others each time.
fn whole_lines(mut p: Parameters) -> Vec<String> {
    let (f1, f2) = p.watchdog_factors.unwrap_or((0, 0));
    let mut lines = vec![whole_line(&p, 6, (f1, f2)), whole_line(&p, 6, (f1, 0))];
    let faults: [fn(&mut Parameters); 7] = [
        |p| p.min_tsdr_bits = 10,
        |p| p.max_retry_limit = 16,
        |p| p.gap_wait_rotations = 101,
        |p| p.token_rotation_bits = 299,
        |p| p.token_rotation_bits = 255,
        |p| p.highest_station_address = 5,
        |p| p.slot_bits = 199,
    ];
    for fault in faults {
        fault(&mut p);
        lines.push(whole_line(&p, 6, (f1, 0)));
    }
    lines.push(whole_line(&p, 11, (f1, 0)));
    p.address = 126;
    lines.push(whole_line(&p, 11, (f1, 0)));
    lines
}

/// Settings that the published builder makes by these calls, finished. Its setters have checked each field, so that 25 alone is
/// left to ask.
fn finish_line(words: &str, code: u8, calls: &[(Setter, u64)]) -> String {
    let made = tried(|| {
        let mut b = builder(5, code);
        for ((_, _, set), value) in calls {
            set(&mut b, *value);
        }
        b.build()
    });
    let said = match made.map(|p| (without_room(&p), record(&p))) {
        Some((None, record)) => format!("accepted{}", record),
        Some((Some(number), record)) => format!("refused {}{}", number, record),
        None => "a setter refuses".to_string(),
    };
    format!("finish {}: {}", words, said)
}

/// Two setters on new settings, in both orders, each time finished.
fn finish_lines(code: u8, first: (Setter, u64), second: (Setter, u64)) -> [String; 2] {
    [[first, second], [second, first]].map(|calls| {
        let words = calls.map(|((name, ..), value)| format!("{} {}", name, value));
        finish_line(&words.join(" "), code, &calls)
    })
}

/// New settings of each baud code finished; slot and rotation, and slot and HSA, which sets the rotation, where there is just
/// room for a gap poll, and where there is not.
fn finished_lines() -> Vec<String> {
    let [slot, hsa, rotation, ..] = SETTERS;
    let mut lines: Vec<String> = (0..11).map(|code| finish_line(&format!("new 5 {}", code), code, &[])).collect();
    let rotations = [
        (6, 200, 299),
        (6, 200, 300),
        (6, 200, 256),
        (0, 156, 256),
        (0, 157, 256),
        (0, 157, 257),
        (6, 65_535, 65_634),
        (6, 65_535, 65_635),
    ];
    for (code, slot_bits, rotation_bits) in rotations {
        lines.extend(finish_lines(code, (slot, slot_bits), (rotation, rotation_bits)));
    }
    for address in [13, 14] {
        lines.extend(finish_lines(6, (slot, 65_535), (hsa, address)));
    }
    lines
}

/// The whole table. Panics of the published code are caught; a hook may still print them.
pub fn table() -> String {
    let times = [0, 9, 10, 2550, 2560, 10000, 650_000, 650_250, 650_260, 42_949_670_420, u64::MAX];
    let mut lines: Vec<String> = times.map(factors_line).into();
    for (baudrate, _) in BAUDRATES {
        let pause = baudrate.bits_to_time(33).total_micros();
        lines.push(format!("33 bits at code {}: {} us", baudrate.code(), pause));
    }
    lines.push("33 bits at code 11: no rate".to_string());
    lines.extend([(0, 0), (125, 10), (126, 0), (0, 11), (126, 11), (255, 255)].map(new_line));
    lines.extend(setter_lines());
    lines.extend([185, 186, 65520, 65521, 65535].map(slot_check_line));
    let mut b = builder(5, 6);
    lines.push(times_line(&b.build()));
    b.watchdog_timeout(Duration::from_millis(10000));
    lines.push(times_line(&b.build()));
    lines.extend(whole_lines(b.build()));
    lines.extend(in_place_lines());
    lines.extend(one_record_lines(b));
    lines.extend(finished_lines());
    lines.join("\n") + "\n"
}
