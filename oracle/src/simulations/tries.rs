//! What is tried: setups with one fault and with every two, every room, borders, a setup with every damage, and setups made at
//! random, whose stations form rings, miss each other's answers and meet on the bus.

use super::simulation::{simulated_trace, Setup, HEAD, MOST_TICKS, STATION, STATIONS};
use crate::baud::{Baudrate, LEAST_SLOT_BITS};
use crate::comparison::calls::Parts;
use crate::generator::Seed;
use crate::trace::{Header, ANSWER};

/// One call: a setup and the report's buffer, or a setup, a place and the trace's buffer.
#[derive(Debug, Clone, PartialEq, Eq)]
pub enum Try {
    Simulate(Vec<u8>, Vec<u8>),
    Trace(Vec<u8>, u8, Vec<u8>),
}

/// What buffers are filled with.
const FILL: u8 = 0xa5;

/// A trace has its header and online, and for each tick a record of 15 bytes or more, up to 47 with eight telegrams.
const LEAST_TRACE: usize = 17;
const LONGEST_ENTRY: usize = 1 + 8 + 6 + 4 * 8;

/// All that is tried, in parts with their names; so many setups are made at random.
pub fn parts(seed: u64, count: u64) -> Parts<Try> {
    vec![
        ("setups with one or two faults", Box::new(with_faults().into_iter())),
        ("setups with two bad settings", Box::new(with_bad_settings().into_iter())),
        ("rooms", Box::new(rooms())),
        ("borders", Box::new(borders().into_iter())),
        ("damaged setups", Box::new(damaged())),
        ("calls on setups at random", Box::new((0..count).flat_map(move |index| calls_on(seed, index)))),
    ]
}

/// The bytes of a setup with its stations as they are given.
pub fn bytes_of(tick: u64, ticks: u64, stations: &[Header]) -> Vec<u8> {
    Setup { tick, ticks, stations: stations.to_vec() }.write()
}

/// Setups at random of seed 1 that together reach what is seldom reached.
const REACHING: [u64; 3] = [6, 69, 272];

/// A small good setup: two stations at 500 kbaud whose ring is made within these ticks.
fn small() -> Vec<u8> {
    let station = |address| Header { address, hsa: 8, gap: 1, ..Header::EXAMPLE_12 };
    bytes_of(400, 40, &[station(5), station(2)])
}

/// The room that both calls need at most.
fn enough(setup: &[u8]) -> (usize, usize) {
    match Setup::read(setup) {
        Ok(setup) => {
            let ticks = setup.ticks as usize;
            (ANSWER * setup.stations.len() * ticks, LEAST_TRACE + LONGEST_ENTRY * ticks)
        }
        Err(_) => (64, 64),
    }
}

/// Both calls on a setup, with enough room for a setup of some ticks.
fn both(setup: &[u8]) -> [Try; 2] {
    let (report, trace) = enough(setup);
    [Try::Simulate(setup.to_vec(), vec![FILL; report]), Try::Trace(setup.to_vec(), 0, vec![FILL; trace])]
}

/// A change that makes a setup of stations bad.
type Fault = fn(&mut Vec<u8>);

/// Writes bytes at a place, if they are there.
fn put(setup: &mut [u8], at: usize, bytes: &[u8]) {
    for (place, byte) in setup.iter_mut().skip(at).zip(bytes) {
        *place = *byte;
    }
}

/// The faults of a whole setup, in the order of their refusals: what each is changed to.
const FAULTS: [Fault; 17] = [
    |setup| setup[0] = 0,
    |setup| setup[0] = 1,
    |setup| setup[0] = 9,
    |setup| setup[0] = 255,
    |setup| setup.push(0),
    |setup| setup.truncate(setup.len() - 1),
    |setup| setup.truncate(setup.len() - STATION),
    |setup| put(setup, 1, &[0, 0, 0, 0]),
    |setup| put(setup, 1, &1_000_001u32.to_be_bytes()),
    |setup| put(setup, 1, &[255; 4]),
    |setup| put(setup, 5, &1_000_001u32.to_be_bytes()),
    |setup| put(setup, 5, &[255; 4]),
    |setup| put(setup, HEAD + 1, &[7]),
    |setup| put(setup, HEAD + 1, &[11]),
    |setup| put(setup, HEAD, &[2]),
    |setup| put(setup, HEAD, &[200, 6, 0, 200, 0, 0, 126, 180, 10, 126, 1, 11, 0, 0, 200]),
    |setup| put(setup, HEAD + STATION + 8, &[0]),
];

/// Setups with one or two of these faults, with no bytes or fewer than the head has, and with every number of stations, for both
/// calls, for every place, with room and without.
fn with_faults() -> Vec<Try> {
    let mut setups: Vec<Vec<u8>> = (0..=HEAD).map(|length| small()[..length].to_vec()).collect();
    for (i, first) in FAULTS.iter().enumerate() {
        for second in &FAULTS[i..] {
            // both orders, since one may undo the other
            for faults in [[first, second], [second, first]] {
                let mut setup = small();
                faults.iter().for_each(|fault| fault(&mut setup));
                setups.push(setup);
            }
        }
    }
    for count in 0..=10 {
        let stations: Vec<Header> = (0..count).map(|address| Header { address, ..Header::EXAMPLE_12 }).collect();
        setups.push(bytes_of(400, 10, &stations));
        setups.push(bytes_of(400, 10, &stations)[..HEAD].to_vec());
    }
    // of three stations and more, each with another baud code, and each two with one address
    for count in 3..=STATIONS.count() + 1 {
        let stations: Vec<Header> = (0..count as u8).map(|address| Header { address, ..Header::EXAMPLE_12 }).collect();
        for i in 0..count {
            let mut other = stations.clone();
            other[i].baud = 7;
            setups.push(bytes_of(400, 10, &other));
            for j in 0..i {
                let mut equal = stations.clone();
                equal[i].address = equal[j].address;
                setups.push(bytes_of(400, 10, &equal));
            }
        }
    }
    let mut tries = Vec::new();
    for setup in setups {
        let (report, trace) = enough(&setup);
        for room in [0, ANSWER - 1, report] {
            tries.push(Try::Simulate(setup.clone(), vec![FILL; room]));
        }
        for place in [0, 1, 2, 8, 255] {
            for room in [0, LEAST_TRACE - 1, trace] {
                tries.push(Try::Trace(setup.clone(), place, vec![FILL; room]));
            }
        }
    }
    tries
}

/// Values of a station's settings that are refused, by where they stand among its 14 bytes.
const BAD_SETTINGS: [(usize, &[u8]); 24] = [
    (0, &[126]),
    (0, &[127]),
    (0, &[0x82]),
    (0, &[255]),
    (1, &[11]),
    (1, &[255]),
    (2, &[0, 199]),
    (2, &[0, 0]),
    (9, &[0]),
    (9, &[127]),
    (9, &[255]),
    (4, &[0, 0, 0, 255]),
    (4, &[1, 0, 3, 41]),
    (4, &[0, 0, 1, 0]),
    (4, &[0, 0, 1, 43]),
    (8, &[0]),
    (8, &[101]),
    (10, &[0]),
    (10, &[16]),
    (11, &[10]),
    (11, &[0]),
    (12, &[1, 0]),
    (12, &[0, 1]),
    (12, &[255, 0]),
];

/// Three stations, of which one has two bad settings, or two have one each, in both orders of being given; with a baud code that
/// is none, all have it, so that it comes to the settings.
fn with_bad_settings() -> Vec<Try> {
    let station = |address| Header { address, ..Header::EXAMPLE_12 };
    let good = bytes_of(400, 10, &[station(7), station(2), station(9)]);
    let mut tries = Vec::new();
    let mut add = |changes: &[(usize, usize, &[u8])]| {
        let mut setup = good.clone();
        for (place, at, bytes) in changes {
            put(&mut setup, HEAD + STATION * place + at, bytes);
            if *at == 1 {
                (0..3).for_each(|place| put(&mut setup, HEAD + STATION * place + 1, bytes));
            }
        }
        tries.extend(both(&setup));
    };
    for (at, bytes) in BAD_SETTINGS {
        (0..3).for_each(|place| add(&[(place, at, bytes)]));
        for (other_at, other) in BAD_SETTINGS {
            for (first, second) in [(0, 0), (0, 1), (1, 2), (2, 0)] {
                add(&[(first, at, bytes), (second, other_at, other)]);
            }
        }
    }
    tries
}

/// A small setup with every room for its report, and with every room about that of each station's trace.
fn rooms() -> impl Iterator<Item = Try> {
    let setup = small();
    let (report, trace) = enough(&setup);
    let reports = {
        let setup = setup.clone();
        (0..report + 2 * ANSWER).map(move |room| Try::Simulate(setup.clone(), vec![FILL; room]))
    };
    let traces = (0..3).flat_map(move |place| {
        let written = (simulated_trace(&setup, place, &mut vec![0; trace]) / 256) as usize;
        let setup = setup.clone();
        let about = written.saturating_sub(60)..written + 20;
        (0..2 * LEAST_TRACE).chain(about).map(move |room| Try::Trace(setup.clone(), place, vec![FILL; room]))
    });
    reports.chain(traces)
}

/// The least and the largest tick, no ticks and one, each number of stations, all addresses at the ends, and the most ticks: with
/// no room for them, and once with room.
fn borders() -> Vec<Try> {
    let mut tries = Vec::new();
    for baud in 0..=10u8 {
        for (tick, ticks) in [(1, 0), (1, 1), (1, 300), (1_000_000, 0), (1_000_000, 1), (1_000_000, 60), (999_999, 2)] {
            let slot = LEAST_SLOT_BITS[usize::from(baud)];
            let station = |address| Header { address, baud, slot, hsa: 126, ..Header::EXAMPLE_12 };
            let stations: Vec<Header> = [125, 0, 124, 1, 62, 63, 123, 2].map(station).to_vec();
            for count in STATIONS {
                let setup = bytes_of(tick, ticks, &stations[..count]);
                tries.extend(both(&setup));
                tries.push(Try::Trace(setup.clone(), count as u8 - 1, vec![FILL; enough(&setup).1]));
            }
        }
    }
    let station = |address| Header { address, ..Header::EXAMPLE_12 };
    for count in [2, 8] {
        let stations: Vec<Header> = (0..count).map(station).collect();
        let most = bytes_of(66, MOST_TICKS, &stations);
        for room in [0, 4096] {
            tries.push(Try::Simulate(most.clone(), vec![FILL; room]));
        }
        let over = bytes_of(66, MOST_TICKS + 1, &stations);
        tries.extend(both(&over));
    }
    // one run of many ticks: 100,000 of 2 stations
    let long = bytes_of(50, 100_000, &[station(1), station(3)]);
    tries.push(Try::Simulate(long.clone(), vec![FILL; enough(&long).0]));
    tries.push(Try::Trace(long.clone(), 1, vec![FILL; enough(&long).1]));
    // what a few setups at random need not reach: a ninth telegram, a response that says not ready, telegrams that meet one by one
    tries.extend(REACHING.into_iter().flat_map(|index| calls_on(1, index)));
    tries
}

/// A small setup with each byte changed to each value, left out or put in twice, and cut at every place. One that makes many
/// ticks is not asked for a trace, for which it would be run.
fn damaged() -> impl Iterator<Item = Try> {
    let setup = small();
    let (report, trace) = enough(&setup);
    (0..=setup.len()).flat_map(move |place| {
        let (before, after) = setup.split_at(place);
        let mut changed = vec![before.to_vec()];
        if let Some((first, rest)) = after.split_first() {
            changed.extend((0..=255).map(|byte| [before, &[byte], rest].concat()));
            changed.push([before, rest].concat());
            changed.push([before, &[*first], after].concat());
        }
        let mut tries = Vec::new();
        for setup in changed {
            let runs = Setup::read(&setup).map_or(true, |setup| setup.ticks <= 300);
            tries.push(Try::Simulate(setup.clone(), vec![FILL; report]));
            if runs {
                tries.push(Try::Trace(setup, 1, vec![FILL; trace]));
            }
        }
        tries
    })
}

/// How long so many bits are, in microseconds.
fn time(baud: u8, bits: u64) -> u64 {
    Baudrate::of_code(baud).expect("a code").bits_to_time(bits as u32).total_micros()
}

/// Different addresses: side by side, within a small part, at the ends, or any.
fn addresses(seed: &mut Seed, count: usize) -> Vec<u8> {
    let mut all: Vec<u8> = match seed.below(5) {
        0 => (0..count as u8).collect(),
        1 => {
            let low = seed.below(126 - count as u64) as u8;
            (low..low + count as u8).collect()
        }
        2 | 3 => (0..12).collect(),
        _ => (0..126).collect(),
    };
    seed.shuffle(&mut all);
    all.truncate(count);
    all
}

/// A setup at random that is accepted, its stations in any order: every baud code, slot times that are the least, larger, or so
/// large that another station takes the silence for a lost token; ticks below a telegram's time, of it, of the slot time and above.
pub fn setup_at_random(seed: u64, index: u64) -> Vec<u8> {
    let seed = &mut Seed::of_index(seed, index);
    if seed.one_in(8) {
        return one_after_the_other(seed);
    }
    let (count, baud) = (seed.between(2, 8) as usize, seed.below(11) as u8);
    let least = LEAST_SLOT_BITS[usize::from(baud)];
    let addresses = addresses(seed, count);
    let highest = addresses.iter().copied().max().expect("stations");
    let usual = seed.coin();
    let mut stations = Vec::new();
    for address in addresses {
        let slot = match seed.below(if usual { 4 } else { 8 }) {
            0..=3 => least,
            4 => least + seed.below(200) as u16,
            5 => 4 * least + seed.below(3000) as u16,
            6 => u16::MAX - seed.below(3) as u16,
            _ => 3 * least,
        };
        let least_rotation = (u64::from(slot) + 100).max(256);
        let rotation = match seed.below(4) {
            0 => least_rotation,
            1 => least_rotation + seed.below(1000),
            2 => 16_777_960 - seed.below(2),
            _ => 70_000,
        } as u32;
        let hsa = match seed.below(4) {
            0 | 1 => highest + 1,
            2 => address + 1,
            _ => seed.between(u64::from(address) + 1, 126) as u8,
        };
        let gap = if seed.one_in(6) { seed.between(1, 100) } else { seed.between(1, 2) } as u8;
        let factors = if seed.one_in(4) { (seed.between(1, 255) as u8, seed.between(1, 255) as u8) } else { (0, 0) };
        let (retry, min_tsdr) = (seed.between(1, 15) as u8, seed.between(11, 255) as u8);
        let header = Header { address, baud, slot, rotation, gap, hsa, retry, min_tsdr, factors, ..Header::EXAMPLE_12 };
        stations.push(header);
    }
    let slot_time = time(baud, least.into());
    let tick = match seed.below(10) {
        0 => seed.between(1, time(baud, 11)),
        1 => time(baud, 11),
        2 | 3 => time(baud, 33),
        4 => time(baud, 33) + seed.below(3),
        5 => time(baud, 66),
        6 => seed.between(1, slot_time),
        7 => slot_time,
        8 => slot_time * seed.between(1, 12),
        _ => time(baud, 33) * seed.between(1, 9),
    };
    // some times the least time after which one of them claims
    let claims = stations.iter().map(|one| time(baud, u64::from(one.slot) * (6 + 2 * u64::from(one.address)))).min();
    let ticks = claims.expect("stations") / tick * seed.between(1, 6) + seed.between(1, 60);
    bytes_of(tick.min(1_000_000), ticks.min(if seed.one_in(40) { 3000 } else { 400 }), &stations)
}

/// A setup at random whose stations claim the token one shortly after the other, so that their telegrams meet: the slot times are
/// such that each waits some bits longer than the one before.
fn one_after_the_other(seed: &mut Seed) -> Vec<u8> {
    let (count, baud) = (seed.between(2, 5), seed.below(7) as u8);
    // the longest wait that a station with the least slot time has
    let mut wait = u64::from(LEAST_SLOT_BITS[usize::from(baud)]) * (4 + 2 * count);
    let mut stations = Vec::new();
    for address in 0..count {
        let each = 6 + 2 * address;
        let slot = ((wait + each - 1) / each) as u16;
        wait = u64::from(slot) * each + seed.between(8, 30);
        let (address, hsa, gap) = (address as u8, count as u8, seed.between(1, 2) as u8);
        stations.push(Header { address, baud, slot, hsa, gap, ..Header::EXAMPLE_12 });
    }
    seed.shuffle(&mut stations);
    bytes_of(time(baud, seed.between(4, 11)), 400, &stations)
}

/// Both calls on such a setup, the second for each station or for one; now and then with too little room, or more than is needed.
fn calls_on(seed: u64, index: u64) -> Vec<Try> {
    let setup = setup_at_random(seed, index);
    let (report, trace) = enough(&setup);
    let seed = &mut Seed::of_index(seed ^ 1, index);
    let room = report + seed.pick(&[0, 0, 1, 20]);
    let mut tries = vec![Try::Simulate(setup.clone(), vec![FILL; room])];
    let all = seed.one_in(4);
    let one = seed.below(setup[0].into()) as u8;
    for place in (0..setup[0]).filter(|place| all || *place == one) {
        let room = if seed.one_in(40) { 15 * (trace / LONGEST_ENTRY) } else { trace };
        tries.push(Try::Trace(setup.clone(), place, vec![FILL; room]));
    }
    tries
}
