//! Station polls per second of the proved call that simulates 8 stations, in one call of so many ticks, beside the proved trace call
//! on the 8 traces that the same setup gives: TICKS.

use oracle::comparison::speed::middle_and_spread;
use oracle::simulations::tries::bytes_of;
use oracle::trace::Header;
use std::time::Instant;

/// How often each is run.
const RUNS: usize = 3;

/// Eight loggers at 500 kbaud, ticks of 50 us: they form a ring.
fn setup(ticks: u64) -> Vec<u8> {
    let stations: Vec<Header> = (0..8).map(|address| Header { address, hsa: 9, ..Header::EXAMPLE_12 }).collect();
    bytes_of(50, ticks, &stations)
}

fn main() {
    let words: Vec<String> = std::env::args().skip(1).collect();
    let ticks = match words.as_slice() {
        [word] => word.parse().ok().filter(|ticks| (1..=1_000_000).contains(ticks)),
        _ => None,
    };
    let ticks: u64 = ticks.unwrap_or_else(|| {
        eprintln!("speed_simulations: usage: speed_simulations TICKS, a whole number from 1 to 1,000,000");
        std::process::exit(2);
    });
    let (setup, polls) = (setup(ticks), 8 * ticks as usize);
    let mut report = vec![0; 8 * polls];
    let traces: Vec<Vec<u8>> = (0..8)
        .map(|station| {
            let mut trace = vec![0; 17 + 47 * ticks as usize];
            let written = linked::simulated_trace(&setup, station, &mut trace) / 256;
            trace.truncate(written as usize);
            trace
        })
        .collect();
    let mut answers = vec![0; 8 * (ticks as usize + 1)];
    let (mut simulated, mut replayed) = (Vec::new(), Vec::new());
    for _ in 0..RUNS {
        let started = Instant::now();
        assert_eq!(linked::simulate(&setup, &mut report), 256 * ticks, "the setup is simulated");
        simulated.push(polls as f64 / started.elapsed().as_secs_f64());
        let started = Instant::now();
        for trace in &traces {
            assert_eq!(linked::replay_trace(trace, &mut answers), 256 * (ticks + 1), "the trace is replayed");
        }
        replayed.push(polls as f64 / started.elapsed().as_secs_f64());
    }
    let held = report.chunks(8).filter(|answer| answer[1] >> 4 == 3).count();
    println!("speed: {} ticks of 8 stations in one call, {} runs each in turn, one process", ticks, RUNS);
    println!("speed: in {} of {} polls a station holds the token", held, polls);
    for (name, runs) in [("the proved simulate", &simulated), ("the proved replay_trace on the 8 traces", &replayed)] {
        let (middle, spread) = middle_and_spread(runs);
        println!("speed: {}: middle {:.0} station polls/s, spread {:.1} %", name, middle, spread);
    }
    let ratio = middle_and_spread(&simulated).0 / middle_and_spread(&replayed).0;
    println!("speed: the proved simulate : the proved replay_trace = {:.2}", ratio);
}
