//! Entries per second of the proved calls and of the oracle on one long ordinary trace: the trace call, and a station that is stepped
//! one entry at a time, its bytes read and written in each step.

use oracle::comparison::speed::{self, Named};

fn main() {
    let words: Vec<String> = std::env::args().skip(1).collect();
    let calls: [Named; 3] = [
        ("the proved replay_trace", &linked::replay_trace),
        ("the proved step_station", &linked::only_step_trace),
        ("the oracle", &oracle::trace::replay_trace),
    ];
    std::process::exit(speed::main(&calls, &words));
}
