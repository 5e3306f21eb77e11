//! Prints what the program run_watchdog prints of the same arguments, worked out by the published `parameters.rs`.
#![forbid(unsafe_code)]

fn main() {
    std::panic::set_hook(Box::new(|_| {}));
    for word in std::env::args().skip(1) {
        print!("{}", oracle::watchdog_lines::lines(&word));
    }
}
