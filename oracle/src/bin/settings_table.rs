//! Prints the settings table, worked out by the published `parameters.rs`.
#![forbid(unsafe_code)]

fn main() {
    std::panic::set_hook(Box::new(|_| {}));
    print!("{}", oracle::settings_table::table());
}
