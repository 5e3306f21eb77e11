//! Replays a trace from a file of any size with the proved call, and prints as the program `replay` does: each answer as
//! 16 hexadecimal digits, then the number of entries answered and the ending number.
//!
//! `AMSULFEZD_STATICLIB_DIR=$PWD/target/staticlib cargo run --manifest-path hosts/rust/Cargo.toml --example replay_file -- FILE`

#![allow(unknown_lints, unexpected_cfgs)]

fn main() {
    if let Err(why) = run() {
        eprintln!("replay_file: {}", why);
        std::process::exit(1);
    }
}

#[cfg(linked)]
fn run() -> Result<(), String> {
    use amsulfezd::replay::replay_whole;
    use amsulfezd::run::to_text;
    use std::io::Write;

    let words: Vec<_> = std::env::args_os().skip(1).collect();
    let file = match &words[..] {
        [file] => std::path::Path::new(file),
        _ => return Err("usage: replay_file FILE".to_string()),
    };
    let trace = std::fs::read(file).map_err(|error| format!("{}: {}", file.display(), error))?;
    let (run, answers) = replay_whole(&trace);
    std::io::stdout()
        .write_all(to_text(&answers, &run).as_bytes())
        .map_err(|error| format!("standard output: {}", error))
}

#[cfg(not(linked))]
fn run() -> Result<(), String> {
    Err(
        "built without the proved call: set AMSULFEZD_STATICLIB_DIR to the folder of libamsulfezd.a"
            .to_string(),
    )
}
