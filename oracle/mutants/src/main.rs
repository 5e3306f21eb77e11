//! Runs generated traces through the oracle and through a copy of it for each planted error, their headers through the call
//! that moves them, the calls that are asked who was heard and for the counts, the settings table where the list says so, and the calls on frames
//! and on captures and the simulated bus for the errors in those, and prints for each error which run shows it. Status 0: each is shown by the run
//! that the list names.
#![forbid(unsafe_code)]

/// The published text writes `log::warn!`.
extern crate oracle as log;

#[path = "../list.rs"]
mod list;

#[path = "../captures.rs"]
mod captures;
#[path = "../frames.rs"]
mod frames;
#[path = "../simulations.rs"]
mod simulations;

/// The copies, one module each, as build.rs writes them.
mod copies {
    #![allow(warnings, clippy::all)]
    include!(concat!(env!("OUT_DIR"), "/index.rs"));
}

use captures::CAPTURES;
use frames::FRAMES;
use list::{By, PLANTED};
use oracle::captures::compare::{made as made_of_captures, Call};
use oracle::captures::tries::{parts as parts_of_captures, Try as CaptureTry};
use oracle::comparison::calls::{first_difference as first_call, shortened, Left as CallLeft, Parts, Try};
use oracle::comparison::hex;
use oracle::comparison::run::{
    counts_otherwise, first_difference, hears_otherwise, moves_otherwise, parts_from_oracle, run, Left,
};
use oracle::comparison::shorten::shorten;
use oracle::frames::compare::made as made_of_frames;
use oracle::frames::tries::{parts as parts_of_frames, Try as FrameTry};
use oracle::generator::trace;
use oracle::settings_table::table;
use oracle::simulations::compare::{made as made_of_simulations, Simulate, Trace as SimulatedTrace};
use oracle::simulations::tries::{parts as parts_of_simulations, Try as SimulationTry};
use oracle::trace::replay_trace;
use simulations::SIMULATIONS;

/// What is run of a copy: its trace call, the call that moves a header, the calls that are asked who was heard and for the
/// counts, and its settings table where the error can stand in that.
pub struct Runs {
    traces: fn(&[u8], &mut [u8]) -> u64,
    moves: fn(&[u8], &mut [u8]) -> u64,
    heard: fn(&[u8], u8, &mut [u8]) -> u64,
    counts: fn(&[u8], &mut [u8]) -> u64,
    table: fn() -> String,
}

/// What is run of a copy of the reader and writer of frames.
pub struct FrameRuns {
    read: fn(&[u8]) -> u64,
    write: fn(u32, &mut [u8]) -> u64,
}

/// What is run of a copy of the importer and exporter of captures.
pub struct CaptureRuns {
    import: Call,
    export: Call,
}

/// What is run of a copy of the simulated bus.
pub struct SimulationRuns {
    simulate: Simulate,
    trace: SimulatedTrace,
}

/// The seed of the traces, and how many are tried.
const SEED: u64 = 1;
const TRACES: u64 = 20_000;
/// Of so many of them it is asked who was heard: each is run for every address.
const ASKED: u64 = 300;

/// A text on one line, for a cell of the table.
fn cell(text: &str) -> String {
    let words: Vec<&str> = text.split_whitespace().collect();
    if words.is_empty() {
        return "(nothing)".to_string();
    }
    format!("`{}`", words.join(" ").replace('|', "\\|"))
}

/// What the copy did otherwise.
fn kind_of(expected: &Left, got: &Left) -> &'static str {
    if got.number.is_none() {
        "panics"
    } else if expected.buffer != got.buffer {
        "answers otherwise"
    } else {
        "returns another number"
    }
}

/// For each error that traces, moves or questions may show, the trace that does, in words, and how many entries the shortened one has or
/// how many bytes were lent.
fn shown_by_traces() -> Vec<Option<(String, String)>> {
    let mut shown = vec![None; PLANTED.len()];
    let mut left: Vec<usize> = (0..PLANTED.len()).filter(|i| PLANTED[*i].by != By::SettingsTable).collect();
    for index in 0..TRACES {
        let made = trace(SEED, index);
        let expected = run(&replay_trace, &made);
        left.retain(|i| {
            let copy = &copies::RUNS[*i];
            if !matches!(PLANTED[*i].by, By::Moves | By::Heard | By::Counts) {
                let got = run(&copy.traces, &made);
                if let Some(entry) = first_difference(&expected, &got) {
                    let words = format!("trace {}, entry {}: {}", index, entry, kind_of(&expected, &got));
                    let differs = |trace: &_| parts_from_oracle(&copy.traces, trace).is_some();
                    let shortest = shorten(&differs, &made).entries.len();
                    shown[*i] = Some((words, format!("{} entries", shortest)));
                }
            }
            if !matches!(PLANTED[*i].by, By::Traces | By::Heard | By::Counts) {
                if let Some(found) = moves_otherwise(&copy.moves, &made) {
                    let kind = kind_of(&found.expected, &found.got).replace("answers", "writes");
                    let words = format!("trace {}, room for {}: {}", index, found.expected.buffer.len(), kind);
                    shown[*i] = Some((words, format!("{} bytes lent", found.lent.len())));
                }
            }
            // an error that is hidden and stands elsewhere is hidden from the questions by the same reason
            if PLANTED[*i].file == "heard" && index < ASKED {
                if let Some(found) = hears_otherwise(&copy.heard, &made) {
                    let kind = kind_of(&found.expected, &found.got);
                    let room = found.expected.buffer.len();
                    let words = format!("trace {}, asked for {}, room for {}: {}", index, found.address, room, kind);
                    let differs = |trace: &_| found.differs_on(&copy.heard, trace);
                    shown[*i] = Some((words, format!("{} entries", shorten(&differs, &made).entries.len())));
                }
            }
            if !matches!(PLANTED[*i].by, By::Traces | By::Moves | By::Heard) {
                if let Some(found) = counts_otherwise(&copy.counts, &made) {
                    let kind = kind_of(&found.expected, &found.got).replace("answers", "counts");
                    let words = format!("trace {}, room for {}: {}", index, found.expected.buffer.len(), kind);
                    let differs = |trace: &_| counts_otherwise(&copy.counts, trace).is_some();
                    shown[*i] = Some((words, format!("{} entries", shorten(&differs, &made).entries.len())));
                }
            }
            shown[*i].is_none()
        });
    }
    shown
}

/// The line of the settings table that a copy writes otherwise.
fn shown_by_table(table: &str, copy: &Runs) -> Option<String> {
    let other = (copy.table)();
    let line = table.lines().zip(other.lines()).position(|(ours, other)| ours != other)?;
    Some(format!("line {}", line + 1))
}

/// So many frames, so many texts and lists of entries, and so many setups are made at random.
const FRAMES_AT_RANDOM: u64 = 100_000;
const CAPTURES_AT_RANDOM: u64 = 20_000;
const SIMULATIONS_AT_RANDOM: u64 = 1000;

/// The part of what is tried that shows an error in calls that know no station, and the shortest call that does.
fn shown_by_calls<T: Try + std::panic::RefUnwindSafe>(
    parts: Parts<T>,
    made: &(dyn Fn(&[T]) -> Vec<CallLeft> + std::panic::RefUnwindSafe),
) -> Option<(&'static str, T)> {
    let quiet = |tries: &[T]| std::panic::catch_unwind(|| made(tries)).ok();
    // where one panics, each is made alone
    let calls = |tries: &[T]| -> Vec<CallLeft> {
        quiet(tries).unwrap_or_else(|| tries.chunks(1).map(|one| quiet(one)?.pop()?).collect())
    };
    parts.into_iter().find_map(|(name, tries)| {
        let one = first_call(&calls, tries, &mut |_, _| ()).err()?;
        Some((name, shortened(&calls, &one)))
    })
}

/// The call that shows an error in the reader or the writer of frames, in words.
fn shown_by_frames(copy: &FrameRuns) -> Option<String> {
    let made = |tries: &[FrameTry]| made_of_frames(copy.read, copy.write, tries);
    let (name, one) = shown_by_calls(parts_of_frames(SEED, FRAMES_AT_RANDOM), &made)?;
    Some(match one {
        FrameTry::Read(frame) if frame.is_empty() => format!("{} | no byte", name),
        FrameTry::Read(frame) => format!("{} | `{}`", name, hex(&frame)),
        FrameTry::Write(word, buffer) => format!("{} | word `{:08x}`, room {}", name, word, buffer.len()),
    })
}

/// The call that shows an error in the importer or the exporter of captures, in words.
fn shown_by_captures(copy: &CaptureRuns) -> Option<String> {
    let made = |tries: &[CaptureTry]| made_of_captures(copy.import, copy.export, tries);
    let (name, one) = shown_by_calls(parts_of_captures(SEED, CAPTURES_AT_RANDOM), &made)?;
    let (bytes, room) = match &one {
        CaptureTry::Import(bytes, buffer) => {
            let text =
                bytes.iter().flat_map(|byte| std::ascii::escape_default(*byte)).map(char::from).collect::<String>();
            (text, buffer.len())
        }
        CaptureTry::Export(bytes, buffer) => (hex(bytes), buffer.len()),
    };
    let lent = if bytes.is_empty() { "nothing".to_string() } else { format!("`{}`", bytes.replace('|', "\\|")) };
    Some(format!("{} | {}, room {}", name, lent, room))
}

/// The call that shows an error in the simulated bus, in words.
fn shown_by_simulations(copy: &SimulationRuns) -> Option<String> {
    let made = |tries: &[SimulationTry]| made_of_simulations(copy.simulate, copy.trace, tries);
    let (name, one) = shown_by_calls(parts_of_simulations(SEED, SIMULATIONS_AT_RANDOM), &made)?;
    let lent = |setup: &[u8]| if setup.is_empty() { "nothing".to_string() } else { format!("`{}`", hex(setup)) };
    Some(match one {
        SimulationTry::Simulate(setup, report) => format!("{} | {}, room {}", name, lent(&setup), report.len()),
        SimulationTry::Trace(setup, place, trace) => {
            format!("{} | {}, place {}, room {}", name, lent(&setup), place, trace.len())
        }
    })
}

/// Prints the table of the errors in calls that know no station; gives how many were not found.
fn table_of<R>(what: &str, planted: &[(&str, &str)], copies: &[R], shown: fn(&R) -> Option<String>) -> usize {
    println!("| No. | Text | Planted | Run | Shown by |");
    println!("|---|---|---|---|---|");
    let mut missed = 0;
    for (i, ((old, new), copy)) in planted.iter().zip(copies).enumerate() {
        let shown = shown(copy).unwrap_or_else(|| {
            missed += 1;
            "NOT FOUND |".to_string()
        });
        println!("| {} | {} | {} | {} |", i + 1, cell(old), cell(new), shown);
    }
    println!();
    println!("{} planted errors in {}: {} found, {} missed.", planted.len(), what, planted.len() - missed, missed);
    missed
}

fn main() {
    let words: Vec<String> = std::env::args().skip(1).collect();
    std::panic::set_hook(Box::new(|_| {}));
    let missed = match words.iter().map(String::as_str).collect::<Vec<_>>()[..] {
        [] => trace_table(),
        ["frames"] => table_of("frames", FRAMES, copies::FRAME_RUNS, shown_by_frames),
        ["captures"] => table_of("captures", CAPTURES, copies::CAPTURE_RUNS, shown_by_captures),
        ["simulations"] => table_of("simulations", SIMULATIONS, copies::SIMULATION_RUNS, shown_by_simulations),
        _ => {
            eprintln!("mutants: usage: mutants [frames | captures | simulations]");
            std::process::exit(2);
        }
    };
    std::process::exit(i32::from(missed > 0));
}

/// Prints the table of the errors in the station, its traces, headers and settings; gives how many were not found.
fn trace_table() -> usize {
    let table = table();
    let (mut by_traces, mut by_moves, mut by_heard, mut by_counts) = (0, 0, 0, 0);
    let (mut by_table, mut explained, mut missed) = (0, 0, 0);
    println!("| No. | File | Text | Planted | Run | Shown by | Shortest |");
    println!("|---|---|---|---|---|---|---|");
    for (i, (error, shown)) in PLANTED.iter().zip(shown_by_traces()).enumerate() {
        let mut missing = |words: String| {
            missed += 1;
            format!("{} | |", words)
        };
        let cells = match (error.by, shown) {
            (By::Traces, Some((words, shortest))) => {
                by_traces += 1;
                format!("traces | {} | {}", words, shortest)
            }
            (By::Moves, Some((words, shortest))) => {
                by_moves += 1;
                format!("moves | {} | {}", words, shortest)
            }
            (By::Heard, Some((words, shortest))) => {
                by_heard += 1;
                format!("questions | {} | {}", words, shortest)
            }
            (By::Counts, Some((words, shortest))) => {
                by_counts += 1;
                format!("counts | {} | {}", words, shortest)
            }
            (By::SettingsTable, _) => match shown_by_table(&table, &copies::RUNS[i]) {
                Some(line) => {
                    by_table += 1;
                    format!("settings table | {} |", line)
                }
                None => missing("NOT FOUND by the settings table".to_string()),
            },
            (By::Nothing(why), None) => {
                explained += 1;
                format!("none | {} |", why)
            }
            (By::Traces, None) => missing("NOT FOUND by traces".to_string()),
            (By::Moves, None) => missing("NOT FOUND by moves".to_string()),
            (By::Heard, None) => missing("NOT FOUND by questions".to_string()),
            (By::Counts, None) => missing("NOT FOUND by counts".to_string()),
            (By::Nothing(_), Some((words, _))) => missing(format!("{}, though said to be hidden", words)),
        };
        println!("| {} | `{}.rs` | {} | {} | {} |", i + 1, error.file, cell(error.old), cell(error.new), cells);
    }
    println!();
    println!(
        "{} planted errors: {} found by traces of seed {}, {} by moves of their headers, {} by questions who was heard, {} by counts, {} by the settings table, {} explained, {} missed.",
        PLANTED.len(),
        by_traces,
        SEED,
        by_moves,
        by_heard,
        by_counts,
        by_table,
        explained,
        missed
    );
    missed
}
