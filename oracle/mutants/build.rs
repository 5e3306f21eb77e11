//! Writes a copy of the oracle's station, of its reader and writer of frames, of its importer and exporter of captures, or of its
//! simulated bus, for each planted error: one module each, in one crate.

#[path = "../build/replacements.rs"]
#[allow(dead_code)]
mod replacements;

#[path = "list.rs"]
#[allow(dead_code)]
mod list;

#[path = "captures.rs"]
mod captures;
#[path = "frames.rs"]
mod frames;
#[path = "simulations.rs"]
mod simulations;

use std::fmt::Write;
use std::path::Path;

/// Files that lean on nothing of the crate: copied only where the error stands in them.
const ALONE: [&str; 3] = ["records", "ring", "dp"];
/// Files that lean on each other: copied for each error.
const TOGETHER: [&str; 9] = ["time", "baud", "fdl", "phy", "port", "editions", "trace", "heard", "counts"];

fn read(path: &str) -> String {
    println!("cargo:rerun-if-changed={}", path);
    std::fs::read_to_string(path).unwrap_or_else(|e| panic!("{}: {}", path, e))
}

fn main() {
    for file in ["build.rs", "list.rs", "frames.rs", "captures.rs", "simulations.rs"] {
        println!("cargo:rerun-if-changed={}", file);
    }
    for file in ["replacements", "passive", "watch"] {
        println!("cargo:rerun-if-changed=../build/{}.rs", file);
    }
    let out = std::env::var("OUT_DIR").expect("cargo names a folder");
    let active = replacements::station_text(&read("../published/active.rs"), false)
        .expect("the published active.rs takes document 01's helpers");
    let mut sources = vec![("active", active), ("parameters", read("../published/parameters.rs"))];
    for name in TOGETHER.iter().chain(&ALONE) {
        sources.push((*name, read(&format!("../src/helpers/{}.rs", name))));
    }
    let settings_table = ("settings_table", read("../src/settings_table.rs"));
    let (mut index, mut runs) = (String::new(), String::from("pub const RUNS: &[crate::Runs] = &[\n"));
    for (i, error) in list::PLANTED.iter().enumerate() {
        let name = format!("error_{}", i + 1);
        let folder = Path::new(&out).join(&name);
        std::fs::create_dir_all(&folder).expect("a folder can be made");
        let mut root = String::new();
        // the settings table asks these files alone
        let asked = ["parameters", "baud", "time", "dp"].contains(&error.file);
        for (file, text) in sources.iter().chain(asked.then_some(&settings_table)) {
            let planted = *file == error.file;
            if !planted && ALONE.contains(file) {
                writeln!(root, "pub use oracle::{};", file).expect("text");
                continue;
            }
            let text = if planted {
                replacements::replace_once(text, error.old, error.new).unwrap_or_else(|count| {
                    panic!("{}: this text stands {} times in {}.rs, not once:\n{}", name, count, file, error.old)
                })
            } else {
                text.clone()
            };
            let text = text
                .replace("crate::", &format!("crate::copies::{}::", name))
                .replace("../../published/parameters.rs", "parameters.rs");
            std::fs::write(folder.join(format!("{}.rs", file)), text).expect("a file can be written");
            if *file != "parameters" {
                writeln!(root, "#[path = \"{}.rs\"]\npub mod {};", file, file).expect("text");
            }
        }
        root.push_str(
            "pub mod station {\n    pub use super::active::{ConnectivityState, FdlActiveStation, Watched};\n}\n",
        );
        root.push_str("pub use baud::Baudrate;\npub use oracle::{debug_assert_address, Address};\n");
        std::fs::write(folder.join("mod.rs"), root).expect("a file can be written");
        writeln!(index, "#[path = \"{}/mod.rs\"]\nmod {};", name, name).expect("text");
        let table = if asked { format!("{}::settings_table::table", name) } else { "String::new".to_string() };
        writeln!(
            runs,
            "    crate::Runs {{ traces: {0}::trace::replay_trace, moves: {0}::editions::other_edition, heard: {0}::heard::trace_heard, counts: {0}::counts::trace_counts, table: {1} }},",
            name, table
        )
        .expect("text");
    }
    runs.push_str("];\n");
    let all = [
        Copies {
            file: "frames/frame.rs",
            name: "frame",
            calls: [("read", "read_frame"), ("write", "write_frame")],
            planted: frames::FRAMES,
        },
        Copies {
            file: "captures/capture.rs",
            name: "capture",
            calls: [("import", "import_capture"), ("export", "export_capture")],
            planted: captures::CAPTURES,
        },
        Copies {
            file: "simulations/simulation.rs",
            name: "simulation",
            calls: [("simulate", "simulate"), ("trace", "simulated_trace")],
            planted: simulations::SIMULATIONS,
        },
    ];
    for copies in all {
        copy_calls(&copies, &out, &mut index, &mut runs);
    }
    std::fs::write(Path::new(&out).join("index.rs"), index + &runs).expect("a file can be written");
}

/// A file with two calls, each with its name among the runs, and the errors planted in it.
struct Copies {
    file: &'static str,
    name: &'static str,
    calls: [(&'static str, &'static str); 2],
    planted: &'static [(&'static str, &'static str)],
}

/// The copies of such a file, a file each, and the table of their calls: `FRAME_RUNS` of `crate::FrameRuns`.
fn copy_calls(copies: &Copies, out: &str, index: &mut String, runs: &mut String) {
    let Copies { file, name, calls: [(first, first_call), (second, second_call)], planted } = copies;
    let text = read(&format!("../src/{}", file));
    let (upper, kind) = (name.to_uppercase(), name[..1].to_uppercase() + &name[1..]);
    writeln!(runs, "pub const {}_RUNS: &[crate::{}Runs] = &[", upper, kind).expect("text");
    for (i, (old, new)) in planted.iter().enumerate() {
        let error = format!("{}_error_{}", name, i + 1);
        let text = replacements::replace_once(&text, old, new).unwrap_or_else(|count| {
            panic!("{}: this text stands {} times in {}, not once:\n{}", error, count, file, old)
        });
        let path = Path::new(out).join(format!("{}.rs", error));
        std::fs::write(path, text.replace("crate::", "oracle::")).expect("a file can be written");
        writeln!(index, "#[path = \"{}.rs\"]\nmod {};", error, error).expect("text");
        writeln!(runs, "    crate::{kind}Runs {{ {first}: {error}::{first_call}, {second}: {error}::{second_call} }},")
            .expect("text");
    }
    runs.push_str("];\n");
}
