//! Writes the traces, captures and simulations of `traces/`, each with its story and what is expected of it, or checks that the files there
//! are what it would write. It also writes the arguments of the program that replays them all, with the output expected of
//! it.

mod alone;
mod any_start;
mod applications;
mod bus;
mod captures;
mod collisions;
mod counts;
mod editions;
mod fine_points;
mod gap_room;
mod heard;
mod night;
mod passive;
mod refusals;
mod ring;
mod simulations;
mod story;
mod twelve_mbaud;

use std::path::{Path, PathBuf};
use story::Story;

const USAGE: &str = "usage: make_traces write|check|program FOLDER";

fn main() {
    let words: Vec<String> = std::env::args().skip(1).collect();
    let result = match words.iter().map(String::as_str).collect::<Vec<_>>()[..] {
        ["write", folder] => write(Path::new(folder)),
        ["check", folder] => check(Path::new(folder)),
        ["program", folder] => program(Path::new(folder)),
        _ => Err(USAGE.to_string()),
    };
    match result {
        Ok(said) => println!("{}", said),
        Err(why) => {
            eprintln!("make_traces: {}", why);
            std::process::exit(1);
        }
    }
}

/// Every story, in the order in which traces/README.md lists them.
fn stories() -> Vec<Story> {
    let mut all = vec![bus::example_12()];
    all.extend(ring::stories());
    all.extend(any_start::stories());
    all.push(alone::story());
    all.push(night::story());
    all.extend(collisions::stories());
    all.extend(applications::stories());
    all.extend(bus::stories());
    all.push(fine_points::story());
    all.push(twelve_mbaud::story());
    all.push(gap_room::story());
    all.extend(passive::stories());
    all.extend(refusals::stories());
    all.extend(gap_room::headers());
    all.extend(editions::stories());
    all.push(captures::site());
    all.extend(heard::stories());
    counts::state(&mut all);
    all.extend(counts::stories());
    all
}

/// Every file of every story: path and content.
fn all_files(folder: &Path) -> Vec<(PathBuf, Vec<u8>)> {
    let mut all: Vec<_> = stories()
        .iter()
        .flat_map(|story| files(folder, story))
        .collect();
    for story in captures::stories() {
        for (ending, content) in story.files() {
            all.push((folder.join(format!("{}.{}", story.name, ending)), content));
        }
    }
    all.push((folder.join("captures/site.capture"), captures::site_text()));
    for story in simulations::stories() {
        for (ending, content) in story.files() {
            all.push((folder.join(format!("{}.{}", story.name, ending)), content));
        }
    }
    all
}

/// How many stories there are, in words.
fn counted() -> String {
    let (captures, simulations) = (captures::stories().len(), simulations::stories().len());
    format!(
        "{} traces, {} captures and {} simulations",
        stories().len(),
        captures,
        simulations
    )
}

/// The files of a story: path and content. Few stories have notes, few say who was heard, and many state the counts.
fn files(folder: &Path, story: &Story) -> Vec<(PathBuf, Vec<u8>)> {
    let path = |ending: &str| folder.join(format!("{}.{}", story.name, ending));
    let mut files = vec![
        (path("trace"), story.trace()),
        (path("txt"), story.text().into_bytes()),
        (path("answers"), story.answers().into_bytes()),
    ];
    let notes = story.notes();
    if !notes.is_empty() {
        files.push((path("notes"), notes.into_bytes()));
    }
    let heard = story.heard_text();
    if !heard.is_empty() {
        files.push((path("heard"), heard.into_bytes()));
    }
    let counts = story.counts_text();
    if !counts.is_empty() {
        files.push((path("counts"), counts.into_bytes()));
    }
    files
}

/// Writes every file of every story.
fn write(folder: &Path) -> Result<String, String> {
    for (path, content) in all_files(folder) {
        put(&path, &content)?;
    }
    Ok(format!("{} written", counted()))
}

/// Writes a file, and the folder that it lies in.
fn put(path: &Path, content: &[u8]) -> Result<(), String> {
    let failed = |error: std::io::Error| format!("{}: {}", path.display(), error);
    if let Some(parent) = path.parent() {
        std::fs::create_dir_all(parent).map_err(failed)?;
    }
    std::fs::write(path, content).map_err(failed)
}

/// Writes `args`, a line for each trace of `traces/`, and `stdout`, each trace's name and the answers to it: what the
/// program that replays them all is called with, and what it must print.
fn program(folder: &Path) -> Result<String, String> {
    let (mut args, mut output) = (String::new(), String::new());
    for story in stories() {
        let name = format!("{}.trace\n", story.name);
        output.push_str(&name);
        output.push_str(&story.answers());
        args.push_str(&name);
    }
    put(&folder.join("args"), args.as_bytes())?;
    put(&folder.join("stdout"), output.as_bytes())?;
    Ok(format!("{} traces named", stories().len()))
}

/// Compares every file of every story with the one that is there.
fn check(folder: &Path) -> Result<String, String> {
    for (path, content) in all_files(folder) {
        let there =
            std::fs::read(&path).map_err(|error| format!("{}: {}", path.display(), error))?;
        if there != content {
            return Err(format!(
                "{} is not what the stories say: run 'bash scripts/traces.sh'",
                path.display()
            ));
        }
    }
    Ok(format!("{} are what their stories say", counted()))
}
