//! What is shown: a trace, the answers to it, and the notes in a file beside it if there are any.

use crate::view::{notes, Note, Range, View};
use amsulfezd::answer::Answer;
use amsulfezd::heard::Heard;
use amsulfezd::run::Run;
use std::io::ErrorKind;
use std::path::Path;

/// A trace and the answers that the proved program or library gave.
pub struct Replay {
    /// The name of the trace's file, without its folder.
    pub name: String,
    pub trace: Vec<u8>,
    pub answers: Vec<Answer>,
    pub run: Run,
    pub view: View,
    /// The entries that the proved call gave of who was heard; none if they are not shown.
    pub heard: Option<Vec<(u8, Heard)>>,
}

impl Replay {
    /// A trace and its answers, with the notes beside its file, where it has one, and the entries from one number to another.
    pub fn of(
        file: Option<&Path>,
        trace: Vec<u8>,
        answers: Vec<Answer>,
        run: Run,
        from: Option<&str>,
        to: Option<&str>,
    ) -> Result<Replay, String> {
        let notes = file.map_or(Ok(Vec::new()), notes_beside)?;
        let range = match (from, to) {
            (None, None) => None,
            _ => {
                let range = Range::of(from, to, answers.len());
                Some(range.map_err(|error| error.to_string())?)
            }
        };
        let name = file.and_then(Path::file_name).unwrap_or_default();
        Ok(Replay {
            name: name.to_string_lossy().to_string(),
            trace,
            answers,
            run,
            view: View {
                range,
                notes,
                counts: None,
            },
            heard: None,
        })
    }
}

/// The notes of `NAME.notes` beside `NAME.trace`; none if there is no such file.
fn notes_beside(trace: &Path) -> Result<Vec<Note>, String> {
    if trace.extension().map_or(true, |ending| ending != "trace") {
        return Ok(Vec::new());
    }
    let file = trace.with_extension("notes");
    match std::fs::read_to_string(&file) {
        Ok(text) => notes(&text).map_err(|error| format!("{}, {}", file.display(), error)),
        Err(error) if error.kind() == ErrorKind::NotFound => Ok(Vec::new()),
        Err(error) => Err(format!("{}: {}", file.display(), error)),
    }
}
