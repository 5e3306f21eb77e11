//! A bar on standard error, for a person who waits: it appears after a second, where standard error is a terminal, and goes
//! when the work is done.

use indicatif::{ProgressBar, ProgressDrawTarget, ProgressStyle};
use std::sync::mpsc::{channel, RecvTimeoutError};
use std::time::Duration;

/// How long a person waits without a sign.
const QUIET: Duration = Duration::from_secs(1);

/// Does some work of so many steps, which it tells the bar. With one step alone the bar shows that time passes.
pub fn during<T>(words: &str, steps: u64, work: impl FnOnce(&ProgressBar) -> T) -> T {
    let bar = ProgressBar::with_draw_target(Some(steps), ProgressDrawTarget::hidden());
    let style = if steps > 1 {
        "{msg} {wide_bar} {pos} of {len}, {elapsed}"
    } else {
        "{spinner} {msg}, {elapsed}"
    };
    bar.set_style(ProgressStyle::with_template(style).expect("a template"));
    bar.set_message(words.to_string());
    let (done, waits) = channel::<()>();
    let shown = bar.clone();
    let watcher = std::thread::spawn(move || {
        if let Err(RecvTimeoutError::Timeout) = waits.recv_timeout(QUIET) {
            shown.set_draw_target(ProgressDrawTarget::stderr());
            shown.enable_steady_tick(Duration::from_millis(200));
        }
    });
    let made = work(&bar);
    drop(done);
    let _ = watcher.join();
    bar.finish_and_clear();
    made
}
