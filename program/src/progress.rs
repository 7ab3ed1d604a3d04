//! How far a command is, on standard error where that is a terminal.

use indicatif::{ProgressBar, ProgressDrawTarget, ProgressStyle};

use crate::report::Saying;

/// Shorter files are done before anybody could read how far they are.
const LONG: u64 = 1024 * 1024;

/// A bar that goes when it is dropped.
#[derive(Debug)]
pub struct Progress {
    bar: Option<ProgressBar>,
}

impl Progress {
    /// Of so many bytes, or of a stream whose length is not known.
    pub fn of(bytes: Option<u64>, saying: Saying) -> Progress {
        let wanted = !saying.quiet && bytes.map_or(true, |bytes| bytes >= LONG);
        Progress { bar: wanted.then(|| begun(bytes)).flatten() }
    }

    /// So many bytes are done.
    pub fn at(&self, bytes: u64) {
        if let Some(bar) = &self.bar {
            bar.set_position(bytes);
        }
    }
}

fn begun(bytes: Option<u64>) -> Option<ProgressBar> {
    // Draws nothing where standard error is no terminal.
    let bar = ProgressBar::with_draw_target(bytes, ProgressDrawTarget::stderr_with_hz(5));
    if bar.is_hidden() {
        return None;
    }
    let template = match bytes {
        Some(_) => "{percent:>3}% {wide_bar} {bytes} of {total_bytes}, {bytes_per_sec}, {eta} left",
        None => "{spinner} {bytes}, {bytes_per_sec}",
    };
    bar.set_style(ProgressStyle::with_template(template).ok()?);
    Some(bar)
}

impl Drop for Progress {
    fn drop(&mut self) {
        if let Some(bar) = &self.bar {
            bar.finish_and_clear();
        }
    }
}
