//! A bar with rate and time left, on standard error where that is a terminal; otherwise nothing.
use indicatif::{ProgressBar, ProgressDrawTarget, ProgressStyle};

const KNOWN: &str = "{prefix} [{bar:20}] {percent}% of {total_bytes}, {bytes_per_sec}, {eta} left";
const UNKNOWN: &str = "{prefix} {bytes}, {bytes_per_sec}";

pub struct Progress(ProgressBar);

impl Progress {
    /// Of so many bytes in the whole, where that is known.
    pub fn new(name: &str, whole: Option<u64>, quiet: bool) -> Progress {
        let bar = ProgressBar::with_draw_target(whole, if quiet { ProgressDrawTarget::hidden() } else { ProgressDrawTarget::stderr() });
        let template = if whole.is_some() { KNOWN } else { UNKNOWN };
        if let Ok(style) = ProgressStyle::with_template(template) {
            bar.set_style(style.progress_chars("##."));
        }
        bar.set_prefix(name.to_string());
        Progress(bar)
    }

    pub fn add(&self, bytes: u64) {
        self.0.inc(bytes);
    }

    /// Says something while the bar is away.
    pub fn say(&self, line: &str) {
        self.0.suspend(|| eprint_line(line));
    }

    /// Shows a few words in the bar's place, while something is done whose length is not known.
    pub fn doing(&self, words: &str) {
        if let Ok(style) = ProgressStyle::with_template("{prefix} {msg}") {
            self.0.set_style(style);
        }
        self.0.set_message(words.to_string());
        self.0.tick();
    }
}

/// The bar is gone whenever the work is over, however it ended.
impl Drop for Progress {
    fn drop(&mut self) {
        self.0.finish_and_clear();
    }
}

/// A line on standard error. Where that cannot be written there is nobody to tell.
pub fn eprint_line(line: &str) {
    use std::io::{stderr, Write};
    let _ = writeln!(stderr(), "{}", line);
}
