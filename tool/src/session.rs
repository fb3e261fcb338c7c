//! What every subcommand is given: the options of the command line, and the signals.
use crate::kinds::Kind;
use crate::progress::eprint_line;
use crate::signals::Signals;

/// How many threads, and how many records each takes at once.
#[derive(Clone, Debug, PartialEq)]
pub struct Split {
    pub threads: usize,
    pub chunk: usize,
}

#[derive(Clone, Debug, PartialEq)]
pub struct Options {
    pub split: Split,
    /// Says nothing but refusals and failures.
    pub quiet: bool,
    /// Answers as JSON, a line for each file.
    pub json: bool,
    /// An empty input from a pipe is an input.
    pub allow_empty: bool,
    /// Replaces no file.
    pub no_clobber: bool,
    /// Writes a manifest of the output.
    pub manifest: bool,
    /// Leaves the manifest of an input aside.
    pub no_manifest: bool,
    /// What the input holds, whatever its name says.
    pub kind: Option<&'static Kind>,
    /// `verify` holds the first file to the second.
    pub pair: bool,
    /// `verify` goes by scene numbers in place of ACES.
    pub scene: bool,
}

pub struct Session {
    pub options: Options,
    pub signals: Signals,
}

impl Session {
    /// A word that is neither a refusal nor a failure.
    pub fn note(&self, file: &str, words: &str) {
        if !self.options.quiet {
            eprint_line(&format!("{}: {}", file, words));
        }
    }
}
