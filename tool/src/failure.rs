//! Why the command did not do what it was asked: the file, the words, and the exit status.
use crate::names::shown;
use crate::refusals::Refused;
use std::fmt;
use std::io;
use std::path::Path;

#[derive(Debug)]
pub enum Cause {
    /// The input was refused by the rules.
    Refused(Refused),
    /// The input is not the same as what it is held to: another file, or its manifest.
    Differs(String),
    /// The command line asks for nothing that the command does.
    Usage(String),
    /// Reading or writing failed, or there was no memory for it.
    Files(String),
    /// This signal asked for the end.
    Interrupted(i32),
}

impl Cause {
    pub fn files(doing: &str, error: &io::Error) -> Cause {
        Cause::Files(format!("{}: {}", doing, reason(error)))
    }

    /// Gives the cause the name of its file, as messages show it.
    pub fn of(self, file: &str) -> Failure {
        Failure { file: file.to_string(), cause: self }
    }
}

#[derive(Debug)]
pub struct Failure {
    /// As messages show it.
    pub file: String,
    pub cause: Cause,
}

impl Failure {
    pub fn files(path: &Path, doing: &str, error: &io::Error) -> Failure {
        Cause::files(doing, error).of(&shown(path))
    }

    pub fn usage(words: impl Into<String>) -> Failure {
        Cause::Usage(words.into()).of("ropeinstant")
    }

    pub fn status(&self) -> u8 {
        match self.cause {
            Cause::Refused(_) | Cause::Differs(_) => 1,
            Cause::Usage(_) => 2,
            Cause::Files(_) | Cause::Interrupted(_) => 3,
        }
    }

    /// The words, without the file's name.
    pub fn words(&self) -> String {
        match &self.cause {
            Cause::Refused(refused) => format!("refused {}: {}", refused.number, refused.words),
            Cause::Differs(words) => format!("differs: {}", words),
            Cause::Usage(words) | Cause::Files(words) => words.clone(),
            Cause::Interrupted(_) => "interrupted".to_string(),
        }
    }
}

impl fmt::Display for Failure {
    fn fmt(&self, to: &mut fmt::Formatter) -> fmt::Result {
        write!(to, "{}: {}", self.file, self.words())
    }
}

/// The system's words, without its number.
fn reason(error: &io::Error) -> String {
    let words = error.to_string();
    match words.find(" (os error") {
        Some(end) => words[..end].to_string(),
        None => words,
    }
}
