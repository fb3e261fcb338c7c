//! What is said of each file, as words or as JSON, and the exit status of all of them.
use crate::failure::{Cause, Failure};
use crate::names::shown;
use crate::progress::eprint_line;
use crate::session::Session;
use serde_json::{json, Value};
use std::io::{stdout, Write};
use std::path::{Path, PathBuf};

/// What a subcommand found out about a file.
pub struct Facts {
    /// Said on standard output, behind the file's name; nothing where this is empty.
    pub words: String,
    pub json: Value,
    /// Whether the file is refused all the same.
    pub refused: bool,
}

impl Facts {
    pub fn new(words: String, json: Value) -> Facts {
        Facts { words, json, refused: false }
    }
}

/// How a run ends.
#[derive(Debug, PartialEq)]
pub enum End {
    Status(u8),
    Signal(i32),
}

pub const HELD: u8 = 0;
pub const REFUSED: u8 = 1;
pub const USAGE: u8 = 2;
pub const FAILED: u8 = 3;

/// How many files ended with each status.
#[derive(Default)]
struct Tally([u64; 4]);

impl Tally {
    /// 1 if any is refused, else 3 if any could not be read or written, else 2 for wrong usage.
    fn status(&self) -> u8 {
        [REFUSED, FAILED, USAGE].into_iter().find(|status| self.0[usize::from(*status)] > 0).unwrap_or(HELD)
    }
}

/// Does the same with each file, says what comes of it, and sums up where there are several.
pub fn each(session: &Session, command: &str, files: &[PathBuf], act: impl Fn(&Path) -> Result<Facts, Failure>) -> Result<End, Failure> {
    let mut tally = Tally::default();
    for path in files {
        let answer = act(path);
        let signal = match &answer {
            Err(Failure { cause: Cause::Interrupted(signal), .. }) => Some(*signal),
            _ => None,
        };
        let status = tell(session, command, &shown(path), answer)?;
        tally.0[usize::from(status)] += 1;
        if let Some(signal) = signal {
            return Ok(End::Signal(signal));
        }
    }
    if files.len() > 1 {
        sum_up(session, command, files.len(), &tally)?;
    }
    Ok(End::Status(tally.status()))
}

fn sum_up(session: &Session, command: &str, files: usize, tally: &Tally) -> Result<(), Failure> {
    let [held, refused, usage, failed] = tally.0;
    if session.options.json {
        return say(&format!(
            "{}\n",
            json!({"command": command, "files": files, "held": held, "refused": refused, "failed": usage + failed, "status": tally.status()})
        ));
    }
    if session.options.quiet {
        return Ok(());
    }
    say(&format!("{} files: {} held, {} refused, {} could not be read\n", files, held, refused, usage + failed))
}

/// Says what came of a file: its status.
pub fn tell(session: &Session, command: &str, file: &str, answer: Result<Facts, Failure>) -> Result<u8, Failure> {
    let status = match &answer {
        Ok(facts) if facts.refused => REFUSED,
        Ok(_) => HELD,
        Err(failure) => failure.status(),
    };
    if session.options.json {
        say(&format!("{}\n", object(command, file, status, &answer)))?;
    }
    match answer {
        Ok(facts) if !session.options.json && !session.options.quiet && !facts.words.is_empty() => {
            say(&format!("{}: {}\n", file, facts.words))?
        }
        Err(failure) => complain(command, &failure),
        _ => (),
    }
    Ok(status)
}

/// Says a failure on standard error.
pub fn complain(command: &str, failure: &Failure) {
    eprint_line(&failure.to_string());
    if failure.status() == USAGE {
        eprint_line(&format!("Try 'ropeinstant {}{}--help'.", command, if command.is_empty() { "" } else { " " }));
    }
}

fn object(command: &str, file: &str, status: u8, answer: &Result<Facts, Failure>) -> Value {
    let mut object = match answer {
        Ok(facts) => facts.json.clone(),
        Err(failure) => json!({"words": failure.to_string()}),
    };
    if let Err(Failure { cause: Cause::Refused(refused), .. }) = answer {
        object["refusal"] = json!({"number": refused.number, "record": refused.record, "byte": refused.byte, "words": refused.words});
    }
    object["command"] = command.into();
    object["file"] = file.into();
    object["status"] = status.into();
    object
}

pub fn say(text: &str) -> Result<(), Failure> {
    let written = stdout().write_all(text.as_bytes()).and_then(|()| stdout().flush());
    written.map_err(|error| Cause::files("cannot write", &error).of("standard output"))
}
