//! The command `ropeinstant`: files of records larger than memory, through the proved library.
#![deny(unsafe_code)]

mod args;
mod conversion;
mod convert;
mod demo;
mod failure;
mod half;
mod help;
mod input;
mod inspect;
mod kinds;
#[allow(unsafe_code)]
mod library;
mod man;
mod manifest;
mod moved;
mod names;
mod output;
mod partial;
mod pipeline;
mod progress;
mod reading;
mod refusals;
mod report;
mod session;
mod settings;
mod signals;
mod summary;
mod sums;
mod system;
mod target;
mod totals;
mod verify;

use args::{parse, Job, Request};
use failure::{Cause, Failure};
use inspect::is_master;
use report::{complain, each, say, End, FAILED};
use session::Session;
use signals::Signals;
use std::panic::catch_unwind;
use std::process::ExitCode;

/// A fault of the program itself, of which Rust has said where, ends as a failure too, so that no status is outside 0 to 3.
/// No trace of calls is printed: where memory has run out, Rust's own printing of one waits for a lock that its thread holds.
fn main() -> ExitCode {
    std::env::remove_var("RUST_BACKTRACE");
    match catch_unwind(ending).unwrap_or(End::Status(FAILED)) {
        End::Status(status) => ExitCode::from(status),
        End::Signal(signal) => {
            signals::end_by(signal);
            ExitCode::from(FAILED)
        }
    }
}

fn ending() -> End {
    let answer = parse(std::env::args_os().collect()).and_then(|request| match request {
        Request::Say(text) => say(&text).map(|()| End::Status(0)).map_err(|failure| (String::new(), failure)),
        Request::Do(job, options) => {
            let name = job.name();
            let signals =
                Signals::new().map_err(|error| (name.to_string(), Cause::files("cannot wait for signals", &error).of("ropeinstant")));
            perform(&job, &Session { options, signals: signals? }).map_err(|failure| (name.to_string(), failure))
        }
    });
    answer.unwrap_or_else(|(command, failure)| {
        complain(&command, &failure);
        match failure.cause {
            Cause::Interrupted(signal) => End::Signal(signal),
            _ => End::Status(failure.status()),
        }
    })
}

fn perform(job: &Job, session: &Session) -> Result<End, Failure> {
    let name = job.name();
    match job {
        Job::Convert(conversion, from, to) => {
            each(session, name, std::slice::from_ref(from), |from| convert::convert(session, conversion, from, to))
        }
        Job::Verify(files) => match &files[..] {
            [pixels, master] if !session.options.scene && is_master(session, master)? => {
                each(session, name, std::slice::from_ref(pixels), |pixels| verify::verify_pair(session, pixels, master))
            }
            _ if session.options.pair => Err(Failure::usage("--pair needs two names, pixels and their master")),
            files => each(session, name, files, |file| verify::verify(session, file)),
        },
        Job::Check(files) => each(session, name, files, |file| verify::check(session, file)),
        Job::Inspect(files) => each(session, name, files, |file| inspect::inspect(session, file)),
        Job::Totals(files) => each(session, name, files, |file| totals::totals(session, file)),
        Job::Demo => demo::demo(session).map(|()| End::Status(0)),
    }
}
