//! An input of a kind, held to its name's ending and to its manifest where there is one.
use crate::failure::{Cause, Failure};
use crate::input::Input;
use crate::kinds::{Kind, KINDS};
use crate::manifest::Manifest;
use crate::names::is_standard_input;
use crate::pipeline::{run, Plan};
use crate::progress::Progress;
use crate::session::Session;
use std::os::unix::ffi::OsStrExt;
use std::path::Path;

pub struct Reading<'a> {
    pub input: Input,
    kind: &'static Kind,
    pub manifest: Option<Manifest>,
    session: &'a Session,
    pub progress: Progress,
}

impl<'a> Reading<'a> {
    /// Opens an input, which must not be known to be of another kind. `name` stands beside the bar.
    pub fn open(path: &Path, kind: &'static Kind, name: &str, session: &'a Session) -> Result<Reading<'a>, Failure> {
        let mut input = Input::open(path)?;
        let manifest = manifest_of(path, &input, session)?;
        match &manifest {
            Some(manifest) => {
                manifest.hold_kind(kind).map_err(|cause| cause.of(&input.name))?;
                input.sum();
            }
            None => ending_fits(path, &input, kind, session)?,
        }
        if let Some(length) = input.length {
            input.whole_records(kind, length)?;
        }
        let progress = Progress::new(name, input.length, session.options.quiet);
        Ok(Reading { input, kind, manifest, session, progress })
    }

    /// Runs over the records (`pipeline::run`), and then holds the input to its manifest: the count of records.
    pub fn run<W>(&mut self, worker: impl Fn() -> Result<W, Cause> + Sync) -> Result<u64, Failure>
    where
        W: FnMut(&[u8], u64) -> Result<(), Failure>,
    {
        let (split, signals, progress) = (&self.session.options.split, &self.session.signals, &self.progress);
        let plan = Plan { threads: split.threads, chunk: split.chunk, kind: self.kind, any_length: false, signals, progress };
        let records = run(&plan, &mut self.input, worker)?;
        if records == 0 {
            self.empty()?;
        }
        if let (Some(manifest), Some(sum)) = (&self.manifest, self.input.summed()) {
            manifest.hold(records, &sum).map_err(|cause| cause.of(&self.input.name))?;
        }
        Ok(records)
    }

    /// An empty file is an input. An empty pipe may be all that is left of a program that failed.
    fn empty(&self) -> Result<(), Failure> {
        if self.input.regular || self.session.options.allow_empty {
            self.session.note(&self.input.name, "it is empty: 0 records");
            return Ok(());
        }
        let words = "it is empty, as after a program that failed; nothing is done without --allow-empty";
        Err(Cause::Files(words.to_string()).of(&self.input.name))
    }
}

/// The manifest of an input that is a file with a name.
pub fn manifest_of(path: &Path, input: &Input, session: &Session) -> Result<Option<Manifest>, Failure> {
    if input.regular && !session.options.no_manifest {
        Manifest::of(path)
    } else {
        Ok(None)
    }
}

/// The kind whose ending a name has.
pub fn kind_by_ending(path: &Path) -> Option<&'static Kind> {
    let name = path.as_os_str().as_bytes();
    KINDS.iter().copied().find(|kind| !is_standard_input(path) && name.ends_with(kind.ending.as_bytes()))
}

/// Scene and ACES records look alike: a file that is named as another kind is not read, unless the command line says what it holds.
fn ending_fits(path: &Path, input: &Input, kind: &Kind, session: &Session) -> Result<(), Failure> {
    match (session.options.kind, kind_by_ending(path)) {
        (Some(said), _) if said != kind => {
            Err(Failure::usage(format!("{} records are read here, and --kind says {}", kind.name, said.name)))
        }
        (None, Some(ending)) if ending != kind => Err(Failure::usage(format!(
            "{} is named as {} records, and {} records are read here; if it holds these, say --kind {}",
            input.name,
            ending.name,
            kind.name,
            kind.name.to_lowercase()
        ))),
        _ => Ok(()),
    }
}
