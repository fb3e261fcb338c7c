//! `inspect`: what a file holds.
use crate::conversion::{judging, TO_ACES};
use crate::convert::refused;
use crate::failure::{Cause, Failure};
use crate::input::Input;
use crate::kinds::{Kind, ACES, CHANNELS, PIXEL, SCENE};
use crate::names::{is_standard_input, shown};
use crate::pipeline::{room, run, Plan};
use crate::progress::Progress;
use crate::reading::{kind_by_ending, manifest_of};
use crate::refusals::Refused;
use crate::report::Facts;
use crate::session::Session;
use crate::settings::{known, Setting};
use crate::summary::Summary;
use crate::sums::{read_at, Named};
use serde_json::{json, Value};
use std::path::Path;
use std::sync::Mutex;

/// The kinds that records alone can tell. Half records look like pixels, and are believed only where that is said.
const TOLD_APART: [&Kind; 3] = [&PIXEL, &SCENE, &ACES];

/// The records that are looked at to tell which kinds a file may hold.
const LOOKED_AT: usize = 4096;

pub fn inspect(session: &Session, path: &Path) -> Result<Facts, Failure> {
    let (kinds, by) = kinds_of(session, path)?;
    let mut views = Vec::new();
    for kind in &kinds {
        views.push(view(session, path, kind)?);
    }
    Ok(facts(&views, by))
}

/// The kinds that a file may hold, and how that is known.
fn kinds_of(session: &Session, path: &Path) -> Result<(Vec<&'static Kind>, &'static str), Failure> {
    if let Some(kind) = session.options.kind {
        return Ok((vec![kind], "option"));
    }
    if is_standard_input(path) {
        return Err(Failure::usage("what standard input holds must be said by --kind"));
    }
    let input = Input::open(path)?;
    if let Some(manifest) = manifest_of(path, &input, session)? {
        return Ok((vec![manifest.kind], "manifest"));
    }
    if let Some(kind) = kind_by_ending(path) {
        return Ok((vec![kind], "name"));
    }
    if !input.regular {
        return Err(Failure::usage(format!("what {} holds must be said by --kind", shown(path))));
    }
    let mut allowed = Vec::new();
    for kind in TOLD_APART {
        if allowed_by_records(&input, kind).map_err(|cause| cause.of(&input.name))? {
            allowed.push(kind);
        }
    }
    // None is allowed: the file is shown as each, with what is refused.
    Ok((if allowed.is_empty() { TOLD_APART.to_vec() } else { allowed }, "records"))
}

/// Whether the second of two files that `verify` is given is a master, to which the first is held.
pub fn is_master(session: &Session, path: &Path) -> Result<bool, Failure> {
    if session.options.pair {
        return Ok(true);
    }
    if is_standard_input(path) || session.options.kind.is_some() {
        return Ok(false);
    }
    match kinds_of(session, path) {
        Ok((kinds, _)) => Ok(kinds.contains(&&ACES) && !kinds.contains(&&PIXEL)),
        // It is verified as pixels, and what is wrong is said there.
        Err(_) => Ok(false),
    }
}

/// Whether a file's length and the settings of its first records are those of a kind.
fn allowed_by_records(input: &Input, kind: &Kind) -> Result<bool, Cause> {
    if input.length.unwrap_or(0) % kind.size() as u64 != 0 {
        return Ok(false);
    }
    let mut first = room(LOOKED_AT * kind.size())?;
    let read = read_at(input.file(), &mut first, 0).map_err(|error| Cause::files("cannot read", &error))?;
    Ok(first[..read].chunks_exact(kind.size()).all(|record| can_have(kind, &Setting::of(record))))
}

/// Whether records of a kind can have a setting: those of ACES numbers only one with a matrix.
fn can_have(kind: &Kind, setting: &Setting) -> bool {
    known(setting) && (kind != &ACES || setting.has_matrix())
}

/// A file seen as records of a kind.
struct View {
    kind: &'static Kind,
    bytes: u64,
    records: u64,
    summary: Summary,
    refused: Option<Refused>,
}

fn view(session: &Session, path: &Path, kind: &'static Kind) -> Result<View, Failure> {
    let mut input = Input::open(path)?;
    let progress = Progress::new("inspect", input.length, session.options.quiet);
    let (split, signals) = (&session.options.split, &session.signals);
    let plan = Plan { threads: split.threads, chunk: split.chunk, kind, any_length: true, signals, progress: &progress };
    let (conversion, found) = (judging(kind), Mutex::new((Summary::default(), None::<Refused>)));
    let records = run(&plan, &mut input, || {
        let mut made = room(split.chunk * conversion.to.size())?;
        let found = &found;
        Ok(move |part: &[u8], first: u64| {
            let mut summary = Summary::default();
            summary.count(kind, part);
            summary.range(kind, part);
            let answer = (conversion.convert)(part, &mut made[..part.len() / kind.size() * conversion.to.size()]);
            let refused = answer.err().map(|refusal| refused(&refusal, conversion, part, first));
            let mut found = found.lock().unwrap();
            found.0.join(&summary);
            let earlier = found.1.take();
            found.1 = earlier.into_iter().chain(refused).min_by_key(|refused| refused.record);
            Ok(())
        })
    })?;
    let (summary, first) = found.into_inner().unwrap();
    let refused = if input.read % kind.size() as u64 == 0 { first } else { Some(Refused::length(kind, input.read)) };
    Ok(View { kind, bytes: input.read, records, summary, refused })
}

fn facts(views: &[View], by: &str) -> Facts {
    let names: Vec<&str> = views.iter().map(|view| view.kind.name).collect();
    let how = match by {
        "records" if views.iter().all(|view| view.refused.is_some()) => "refused as each kind".to_string(),
        "records" if names.contains(&PIXEL.name) => {
            format!("{} records, as its length and settings allow (half records look alike: --kind half)", names.join(" or "))
        }
        "records" => format!("{} records, as its length and settings allow", names.join(" or ")),
        "option" => format!("{} records, as --kind says", names.join(" or ")),
        _ => format!("{} records, as its {} says", names.join(" or "), by),
    };
    let mut words = how;
    for view in views {
        if views.len() > 1 {
            words += &format!("\n  as {} records", view.kind.name);
        }
        words += &view.words();
    }
    let json = json!({"known_by": by, "as": views.iter().map(View::json).collect::<Vec<Value>>()});
    Facts { words, json, refused: views.iter().all(|view| view.refused.is_some()) }
}

/// A line with what is counted or measured, and the figures.
fn row(what: &str, figures: String) -> String {
    format!("\n    {:32} {}", what, figures)
}

impl View {
    /// Records of settings that cannot go to ACES.
    fn no_matrix(&self) -> u64 {
        self.summary.settings.iter().filter(|(setting, _)| !setting.has_matrix()).map(|(_, records)| records).sum()
    }

    fn words(&self) -> String {
        let mut words = format!("\n    {} bytes, {} records", self.bytes, self.records);
        for (setting, records) in &self.summary.settings {
            words += &row(&setting.to_string(), format!("{} records", records));
        }
        for (what, records) in [("of these without an ACES matrix", self.no_matrix()), ("no setting that there is", self.summary.others)] {
            if records > 0 {
                words += &row(what, format!("{} records", records));
            }
        }
        for (channel, range) in CHANNELS.iter().zip(self.summary.ranges) {
            if let Some((least, most)) = range {
                words += &row(&format!("{} {}", channel, self.kind.called), format!("{} to {}", least, most));
            }
        }
        words + &self.verdict()
    }

    /// The first refusal, or that there is none. Pixels are judged without regard to a matrix, and to-aces needs one.
    fn verdict(&self) -> String {
        let no_aces = self.kind == TO_ACES.from && self.no_matrix() > 0;
        let mut words = match &self.refused {
            Some(refused) => format!("\n    refused {}: {}", refused.number, refused.words),
            None if no_aces => format!("\n    {} refuses nothing", judging(self.kind).name),
            None => "\n    nothing is refused".to_string(),
        };
        if no_aces {
            words += &format!("\n    {} refuses the file: it takes no record without an ACES matrix", TO_ACES.name);
        }
        words
    }

    fn json(&self) -> Value {
        let ranges: Value = CHANNELS.iter().zip(self.summary.ranges).map(|(channel, range)| (channel.to_string(), json!(range))).collect();
        let refusal = self.refused.as_ref().map(|r| json!({"number": r.number, "record": r.record, "byte": r.byte, "words": r.words}));
        json!({
            "kind": self.kind.name,
            "bytes": self.bytes,
            "records": self.records,
            "settings": self.summary.settings_json(),
            "no_setting": self.summary.others,
            "no_matrix": self.no_matrix(),
            "ranges": ranges,
            "refusal": refusal,
        })
    }
}
