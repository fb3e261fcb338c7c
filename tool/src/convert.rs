//! The conversions of a file into another.
use crate::conversion::{Conversion, TOLERANT_TO_CAMERA, TO_CAMERA};
use crate::failure::{Cause, Failure};
use crate::input::Input;
use crate::kinds::Kind;
use crate::library::Refusal;
use crate::manifest::{beside, text, Of};
use crate::moved::Moved;
use crate::names::shown;
use crate::output::Output;
use crate::partial::clear;
use crate::pipeline::room;
use crate::reading::{kind_by_ending, Reading};
use crate::refusals::Refused;
use crate::report::Facts;
use crate::session::Session;
use crate::summary::Summary;
use crate::sums::{sum_of, Named};
use crate::target::Target;
use serde_json::json;
use std::path::Path;
use std::sync::Mutex;

/// That no file is written under the ending of another kind: half floats that are named as a master would be taken for one.
fn named_for(kind: &Kind, to: &Path) -> Result<(), Failure> {
    match kind_by_ending(to) {
        Some(ending) if ending != kind => {
            let words = format!("{} is named as {} records, and {} records would be written there", shown(to), ending.name, kind.name);
            Err(Failure::usage(words))
        }
        _ => Ok(()),
    }
}

/// Converts a file into another.
pub fn convert(session: &Session, conversion: &Conversion, from: &Path, to: &Path) -> Result<Facts, Failure> {
    named_for(conversion.to, to)?;
    let mut reading = Reading::open(from, conversion.from, conversion.name, session)?;
    let target = Target::of(to, &reading.input)?;
    let listed = listed(session, &target, &reading.input)?;
    let manifest = listed.is_some();
    if manifest {
        reading.input.sum();
    }
    let whole = reading.input.length.map(|length| length / conversion.from.size() as u64 * conversion.to.size() as u64);
    let output = Output::create(target, whole, !session.options.no_clobber)?;
    let summary = Mutex::new(Summary::default());
    let moved = (conversion.name == TOLERANT_TO_CAMERA.name).then(|| Mutex::new(Moved::default()));
    let chunk = session.options.split.chunk;
    let file = reading.input.name.clone();
    let records = reading.run(|| {
        let mut made = room(chunk * conversion.to.size())?;
        let (output, summary, moved, file) = (&output, &summary, &moved, &file);
        Ok(move |part: &[u8], first: u64| {
            let made = match moved {
                Some(moved) => taken_back(moved, file, part, first, &mut made)?,
                None => converted(conversion, file, part, first, &mut made)?,
            };
            if manifest {
                summary.lock().unwrap().count(conversion.from, part);
            }
            output.write_at(made, first * conversion.to.size() as u64)
        })
    })?;
    reading.progress.doing("flushing to disk");
    output.flush()?;
    let mut facts = json!({"out": output.shown(), "records": records});
    let mut words = String::new();
    if let Some(moved) = moved.map(|moved| moved.into_inner().unwrap()) {
        words = moved.words(records);
        facts["moved"] = moved.json();
    }
    let listing = if let Some(listed) = listed {
        let (of, from) = (sum_of(&output, &session.signals)?, reading.input.summed().unwrap_or_default());
        facts["sha256"] = of.clone().into();
        let of = Of { kind: conversion.to, bytes: records * conversion.to.size() as u64, sha256: &of };
        let from = Of { kind: conversion.from, bytes: reading.input.read, sha256: &from };
        Some(listing(session, listed, &text(&of, records, &summary.into_inner().unwrap(), &from))?)
    } else {
        None
    };
    session.signals.check().map_err(|cause| cause.of(&file))?;
    let notes = output.notes();
    let shown = output.shown().to_string();
    output.finish()?;
    notes.iter().for_each(|words| session.note(&shown, words));
    if let Some(listing) = listing {
        facts["manifest"] = listing.shown().into();
        listing.finish()?;
    }
    Ok(Facts::new(words, facts))
}

/// The name of the manifest that is to be written: the one that was asked for, or that is there and would not be true of a new file.
fn listed(session: &Session, target: &Target, input: &Input) -> Result<Option<Target>, Failure> {
    let path = beside(&target.path());
    if !session.options.manifest && path.symlink_metadata().is_err() {
        clear(&target.folder, path.file_name().unwrap_or_default());
        return Ok(None);
    }
    let listed = Target::of(&path, input)?;
    listed.may_be_made(!session.options.no_clobber)?;
    Ok(Some(listed))
}

/// A manifest, written and flushed, that has its name still to be given.
fn listing(session: &Session, target: Target, text: &str) -> Result<Output, Failure> {
    if target.old.is_some() && !session.options.manifest {
        session.note(&target.shown, "it was there, and is written anew");
    }
    let output = Output::create(target, Some(text.len() as u64), !session.options.no_clobber)?;
    output.write_at(text.as_bytes(), 0)?;
    output.flush()?;
    Ok(output)
}

/// The output strip of a part of a file, whose first record has this index in the whole.
pub fn converted<'a>(conversion: &Conversion, file: &str, part: &[u8], first: u64, made: &'a mut [u8]) -> Result<&'a [u8], Failure> {
    let made = &mut made[..part.len() / conversion.from.size() * conversion.to.size()];
    match (conversion.convert)(part, made) {
        Ok(_) => Ok(made),
        Err(refusal) => Err(Cause::Refused(refused(&refusal, conversion, part, first)).of(file)),
    }
}

/// The same by the tolerant way back, where the records that were moved are counted. A part that the exact one takes has none, and gives the same
/// pixels by either: so an unmoved master takes no longer.
fn taken_back<'a>(moved: &Mutex<Moved>, file: &str, part: &[u8], first: u64, made: &'a mut [u8]) -> Result<&'a [u8], Failure> {
    let pixels = part.len() / TO_CAMERA.from.size() * TO_CAMERA.to.size();
    if (TO_CAMERA.convert)(part, &mut made[..pixels]).is_ok() {
        return Ok(&made[..pixels]);
    }
    let made = converted(&TOLERANT_TO_CAMERA, file, part, first, made)?;
    let of_part = Moved::of(part, made);
    moved.lock().unwrap().join(&of_part);
    Ok(made)
}

/// The words for a refusal of a part's record.
pub fn refused(refusal: &Refusal, conversion: &Conversion, part: &[u8], first: u64) -> Refused {
    let size = conversion.from.size();
    let at = refusal.record as usize * size;
    Refused::record(conversion, refusal.number, first + refusal.record, &part[at..at + size])
}
