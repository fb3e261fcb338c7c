//! `verify`: that pixels come back from ACES or from scene numbers the same, or that a master gives these pixels; and `check`: that every
//! record of a master comes from a pixel. Neither writes a file.
use crate::conversion::{Conversion, FROM_SCENE, TO_ACES, TO_CAMERA, TO_SCENE};
use crate::convert::converted;
use crate::failure::{Cause, Failure};
use crate::kinds::{ACES, PIXEL};
use crate::pipeline::room;
use crate::reading::Reading;
use crate::report::Facts;
use crate::session::Session;
use crate::sums::{read_at, sum_of, Named};
use serde_json::json;
use std::path::Path;

/// Two conversions, of which the second takes back what the first made.
type Roads = [&'static Conversion; 2];

const BY_ACES: Roads = [&TO_ACES, &TO_CAMERA];
const BY_SCENE: Roads = [&TO_SCENE, &FROM_SCENE];

/// Converts pixels to ACES or to scene numbers and back, and compares.
pub fn verify(session: &Session, from: &Path) -> Result<Facts, Failure> {
    let (roads, how) = match session.options.scene {
        true => (BY_SCENE, " come back from scene numbers the same"),
        false => (BY_ACES, " come back the same"),
    };
    let mut reading = Reading::open(from, &PIXEL, "verify", session)?;
    let (chunk, file) = (session.options.split.chunk, reading.input.name.clone());
    let records = reading.run(|| {
        let (mut made, mut back) = (room(chunk * roads[0].to.size())?, room(chunk * PIXEL.size())?);
        let file = &file;
        Ok(move |part: &[u8], first: u64| returned(roads, file, part, first, (&mut made, &mut back)))
    })?;
    Ok(facts(records, how, reading.manifest.is_some()))
}

/// That a part comes back the same, with room for both strips. The theorems say that it does, so a difference is a fault of the machine.
fn returned([there, back]: [&Conversion; 2], file: &str, part: &[u8], first: u64, rooms: (&mut [u8], &mut [u8])) -> Result<(), Failure> {
    let made = converted(there, file, part, first, rooms.0)?;
    let back = converted(back, file, made, first, rooms.1)?;
    match differing(part, back) {
        None => Ok(()),
        Some(k) => Err(Cause::Differs(format!("{} does not come back the same", place(first + k, PIXEL.size()))).of(file)),
    }
}

/// The first record in which two strips of pixels differ.
fn differing(a: &[u8], b: &[u8]) -> Option<u64> {
    let size = PIXEL.size();
    a.chunks_exact(size).zip(b.chunks_exact(size)).position(|(a, b)| a != b).map(|k| k as u64)
}

fn place(record: u64, size: usize) -> String {
    format!("record {} (byte {})", record, record * size as u64)
}

/// Holds pixels to a master: the way back turns the master into these pixels.
pub fn verify_pair(session: &Session, from: &Path, master: &Path) -> Result<Facts, Failure> {
    let master = Reading::open(master, &ACES, "verify", session)?;
    if !master.input.regular {
        return Err(Failure::usage(format!("the master, {}, must be a regular file", master.input.name)));
    }
    let mut reading = Reading::open(from, &PIXEL, "verify", session)?;
    if master.manifest.is_some() {
        reading.input.sum();
    }
    let (chunk, file) = (session.options.split.chunk, reading.input.name.clone());
    let other = &master.input;
    let records = reading.run(|| {
        let (mut aces, mut back) = (room(chunk * ACES.size())?, room(chunk * PIXEL.size())?);
        let file = &file;
        Ok(move |part: &[u8], first: u64| {
            let wanted = part.len() / PIXEL.size() * ACES.size();
            let read = read_at(other.file(), &mut aces[..wanted], first * ACES.size() as u64);
            let read = read.map_err(|error| Cause::files("cannot read", &error).of(&other.name))?;
            let held = read / ACES.size();
            let back = converted(&TO_CAMERA, &other.name, &aces[..held * ACES.size()], first, &mut back)?;
            let k = match differing(part, back) {
                Some(k) => k,
                None if held * ACES.size() == wanted => return Ok(()),
                None => held as u64,
            };
            let words = format!("{} is not what {} gives there", place(first + k, PIXEL.size()), other.name);
            Err(Cause::Differs(words).of(file))
        })
    })?;
    let held = other.length.unwrap_or(0) / ACES.size() as u64;
    if held != records {
        return Err(Cause::Differs(format!("it has {} records, and {} has {}", records, other.name, held)).of(&file));
    }
    other.untouched()?;
    if let Some(manifest) = &master.manifest {
        manifest.hold(held, &sum_of(other, &session.signals)?).map_err(|cause| cause.of(&other.name))?;
        if reading.input.summed().map_or(false, |sum| sum != manifest.from) {
            let words = format!("{} says that the master was made from another file, of SHA-256 {}", manifest.name, manifest.from);
            return Err(Cause::Differs(words).of(&file));
        }
    }
    let mut facts = facts(records, &format!(" are what {} gives", other.name), master.manifest.is_some());
    facts.json["master"] = other.name.clone().into();
    Ok(facts)
}

/// Takes a master back to pixels, and writes nothing.
pub fn check(session: &Session, from: &Path) -> Result<Facts, Failure> {
    let mut reading = Reading::open(from, &ACES, "check", session)?;
    let (chunk, file) = (session.options.split.chunk, reading.input.name.clone());
    let records = reading.run(|| {
        let mut back = room(chunk * PIXEL.size())?;
        let file = &file;
        Ok(move |part: &[u8], first: u64| converted(&TO_CAMERA, file, part, first, &mut back).map(drop))
    })?;
    Ok(facts(records, ", each from a pixel", reading.manifest.is_some()))
}

/// What is said of records that were looked at: their count, what was found, and that they are held to a manifest.
pub fn facts(records: u64, how: &str, manifest: bool) -> Facts {
    let held = if manifest { ", and it is as its manifest says" } else { "" };
    Facts::new(format!("{} records{}{}", records, how, held), json!({"records": records, "manifest": manifest}))
}

#[cfg(test)]
mod tests {
    use super::*;
    use crate::library::{aces_to_pixel, Answer};

    const ONE: [u8; 10] = [3, 12, 0x20, 3, 100, 0, 0, 0, 0, 0];

    /// A way back that gives the second record's last code one too high.
    fn faulty(input: &[u8], output: &mut [u8]) -> Answer {
        let answer = aces_to_pixel(input, output);
        output[18] += 1;
        answer
    }

    fn tried(back: &Conversion) -> Result<(), Failure> {
        returned([&TO_ACES, back], "in", &ONE.repeat(3), 5, (&mut [0; 84], &mut [0; 30]))
    }

    #[test]
    fn a_difference_says_where() {
        assert!(tried(&TO_CAMERA).is_ok());
        let words = tried(&Conversion { convert: faulty, ..TO_CAMERA }).unwrap_err().to_string();
        assert_eq!(words, "in: differs: record 6 (byte 60) does not come back the same");
    }
}
