//! `demo`: a small reel of every setting with an ACES matrix goes to ACES and back, and one of the others to scene and back, in a folder of
//! its own that is gone afterwards.
use crate::conversion::{Conversion, FROM_SCENE, TOLERANT_TO_CAMERA, TO_ACES, TO_CAMERA, TO_SCENE};
use crate::convert::convert;
use crate::failure::{Cause, Failure};
use crate::kinds::{ACES, CHANNELS, PIXEL};
use crate::report::say;
use crate::session::Session;
use crate::settings::{all, Setting, BYTES};
use std::fs;
use std::io;
use std::path::{Path, PathBuf};

const OF_EACH: usize = 1000; // records of a setting

pub fn demo(session: &Session) -> Result<(), Failure> {
    let folder = Folder::new().map_err(|error| Cause::files("cannot make a folder for the demo", &error).of("ropeinstant"))?;
    let [reel, aces, back, damaged] = ["reel.pixels", "reel.aces", "back.pixels", "damaged.aces"].map(|name| folder.0.join(name));
    let sup2 = ["sup2.pixels", "sup2.scene", "sup2-back.pixels"].map(|name| folder.0.join(name));
    let (with, without): (Vec<Setting>, Vec<Setting>) = all().partition(Setting::has_matrix);
    say(&format!("A reel of {} settings, {} pixels of each:\n", with.len(), OF_EACH))?;
    there_and_back(session, &with, [&TO_ACES, &TO_CAMERA], [&reel, &aces, &back])?;
    say(&format!("A reel of the {} settings without an ACES matrix, {} pixels of each:\n", without.len(), OF_EACH))?;
    there_and_back(session, &without, [&TO_SCENE, &FROM_SCENE], [&sup2[0], &sup2[1], &sup2[2]])?;

    let mut bytes = read(&aces)?;
    let record = bytes.len() / ACES.size() / 2;
    bytes[record * ACES.size() + BYTES] ^= 1;
    write(&damaged, &bytes)?;
    say(&format!("A copy of reel.aces with one bit of record {} changed:\n", record))?;
    match shown(session, &TO_CAMERA, &damaged, &back) {
        Err(failure @ Failure { cause: Cause::Refused(_), .. }) => say(&format!("    {}: {}\n", last(&damaged), failure.words()))?,
        Err(failure) => return Err(failure),
        Ok(()) => held(false, "", "the damaged copy was converted")?,
    }
    held(read(&reel)? == read(&back)?, "back.pixels is as it was", "back.pixels is not as it was")?;
    shown(session, &TOLERANT_TO_CAMERA, &damaged, &back)?;
    came_back(&reel, &back)
}

/// A reel of some settings is converted, and returned.
fn there_and_back(session: &Session, of: &[Setting], [there, back]: [&Conversion; 2], files: [&Path; 3]) -> Result<(), Failure> {
    let [reel, made, returned] = files;
    write(reel, &reel_of(of))?;
    say_size(reel)?;
    shown(session, there, reel, made)?;
    say_size(made)?;
    shown(session, back, made, returned)?;
    say_size(returned)?;
    came_back(reel, returned)
}

fn came_back(reel: &Path, returned: &Path) -> Result<(), Failure> {
    held(read(reel)? == read(returned)?, "the reel came back, byte for byte", "the reel did not come back")
}

/// One conversion, with the line that a user would write for it, and what it says.
fn shown(session: &Session, conversion: &Conversion, from: &Path, to: &Path) -> Result<(), Failure> {
    say(&format!("ropeinstant {} {} {}\n", conversion.name, last(from), last(to)))?;
    let facts = convert(session, conversion, from, to)?;
    match facts.words.is_empty() {
        true => Ok(()),
        false => say(&format!("    {}: {}\n", last(from), facts.words)),
    }
}

fn held(holds: bool, words: &str, otherwise: &str) -> Result<(), Failure> {
    if holds {
        say(&format!("    {}\n", words))
    } else {
        Err(Cause::Differs(otherwise.to_string()).of("demo"))
    }
}

fn say_size(path: &Path) -> Result<(), Failure> {
    say(&format!("    {} has {} bytes\n", last(path), read(path)?.len()))
}

fn last(path: &Path) -> String {
    path.file_name().unwrap_or_default().to_string_lossy().into_owned()
}

fn read(path: &Path) -> Result<Vec<u8>, Failure> {
    fs::read(path).map_err(|error| Failure::files(path, "cannot read", &error))
}

fn write(path: &Path, bytes: &[u8]) -> Result<(), Failure> {
    fs::write(path, bytes).map_err(|error| Failure::files(path, "cannot write", &error))
}

/// Records of each setting with codes spread over all of its codes, the lowest and the highest among them.
fn reel_of(settings: &[Setting]) -> Vec<u8> {
    let mut reel = Vec::with_capacity(settings.len() * OF_EACH * PIXEL.size());
    let mut state = 1;
    settings.iter().for_each(|setting| (0..OF_EACH).for_each(|k| pixel(setting, k, &mut state, &mut reel)));
    reel
}

fn pixel(setting: &Setting, k: usize, state: &mut u64, reel: &mut Vec<u8>) {
    let width = setting.width().expect("a setting of the table");
    let last = u64::from((width.highest() - width.lowest) / width.step);
    reel.extend(setting.bytes());
    for _ in CHANNELS {
        *state = state.wrapping_mul(6364136223846793005).wrapping_add(1442695040888963407);
        let index = match k {
            0 => 0,
            1 => last,
            _ => (*state >> 33) % (last + 1),
        };
        reel.extend((width.lowest + index as u16 * width.step).to_le_bytes());
    }
}

/// A folder that is gone when it is dropped.
struct Folder(PathBuf);

impl Folder {
    fn new() -> io::Result<Folder> {
        let path = std::env::temp_dir().join(format!("ropeinstant-demo-{}", std::process::id()));
        fs::create_dir(&path)?;
        Ok(Folder(path))
    }
}

impl Drop for Folder {
    fn drop(&mut self) {
        let _ = fs::remove_dir_all(&self.0);
    }
}
