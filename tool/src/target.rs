//! What the name OUT stands for: a regular file that may be replaced, or a new one in a folder that is there; and not the input.
use crate::failure::{Cause, Failure};
use crate::input::Input;
use crate::names::{is_standard_input, shown};
use std::ffi::OsString;
use std::fs::{self, Metadata, OpenOptions};
use std::io::{self, ErrorKind};
use std::os::unix::ffi::OsStrExt;
use std::path::{Path, PathBuf};

pub struct Target {
    /// As messages show it.
    pub shown: String,
    /// Its folder and its name there, with no links.
    pub folder: PathBuf,
    pub name: OsString,
    /// The file that is replaced.
    pub old: Option<Metadata>,
}

impl Target {
    pub fn of(path: &Path, input: &Input) -> Result<Target, Failure> {
        if is_standard_input(path) {
            let words = "OUT is a file's name, not '-': an output appears whole or not at all, which a pipe cannot promise";
            return Err(Failure::usage(words));
        }
        let old = existing(path, input)?;
        let real = if old.is_some() { fs::canonicalize(path) } else { Ok(path.to_path_buf()) };
        let real = real.map_err(|error| Failure::files(path, "cannot write", &error))?;
        let name = real.file_name().ok_or_else(|| cannot(path, "it is not the name of a file"))?.to_owned();
        let folder = real_folder(&real).map_err(|error| Failure::files(path, "cannot write: its folder", &error))?;
        Ok(Target { shown: shown(path), folder, name, old })
    }

    /// That it is not there, where no file may be replaced.
    pub fn may_be_made(&self, clobber: bool) -> Result<(), Failure> {
        if clobber || self.old.is_none() {
            return Ok(());
        }
        Err(Cause::Files("cannot write: it is there, and --no-clobber is said".to_string()).of(&self.shown))
    }

    /// The whole path, with no links.
    pub fn path(&self) -> PathBuf {
        self.folder.join(&self.name)
    }
}

/// The output as it is now, if it is there.
fn existing(path: &Path, input: &Input) -> Result<Option<Metadata>, Failure> {
    let about = match fs::metadata(path) {
        Ok(about) => about,
        Err(error) if error.kind() == ErrorKind::NotFound => return absent(path),
        Err(error) => return Err(Failure::files(path, "cannot write", &error)),
    };
    if about.is_dir() {
        return Err(cannot(path, "it is a folder"));
    }
    if !about.is_file() {
        return Err(cannot(path, "it is not a regular file, and could not appear whole or not at all"));
    }
    if input.is(&about) {
        return Err(Failure::usage(format!("IN and OUT are the same file, {}", shown(path))));
    }
    OpenOptions::new().write(true).open(path).map_err(|error| Failure::files(path, "cannot write", &error))?;
    Ok(Some(about))
}

/// An output that is not there may be made, unless it is a link to nothing or said to be a folder.
fn absent(path: &Path) -> Result<Option<Metadata>, Failure> {
    if path.as_os_str().as_bytes().ends_with(b"/") {
        return Err(cannot(path, "there is no such folder, and OUT is a file"));
    }
    match fs::symlink_metadata(path) {
        Ok(_) => Err(cannot(path, "it is a link to a file that does not exist")),
        Err(_) => Ok(None),
    }
}

/// The folder of a path, with no links in it.
fn real_folder(path: &Path) -> io::Result<PathBuf> {
    match path.parent() {
        Some(folder) if folder != Path::new("") => fs::canonicalize(folder),
        _ => fs::canonicalize("."),
    }
}

fn cannot(path: &Path, why: &str) -> Failure {
    Cause::Files(format!("cannot write: {}", why)).of(&shown(path))
}
