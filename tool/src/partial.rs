//! The new file beside an output: its name, its lock, and the removal of those that killed runs left.
//!
//! A run takes the first free of a few names, `.OUT.ropeinstant-0`, `-1` and so on, and holds a lock on the file while it lives. So a file with
//! such a name that can be locked is litter, whoever wrote it and on whichever machine; and no folder is ever listed. Whoever has locked
//! a file looks whether the name still stands for it, since its owner may have given it the output's name meanwhile.
use crate::system::{lock, open_to_lock};
use sha2::{Digest, Sha256};
use std::ffi::{OsStr, OsString};
use std::fs::{self, File, Metadata, OpenOptions};
use std::io::{self, ErrorKind};
use std::os::unix::ffi::{OsStrExt, OsStringExt};
use std::os::unix::fs::MetadataExt;
use std::path::{Path, PathBuf};

/// Runs to one output at once.
pub const MOST: usize = 32;
/// A longer name of an output stands cut in that of the new file, with a sum over the whole, since names have at most 255 bytes.
const LONGEST: usize = 200;
const KEPT: usize = 160;

/// Makes a new file for an output, and locks it. What killed runs left for this output is removed.
pub fn create(folder: &Path, output: &OsStr) -> io::Result<(PathBuf, File)> {
    for path in clear(folder, output) {
        if let Some(file) = made(&path)? {
            return Ok((path, file));
        }
    }
    Err(io::Error::new(ErrorKind::Other, format!("{} other runs are writing it", MOST)))
}

/// Removes what killed runs left for an output: the names of new files that are free.
pub fn clear(folder: &Path, output: &OsStr) -> Vec<PathBuf> {
    (0..MOST).map(|k| folder.join(name(output, k))).filter(|path| cleared(path)).collect()
}

fn name(output: &OsStr, k: usize) -> OsString {
    let bytes = output.as_bytes();
    let mut name = b".".to_vec();
    if bytes.len() <= LONGEST {
        name.extend(bytes);
    } else {
        let kept = bytes[..KEPT].iter().rposition(|byte| byte & 0xc0 != 0x80).unwrap_or(0);
        name.extend(&bytes[..kept]);
        name.extend(format!("~{:x}", Sha256::digest(bytes))[..17].bytes());
    }
    name.extend(format!(".ropeinstant-{}", k).bytes());
    OsString::from_vec(name)
}

/// Whether a name is free, after removing a file there that no run holds.
fn cleared(path: &Path) -> bool {
    let about = match fs::symlink_metadata(path) {
        Ok(about) => about,
        Err(_) => return true,
    };
    about.is_file() && litter(path).unwrap_or(false)
}

/// Removes a file unless a run holds it: whether it did.
fn litter(path: &Path) -> io::Result<bool> {
    let file = open_to_lock(path)?;
    let locked = lock(&file)?;
    if locked && is_at(&file, path) {
        fs::remove_file(path)?;
    }
    Ok(locked)
}

/// Makes and locks a new file; none if another run was before.
fn made(path: &Path) -> io::Result<Option<File>> {
    let file = match OpenOptions::new().read(true).write(true).create_new(true).open(path) {
        Ok(file) => file,
        Err(error) if error.kind() == ErrorKind::AlreadyExists => return Ok(None),
        Err(error) => return Err(error),
    };
    match lock(&file) {
        Ok(locked) => Ok(Some(file).filter(|file| locked && is_at(file, path))),
        // A file system without locks: nothing there is ever taken for litter.
        Err(_) => Ok(Some(file)),
    }
}

/// Whether a name stands for this file.
fn is_at(file: &File, path: &Path) -> bool {
    matches!((file.metadata(), fs::symlink_metadata(path)), (Ok(a), Ok(b)) if same(&a, &b))
}

/// Whether two descriptions are of one file.
pub fn same(a: &Metadata, b: &Metadata) -> bool {
    (a.dev(), a.ino()) == (b.dev(), b.ino())
}

#[cfg(test)]
mod tests {
    use super::*;

    fn folder(name: &str) -> PathBuf {
        let folder = std::env::temp_dir().join(format!("ropeinstant-{}-{}", name, std::process::id()));
        fs::create_dir_all(&folder).unwrap();
        fs::canonicalize(folder).unwrap()
    }

    #[test]
    fn names_fit_and_differ() {
        assert_eq!(name(OsStr::new("a.b"), 3), ".a.b.ropeinstant-3");
        let (long, other) = ("ä".repeat(127), "ä".repeat(126) + "o");
        let made = name(OsStr::new(&long), 31);
        assert!(made.len() <= 255 && made.to_str().is_some() && made != name(OsStr::new(&other), 31));
    }

    #[test]
    fn litter_is_cleared_and_held_files_are_kept() {
        let folder = folder("litter");
        let output = OsStr::new("out");
        let (held, open) = create(&folder, output).unwrap();
        assert_eq!(held, folder.join(".out.ropeinstant-0"));
        let (dead, other) = (folder.join(".out.ropeinstant-7"), folder.join(".other.ropeinstant-0"));
        [&dead, &other].iter().for_each(|path| drop(File::create(path).unwrap()));
        let (second, _more) = create(&folder, output).unwrap();
        assert!(!dead.exists() && other.exists() && held.exists() && second == folder.join(".out.ropeinstant-1"));
        drop(open);
        assert_eq!(create(&folder, output).unwrap().0, held);
        fs::remove_dir_all(&folder).unwrap();
    }

    #[test]
    fn a_file_that_was_renamed_meanwhile_is_left_alone() {
        let folder = folder("renamed");
        let (path, _file) = create(&folder, OsStr::new("out")).unwrap();
        fs::rename(&path, folder.join("out")).unwrap();
        assert!(!is_at(&File::open(folder.join("out")).unwrap(), &path));
        fs::remove_dir_all(&folder).unwrap();
    }
}
