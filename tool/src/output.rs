//! The output, which appears whole or not at all: a new file beside it is written, flushed to disk and then renamed.
use crate::failure::{Cause, Failure};
use crate::partial;
use crate::sums::Named;
use crate::system::{give, rename_to_new, reserve};
use crate::target::Target;
use std::fs::{self, File, Metadata};
use std::io::{self, ErrorKind};
use std::os::unix::fs::{FileExt, MetadataExt};
use std::path::{Path, PathBuf};

pub struct Output {
    target: Target,
    partial: PathBuf,
    file: File,
    renamed: bool,
    /// Whether a file that is there may be replaced.
    clobber: bool,
}

impl Output {
    /// Makes the new file beside the output, with room for so many bytes where they are known.
    pub fn create(target: Target, room: Option<u64>, clobber: bool) -> Result<Output, Failure> {
        target.may_be_made(clobber)?;
        let made = partial::create(&target.folder, &target.name);
        let (partial, file) = made.map_err(|error| Cause::files("cannot write: a new file beside it", &error).of(&target.shown))?;
        let output = Output { target, partial, file, renamed: false, clobber };
        if let Some(room) = room.filter(|room| *room > 0) {
            reserve(&output.file, room).map_err(|error| output.cannot_write(&error))?;
        }
        if let Some(old) = &output.target.old {
            output.own(old).map_err(|error| output.cannot_write(&error))?;
        }
        Ok(output)
    }

    /// Gives the new file the old one's owner, group and mode. Whom the system does not let give a file away keeps it, and the mode alone
    /// is taken over.
    fn own(&self, old: &Metadata) -> io::Result<()> {
        let new = self.file.metadata()?;
        if (new.uid(), new.gid()) != (old.uid(), old.gid()) && give(&self.file, old.uid(), old.gid()).is_err() {
            let _ = give(&self.file, new.uid(), old.gid());
        }
        self.file.set_permissions(old.permissions())
    }

    pub fn write_at(&self, bytes: &[u8], offset: u64) -> Result<(), Failure> {
        self.file.write_all_at(bytes, offset).map_err(|error| self.cannot_write(&error))
    }

    /// What replacing the old file changes beside its content, in words.
    pub fn notes(&self) -> Vec<String> {
        let mut notes = Vec::new();
        if let (Some(old), Ok(new)) = (&self.target.old, self.file.metadata()) {
            if (new.uid(), new.gid()) != (old.uid(), old.gid()) {
                notes.push(format!("its owner was {}:{}, and is now {}:{}", old.uid(), old.gid(), new.uid(), new.gid()));
            }
            if old.nlink() > 1 {
                notes.push("the other names of the old file keep the old content".to_string());
            }
        }
        notes
    }

    /// Flushes the new file to disk.
    pub fn flush(&self) -> Result<(), Failure> {
        self.file.sync_all().map_err(|error| self.cannot_write(&error))
    }

    /// Gives the new file, which was flushed, the output's name.
    pub fn finish(mut self) -> Result<(), Failure> {
        self.rename().map_err(|error| self.cannot_write(&error))?;
        self.renamed = true;
        flush_folder(&self.target.folder).map_err(|error| {
            Cause::files("it is written whole, but its folder could not be flushed to disk", &error).of(&self.target.shown)
        })
    }

    fn rename(&self) -> io::Result<()> {
        if self.clobber {
            fs::rename(&self.partial, self.target.path())
        } else {
            rename_to_new(&self.partial, &self.target.path())
        }
    }

    fn cannot_write(&self, error: &io::Error) -> Failure {
        Cause::files("cannot write", error).of(&self.target.shown)
    }
}

impl Named for Output {
    fn file(&self) -> &File {
        &self.file
    }

    fn shown(&self) -> &str {
        &self.target.shown
    }
}

/// Whatever ends before the renaming leaves the old output, and takes the new file away.
impl Drop for Output {
    fn drop(&mut self) {
        if !self.renamed {
            let _ = fs::remove_file(&self.partial);
        }
    }
}

/// Flushes a folder to disk, so that a new name in it stays. Some file systems know no such thing, which is no failure.
fn flush_folder(folder: &Path) -> io::Result<()> {
    match File::open(folder)?.sync_all() {
        Err(error) if matches!(error.kind(), ErrorKind::InvalidInput | ErrorKind::Unsupported) => Ok(()),
        flushed => flushed,
    }
}
