//! The input: a file or standard input, read from its start to its end in order.
use crate::failure::{Cause, Failure};
use crate::kinds::Kind;
use crate::names::{is_standard_input, shown};
use crate::refusals::Refused;
use crate::signals::Signals;
use crate::sums::Named;
use crate::system::{either, open_for_both, open_to_read};
use sha2::{Digest, Sha256};
use std::fs::{File, Metadata};
use std::io::{self, ErrorKind, Read, Seek};
use std::os::unix::fs::{FileTypeExt, MetadataExt};
use std::os::unix::io::AsFd;
use std::path::Path;

/// How long a pipe may give nothing, in milliseconds, until the records that it gave are converted without waiting for more.
const PATIENCE: i32 = 50;
/// The device that stands in for a standard input that was closed.
const NULL_DEVICE: u64 = 0x103;

pub struct Input {
    /// As messages show it.
    pub name: String,
    file: File,
    about: Metadata,
    /// The bytes of the whole input, where they are known before reading, as of a regular file.
    pub length: Option<u64>,
    /// Whether it is a regular file that was named. What another program gives may be empty since that program failed.
    pub regular: bool,
    /// The bytes read so far.
    pub read: u64,
    /// Whether the end has been seen. What a terminal or a pipe gives after its end is another input.
    pub ended: bool,
    /// The begin of a record whose rest is still to be read.
    begun: Vec<u8>,
    sum: Option<Sha256>,
}

impl Input {
    /// Opens a file, or standard input for `-`.
    pub fn open(path: &Path) -> Result<Input, Failure> {
        Input::of(path).map_err(|error| Failure::files(path, "cannot read", &error))
    }

    fn of(path: &Path) -> io::Result<Input> {
        let standard = is_standard_input(path);
        let mut file = if standard { standard_input()? } else { open_to_read(path)? };
        let about = file.metadata()?;
        if about.is_dir() {
            return Err(io::Error::new(ErrorKind::Other, "it is a folder"));
        }
        let length = if about.is_file() { Some(about.len().saturating_sub(file.stream_position()?)) } else { None };
        let regular = about.is_file() && !standard;
        Ok(Input { name: shown(path), file, about, length, regular, read: 0, ended: false, begun: Vec::new(), sum: None })
    }

    /// From here on the SHA-256 of what is read is computed.
    pub fn sum(&mut self) {
        self.sum = Some(Sha256::new());
    }

    /// The SHA-256 of what was read, where it was asked for.
    pub fn summed(&self) -> Option<String> {
        self.sum.clone().map(|sum| format!("{:x}", sum.finalize()))
    }

    /// Whether a file is the one that is read.
    pub fn is(&self, about: &Metadata) -> bool {
        (self.about.dev(), self.about.ino()) == (about.dev(), about.ino())
    }

    /// Reads records until the buffer is full, the input ends, or a pipe gives nothing for a while: the count of their bytes. Bytes short of
    /// a record wait for their rest.
    pub fn fill(&mut self, buffer: &mut [u8], record: usize, signals: &Signals) -> Result<usize, Failure> {
        let mut filled = self.begun.len();
        buffer[..filled].copy_from_slice(&self.begun);
        while filled < buffer.len() && !self.ended {
            if !self.waited(filled >= record, signals)? {
                break;
            }
            match self.file.read(&mut buffer[filled..]) {
                Ok(0) => self.ended = true,
                Ok(more) => {
                    self.take(&buffer[filled..filled + more]);
                    filled += more;
                }
                Err(error) if matches!(error.kind(), ErrorKind::Interrupted | ErrorKind::WouldBlock) => (),
                Err(error) => return Err(Cause::files("cannot read", &error).of(&self.name)),
            }
        }
        let whole = filled - filled % record;
        self.begun.clear();
        self.begun.extend_from_slice(&buffer[whole..filled]);
        Ok(whole)
    }

    fn take(&mut self, bytes: &[u8]) {
        self.read += bytes.len() as u64;
        if let Some(sum) = &mut self.sum {
            sum.update(bytes);
        }
    }

    /// Waits until there is something to read: whether there is. It does not wait for long where there are records already.
    fn waited(&self, some: bool, signals: &Signals) -> Result<bool, Failure> {
        signals.check().map_err(|cause| cause.of(&self.name))?;
        if self.length.is_some() {
            return Ok(true);
        }
        let ready = either(&self.file, signals.wake(), if some { PATIENCE } else { -1 });
        signals.check().map_err(|cause| cause.of(&self.name))?;
        Ok(ready)
    }

    /// Reads to the end, for its length only.
    pub fn skip(&mut self, signals: &Signals) -> Result<(), Failure> {
        let mut rest = [0; 1 << 14];
        while !self.ended {
            self.fill(&mut rest, 1, signals)?;
        }
        Ok(())
    }

    /// That so many bytes are a whole number of records.
    pub fn whole_records(&self, kind: &Kind, length: u64) -> Result<(), Failure> {
        if length % kind.size() as u64 == 0 {
            Ok(())
        } else {
            Err(Cause::Refused(Refused::length(kind, length)).of(&self.name))
        }
    }

    /// After the end: what was read must be what was there when reading began.
    pub fn unchanged(&self) -> Result<(), Failure> {
        match self.length {
            Some(length) if length != self.read => Err(self.changed(&format!("it had {} bytes, and {} were read", length, self.read))),
            _ => self.untouched(),
        }
    }

    /// That a regular file has not been written since it was opened.
    pub fn untouched(&self) -> Result<(), Failure> {
        let now = self.file.metadata().map_err(|error| Cause::files("cannot read", &error).of(&self.name))?;
        if self.length.is_some() && (times(&now), now.len()) != (times(&self.about), self.about.len()) {
            return Err(self.changed("its times are others"));
        }
        Ok(())
    }

    fn changed(&self, how: &str) -> Failure {
        Cause::Files(format!("it has changed while it was read: {}", how)).of(&self.name)
    }
}

impl Named for Input {
    fn file(&self) -> &File {
        &self.file
    }

    fn shown(&self) -> &str {
        &self.name
    }
}

/// When a file was last written, and when its description last changed.
fn times(about: &Metadata) -> [i64; 4] {
    [about.mtime(), about.mtime_nsec(), about.ctime(), about.ctime_nsec()]
}

/// Standard input. Where it was closed, Rust has opened the null device for reading and writing in its place before the program began.
fn standard_input() -> io::Result<File> {
    let file = File::from(io::stdin().as_fd().try_clone_to_owned()?);
    let about = file.metadata()?;
    if open_for_both(&file)? && about.file_type().is_char_device() && about.rdev() == NULL_DEVICE {
        return Err(io::Error::new(ErrorKind::Other, "it is closed, or the null device"));
    }
    Ok(file)
}

#[cfg(test)]
mod tests {
    use super::*;
    use std::fs::{self, OpenOptions};
    use std::io::Write;

    #[test]
    fn the_end_is_the_end_and_a_write_is_seen() {
        let signals = Signals::new().unwrap();
        let path = std::env::temp_dir().join(format!("ropeinstant-end-{}", std::process::id()));
        fs::write(&path, b"12345").unwrap();
        let mut input = Input::open(&path).unwrap();
        let mut buffer = [0; 4];
        assert_eq!((input.length, input.fill(&mut buffer, 2, &signals).unwrap(), buffer), (Some(5), 4, *b"1234"));
        assert_eq!(input.fill(&mut buffer, 2, &signals).unwrap(), 0);
        assert!(input.unchanged().is_ok() && input.ended);
        OpenOptions::new().append(true).open(&path).unwrap().write_all(b"67").unwrap();
        assert_eq!((input.fill(&mut buffer, 2, &signals).unwrap(), input.read), (0, 5));
        assert!(input.unchanged().is_err());
        fs::remove_file(&path).unwrap();
    }
}
