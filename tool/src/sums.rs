//! The SHA-256 of a file that is read at places.
use crate::failure::{Cause, Failure};
use crate::pipeline::room;
use crate::signals::Signals;
use sha2::{Digest, Sha256};
use std::fs::File;
use std::io::{self, ErrorKind};
use std::os::unix::fs::FileExt;

const AT_ONCE: usize = 1 << 16;

/// A file with its name, as messages show it.
pub trait Named {
    fn file(&self) -> &File;
    fn shown(&self) -> &str;
}

/// The SHA-256 of a whole file.
pub fn sum_of(of: &impl Named, signals: &Signals) -> Result<String, Failure> {
    sum(of.file(), signals).map_err(|cause| cause.of(of.shown()))
}

fn sum(file: &File, signals: &Signals) -> Result<String, Cause> {
    let (mut sum, mut at, mut buffer) = (Sha256::new(), 0, room(AT_ONCE)?);
    loop {
        signals.check()?;
        match read_at(file, &mut buffer, at).map_err(|error| Cause::files("cannot read", &error))? {
            0 => return Ok(format!("{:x}", sum.finalize())),
            read => {
                sum.update(&buffer[..read]);
                at += read as u64;
            }
        }
    }
}

/// Reads at a place until the buffer is full or the file ends: the count of bytes.
pub fn read_at(file: &File, buffer: &mut [u8], at: u64) -> io::Result<usize> {
    let mut filled = 0;
    while filled < buffer.len() {
        match file.read_at(&mut buffer[filled..], at + filled as u64) {
            Ok(0) => break,
            Ok(more) => filled += more,
            Err(error) if error.kind() == ErrorKind::Interrupted => (),
            Err(error) => return Err(error),
        }
    }
    Ok(filled)
}
