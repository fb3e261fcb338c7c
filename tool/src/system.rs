//! The calls of the system that Rust's library does not have, by the crate nix, which wraps them safely.
use nix::errno::Errno;
use nix::fcntl::{fallocate, fcntl, flock, renameat2, FallocateFlags, FcntlArg, FlockArg, OFlag, RenameFlags};
use nix::poll::{poll, PollFd, PollFlags};
use nix::unistd::{fchown, Gid, Uid};
use std::fs::{self, File, OpenOptions};
use std::io;
use std::os::unix::fs::OpenOptionsExt;
use std::os::unix::io::AsRawFd;
use std::path::Path;

/// Opens a file for reading, without waiting for whoever writes a pipe, and without taking a terminal over.
pub fn open_to_read(path: &Path) -> io::Result<File> {
    OpenOptions::new().read(true).custom_flags((OFlag::O_NONBLOCK | OFlag::O_NOCTTY).bits()).open(path)
}

/// Opens a file that is no link, to lock it.
pub fn open_to_lock(path: &Path) -> io::Result<File> {
    OpenOptions::new().read(true).write(true).custom_flags((OFlag::O_NONBLOCK | OFlag::O_NOFOLLOW).bits()).open(path)
}

/// Locks a file for this process: whether it could be, that is, whether no other has locked it.
pub fn lock(file: &File) -> io::Result<bool> {
    match flock(file.as_raw_fd(), FlockArg::LockExclusiveNonblock) {
        Ok(()) => Ok(true),
        Err(Errno::EWOULDBLOCK) => Ok(false),
        Err(error) => Err(error.into()),
    }
}

/// Asks the file system for the room of so many bytes. One that cannot be asked is no failure.
pub fn reserve(file: &File, bytes: u64) -> io::Result<()> {
    let bytes = i64::try_from(bytes).map_err(|_| io::Error::from(Errno::EFBIG))?;
    loop {
        match fallocate(file.as_raw_fd(), FallocateFlags::empty(), 0, bytes) {
            Err(Errno::EINTR) => (),
            Err(error @ (Errno::ENOSPC | Errno::EFBIG | Errno::EDQUOT | Errno::EIO)) => return Err(error.into()),
            _ => return Ok(()),
        }
    }
}

/// Gives a file to an owner and a group.
pub fn give(file: &File, owner: u32, group: u32) -> io::Result<()> {
    Ok(fchown(file.as_raw_fd(), Some(Uid::from_raw(owner)), Some(Gid::from_raw(group)))?)
}

/// Gives a file a new name, which must not be there.
pub fn rename_to_new(from: &Path, to: &Path) -> io::Result<()> {
    match renameat2(None, from, None, to, RenameFlags::RENAME_NOREPLACE) {
        // A file system without such a renaming: a second name, which is refused where there is one, and then the first is taken away.
        Err(Errno::EINVAL | Errno::ENOSYS | Errno::EOPNOTSUPP) => fs::hard_link(from, to).and_then(|()| fs::remove_file(from)),
        renamed => Ok(renamed?),
    }
}

/// Whether a file is open for reading and writing.
pub fn open_for_both(file: &File) -> io::Result<bool> {
    let flags = OFlag::from_bits_truncate(fcntl(file.as_raw_fd(), FcntlArg::F_GETFL)?);
    Ok(flags & OFlag::O_ACCMODE == OFlag::O_RDWR)
}

/// Waits until one of two can be read, or so many milliseconds (-1: without end) have gone: whether one can be.
pub fn either(one: &impl AsRawFd, other: &impl AsRawFd, milliseconds: i32) -> bool {
    let mut both = [one.as_raw_fd(), other.as_raw_fd()].map(|file| PollFd::new(file, PollFlags::POLLIN));
    loop {
        match poll(&mut both, milliseconds) {
            Err(Errno::EINTR) => (),
            ready => return ready != Ok(0),
        }
    }
}
