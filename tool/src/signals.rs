//! Signals. One that asks for the end is noted, and wakes a reader that waits, so that the command ends in order: it takes its new file
//! away, says so and then ends by the signal. No thread is needed for it.
use crate::failure::Cause;
use signal_hook::consts::{SIGABRT, SIGHUP, SIGINT, SIGTERM, SIGXFSZ};
use signal_hook::flag;
use signal_hook::low_level::{emulate_default_handler, pipe};
use std::fs;
use std::io;
use std::os::unix::net::UnixStream;
use std::sync::atomic::{AtomicBool, AtomicUsize, Ordering};
use std::sync::Arc;

pub struct Signals {
    /// The signal that asked for the end; 0 while none did.
    seen: Arc<AtomicUsize>,
    /// Can be read once a signal has come.
    wake: UnixStream,
}

impl Signals {
    pub fn new() -> io::Result<Signals> {
        let seen = Arc::new(AtomicUsize::new(0));
        let (wake, woken) = UnixStream::pair()?;
        let ignored = ignored();
        for signal in [SIGINT, SIGTERM, SIGHUP] {
            // What was ignored from the start, as under nohup, stays so.
            if ignored & (1 << (signal - 1)) == 0 {
                flag::register_usize(signal, seen.clone(), signal as usize)?;
                pipe::register(signal, woken.try_clone()?)?;
            }
        }
        // Writing beyond a limit on the size of files then fails in words, in place of a kill.
        flag::register(SIGXFSZ, Arc::default())?;
        // A small allocation that fails ends the process by abort, after the system's words for it: reading or writing failed.
        flag::register_conditional_shutdown(SIGABRT, 3, Arc::new(AtomicBool::new(true)))?;
        Ok(Signals { seen, wake })
    }

    /// Fails once a signal has come.
    pub fn check(&self) -> Result<(), Cause> {
        match self.seen.load(Ordering::Relaxed) {
            0 => Ok(()),
            signal => Err(Cause::Interrupted(signal as i32)),
        }
    }

    /// What a reader waits for beside its input.
    pub fn wake(&self) -> &UnixStream {
        &self.wake
    }
}

/// Ends the process by a signal, as if it had not been waited for.
pub fn end_by(signal: i32) {
    let _ = emulate_default_handler(signal);
}

/// The signals that were ignored when the process began, a bit each.
fn ignored() -> u64 {
    let status = fs::read_to_string("/proc/self/status").unwrap_or_default();
    let mask = status.lines().find_map(|line| line.strip_prefix("SigIgn:"));
    mask.and_then(|mask| u64::from_str_radix(mask.trim(), 16).ok()).unwrap_or(0)
}
