//! Runs over an input in parts at record borders, each part on a thread.
//!
//! This is sound since a joined strip converts to its parts' outputs joined, and the first refusal of the parts, its index moved, is that
//! of the whole (`answers-join` and `outputs-join` in crates/strip/proofs/Join.antt). Parts are handed out in order; after a failure no
//! more are, and those before it are all finished, so that the first failure is the same for any number of threads.
use crate::failure::{Cause, Failure};
use crate::input::Input;
use crate::kinds::Kind;
use crate::progress::Progress;
use crate::signals::Signals;
use std::collections::BTreeSet;
use std::sync::atomic::{AtomicBool, Ordering};
use std::sync::Mutex;
use std::thread::{scope, Builder};

/// The stack of a thread. The library takes some 41 KiB of it for a call (include/ropeinstant.h).
const STACK: usize = 512 << 10;

pub struct Plan<'a> {
    pub threads: usize,
    /// Records in a part.
    pub chunk: usize,
    /// What the input holds.
    pub kind: &'a Kind,
    /// Whether bytes short of a record at the end are left out, in place of refused.
    pub any_length: bool,
    pub signals: &'a Signals,
    pub progress: &'a Progress,
}

/// Room for bytes, where there is memory for it.
pub fn room(bytes: usize) -> Result<Vec<u8>, Cause> {
    let mut room = Vec::new();
    room.try_reserve_exact(bytes).map_err(|_| Cause::Files(format!("there is no memory for {} bytes", bytes)))?;
    room.resize(bytes, 0);
    Ok(room)
}

/// Gives each part of the input, whole records, with the index of its first, to a worker: the count of records, or the first failure.
/// `worker` makes what a thread works with. This thread works too, so that at least one does; of the others those that could be had.
pub fn run<W>(plan: &Plan, input: &mut Input, worker: impl Fn() -> Result<W, Cause> + Sync) -> Result<u64, Failure>
where
    W: FnMut(&[u8], u64) -> Result<(), Failure>,
{
    if let (Some(length), false) = (input.length, plan.any_length) {
        input.whole_records(plan.kind, length)?;
    }
    let name = input.name.clone();
    let (mut work, mut buffer) = tools(plan, &worker).map_err(|cause| cause.of(&name))?;
    let others = plan.threads.min(parts_of(plan, input)) - 1;
    let end_known = AtomicBool::new(input.length.is_some());
    let shared = Shared { source: Mutex::new(Source { input, given: 0 }), state: Mutex::default(), end_known };
    scope(|scope| {
        for _ in 0..others {
            let spawned = Builder::new().stack_size(STACK).spawn_scoped(scope, || {
                if let Ok((mut work, mut buffer)) = tools(plan, &worker) {
                    shared.parts(plan, &mut work, &mut buffer);
                }
            });
            if spawned.is_err() {
                break;
            }
        }
        shared.parts(plan, &mut work, &mut buffer);
    });
    shared.answer(plan)
}

/// What a thread works with, and its buffer.
fn tools<W>(plan: &Plan, worker: &impl Fn() -> Result<W, Cause>) -> Result<(W, Vec<u8>), Cause> {
    Ok((worker()?, room(plan.chunk * plan.kind.size())?))
}

/// The number of parts, where it is known; more threads would have nothing to do.
fn parts_of(plan: &Plan, input: &Input) -> usize {
    let part = (plan.chunk * plan.kind.size()) as u64;
    input.length.map_or(usize::MAX, |length| (length / part + 1).try_into().unwrap_or(usize::MAX))
}

/// What the threads share. Reading may wait for long, so that what the others have to say has a lock of its own.
struct Shared<'a> {
    source: Mutex<Source<'a>>,
    state: Mutex<State>,
    /// Whether it is known where the input ends.
    end_known: AtomicBool,
}

struct Source<'a> {
    input: &'a mut Input,
    /// The records handed out.
    given: u64,
}

#[derive(Default)]
struct State {
    /// The parts, by their first record, that threads are at.
    working: BTreeSet<u64>,
    /// The first failure so far.
    failed: Option<(u64, Failure)>,
    /// Whether it has been said already.
    said: bool,
}

impl Shared<'_> {
    /// One thread: parts until there are no more.
    fn parts<W>(&self, plan: &Plan, work: &mut W, buffer: &mut [u8])
    where
        W: FnMut(&[u8], u64) -> Result<(), Failure>,
    {
        while let Some((first, length)) = self.next(plan, buffer) {
            let answer = work(&buffer[..length], first);
            self.finished(plan, first, answer);
            plan.progress.add(length as u64);
        }
    }

    /// Reads the next part: the index of its first record, and its bytes' count.
    fn next(&self, plan: &Plan, buffer: &mut [u8]) -> Option<(u64, usize)> {
        let mut source = self.source.lock().unwrap();
        if self.state.lock().unwrap().failed.is_some() {
            return None;
        }
        let first = source.given;
        let filled = source.input.fill(buffer, plan.kind.size(), plan.signals);
        self.end_known.fetch_or(source.input.ended, Ordering::Relaxed);
        let mut state = self.state.lock().unwrap();
        match filled {
            Ok(0) => None,
            // Another part has failed meanwhile.
            Ok(_) if state.failed.is_some() => None,
            Ok(length) => {
                source.given += (length / plan.kind.size()) as u64;
                state.working.insert(first);
                Some((first, length))
            }
            Err(failure) => {
                state.fail(first, failure);
                None
            }
        }
    }

    fn finished(&self, plan: &Plan, first: u64, answer: Result<(), Failure>) {
        let mut state = self.state.lock().unwrap();
        state.working.remove(&first);
        if let Err(failure) = answer {
            state.fail(first, failure);
        }
        if !self.end_known.load(Ordering::Relaxed) {
            state.say_at_once(plan);
        }
    }

    /// The answer for the whole input. A length that is no whole number of records is refused before any record is.
    fn answer(self, plan: &Plan) -> Result<u64, Failure> {
        let Source { input, given } = self.source.into_inner().unwrap();
        match self.state.into_inner().unwrap().failed {
            None => {
                input.unchanged()?;
                if !plan.any_length {
                    input.whole_records(plan.kind, input.read)?;
                }
                Ok(given)
            }
            Some((_, failure)) => {
                if let (Cause::Refused(_), None) = (&failure.cause, input.length) {
                    input.skip(plan.signals)?;
                    input.whole_records(plan.kind, input.read)?;
                }
                Err(failure)
            }
        }
    }
}

impl State {
    fn fail(&mut self, first: u64, failure: Failure) {
        let earlier = self.failed.as_ref().map_or(false, |(before, _)| *before <= first);
        if !earlier {
            self.failed = Some((first, failure));
        }
    }

    /// Says a refusal of a pipe's record once it is known to be the first: the verdict comes with the input's end, which may never come.
    fn say_at_once(&mut self, plan: &Plan) {
        if let Some((first, Failure { file, cause: Cause::Refused(refused) })) = &self.failed {
            if !self.said && self.working.range(..first).next().is_none() {
                self.said = true;
                let why = "reading on, since a partial record at the end would be refused before it";
                plan.progress.say(&format!("{}: refused so far by {}: {}; {}", file, refused.number, refused.words, why));
            }
        }
    }
}
