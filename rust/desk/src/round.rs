//! One round over many shards: on all cores, within the memory, results in
//! order, a line that tells the progress.

use std::path::PathBuf;

use crate::args::Args;
use crate::fault::Fault;
use crate::memory::{Gate, Room};
use crate::options::{Opt, JOBS, SHARD};
use crate::pool::{self, Audience};
use crate::progress::Progress;
use crate::report::Report;

/// The options of a round.
pub const OPTIONS: &[Opt] = &[SHARD, JOBS];

/// What came of a job. It holds no file's bytes, since it may wait for the
/// jobs before it.
pub struct Outcome<V> {
    /// The shard.
    pub path: PathBuf,
    /// What the command makes of it.
    pub answer: V,
    /// Whether the library refused it.
    pub refused: bool,
    /// How many bytes were read for it.
    pub read: u64,
}

impl<T> Outcome<Result<T, Fault>> {
    /// The answer about a shard for which so many bytes were read.
    pub fn of(path: PathBuf, answer: Result<T, Fault>, read: usize) -> Self {
        Outcome {
            path,
            refused: answer.as_ref().is_err_and(Fault::is_refused),
            answer,
            read: read as u64,
        }
    }
}

/// How many shards are worked on side by side: what `--jobs` says, else so many
/// for each core.
pub fn workers(args: &Args, for_each_core: usize) -> Result<usize, Fault> {
    match args.number(JOBS)? {
        Some(0) => Err(Fault::wrong_use(format!(
            "{JOBS}: '0' is not a number from 1 on"
        ))),
        Some(jobs) => Ok(usize::try_from(jobs).unwrap_or(usize::MAX)),
        None => Ok(for_each_core * pool::all_cores()),
    }
}

/// Works on all jobs and tells the outcomes in their order. `done` is what is
/// done with a shard: 'checked'.
pub fn go<J: Send, V: Send>(
    workers: usize,
    done: &'static str,
    jobs: Vec<J>,
    work: impl Fn(&mut Room, J) -> Outcome<V> + Sync,
    tell: impl FnMut(Outcome<V>, &mut Report) -> Result<(), Fault>,
    report: &mut Report,
) -> Result<(), Fault> {
    let gate = Gate::for_this_machine();
    let mut teller = Teller {
        progress: Progress::new(done, jobs.len()),
        report,
        tell,
    };
    pool::in_order(jobs, workers, || Room::new(&gate), work, &mut teller)
}

/// Prints outcomes, with the progress line out of the way.
struct Teller<'a, F> {
    progress: Progress,
    report: &'a mut Report,
    tell: F,
}

impl<V, F> Audience<Outcome<V>> for Teller<'_, F>
where
    F: FnMut(Outcome<V>, &mut Report) -> Result<(), Fault>,
{
    fn arrived(&mut self, outcome: &Outcome<V>) {
        self.progress.add(outcome.read, outcome.refused);
    }

    fn tell(&mut self, outcome: Outcome<V>) -> Result<(), Fault> {
        self.progress.clear();
        (self.tell)(outcome, self.report)
    }

    fn caught_up(&mut self) -> Result<(), Fault> {
        self.report.flush()?;
        self.progress.draw();
        Ok(())
    }
}
