//! Many jobs on all cores, their results in the order of the jobs.

use std::collections::BTreeMap;
use std::io;
use std::iter::Enumerate;
use std::num::NonZero;
use std::panic::resume_unwind;
use std::path::Path;
use std::sync::atomic::{AtomicBool, Ordering};
use std::sync::mpsc::{self, Receiver, Sender};
use std::sync::{Mutex, PoisonError};
use std::thread::{self, Builder, Scope, ScopedJoinHandle};
use std::vec::IntoIter;

use crate::fault::Fault;

/// Who gets the results. Both calls are made on the thread that runs the pool.
pub trait Audience<R> {
    /// A result is there, in no order.
    fn arrived(&mut self, result: &R);

    /// The next result in the order of the jobs. A fault ends the run.
    fn tell(&mut self, result: R) -> Result<(), Fault>;

    /// All results that could be told so far are told.
    fn caught_up(&mut self) -> Result<(), Fault>;
}

/// As many workers as the machine has cores.
pub fn all_cores() -> usize {
    thread::available_parallelism().map_or(1, NonZero::get)
}

/// Does the jobs on at most so many threads and tells the results in order.
/// `prepare` makes what a worker keeps from job to job. Results wait for those
/// before them, so they should be small. A worker's panic goes on to the
/// caller.
pub fn in_order<J: Send, W, R: Send>(
    jobs: Vec<J>,
    workers: usize,
    prepare: impl Fn() -> W + Sync,
    work: impl Fn(&mut W, J) -> R + Sync,
    audience: &mut impl Audience<R>,
) -> Result<(), Fault> {
    let workers = workers.min(jobs.len()).max(1);
    let plan = Plan {
        jobs: Mutex::new(jobs.into_iter().enumerate()),
        stopped: AtomicBool::new(false),
        prepare,
        work,
    };
    thread::scope(|scope| {
        let (sender, receiver) = mpsc::channel();
        let handles = plan.start(scope, workers, sender)?;
        let told = tell_all(receiver, audience);
        plan.stopped.store(true, Ordering::Relaxed);
        for handle in handles {
            handle.join().unwrap_or_else(|panic| resume_unwind(panic));
        }
        told
    })
}

/// What the workers share.
struct Plan<J, P, F> {
    jobs: Mutex<Enumerate<IntoIter<J>>>,
    stopped: AtomicBool,
    prepare: P,
    work: F,
}

impl<J: Send, P: Sync, F: Sync> Plan<J, P, F> {
    /// Starts the workers. Fewer than wanted will do, but not none.
    fn start<'scope, 'env, W, R>(
        &'env self,
        scope: &'scope Scope<'scope, 'env>,
        workers: usize,
        sender: Sender<(usize, R)>,
    ) -> Result<Vec<ScopedJoinHandle<'scope, ()>>, Fault>
    where
        R: Send + 'scope,
        P: Fn() -> W,
        F: Fn(&mut W, J) -> R,
    {
        let mut handles = Vec::new();
        for _ in 0..workers {
            let sender = sender.clone();
            match Builder::new().spawn_scoped(scope, move || self.labour(sender)) {
                Ok(handle) => handles.push(handle),
                Err(error) if handles.is_empty() => return Err(no_thread(error)),
                Err(_) => break,
            }
        }
        Ok(handles)
    }

    /// One worker: takes the next job until there is none. When it panics, the
    /// others stop too.
    fn labour<W, R>(&self, sender: Sender<(usize, R)>)
    where
        P: Fn() -> W,
        F: Fn(&mut W, J) -> R,
    {
        let _guard = StopOnPanic(&self.stopped);
        let mut kept = (self.prepare)();
        while let Some((number, job)) = self.next() {
            let result = (self.work)(&mut kept, job);
            if sender.send((number, result)).is_err() {
                break;
            }
        }
    }

    /// The next job and its number, unless the run was stopped.
    fn next(&self) -> Option<(usize, J)> {
        if self.stopped.load(Ordering::Relaxed) {
            return None;
        }
        self.jobs
            .lock()
            .unwrap_or_else(PoisonError::into_inner)
            .next()
    }
}

struct StopOnPanic<'a>(&'a AtomicBool);

impl Drop for StopOnPanic<'_> {
    fn drop(&mut self) {
        if thread::panicking() {
            self.0.store(true, Ordering::Relaxed);
        }
    }
}

/// Tells results in order until all workers are gone.
fn tell_all<R>(
    receiver: Receiver<(usize, R)>,
    audience: &mut impl Audience<R>,
) -> Result<(), Fault> {
    let mut waiting = BTreeMap::new();
    let mut next = 0;
    for (number, result) in receiver {
        audience.arrived(&result);
        waiting.insert(number, result);
        while let Some(result) = waiting.remove(&next) {
            audience.tell(result)?;
            next += 1;
        }
        audience.caught_up()?;
    }
    Ok(())
}

fn no_thread(error: io::Error) -> Fault {
    Fault::system(Path::new("a thread"), "started", error)
}

#[cfg(test)]
mod tests {
    use super::*;
    use std::panic::{catch_unwind, AssertUnwindSafe};
    use std::sync::{Barrier, Mutex};

    /// Collects results; complains at one of them where asked.
    #[derive(Default)]
    struct Ear {
        arrived: usize,
        told: Vec<usize>,
        complains_at: Option<usize>,
    }

    impl Audience<usize> for Ear {
        fn arrived(&mut self, _: &usize) {
            self.arrived += 1;
        }

        fn tell(&mut self, result: usize) -> Result<(), Fault> {
            self.told.push(result);
            match self.complains_at {
                Some(number) if number == result => Err(Fault::ClosedPipe),
                _ => Ok(()),
            }
        }

        fn caught_up(&mut self) -> Result<(), Fault> {
            Ok(())
        }
    }

    fn numbers(count: usize) -> Vec<usize> {
        (0..count).collect()
    }

    #[test]
    fn results_come_in_the_order_of_the_jobs() {
        for workers in [0, 1, 2, 7, 100] {
            for count in [0, 1, 2, 50] {
                let mut ear = Ear::default();
                let work = |(): &mut (), job| job * 3;
                in_order(numbers(count), workers, || (), work, &mut ear).unwrap();
                let expected: Vec<usize> = (0..count).map(|job| job * 3).collect();
                assert_eq!((ear.told, ear.arrived), (expected, count));
            }
        }
    }

    #[test]
    fn a_slow_first_job_is_told_first() {
        // The first job ends only after the last one has begun.
        let barrier = Barrier::new(2);
        let mut ear = Ear::default();
        let work = |(): &mut (), job| {
            if job == 0 || job == 9 {
                barrier.wait();
            }
            job
        };
        in_order(numbers(10), 2, || (), work, &mut ear).unwrap();
        assert_eq!(ear.told, numbers(10));
    }

    #[test]
    fn a_worker_keeps_what_it_prepared() {
        let kept = Mutex::new(0);
        let mut ear = Ear::default();
        let prepare = || *kept.lock().unwrap() += 1;
        let work = |(): &mut (), job| job;
        in_order(numbers(40), 3, prepare, work, &mut ear).unwrap();
        assert_eq!(*kept.lock().unwrap(), 3);
    }

    #[test]
    fn a_fault_of_the_audience_ends_the_run() {
        let mut ear = Ear {
            complains_at: Some(1),
            ..Ear::default()
        };
        let work = |(): &mut (), job| job;
        let ended = in_order(numbers(1000), 2, || (), work, &mut ear);
        assert!(matches!(ended, Err(Fault::ClosedPipe)));
        assert_eq!(ear.told, [0, 1]);
    }

    #[test]
    fn a_panic_goes_on_and_nothing_hangs() {
        for workers in [1, 3] {
            let mut ear = Ear::default();
            let work = |(): &mut (), job| match job {
                5 => panic!("job 5"),
                job => job,
            };
            let run = || in_order(numbers(1000), workers, || (), work, &mut ear);
            let panic = catch_unwind(AssertUnwindSafe(run)).unwrap_err();
            assert_eq!(panic.downcast_ref::<&str>(), Some(&"job 5"));
            assert!(ear.told.len() <= 5, "nothing is told past the lost job");
        }
    }
}
