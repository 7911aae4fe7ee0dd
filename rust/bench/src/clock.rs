//! The processor time of this thread, and of programs that it ran; the time on the wall
//! and the memory of programs.

use std::process::{Child, Command, Stdio};
use std::time::{Duration, Instant};

/// Linux's number for the thread's processor clock.
const THREAD_CLOCK: i32 = 3;

/// A time as 64-bit Linux gives it.
#[repr(C)]
#[derive(Default)]
struct Time {
    seconds: i64,
    nanoseconds: i64,
}

extern "C" {
    fn clock_gettime(clock: i32, time: *mut Time) -> i32;
}

/// How long this thread has run. On a shared machine the clock on the wall
/// also counts the turns of other programs, which a run that outlasts its own
/// turn catches and a shorter one does not: it can make a side that takes
/// twice as long look ten times slower.
pub fn thread_time() -> Duration {
    let mut time = Time::default();
    // SAFETY: the result goes to a live value of the layout that is asked for.
    let status = unsafe { clock_gettime(THREAD_CLOCK, &mut time) };
    assert_eq!(status, 0, "the thread has a clock");
    Duration::new(time.seconds as u64, time.nanoseconds as u32)
}

/// Linux's number for the programs that this one has waited for.
const CHILDREN: i32 = -1;

/// What a program has used, as 64-bit Linux gives it; times in seconds and
/// microseconds.
#[repr(C)]
#[derive(Default)]
struct Usage {
    user: [i64; 2],
    system: [i64; 2],
    /// The greatest resident memory, in KiB.
    resident: i64,
    other: [i64; 13],
}

extern "C" {
    fn getrusage(who: i32, usage: *mut Usage) -> i32;
    fn wait4(process: i32, status: *mut i32, options: i32, usage: *mut Usage) -> i32;
}

/// How long the programs have run that this one started and waited for.
pub fn children_time() -> Duration {
    let mut usage = Usage::default();
    // SAFETY: the result goes to a live value of the layout that is asked for.
    let status = unsafe { getrusage(CHILDREN, &mut usage) };
    assert_eq!(status, 0, "the children have a clock");
    let time = |[seconds, micros]: [i64; 2]| Duration::new(seconds as u64, 1000 * micros as u32);
    time(usage.user) + time(usage.system)
}

/// What programs took that ran side by side or in turn.
#[derive(Clone, Copy, Debug, Default)]
pub struct Used {
    /// Their time on the wall.
    pub seconds: f64,
    resident: i64,
}

impl Used {
    /// The greatest resident memory of one of them.
    pub fn mib(&self) -> f64 {
        self.resident as f64 / 1024.0
    }

    /// These and then others.
    pub fn then(self, next: Used) -> Used {
        Used {
            seconds: self.seconds + next.seconds,
            resident: self.resident.max(next.resident),
        }
    }
}

/// Runs programs side by side to their ends, which must be good ones.
pub fn used<const N: usize>(programs: [Command; N]) -> Used {
    let start = Instant::now();
    let started = programs.map(|mut program| {
        let child = program.stdout(Stdio::null()).spawn();
        child.expect("the program starts")
    });
    let resident = started.map(resident).into_iter().max();
    Used {
        seconds: start.elapsed().as_secs_f64(),
        resident: resident.unwrap_or_default(),
    }
}

/// Waits for a program and gives its greatest resident memory, in KiB.
fn resident(program: Child) -> i64 {
    let (process, mut status, mut usage) = (program.id() as i32, 0, Usage::default());
    // SAFETY: the results go to live values of the layout that is asked for; the process
    // is a child that nobody else waits for.
    let waited = unsafe { wait4(process, &mut status, 0, &mut usage) };
    assert_eq!((waited, status), (process, 0), "the program ends well");
    usage.resident
}
