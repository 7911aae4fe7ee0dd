//! How much memory the shards under way may take together.
//!
//! Each worker keeps its buffers from shard to shard, since new memory costs more than
//! reading a file into it, and holds their bytes at the gate. Before a shard, and in its
//! midst where it takes more than was thought, the worker asks for bytes. It goes on where
//! it holds so many already, or where nobody waits, and all that is held stays within half
//! of the free memory or nobody else holds anything. Otherwise it gives back all that it
//! holds and waits its turn, first come, first served. Where the system refuses memory all
//! the same, it waits in the same queue for all memory there is, and does the shard once
//! more, alone; while it waits, no other goes on in what it holds.

use std::sync::{Condvar, Mutex, MutexGuard, PoisonError};

use crate::buffers::available;
use crate::edition::Loaded;

/// All memory: who holds so much is alone.
const ALL: u64 = u64::MAX;

/// The gate, for so many bytes.
pub struct Gate {
    limit: u64,
    state: Mutex<State>,
    changed: Condvar,
}

/// What is held, and who waits: the tickets from `serving` on, and so many of them for
/// all memory.
#[derive(Default)]
struct State {
    held: u64,
    next_ticket: u64,
    serving: u64,
    hermits: u64,
}

impl Gate {
    /// A gate for so many bytes.
    pub fn new(limit: u64) -> Self {
        Gate {
            limit,
            state: Mutex::default(),
            changed: Condvar::new(),
        }
    }

    /// A gate for half of the memory that the system has to give.
    pub fn for_this_machine() -> Self {
        // Where the system does not tell, one shard at a time is let in.
        Gate::new(available().unwrap_or(0) / 2)
    }

    /// A share of nothing yet.
    pub fn share(&self) -> Share<'_> {
        Share {
            gate: self,
            bytes: 0,
        }
    }

    /// No code panics while it holds the lock, so the state is whole.
    fn lock(&self) -> MutexGuard<'_, State> {
        self.state.lock().unwrap_or_else(PoisonError::into_inner)
    }

    fn fits(&self, others: u64, bytes: u64) -> bool {
        others == 0 || others.saturating_add(bytes) <= self.limit
    }
}

/// What one worker holds of the gate's bytes; given back when dropped.
pub struct Share<'a> {
    gate: &'a Gate,
    bytes: u64,
}

impl Share<'_> {
    /// Holds so many bytes from now on, where they fit without waiting.
    pub fn try_hold(&mut self, bytes: u64) -> bool {
        let mut state = self.gate.lock();
        let others = state.held - self.bytes;
        let queue = state.next_ticket != state.serving;
        let granted = match bytes <= self.bytes {
            true => state.hermits == 0,
            false => !queue && self.gate.fits(others, bytes),
        };
        if granted {
            self.set(&mut state, bytes);
        }
        granted
    }

    /// Gives back what is held, then waits until so many bytes fit, and holds
    /// them.
    pub fn wait_for(&mut self, bytes: u64) {
        let mut state = self.gate.lock();
        self.set(&mut state, 0);
        let ticket = state.next_ticket;
        let hermits = u64::from(bytes == ALL);
        state.next_ticket += 1;
        state.hermits += hermits;
        let must_wait =
            |state: &mut State| state.serving != ticket || !self.gate.fits(state.held, bytes);
        let mut state = self
            .gate
            .changed
            .wait_while(state, must_wait)
            .unwrap_or_else(PoisonError::into_inner);
        state.serving += 1;
        state.hermits -= hermits;
        self.set(&mut state, bytes);
    }

    /// Holds no more than so many bytes from now on.
    pub fn shrink(&mut self, bytes: u64) {
        let mut state = self.gate.lock();
        let bytes = bytes.min(self.bytes);
        self.set(&mut state, bytes);
    }

    fn set(&mut self, state: &mut State, bytes: u64) {
        state.held = state.held - self.bytes + bytes;
        self.bytes = bytes;
        self.gate.changed.notify_all();
    }
}

impl Drop for Share<'_> {
    fn drop(&mut self) {
        let mut state = self.gate.lock();
        self.set(&mut state, 0);
    }
}

/// The buffers of one worker. They are used again for the next shard: new
/// memory costs more than reading the file into it.
pub struct Room<'a> {
    /// The shard file, or both files of a pair.
    pub file: Loaded,
    /// Its settled form.
    pub form: Vec<u8>,
    /// The settled form that it is compared with.
    pub other: Vec<u8>,
    /// Dropped behind the buffers: who waits for the memory must find it free.
    share: Share<'a>,
}

/// Lengths of the file, of a pair both files together, of the form and of the
/// other form.
pub type Lengths = [u64; 3];

impl<'a> Room<'a> {
    /// A room without memory.
    pub fn new(gate: &'a Gate) -> Self {
        Room {
            share: gate.share(),
            file: Loaded::default(),
            form: Vec::new(),
            other: Vec::new(),
        }
    }

    /// Waits until buffers of these lengths may be had. What the room has is
    /// given back first where it must wait, since others may wait for that.
    pub fn wait_for(&mut self, lengths: Lengths) {
        if !self.may_have(lengths) {
            self.empty();
            self.share.wait_for(lengths.iter().sum());
        }
    }

    /// Whether the buffers may have these lengths at once.
    pub fn may_have(&mut self, lengths: Lengths) -> bool {
        let bytes = self.with(lengths);
        self.share.bytes == ALL || self.share.try_hold(bytes)
    }

    /// Does what takes memory. Others may hold the memory that the answer
    /// `lacks`: then the room gives back its own, waits until no other has any,
    /// and it is done once more.
    pub fn attempt<T>(
        &mut self,
        mut work: impl FnMut(&mut Self) -> T,
        lacks: impl Fn(&T) -> bool,
    ) -> T {
        let answer = work(self);
        if !lacks(&answer) {
            return answer;
        }
        self.empty();
        self.share.wait_for(ALL);
        let answer = work(self);
        self.share.shrink(self.with([0, 0, 0]));
        answer
    }

    fn empty(&mut self) {
        self.file = Loaded::default();
        self.form = Vec::new();
        self.other = Vec::new();
    }

    /// What the buffers take once they have at least these lengths.
    fn with(&self, [file, form, other]: Lengths) -> u64 {
        let longer = |capacity: usize, length: u64| length.max(capacity as u64);
        longer(self.file.capacity(), file)
            + longer(self.form.capacity(), form)
            + longer(self.other.capacity(), other)
    }
}

#[cfg(test)]
mod tests {
    use super::*;
    use crate::trial::Crowd;
    use std::sync::mpsc;
    use std::thread;
    use std::time::Duration;

    #[test]
    fn one_is_always_let_in() {
        let gate = Gate::new(0);
        let mut share = gate.share();
        assert!(share.try_hold(1 << 40));
        assert!(!gate.share().try_hold(1));
    }

    #[test]
    fn the_sum_stays_within_the_limit() {
        let gate = Gate::new(100);
        let (mut first, mut second) = (gate.share(), gate.share());
        assert!(first.try_hold(60));
        assert!(!second.try_hold(41));
        assert!(second.try_hold(40));
        assert!(!first.try_hold(61), "a share grows only where it fits");
        assert!(first.try_hold(10));
        assert!(second.try_hold(90));
        drop(first);
        assert!(second.try_hold(200));
    }

    #[test]
    fn a_waiting_share_is_served_when_room_is_made_and_not_overtaken() {
        let gate = Gate::new(100);
        let mut first = gate.share();
        assert!(first.try_hold(50));
        let (granted, answer) = mpsc::channel();
        thread::scope(|scope| {
            scope.spawn(|| {
                let mut second = gate.share();
                second.wait_for(80);
                granted.send(()).unwrap();
            });
            while gate.lock().next_ticket == 0 {
                thread::yield_now();
            }
            let mut third = gate.share();
            assert!(!third.try_hold(10), "the one that waits comes first");
            assert!(first.try_hold(50) && !first.try_hold(51));
            assert!(answer.recv_timeout(Duration::from_millis(20)).is_err());
            drop(first);
            answer.recv().unwrap();
            third.wait_for(10);
        });
        assert_eq!(gate.lock().held, 0);
    }

    #[test]
    fn a_room_counts_the_memory_that_it_keeps() {
        let gate = Gate::new(100);
        let mut room = Room::new(&gate);
        room.wait_for([10, 20, 0]);
        assert_eq!(gate.lock().held, 30);
        room.file = Loaded::with_capacity(60);
        assert!(room.may_have([5, 20, 0]));
        assert_eq!(gate.lock().held, 80);
        let mut neighbour = gate.share();
        assert!(neighbour.try_hold(20));
        assert!(!room.may_have([5, 41, 0]));
        room.wait_for([5, 41, 0]);
        assert_eq!((room.file.capacity(), gate.lock().held), (0, 66));
        drop(room);
        assert_eq!(gate.lock().held, 20);
    }

    #[test]
    fn who_waited_for_memory_gets_it_while_others_wait() {
        // One and a half jobs fit, and each takes more than was thought.
        let gate = Gate::new(15);
        let work = |room: &mut Room, _| {
            let mut lengths = [4, 0, 0];
            for tries in 1.. {
                room.wait_for(lengths);
                room.file = Loaded::with_capacity(4);
                thread::yield_now();
                lengths = [4, 6, 0];
                if room.may_have(lengths) {
                    return tries;
                }
            }
            0
        };
        let told = Crowd::default().run((0..400).collect(), &gate, work);
        assert!(told.iter().all(|tries| [1, 2].contains(tries)), "{told:?}");
        assert_eq!(gate.lock().held, 0);
    }

    #[test]
    fn who_gets_no_memory_tries_again_alone() {
        // By the gate's limit all fit, but the memory has room for one.
        let gate = Gate::new(1 << 40);
        let taken = Mutex::new(0);
        let work = |room: &mut Room, _| {
            let take = |room: &mut Room| {
                room.wait_for([10, 0, 0]);
                // What a room keeps is taken until it is given back.
                if room.file.capacity() == 0 {
                    let mut taken = taken.lock().unwrap();
                    if *taken > 0 && room.share.bytes != ALL {
                        return false;
                    }
                    *taken += 1;
                    room.file = Loaded::with_capacity(10);
                }
                thread::yield_now();
                room.file = Loaded::default();
                *taken.lock().unwrap() -= 1;
                true
            };
            room.attempt(take, |done| !done)
        };
        let told = Crowd::default().run((0..200).collect(), &gate, work);
        assert_eq!(told, vec![true; 200]);
        let state = gate.lock();
        assert_eq!((state.held, state.hermits), (0, 0));
    }

    #[test]
    fn alone_means_that_no_other_holds_memory() {
        let gate = Gate::new(1 << 40);
        let work = |room: &mut Room, job: u64| {
            room.wait_for([job % 3, 0, 0]);
            let alone = |room: &mut Room| {
                room.wait_for([10, 0, 0]);
                room.share.bytes == ALL && gate.lock().held == ALL
            };
            !job.is_multiple_of(4) || room.attempt(alone, |alone| !alone)
        };
        let told = Crowd::default().run((0..400).collect(), &gate, work);
        assert_eq!(told, vec![true; 400]);
        let state = gate.lock();
        assert_eq!((state.held, state.hermits), (0, 0));
    }
}
