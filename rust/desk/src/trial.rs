//! Folders, shards and crowds of workers for unit tests.

use std::env;
use std::ffi::OsString;
use std::fs;
use std::path::{Path, PathBuf};
use std::process;

use coronagamba::Sharding;

use crate::fault::Fault;
use crate::memory::{Gate, Room};
use crate::pool::{in_order, Audience};

/// A folder that is removed when the test ends.
pub struct Folder {
    path: PathBuf,
}

impl Folder {
    /// An empty folder. Tests run side by side, so each gives a name.
    pub fn new(name: &str) -> Self {
        Folder::made(&env::temp_dir(), name)
    }

    /// An empty folder in memory, where the system has one there: for tests that write
    /// thousands of files, each of which would wait for the disk, or a file that is all hole.
    pub fn in_memory(name: &str) -> Self {
        let memory = Path::new("/dev/shm");
        match memory.is_dir() {
            true => Folder::made(memory, name),
            false => Folder::new(name),
        }
    }

    fn made(place: &Path, name: &str) -> Self {
        let path = place.join(format!("coronagamba-{}-{name}", process::id()));
        let _ = fs::remove_dir_all(&path);
        fs::create_dir(&path).expect("a folder can be made");
        Folder { path }
    }

    /// The folder's path.
    pub fn path(&self) -> &Path {
        &self.path
    }

    /// The path of something in it.
    pub fn at(&self, name: impl AsRef<Path>) -> PathBuf {
        self.path.join(name)
    }

    /// Writes a file and gives its path.
    pub fn write(&self, name: impl AsRef<Path>, bytes: &[u8]) -> PathBuf {
        let path = self.at(name);
        fs::write(&path, bytes).expect("a file can be written");
        path
    }

    /// The names in it, in order.
    pub fn names(&self) -> Vec<OsString> {
        let entries = fs::read_dir(&self.path).expect("the folder can be listed");
        let mut names: Vec<OsString> = entries
            .map(|entry| entry.expect("the folder can be listed").file_name())
            .collect();
        names.sort();
        names
    }
}

impl Drop for Folder {
    fn drop(&mut self) {
        let _ = fs::remove_dir_all(&self.path);
    }
}

/// Identity, even ids in minishard 0 and odd ids in minishard 1.
pub const TWO_MINISHARDS: Sharding = Sharding {
    preshift: 0,
    hash: 0,
    minishard_bits: 1,
    shard_bits: 0,
    kind: Sharding::VOLUME,
};

/// A sound shard of `TWO_MINISHARDS` in which ids 0 and 1 list the same bytes,
/// so that its settled form is longer than itself.
pub fn twice_listed(length: u64) -> Vec<u8> {
    let ends = [length, length + 24, length + 24, length + 48];
    let rows = [0, 0, length, 1, 0, length];
    let numbers = |numbers: &[u64]| -> Vec<u8> {
        let bytes = numbers.iter().map(|number| number.to_le_bytes());
        bytes.flatten().collect()
    };
    let chunk = vec![b'c'; length as usize];
    [numbers(&ends), chunk, numbers(&rows)].concat()
}

/// Five workers at one gate, and what they say in the order of their jobs.
pub struct Crowd<R>(Vec<R>);

impl<R> Default for Crowd<R> {
    fn default() -> Self {
        Crowd(Vec::new())
    }
}

impl<R: Send> Crowd<R> {
    /// Does the jobs and gives the results.
    pub fn run<J: Send>(
        mut self,
        jobs: Vec<J>,
        gate: &Gate,
        work: impl Fn(&mut Room, J) -> R + Sync,
    ) -> Vec<R> {
        in_order(jobs, 5, || Room::new(gate), work, &mut self).expect("no fault");
        self.0
    }
}

impl<R> Audience<R> for Crowd<R> {
    fn arrived(&mut self, _: &R) {}

    fn tell(&mut self, result: R) -> Result<(), Fault> {
        self.0.push(result);
        Ok(())
    }

    fn caught_up(&mut self) -> Result<(), Fault> {
        Ok(())
    }
}
