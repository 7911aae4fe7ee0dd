//! The chunk files of one shard, delivered to an intake in parts.

use std::collections::BTreeMap;
use std::fs::{self, File};
use std::io::{self, Read};
use std::path::{Path, PathBuf};
use std::time::SystemTime;

use coronagamba::intake::{Announced, CHUNK_BYTES, MINISHARD_BYTES, WAITING_BYTES};
use coronagamba::{Intake, Refusal, Sharding, Volume};

use crate::buffers::front;
use crate::edition::both_changes;
use crate::fault::Fault;
use crate::folder::no_file;
use crate::memory::{Lengths, Room};
use crate::text::shown;

/// Bytes of a chunk file that are read at a time.
const PIECE: u64 = 1 << 16;

/// The most bytes that a shard may have (scope, refusal 6).
const MOST_SHARD_BYTES: u64 = 1 << 30;

/// A chunk that is delivered, and where it belongs.
#[derive(Clone, Copy, Debug, PartialEq, Eq, PartialOrd, Ord)]
pub struct Chunk {
    /// The shard of its id.
    pub shard: u64,
    /// The minishard of its id.
    pub minishard: u64,
    /// Its id.
    pub id: u64,
}

impl Chunk {
    /// The chunk of an id, at its place.
    pub fn of(sharding: &Sharding, id: u64) -> Result<Chunk, Refusal> {
        let place = sharding.place(id)?;
        Ok(Chunk {
            shard: place.shard,
            minishard: place.minishard,
            id,
        })
    }
}

/// A line of a list.
#[derive(Debug)]
pub struct Line {
    /// The chunk file.
    pub path: PathBuf,
    /// Its number, from 1.
    pub number: u64,
}

/// Where the chunk files are.
pub enum Sources<'a> {
    /// In a folder, under the names of their cells.
    Named(&'a Path, Volume),
    /// Where a list says, by their ids.
    Listed(&'a BTreeMap<u64, Line>),
}

impl Sources<'_> {
    /// The file of an id.
    pub fn path(&self, id: u64) -> PathBuf {
        match self {
            Sources::Named(folder, volume) => {
                let name = volume.cell(id).and_then(|cell| volume.chunk_name(cell));
                folder.join(name.expect("a key that was made of a chunk's name"))
            }
            Sources::Listed(lines) => lines[&id].path.clone(),
        }
    }

    /// What gave an id: `line 3 of the list`.
    pub fn origin(&self, id: u64) -> String {
        match self {
            Sources::Named(..) => format!("the file {}", shown(&self.path(id))),
            Sources::Listed(lines) => format!("line {} of the list", lines[&id].number),
        }
    }
}

/// A shard to be packed: its number, its file and its chunks by rising minishard,
/// then rising id.
pub struct Job<'a> {
    /// The shard's number.
    pub number: u64,
    /// The file.
    pub out: PathBuf,
    /// The chunks.
    pub chunks: &'a [Chunk],
}

impl Job<'_> {
    /// Its file and its weight, by which it is dealt to a part, and a number for its ids.
    /// The chunk files are not looked at for it: their number is known, and each of them
    /// is opened.
    pub fn weight(&self) -> (&Path, u64, u64) {
        let ids = self.chunks.iter().map(|chunk| chunk.id);
        let weight = (self.chunks.len() as u64) << 16;
        (&self.out, weight, ids.fold(0, both_changes))
    }

    /// The settled form of all chunks, in the room's memory. `refused` explains a
    /// refusal of a chunk, or of the shard, where the form would have so many bytes.
    pub fn form<'r>(
        &self,
        sharding: &Sharding,
        sources: &Sources,
        room: &'r mut Room,
        refused: impl Fn(Option<&Chunk>, u64, Refusal) -> Fault,
    ) -> Result<&'r [u8], Fault> {
        let sizes = self.sizes(sources)?;
        let needed = self.needed(sharding, &sizes);
        let lengths = [PIECE, needed.output(), needed.waiting];
        room.wait_for(lengths);
        let [piece, form, waiting] =
            buffers(room, lengths).map_err(|error| Fault::system(&self.out, "packed", error))?;
        let refused = |at, refusal| refused(at, needed.form, refusal);
        let opened = Intake::open(*sharding, self.number, form, waiting);
        let mut intake = opened.map_err(|refusal| refused(None, refusal))?;
        for (chunk, size) in self.chunks.iter().zip(sizes) {
            let announced = intake.announce(chunk.id, size);
            let announced = announced.map_err(|refusal| refused(Some(chunk), refusal))?;
            deliver(announced, &sources.path(chunk.id), piece)?;
        }
        let closed = intake.close();
        closed.map_err(|not_closed| refused(None, not_closed.refusal))
    }

    /// The sizes of the chunk files.
    fn sizes(&self, sources: &Sources) -> Result<Vec<u64>, Fault> {
        let size = |chunk: &Chunk| size(&sources.path(chunk.id));
        self.chunks.iter().map(size).collect()
    }

    /// What the chunks need, which have these sizes.
    fn needed(&self, sharding: &Sharding, sizes: &[u64]) -> Needed {
        let index = (MINISHARD_BYTES as u64) << sharding.minishard_bits;
        let rows = (CHUNK_BYTES * self.chunks.len()) as u64;
        let form = sizes
            .iter()
            .fold(index + rows, |sum, size| sum.saturating_add(*size));
        let minishards = self
            .chunks
            .chunk_by(|one, next| one.minishard == next.minishard);
        let most = minishards.map(<[Chunk]>::len).max().unwrap_or(0);
        Needed {
            index,
            form,
            waiting: (WAITING_BYTES * most) as u64,
        }
    }
}

/// How many bytes a shard's index, its settled form and the second buffer have.
struct Needed {
    index: u64,
    form: u64,
    waiting: u64,
}

impl Needed {
    /// The length of the output. A form that would pass 1 GiB is refused, and no
    /// memory is taken for it: its first chunk passes this output too.
    fn output(&self) -> u64 {
        match self.form <= MOST_SHARD_BYTES {
            true => self.form,
            false => self.index,
        }
    }
}

/// The room's buffers, of these lengths.
fn buffers<'r>(
    room: &'r mut Room,
    [piece, form, waiting]: Lengths,
) -> io::Result<[&'r mut [u8]; 3]> {
    Ok([
        front(room.file.memory(), piece as usize)?,
        front(&mut room.form, form as usize)?,
        front(&mut room.other, waiting as usize)?,
    ])
}

/// The number of bytes of a chunk file. A pipe does not tell it.
fn size(path: &Path) -> Result<u64, Fault> {
    match fs::metadata(path) {
        Ok(about) if about.is_file() => Ok(about.len()),
        Ok(_) => Err(no_file(path)),
        Err(error) => Err(Fault::system(path, "read", error)),
    }
}

/// Hands over the bytes of a chunk file, piece by piece.
fn deliver(mut chunk: Announced, path: &Path, piece: &mut [u8]) -> Result<(), Fault> {
    let unread = |error| Fault::system(path, "read", error);
    let mut file = File::open(path).map_err(unread)?;
    let before = stamp(&file).map_err(unread)?;
    let announced = chunk.owed();
    while chunk.owed() > 0 {
        let most = piece
            .len()
            .min(usize::try_from(chunk.owed()).unwrap_or(usize::MAX));
        let count = read(&mut file, &mut piece[..most]).map_err(unread)?;
        if count == 0 {
            return Err(changed(path));
        }
        let taken = chunk.part(&piece[..count]);
        taken.expect("a part that is owed is taken");
    }
    let more = read(&mut file, &mut piece[..1]).map_err(unread)?;
    let after = stamp(&file).map_err(unread)?;
    match more == 0 && before == after && before.0 == announced {
        true => Ok(()),
        false => Err(changed(path)),
    }
}

/// What tells whether a file was written to: its length and when that was last.
fn stamp(file: &File) -> io::Result<(u64, SystemTime)> {
    let about = file.metadata()?;
    Ok((about.len(), about.modified()?))
}

/// Reads what can be had at once; 0 bytes at the end.
fn read(file: &mut File, piece: &mut [u8]) -> io::Result<usize> {
    loop {
        match file.read(piece) {
            Err(error) if error.kind() == io::ErrorKind::Interrupted => continue,
            count => return count,
        }
    }
}

fn changed(path: &Path) -> Fault {
    let error = io::Error::other("it changed while it was read");
    Fault::system(path, "packed", error)
}

#[cfg(test)]
mod tests {
    use super::*;
    use crate::memory::Gate;
    use crate::trial::{Crowd, Folder, TWO_MINISHARDS};

    /// Delivers a file whose announced size was another one.
    fn delivered(folder: &Folder, size: u64, piece: usize) -> Result<Vec<u8>, Fault> {
        let (mut out, mut waiting) = ([0; 200], [0; 16]);
        let opened = Intake::open(TWO_MINISHARDS, 0, &mut out, &mut waiting);
        let mut intake = opened.expect("room for the index");
        let announced = intake.announce(0, size).expect("room for the chunk");
        deliver(announced, &folder.at("a"), &mut vec![0; piece])?;
        Ok(intake.close().expect("nothing is owed")[32..][..size as usize].to_vec())
    }

    #[test]
    fn pieces_of_any_length() {
        let folder = Folder::new("delivery-pieces");
        for bytes in [&b""[..], b"a", b"abcdefgh"] {
            folder.write("a", bytes);
            for piece in [1, 2, 3, 8, 9, 100] {
                let found = delivered(&folder, bytes.len() as u64, piece);
                assert_eq!(found.expect("delivered"), bytes);
            }
        }
    }

    #[test]
    fn a_file_that_is_not_as_long_as_it_was_has_changed() {
        let folder = Folder::new("delivery-changed");
        folder.write("a", b"abcdefgh");
        for size in [0, 1, 7, 9, 100] {
            let fault = delivered(&folder, size, 4).expect_err("changed");
            assert_eq!(fault.status() as u8, 3);
            let told = "a: cannot be packed: it changed while it was read";
            assert!(fault.to_string().ends_with(told), "{fault}");
        }
    }

    #[test]
    fn what_chunks_need() {
        let chunk = |minishard, id| Chunk {
            shard: 0,
            minishard,
            id,
        };
        let chunks = [chunk(0, 2), chunk(1, 1), chunk(1, 3), chunk(1, 5)];
        let job = Job {
            number: 0,
            out: PathBuf::new(),
            chunks: &chunks,
        };
        let needed = job.needed(&TWO_MINISHARDS, &[5, 0, 1, 2]);
        assert_eq!((needed.form, needed.waiting), (32 + 4 * 24 + 8, 3 * 16));
        assert_eq!(needed.output(), needed.form);
        // The longest form, one that is a byte longer, and one past all numbers.
        let rest = 32 + 4 * 24;
        for (sizes, form, output) in [
            ([(1 << 30) - rest, 0, 0, 0], 1 << 30, 1 << 30),
            ([(1 << 30) - rest, 0, 0, 1], (1 << 30) + 1, 32),
            ([u64::MAX, 0, 0, u64::MAX], u64::MAX, 32),
        ] {
            let needed = job.needed(&TWO_MINISHARDS, &sizes);
            assert_eq!((needed.form, needed.output()), (form, output));
        }
    }

    #[test]
    fn shards_wait_for_memory() {
        let folder = Folder::new("delivery-waits");
        folder.write("0-1_0-1_0-1", &[b'a'; 1000]);
        let volume = Volume::new([1; 3], [1; 3], [0; 3]);
        let chunks = [Chunk::of(&TWO_MINISHARDS, 0).expect("a place")];
        let gate = Gate::new(PIECE + 2 * 1056);
        let work = |room: &mut Room, ()| {
            let job = Job {
                number: 0,
                out: PathBuf::new(),
                chunks: &chunks,
            };
            let sources = Sources::Named(folder.path(), volume);
            let refused = |_: Option<&Chunk>, _, refusal| panic!("{refusal}");
            let form = job.form(&TWO_MINISHARDS, &sources, room, refused);
            form.expect("packed").len()
        };
        let told = Crowd::default().run(vec![(); 100], &gate, work);
        assert_eq!(told, [1056; 100]);
    }
}
