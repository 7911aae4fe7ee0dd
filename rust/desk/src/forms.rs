//! Settled forms, made in memory.

use coronagamba::{Counts, Refusal, Sharding, Unlisted};

use crate::args::Args;
use crate::buffers::front;
use crate::edition::{Opened, Source};
use crate::fault::Fault;
use crate::judge::{self, chunk_count};
use crate::memory::Room;
use crate::options::DROP_UNLISTED;

/// What settled forms are made with.
#[derive(Clone, Copy, Debug)]
pub struct Forms {
    /// The sharding of all shards.
    pub sharding: Sharding,
    /// What becomes of bytes that nothing lists.
    pub unlisted: Unlisted,
}

/// A settled form.
#[derive(Clone, Copy, Debug, PartialEq, Eq)]
pub struct Form {
    /// Its length.
    pub bytes: usize,
    /// How many chunks it lists.
    pub chunks: u64,
}

impl Forms {
    /// Forms under this sharding; unlisted bytes are refused unless they are to be
    /// dropped.
    pub fn of(sharding: Sharding, args: &Args) -> Self {
        let unlisted = match args.flag(DROP_UNLISTED) {
            true => Unlisted::Drop,
            false => Unlisted::Refuse,
        };
        Forms { sharding, unlisted }
    }

    /// Reads a shard and makes its settled form, which `room.form` begins with then.
    pub fn make(&self, room: &mut Room, source: &Source, number: u64) -> Result<Form, Fault> {
        let made = self.read(room, source, number)?;
        let form = front(&mut room.form, made.bytes)
            .map_err(|error| Fault::system(&source.path, "settled", error))?;
        let bytes = room.file.bytes();
        // What is unlisted was told with the length, or is to be dropped.
        judge::ask(&self.sharding, number, source, bytes, |shard| {
            shard.settle(Unlisted::Drop, form)
        })?;
        Ok(made)
    }

    /// Reads the shard and gives the length of its settled form, for which
    /// there is memory then. That length is known only when the file is read:
    /// where the memory for it is held by others, the file is given back, waits
    /// for both, and is read again.
    fn read(&self, room: &mut Room, source: &Source, number: u64) -> Result<Form, Fault> {
        let guess = source.length_to_read();
        let mut lengths = [guess, guess, 0];
        loop {
            room.wait_for(lengths);
            room.file.read(source)?;
            let bytes = room.file.bytes();
            let form = judge::ask(&self.sharding, number, source, bytes, |shard| {
                self.form(shard)
            })?;
            lengths = [guess, lengths[1].max(form.bytes as u64), 0];
            if room.may_have(lengths) {
                return Ok(form);
            }
        }
    }

    /// Asks for the form's length. Where unlisted bytes are to be dropped, they need
    /// not be counted, which takes long where chunks lie in no order. Else one call
    /// tells all, but a refusal, which is told as settling tells it.
    fn form(&self, shard: &Opened) -> Result<Form, Refusal> {
        let measured = match self.unlisted {
            Unlisted::Refuse => shard.measure().ok(),
            Unlisted::Drop => None,
        };
        let (length, chunks) = match measured {
            Some(counts) if counts.unlisted == 0 && counts.settled < Counts::TOO_LONG => {
                (counts.settled, counts.chunks)
            }
            _ => {
                let length = shard.settled_length(self.unlisted)?;
                (length, chunk_count(&self.sharding, shard)?)
            }
        };
        Ok(Form {
            bytes: length as usize,
            chunks,
        })
    }
}
