//! A shard is read into a room and judged.

use coronagamba::{Refusal, Sharding};

use crate::diagnosis;
use crate::edition::{Bytes, Opened, Source};
use crate::fault::{Explain, Fault};
use crate::folder::Input;
use crate::memory::Room;
use crate::round::Outcome;

/// What `judge` makes of a shard, where its number is known.
pub fn work<T>(
    room: &mut Room,
    input: Input,
    judge: impl Fn(&mut Room, &Source, u64) -> Result<T, Fault>,
) -> Outcome<Result<T, Fault>> {
    room.file.clear();
    let Input { source, number } = input;
    let judge = |number| room.attempt(|room| judge(room, &source, number), lacks_memory);
    let answer = number.and_then(judge);
    Outcome::of(source.path, answer, room.file.bytes().len())
}

/// The library's answer about the bytes of a shard, or its refusal, explained as one of
/// the whole-shard check or of settling.
pub fn ask<T>(
    sharding: &Sharding,
    number: u64,
    source: &Source,
    bytes: Bytes,
    question: impl FnOnce(&Opened) -> Result<T, Refusal>,
) -> Result<T, Fault> {
    question(&bytes.open(sharding, number)).explain(&source.path, |refusal| {
        diagnosis::of_shard(sharding, number, bytes, refusal)
    })
}

/// Reads a shard and checks it; gives how many chunks a sound one lists.
pub fn check(
    sharding: &Sharding,
    number: u64,
    source: &Source,
    room: &mut Room,
) -> Result<u64, Fault> {
    room.wait_for([source.length_to_read(), 0, 0]);
    room.file.read(source)?;
    ask(sharding, number, source, room.file.bytes(), |shard| {
        shard.check()?;
        chunk_count(sharding, shard)
    })
}

/// The same, with how many bytes nothing lists, and with memory for a bit for each
/// of its bytes. The shard is judged once, but where the sizes of its chunks are
/// too large to be added up, which is no fault of theirs.
pub fn measure(
    sharding: &Sharding,
    number: u64,
    source: &Source,
    room: &mut Room,
) -> Result<(u64, u64), Fault> {
    let length = source.length_to_read();
    room.wait_for([length, length.div_ceil(8), 0]);
    room.file.read(source)?;
    ask(
        sharding,
        number,
        source,
        room.file.bytes(),
        |shard| match shard.measure() {
            Err(refusal) if refusal.number == Refusal::TOTAL_TOO_LARGE => {
                Ok((chunk_count(sharding, shard)?, shard.unlisted()?))
            }
            counted => counted.map(|counts| (counts.chunks, counts.unlisted)),
        },
    )
}

/// Whether there was no memory for an answer.
pub fn lacks_memory<T>(answer: &Result<T, Fault>) -> bool {
    matches!(answer, Err(fault) if fault.lacks_memory())
}

/// How many chunks a shard lists, in all its minishards.
pub fn chunk_count(sharding: &Sharding, shard: &Opened) -> Result<u64, Refusal> {
    let minishards = 0..1u64 << sharding.minishard_bits;
    minishards.map(|number| shard.listed_count(number)).sum()
}
