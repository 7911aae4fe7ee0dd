//! Writes shards in a layout of their own. The library writes settled forms
//! only, and the sample needs a second copy that differs in its index bytes.

use coronagamba::{Refusal, Sharding};
use std::collections::BTreeMap;

/// Bytes that no entry lists.
const FILLER: &[u8] = b"-- not listed --";

/// Shard files by shard number.
pub type Shards = BTreeMap<u64, Vec<u8>>;

/// A chunk and the id under which it is listed.
pub struct Chunk {
    /// The key of a volume's cell, the number of a mesh's net.
    pub id: u64,
    /// What stands right before it and is not listed: the fragments of a
    /// manifest, nothing in a volume.
    pub lead: Vec<u8>,
    /// Its bytes.
    pub bytes: Vec<u8>,
}

/// The chunks of a minishard, in rising id order.
type Minishard<'a> = Vec<&'a Chunk>;

/// In which order a minishard index lists its chunks.
#[derive(Clone, Copy, PartialEq, Eq)]
pub enum Order {
    /// By rising id.
    Rising,
    /// As they came in: steps to smaller ids and starts are stored modulo 2^64.
    Arrival,
}

/// A file for each shard that has chunks, by shard number. Minishards stand in
/// falling number order, each index before its chunks, unlisted bytes between
/// all of them.
pub fn scattered(sharding: &Sharding, chunks: &[Chunk], order: Order) -> Result<Shards, Refusal> {
    let shards = by_shard(sharding, chunks)?;
    Ok(shards
        .into_iter()
        .map(|(number, minishards)| (number, file(&minishards, order)))
        .collect())
}

/// The chunks by shard and minishard number.
fn by_shard<'a>(
    sharding: &Sharding,
    chunks: &'a [Chunk],
) -> Result<BTreeMap<u64, Vec<Minishard<'a>>>, Refusal> {
    let mut shards = BTreeMap::new();
    for chunk in chunks {
        let place = sharding.place(chunk.id)?;
        let minishards = shards
            .entry(place.shard)
            .or_insert_with(|| vec![Vec::new(); 1 << sharding.minishard_bits]);
        minishards[place.minishard as usize].push(chunk);
    }
    Ok(shards)
}

/// The file of a shard.
fn file(minishards: &[Minishard], order: Order) -> Vec<u8> {
    let mut entries = vec![[0, 0]; minishards.len()];
    let mut data = Vec::new();
    let filled = minishards.iter().enumerate().filter(|(_, m)| !m.is_empty());
    for (number, chunks) in filled.rev() {
        data.extend(FILLER);
        let start = data.len() as u64;
        data.extend(index(chunks, start, order));
        entries[number] = [start, data.len() as u64];
        for chunk in chunks {
            data.extend(FILLER);
            data.extend(&chunk.lead);
            data.extend(&chunk.bytes);
        }
    }
    let mut file = le_bytes(entries.concat());
    file.extend(data);
    file
}

/// A chunk as an index lists it: id, start and size.
type Listed = [u64; 3];

/// The minishard index that starts at `start`, its chunks behind it by rising
/// id, each after some filler and its lead.
fn index(chunks: &[&Chunk], start: u64, order: Order) -> Vec<u8> {
    let mut end = start + 24 * chunks.len() as u64;
    let mut listed = Vec::new();
    for chunk in chunks {
        let before = FILLER.len() + chunk.lead.len();
        let (start, size) = (end + before as u64, chunk.bytes.len() as u64);
        listed.push([chunk.id, start, size]);
        end = start + size;
    }
    if order == Order::Arrival {
        listed.sort_by_key(arrived);
    }
    rows(&listed)
}

/// When a chunk came in: some order that is the same every time.
fn arrived([id, ..]: &Listed) -> u64 {
    id.wrapping_mul(0x9e37_79b9_7f4a_7c15)
}

/// The three rows of an index: steps of ids, steps from a chunk's end to the
/// next one's start, sizes.
fn rows(listed: &[Listed]) -> Vec<u8> {
    let (mut id_steps, mut start_steps, mut sizes) = (Vec::new(), Vec::new(), Vec::new());
    let (mut id_before, mut end) = (0, 0);
    for [id, start, size] in listed {
        id_steps.push(id.wrapping_sub(id_before));
        start_steps.push(start.wrapping_sub(end));
        sizes.push(*size);
        (id_before, end) = (*id, start + size);
    }
    le_bytes([id_steps, start_steps, sizes].concat())
}

/// The numbers as the format stores them.
fn le_bytes(numbers: impl IntoIterator<Item = u64>) -> Vec<u8> {
    numbers.into_iter().flat_map(u64::to_le_bytes).collect()
}
