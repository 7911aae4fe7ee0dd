//! Mesh shards in plain Rust, with the same tests in the same order.

use super::manifests;
use super::places::place;
use super::shards::{self, index, open, Index, MOST_BYTES};
use coronagamba::Sharding;

/// A listed manifest: its id, and where in the file its fragments start, where
/// it starts itself and where it ends.
#[derive(Clone, Copy)]
struct Net {
    id: u64,
    first: u64,
    start: u64,
    end: u64,
}

/// Hands each net to `take`, in stored order, and gives the lowest test from 9
/// on that any of them fails. Each manifest is read once.
fn judge(
    index: &Index,
    sharding: &Sharding,
    home: (u64, u64),
    file: &[u8],
    mut take: impl FnMut(Net),
) -> Result<(), u8> {
    index.judge(sharding, home, file.len(), |_| ())?;
    let mut lowest = u8::MAX;
    index.walk(file.len(), |id, span| {
        let (start, end) = span.unwrap_or_default();
        match manifests::fragments(&file[start as usize..end as usize]) {
            Ok(length) if length <= start - index.base => take(Net {
                id,
                first: start - length,
                start,
                end,
            }),
            Ok(_) => lowest = lowest.min(21),
            Err(fault) => lowest = lowest.min(fault),
        }
    });
    match lowest {
        u8::MAX => Ok(()),
        fault => Err(fault),
    }
}

/// The net of an id, or 1, 5 to 12, 15 to 17 or 21.
fn find(sharding: &Sharding, shard: u64, file: &[u8], id: u64) -> Result<Net, u8> {
    let home = place(sharding, id)?;
    if home.0 != shard {
        return Err(5);
    }
    open(sharding, shard, file)?;
    let mut found = Err(12);
    if let Some(index) = index(sharding, file, home.1)? {
        judge(&index, sharding, home, file, |net| {
            if net.id == id {
                found = Ok(net);
            }
        })?;
    }
    found
}

/// The place and length of an id's manifest, or 1, 5 to 12, 15 to 17 or 21.
pub fn lookup(sharding: &Sharding, shard: u64, file: &[u8], id: u64) -> Result<(u64, u64), u8> {
    let net = find(sharding, shard, file, id)?;
    Ok((net.start, net.end - net.start))
}

/// The place and length of a node's fragment, or 1, 5 to 12, 15 to 18 or 21.
pub fn fragment(
    sharding: &Sharding,
    shard: u64,
    file: &[u8],
    id: u64,
    level: usize,
    node: usize,
) -> Result<(u64, u64), u8> {
    if sharding.kind != Sharding::MESH {
        shards::lookup(sharding, shard, file, id)?;
        return Err(18);
    }
    let net = find(sharding, shard, file, id)?;
    let manifest = &file[net.start as usize..net.end as usize];
    let (_, start, size) = manifests::node(manifest, level, node)?;
    Ok((net.first + start, size.into()))
}

/// Judges the minishards in number order and hands each net to `take` with its
/// minishard; gives the fault and its minishard.
fn walk(
    sharding: &Sharding,
    shard: u64,
    file: &[u8],
    mut take: impl FnMut(u64, Net),
) -> Result<(), (u8, u64)> {
    open(sharding, shard, file).map_err(|fault| (fault, 0))?;
    for minishard in 0..1 << sharding.minishard_bits {
        let blame = |fault| (fault, minishard);
        if let Some(index) = index(sharding, file, minishard).map_err(blame)? {
            let home = (shard, minishard);
            judge(&index, sharding, home, file, |net| take(minishard, net)).map_err(blame)?;
        }
    }
    Ok(())
}

/// The whole-shard check: the fault and its minishard.
pub fn check(sharding: &Sharding, shard: u64, file: &[u8]) -> Result<(), (u8, u64)> {
    walk(sharding, shard, file, |_, _| ())
}

/// Writes the settled form and gives its length, or 1, 5 to 11, 15 to 17, 21 or
/// 13. The nets are kept while they are judged.
pub fn settle(sharding: &Sharding, shard: u64, file: &[u8], out: &mut [u8]) -> Result<usize, u8> {
    let mut nets: Vec<(u64, Net)> = Vec::new();
    walk(sharding, shard, file, |minishard, net| {
        nets.push((minishard, net));
    })
    .map_err(|(fault, _)| fault)?;
    let base = 16usize << sharding.minishard_bits;
    let parts = nets.iter().map(|(_, net)| 24 + (net.end - net.first));
    let length = base as u64 + parts.sum::<u64>();
    if length > out.len() as u64 || length > MOST_BYTES as u64 {
        return Err(13);
    }
    out[..base].fill(0);
    let mut at = base;
    for nets in nets.chunk_by_mut(|one, other| one.0 == other.0) {
        if !nets.is_sorted_by_key(|(_, net)| net.id) {
            nets.sort_unstable_by_key(|(_, net)| net.id);
        }
        let place = (at - base) as u64;
        for (_, net) in &*nets {
            let bytes = &file[net.first as usize..net.end as usize];
            out[at..at + bytes.len()].copy_from_slice(bytes);
            at += bytes.len();
        }
        let start = (at - base) as u64;
        at = write_index(nets, place, out, at);
        let entry = &mut out[16 * nets[0].0 as usize..][..16];
        entry[..8].copy_from_slice(&start.to_le_bytes());
        entry[8..].copy_from_slice(&((at - base) as u64).to_le_bytes());
    }
    Ok(at)
}

/// Writes a minishard's settled index; gives where it ends.
fn write_index(nets: &[(u64, Net)], mut place: u64, out: &mut [u8], at: usize) -> usize {
    let row = 8 * nets.len();
    let (ids, rest) = out[at..at + 3 * row].split_at_mut(row);
    let (starts, sizes) = rest.split_at_mut(row);
    let mut before = 0;
    for (i, (_, net)) in nets.iter().enumerate() {
        let own = 8 * i..8 * i + 8;
        let step = place + (net.start - net.first);
        ids[own.clone()].copy_from_slice(&(net.id - before).to_le_bytes());
        starts[own.clone()].copy_from_slice(&step.to_le_bytes());
        sizes[own].copy_from_slice(&(net.end - net.start).to_le_bytes());
        (before, place) = (net.id, 0);
    }
    at + 3 * row
}
