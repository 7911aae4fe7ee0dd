//! Volume shards in plain Rust, with the same tests in the same order.

use super::places::{judged, place};
use coronagamba::Sharding;

/// The most bytes of a shard or a settled form.
pub(super) const MOST_BYTES: usize = 1 << 30;

/// A listed chunk: id, start and end in the file.
type Chunk = (u64, u64, u64);

/// A nonempty minishard index: its three rows, and where the shard index ends.
pub(super) struct Index<'a> {
    ids: &'a [u8],
    starts: &'a [u8],
    sizes: &'a [u8],
    pub(super) base: u64,
}

/// Number `i` of a row.
fn number(row: &[u8], i: usize) -> u64 {
    u64::from_le_bytes(row[8 * i..8 * i + 8].try_into().expect("8 bytes"))
}

/// Tests 1, 5 and 6.
pub(super) fn open(sharding: &Sharding, shard: u64, file: &[u8]) -> Result<(), u8> {
    judged(sharding)?;
    if shard >> sharding.shard_bits != 0 {
        return Err(5);
    }
    if file.len() < 16 << sharding.minishard_bits || file.len() > MOST_BYTES {
        return Err(6);
    }
    Ok(())
}

/// A minishard's index, after tests 7 and 8; none where it is empty.
pub(super) fn index<'a>(
    sharding: &Sharding,
    file: &'a [u8],
    minishard: u64,
) -> Result<Option<Index<'a>>, u8> {
    let base = 16 << sharding.minishard_bits;
    let entry = &file[16 * minishard as usize..][..16];
    let (start, end) = (number(entry, 0), number(entry, 1));
    if start == end {
        return Ok(None);
    }
    if start > end || end > (file.len() - base) as u64 {
        return Err(7);
    }
    let bytes = &file[base + start as usize..base + end as usize];
    if !bytes.len().is_multiple_of(24) {
        return Err(8);
    }
    let (ids, rest) = bytes.split_at(bytes.len() / 3);
    let (starts, sizes) = rest.split_at(rest.len() / 2);
    Ok(Some(Index {
        ids,
        starts,
        sizes,
        base: base as u64,
    }))
}

impl Index<'_> {
    /// How many chunks it lists.
    fn count(&self) -> usize {
        self.ids.len() / 8
    }

    /// Hands each chunk to `take`, in stored order: its id, and where it begins
    /// and ends in the file or none where it ends past it. Sums wrap.
    pub(super) fn walk(&self, length: usize, mut take: impl FnMut(u64, Option<(u64, u64)>)) {
        let (mut id, mut cursor) = (0u64, 0u64);
        let data = length as u64 - self.base;
        for i in 0..self.count() {
            id = id.wrapping_add(number(self.ids, i));
            let start = cursor.wrapping_add(number(self.starts, i));
            let size = number(self.sizes, i);
            cursor = start.wrapping_add(size);
            let inside = start <= data && size <= data - start;
            let begin = self.base.wrapping_add(start);
            take(id, inside.then(|| (begin, begin.wrapping_add(size))));
        }
    }

    /// Whether the ids rise.
    fn rises(&self) -> bool {
        let mut before = None;
        let mut rises = true;
        let mut id = 0u64;
        for i in 0..self.count() {
            id = id.wrapping_add(number(self.ids, i));
            rises &= before < Some(id);
            before = Some(id);
        }
        rises
    }

    /// Test 9 of ids that do not rise: sorted, two neighbours are equal.
    fn repeats(&self) -> bool {
        let mut id = 0u64;
        let mut ids: Vec<u64> = (0..self.count())
            .map(|i| {
                id = id.wrapping_add(number(self.ids, i));
                id
            })
            .collect();
        ids.sort_unstable();
        ids.windows(2).any(|pair| pair[0] == pair[1])
    }

    /// Hands each chunk to `take`, in stored order, and gives the lowest of
    /// tests 9, 10 and 11 that any of them fails.
    pub(super) fn judge(
        &self,
        sharding: &Sharding,
        home: (u64, u64),
        length: usize,
        mut take: impl FnMut(Chunk),
    ) -> Result<(), u8> {
        let mut fault = Ok(());
        let mut rises = true;
        let mut before = None;
        self.walk(length, |id, span| {
            rises &= before < Some(id);
            before = Some(id);
            if place(sharding, id) != Ok(home) {
                fault = Err(10);
            }
            match span {
                Some((start, end)) => take((id, start, end)),
                None => fault = fault.and(Err(11)),
            }
        });
        if !rises && self.repeats() {
            return Err(9);
        }
        fault
    }
}

/// The place and length of an id's chunk, or 1 or 5 to 12.
pub fn lookup(sharding: &Sharding, shard: u64, file: &[u8], id: u64) -> Result<(u64, u64), u8> {
    let home = place(sharding, id)?;
    if home.0 != shard {
        return Err(5);
    }
    open(sharding, shard, file)?;
    let mut found = Err(12);
    if let Some(index) = index(sharding, file, home.1)? {
        index.judge(sharding, home, file.len(), |(listed, start, end)| {
            if listed == id {
                found = Ok((start, end - start));
            }
        })?;
    }
    found
}

/// Judges the minishards in number order and hands each chunk to `take`; gives
/// the fault and its minishard.
fn walk(
    sharding: &Sharding,
    shard: u64,
    file: &[u8],
    mut take: impl FnMut(Chunk),
) -> Result<(), (u8, u64)> {
    open(sharding, shard, file).map_err(|fault| (fault, 0))?;
    for minishard in 0..1 << sharding.minishard_bits {
        let blame = |fault| (fault, minishard);
        if let Some(index) = index(sharding, file, minishard).map_err(blame)? {
            index
                .judge(sharding, (shard, minishard), file.len(), &mut take)
                .map_err(blame)?;
        }
    }
    Ok(())
}

/// The whole-shard check: the fault and its minishard.
pub fn check(sharding: &Sharding, shard: u64, file: &[u8]) -> Result<(), (u8, u64)> {
    walk(sharding, shard, file, |_| ())
}

/// Writes the settled form and gives its length, or 1, 5 to 11 or 13.
pub fn settle(sharding: &Sharding, shard: u64, file: &[u8], out: &mut [u8]) -> Result<usize, u8> {
    let mut length = 0;
    let add = |(_, start, end): Chunk| length += 24 + (end - start);
    walk(sharding, shard, file, add).map_err(|(fault, _)| fault)?;
    let base = 16usize << sharding.minishard_bits;
    length += base as u64;
    if length > out.len() as u64 || length > MOST_BYTES as u64 {
        return Err(13);
    }
    let mut at = base;
    for minishard in 0..1usize << sharding.minishard_bits {
        let mut entry = [0; 16];
        if let Some(index) = index(sharding, file, minishard as u64)? {
            let place = (at - base) as u64;
            let (start, end) = if index.rises() {
                let start = write_chunks(&index, file, out, at);
                (start, write_index(&index, place, out, start))
            } else {
                write_sorted(&index, file, place, out, at)
            };
            entry[..8].copy_from_slice(&((start - base) as u64).to_le_bytes());
            entry[8..].copy_from_slice(&((end - base) as u64).to_le_bytes());
            at = end;
        }
        out[16 * minishard..][..16].copy_from_slice(&entry);
    }
    Ok(at)
}

/// Writes a judged minishard's chunks one after another in stored order; gives
/// where they end.
fn write_chunks(index: &Index, file: &[u8], out: &mut [u8], mut at: usize) -> usize {
    index.walk(file.len(), |_, span| {
        let (start, end) = span.unwrap_or_default();
        let chunk = &file[start as usize..end as usize];
        out[at..at + chunk.len()].copy_from_slice(chunk);
        at += chunk.len();
    });
    at
}

/// Writes a judged minishard whose ids do not rise, sorted by id; gives where
/// its index begins and ends.
fn write_sorted(
    index: &Index,
    file: &[u8],
    place: u64,
    out: &mut [u8],
    mut at: usize,
) -> (usize, usize) {
    let mut chunks: Vec<Chunk> = Vec::with_capacity(index.count());
    index.walk(file.len(), |id, span| {
        let (start, end) = span.unwrap_or_default();
        chunks.push((id, start, end));
    });
    chunks.sort_unstable_by_key(|(id, ..)| *id);
    for (_, start, end) in &chunks {
        let chunk = &file[*start as usize..*end as usize];
        out[at..at + chunk.len()].copy_from_slice(chunk);
        at += chunk.len();
    }
    let row = 8 * chunks.len();
    let (ids, rest) = out[at..at + 3 * row].split_at_mut(row);
    let (starts, sizes) = rest.split_at_mut(row);
    starts.fill(0);
    starts[..8].copy_from_slice(&place.to_le_bytes());
    let mut before = 0;
    for (i, (id, start, end)) in chunks.iter().enumerate() {
        ids[8 * i..8 * i + 8].copy_from_slice(&(id - before).to_le_bytes());
        sizes[8 * i..8 * i + 8].copy_from_slice(&(end - start).to_le_bytes());
        before = *id;
    }
    (at, at + 3 * row)
}

/// Writes a minishard's settled index; gives where it ends.
fn write_index(index: &Index, place: u64, out: &mut [u8], at: usize) -> usize {
    let row = index.ids.len();
    let out = &mut out[at..at + 3 * row];
    out[..row].copy_from_slice(index.ids);
    out[row..2 * row].fill(0);
    out[row..row + 8].copy_from_slice(&place.to_le_bytes());
    out[2 * row..].copy_from_slice(index.sizes);
    at + 3 * row
}
