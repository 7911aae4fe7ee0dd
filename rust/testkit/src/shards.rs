//! Random volume shards: sound ones in many layouts, and damaged ones.

use crate::places::{self, identity_id};
use crate::Rng;
use reference::endian::{bytes_of, put_u64, read_u64};
use reference::sharding::{Place, Sharding, IDENTITY, MOST_MINISHARD_BITS, VOLUME};
use reference::MOST_SHARD_BYTES;
use std::collections::BTreeMap;

/// Chunks by id: what a shard lists.
pub type Content = BTreeMap<u64, Vec<u8>>;

/// A shard file with the specification and number that it belongs to.
#[derive(Clone, Debug)]
pub struct Sample {
    /// The specification.
    pub sharding: Sharding,
    /// The shard number.
    pub number: u64,
    /// The file.
    pub file: Vec<u8>,
}

/// An allowed specification under which ids of one shard are found quickly.
/// Its shard index is mostly short.
pub fn sharding(rng: &mut Rng) -> Sharding {
    let hash = rng.below(2) as u8;
    Sharding {
        preshift: *rng.pick(&[0, 0, 0, 1, 2, 9, 30, 60, 63]),
        hash,
        minishard_bits: match rng.below(600) {
            0 => rng.within(13, MOST_MINISHARD_BITS.into()) as u8,
            1..11 => rng.within(5, 12) as u8,
            _ => rng.below(5) as u8,
        },
        shard_bits: if hash == IDENTITY {
            rng.below(33) as u8
        } else {
            rng.below(4) as u8
        },
        kind: VOLUME,
    }
}

/// A shard number that has ids under this specification.
pub fn number(rng: &mut Rng, sharding: &Sharding) -> u64 {
    sharding.place(rng.edge_u64()).shard
}

/// An id of this shard, where the search finds one.
pub fn id(rng: &mut Rng, sharding: &Sharding, number: u64) -> Option<u64> {
    for _ in 0..60 {
        let candidate = if sharding.hash == IDENTITY {
            let place = Place {
                shard: number,
                minishard: rng.below(sharding.minishard_count()),
            };
            identity_id(rng, sharding, place)
        } else {
            Some(rng.edge_u64())
        };
        if let Some(id) = candidate.filter(|id| sharding.place(*id).shard == number) {
            return Some(id);
        }
    }
    None
}

/// Up to `most` ids of this shard, some of them close together.
pub(crate) fn ids(rng: &mut Rng, sharding: &Sharding, number: u64, most: usize) -> Vec<u64> {
    let mut ids = Vec::new();
    for _ in 0..rng.index(most + 1) {
        let near = ids.last().map(|last: &u64| last.wrapping_add(rng.below(9)));
        let next = near
            .filter(|id| rng.once_in(2) && sharding.place(*id).shard == number)
            .or_else(|| id(rng, sharding, number));
        ids.extend(next);
    }
    ids.sort_unstable();
    ids.dedup();
    ids
}

/// Mostly a few bytes; empty ones, runs of one byte and repetitions are common.
fn chunk(rng: &mut Rng) -> Vec<u8> {
    let length = if rng.once_in(20) {
        rng.index(300)
    } else {
        rng.index(9)
    };
    match rng.below(4) {
        0 => Vec::new(),
        1 => vec![0; length],
        2 => b"abcdefgh"[..length.min(8)].to_vec(),
        _ => rng.bytes(length),
    }
}

/// Random content of up to `most` chunks for this shard.
pub fn content(rng: &mut Rng, sharding: &Sharding, number: u64, most: usize) -> Content {
    ids(rng, sharding, number, most)
        .into_iter()
        .map(|id| (id, chunk(rng)))
        .collect()
}

/// How one content differs from another.
#[derive(Clone, Copy, Debug, PartialEq, Eq, Hash, PartialOrd, Ord)]
pub enum Difference {
    /// A chunk has another id.
    Id,
    /// A byte of a chunk is another one.
    Byte,
    /// A chunk is longer or shorter by some bytes at its end.
    Size,
    /// One more id is listed.
    Added,
    /// One id fewer is listed.
    Removed,
}

impl Difference {
    /// All of them.
    pub const ALL: [Difference; 5] = [
        Difference::Id,
        Difference::Byte,
        Difference::Size,
        Difference::Added,
        Difference::Removed,
    ];
}

/// An id of this shard that the content does not list, often the neighbour of
/// one that it lists, where the search finds one.
pub(crate) fn unlisted<T>(
    rng: &mut Rng,
    sharding: &Sharding,
    number: u64,
    content: &BTreeMap<u64, T>,
) -> Option<u64> {
    let near = listed(rng, content).map(|id| id.wrapping_add(1 + rng.below(4)));
    near.filter(|id| rng.once_in(2) && sharding.place(*id).shard == number)
        .or_else(|| id(rng, sharding, number))
        .filter(|id| !content.contains_key(id))
}

/// One of the listed ids, where there are any.
pub(crate) fn listed<T>(rng: &mut Rng, content: &BTreeMap<u64, T>) -> Option<u64> {
    let ids: Vec<u64> = content.keys().copied().collect();
    (!ids.is_empty()).then(|| *rng.pick(&ids))
}

/// Makes a chunk one to three bytes longer, or shorter where it has them.
fn resize(rng: &mut Rng, chunk: &mut Vec<u8>) {
    let step = rng.within(1, 3) as usize;
    if rng.once_in(2) && step <= chunk.len() {
        chunk.truncate(chunk.len() - step);
    } else {
        // Zeros are what a lost length would most easily pass for.
        let more = if rng.once_in(2) {
            vec![0; step]
        } else {
            rng.bytes(step)
        };
        chunk.extend(more);
    }
}

/// Content for the same shard that differs from this one in one respect;
/// `None` where this content has nothing to differ in or no id was found.
pub fn differing(
    rng: &mut Rng,
    sharding: &Sharding,
    number: u64,
    content: &Content,
    difference: Difference,
) -> Option<Content> {
    let mut other = content.clone();
    match difference {
        Difference::Id => {
            let new = unlisted(rng, sharding, number, content)?;
            let chunk = other.remove(&listed(rng, content)?)?;
            other.insert(new, chunk);
        }
        Difference::Byte => {
            let chunk = other.get_mut(&listed(rng, content)?)?;
            let at = rng.index(chunk.len().max(1));
            *chunk.get_mut(at)? ^= 1 << rng.below(8);
        }
        Difference::Size => {
            let chunk = other.get_mut(&listed(rng, content)?)?;
            resize(rng, chunk);
        }
        Difference::Added => {
            let new = unlisted(rng, sharding, number, content)?;
            other.insert(new, chunk(rng));
        }
        Difference::Removed => {
            other.remove(&listed(rng, content)?)?;
        }
    }
    Some(other)
}

/// In which order the minishards of a shard list their chunks, and where these
/// may lie.
#[derive(Clone, Copy, Debug, PartialEq, Eq, Hash)]
pub enum Order {
    /// Rising ids, each chunk behind the one before: no sum passes 2^64.
    Rising,
    /// Any order and any places: steps to smaller ids and starts wrap.
    Arrival,
}

impl Order {
    /// Either of them.
    pub fn draw(rng: &mut Rng) -> Self {
        *rng.pick(&[Order::Rising, Order::Arrival])
    }

    /// Brings rising ids into this order: arrival is mostly a shuffle, now and
    /// then falling, or rising but for one id.
    fn arrange<T>(self, rng: &mut Rng, chunks: &mut [T]) {
        if self == Order::Rising || chunks.is_empty() {
            return;
        }
        match rng.below(4) {
            0 => chunks.reverse(),
            1 => {
                let at = rng.index(chunks.len());
                chunks[at..].rotate_left(1);
            }
            _ => rng.shuffle(chunks),
        }
    }
}

/// A minishard while it is laid out: its chunks in stored order, the places
/// given so far and the place of its index, counted from the end of the shard
/// index.
#[derive(Default)]
pub(crate) struct Layout {
    pub(crate) ids: Vec<u64>,
    pub(crate) sizes: Vec<u64>,
    pub(crate) starts: Vec<u64>,
    pub(crate) index: Option<u64>,
}

impl Layout {
    fn cursor(&self) -> u64 {
        let placed = self.starts.len();
        self.starts
            .last()
            .map_or(0, |start| start + self.sizes[placed - 1])
    }

    pub(crate) fn index_length(&self) -> u64 {
        24 * self.ids.len() as u64
    }

    fn finished(&self) -> bool {
        self.starts.len() == self.ids.len() && self.index.is_some()
    }

    /// The three rows of the index.
    fn rows(&self) -> Vec<u64> {
        let mut ids = Vec::new();
        let mut starts = Vec::new();
        let (mut id, mut end) = (0, 0);
        for i in 0..self.ids.len() {
            ids.push(self.ids[i].wrapping_sub(id));
            starts.push(self.starts[i].wrapping_sub(end));
            id = self.ids[i];
            end = self.starts[i] + self.sizes[i];
        }
        ids.extend(starts);
        ids.extend(&self.sizes);
        ids
    }
}

/// The file of these minishards over this data: the shard index in front, the
/// minishard indexes at their places.
pub(crate) fn finish(rng: &mut Rng, minishards: &[Layout], mut data: Vec<u8>) -> Vec<u8> {
    let mut file = Vec::new();
    for minishard in minishards {
        let (start, end) = match minishard.index {
            Some(start) => (start, start + minishard.index_length()),
            None => {
                let odd = if rng.once_in(2) { 0 } else { rng.edge_u64() };
                (odd, odd)
            }
        };
        file.extend(start.to_le_bytes());
        file.extend(end.to_le_bytes());
        for (i, number) in minishard.rows().into_iter().enumerate() {
            put_u64(&mut data, start as usize + 8 * i, number).expect("the index has room");
        }
    }
    file.extend(data);
    file
}

/// Up to `most` bytes that nothing lists.
pub(crate) fn gap(rng: &mut Rng, most: usize) -> Vec<u8> {
    if rng.once_in(2) {
        return Vec::new();
    }
    let length = rng.index(most + 1);
    rng.bytes(length)
}

/// Bytes to lay out together: a chunk, and in front of it what is not listed.
pub(crate) struct Block {
    /// How many bytes stand in front of the chunk.
    pub(crate) lead: usize,
    /// These and the chunk.
    pub(crate) bytes: Vec<u8>,
}

impl Block {
    /// Where the bytes stand already as the front of an earlier block, so that
    /// the chunk is at `least` or behind it.
    fn shared(&self, data: &[u8], blocks: &[(u64, u64)], least: u64) -> Option<u64> {
        let Block { lead, bytes } = self;
        blocks
            .iter()
            .find(|(start, size)| {
                *start + *lead as u64 >= least
                    && *size >= bytes.len() as u64
                    && data[*start as usize..].starts_with(bytes)
            })
            .map(|(start, _)| *start)
    }
}

/// The minishards of a specification with these ids, in this order.
pub(crate) fn listing(
    rng: &mut Rng,
    sharding: &Sharding,
    ids: &[u64],
    order: Order,
) -> Vec<Layout> {
    let mut minishards: Vec<Layout> = Vec::new();
    minishards.resize_with(sharding.minishard_count() as usize, Layout::default);
    for id in ids {
        minishards[sharding.place(*id).minishard as usize]
            .ids
            .push(*id);
    }
    for minishard in &mut minishards {
        order.arrange(rng, &mut minishard.ids);
    }
    minishards
}

/// A sound shard that lists this content, in a random layout of either order.
pub fn lay_out(rng: &mut Rng, sharding: &Sharding, content: &Content) -> Vec<u8> {
    let order = Order::draw(rng);
    lay_out_in(rng, sharding, content, order)
}

/// A sound shard that lists this content in this order, in a random layout.
pub fn lay_out_in(rng: &mut Rng, sharding: &Sharding, content: &Content, order: Order) -> Vec<u8> {
    let block = |(id, bytes): (&u64, &Vec<u8>)| {
        let bytes = bytes.clone();
        (*id, Block { lead: 0, bytes })
    };
    lay_blocks(rng, sharding, &content.iter().map(block).collect(), order)
}

/// A sound shard with these blocks in this order, in a random layout: with
/// gaps, minishard indexes before, between or after blocks, minishards mixed,
/// bytes shared, and odd entries for empty minishards.
pub(crate) fn lay_blocks(
    rng: &mut Rng,
    sharding: &Sharding,
    content: &BTreeMap<u64, Block>,
    order: Order,
) -> Vec<u8> {
    let ids: Vec<u64> = content.keys().copied().collect();
    let mut minishards = listing(rng, sharding, &ids, order);
    for minishard in &mut minishards {
        let size = |id| (content[id].bytes.len() - content[id].lead) as u64;
        minishard.sizes = minishard.ids.iter().map(size).collect();
    }
    let mut open: Vec<usize> = (0..minishards.len())
        .filter(|number| !minishards[*number].ids.is_empty())
        .collect();
    let mixed = rng.once_in(2);
    let sharing = rng.once_in(2);
    let most_gap = *rng.pick(&[0, 0, 3, 20]);
    let mut data = Vec::new();
    let mut blocks = Vec::new();
    while !open.is_empty() {
        let turn = if mixed { rng.index(open.len()) } else { 0 };
        let minishard = &mut minishards[open[turn]];
        data.extend(gap(rng, most_gap));
        let next = minishard.starts.len();
        let index_now = next == minishard.ids.len() || rng.once_in(4);
        if minishard.index.is_none() && index_now {
            minishard.index = Some(data.len() as u64);
            data.resize(data.len() + minishard.index_length() as usize, 0);
        } else if next < minishard.ids.len() {
            let block = &content[&minishard.ids[next]];
            let least = match order {
                Order::Rising => minishard.cursor(),
                Order::Arrival => 0,
            };
            let found = block.shared(&data, &blocks, least).filter(|_| sharing);
            let start = found.unwrap_or(data.len() as u64);
            if found.is_none() {
                data.extend(&block.bytes);
                blocks.push((start, block.bytes.len() as u64));
            }
            minishard.starts.push(start + block.lead as u64);
        }
        if minishard.finished() {
            open.remove(turn);
        }
    }
    data.extend(gap(rng, most_gap));
    finish(rng, &minishards, data)
}

/// A sound shard whose chunks lie anywhere: over each other, over minishard
/// indexes, at the file's end. What it lists is what its bytes say. In arrival
/// order the chunks of one minishard lie over each other too.
pub fn overlapping(rng: &mut Rng, sharding: &Sharding, number: u64, most: usize) -> Vec<u8> {
    let order = Order::draw(rng);
    let ids = ids(rng, sharding, number, most);
    let mut minishards = listing(rng, sharding, &ids, order);
    let mut data = gap(rng, 40);
    for minishard in minishards.iter_mut().filter(|m| !m.ids.is_empty()) {
        minishard.index = Some(data.len() as u64);
        data.resize(data.len() + minishard.index_length() as usize, 0);
        data.extend(gap(rng, 40));
    }
    let length = data.len() as u64;
    for minishard in &mut minishards {
        for _ in 0..minishard.ids.len() {
            let cursor = minishard.cursor();
            let start = match order {
                _ if rng.once_in(3) => cursor,
                Order::Rising => rng.within(cursor, length),
                Order::Arrival => rng.within(0, length),
            };
            let size = match rng.below(5) {
                0 => 0,
                1 => length - start,
                _ => rng.within(0, (length - start).min(20)),
            };
            minishard.starts.push(start);
            minishard.sizes.push(size);
        }
    }
    finish(rng, &minishards, data)
}

/// A sound shard with this many bytes behind its shard index, whose chunks and
/// minishard indexes begin and end at these places or a few bytes away: one behind
/// the other, with bytes between them that nothing lists, or over each other. The
/// chunks are listed in their order in the file, in runs, or in no order at all.
pub fn around(rng: &mut Rng, length: u64, places: &[u64]) -> Sample {
    let near = |rng: &mut Rng, place: u64| (place + rng.below(5)).saturating_sub(2).min(length);
    let mut cuts: Vec<u64> = places.iter().map(|place| near(rng, *place)).collect();
    if rng.once_in(2) {
        cuts.extend([0, length]);
    }
    cuts.sort_unstable();
    let mut spans: Vec<(u64, u64)> = cuts.windows(2).map(|pair| (pair[0], pair[1])).collect();
    if spans.len() > 1 && rng.once_in(3) {
        let without = rng.index(spans.len());
        spans.remove(without);
    }
    for (start, end) in &mut spans {
        if rng.once_in(4) {
            *start = near(rng, *start);
        }
        if rng.once_in(4) {
            *end = near(rng, *end);
        }
        *end = (*end).max(*start);
    }
    match rng.below(3) {
        0 => {}
        1 if !spans.is_empty() => spans.rotate_left(1),
        _ => rng.shuffle(&mut spans),
    }
    let sharding = Sharding {
        preshift: 0,
        hash: IDENTITY,
        minishard_bits: rng.below(3) as u8,
        shard_bits: 0,
        kind: VOLUME,
    };
    let ids: Vec<u64> = (0..spans.len() as u64).collect();
    let mut minishards = listing(rng, &sharding, &ids, Order::Rising);
    let mut spans = spans.into_iter();
    for minishard in minishards.iter_mut().filter(|m| !m.ids.is_empty()) {
        for _ in 0..minishard.ids.len() {
            let (start, end) = spans.next().expect("a span for each id");
            minishard.starts.push(start);
            minishard.sizes.push(end - start);
        }
        // Over chunks or beside them: a chunk's bytes may be those of an index.
        let room = length - minishard.index_length();
        let place = *rng.pick(places);
        let place = near(rng, place).min(room);
        minishard.index = Some(if rng.once_in(2) { room } else { place });
    }
    apart(&mut minishards, length);
    Sample {
        sharding,
        number: 0,
        file: finish(rng, &minishards, vec![0; length as usize]),
    }
}

/// Moves minishard indexes that share bytes, so that none is written over.
fn apart(minishards: &mut [Layout], length: u64) {
    let mut taken: Vec<(u64, u64)> = Vec::new();
    for minishard in minishards {
        let own = minishard.index_length();
        let Some(place) = &mut minishard.index else {
            continue;
        };
        while let Some((start, _)) = taken
            .iter()
            .find(|(start, end)| *place < *end && *start < *place + own)
        {
            *place = start.checked_sub(own).unwrap_or(length - own);
        }
        taken.push((*place, *place + own));
    }
}

/// A sound shard of some kind, with up to `most` chunks.
pub fn sound(rng: &mut Rng, most: usize) -> Sample {
    let sharding = sharding(rng);
    let number = number(rng, &sharding);
    let file = if rng.once_in(2) {
        let content = content(rng, &sharding, number, most);
        lay_out(rng, &sharding, &content)
    } else {
        overlapping(rng, &sharding, number, most)
    };
    Sample {
        sharding,
        number,
        file,
    }
}

/// The place and the count of the u64 numbers of each nonempty minishard index
/// that lies inside the file.
pub(crate) fn named_indexes(sharding: &Sharding, file: &[u8]) -> Vec<(usize, usize)> {
    let base = sharding.index_end() as usize;
    (0..sharding.minishard_count() as usize)
        .map(|m| (read_u64(file, 16 * m), read_u64(file, 16 * m + 8)))
        .filter(|(start, end)| start < end && *end <= (file.len().saturating_sub(base)) as u64)
        .map(|(start, end)| (base + start as usize, (end - start) as usize / 8))
        .filter(|(_, count)| *count > 0)
        .collect()
}

/// The place and the count of the u64 numbers in some nonempty minishard index.
fn index_numbers(rng: &mut Rng, sharding: &Sharding, file: &[u8]) -> Option<(usize, usize)> {
    let indexes = named_indexes(sharding, file);
    (!indexes.is_empty()).then(|| *rng.pick(&indexes))
}

/// Another number in place of `old`: a near one, an edge, or one around the
/// file's length or 2^64.
fn other(rng: &mut Rng, old: u64, length: u64) -> u64 {
    let small = rng.below(4);
    match rng.below(8) {
        0 => old.wrapping_add(1 + small),
        1 => old.wrapping_sub(1 + small),
        2 => old ^ 1 << rng.below(64),
        3 => length.wrapping_sub(small),
        4 => length.wrapping_add(small),
        5 => u64::MAX - small,
        6 => 0,
        _ => rng.edge_u64(),
    }
}

/// Makes a sum of a row reach another value at one entry, and the same values
/// as before behind it: `from` is the row's first number, `count` how many it
/// has and `change` what is added to the sum.
fn shift(file: &mut [u8], from: usize, count: usize, entry: usize, change: u64) {
    let mut add = |entry: usize, change: u64| {
        let at = from + 8 * entry;
        let step = read_u64(file, at).wrapping_add(change);
        // A place that the file does not have stays as it is.
        let _ = put_u64(file, at, step);
    };
    add(entry, change);
    if entry + 1 < count {
        add(entry + 1, change.wrapping_neg());
    }
}

/// Gives one entry of a minishard the id of another one, near or far, or does
/// nothing where it has only one; the other ids stay.
fn repeat_id(rng: &mut Rng, file: &mut [u8], start: usize, entries: usize) {
    if entries < 2 {
        return;
    }
    let later = 1 + rng.index(entries - 1);
    let earlier = if rng.once_in(3) {
        later - 1
    } else {
        rng.index(later)
    };
    let step = id_at(file, start, earlier).wrapping_sub(id_at(file, start, later));
    shift(file, start, entries, later, step);
}

/// Moves one chunk to around 2^64 or around the file's end, where the chunks
/// behind it stay; its size mostly brings a wrapped end back into the file.
fn move_start(rng: &mut Rng, file: &mut [u8], base: usize, start: usize, entries: usize) {
    let length = (file.len() - base) as u64;
    let entry = rng.index(entries);
    let row = |k: usize| start + 8 * k * entries;
    let sum = |k: usize, count: usize| {
        (0..count).fold(0u64, |sum, i| {
            sum.wrapping_add(read_u64(file, row(k) + 8 * i))
        })
    };
    let old = sum(1, entry + 1).wrapping_add(sum(2, entry));
    let size = read_u64(file, row(2) + 8 * entry);
    let small = rng.below(4);
    let new = match rng.below(4) {
        0 => length.wrapping_sub(size).wrapping_add(small),
        1 => small.wrapping_sub(size),
        2 => small.wrapping_sub(size).wrapping_sub(base as u64),
        _ => u64::MAX - rng.below(40),
    };
    shift(file, row(1), entries, entry, new.wrapping_sub(old));
    if rng.once_in(2) {
        let grown = rng.below(40);
        let _ = put_u64(file, row(2) + 8 * entry, size.wrapping_add(grown));
        if entry + 1 < entries {
            let at = row(1) + 8 * (entry + 1);
            let step = read_u64(file, at).wrapping_sub(grown);
            let _ = put_u64(file, at, step);
        }
    }
}

/// Changes the number at `at`.
fn change(rng: &mut Rng, file: &mut [u8], at: usize, length: usize) {
    let old = read_u64(file, at);
    let new = other(rng, old, length as u64);
    // A place that the file does not have stays as it is.
    let _ = put_u64(file, at, new);
}

/// Damages the file in one place: a flipped bit or another number in any of
/// its parts, one or two ids that stand twice, a chunk elsewhere, a cut end, or
/// bytes added behind it. It may stay sound.
pub fn damage(rng: &mut Rng, sharding: &Sharding, file: &mut Vec<u8>) {
    let base = sharding.index_end() as usize;
    let length = file.len().saturating_sub(base);
    match rng.below(12) {
        0 if !file.is_empty() => {
            let at = rng.index(file.len());
            file[at] ^= 1 << rng.below(8);
        }
        1 | 2 => {
            let at = 8 * rng.index(base / 8);
            change(rng, file, at, length);
        }
        3 => {
            let cut = if rng.once_in(2) {
                rng.index(file.len() + 1)
            } else {
                file.len().saturating_sub(rng.index(10))
            };
            file.truncate(cut);
        }
        4 => {
            let more = rng.index(30);
            file.extend(rng.bytes(more));
        }
        5 | 6 => {
            let index = index_numbers(rng, sharding, file).filter(|(_, count)| *count >= 3);
            if let Some((start, count)) = index {
                if rng.once_in(2) {
                    for _ in 0..rng.within(1, 2) {
                        repeat_id(rng, file, start, count / 3);
                    }
                } else {
                    move_start(rng, file, base, start, count / 3);
                }
            }
        }
        _ => {
            if let Some((start, count)) = index_numbers(rng, sharding, file) {
                let at = start + 8 * rng.index(count);
                change(rng, file, at, length);
            }
        }
    }
}

/// A shard that was damaged in one to three places; it may still be sound.
pub fn damaged(rng: &mut Rng, most: usize) -> Sample {
    let mut sample = sound(rng, most);
    for _ in 0..rng.within(1, 3) {
        damage(rng, &sample.sharding, &mut sample.file);
    }
    sample
}

/// Puts another specification, another number or both in place of the
/// sample's; now and then it keeps its own.
pub fn make_wild(rng: &mut Rng, sample: &mut Sample) {
    if rng.once_in(2) {
        sample.sharding = places::wild_sharding(rng);
    }
    sample.number = match rng.below(3) {
        0 => sample.number,
        1 => places::shard_number(rng, &sample.sharding),
        _ => sample.number ^ 1 << rng.below(64),
    };
}

/// Random bytes as the file of a small specification.
pub fn random_bytes(rng: &mut Rng) -> Sample {
    let length = rng.index(300);
    Sample {
        sharding: Sharding {
            preshift: 0,
            hash: rng.below(2) as u8,
            minishard_bits: rng.below(4) as u8,
            shard_bits: 0,
            kind: VOLUME,
        },
        number: 0,
        file: rng.bytes(length),
    }
}

/// The whole data of a shard listed so often that the settled form has about
/// a gibibyte: each of 4096 minishards lists one chunk over the same bytes.
pub fn brimming(rng: &mut Rng) -> Sample {
    const CHUNKS: u64 = 4096;
    let sharding = Sharding {
        preshift: 0,
        hash: IDENTITY,
        minishard_bits: 12,
        shard_bits: 0,
        kind: VOLUME,
    };
    let whole = (MOST_SHARD_BYTES - (16 + 24) * CHUNKS) / CHUNKS;
    let data = whole + 2;
    let mut file = bytes_of((0..CHUNKS).flat_map(|m| [data + 24 * m, data + 24 * (m + 1)]));
    file.resize(file.len() + data as usize, 0x5a);
    // The form would be a gibibyte long where nothing is added or taken away.
    let first = whole - 1 + rng.below(3);
    for m in 0..CHUNKS {
        let size = if m == 0 { first } else { whole };
        file.extend(bytes_of([m, 0, size]));
    }
    Sample {
        sharding,
        number: 0,
        file,
    }
}

/// A shard of any kind: sound, damaged, under another specification or number,
/// or of random bytes.
pub fn any(rng: &mut Rng) -> Sample {
    let most = if rng.once_in(200) {
        300
    } else {
        *rng.pick(&[2, 8, 12, 12, 40])
    };
    let mut sample = match rng.below(32) {
        0 => random_bytes(rng),
        1..16 => sound(rng, most),
        _ => damaged(rng, most),
    };
    if rng.once_in(8) {
        make_wild(rng, &mut sample);
    }
    sample
}

/// The `choice`th, counted round, of the ids that the file's minishard indexes
/// name, whether they are sound or not.
pub fn listed_id(sharding: &Sharding, file: &[u8], choice: u64) -> Option<u64> {
    if sharding.allowed().is_err() {
        return None;
    }
    let indexes = named_indexes(sharding, file);
    let total: u64 = indexes.iter().map(|(_, count)| *count as u64 / 3).sum();
    let mut entry = choice.checked_rem(total)? as usize;
    for (start, count) in indexes {
        if entry < count / 3 {
            return Some(id_at(file, start, entry));
        }
        entry -= count / 3;
    }
    None
}

/// The id of an entry of the minishard index that starts here, its sum wrapped.
fn id_at(file: &[u8], start: usize, entry: usize) -> u64 {
    (0..=entry).fold(0, |id: u64, i| {
        id.wrapping_add(read_u64(file, start + 8 * i))
    })
}

/// An id to ask a shard for: often one that it lists, or a neighbour of one.
pub fn question(rng: &mut Rng, sample: &Sample) -> u64 {
    let Sample {
        sharding,
        number,
        file,
    } = sample;
    if sharding.allowed().is_err() {
        return rng.edge_u64();
    }
    let listed = index_numbers(rng, sharding, file).map(|(start, count)| {
        let entry = rng.index(count / 3 + 1);
        id_at(file, start, entry)
    });
    match rng.below(8) {
        0 => rng.edge_u64(),
        1 => listed.unwrap_or(0).wrapping_add(1),
        2 | 3 => id(rng, sharding, *number).unwrap_or(0),
        _ => listed.unwrap_or(1),
    }
}

#[cfg(test)]
mod tests {
    use super::*;
    use crate::Met;
    use reference::settle::{length_of, settled_form};
    use reference::shard::{check, list, list_minishard, lookup};
    use reference::unlisted::unlisted;
    use reference::Refusal;
    use std::collections::BTreeSet;

    #[test]
    fn layouts_are_sound_and_list_the_content() {
        let mut rng = Rng::new(1);
        let mut chunks = 0;
        for _ in 0..3_000 {
            let sharding = sharding(&mut rng);
            let number = number(&mut rng, &sharding);
            let content = content(&mut rng, &sharding, number, 12);
            let file = lay_out(&mut rng, &sharding, &content);
            let listed: Content = list(&sharding, number, &file)
                .expect("a layout is sound")
                .into_iter()
                .map(|entry| (entry.id, entry.bytes(&file).to_vec()))
                .collect();
            assert_eq!(listed, content);
            chunks += content.len();
        }
        assert!(chunks > 10_000);
    }

    #[test]
    fn differing_contents_differ_in_one_respect() {
        let mut rng = Rng::new(6);
        for difference in Difference::ALL {
            let mut found = 0;
            for _ in 0..2_000 {
                let sharding = sharding(&mut rng);
                let number = number(&mut rng, &sharding);
                let content = content(&mut rng, &sharding, number, 12);
                let Some(other) = differing(&mut rng, &sharding, number, &content, difference)
                else {
                    continue;
                };
                let kept = |one: &Content, other: &Content| {
                    let same = |(id, chunk)| other.get(id) == Some(chunk);
                    one.iter().filter(|entry| same(*entry)).count()
                };
                let lost = content.len() - kept(&content, &other);
                let won = other.len() - kept(&other, &content);
                let expected = match difference {
                    Difference::Added => (0, 1),
                    Difference::Removed => (1, 0),
                    _ => (1, 1),
                };
                assert_eq!((lost, won), expected, "{difference:?}");
                found += 1;
            }
            assert!(found > 1_000, "{difference:?} {found}");
        }
    }

    /// With gaps and without, and sound whatever the places.
    #[test]
    fn shards_around_places_are_sound() {
        let mut rng = Rng::new(14);
        let (mut full, mut open) = (0, 0);
        for _ in 0..2_000 {
            let length = 500 + rng.below(3);
            let sample = around(&mut rng, length, &[0, 64, 200, 201, 500]);
            match unlisted(&sample.sharding, sample.number, &sample.file) {
                Ok(0) => full += 1,
                count => {
                    assert!(count.is_ok(), "{sample:?}");
                    open += 1;
                }
            }
        }
        assert!(
            full > 100 && open > 1_000,
            "{full} without gaps, {open} with"
        );
    }

    #[test]
    fn some_layouts_are_shorter_than_settled() {
        let mut rng = Rng::new(2);
        let mut shorter = [0; 2];
        for _ in 0..2_000 {
            let Sample {
                sharding,
                number,
                file,
            } = sound(&mut rng, 12);
            let entries = list(&sharding, number, &file).expect("sound");
            let content: Vec<_> = entries.iter().map(|e| (e.id, e.bytes(&file))).collect();
            let form = settled_form(&sharding, &content);
            assert_eq!(check(&sharding, number, &form), Ok(()));
            shorter[usize::from(file.len() < form.len())] += 1;
        }
        assert!(shorter.iter().all(|count| *count > 100), "{shorter:?}");
    }

    #[test]
    fn damage_reaches_each_refusal() {
        let mut rng = Rng::new(3);
        let (mut checks, mut lookups) = (Met::new(), Met::new());
        for _ in 0..20_000 {
            let sample = damaged(&mut rng, 8);
            let id = question(&mut rng, &sample);
            checks.note(&check(&sample.sharding, sample.number, &sample.file));
            lookups.note(&lookup(&sample.sharding, sample.number, id, &sample.file));
        }
        checks.assert_exactly(&[0, 6, 7, 8, 9, 10, 11]);
        lookups.assert_exactly(&[0, 5, 6, 7, 8, 9, 10, 11, 12]);
    }

    #[test]
    fn damage_reaches_later_minishards() {
        let mut rng = Rng::new(7);
        let faults = (0..5_000).filter_map(|_| {
            let sample = damaged(&mut rng, 8);
            let checked = check(&sample.sharding, sample.number, &sample.file);
            checked.err().and_then(|refusal| refusal.minishard)
        });
        assert!(faults.filter(|minishard| *minishard > 0).count() > 500);
    }

    #[test]
    fn forms_on_each_side_of_a_gibibyte() {
        let mut rng = Rng::new(8);
        let mut lengths = BTreeSet::new();
        for _ in 0..20 {
            let sample = brimming(&mut rng);
            assert_eq!(check(&sample.sharding, sample.number, &sample.file), Ok(()));
            let length = length_of(&sample.sharding, sample.number, &sample.file, true);
            lengths.insert(length.map_err(|refusal| refusal.number));
        }
        let gibibyte = 1 << 30;
        assert!(lengths
            .into_iter()
            .eq([Ok(gibibyte - 1), Ok(gibibyte), Err(13)]));
    }

    #[test]
    fn listed_ids_go_round() {
        let mut rng = Rng::new(9);
        for _ in 0..1_000 {
            let sample = sound(&mut rng, 8);
            let entries = list(&sample.sharding, sample.number, &sample.file).expect("sound");
            let listed = |choice| listed_id(&sample.sharding, &sample.file, choice);
            if entries.is_empty() {
                assert_eq!(listed(rng.bits()), None);
            }
            for (choice, entry) in (0..).zip(entries.iter().chain(&entries)) {
                assert_eq!(listed(choice), Some(entry.id));
            }
        }
    }

    /// The exact sums of a minishard's rows: ids, and starts of chunks counted
    /// from the end of the shard index, with their sizes.
    fn exact_sums(file: &[u8], base: usize, minishard: usize) -> (Vec<u128>, Vec<(u128, u64)>) {
        let at = |place: usize| read_u64(file, place) as usize;
        let (start, end) = (at(16 * minishard), at(16 * minishard + 8));
        let n = (end - start) / 24;
        let row = |k: usize, i: usize| u128::from(read_u64(file, base + start + 8 * (k * n + i)));
        let (mut id, mut cursor) = (0, 0);
        let (mut ids, mut starts) = (Vec::new(), Vec::new());
        for i in 0..n {
            id += row(0, i);
            ids.push(id);
            cursor += row(1, i);
            starts.push((cursor, row(2, i) as u64));
            cursor += row(2, i);
        }
        (ids, starts)
    }

    /// Wrapped starts and ends around 2^64: sound shards whose sums pass it,
    /// and shards refused with 11 that a wrapped end would let through.
    #[test]
    fn sums_pass_64_bits() {
        let mut rng = Rng::new(4);
        let most = u128::from(u64::MAX);
        let (mut ids_pass, mut starts_pass, mut ends_wrap, mut at_the_edge) = (0, 0, 0, 0);
        for _ in 0..20_000 {
            let sample = damaged(&mut rng, 8);
            let base = sample.sharding.index_end();
            let sums = |m: u64| exact_sums(&sample.file, base as usize, m as usize);
            match check(&sample.sharding, sample.number, &sample.file) {
                Ok(()) => {
                    let all = (0..sample.sharding.minishard_count()).map(sums);
                    let (ids, starts): (Vec<_>, Vec<_>) = all.unzip();
                    ids_pass += usize::from(ids.concat().iter().any(|id| *id > most));
                    starts_pass += usize::from(starts.concat().iter().any(|(s, _)| *s > most));
                }
                Err(refusal) => {
                    let (11, Some(minishard)) = (refusal.number, refusal.minishard) else {
                        continue;
                    };
                    let (_, starts) = sums(minishard);
                    for (start, size) in starts {
                        let start = start as u64;
                        let end = u128::from(base) + u128::from(start) + u128::from(size);
                        let wrapped = end as u64 <= sample.file.len() as u64;
                        ends_wrap += usize::from(end > most && wrapped);
                        at_the_edge += usize::from(end == most + 1);
                    }
                }
            }
        }
        for count in [ids_pass, starts_pass, ends_wrap, at_the_edge] {
            assert!(
                count > 20,
                "{ids_pass} {starts_pass} {ends_wrap} {at_the_edge}"
            );
        }
    }

    /// Ids that stand twice next to each other, and with others between.
    #[test]
    fn ids_stand_twice_near_and_far() {
        let mut rng = Rng::new(10);
        let (mut near, mut far) = (0, 0);
        for _ in 0..20_000 {
            let sample = damaged(&mut rng, 8);
            let checked = check(&sample.sharding, sample.number, &sample.file);
            let (9, Some(minishard)) =
                checked.map_or_else(|r| (r.number, r.minishard), |()| (0, None))
            else {
                continue;
            };
            let base = sample.sharding.index_end() as usize;
            let (ids, _) = exact_sums(&sample.file, base, minishard as usize);
            let ids: Vec<u64> = ids.iter().map(|id| *id as u64).collect();
            let twice = |later: &usize| ids[..*later].contains(&ids[*later]);
            let later = (0..ids.len())
                .find(twice)
                .expect("9 is an id that stands twice");
            if ids[later - 1] == ids[later] {
                near += 1;
            } else {
                far += 1;
            }
        }
        assert!(near > 100 && far > 100, "{near} {far}");
    }

    /// The entries of a minishard without 7 and 8 for which this test does not
    /// hold, rising.
    fn offending(sample: &Sample, minishard: u64, number: u8) -> Vec<usize> {
        let base = sample.sharding.index_end();
        let (ids, starts) = exact_sums(&sample.file, base as usize, minishard as usize);
        let ids: Vec<u64> = ids.iter().map(|id| *id as u64).collect();
        let offends = |entry: &usize| match number {
            9 => ids[..*entry].contains(&ids[*entry]),
            10 => {
                let place = sample.sharding.place(ids[*entry]);
                (place.shard, place.minishard) != (sample.number, minishard)
            }
            _ => {
                let (start, size) = starts[*entry];
                let end = u128::from(base) + u128::from(start as u64) + u128::from(size);
                end > sample.file.len() as u128
            }
        };
        (0..ids.len()).filter(offends).collect()
    }

    /// In which ways a wrong position would show in the fault of a minishard:
    /// `first` is the first one with a fault. The reference's position must be
    /// the place of the first entry that offends.
    fn told_apart(
        sample: &Sample,
        first: u64,
        minishard: u64,
        refusal: Refusal,
    ) -> Vec<&'static str> {
        let mut ways = vec![if minishard == 0 {
            "in the first minishard"
        } else {
            "in a later minishard"
        }];
        if minishard > first {
            ways.push("behind another faulty minishard");
        }
        if refusal.number < 9 {
            assert_eq!(refusal.position, Some(16 * minishard));
            return ways;
        }
        let entries = offending(sample, minishard, refusal.number);
        let at = |place: u64| read_u64(&sample.file, place as usize);
        let start = at(16 * minishard);
        let count = (at(16 * minishard + 8) - start) / 24;
        let row = if refusal.number == 11 { count } else { 0 };
        let entry = entries[0] as u64;
        let place = sample.sharding.index_end() + start + 8 * (row + entry);
        assert_eq!(refusal.position, Some(place));
        for (way, holds) in [
            ("index not at the data's start", start > 0),
            ("not the first entry", entry > 0),
            ("not the last entry", entry + 1 < count),
            ("other entries offend too", entries.len() > 1),
        ] {
            ways.extend(holds.then_some(way));
        }
        ways
    }

    /// Faults of each number stand where a wrong position would show.
    #[test]
    fn faults_stand_in_every_place() {
        let mut rng = Rng::new(12);
        let mut met = BTreeMap::new();
        for _ in 0..20_000 {
            let sample = damaged(&mut rng, 12);
            let Sample {
                sharding,
                number,
                file,
            } = &sample;
            let checked = check(sharding, *number, file);
            let Some(first) = checked.err().and_then(|refusal| refusal.minishard) else {
                continue;
            };
            for minishard in first..sharding.minishard_count() {
                let listed = list_minishard(sharding, *number, file, minishard);
                let Err(refusal) = listed else {
                    continue;
                };
                for way in told_apart(&sample, first, minishard, refusal) {
                    *met.entry((refusal.number, way)).or_insert(0) += 1;
                }
            }
        }
        // 7 and 8 have no entry and three ways, the others seven.
        assert_eq!(met.len(), 2 * 3 + 3 * 7, "{met:?}");
        assert!(met.values().all(|count| *count > 100), "{met:?}");
    }

    #[test]
    fn rising_layouts_are_of_the_old_class() {
        let mut rng = Rng::new(11);
        for _ in 0..2_000 {
            let sharding = sharding(&mut rng);
            let number = number(&mut rng, &sharding);
            let content = content(&mut rng, &sharding, number, 12);
            let file = lay_out_in(&mut rng, &sharding, &content, Order::Rising);
            for minishard in 0..sharding.minishard_count() as usize {
                let base = sharding.index_end() as usize;
                if read_u64(&file, 16 * minishard) == read_u64(&file, 16 * minishard + 8) {
                    continue;
                }
                let (ids, starts) = exact_sums(&file, base, minishard);
                assert!(ids.windows(2).all(|pair| pair[0] < pair[1]));
                assert!(ids.iter().all(|id| *id <= u64::MAX.into()));
                assert!(starts.iter().all(|(start, _)| *start <= u64::MAX.into()));
            }
        }
    }

    #[test]
    fn layouts_have_each_oddity() {
        let mut rng = Rng::new(5);
        let (mut empty_chunks, mut at_the_end, mut odd_entries) = (0, 0, 0);
        let (mut indexes_before, mut indexes_after, mut overlaps) = (0, 0, 0);
        let (mut falls, mut rises, mut jumps_back, mut overlaps_within) = (0, 0, 0, 0);
        for _ in 0..2_000 {
            let Sample {
                sharding,
                number,
                file,
            } = sound(&mut rng, 12);
            let base = sharding.index_end();
            let mut last_end = 0;
            for minishard in 0..sharding.minishard_count() {
                let at = 16 * minishard as usize;
                let (start, end) = (read_u64(&file, at), read_u64(&file, at + 8));
                odd_entries += usize::from(start == end && start > file.len() as u64);
                let entries = list_minishard(&sharding, number, &file, minishard);
                let entries = entries.expect("sound");
                let mut pairs = entries.windows(2);
                falls += usize::from(pairs.any(|pair| pair[0].id > pair[1].id));
                let mut pairs = entries.windows(2);
                rises += usize::from(pairs.all(|pair| pair[0].id < pair[1].id));
                for pair in entries.windows(2) {
                    let (one, other) = (pair[0], pair[1]);
                    jumps_back += usize::from(other.start < one.start);
                    let shared = one.start.max(other.start)
                        < (one.start + one.length).min(other.start + other.length);
                    overlaps_within += usize::from(shared);
                }
                for entry in entries {
                    empty_chunks += usize::from(entry.length == 0);
                    at_the_end += usize::from(entry.start == file.len() as u64);
                    indexes_before += usize::from(base + end <= entry.start);
                    indexes_after += usize::from(base + start >= entry.start + entry.length);
                    overlaps += usize::from(entry.start < last_end);
                    last_end = last_end.max(entry.start + entry.length);
                }
            }
        }
        for count in [
            empty_chunks,
            at_the_end,
            odd_entries,
            indexes_before,
            indexes_after,
            overlaps,
            falls,
            rises,
            jumps_back,
            overlaps_within,
        ] {
            assert!(count > 100, "{count}");
        }
    }
}
