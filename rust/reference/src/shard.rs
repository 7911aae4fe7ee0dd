//! Reading a shard: lookup, the whole-shard check and listings (source
//! documents 001 and 002; document 01, "From id to shard"; document 02, orders
//! 2, 6 and 7).

use crate::endian::read_u64;
use crate::sharding::Sharding;
use crate::{manifest, Refusal, MOST_SHARD_BYTES};
use std::collections::HashSet;
use std::ops::Range;

/// A chunk that a minishard index lists, with its place in the file.
#[derive(Clone, Copy, Debug, PartialEq, Eq, Hash)]
pub struct Entry {
    /// The chunk's id.
    pub id: u64,
    /// Where its bytes start, counted from the start of the file.
    pub start: u64,
    /// How many bytes it has.
    pub length: u64,
    /// How many bytes right before it are its fragments: none in a volume.
    pub fragments: u64,
}

impl Entry {
    /// The chunk's bytes in the file that lists it.
    pub fn bytes<'a>(&self, file: &'a [u8]) -> &'a [u8] {
        &file[self.start as usize..][..self.length as usize]
    }

    /// Its fragments' bytes in that file.
    pub fn fragment_bytes<'a>(&self, file: &'a [u8]) -> &'a [u8] {
        let end = self.start as usize;
        &file[end - self.fragments as usize..end]
    }
}

/// A node's fragment in a mesh shard, with its place in the file.
#[derive(Clone, Copy, Debug, PartialEq, Eq, Hash)]
pub struct Fragment {
    /// Where its bytes start, counted from the start of the file.
    pub start: u64,
    /// How many bytes it has.
    pub length: u64,
}

impl Fragment {
    /// The fragment's bytes in the file that holds it.
    pub fn bytes<'a>(&self, file: &'a [u8]) -> &'a [u8] {
        &file[self.start as usize..][..self.length as usize]
    }
}

/// An entry as the rows give it, judged by no test yet.
struct RawEntry {
    id: u64,
    /// Counted from the end of the shard index.
    start: u64,
    size: u64,
    /// The byte of the file at which its id step begins.
    id_step: u64,
    /// The byte of the file at which its start step begins.
    start_step: u64,
}

impl RawEntry {
    /// Where its bytes end, counted from the start of the file and exact.
    fn end(&self, index_end: u64) -> u128 {
        u128::from(index_end) + u128::from(self.start) + u128::from(self.size)
    }

    /// Its bytes, which test 11 has found in the file.
    fn bytes<'a>(&self, file: &'a [u8], index_end: u64) -> &'a [u8] {
        &file[(index_end + self.start) as usize..][..self.size as usize]
    }
}

/// A sum modulo 2^64 of exact numbers.
fn modulo(sum: u128) -> u64 {
    (sum % (1 << 64)) as u64
}

/// Tests 1, 5 for the shard number alone, and 6.
fn open(sharding: &Sharding, number: u64, file: &[u8]) -> Result<(), u8> {
    sharding.allowed()?;
    if number >= sharding.shard_count() {
        return Err(5);
    }
    length_allowed(sharding, file)
}

/// Test 6.
fn length_allowed(sharding: &Sharding, file: &[u8]) -> Result<(), u8> {
    let length = file.len() as u64;
    if length < sharding.index_end() || length > MOST_SHARD_BYTES {
        return Err(6);
    }
    Ok(())
}

/// The bytes of the file that the minishard index fills, after tests 7 and 8,
/// which look at the entry in the shard index; no bytes for an empty entry.
fn minishard_index(
    sharding: &Sharding,
    file: &[u8],
    minishard: u64,
) -> Result<Range<usize>, Refusal> {
    let at = 16 * minishard as usize;
    let start = read_u64(file, at);
    let end = read_u64(file, at + 8);
    if start == end {
        return Ok(0..0);
    }
    let index_end = u128::from(sharding.index_end());
    if start > end || index_end + u128::from(end) > file.len() as u128 {
        return Err(Refusal::at(7, at as u64));
    }
    if !(end - start).is_multiple_of(24) {
        return Err(Refusal::at(8, at as u64));
    }
    let base = sharding.index_end() as usize;
    Ok(base + start as usize..base + end as usize)
}

/// The entries of a minishard index: three rows of n numbers. An id is the sum
/// of the id steps so far, a start the sum of the start steps so far and the
/// sizes before it, both modulo 2^64.
fn raw_entries(file: &[u8], index: Range<usize>) -> Vec<RawEntry> {
    let n = index.len() / 24;
    let place = |number: usize, i: usize| index.start + 8 * (number * n + i);
    let row = |number: usize, i: usize| u128::from(read_u64(file, place(number, i)));
    let mut entries = Vec::with_capacity(n);
    let mut ids = 0;
    let mut starts = 0;
    for i in 0..n {
        ids += row(0, i);
        starts += row(1, i);
        entries.push(RawEntry {
            id: modulo(ids),
            start: modulo(starts),
            size: row(2, i) as u64,
            id_step: place(0, i) as u64,
            start_step: place(1, i) as u64,
        });
        starts += row(2, i);
    }
    entries
}

/// Test 9: no id stands twice. What offends is the later of the pair.
fn ids_differ(entries: &[RawEntry]) -> Result<(), Refusal> {
    let mut seen = HashSet::new();
    match entries.iter().find(|entry| !seen.insert(entry.id)) {
        None => Ok(()),
        Some(entry) => Err(Refusal::at(9, entry.id_step)),
    }
}

/// Test 10: each id belongs to this shard and minishard.
fn ids_belong(
    sharding: &Sharding,
    number: u64,
    minishard: u64,
    entries: &[RawEntry],
) -> Result<(), Refusal> {
    let elsewhere = |entry: &&RawEntry| {
        let place = sharding.place(entry.id);
        place.shard != number || place.minishard != minishard
    };
    match entries.iter().find(elsewhere) {
        None => Ok(()),
        Some(entry) => Err(Refusal::at(10, entry.id_step)),
    }
}

/// Test 11: no chunk's bytes end past the file.
fn chunks_fit(file: &[u8], index_end: u64, entries: &[RawEntry]) -> Result<(), Refusal> {
    let length = file.len() as u128;
    let past = |entry: &&RawEntry| entry.end(index_end) > length;
    match entries.iter().find(past) {
        None => Ok(()),
        Some(entry) => Err(Refusal::at(11, entry.start_step)),
    }
}

/// Tests 15, 16 and 17 of the manifests that a mesh minishard lists: each runs
/// over all of them before the next.
fn manifests_sound(file: &[u8], index_end: u64, entries: &[RawEntry]) -> Result<(), Refusal> {
    let verdict = |entry: &RawEntry| manifest::check(entry.bytes(file, index_end));
    let verdicts: Vec<Result<(), u8>> = entries.iter().map(verdict).collect();
    for number in [15, 16, 17] {
        if let Some(first) = verdicts.iter().position(|found| *found == Err(number)) {
            return Err(Refusal::at(number, entries[first].start_step));
        }
    }
    Ok(())
}

/// How many bytes of fragments stand right before each chunk: in a mesh shard
/// the sum of the sizes in its manifest, after tests 15, 16 and 17 and then 21,
/// that no fragments would start before the index end; in a volume none.
fn fragments_before(
    sharding: &Sharding,
    file: &[u8],
    entries: &[RawEntry],
) -> Result<Vec<u64>, Refusal> {
    if !sharding.is_mesh() {
        return Ok(vec![0; entries.len()]);
    }
    let index_end = sharding.index_end();
    manifests_sound(file, index_end, entries)?;
    let mut lengths = Vec::new();
    for entry in entries {
        let length = manifest::fragments_length(entry.bytes(file, index_end))?;
        if length > entry.start {
            return Err(Refusal::at(21, entry.start_step));
        }
        lengths.push(length);
    }
    Ok(lengths)
}

/// What one minishard lists, in stored order, after tests 7 to 11 of it and, in
/// a mesh shard, 15 to 17 and 21. The specification, the numbers and the file's
/// length are fine already.
fn judged_minishard(
    sharding: &Sharding,
    number: u64,
    file: &[u8],
    minishard: u64,
) -> Result<Vec<Entry>, Refusal> {
    let index_end = sharding.index_end();
    let raw = raw_entries(file, minishard_index(sharding, file, minishard)?);
    ids_differ(&raw)?;
    ids_belong(sharding, number, minishard, &raw)?;
    chunks_fit(file, index_end, &raw)?;
    let fragments = fragments_before(sharding, file, &raw)?;
    let entry = |(raw, fragments): (&RawEntry, u64)| Entry {
        id: raw.id,
        start: index_end + raw.start,
        length: raw.size,
        fragments,
    };
    Ok(raw.iter().zip(fragments).map(entry).collect())
}

/// What one minishard lists, in stored order, or 1, 5 where there is no such
/// shard, 33 where there is no such minishard, 6, then 7 to 11 of it and, in a
/// mesh shard, 15 to 17 and 21.
pub fn list_minishard(
    sharding: &Sharding,
    number: u64,
    file: &[u8],
    minishard: u64,
) -> Result<Vec<Entry>, Refusal> {
    sharding.allowed()?;
    if number >= sharding.shard_count() {
        return Err(Refusal::bare(5));
    }
    if minishard >= sharding.minishard_count() {
        return Err(Refusal::bare(33));
    }
    length_allowed(sharding, file)?;
    judged_minishard(sharding, number, file, minishard)
}

/// Writes id, start and length of each chunk that one minishard lists, in
/// stored order, to the front of `out` and gives how many numbers these are,
/// or the refusals of [`list_minishard`], then 13.
pub fn write_listing(
    sharding: &Sharding,
    number: u64,
    file: &[u8],
    minishard: u64,
    out: &mut [u64],
) -> Result<usize, Refusal> {
    let numbers: Vec<u64> = list_minishard(sharding, number, file, minishard)?
        .iter()
        .flat_map(|entry| [entry.id, entry.start, entry.length])
        .collect();
    let front = out.get_mut(..numbers.len()).ok_or(Refusal::bare(13))?;
    front.copy_from_slice(&numbers);
    Ok(numbers.len())
}

/// What a sound shard lists, by minishard and then in stored order, or the
/// refusal of the whole-shard check.
pub fn list(sharding: &Sharding, number: u64, file: &[u8]) -> Result<Vec<Entry>, Refusal> {
    open(sharding, number, file)?;
    let mut all = Vec::new();
    for minishard in 0..sharding.minishard_count() {
        let entries = judged_minishard(sharding, number, file, minishard)
            .map_err(|fault| fault.in_minishard(minishard))?;
        all.extend(entries);
    }
    Ok(all)
}

/// The whole-shard check: 1, 5, 6, then the first minishard with a fault.
pub fn check(sharding: &Sharding, number: u64, file: &[u8]) -> Result<(), Refusal> {
    list(sharding, number, file).map(|_| ())
}

/// The entry of an id, or 1, 5, 6, then 7 to 11 of its minishard and, in a mesh
/// shard, 15 to 17 and 21, then 12.
pub fn lookup(sharding: &Sharding, number: u64, id: u64, file: &[u8]) -> Result<Entry, Refusal> {
    sharding.allowed()?;
    let place = sharding.place(id);
    if number >= sharding.shard_count() || place.shard != number {
        return Err(Refusal::bare(5));
    }
    length_allowed(sharding, file)?;
    judged_minishard(sharding, number, file, place.minishard)?
        .into_iter()
        .find(|entry| entry.id == id)
        .ok_or(Refusal::bare(12))
}

/// The bytes of an id, as the part of the file; where the lookup refuses, the
/// empty part at the file's start.
pub fn lookup_part<'a>(sharding: &Sharding, number: u64, id: u64, file: &'a [u8]) -> &'a [u8] {
    match lookup(sharding, number, id, file) {
        Ok(entry) => entry.bytes(file),
        Err(_) => &file[..0],
    }
}

/// The fragment of a node of an id's manifest, or the refusals of [`lookup`],
/// then 18 where the manifest has no such level or node or the shard is a
/// volume's.
pub fn fragment(
    sharding: &Sharding,
    number: u64,
    id: u64,
    level: u64,
    node: u64,
    file: &[u8],
) -> Result<Fragment, Refusal> {
    let entry = lookup(sharding, number, id, file)?;
    if !sharding.is_mesh() {
        return Err(Refusal::bare(18));
    }
    let node = manifest::node(entry.bytes(file), level, node)?;
    Ok(Fragment {
        start: entry.start - entry.fragments + node.start,
        length: node.size.into(),
    })
}

/// The bytes of a node's fragment, as the part of the file; where [`fragment`]
/// refuses, the empty part at the file's start.
pub fn fragment_part<'a>(
    sharding: &Sharding,
    number: u64,
    id: u64,
    level: u64,
    node: u64,
    file: &'a [u8],
) -> &'a [u8] {
    match fragment(sharding, number, id, level, node, file) {
        Ok(fragment) => fragment.bytes(file),
        Err(_) => &file[..0],
    }
}

#[cfg(test)]
mod tests {
    use super::*;
    use crate::sharding::VOLUME;

    const ONE: Sharding = Sharding {
        preshift: 0,
        hash: 0,
        minishard_bits: 1,
        shard_bits: 0,
        kind: VOLUME,
    };

    /// Rows of u64, one after another.
    fn row(numbers: &[u64]) -> Vec<u8> {
        numbers.iter().flat_map(|n| n.to_le_bytes()).collect()
    }

    /// Document 01's shard: ids 4 and 10 with bytes `ab` and `cde`.
    fn example() -> Vec<u8> {
        let mut file = row(&[5, 53, 0, 0]);
        file.extend(b"abcde");
        file.extend(row(&[4, 6, 0, 0, 2, 3]));
        file
    }

    /// A shard of two minishards: the first has this index behind 5 chunk
    /// bytes, so that it begins at byte 37; the second has this entry.
    fn with_rows(rows: &[u64], second: [u64; 2]) -> Vec<u8> {
        let mut file = row(&[5, 5 + 8 * rows.len() as u64, second[0], second[1]]);
        file.extend(b"abcde");
        file.extend(row(rows));
        file
    }

    /// The check's verdict on a fault of this minishard at this byte.
    fn fault(number: u8, minishard: u64, position: u64) -> Result<(), Refusal> {
        Err(Refusal::at(number, position).in_minishard(minishard))
    }

    /// A refusal that names no place.
    fn bare<T>(number: u8) -> Result<T, Refusal> {
        Err(Refusal::bare(number))
    }

    #[test]
    fn the_example_is_sound_and_found() {
        let file = example();
        assert_eq!(file.len(), 85);
        assert_eq!(check(&ONE, 0, &file), Ok(()));
        assert_eq!(
            lookup(&ONE, 0, 10, &file),
            Ok(Entry {
                id: 10,
                start: 34,
                length: 3,
                fragments: 0
            })
        );
        assert_eq!(lookup_part(&ONE, 0, 10, &file), b"cde");
        assert_eq!(lookup_part(&ONE, 0, 4, &file), b"ab");
        assert_eq!(lookup(&ONE, 0, 6, &file), bare(12));
        assert_eq!(lookup(&ONE, 0, 7, &file), bare(12));
        assert_eq!(lookup_part(&ONE, 0, 7, &file).as_ptr(), file.as_ptr());
    }

    #[test]
    fn tests_1_5_and_6_come_first() {
        let file = example();
        let bad = Sharding {
            minishard_bits: 17,
            ..ONE
        };
        assert_eq!(lookup(&bad, 9, 4, &[]), bare(1));
        assert_eq!(check(&bad, 9, &[]), bare(1));
        assert_eq!(lookup(&ONE, 1, 4, &[]), bare(5));
        assert_eq!(check(&ONE, 1, &[]), bare(5));
        let two = Sharding {
            shard_bits: 1,
            ..ONE
        };
        assert_eq!(lookup(&two, 1, 4, &[]), bare(5));
        assert_eq!(lookup(&two, 0, 4, &file[..31]), bare(6));
        assert_eq!(check(&ONE, 0, &file[..31]), bare(6));
    }

    #[test]
    fn listings_test_the_minishard_number_after_the_shard_number() {
        let file = example();
        let bad = Sharding {
            minishard_bits: 17,
            ..ONE
        };
        assert_eq!(list_minishard(&bad, 1, &[], 2), bare(1));
        for minishard in [2, 1 << 32, u64::MAX] {
            assert_eq!(list_minishard(&ONE, 0, &[], minishard), bare(33));
            assert_eq!(list_minishard(&ONE, 0, &file, minishard), bare(33));
        }
        for minishard in [0, 2] {
            assert_eq!(list_minishard(&ONE, 1, &[], minishard), bare(5));
            assert_eq!(list_minishard(&ONE, 1, &file, minishard), bare(5));
        }
        assert_eq!(list_minishard(&ONE, 0, &[], 1), bare(6));
        assert_eq!(list_minishard(&ONE, 0, &file, 1), Ok(Vec::new()));
    }

    #[test]
    fn a_listing_is_written_whole_or_not_at_all() {
        let file = example();
        let mut out = [7; 7];
        assert_eq!(write_listing(&ONE, 0, &file, 2, &mut []), bare(33));
        assert_eq!(write_listing(&ONE, 0, &file, 1, &mut []), Ok(0));
        assert_eq!(write_listing(&ONE, 0, &file, 0, &mut out[..5]), bare(13));
        assert_eq!(out, [7; 7]);
        assert_eq!(write_listing(&ONE, 0, &file, 0, &mut out), Ok(6));
        assert_eq!(out, [4, 32, 2, 10, 34, 3, 7]);
    }

    #[test]
    fn a_shard_of_more_than_a_gibibyte_is_refused() {
        let mut file = vec![0; MOST_SHARD_BYTES as usize + 1];
        assert_eq!(check(&ONE, 0, &file), bare(6));
        assert_eq!(lookup(&ONE, 0, 4, &file), bare(6));
        file.pop();
        assert_eq!(check(&ONE, 0, &file), Ok(()));
        assert_eq!(lookup(&ONE, 0, 4, &file), bare(12));
    }

    #[test]
    fn an_index_entry_out_of_the_file_is_7() {
        let sound = [4, 6, 0, 0, 2, 3];
        for second in [[1, 0], [0, 54], [0, u64::MAX], [u64::MAX - 1, u64::MAX]] {
            let file = with_rows(&sound, second);
            assert_eq!(check(&ONE, 0, &file), fault(7, 1, 16));
            assert_eq!(lookup(&ONE, 0, 5, &file), Err(Refusal::at(7, 16)));
            assert_eq!(lookup_part(&ONE, 0, 10, &file), b"cde");
        }
        for at in [0, 1, 54, 1 << 40, u64::MAX] {
            let file = with_rows(&sound, [at, at]);
            assert_eq!(check(&ONE, 0, &file), Ok(()));
            assert_eq!(lookup(&ONE, 0, 5, &file), bare(12));
        }
    }

    #[test]
    fn an_index_of_another_length_is_8() {
        let file = with_rows(&[4, 6, 0, 0, 2, 3], [0, 52]);
        assert_eq!(check(&ONE, 0, &file), fault(8, 1, 16));
        let file = with_rows(&[4, 6, 0, 0, 2, 3], [0, 1]);
        assert_eq!(check(&ONE, 0, &file), fault(8, 1, 16));
    }

    /// The step from one number to another, modulo 2^64.
    fn step(from: u64, to: u64) -> u64 {
        to.wrapping_sub(from)
    }

    #[test]
    fn an_id_that_stands_twice_is_9() {
        let file = with_rows(&[4, 0, 0, 0, 2, 3], [0, 0]);
        assert_eq!(check(&ONE, 0, &file), fault(9, 0, 45));
        // 4, 10, 4: the pair need not be neighbours, and the later one offends.
        let far = with_rows(&[4, 6, step(10, 4), 0, 0, 0, 2, 3, 0], [0, 0]);
        assert_eq!(check(&ONE, 0, &far), fault(9, 0, 53));
        assert_eq!(lookup(&ONE, 0, 10, &far), Err(Refusal::at(9, 53)));
        // 4, 10, 10, 4: the pair that is whole first, not the one that begins first.
        let nested = with_rows(&[4, 6, 0, step(10, 4), 0, 0, 0, 0, 0, 0, 0, 0], [0, 0]);
        assert_eq!(check(&ONE, 0, &nested), fault(9, 0, 53));
        // 0 as the first id and 0 again by a whole turn.
        let turn = [0, u64::MAX, 1, 0, 0, 0, 2, 3, 0];
        assert_eq!(check(&ONE, 0, &with_rows(&turn, [0, 0])), fault(9, 0, 53));
        let file = with_rows(&[0, 2, 0, 0, 2, 3], [0, 0]);
        assert_eq!(lookup_part(&ONE, 0, 0, &file), b"ab");
    }

    #[test]
    fn ids_may_fall() {
        let file = with_rows(&[10, step(10, 4), 0, 0, 2, 3], [0, 0]);
        assert_eq!(check(&ONE, 0, &file), Ok(()));
        assert_eq!(lookup_part(&ONE, 0, 10, &file), b"ab");
        assert_eq!(lookup_part(&ONE, 0, 4, &file), b"cde");
        let listed = list_minishard(&ONE, 0, &file, 0).expect("it is sound");
        assert_eq!(
            listed.iter().map(|entry| entry.id).collect::<Vec<_>>(),
            [10, 4]
        );
        // The largest even id, then 0: a step of 2.
        let file = with_rows(&[u64::MAX - 1, 2, 0, 0, 2, 3], [0, 0]);
        assert_eq!(check(&ONE, 0, &file), Ok(()));
        assert_eq!(lookup_part(&ONE, 0, u64::MAX - 1, &file), b"ab");
        assert_eq!(lookup_part(&ONE, 0, 0, &file), b"cde");
    }

    #[test]
    fn starts_may_jump_back_and_chunks_overlap() {
        // The second chunk begins one byte before the first one ends.
        let file = with_rows(&[4, 6, 0, step(2, 1), 2, 3], [0, 0]);
        assert_eq!(lookup_part(&ONE, 0, 4, &file), b"ab");
        assert_eq!(lookup_part(&ONE, 0, 10, &file), b"bcd");
        // The second chunk stands before the first.
        let file = with_rows(&[4, 6, 3, step(5, 0), 2, 3], [0, 0]);
        assert_eq!(lookup_part(&ONE, 0, 4, &file), b"de");
        assert_eq!(lookup_part(&ONE, 0, 10, &file), b"abc");
    }

    #[test]
    fn ids_of_another_place_are_10() {
        let file = with_rows(&[4, 7, 0, 0, 2, 300], [0, 0]);
        assert_eq!(check(&ONE, 0, &file), fault(10, 0, 45));
        // Minishard 1 names the same index: its first id is at fault there.
        let file = with_rows(&[4, 6, 0, 0, 2, 3], [5, 53]);
        assert_eq!(check(&ONE, 0, &file), fault(10, 1, 37));
        assert_eq!(
            list_minishard(&ONE, 0, &file, 0).map(|all| all.len()),
            Ok(2)
        );
        let told = list_minishard(&ONE, 0, &file, 1);
        assert_eq!(told, Err(Refusal::at(10, 37)));
        let two = Sharding {
            shard_bits: 1,
            ..ONE
        };
        // Id 10 is binary 1010: shard 1, minishard 0.
        let file = with_rows(&[4, 6, 0, 0, 2, 3], [0, 0]);
        assert_eq!(check(&two, 0, &file), fault(10, 0, 45));
    }

    #[test]
    fn chunks_past_the_file_are_11() {
        // The start steps stand at bytes 53 and 61.
        let (sound, first, second) = (Ok(()), fault(11, 0, 53), fault(11, 0, 61));
        for (rows, expected) in [
            ([4, 6, 0, 0, 2, 51], sound),
            ([4, 6, 0, 0, 2, 52], second),
            ([4, 6, 0, 51, 2, 0], sound),
            ([4, 6, 0, 52, 2, 0], second),
            // A step of 2^64-1 goes one byte back, to a start of 1.
            ([4, 6, 0, u64::MAX, 2, 3], sound),
            ([4, 6, 0, u64::MAX, 2, 52], sound),
            ([4, 6, 0, u64::MAX, 2, 53], second),
            // Starts and ends are added up exactly: none of these wraps.
            ([4, 6, u64::MAX, 0, 0, 0], first),
            ([4, 6, u64::MAX, 1, 0, 0], first),
            ([4, 6, 0, 0, 2, u64::MAX], second),
            ([4, 6, 5, 0, 2, u64::MAX - 6], second),
            ([4, 6, 0, u64::MAX - 1, 2, 0], sound),
            ([4, 6, 0, u64::MAX - 2, 2, 0], second),
            ([4, 6, 0, u64::MAX - 2, 2, 1], second),
            ([4, 6, 0, u64::MAX - 31 - 2, 2, 0], second),
        ] {
            assert_eq!(check(&ONE, 0, &with_rows(&rows, [0, 0])), expected);
        }
    }

    #[test]
    fn each_test_runs_over_all_entries_before_the_next() {
        // The second entry breaks 9, the first breaks 10 and 11.
        let file = with_rows(&[5, 0, 0, 0, 999, 3], [1, 0]);
        assert_eq!(check(&ONE, 0, &file), fault(9, 0, 45));
        // Minishard 0 breaks 11, minishard 1 breaks 7.
        let file = with_rows(&[4, 6, 0, 0, 999, 3], [1, 0]);
        assert_eq!(check(&ONE, 0, &file), fault(11, 0, 53));
    }

    /// Positions count from the start of the shard, past its index and past
    /// other minishards; each call passes on that of its own minishard.
    #[test]
    fn positions_of_a_later_minishard() {
        // Minishard 0 at bytes 37 to 85, minishard 1 at bytes 85 to 157 with
        // ids 3, 7, 3: its rows begin at bytes 85, 109 and 133.
        let second = [3, 4, step(7, 3), 0, 0, 0, 1, 1, 1];
        let both = |first: &[u64], second: &[u64]| {
            let mut file = with_rows(first, [53, 53 + 8 * second.len() as u64]);
            file.extend(row(second));
            file
        };
        let file = both(&[4, 6, 0, 0, 2, 3], &second);
        assert_eq!(check(&ONE, 0, &file), fault(9, 1, 101));
        assert_eq!(lookup(&ONE, 0, 7, &file), Err(Refusal::at(9, 101)));
        assert_eq!(lookup_part(&ONE, 0, 10, &file), b"cde");
        let told = list_minishard(&ONE, 0, &file, 1);
        assert_eq!(told, Err(Refusal::at(9, 101)));
        let told = write_listing(&ONE, 0, &file, 1, &mut []);
        assert_eq!(told, Err(Refusal::at(9, 101)));
        // Where minishard 0 has a fault too, the check speaks of that one.
        let file = both(&[4, 6, 0, 0, 2, 999], &second);
        assert_eq!(check(&ONE, 0, &file), fault(11, 0, 61));
        assert_eq!(lookup(&ONE, 0, 7, &file), Err(Refusal::at(9, 101)));
        // The third chunk ends past the file; the fourth would too.
        let second = [3, 4, 4, 4, 0, 0, 999, 0, 1, 1, 1, 1];
        let file = both(&[4, 6, 0, 0, 2, 3], &second);
        assert_eq!(check(&ONE, 0, &file), fault(11, 1, 85 + 8 * 4 + 8 * 2));
    }
}
