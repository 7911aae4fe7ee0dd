//! Lookup, the whole-shard check, the count of unlisted bytes and settling.

use crate::runner::{bytes, numbers, pass, touched, Measure};
use bench::plain::shards as plain;
use coronagamba::{Shard, Sharding, Unlisted};
use reference::settle::settled_form;
use std::hint::black_box;

/// A shard of number 0, with the ids that it lists in random order.
pub struct Sample {
    pub sharding: Sharding,
    pub ids: Vec<u64>,
    pub file: Vec<u8>,
    /// Its settled form, where it is not settled itself.
    form: Option<Vec<u8>>,
}

/// A shard of this many chunks of `length` bytes each.
pub fn sample(hash: u8, minishard_bits: u8, chunks: usize, length: usize) -> Sample {
    let sharding = reference::sharding::Sharding {
        preshift: 0,
        hash,
        minishard_bits,
        shard_bits: 0,
        kind: 0,
    };
    let ids = numbers(chunks);
    let body = bytes(length);
    let content: Vec<(u64, &[u8])> = ids.iter().map(|id| (*id, &body[..])).collect();
    Sample {
        sharding: compare::sides::sharding(&sharding),
        file: settled_form(&sharding, &content),
        ids,
        form: None,
    }
}

/// A shard of one minishard that lists its chunks of `length` bytes each in
/// order of arrival, which is random; they lie in that order too.
fn arrival(chunks: usize, length: usize) -> Sample {
    let sample = sample(0, 0, chunks, length);
    let data = chunks * length;
    let before = [0].iter().chain(&sample.ids);
    let steps = sample.ids.iter().zip(before);
    let rows = steps
        .map(|(id, before)| id.wrapping_sub(*before))
        .chain(std::iter::repeat_n(0, chunks))
        .chain(std::iter::repeat_n(length as u64, chunks));
    let end = data + 24 * chunks;
    let mut file = [data as u64, end as u64].map(u64::to_le_bytes).concat();
    // The chunks have the same bytes, so that those of the settled form do.
    file.extend(&sample.file[file.len()..][..data]);
    file.extend(rows.flat_map(u64::to_le_bytes));
    Sample {
        form: Some(sample.file),
        file,
        ..sample
    }
}

/// The same chunks and minishards, the chunks at random places of the data.
fn scattered(sample: Sample, length: usize) -> Sample {
    let chunks = sample.ids.len();
    let mut places: Vec<(u64, u64)> = numbers(chunks).into_iter().zip(0..).collect();
    places.sort_unstable();
    let mut places = places.into_iter().map(|(_, place)| place * length as u64);
    let data = (chunks * length) as u64;
    let (mut index, mut tables) = (Vec::new(), Vec::new());
    for table in sample.indexes() {
        let row = table.len() / 3;
        let begin = data + tables.len() as u64;
        index.extend(
            [begin, begin + table.len() as u64]
                .map(u64::to_le_bytes)
                .concat(),
        );
        tables.extend(&table[..row]);
        let mut end = 0u64;
        for start in places.by_ref().take(row / 8) {
            tables.extend(start.wrapping_sub(end).to_le_bytes());
            end = start + length as u64;
        }
        tables.extend(&table[2 * row..]);
    }
    // All chunks have the same bytes.
    let body = bytes(length).repeat(chunks);
    Sample {
        file: [index, body, tables].concat(),
        form: Some(sample.file),
        ..sample
    }
}

impl Sample {
    /// Its settled form.
    pub fn settled(&self) -> &[u8] {
        self.form.as_ref().unwrap_or(&self.file)
    }

    /// The library's view of it.
    pub fn open(&self) -> Shard<'_> {
        Shard::open(self.sharding, 0, black_box(&self.file))
    }

    /// The shard index.
    pub fn shard_index(&self) -> &[u8] {
        &self.file[..16 << self.sharding.minishard_bits]
    }

    /// The indexes of the minishards, as the shard index places them.
    fn indexes(&self) -> Vec<&[u8]> {
        let shard_index = self.shard_index();
        let data = &self.file[shard_index.len()..];
        let number = |bytes: &[u8]| u64::from_le_bytes(bytes.try_into().expect("8 bytes"));
        shard_index
            .chunks_exact(16)
            .map(|entry| &data[number(&entry[..8]) as usize..number(&entry[8..]) as usize])
            .collect()
    }
}

/// Lookups of listed ids; the limit loads the index of each id's minishard.
fn lookups(name: &str, sample: &Sample, count: usize, bar: Option<f64>) {
    let shard = sample.open();
    let ids: Vec<u64> = sample.ids.iter().cycle().take(count).copied().collect();
    let measure = Measure {
        name,
        operations: ids.len(),
        bar,
    };
    let indexes = sample.indexes();
    let minishard = |id: &u64| sample.sharding.place(*id).unwrap_or_default().minishard;
    let asked: Vec<&[u8]> = ids
        .iter()
        .map(|id| indexes[minishard(id) as usize])
        .collect();
    let library = |id: &u64| shard.lookup(*id).unwrap_or_default().start;
    let plain = |id: &u64| {
        let place = plain::lookup(&sample.sharding, 0, black_box(&sample.file), *id);
        place.unwrap_or_default().0
    };
    measure.run_beside(
        || ids.iter().fold(0, |all, id| all ^ library(id)),
        || ids.iter().fold(0, |all, id| all ^ plain(id)),
        || asked.iter().fold(0, |all, index| all ^ pass(index)),
    );
}

/// The whole-shard check, timed by chunk.
fn checks(name: &str, sample: &Sample, bar: Option<f64>) {
    checks_by(name, sample, sample.ids.len(), bar);
}

/// The whole-shard check, timed by so many operations; the limit loads all
/// indexes.
fn checks_by(name: &str, sample: &Sample, operations: usize, bar: Option<f64>) {
    let measure = Measure {
        name,
        operations,
        bar,
    };
    let indexes = sample.indexes();
    measure.run_beside(
        || u64::from(sample.open().check().is_ok()),
        || u64::from(plain::check(&sample.sharding, 0, black_box(&sample.file)).is_ok()),
        || {
            let all = pass(sample.shard_index());
            indexes.iter().fold(all, |all, index| all ^ pass(index))
        },
    );
}

/// The count of unlisted bytes, which begins with the check, beside the library's
/// own check; timed by chunk. There are none.
fn counting(name: &str, sample: &Sample, bar: Option<f64>) {
    let measure = Measure {
        name,
        operations: sample.ids.len(),
        bar,
    };
    measure.run(
        || sample.open().unlisted().unwrap_or(u64::MAX),
        || u64::from(sample.open().check().is_err()),
    );
}

/// Settling, timed by KiB of output; the limit copies the file.
fn settling(name: &str, sample: &Sample, bar: Option<f64>) {
    let length = sample.settled().len();
    let (mut ours, mut theirs) = (touched(length), touched(length));
    let measure = Measure {
        name,
        operations: length >> 10,
        bar,
    };
    let mut copied = touched(length);
    measure.run_beside(
        || {
            sample
                .open()
                .settle(Unlisted::Drop, black_box(&mut ours))
                .unwrap_or(0) as u64
        },
        || {
            let file = black_box(&sample.file);
            plain::settle(&sample.sharding, 0, file, black_box(&mut theirs)).unwrap_or(0) as u64
        },
        || {
            black_box(&mut copied[..]).copy_from_slice(black_box(&sample.file));
            u64::from(copied[length / 2])
        },
    );
    assert!(ours == sample.settled(), "{name}: the library's bytes");
    assert!(theirs == sample.settled(), "{name}: the plain bytes");
}

/// Two MiB of chunks, which fit the caches, in many minishards and in one.
fn small_shards() {
    let short = sample(1, 9, 1 << 15, 64);
    lookups("lookup, 64 chunks in the minishard", &short, 1 << 12, None);
    checks("check, 64 in a minishard, a chunk", &short, None);
    settling("settling, 2 MiB of 64 bytes, a KiB", &short, None);
    let long = sample(0, 0, 1 << 15, 64);
    lookups("lookup, identity, 32768 chunks", &long, 10, None);
    checks("check, identity, a chunk", &long, None);
    counting(
        "unlisted, 64 in a minishard, beside the check",
        &short,
        Some(1.2),
    );
    counting("unlisted, identity, beside the check", &long, Some(1.2));
}

/// 256 MiB in a million chunks.
fn many_chunks() {
    let many = sample(1, 10, 1 << 20, 256);
    lookups(
        "lookup, 2^20 chunks, 1024 in a minishard",
        &many,
        1 << 11,
        Some(1.3),
    );
    checks("check, 2^20 chunks, a chunk", &many, Some(1.3));
    counting(
        "unlisted, 2^20 in file order, beside the check",
        &many,
        Some(1.2),
    );
    settling("settling, 2^20 of 256 bytes, a KiB", &many, Some(1.5));
    counting(
        "unlisted, 2^20 in random order, beside the check",
        &scattered(many, 256),
        Some(20.0),
    );
}

/// 512 MiB in chunks of 64 KiB.
fn large_chunks() {
    let large = sample(1, 6, 1 << 13, 1 << 16);
    settling("settling, 512 MiB of 64 KiB, a KiB", &large, Some(1.25));
}

/// One minishard in random order, which has to be sorted.
fn arrivals() {
    let short = arrival(1 << 16, 64);
    lookups("lookup, 2^16 in order of arrival", &short, 2, None);
    checks(
        "check, 2^16 in order of arrival, a chunk",
        &short,
        Some(3.0),
    );
    settling(
        "settling, 2^16 in order of arrival, a KiB",
        &short,
        Some(3.0),
    );
    counting(
        "unlisted, 2^16 in order of arrival, beside the check",
        &short,
        Some(1.2),
    );
    let long = arrival(1 << 20, 64);
    checks(
        "check, 2^20 in order of arrival, a chunk",
        &long,
        Some(20.0),
    );
    settling(
        "settling, 2^20 in order of arrival, a KiB",
        &long,
        Some(20.0),
    );
}

/// 2^16 minishards, nearly all of them empty.
fn nearly_empty() {
    const BITS: u8 = 16;
    let sparse = sample(1, BITS, 16, 64);
    checks_by(
        "check, 2^16 minishards, 16 chunks, a minishard",
        &sparse,
        1 << BITS,
        Some(1.3),
    );
    settling(
        "settling, 2^16 minishards, 16 chunks, a KiB",
        &sparse,
        Some(1.3),
    );
}

/// Prints the lines.
pub fn run() {
    small_shards();
    nearly_empty();
    arrivals();
    many_chunks();
    large_chunks();
}
