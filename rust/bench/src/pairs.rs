//! A shard of the earlier edition, in two files, beside the same shard in one:
//! both by the library.

use crate::runner::{touched, Measure};
use crate::shards::{sample, Sample};
use coronagamba::{Pair, Unlisted};
use std::hint::black_box;

/// The ratio two files / one file that is not to be passed.
const BAR: Option<f64> = Some(1.05);

/// The two files.
struct Halves {
    index: Vec<u8>,
    data: Vec<u8>,
}

/// The shard cut where its shard index ends; no byte of it is shared.
fn cut(sample: &Sample) -> Halves {
    let (index, data) = sample.file.split_at(sample.shard_index().len());
    Halves {
        index: index.to_vec(),
        data: data.to_vec(),
    }
}

impl Halves {
    /// The library's view of them.
    fn open(&self, sample: &Sample) -> Pair<'_> {
        let (index, data) = (black_box(&self.index), black_box(&self.data));
        Pair::open(sample.sharding, 0, index, data)
    }
}

/// Lookups of listed ids.
fn lookups(name: &str, sample: &Sample, count: usize) {
    let halves = cut(sample);
    let (pair, shard) = (halves.open(sample), sample.open());
    let ids: Vec<u64> = sample.ids.iter().cycle().take(count).copied().collect();
    let measure = Measure {
        name,
        operations: ids.len(),
        bar: BAR,
    };
    let in_pair = |id: &u64| pair.lookup(*id).unwrap_or_default().start;
    let in_shard = |id: &u64| shard.lookup(*id).unwrap_or_default().start;
    measure.run(
        || ids.iter().fold(0, |all, id| all ^ in_pair(id)),
        || ids.iter().fold(0, |all, id| all ^ in_shard(id)),
    );
}

/// The check, timed by chunk.
fn checks(name: &str, sample: &Sample) {
    let halves = cut(sample);
    let measure = Measure {
        name,
        operations: sample.ids.len(),
        bar: BAR,
    };
    measure.run(
        || u64::from(halves.open(sample).check().is_ok()),
        || u64::from(sample.open().check().is_ok()),
    );
}

/// Settling, timed by KiB of output.
fn settling(name: &str, sample: &Sample) {
    let halves = cut(sample);
    let length = sample.settled().len();
    let (mut one, mut other) = (touched(length), touched(length));
    let measure = Measure {
        name,
        operations: length >> 10,
        bar: BAR,
    };
    measure.run(
        || {
            let pair = halves.open(sample);
            pair.settle(Unlisted::Drop, black_box(&mut one))
                .unwrap_or(0) as u64
        },
        || {
            let shard = sample.open();
            shard
                .settle(Unlisted::Drop, black_box(&mut other))
                .unwrap_or(0) as u64
        },
    );
    assert!(one == other, "{name}: the bytes");
}

/// Prints the lines.
pub fn run() {
    let short = sample(1, 9, 1 << 15, 64);
    lookups("pair beside one file: lookup, 64 chunks", &short, 1 << 12);
    checks("pair beside one file: check, a chunk", &short);
    settling("pair beside one file: settling, 2 MiB, a KiB", &short);
    let many = sample(1, 10, 1 << 20, 256);
    lookups("pair beside one file: lookup, 1024 chunks", &many, 1 << 11);
    checks("pair beside one file: check, 2^20 chunks, a chunk", &many);
    settling("pair beside one file: settling, 2^20 chunks, a KiB", &many);
}
