//! Intake: a shard that is written while its chunks come in parts.

use crate::runner::{bytes, numbers, touched, Measure};
use bench::plain::intakes as plain;
use coronagamba::{Intake, Sharding};
use std::cell::RefCell;
use std::hint::black_box;

/// Chunks of one shard in the order of delivery, all with the same bytes.
struct Delivery {
    sharding: Sharding,
    /// Minishard and id of each.
    chunks: Vec<(u64, u64)>,
    body: Vec<u8>,
}

fn delivery(hash: u8, minishard_bits: u8, chunks: usize, length: usize) -> Delivery {
    let sharding = Sharding {
        preshift: 0,
        hash,
        minishard_bits,
        shard_bits: 0,
        kind: Sharding::VOLUME,
    };
    let minishard = |id: u64| sharding.place(id).unwrap_or_default().minishard;
    let ids = numbers(chunks).into_iter();
    let mut chunks: Vec<(u64, u64)> = ids.map(|id| (minishard(id), id)).collect();
    chunks.sort_unstable();
    Delivery {
        sharding,
        chunks,
        body: bytes(length),
    }
}

impl Delivery {
    /// The length of the shard.
    fn length(&self) -> usize {
        (16 << self.sharding.minishard_bits) + self.chunks.len() * (24 + self.body.len())
    }

    /// Delivers all to the library, and gives the length that it reports.
    fn take_in(&self, part: usize, out: &mut [u8], waiting: &mut [u8]) -> usize {
        let opened = Intake::open(self.sharding, 0, out, waiting);
        let mut intake = opened.expect("there is room");
        for (_, id) in &self.chunks {
            let size = self.body.len() as u64;
            let mut chunk = intake.announce(*id, size).expect("they come in order");
            for part in black_box(&self.body).chunks(part) {
                chunk.part(part).expect("it is owed");
            }
        }
        intake.close().expect("nothing is owed").len()
    }

    /// Writes the same in plain Rust.
    fn write(&self, part: usize, out: &mut [u8]) -> usize {
        plain::write(
            &self.sharding,
            &self.chunks,
            black_box(&self.body),
            part,
            out,
        )
    }

    /// Copies the parts, one behind the other.
    fn copy(&self, part: usize, out: &mut [u8]) {
        let body = black_box(&self.body);
        for chunk in out.chunks_exact_mut(body.len()) {
            for (to, from) in chunk.chunks_mut(part).zip(body.chunks(part)) {
                to.copy_from_slice(from);
            }
        }
    }
}

/// The intake of all, timed by KiB of the shard, beside a copy of each part to
/// its place and the rows behind each minishard; the limit copies the parts. All
/// write to the same memory, whose pages count for much.
fn intake(name: &str, delivery: &Delivery, part: usize, bar: Option<f64>) {
    let length = delivery.length();
    let out = RefCell::new(touched(length));
    let mut waiting = touched(16 * delivery.chunks.len());
    let measure = Measure {
        name,
        operations: length >> 10,
        bar,
    };
    let mut library = || delivery.take_in(part, black_box(&mut out.borrow_mut()), &mut waiting);
    let plain = || delivery.write(part, black_box(&mut out.borrow_mut()));
    library();
    let ours = out.borrow().clone();
    out.borrow_mut().fill(0xa5);
    plain();
    assert!(ours == *out.borrow(), "{name}: the bytes");
    drop(ours);
    measure.run_beside(
        || library() as u64,
        || plain() as u64,
        || {
            let mut out = out.borrow_mut();
            delivery.copy(part, black_box(&mut out));
            u64::from(out[length / 2])
        },
    );
}

/// Prints the lines.
pub fn run() {
    for (hash, named) in [(0, "identity"), (1, "murmur")] {
        let large = delivery(hash, 6, 1 << 12, 1 << 16);
        let name = format!("intake, {named}, 256 MiB of 64 KiB in parts of 4 KiB, a KiB");
        intake(&name, &large, 1 << 12, Some(1.15));
        let name = format!("intake, {named}, 256 MiB of 64 KiB, whole, a KiB");
        intake(&name, &large, 1 << 16, Some(1.15));
        let few = delivery(hash, 2, 1 << 4, 1 << 16);
        let name = format!("intake, {named}, 1 MiB of 64 KiB in parts of 4 KiB, a KiB");
        intake(&name, &few, 1 << 12, None);
        let small = delivery(hash, 9, 1 << 15, 64);
        let name = format!("intake, {named}, 2 MiB of 64 bytes, whole, a KiB");
        intake(&name, &small, 64, None);
    }
}
