//! Info files.

use crate::runner::{pass, Measure};
use bench::plain::infos as plain;
use coronagamba::Card;
use std::hint::black_box;

/// A scale whose member that is not used holds this.
fn scale(other: &str) -> String {
    format!(
        r#"{{"chunk_sizes": [[64, 64, 64]], "encoding": "raw", "key": "8_8_8",
   "resolution": [8, 8, 8.5], "hidden": {other},
   "sharding": {{"@type": "neuroglancer_uint64_sharded_v1", "data_encoding": "raw",
    "hash": "murmurhash3_x86_128", "minishard_bits": 6, "minishard_index_encoding": "raw",
    "preshift_bits": 9, "shard_bits": 15}},
   "size": [6446, 6643, 8090], "voxel_offset": [-64, 0, 0]}}"#
    )
}

/// An info file with these scales.
fn info(scales: &[String], other: &str) -> String {
    let scales = scales.join(",\n  ");
    format!("{{\"data_type\": \"uint8\", \"mesh\": {other},\n \"scales\": [{scales}],\n \"type\": \"image\"}}\n")
}

/// As many of these values in an array as make a text of this length.
fn filling(length: usize, value: &str) -> String {
    let count = length / (value.len() + 2);
    format!("[{}]", vec![value; count.max(1)].join(", "))
}

/// A value with objects, arrays, numbers, words and strings, some of them with
/// escapes and wide characters.
const VALUE: &str = r#"{"id": 1234567, "position": [-12.5, 3e4, 0], "name": "n\u00e9t é", "on": true, "of": {"x": [null, "abcdefghij"]}}"#;

/// The shapes of a text of about this length, and the scale that is read: all
/// of it other scales, in a member beside the scales, or in the scale itself.
fn shapes(length: usize) -> [(&'static str, String, u64); 3] {
    let count = (length / scale("false").len()).max(1);
    let rest = length.saturating_sub(700);
    [
        (
            "of scales",
            info(&vec![scale("false"); count], "null"),
            count as u64 - 1,
        ),
        (
            "beside the scales",
            info(&[scale("false")], &filling(rest, VALUE)),
            0,
        ),
        (
            "in the scale",
            info(&[scale(&filling(rest, VALUE))], "null"),
            0,
        ),
    ]
}

/// One number for an answer.
fn folded(answer: Result<Card, u8>) -> u64 {
    answer.map_or_else(u64::from, |card| {
        u64::from(card.sharding.shard_bits) << 32 ^ u64::from(card.volume.size.z)
    })
}

/// Prints the lines.
pub fn run() {
    for (length, size) in [(1 << 10, "1 KiB"), (1 << 20, "1 MiB"), (64 << 20, "64 MiB")] {
        for (shape, text, scale) in shapes(length) {
            let text = text.as_bytes();
            let times = ((1 << 20) / text.len()).max(1);
            let name = format!("info file, {size} {shape}, a KiB");
            let measure = Measure {
                name: &name,
                operations: (times * text.len()).div_ceil(1024),
                bar: Some(1.5),
            };
            assert!(plain::read(text, scale).is_ok(), "{name}");
            measure.run_beside(
                || {
                    (0..times).fold(0, |all, _| {
                        let read = Card::read_info(black_box(text), scale);
                        all + folded(read.map_err(|refusal| refusal.number))
                    })
                },
                || {
                    (0..times).fold(0, |all, _| {
                        all + folded(plain::read(black_box(text), scale))
                    })
                },
                || (0..times).fold(0, |all, _| all ^ pass(text)),
            );
        }
    }
}
