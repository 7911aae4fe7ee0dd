//! Deposit cards.

use crate::runner::Measure;
use bench::plain::cards as plain;
use coronagamba::{Card, Sharding, Volume};
use std::hint::black_box;

const TIMES: usize = 100_000;

/// A card with an offset, which has all seven fields.
fn card() -> Card {
    Card {
        sharding: Sharding {
            preshift: 6,
            hash: Sharding::MURMUR,
            minishard_bits: 6,
            shard_bits: 11,
            kind: 0,
        },
        volume: Volume::new([6446, 6643, 8090], [64; 3], [-64, 0, 1000]),
    }
}

/// One number for what a card says.
fn folded(card: &Card) -> u64 {
    u64::from(card.sharding.shard_bits) << 32 ^ u64::from(card.volume.size.z)
}

/// Reading a card.
fn reading(bytes: &[u8]) {
    Measure {
        name: "card, reading",
        operations: TIMES,
        bar: None,
    }
    .run(
        || {
            (0..TIMES).fold(0, |all, _| {
                all ^ Card::read(black_box(bytes)).map_or(1, |card| folded(&card))
            })
        },
        || {
            (0..TIMES).fold(0, |all, _| {
                all ^ plain::read(black_box(bytes)).map_or(1, |card| folded(&card))
            })
        },
    );
}

/// Writing a card.
fn writing(card: &Card) {
    let (mut ours, mut theirs) = ([0; 61], [0; 61]);
    Measure {
        name: "card, writing",
        operations: TIMES,
        bar: None,
    }
    .run(
        || {
            (0..TIMES).fold(0, |all, _| {
                all + black_box(card).write(black_box(&mut ours)).unwrap_or(0) as u64
            })
        },
        || {
            (0..TIMES).fold(0, |all, _| {
                all + plain::write(black_box(card), black_box(&mut theirs)).unwrap_or(0) as u64
            })
        },
    );
    assert_eq!(ours, theirs, "the cards");
}

/// Prints the lines.
pub fn run() {
    let card = card();
    reading(&card.to_bytes().expect("the card is allowed"));
    writing(&card);
}
