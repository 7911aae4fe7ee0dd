//! Random deposit cards, allowed and damaged.

use crate::{places, Rng};
use reference::card::{to_bytes, Card};
use reference::endian::put_u32;
use reference::sharding::MESH;

/// What a card of a volume may say, allowed or not.
pub fn meaning(rng: &mut Rng) -> Card {
    let mut volume = places::volume(rng);
    if rng.once_in(3) {
        volume.offset = [0; 3];
    }
    Card {
        sharding: places::wild_sharding(rng),
        volume,
    }
}

/// What a card may say with any number for its kind, allowed or not.
pub fn meaning_of_kinds(rng: &mut Rng) -> Card {
    let mut card = meaning(rng);
    card.sharding.kind = places::kind(rng);
    card
}

/// The bytes of an allowed card of a volume.
pub fn allowed(rng: &mut Rng) -> Vec<u8> {
    loop {
        if let Ok(bytes) = to_bytes(&meaning(rng)) {
            return bytes;
        }
    }
}

/// Changes one place of a card, or its length.
pub fn damage(rng: &mut Rng, bytes: &mut Vec<u8>) {
    match rng.below(6) {
        0 => bytes.truncate(rng.index(bytes.len() + 1)),
        1 => {
            let more = rng.index(20);
            bytes.extend(rng.bytes(more));
        }
        2 => bytes.truncate(46),
        3 => {
            let axis = *rng.pick(&[19, 23, 27, 34, 38, 42]);
            let value = rng.edge_u32();
            // A card that was cut short already has no such number.
            let _ = put_u32(bytes, axis, value);
        }
        4 => {
            let length = bytes.len();
            bytes[length.saturating_sub(12)..].fill(0);
        }
        _ => {
            if !bytes.is_empty() {
                let at = rng.index(bytes.len());
                bytes[at] = rng.edge(8) as u8;
            }
        }
    }
}

/// The bytes of an allowed card of a mesh.
pub fn allowed_mesh(rng: &mut Rng) -> Vec<u8> {
    [&allowed(rng)[..], KIND].concat()
}

/// The field that says mesh.
const KIND: &[u8] = &[8, 1, 0, MESH];

/// Changes the last field of a card: its body, its length, its tag, its place,
/// or how often it is there, which may be never.
fn damage_kind(rng: &mut Rng, bytes: &mut Vec<u8>) {
    let at = bytes.len().saturating_sub(KIND.len());
    match rng.below(6) {
        0 => {
            bytes.pop();
            bytes.push(rng.edge(8) as u8);
        }
        1 => {
            let fields: [&[u8]; 4] = [&[8, 0, 0], &[8, 2, 0, 1, 1], &[7, 1, 0, 1], &[9, 1, 0, 1]];
            bytes.truncate(at);
            bytes.extend(*rng.pick(&fields));
        }
        2 => bytes.extend(KIND),
        3 => bytes.truncate(at),
        _ => {
            bytes.truncate(at);
            let place = *rng.pick(&[0, 4, 16, 31, 46]);
            let place = place.min(bytes.len());
            bytes.splice(place..place, KIND.iter().copied());
        }
    }
}

/// A card of a mesh that was damaged in up to two places; it may still be
/// allowed, and that of a volume.
pub fn damaged_mesh(rng: &mut Rng) -> Vec<u8> {
    let mut bytes = allowed_mesh(rng);
    for _ in 0..rng.below(3) {
        if rng.once_in(2) {
            damage(rng, &mut bytes);
        } else {
            damage_kind(rng, &mut bytes);
        }
    }
    bytes
}

/// A card of either kind that was damaged in up to two places.
pub fn any(rng: &mut Rng) -> Vec<u8> {
    if rng.once_in(2) {
        damaged(rng)
    } else {
        damaged_mesh(rng)
    }
}

/// A card of a volume that was damaged in up to two places; it may still be
/// allowed.
pub fn damaged(rng: &mut Rng) -> Vec<u8> {
    let mut bytes = allowed(rng);
    for _ in 0..rng.below(3) {
        damage(rng, &mut bytes);
    }
    bytes
}

#[cfg(test)]
mod tests {
    use super::*;
    use crate::Met;
    use reference::card::read;
    use std::collections::BTreeMap;

    #[test]
    fn damage_reaches_each_refusal() {
        let mut rng = Rng::new(1);
        let (mut reads, mut writes) = (Met::new(), Met::new());
        for _ in 0..20_000 {
            reads.note(&read(&damaged(&mut rng)));
            writes.note(&to_bytes(&meaning(&mut rng)));
        }
        reads.assert_exactly(&[0, 1, 2, 3, 14]);
        writes.assert_exactly(&[0, 1, 2, 3]);
    }

    #[test]
    fn cards_of_both_kinds_and_of_each_length() {
        let mut rng = Rng::new(2);
        let (mut reads, mut writes) = (Met::new(), Met::new());
        let mut lengths = BTreeMap::new();
        for _ in 0..20_000 {
            let bytes = damaged_mesh(&mut rng);
            let card = read(&bytes);
            reads.note(&card);
            if let Ok(card) = card {
                *lengths
                    .entry((card.sharding.kind, bytes.len()))
                    .or_insert(0) += 1;
            }
            writes.note(&to_bytes(&meaning_of_kinds(&mut rng)));
        }
        reads.assert_exactly(&[0, 1, 2, 3, 14]);
        writes.assert_exactly(&[0, 1, 2, 3]);
        let expected = [(0, 46), (0, 61), (1, 50), (1, 65)];
        assert!(lengths.keys().copied().eq(expected), "{lengths:?}");
        assert!(lengths.values().all(|count| *count > 50), "{lengths:?}");
    }
}
