//! Deposit cards with one byte changed, and of each kind, against the
//! reference.

use compare::sides::{self, answer};
use coronagamba::Card;
use reference::card;
use reference::sharding::{MESH, VOLUME};
use testkit::{cards, Rng};

/// Reads on both sides.
fn same_reading(bytes: &[u8]) -> Result<Card, coronagamba::Refusal> {
    let expected = card::read(bytes).map(|card| sides::card(&card));
    let read = Card::read(bytes);
    assert_eq!(read, answer(expected), "{bytes:?}");
    read
}

#[test]
fn every_change_of_one_byte() {
    let mut rng = Rng::new(3);
    for cards in [cards::allowed, cards::allowed_mesh] {
        for _ in 0..20 {
            let bytes = cards(&mut rng);
            for at in 0..bytes.len() {
                for value in 0..=u8::MAX {
                    let mut changed = bytes.clone();
                    changed[at] = value;
                    let _ = same_reading(&changed);
                }
            }
        }
    }
}

/// A card of a mesh is the volume's with the field of tag 8 behind it, of which
/// each cut, and the field at every other place or twice, is 14.
#[test]
fn the_field_of_the_kind() {
    let mut rng = Rng::new(4);
    let mut lengths = Vec::new();
    for _ in 0..200 {
        let volume = cards::allowed(&mut rng);
        let mesh = [&volume[..], &[8, 1, 0, 1]].concat();
        lengths.extend([volume.len(), mesh.len()]);
        let (one, other) = (same_reading(&volume), same_reading(&mesh));
        let (one, other) = (one.expect("allowed"), other.expect("allowed"));
        assert_eq!((one.sharding.kind, other.sharding.kind), (VOLUME, MESH));
        assert_eq!(one.volume, other.volume);
        assert_eq!(other.to_bytes(), Ok(mesh.clone()));
        let malformed = answer::<Card>(Err(14u8));
        for length in volume.len() + 1..mesh.len() {
            assert_eq!(same_reading(&mesh[..length]), malformed);
        }
        for place in 0..volume.len() {
            let (front, back) = volume.split_at(place);
            let moved = [front, &[8, 1, 0, 1], back].concat();
            assert!(same_reading(&moved).is_err());
        }
        let twice = [&mesh[..], &[8, 1, 0, 1]].concat();
        assert_eq!(same_reading(&twice), malformed);
    }
    lengths.sort_unstable();
    lengths.dedup();
    assert_eq!(lengths, [46, 50, 61, 65]);
}

/// Each number for a kind: written, and as the body of the field.
#[test]
fn every_number_of_a_kind() {
    let mut rng = Rng::new(5);
    for _ in 0..20 {
        let volume = cards::allowed(&mut rng);
        let meaning = card::read(&volume).expect("it is allowed");
        for kind in 0..=u8::MAX {
            let mut other = meaning;
            other.sharding.kind = kind;
            let written = sides::card(&other).to_bytes();
            assert_eq!(written, answer(card::to_bytes(&other)), "{kind}");
            let number = written.err().map(|refusal| refusal.number);
            assert_eq!(number, (kind > MESH).then_some(1), "{kind}");
            let read = same_reading(&[&volume[..], &[8, 1, 0, kind]].concat());
            assert_eq!(read.is_ok(), kind == MESH, "{kind}");
            assert!(read.is_ok() || read.unwrap_err().number == 14);
        }
        // The kind moves no id.
        let id = rng.edge_u64();
        let places = [VOLUME, MESH].map(|kind| {
            let mut other = meaning.sharding;
            other.kind = kind;
            sides::sharding(&other).place(id)
        });
        assert_eq!(places[0], places[1]);
    }
}
