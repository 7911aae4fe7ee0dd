//! Refusals of a deposit card: 14, and 1 to 3 of what it says.

use coronagamba::{Extents, Offset, Refusal, Sharding, Volume};

use super::places::{bad_fields, told_bits, told_fields, told_zeros, zero_extents};
use super::words::{u32_at, Diagnosis, Place};
use crate::text::counted;

/// A field of a card.
struct Field {
    tag: u8,
    name: &'static str,
    /// The length of its body.
    length: u16,
}

/// The fields that every card has, in their order (scope, 'Deposit card').
const FIELDS: [Field; 6] = [
    field(1, "preshift", 1),
    field(2, "hash", 1),
    field(3, "minishard bits", 1),
    field(4, "shard bits", 1),
    field(5, "volume size", 12),
    field(6, "chunk size", 12),
];
/// The fields that may stand behind them, in this order.
const VOXEL_OFFSET: Field = field(7, "voxel offset", 12);
const KIND: Field = field(8, "kind", 1);

/// Bytes of tag and length before a body.
const HEAD: usize = 3;
/// Bytes of the fields that every card has.
const SHORT: usize = 46;
/// The body of the field that says mesh; a volume has none.
const MESH: u8 = 1;
/// Where the bodies of volume size, chunk size and voxel offset begin.
const SIZE: usize = 19;
const CHUNK: usize = 34;
const OFFSET: usize = 49;

const fn field(tag: u8, name: &'static str, length: u16) -> Field {
    Field { tag, name, length }
}

impl Field {
    /// As a complaint names it.
    fn named(&self) -> String {
        format!("{}, tag {}", self.name, self.tag)
    }

    /// Its bytes, with tag and length.
    fn bytes(&self) -> usize {
        HEAD + usize::from(self.length)
    }
}

/// A refusal of a card: 14, 1, 2 or 3.
pub fn of_card(bytes: &[u8], refusal: Refusal) -> Diagnosis {
    let told = match refusal.number {
        14 => malformed(bytes),
        1..=3 => of_meaning(bytes, refusal.number),
        _ => None,
    };
    told.unwrap_or_else(Diagnosis::not_found_again)
}

/// A byte of the card and what stands there.
fn byte(place: usize, what: &str) -> Place {
    Place::byte(place as u64, "the card", what)
}

/// The first place at which a card is malformed.
fn malformed(bytes: &[u8]) -> Option<Diagnosis> {
    let mut place = 0;
    for field in &FIELDS {
        if let Some(told) = bad_field(bytes, place, field) {
            return Some(told);
        }
        place += field.bytes();
    }
    let mut open = vec![&VOXEL_OFFSET, &KIND];
    while let Some(tag) = bytes.get(place) {
        let Some(at) = open.iter().position(|field| field.tag == *tag) else {
            return Some(bad_end(bytes, place, &open));
        };
        if let Some(told) = bad_field(bytes, place, open[at]) {
            return Some(told);
        }
        place += open[at].bytes();
        // Tags rise, each once.
        open.drain(..=at);
    }
    zero_offset(bytes).or_else(|| no_mesh(bytes))
}

/// What is wrong with a byte behind which only these fields may follow.
fn bad_end(bytes: &[u8], place: usize, open: &[&Field]) -> Diagnosis {
    let names: Vec<String> = open.iter().map(|field| field.named()).collect();
    if names.is_empty() {
        let more = (bytes.len() - place) as u64;
        return Diagnosis::new(
            format!("{} behind the last field", counted(more, "byte")),
            "a card of 46 bytes, of 61 with a voxel offset, and of 4 more for a mesh",
            byte(place, "the first byte too many"),
        );
    }
    Diagnosis::new(
        format!("tag {}", bytes[place]),
        format!("{}, or the end of the card", names.join(", or ")),
        byte(place, "a field's tag"),
    )
}

/// What is wrong with the field that should begin here.
fn bad_field(bytes: &[u8], place: usize, field: &Field) -> Option<Diagnosis> {
    let name = field.named();
    let rest = bytes.get(place..)?;
    let cut = || {
        Diagnosis::new(
            format!("the card ends at byte {}", bytes.len()),
            format!("{name}: {} bytes from byte {place} on", field.bytes()),
            "the card's length: was it cut short?",
        )
    };
    let Some(tag) = rest.first() else {
        return Some(cut());
    };
    if *tag != field.tag {
        return Some(Diagnosis::new(
            format!("tag {tag}"),
            name,
            byte(place, "a field's tag"),
        ));
    }
    let Some(length) = rest.get(1..HEAD) else {
        return Some(cut());
    };
    let length = u16::from_le_bytes([length[0], length[1]]);
    if length != field.length {
        return Some(Diagnosis::new(
            format!("length {length} for {name}"),
            format!("length {}", field.length),
            byte(place + 1, "a field's length, two bytes"),
        ));
    }
    let whole = rest.len() >= HEAD + usize::from(length);
    (!whole).then(cut)
}

/// A kind other than mesh, of a card whose fields are whole.
fn no_mesh(bytes: &[u8]) -> Option<Diagnosis> {
    let place = bytes.len().checked_sub(1)?;
    let kind = *bytes.last().filter(|_| has_kind(bytes))?;
    (kind != MESH).then(|| {
        Diagnosis::new(
            format!("kind {kind}"),
            "kind 1, a mesh: a card without tag 8 means a volume, and one meaning has one card",
            byte(place, "kind"),
        )
    })
}

/// Whether a card whose fields are whole has the last one.
fn has_kind(bytes: &[u8]) -> bool {
    let without = [SHORT, SHORT + VOXEL_OFFSET.bytes()];
    without.contains(&(bytes.len().wrapping_sub(KIND.bytes())))
}

/// An offset of 0,0,0 that is written out.
fn zero_offset(bytes: &[u8]) -> Option<Diagnosis> {
    let offset = numbers(bytes, OFFSET)?;
    (offset == [0; 3]).then(|| {
        Diagnosis::new(
            "voxel offset 0,0,0, written out",
            "no tag 7: a card without it means 0,0,0, and one meaning has one card",
            byte(SHORT, "tag 7"),
        )
    })
}

/// The three numbers at a place.
fn numbers(bytes: &[u8], place: usize) -> Option<[u32; 3]> {
    let number = |axis: u64| u32_at(bytes, place as u64 + 4 * axis);
    Some([number(0)?, number(1)?, number(2)?])
}

/// Refusal 1, 2 or 3 of what a card of the right form says.
fn of_meaning(bytes: &[u8], number: u8) -> Option<Diagnosis> {
    let volume = volume(bytes)?;
    Some(match number {
        1 => {
            let bad = bad_fields(&sharding(bytes)?);
            let places = bad
                .iter()
                .map(|bad| byte(4 * bad.place + HEAD, FIELDS[bad.place].name))
                .collect();
            told_fields(&bad, Place::all(places))
        }
        2 => {
            let zeros = zero_extents(&volume);
            let places = zeros.iter().map(|zero| extent_place(*zero)).collect();
            told_zeros(&zeros, Place::all(places))
        }
        _ => told_bits(
            &volume,
            Place::all(vec![byte(SIZE, "volume size"), byte(CHUNK, "chunk size")]),
        ),
    })
}

/// Where an extent stands, of the six.
fn extent_place(place: usize) -> Place {
    let (begin, name) = if place < 3 {
        (SIZE, "volume size")
    } else {
        (CHUNK, "chunk size")
    };
    byte(begin + 4 * (place % 3), name)
}

/// The sharding of a card of the right form.
fn sharding(bytes: &[u8]) -> Option<Sharding> {
    Some(Sharding {
        preshift: *bytes.get(3)?,
        hash: *bytes.get(7)?,
        minishard_bits: *bytes.get(11)?,
        shard_bits: *bytes.get(15)?,
        kind: u8::from(has_kind(bytes)),
    })
}

/// The extents of a card of the right form.
fn volume(bytes: &[u8]) -> Option<Volume> {
    let extents = |[x, y, z]: [u32; 3]| Extents { x, y, z };
    Some(Volume {
        size: extents(numbers(bytes, SIZE)?),
        chunk: extents(numbers(bytes, CHUNK)?),
        offset: Offset::default(),
    })
}

#[cfg(test)]
mod tests {
    use super::*;
    use coronagamba::Card;

    /// Scope, cases: volume 100,100,100, chunk 64,64,64, identity, preshift 0,
    /// minishard bits 1, shard bits 2, no offset.
    fn sound() -> Vec<u8> {
        let mut card = vec![1, 1, 0, 0, 2, 1, 0, 0, 3, 1, 0, 1, 4, 1, 0, 2];
        card.extend([5, 12, 0, 100, 0, 0, 0, 100, 0, 0, 0, 100, 0, 0, 0]);
        card.extend([6, 12, 0, 64, 0, 0, 0, 64, 0, 0, 0, 64, 0, 0, 0]);
        card
    }

    fn with_offset(x: i32) -> Vec<u8> {
        let mut card = sound();
        card.extend([7, 12, 0]);
        card.extend(x.to_le_bytes());
        card.extend([0; 8]);
        card
    }

    /// The library's refusal of these bytes, explained.
    fn told(bytes: &[u8], number: u8) -> Diagnosis {
        let refusal = Card::read(bytes).unwrap_err();
        assert_eq!(refusal.number, number);
        of_card(bytes, refusal)
    }

    fn changed(place: usize, byte: u8) -> Vec<u8> {
        let mut card = sound();
        card[place] = byte;
        card
    }

    /// A card with the last field, of this kind.
    fn with_kind(card: Vec<u8>, kind: u8) -> Vec<u8> {
        [&card[..], &[8, 1, 0, kind]].concat()
    }

    #[test]
    fn the_sound_cards_are_sound() {
        for card in [sound(), with_offset(-64)] {
            assert!(Card::read(&card).is_ok());
            let mesh = with_kind(card, 1);
            let read = Card::read(&mesh).expect("a mesh card");
            assert_eq!(Some(read.sharding), sharding(&mesh));
        }
    }

    #[test]
    fn kinds() {
        for (card, place) in [(sound(), 46), (with_offset(-64), 61)] {
            let volume = told(&with_kind(card.clone(), 0), 14);
            assert_eq!(volume.found, "kind 0");
            let at = format!("byte {} of the card (kind)", place + 3);
            assert_eq!(volume.look_at, at);
            let cut = told(&with_kind(card.clone(), 1)[..place + 2], 14);
            assert_eq!(
                cut.expected,
                format!("kind, tag 8: 4 bytes from byte {place} on")
            );
            let twice = told(&with_kind(with_kind(card.clone(), 1), 1), 14);
            assert_eq!(twice.found, "4 bytes behind the last field");
            let long = told(&[&card[..], &[8, 2, 0, 1, 1]].concat(), 14);
            assert_eq!(long.found, "length 2 for kind, tag 8");
        }
        // An offset behind the kind.
        let offset = with_offset(-64)[46..].to_vec();
        let turned = told(&[with_kind(sound(), 1), offset].concat(), 14);
        assert_eq!(turned.found, "15 bytes behind the last field");
    }

    #[test]
    fn cards_cut_short() {
        let empty = told(&[], 14);
        assert_eq!(empty.found, "the card ends at byte 0");
        assert_eq!(empty.expected, "preshift, tag 1: 4 bytes from byte 0 on");
        let tag = told(&sound()[..31], 14);
        assert_eq!(tag.found, "the card ends at byte 31");
        assert_eq!(tag.expected, "chunk size, tag 6: 15 bytes from byte 31 on");
        for length in [32, 33, 40] {
            let inside = told(&sound()[..length], 14);
            assert_eq!(inside.found, format!("the card ends at byte {length}"));
            assert_eq!(inside.expected, tag.expected);
        }
        let offset = told(&with_offset(5)[..60], 14);
        assert_eq!(
            offset.expected,
            "voxel offset, tag 7: 15 bytes from byte 46 on"
        );
    }

    #[test]
    fn wrong_tags_and_lengths() {
        let tag = told(&changed(8, 4), 14);
        assert_eq!(tag.found, "tag 4");
        assert_eq!(tag.expected, "minishard bits, tag 3");
        assert_eq!(tag.look_at, "byte 8 of the card (a field's tag)");
        let length = told(&changed(33, 1), 14);
        assert_eq!(length.found, "length 268 for chunk size, tag 6");
        assert_eq!(length.expected, "length 12");
        assert_eq!(
            length.look_at,
            "byte 32 of the card (a field's length, two bytes)"
        );
    }

    #[test]
    fn bytes_too_many() {
        let mut card = sound();
        card.push(9);
        assert_eq!(told(&card, 14).found, "tag 9");
        assert_eq!(
            told(&card, 14).expected,
            "voxel offset, tag 7, or kind, tag 8, or the end of the card"
        );
        let mut card = with_offset(5);
        card.extend([0, 0]);
        assert_eq!(told(&card, 14).found, "tag 0");
        assert_eq!(
            told(&card, 14).expected,
            "kind, tag 8, or the end of the card"
        );
        assert_eq!(
            told(&card, 14).look_at,
            "byte 61 of the card (a field's tag)"
        );
        let mut card = with_kind(sound(), 1);
        card.extend([0, 0]);
        assert_eq!(told(&card, 14).found, "2 bytes behind the last field");
        assert_eq!(
            told(&card, 14).look_at,
            "byte 50 of the card (the first byte too many)"
        );
    }

    #[test]
    fn an_offset_of_zeros() {
        let zeros = told(&with_offset(0), 14);
        assert_eq!(zeros.found, "voxel offset 0,0,0, written out");
        assert_eq!(zeros.look_at, "byte 46 of the card (tag 7)");
    }

    #[test]
    fn what_a_card_says() {
        let field = told(&changed(7, 2), 1);
        assert_eq!(field.found, "hash number 2");
        assert_eq!(field.look_at, "byte 7 of the card (hash)");
        let zero = told(&changed(42, 0), 2);
        assert_eq!(zero.found, "0 as chunk along z");
        assert_eq!(zero.look_at, "byte 42 of the card (chunk size)");
        let mut wide = sound();
        for place in [19, 23, 27] {
            wide[place + 3] = 16;
        }
        for place in [34, 38, 42] {
            wide[place] = 1;
        }
        let bits = told(&wide, 3);
        assert!(
            bits.found.ends_with("29 + 29 + 29 = 87 key bits"),
            "{}",
            bits.found
        );
        assert_eq!(
            bits.look_at,
            "byte 19 of the card (volume size), byte 34 of the card (chunk size)"
        );
    }
}
