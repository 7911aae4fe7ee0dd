//! The deposit card (document 01, "Deposit card"; document 02, order 7).

use crate::endian::{read_u16, read_u32, write_front};
use crate::grid::{grid_size, key_bits, Volume};
use crate::sharding::{Sharding, MESH, VOLUME};

/// What a card says.
#[derive(Clone, Copy, Debug, PartialEq, Eq, Hash)]
pub struct Card {
    /// The sharding specification.
    pub sharding: Sharding,
    /// The volume.
    pub volume: Volume,
}

/// A field of a card: its tag and its body.
type Field<'a> = (u8, &'a [u8]);

/// The fields of a card, or 14 where one is cut short.
fn fields(mut rest: &[u8]) -> Result<Vec<Field<'_>>, u8> {
    let mut fields = Vec::new();
    while !rest.is_empty() {
        if rest.len() < 3 {
            return Err(14);
        }
        let length = usize::from(read_u16(rest, 1));
        let body = rest.get(3..3 + length).ok_or(14)?;
        fields.push((rest[0], body));
        rest = &rest[3 + length..];
    }
    Ok(fields)
}

/// The three numbers of a body of 12 bytes.
fn three(body: &[u8]) -> [u32; 3] {
    std::array::from_fn(|axis| read_u32(body, 4 * axis))
}

/// The body of a field whose tag and length must be these.
fn expect<'a>(field: Option<&Field<'a>>, tag: u8, length: usize) -> Result<&'a [u8], u8> {
    match field {
        Some((t, body)) if *t == tag && body.len() == length => Ok(body),
        _ => Err(14),
    }
}

/// The offset that the fields behind the required ones begin with, and the
/// fields behind it. One of 0, 0, 0 is not written down.
fn offset<'a, 'b>(rest: &'b [Field<'a>]) -> Result<([u32; 3], &'b [Field<'a>]), u8> {
    match rest {
        [field @ (7, _), rest @ ..] => match three(expect(Some(field), 7, 12)?) {
            [0, 0, 0] => Err(14),
            offset => Ok((offset, rest)),
        },
        _ => Ok(([0; 3], rest)),
    }
}

/// The kind that the last fields say: none for a volume, one for a mesh.
fn kind(rest: &[Field]) -> Result<u8, u8> {
    match rest {
        [] => Ok(VOLUME),
        [(8, [1])] => Ok(MESH),
        _ => Err(14),
    }
}

/// The meaning of a well-formed card, or 14.
fn parse(bytes: &[u8]) -> Result<Card, u8> {
    let fields = fields(bytes)?;
    let body = |tag: u8, length| expect(fields.get(usize::from(tag) - 1), tag, length);
    let byte = |tag| body(tag, 1).map(|body| body[0]);
    let numbers = |tag| body(tag, 12).map(three);
    let (preshift, hash) = (byte(1)?, byte(2)?);
    let (minishard_bits, shard_bits) = (byte(3)?, byte(4)?);
    let (size, chunk) = (numbers(5)?, numbers(6)?);
    let (offset, rest) = offset(&fields[6..])?;
    Ok(Card {
        sharding: Sharding {
            preshift,
            hash,
            minishard_bits,
            shard_bits,
            kind: kind(rest)?,
        },
        volume: Volume {
            size,
            chunk,
            offset: offset.map(|number| number as i32),
        },
    })
}

/// Tests 1, 2 and 3 of what a card says.
pub(crate) fn judge(card: &Card) -> Result<(), u8> {
    card.sharding.allowed()?;
    if key_bits(grid_size(&card.volume)?) > 64 {
        return Err(3);
    }
    Ok(())
}

/// Reads a card, or gives 14, then 1, 2, 3.
pub fn read(bytes: &[u8]) -> Result<Card, u8> {
    let card = parse(bytes)?;
    judge(&card)?;
    Ok(card)
}

/// The bytes of a card, or 1, 2, 3.
pub fn to_bytes(card: &Card) -> Result<Vec<u8>, u8> {
    judge(card)?;
    let Sharding {
        preshift,
        hash,
        minishard_bits,
        shard_bits,
        kind,
    } = card.sharding;
    let mut bytes = Vec::new();
    let mut field = |tag: u8, body: &[u8]| {
        bytes.push(tag);
        bytes.extend((body.len() as u16).to_le_bytes());
        bytes.extend(body);
    };
    let row = |numbers: [u32; 3]| numbers.map(u32::to_le_bytes).concat();
    field(1, &[preshift]);
    field(2, &[hash]);
    field(3, &[minishard_bits]);
    field(4, &[shard_bits]);
    field(5, &row(card.volume.size));
    field(6, &row(card.volume.chunk));
    if card.volume.offset != [0; 3] {
        field(7, &row(card.volume.offset.map(|number| number as u32)));
    }
    if kind == MESH {
        field(8, &[1]);
    }
    Ok(bytes)
}

/// Writes a card and gives its length, or 1, 2, 3, then 13.
pub fn write(card: &Card, out: &mut [u8]) -> Result<usize, u8> {
    write_front(&to_bytes(card)?, out)
}

#[cfg(test)]
mod tests {
    use super::*;

    fn card(offset: [i32; 3]) -> Card {
        card_of_kind(VOLUME, offset)
    }

    fn card_of_kind(kind: u8, offset: [i32; 3]) -> Card {
        Card {
            sharding: Sharding {
                preshift: 3,
                hash: 1,
                minishard_bits: 4,
                shard_bits: 5,
                kind,
            },
            volume: Volume {
                size: [100, 200, 300],
                chunk: [64, 32, 16],
                offset,
            },
        }
    }

    #[test]
    fn lengths_and_round_trip() {
        for (offset, length) in [([0, 0, 0], 46), ([0, -1, 0], 61), ([1, 2, i32::MIN], 61)] {
            let bytes = to_bytes(&card(offset)).unwrap();
            assert_eq!(bytes.len(), length);
            assert_eq!(read(&bytes), Ok(card(offset)));
        }
    }

    /// A card that says mesh is the volume's with four bytes behind it.
    #[test]
    fn cards_of_meshes() {
        for (offset, length) in [([0, 0, 0], 50), ([0, -1, 0], 65)] {
            let volume = to_bytes(&card(offset)).unwrap();
            let mesh = to_bytes(&card_of_kind(MESH, offset)).unwrap();
            assert_eq!(mesh.len(), length);
            assert_eq!(mesh, [&volume[..], &[8, 1, 0, 1]].concat());
            assert_eq!(read(&mesh), Ok(card_of_kind(MESH, offset)));
            assert_eq!(read(&mesh[..length - 4]), Ok(card(offset)));
            for short in length - 3..length {
                assert_eq!(read(&mesh[..short]), Err(14));
            }
        }
    }

    /// Another number for a kind is refused, and written nowhere.
    #[test]
    fn other_kinds() {
        let volume = to_bytes(&card([0; 3])).unwrap();
        let mut out = [7; 70];
        for kind in 0..=255 {
            let bytes = [&volume[..], &[8, 1, 0, kind]].concat();
            let read = read(&bytes);
            let written = write(&card_of_kind(kind, [0; 3]), &mut out);
            match kind {
                0 => assert_eq!((read, written), (Err(14), Ok(46))),
                1 => assert_eq!((read.is_ok(), written), (true, Ok(50))),
                _ => assert_eq!((read, written), (Err(14), Err(1))),
            }
        }
    }

    /// Tag 8 stands last, once, with a body of one byte.
    #[test]
    fn the_place_of_the_kind() {
        let whole = to_bytes(&card([1, 2, 3])).unwrap();
        let (front, offset) = whole.split_at(46);
        let kind: &[u8] = &[8, 1, 0, 1];
        let allowed: [&[&[u8]]; 2] = [&[front, kind], &[front, offset, kind]];
        for parts in allowed {
            assert!(read(&parts.concat()).is_ok());
        }
        let malformed: [&[&[u8]]; 9] = [
            &[front, kind, offset],
            &[front, kind, kind],
            &[front, offset, kind, kind],
            &[front, kind, offset, kind],
            &[kind, front],
            &[&front[..16], kind, &front[16..]],
            &[front, &[8, 0, 0]],
            &[front, &[8, 2, 0, 1, 1]],
            &[front, &[9, 1, 0, 1]],
        ];
        for parts in malformed {
            assert_eq!(read(&parts.concat()), Err(14), "{parts:?}");
        }
    }

    #[test]
    fn one_meaning_has_one_card() {
        let mut bytes = to_bytes(&card([1, 0, 0])).unwrap();
        bytes[49] = 0;
        assert_eq!(read(&bytes), Err(14));
    }

    #[test]
    fn malformed_cards() {
        let bytes = to_bytes(&card([1, 2, 3])).unwrap();
        for length in 0..bytes.len() {
            let expected = if length == 46 {
                Ok(card([0; 3]))
            } else {
                Err(14)
            };
            assert_eq!(read(&bytes[..length]), expected);
        }
        for at in [0, 1, 2, 4, 5, 6, 8, 12, 16, 17, 18, 31, 32, 46, 47, 48] {
            let mut changed = bytes.clone();
            changed[at] ^= 1;
            assert_eq!(read(&changed), Err(14), "byte {at}");
        }
        let mut longer = bytes;
        longer.push(0);
        assert_eq!(read(&longer), Err(14));
    }

    #[test]
    fn fourteen_precedes_1_and_2_and_3_comes_last() {
        let mut bytes = to_bytes(&card([0; 3])).unwrap();
        bytes[7] = 2;
        bytes[19..23].fill(0);
        assert_eq!(read(&bytes), Err(1));
        assert_eq!(read(&bytes[..45]), Err(14));
        bytes[7] = 0;
        assert_eq!(read(&bytes), Err(2));
        bytes[19..31].fill(255);
        bytes[34..46].copy_from_slice(&[1, 0, 0, 0, 1, 0, 0, 0, 1, 0, 0, 0]);
        assert_eq!(read(&bytes), Err(3));
    }
}
