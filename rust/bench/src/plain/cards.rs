//! Deposit cards in plain Rust, with the same tests in the same order.

use super::places::{bits, grid, judged};
use coronagamba::{Card, Extents, Offset, Sharding, Volume};

/// The tags and the bodies' lengths of the six fields that each card has.
const FIELDS: [(u8, usize); 6] = [(1, 1), (2, 1), (3, 1), (4, 1), (5, 12), (6, 12)];

/// Takes the body of a field of this tag and length off the front, or gives 14.
fn field<'a>(rest: &mut &'a [u8], tag: u8, length: usize) -> Result<&'a [u8], u8> {
    let (head, behind) = rest.split_at_checked(3).ok_or(14)?;
    if head != [tag, length as u8, 0] {
        return Err(14);
    }
    let (body, behind) = behind.split_at_checked(length).ok_or(14)?;
    *rest = behind;
    Ok(body)
}

/// The three numbers of a body.
fn three(body: &[u8]) -> [u32; 3] {
    std::array::from_fn(|axis| {
        let number = &body[4 * axis..4 * axis + 4];
        u32::from_le_bytes(number.try_into().expect("4 bytes"))
    })
}

/// Tests 1, 2 and 3 of what a card says.
pub(super) fn judge(card: &Card) -> Result<(), u8> {
    judged(&card.sharding)?;
    if grid(&card.volume)?.map(bits).iter().sum::<u32>() > 64 {
        return Err(3);
    }
    Ok(())
}

/// What a card says, or 14, 1, 2 or 3.
pub fn read(bytes: &[u8]) -> Result<Card, u8> {
    let mut rest = bytes;
    let mut bodies: [&[u8]; 6] = Default::default();
    for (body, (tag, length)) in bodies.iter_mut().zip(FIELDS) {
        *body = field(&mut rest, tag, length)?;
    }
    let offset = match rest {
        [7, ..] => match three(field(&mut rest, 7, 12)?) {
            [0, 0, 0] => return Err(14),
            offset => offset,
        },
        _ => [0; 3],
    };
    let kind = match rest {
        [] => Sharding::VOLUME,
        [8, 1, 0, 1] => Sharding::MESH,
        _ => return Err(14),
    };
    let card = Card {
        sharding: Sharding {
            preshift: bodies[0][0],
            hash: bodies[1][0],
            minishard_bits: bodies[2][0],
            shard_bits: bodies[3][0],
            kind,
        },
        volume: Volume {
            size: Extents::from(three(bodies[4])),
            chunk: Extents::from(three(bodies[5])),
            offset: Offset::from(offset.map(|number| number as i32)),
        },
    };
    judge(&card)?;
    Ok(card)
}

/// Writes a field at a place and gives where it ends.
fn put(out: &mut [u8], at: usize, tag: u8, body: &[u8]) -> usize {
    let end = at + 3 + body.len();
    out[at..at + 3].copy_from_slice(&[tag, body.len() as u8, 0]);
    out[at + 3..end].copy_from_slice(body);
    end
}

/// Writes a field of three numbers likewise.
fn put_three(out: &mut [u8], at: usize, tag: u8, numbers: [u32; 3]) -> usize {
    let mut body = [0; 12];
    for (place, number) in body.chunks_exact_mut(4).zip(numbers) {
        place.copy_from_slice(&number.to_le_bytes());
    }
    put(out, at, tag, &body)
}

/// Writes a card and gives its length, or 1, 2, 3 or 13.
pub fn write(card: &Card, out: &mut [u8]) -> Result<usize, u8> {
    judge(card)?;
    let (spec, volume) = (card.sharding, card.volume);
    let offset = <[i32; 3]>::from(volume.offset);
    let mesh = spec.kind == Sharding::MESH;
    let length = if offset == [0; 3] { 46 } else { 61 } + if mesh { 4 } else { 0 };
    if out.len() < length {
        return Err(13);
    }
    let bytes = [
        spec.preshift,
        spec.hash,
        spec.minishard_bits,
        spec.shard_bits,
    ];
    let mut at = 0;
    for (tag, byte) in (1..).zip(bytes) {
        at = put(out, at, tag, &[byte]);
    }
    at = put_three(out, at, 5, volume.size.into());
    at = put_three(out, at, 6, volume.chunk.into());
    if offset != [0; 3] {
        at = put_three(out, at, 7, offset.map(|number| number as u32));
    }
    if mesh {
        put(out, at, 8, &[1]);
    }
    Ok(length)
}
