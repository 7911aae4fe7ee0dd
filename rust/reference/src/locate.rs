//! The program `locate` as a function from its input to its output.

use crate::card::{self, Card};
use crate::endian::{read_u16, read_u32};
use crate::grid::{key_of, Cell};
use crate::names::shard_name;
use crate::sharding::place_of;

/// The card and the bytes behind it, or the refusal of the card.
fn split(input: &[u8]) -> Result<(Card, &[u8]), u8> {
    if input.len() < 2 {
        return Err(14);
    }
    let end = 2 + usize::from(read_u16(input, 0));
    let bytes = input.get(2..end).ok_or(14)?;
    Ok((card::read(bytes)?, &input[end..]))
}

/// The line of one cell, or its refusal.
fn line(card: &Card, cell: Cell) -> Result<String, u8> {
    let key = key_of(&card.volume, cell)?;
    let place = place_of(&card.sharding, key)?;
    let file = shard_name(&card.sharding, place.shard)?;
    Ok(format!("{key} {file} {}", place.minishard))
}

/// The line as printed, a refusal as `refused N`.
fn printed(line: Result<String, u8>) -> String {
    match line {
        Ok(line) => line + "\n",
        Err(number) => format!("refused {number}\n"),
    }
}

/// What `locate` prints for this input.
pub fn locate(input: &[u8]) -> Vec<u8> {
    let (card, cells) = match split(input) {
        Ok(parts) => parts,
        Err(number) => return printed(Err(number)).into_bytes(),
    };
    let mut output = String::new();
    let whole = cells.chunks_exact(12);
    let leftover = whole.remainder();
    for cell in whole {
        let cell = std::array::from_fn(|axis| read_u32(cell, 4 * axis));
        output += &printed(line(&card, cell));
    }
    if !leftover.is_empty() {
        output += "cut\n";
    }
    output.into_bytes()
}

#[cfg(test)]
mod tests {
    use super::*;
    use crate::grid::Volume;
    use crate::sharding::{Sharding, MESH, VOLUME};

    fn input(cells: &[Cell]) -> Vec<u8> {
        input_of_kind(VOLUME, cells)
    }

    fn input_of_kind(kind: u8, cells: &[Cell]) -> Vec<u8> {
        let card = Card {
            sharding: Sharding {
                preshift: 0,
                hash: 0,
                minishard_bits: 1,
                shard_bits: 2,
                kind,
            },
            volume: Volume {
                size: [100; 3],
                chunk: [64; 3],
                offset: [0; 3],
            },
        };
        let bytes = card::to_bytes(&card).unwrap();
        let mut input = (bytes.len() as u16).to_le_bytes().to_vec();
        input.extend(bytes);
        for number in cells.concat() {
            input.extend(number.to_le_bytes());
        }
        input
    }

    #[test]
    fn the_example() {
        let input = input(&[[1, 0, 1], [1, 1, 0], [2, 0, 0]]);
        let expected = "5 2.shard 1\n3 1.shard 1\nrefused 2\n";
        assert_eq!(locate(&input), expected.as_bytes());
    }

    /// A card of a mesh is four bytes longer and prints the same.
    #[test]
    fn the_kind_changes_nothing_else() {
        let cells = [[1, 0, 1], [2, 0, 0]];
        let (volume, mesh) = (input(&cells), input_of_kind(MESH, &cells));
        assert_eq!((volume[0], mesh[0]), (46, 50));
        assert_eq!(mesh[48..52], [8, 1, 0, 1]);
        assert_eq!(locate(&mesh), locate(&volume));
    }

    #[test]
    fn leftovers_print_cut() {
        let input = input(&[[1, 0, 1]]);
        for less in 1..12 {
            assert_eq!(locate(&input[..input.len() - less]), b"cut\n");
        }
        assert_eq!(locate(&input[..48]), b"");
    }

    #[test]
    fn a_card_cut_short_is_14() {
        let input = input(&[]);
        for length in 0..48 {
            assert_eq!(locate(&input[..length]), b"refused 14\n");
        }
    }

    #[test]
    fn a_refused_card_ends_the_program() {
        let mut input = input(&[[1, 0, 1]]);
        input[5] = 64;
        assert_eq!(locate(&input), b"refused 1\n");
    }
}
