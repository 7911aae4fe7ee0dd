//! What a shard holds, the yearly holdings sheet over many shards, and the
//! program `sheet` as a function from its input to its output (document 02,
//! order 13; docs/SHEET.md).

use crate::endian::{read_u32, read_u64};
use crate::pair::Pair;
use crate::sharding::Sharding;
use crate::{settle, shard, unlisted, Refusal, MOST_SHARD_BYTES};
use std::collections::BTreeMap;

/// The numbers that the check can give: 23 of a pair alone.
pub const NUMBERS: [u8; 13] = [1, 5, 6, 7, 8, 9, 10, 11, 15, 16, 17, 21, 23];

/// The most bytes that a shard may have for the program.
pub const MOST_BYTES: u32 = 65_536;

/// What a sound shard holds.
#[derive(Clone, Copy, Debug, Default, PartialEq, Eq, Hash)]
pub struct Counts {
    /// Chunks listed.
    pub chunks: u64,
    /// The sum of their sizes.
    pub bytes: u128,
    /// Unlisted bytes.
    pub unlisted: u64,
    /// The length of the settled form, or one more than 1 GiB where it is longer
    /// than 1 GiB.
    pub settled: u64,
}

/// What a shard holds, or the refusal of the check.
pub fn measure(sharding: &Sharding, number: u64, file: &[u8]) -> Result<Counts, Refusal> {
    shard::check(sharding, number, file)?;
    let listed = shard::list(sharding, number, file)?;
    Ok(Counts {
        chunks: listed.len() as u64,
        bytes: listed.iter().map(|entry| u128::from(entry.length)).sum(),
        unlisted: unlisted::unlisted(sharding, number, file)?,
        settled: settle::length_of(sharding, number, file, true).unwrap_or(MOST_SHARD_BYTES + 1),
    })
}

/// The same of a pair of files.
pub fn measure_pair(pair: &Pair, sharding: &Sharding, number: u64) -> Result<Counts, Refusal> {
    pair.check(sharding, number)?;
    measure(sharding, number, &pair.joined())
}

/// The sheet.
#[derive(Clone, Debug, Default, PartialEq, Eq)]
pub struct Sheet {
    /// Shards sound.
    pub sound: u64,
    /// Shards refused, by the number of the refusal.
    pub refused: BTreeMap<u8, u64>,
    /// Over sound shards: chunks listed, the sum of their sizes, unlisted bytes.
    pub held: [u64; 3],
}

impl Sheet {
    /// All its numbers, in the order in which they are printed.
    pub fn rows(&self) -> Vec<u64> {
        let refused = NUMBERS.map(|number| self.refused.get(&number).copied().unwrap_or(0));
        [&[self.sound], &refused[..], &self.held[..]].concat()
    }

    /// The sheet of these numbers.
    pub fn of(rows: &[u64]) -> Self {
        let refused = NUMBERS.into_iter().zip(rows[1..14].iter().copied());
        Sheet {
            sound: rows[0],
            refused: refused.filter(|&(_, count)| count > 0).collect(),
            held: [rows[14], rows[15], rows[16]],
        }
    }

    /// Adds to each row, or gives 27 and adds to none.
    fn plus(&mut self, more: &[u128]) -> Result<(), u8> {
        let totals = self.rows().into_iter().map(u128::from).zip(more);
        let totals: Option<Vec<u64>> = totals.map(|(a, b)| u64::try_from(a + b).ok()).collect();
        *self = Sheet::of(&totals.ok_or(27)?);
        Ok(())
    }

    /// Adds a shard, by what was found of it.
    pub fn add(&mut self, found: &Result<Counts, Refusal>) -> Result<(), u8> {
        let mut more = vec![0; 17];
        match found {
            Ok(counts) => {
                more[0] = 1;
                more[14] = counts.chunks.into();
                more[15] = counts.bytes;
                more[16] = counts.unlisted.into();
            }
            Err(refusal) => {
                let row = NUMBERS.iter().position(|&number| number == refusal.number);
                more[1 + row.expect("a number of the check")] = 1;
            }
        }
        self.plus(&more)
    }

    /// Adds another sheet.
    pub fn join(&mut self, other: &Sheet) -> Result<(), u8> {
        let more: Vec<u128> = other.rows().into_iter().map(u128::from).collect();
        self.plus(&more)
    }

    /// The sheet's lines.
    pub fn lines(&self) -> String {
        let mut lines = format!("shards sound {}\n", self.sound);
        for number in NUMBERS {
            let count = self.refused.get(&number).unwrap_or(&0);
            lines += &format!("shards refused {number} {count}\n");
        }
        for (name, count) in ["chunks", "chunk bytes", "unlisted bytes"]
            .iter()
            .zip(self.held)
        {
            lines += &format!("{name} {count}\n");
        }
        lines
    }
}

/// A shard as it stands in the program's input.
pub fn record(sharding: &Sharding, number: u64, file: &[u8]) -> Vec<u8> {
    let s = sharding;
    let mut bytes = vec![s.preshift, s.hash, s.minishard_bits, s.shard_bits, s.kind];
    bytes.extend(number.to_le_bytes());
    bytes.extend((file.len() as u32).to_le_bytes());
    bytes.extend(file);
    bytes
}

/// What the program `sheet` prints for this input.
pub fn print(mut input: &[u8]) -> Vec<u8> {
    let mut sheet = Sheet::default();
    let last = loop {
        if input.is_empty() {
            break "";
        }
        if input.len() < 17 {
            break "cut\n";
        }
        let sharding = Sharding {
            preshift: input[0],
            hash: input[1],
            minishard_bits: input[2],
            shard_bits: input[3],
            kind: input[4],
        };
        let (number, length) = (read_u64(input, 5), read_u32(input, 13));
        if length > MOST_BYTES {
            break "too long\n";
        }
        let Some(file) = input.get(17..17 + length as usize) else {
            break "cut\n";
        };
        if sheet.add(&measure(&sharding, number, file)).is_err() {
            break "refused 27\n";
        }
        input = &input[17 + length as usize..];
    };
    (sheet.lines() + last).into_bytes()
}

#[cfg(test)]
mod tests {
    use super::*;
    use crate::sharding::VOLUME;

    const SHARDING: Sharding = Sharding {
        preshift: 0,
        hash: 0,
        minishard_bits: 0,
        shard_bits: 0,
        kind: VOLUME,
    };

    /// Chunks `ab` and `cde` of ids 4 and 10, with a byte between them.
    fn file() -> Vec<u8> {
        let rows = |numbers: &[u64]| -> Vec<u8> {
            numbers
                .iter()
                .flat_map(|number| number.to_le_bytes())
                .collect()
        };
        [
            rows(&[6, 54]),
            b"ab-cde".to_vec(),
            rows(&[4, 6, 0, 1, 2, 3]),
        ]
        .concat()
    }

    #[test]
    fn a_sound_shard_and_a_refused_one() {
        let input = [
            record(&SHARDING, 0, &file()),
            record(&SHARDING, 1, &file()),
            record(&SHARDING, 0, &[]),
        ];
        let text = String::from_utf8(print(&input.concat())).unwrap();
        let lines: Vec<&str> = text.lines().collect();
        assert_eq!(lines.len(), 17);
        assert_eq!(lines[0], "shards sound 1");
        assert_eq!(lines[2], "shards refused 5 1");
        assert_eq!(lines[3], "shards refused 6 1");
        assert_eq!(
            lines[14..],
            ["chunks 2", "chunk bytes 5", "unlisted bytes 1"]
        );
    }

    #[test]
    fn a_cut_or_overlong_input() {
        let whole = record(&SHARDING, 0, &file());
        for (input, last) in [
            (&whole[..], "unlisted bytes 1"),
            (&whole[..16], "cut"),
            (&whole[..whole.len() - 1], "cut"),
        ] {
            let text = String::from_utf8(print(input)).unwrap();
            assert_eq!(text.lines().last(), Some(last));
        }
        let mut long = whole.clone();
        long[13..17].copy_from_slice(&(MOST_BYTES + 1).to_le_bytes());
        let text = String::from_utf8(print(&long)).unwrap();
        assert_eq!(text.lines().last(), Some("too long"));
    }

    #[test]
    fn a_total_at_the_edge() {
        let mut sheet = Sheet::default();
        sheet.held[1] = u64::MAX - 5;
        let full = sheet.clone();
        assert_eq!(sheet.add(&measure(&SHARDING, 0, &file())), Ok(()));
        assert_eq!(sheet.held, [2, u64::MAX, 1]);
        let before = sheet.clone();
        assert_eq!(sheet.add(&measure(&SHARDING, 0, &file())), Err(27));
        assert_eq!(sheet.join(&full), Err(27));
        assert_eq!(sheet, before);
    }
}
