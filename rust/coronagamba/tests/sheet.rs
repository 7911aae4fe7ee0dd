//! Measures and holdings sheets, against numbers that each test knows by how it
//! made the shards.

use coronagamba::{Counts, Pair, Refusal, Shard, Sharding, Sheet, Unlisted};

/// Two minishards, one shard.
const TWO: Sharding = Sharding {
    preshift: 0,
    hash: Sharding::IDENTITY,
    minishard_bits: 1,
    shard_bits: 0,
    kind: Sharding::VOLUME,
};

/// The length of its shard index.
const INDEX: usize = 32;

/// Numbers as they stand in a shard.
fn row(numbers: impl IntoIterator<Item = u64>) -> Vec<u8> {
    numbers.into_iter().flat_map(u64::to_le_bytes).collect()
}

/// A sound shard whose second minishard is empty. The first lists so many chunks
/// of this size, one behind the other, behind so many bytes that nothing lists.
fn shard(chunks: u64, size: u64, unlisted: u64) -> Vec<u8> {
    let data = unlisted + chunks * size;
    let starts = (0..chunks).map(|chunk| if chunk == 0 { unlisted } else { 0 });
    let ids = (0..chunks).map(|chunk| if chunk == 0 { 0 } else { 2 });
    [
        row([data, data + 24 * chunks, 0, 0]),
        vec![b'c'; data as usize],
        row(ids.chain(starts).chain((0..chunks).map(|_| size))),
    ]
    .concat()
}

/// Chunks, their size and unlisted bytes of the shards that the tests add.
const MADE: [[u64; 3]; 6] = [
    [0, 0, 0],
    [1, 0, 3],
    [2, 5, 0],
    [3, 1, 1],
    [40, 7, 12],
    [5, 11, 0],
];

#[test]
fn measures() {
    for [chunks, size, unlisted] in MADE {
        let file = shard(chunks, size, unlisted);
        let settled = file.len() as u64 - unlisted;
        let counts = Counts {
            chunks,
            bytes: chunks * size,
            unlisted,
            settled,
        };
        let shard = Shard::open(TWO, 0, &file);
        assert_eq!(shard.measure(), Ok(counts));
        assert_eq!(shard.unlisted(), Ok(unlisted));
        assert_eq!(shard.settled_length(Unlisted::Drop), Ok(settled));
        let (index, data) = file.split_at(INDEX);
        assert_eq!(Pair::open(TWO, 0, index, data).measure(), Ok(counts));
    }
}

/// Bytes that two ids list count twice among the chunks' and are unlisted for
/// neither.
#[test]
fn bytes_that_are_listed_twice() {
    let rows = row([4, 4, 0, u64::MAX - 2, 3, 4]);
    let file = [row([5, 53, 0, 0]), b"abcde".to_vec(), rows].concat();
    // Bytes 0 to 3, and again from 0 on 4: one byte is unlisted.
    let counts = Counts {
        chunks: 2,
        bytes: 7,
        unlisted: 1,
        settled: 32 + 7 + 48,
    };
    assert_eq!(Shard::open(TWO, 0, &file).measure(), Ok(counts));
}

/// A settled form that would be too long has no length, and the shard is sound.
#[test]
fn a_form_that_is_too_long() {
    let (minishards, listed) = (4096, 1 << 18);
    let place = |minishard: u64| listed + 24 * minishard;
    let index = (0..minishards).flat_map(|m| [place(m), place(m + 1)]);
    let entries = (0..minishards).flat_map(|m| [m, 0, listed]);
    let file = [row(index), vec![0; listed as usize], row(entries)].concat();
    let sharding = Sharding {
        minishard_bits: 12,
        ..TWO
    };
    let shard = Shard::open(sharding, 0, &file);
    let counts = Counts {
        chunks: minishards,
        bytes: minishards * listed,
        unlisted: 0,
        settled: Counts::TOO_LONG,
    };
    assert_eq!(shard.measure(), Ok(counts));
    assert_eq!(Counts::TOO_LONG, 1_073_741_825);
    let refusal = shard.settled_length(Unlisted::Drop).unwrap_err();
    assert_eq!(refusal.number, 13);
}

/// What the sheet of all these shards, of one that is too short and of one for a
/// shard number that is not there says.
fn expected() -> [u64; 17] {
    let mut rows = [0; 17];
    (rows[0], rows[2], rows[3]) = (MADE.len() as u64, 1, 1);
    for [chunks, size, unlisted] in MADE {
        rows[14] += chunks;
        rows[15] += chunks * size;
        rows[16] += unlisted;
    }
    rows
}

/// In each of these orders, a file or a pair: the sheet is the same.
#[test]
fn the_order_makes_no_difference() {
    let mut files: Vec<(u64, Vec<u8>)> = MADE
        .iter()
        .map(|[chunks, size, unlisted]| (0, shard(*chunks, *size, *unlisted)))
        .collect();
    files.push((0, vec![0; INDEX - 1]));
    files.push((1, vec![0; INDEX]));
    for turn in 0..files.len() {
        files.rotate_left(1);
        files.swap(0, turn);
        let mut sheet = Sheet::default();
        let mut parts = [Sheet::default(); 3];
        for (place, (number, file)) in files.iter().enumerate() {
            let part = &mut parts[place * turn % 3];
            let whole = Shard::open(TWO, *number, file);
            if place % 2 == turn % 2 || file.len() < INDEX {
                sheet.add(&whole).unwrap();
                part.add(&whole).unwrap();
                continue;
            }
            let (index, data) = file.split_at(INDEX);
            let pair = Pair::open(TWO, *number, index, data);
            sheet.add_pair(&pair).unwrap();
            part.add_pair(&pair).unwrap();
        }
        assert_eq!(sheet.rows(), expected());
        let [mut joined, second, third] = parts;
        joined.join(&third).unwrap();
        joined.join(&second).unwrap();
        assert_eq!(joined, sheet);
    }
}

#[test]
fn rows_and_their_names() {
    let rows: [u64; 17] = std::array::from_fn(|row| 100 + row as u64);
    let sheet = Sheet::from_rows(rows);
    assert_eq!(sheet.rows(), rows);
    assert_eq!(sheet.sound(), 100);
    let refused: Vec<u64> = Sheet::NUMBERS
        .iter()
        .filter_map(|number| sheet.refused(*number))
        .collect();
    assert_eq!(refused, (101..114).collect::<Vec<u64>>());
    assert_eq!(
        (sheet.chunks(), sheet.bytes(), sheet.unlisted()),
        (114, 115, 116)
    );
    for number in 0..=u8::MAX {
        let known = Sheet::NUMBERS.contains(&number);
        assert_eq!(sheet.refused(number).is_some(), known);
    }
    assert_eq!(Sheet::default().rows(), [0; 17]);
}

/// Up to 2^64 - 1 a total is exact; past it the sheet stays.
#[test]
fn totals_at_their_end() {
    let file = shard(3, 4, 2);
    let shard = Shard::open(TWO, 0, &file);
    for (row, adds) in [(0, 1), (14, 3), (15, 12), (16, 2)] {
        let mut rows = [7; 17];
        rows[row] = u64::MAX - adds;
        let mut sheet = Sheet::from_rows(rows);
        sheet.add(&shard).unwrap();
        assert_eq!(sheet.rows()[row], u64::MAX);
        rows[row] += 1;
        let mut sheet = Sheet::from_rows(rows);
        let refusal = sheet.add(&shard).unwrap_err();
        assert_eq!(refusal.number, Refusal::TOTAL_TOO_LARGE);
        assert_eq!(sheet.rows(), rows);
    }
    // What is refused adds to its own row alone.
    let short = Shard::open(TWO, 0, &file[..9]);
    let mut rows = [u64::MAX; 17];
    rows[3] = 0;
    let mut sheet = Sheet::from_rows(rows);
    sheet.add(&short).unwrap();
    assert_eq!(sheet.refused(6), Some(1));
    assert_eq!(sheet.bytes(), u64::MAX);
}
