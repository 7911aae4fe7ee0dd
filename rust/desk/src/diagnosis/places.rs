//! Refusals of the sharding, the volume, cells, keys and shard numbers: 1 to 5.

use coronagamba::{Cell, Extents, Refusal, Sharding, Volume};

use super::words::{commas, Diagnosis, Place};
use crate::options::{Opt, CHUNK, HASH, KIND, MINISHARD_BITS, PRESHIFT, SHARD_BITS, SIZE};

/// The most key bits of a grid.
const MOST_KEY_BITS: u32 = 64;

/// The most minishard bits of a sharding.
pub(super) const MOST_MINISHARD_BITS: u8 = 16;

/// A field of the sharding that is not allowed.
pub(super) struct BadField {
    /// Its place among the five.
    pub place: usize,
    found: String,
    expected: &'static str,
}

/// The fields of a sharding that are not allowed (scope, refusal 1).
pub(super) fn bad_fields(sharding: &Sharding) -> Vec<BadField> {
    let fields = [
        ("preshift", sharding.preshift, 63, "preshift at most 63"),
        (
            "hash number",
            sharding.hash,
            1,
            "hash identity (0) or murmur (1)",
        ),
        (
            "minishard bits",
            sharding.minishard_bits,
            MOST_MINISHARD_BITS,
            "minishard bits at most 16",
        ),
        (
            "shard bits",
            sharding.shard_bits,
            32,
            "shard bits at most 32",
        ),
        (
            "kind number",
            sharding.kind,
            1,
            "kind volume (0) or mesh (1)",
        ),
    ];
    let bad = fields
        .iter()
        .enumerate()
        .filter(|(_, field)| field.1 > field.2);
    bad.map(|(place, (name, value, _, expected))| BadField {
        place,
        found: format!("{name} {value}"),
        expected,
    })
    .collect()
}

/// Refusal 1, of settings.
pub fn of_sharding(sharding: &Sharding) -> Diagnosis {
    const OPTIONS: [Opt; 5] = [PRESHIFT, HASH, MINISHARD_BITS, SHARD_BITS, KIND];
    let bad = bad_fields(sharding);
    let options: Vec<&str> = bad
        .iter()
        .map(|field| OPTIONS[field.place].name())
        .collect();
    told_fields(&bad, format!("the settings, {}", options.join(", ")))
}

/// Refusal 1 with its place.
pub(super) fn told_fields(bad: &[BadField], look_at: impl Into<Place>) -> Diagnosis {
    if bad.is_empty() {
        return Diagnosis::not_found_again();
    }
    let found: Vec<&str> = bad.iter().map(|field| field.found.as_str()).collect();
    let expected: Vec<&str> = bad.iter().map(|field| field.expected).collect();
    Diagnosis::new(found.join(", "), expected.join(", "), look_at)
}

/// The names of the six extents, in a card's order.
const EXTENT_NAMES: [&str; 6] = [
    "size along x",
    "size along y",
    "size along z",
    "chunk along x",
    "chunk along y",
    "chunk along z",
];

/// The places of the extents that are 0, among the six.
pub(super) fn zero_extents(volume: &Volume) -> Vec<usize> {
    let (size, chunk) = (volume.size, volume.chunk);
    let extents = [size.x, size.y, size.z, chunk.x, chunk.y, chunk.z];
    (0..6).filter(|place| extents[*place] == 0).collect()
}

/// Refusal 2 for extents, with its place.
pub(super) fn told_zeros(zeros: &[usize], look_at: impl Into<Place>) -> Diagnosis {
    let names: Vec<&str> = zeros.iter().map(|place| EXTENT_NAMES[*place]).collect();
    Diagnosis::new(
        format!("0 as {}", names.join(" and ")),
        "each extent at least 1",
        look_at,
    )
}

/// Refusal 2 or 3 of a volume, in settings.
pub fn of_volume(volume: &Volume, refusal: Refusal) -> Diagnosis {
    let zeros = zero_extents(volume);
    match refusal.number {
        2 if !zeros.is_empty() => {
            let size = zeros.iter().any(|place| *place < 3).then_some(SIZE.name());
            let chunk = zeros
                .iter()
                .any(|place| *place >= 3)
                .then_some(CHUNK.name());
            let options: Vec<&str> = size.into_iter().chain(chunk).collect();
            told_zeros(&zeros, format!("the settings, {}", options.join(", ")))
        }
        3 => told_bits(volume, format!("the settings, {SIZE} and {CHUNK}")),
        _ => Diagnosis::not_found_again(),
    }
}

/// Refusal 3 with its place.
pub(super) fn told_bits(volume: &Volume, look_at: impl Into<Place>) -> Diagnosis {
    let Some(grid) = grid(volume) else {
        return Diagnosis::not_found_again();
    };
    let bits = grid.map(axis_bits);
    let total: u32 = bits.iter().sum();
    if total <= MOST_KEY_BITS {
        return Diagnosis::not_found_again();
    }
    Diagnosis::new(
        format!(
            "a grid of {} cells, which needs {} + {} + {} = {total} key bits",
            commas(grid),
            bits[0],
            bits[1],
            bits[2]
        ),
        "at most 64 key bits",
        look_at,
    )
}

/// The grid size, extents divided by chunks and rounded up, where no chunk
/// extent is 0.
fn grid(volume: &Volume) -> Option<[u32; 3]> {
    let parts = |Extents { x, y, z }: Extents| [x, y, z];
    let (size, chunk) = (parts(volume.size), parts(volume.chunk));
    let usable = chunk.iter().all(|extent| *extent != 0);
    usable.then(|| std::array::from_fn(|axis| size[axis].div_ceil(chunk[axis])))
}

/// How many bits an axis gives: those i with 2^i below its grid size.
fn axis_bits(size: u32) -> u32 {
    u32::BITS - size.saturating_sub(1).leading_zeros()
}

/// Refusal 2 or 3 of a cell.
pub fn of_cell(volume: &Volume, cell: Cell, refusal: Refusal) -> Diagnosis {
    let zeros = zero_extents(volume);
    let (2, true, Some(grid)) = (refusal.number, zeros.is_empty(), grid(volume)) else {
        return of_volume(volume, refusal);
    };
    let cell = [cell.x, cell.y, cell.z];
    let Some(axis) = (0..3).find(|axis| cell[*axis] >= grid[*axis]) else {
        return Diagnosis::not_found_again();
    };
    let name = ["x", "y", "z"][axis];
    Diagnosis::new(
        format!("{name} {} in cell {}", cell[axis], commas(cell)),
        format!(
            "{name} below {}: the grid has {} cells",
            grid[axis],
            commas(grid)
        ),
        "the cell asked for, counted in chunks and not in voxels; and the volume of the settings",
    )
}

/// Refusal 2, 3 or 4 of a key.
pub fn of_key(volume: &Volume, key: u64, refusal: Refusal) -> Diagnosis {
    let (4, Some(grid)) = (refusal.number, grid(volume)) else {
        return of_volume(volume, refusal);
    };
    let bits: u32 = grid.map(axis_bits).iter().sum();
    let (cell, rest) = decoded(grid, key);
    let found = if rest != 0 {
        format!("key {key} has a bit above the {bits} that the grid uses")
    } else {
        format!("key {key} would be cell {}", commas(cell))
    };
    Diagnosis::new(
        found,
        format!("the key of a cell of the grid of {} cells", commas(grid)),
        "the key asked for; and the volume of the settings",
    )
}

/// The cell that a key's bits make, and the bits left over (scope, 'Cells and
/// keys').
fn decoded(grid: [u32; 3], key: u64) -> ([u32; 3], u64) {
    let mut cell = [0; 3];
    let mut rest = key;
    for bit in 0..u32::BITS {
        for axis in 0..3 {
            if bit < axis_bits(grid[axis]) {
                cell[axis] |= ((rest & 1) as u32) << bit;
                rest >>= 1;
            }
        }
    }
    (cell, rest)
}

/// Refusal 5 of a shard number.
pub fn of_shard_number(sharding: &Sharding, number: u64) -> Diagnosis {
    let shards = 1u128 << sharding.shard_bits.min(64);
    Diagnosis::new(
        format!("shard number {number}"),
        format!("a number below {shards} (shard bits: {})", sharding.shard_bits),
        "the shard number, from --shard or from the file's name; and the shard bits of the settings",
    )
}

#[cfg(test)]
mod tests {
    use super::*;

    fn refusal(number: u8) -> Refusal {
        Refusal {
            number,
            minishard: None,
            position: None,
        }
    }

    fn volume(size: [u32; 3], chunk: [u32; 3]) -> Volume {
        let extents = |[x, y, z]: [u32; 3]| Extents { x, y, z };
        Volume {
            size: extents(size),
            chunk: extents(chunk),
            ..Volume::default()
        }
    }

    /// The library's refusal of this cell's key, explained.
    fn told_cell(volume: &Volume, cell: [u32; 3]) -> Diagnosis {
        let [x, y, z] = cell;
        let cell = Cell { x, y, z };
        of_cell(volume, cell, volume.key(cell).unwrap_err())
    }

    fn told_key(volume: &Volume, key: u64) -> Diagnosis {
        of_key(volume, key, volume.cell(key).unwrap_err())
    }

    #[test]
    fn fields_of_the_sharding() {
        let sharding = |preshift, hash, minishard_bits, shard_bits| Sharding {
            preshift,
            hash,
            minishard_bits,
            shard_bits,
            kind: Sharding::MESH,
        };
        let told = of_sharding(&sharding(64, 0, 16, 33));
        assert_eq!(told.found, "preshift 64, shard bits 33");
        assert_eq!(told.expected, "preshift at most 63, shard bits at most 32");
        assert_eq!(told.look_at, "the settings, --preshift, --shard-bits");
        let told = of_sharding(&sharding(63, 2, 17, 32));
        assert_eq!(told.found, "hash number 2, minishard bits 17");
        assert!(bad_fields(&sharding(63, 1, 16, 32)).is_empty());
        let told = of_sharding(&Sharding {
            kind: 2,
            ..sharding(63, 1, 16, 32)
        });
        assert_eq!(told.found, "kind number 2");
        assert_eq!(told.look_at, "the settings, --kind");
    }

    #[test]
    fn extents_of_0() {
        let told = of_volume(&volume([0, 5, 5], [1, 1, 0]), refusal(2));
        assert_eq!(told.found, "0 as size along x and chunk along z");
        assert_eq!(told.look_at, "the settings, --size, --chunk");
        let told = told_cell(&volume([4, 5, 5], [1, 0, 1]), [0, 0, 0]);
        assert_eq!(told.found, "0 as chunk along y");
        assert_eq!(told.look_at, "the settings, --chunk");
    }

    // Scope, cases: grid 2^22,2^22,2^21 gives 3.
    #[test]
    fn key_bits() {
        let side = 1 << 22;
        let told = told_cell(&volume([side, side, side / 2], [1, 1, 1]), [0, 0, 0]);
        assert_eq!(
            told.found,
            "a grid of 4194304,4194304,2097152 cells, which needs 22 + 22 + 21 = 65 key bits"
        );
        assert_eq!([1, 2, 3, 4, 5].map(axis_bits), [0, 1, 2, 2, 3]);
        assert_eq!(axis_bits(u32::MAX), 32);
    }

    #[test]
    fn cells_outside() {
        let told = told_cell(&volume([100, 100, 100], [64, 64, 64]), [1, 2, 0]);
        assert_eq!(told.found, "y 2 in cell 1,2,0");
        assert_eq!(told.expected, "y below 2: the grid has 2,2,2 cells");
    }

    // Scope, cases: grid 5,3,1: keys 20 and 32 give 4.
    #[test]
    fn keys_of_no_cell() {
        let volume = volume([5, 3, 1], [1, 1, 1]);
        assert_eq!(told_key(&volume, 20).found, "key 20 would be cell 6,0,0");
        assert_eq!(
            told_key(&volume, 32).found,
            "key 32 has a bit above the 5 that the grid uses"
        );
        assert_eq!(decoded([5, 3, 1], 24), ([4, 2, 0], 0));
        assert_eq!(decoded([5, 3, 1], 7), ([3, 1, 0], 0));
    }

    #[test]
    fn shard_numbers() {
        let sharding = Sharding {
            preshift: 0,
            hash: Sharding::IDENTITY,
            minishard_bits: 0,
            shard_bits: 32,
            kind: Sharding::VOLUME,
        };
        let told = of_shard_number(&sharding, 1 << 32);
        assert_eq!(told.found, "shard number 4294967296");
        assert_eq!(told.expected, "a number below 4294967296 (shard bits: 32)");
    }
}
