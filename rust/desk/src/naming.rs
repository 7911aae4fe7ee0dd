//! From the name of a shard's file to its number. The format of names is the
//! library's alone: a number is read, and the library's names of that number are
//! compared.

use std::ffi::{OsStr, OsString};
use std::os::unix::ffi::OsStrExt;
use std::path::Path;

use coronagamba::{Cell, Refusal, Sharding, Volume};

use crate::fault::Fault;

/// What a file is by the end of its name.
#[derive(Clone, Copy, Debug, PartialEq, Eq, PartialOrd, Ord)]
pub enum Ending {
    /// A shard in one file.
    Shard,
    /// The index file of a pair.
    Index,
    /// The data file of a pair.
    Data,
}

impl Ending {
    /// All of them.
    pub const ALL: [Ending; 3] = [Ending::Shard, Ending::Index, Ending::Data];

    /// The end of the name.
    pub fn text(self) -> &'static str {
        match self {
            Ending::Shard => ".shard",
            Ending::Index => ".index",
            Ending::Data => ".data",
        }
    }

    /// The name of a shard's file that ends so.
    pub fn name(self, sharding: &Sharding, number: u64) -> Result<String, Refusal> {
        match self {
            Ending::Shard => sharding.shard_name(number),
            Ending::Index => sharding.index_name(number),
            Ending::Data => sharding.data_name(number),
        }
    }

    /// The ending of a name, and what stands before it.
    pub fn of(name: &OsStr) -> Option<(&OsStr, Ending)> {
        Ending::ALL.into_iter().find_map(|ending| {
            let stem = name.as_bytes().strip_suffix(ending.text().as_bytes())?;
            Some((OsStr::from_bytes(stem), ending))
        })
    }

    /// The same of a file in a folder. Other files may end as those of a pair do:
    /// only hexadecimal digits before the ending make a name of a pair's file, be
    /// it the right one or not.
    pub fn in_folder(name: &OsStr) -> Option<(&OsStr, Ending)> {
        let (stem, ending) = Ending::of(name)?;
        let digits = stem.as_bytes();
        let hexadecimal = !digits.is_empty() && digits.iter().all(u8::is_ascii_hexdigit);
        (ending == Ending::Shard || hexadecimal).then_some((stem, ending))
    }

    /// A name with this ending.
    pub fn behind(self, stem: &OsStr) -> OsString {
        let mut name = stem.to_os_string();
        name.push(self.text());
        name
    }
}

/// The number of the shard of which a file of this name is one, under this
/// sharding.
pub fn shard_number(sharding: &Sharding, name: &OsStr) -> Option<u64> {
    let (stem, ending) = Ending::of(name)?;
    let number = u64::from_str_radix(stem.to_str()?, 16).ok()?;
    let own = ending.name(sharding, number).ok()?;
    (name == own.as_str()).then_some(number)
}

/// The cell whose chunk has this name, stored without shards. The name begins
/// each axis with a voxel of the cell; the library names the cell again.
pub fn cell_of_chunk(volume: &Volume, name: &OsStr) -> Option<Cell> {
    let name = name.to_str()?;
    let offset = <[i32; 3]>::from(volume.offset).map(i64::from);
    let chunk = <[u32; 3]>::from(volume.chunk).map(i64::from);
    let mut cell = [0; 3];
    for (axis, ends) in name.splitn(3, '_').enumerate() {
        // The first character may be a minus.
        let dash = ends.get(1..)?.find('-')? + 1;
        let begin: i64 = ends[..dash].parse().ok()?;
        let voxels = begin.checked_sub(offset[axis])?;
        cell[axis] = u32::try_from(voxels.checked_div(chunk[axis])?).ok()?;
    }
    let cell = Cell::from(cell);
    (volume.chunk_name(cell).ok()? == name).then_some(cell)
}

/// Whether a file name is like that of a chunk stored without shards: it begins
/// with a number or a minus and has two underscores. One that no cell has may be
/// of another volume, or have something behind it, such as `.gz`.
pub fn is_like_chunk(name: &OsStr) -> bool {
    let name = name.as_encoded_bytes();
    let begins = matches!(name, [b'0'..=b'9' | b'-', ..]);
    begins && name.iter().filter(|byte| **byte == b'_').count() >= 2
}

/// What is said of a name that no chunk has.
pub fn no_chunk(volume: &Volume) -> String {
    let what = "not the name of a chunk of this volume";
    match volume.chunk_name(Cell::default()) {
        Ok(example) => format!("{what} (expected for example {example})"),
        Err(refusal) => format!("{what} ({refusal})"),
    }
}

/// The name of some shard's file, to show what names look like: that of shard 10,
/// or of the last one where there are fewer.
pub fn example(sharding: &Sharding, ending: Ending) -> Result<String, Refusal> {
    let last = (1u64 << sharding.shard_bits.min(63)) - 1;
    ending.name(sharding, last.min(10))
}

/// What is said of a file whose name is that of no shard. The library refuses
/// an example where the sharding is not allowed; settings are refused before.
pub fn misnamed(sharding: &Sharding, path: &Path) -> String {
    let what = "not the name of a shard under this sharding";
    let ending = Ending::of(path.file_name().unwrap_or_default());
    match example(sharding, ending.map_or(Ending::Shard, |(_, ending)| ending)) {
        Ok(example) => format!("{what} (expected for example {example})"),
        Err(refusal) => format!("{what} ({refusal})"),
    }
}

/// A file that has the name of no shard; `alone` says whether it was named by itself,
/// so that an option could have said which shard it is.
pub fn no_shard(sharding: &Sharding, path: &Path, alone: bool) -> Fault {
    Fault::Misnamed {
        path: path.to_path_buf(),
        error: misnamed(sharding, path),
        alone,
    }
}

#[cfg(test)]
mod tests {
    use super::*;
    use std::os::unix::ffi::OsStringExt;

    fn sharding(shard_bits: u8) -> Sharding {
        Sharding {
            preshift: 0,
            hash: Sharding::IDENTITY,
            minishard_bits: 0,
            shard_bits,
            kind: Sharding::VOLUME,
        }
    }

    fn read(shard_bits: u8, name: &str) -> Option<u64> {
        shard_number(&sharding(shard_bits), OsStr::new(name))
    }

    // Scope, cases: shard 10 is a.shard at 4 shard bits, 0a.shard at 5; 0 bits
    // give 0.shard.
    #[test]
    fn names_of_shards() {
        assert_eq!(read(4, "a.shard"), Some(10));
        assert_eq!(read(5, "0a.shard"), Some(10));
        assert_eq!(read(0, "0.shard"), Some(0));
        assert_eq!(read(5, "1f.shard"), Some(31));
        assert_eq!(read(32, "ffffffff.shard"), Some(0xffff_ffff));
    }

    #[test]
    fn other_names() {
        for name in [
            "0a.shard",
            "A.shard",
            "+a.shard",
            ".shard",
            "a",
            "a.shard ",
            "g.shard",
            "a.SHARD",
            "10.shard",
            "ffffffffffffffffff.shard",
            "0xa.shard",
        ] {
            assert_eq!(read(4, name), None, "{name}");
        }
        assert_eq!(read(5, "a.shard"), None);
        assert_eq!(read(5, "20.shard"), None);
        let odd = OsString::from_vec(b"\xff.shard".to_vec());
        assert_eq!(shard_number(&sharding(4), &odd), None);
    }

    #[test]
    fn names_of_pairs() {
        assert_eq!(read(4, "a.index"), Some(10));
        assert_eq!(read(5, "0a.data"), Some(10));
        assert_eq!(read(32, "ffffffff.index"), Some(0xffff_ffff));
        for name in ["0a.index", "A.data", ".index", "data", "10.data", "a.idx"] {
            assert_eq!(read(4, name), None, "{name}");
        }
    }

    #[test]
    fn what_a_file_is_by_its_name() {
        let of = |name| Ending::in_folder(OsStr::new(name)).map(|(_, ending)| ending);
        for name in ["a.shard", "no number.shard", ".shard"] {
            assert_eq!(of(name), Some(Ending::Shard), "{name}");
        }
        // The wrong name of a pair's file is known for what it is.
        assert_eq!(of("0A.index"), Some(Ending::Index));
        assert_eq!(of("ffffffffffffffffff.data"), Some(Ending::Data));
        for name in [
            "notes.data",
            ".data",
            "+a.index",
            "a.shard.part",
            "a.b.data",
        ] {
            assert_eq!(of(name), None, "{name}");
        }
        let odd = OsString::from_vec(b"\xff.shard".to_vec());
        assert!(Ending::in_folder(&odd).is_some());
        let (stem, _) = Ending::of(OsStr::new("notes.data")).unwrap();
        assert_eq!(Ending::Index.behind(stem), "notes.index");
    }

    #[test]
    fn names_of_chunks() {
        let volume = Volume::new([100, 200, 9], [64, 64, 4], [-128, 0, -6]);
        let read = |name: &str| cell_of_chunk(&volume, OsStr::new(name));
        for x in 0..2 {
            for y in 0..4 {
                for z in 0..3 {
                    let cell = Cell { x, y, z };
                    let name = volume.chunk_name(cell).unwrap();
                    assert_eq!(read(&name), Some(cell), "{name}");
                    assert_eq!(read(&format!("{name}_")), None);
                    assert_eq!(read(&name[1..]), None);
                }
            }
        }
        assert_eq!(read("-128--64_0-64_-6--2"), Some(Cell::default()));
        for name in [
            "",
            "-",
            "_",
            "__",
            "1_2_3",
            "é-1_0-64_-6--2",
            "-127--64_0-64_-6--2",
            "-128--64_0-64",
            "-192--128_0-64_-6--2",
            "-128--64_0-64_-6--2.gz",
            "9223372036854775807-9_0-64_-6--2",
            "-28--27_0-64_-6--2",
        ] {
            assert_eq!(read(name), None, "{name}");
        }
        assert_eq!(
            cell_of_chunk(&Volume::default(), OsStr::new("0-0_0-0_0-0")),
            None
        );
    }

    #[test]
    fn names_like_those_of_chunks() {
        for name in ["-128--64_0-64_-6--2", "0-64_0-64_0-64.gz", "1_2_3", "-__"] {
            assert!(is_like_chunk(OsStr::new(name)), "{name}");
        }
        for name in [
            "",
            "info",
            "0.shard",
            "a_b_c",
            "0-64_0-64",
            ".0-64_0-64_0-64.7.part",
        ] {
            assert!(!is_like_chunk(OsStr::new(name)), "{name}");
        }
        let volume = Volume::new([100, 200, 9], [64, 64, 4], [-128, 0, -6]);
        assert!(no_chunk(&volume).ends_with("(expected for example -128--64_0-64_-6--2)"));
    }

    #[test]
    fn examples_are_names() {
        let example = |shard_bits| super::example(&sharding(shard_bits), Ending::Shard);
        assert_eq!(example(5).unwrap(), "0a.shard");
        assert_eq!(example(4).unwrap(), "a.shard");
        assert_eq!(example(2).unwrap(), "3.shard");
        assert_eq!(example(0).unwrap(), "0.shard");
        assert_eq!(example(33).unwrap_err().number, 1);
        let misnamed = |name| super::misnamed(&sharding(5), Path::new(name));
        assert!(misnamed("d/a.index").ends_with("(expected for example 0a.index)"));
        assert!(misnamed("d/a.data").ends_with("(expected for example 0a.data)"));
        assert!(misnamed("d/a").ends_with("(expected for example 0a.shard)"));
    }
}
