//! The shards of a folder.

use std::collections::{BTreeMap, BTreeSet};
use std::ffi::{OsStr, OsString};
use std::fs::{self, DirEntry};
use std::io;
use std::path::Path;

use coronagamba::{Refusal, Sharding};

use crate::args::Args;
use crate::edition::Source;
use crate::fault::Fault;
use crate::files::is_missing;
use crate::naming::{no_shard, shard_number, Ending};
use crate::options::SHARD;
use crate::text::shown;
use crate::unclear::Unclear;

/// A shard that is to be read.
#[derive(Debug)]
pub struct Input {
    /// Its files.
    pub source: Source,
    /// Its number, or why it is not read.
    pub number: Result<u64, Fault>,
}

impl Input {
    /// Its name and its length, by which it is dealt to a part, and its change.
    pub fn weight(&self) -> (&Path, u64, u64) {
        let (length, changed) = self.source.length_and_change();
        (&self.source.path, length, changed)
    }

    /// Its files and its number, where it is to be read.
    pub fn known(self) -> Result<(Source, u64), Fault> {
        Ok((self.source, self.number?))
    }
}

/// What a folder holds.
#[derive(Debug, Default)]
pub struct Listing {
    /// Its files whose names end as those of shards do, in name order, the two
    /// of a pair as one.
    pub shards: Vec<Input>,
    /// How many other files it has.
    pub others: u64,
    /// Why it could not be listed to its end.
    pub broken: Option<Fault>,
}

impl Listing {
    /// The numbers of those that have the name of a shard, whether they can be
    /// read or not.
    pub fn numbers(&self, sharding: &Sharding) -> BTreeSet<u64> {
        let number = |input: &Input| shard_number(sharding, input.source.path.file_name()?);
        self.shards.iter().filter_map(number).collect()
    }

    /// All shards, and behind them the fault of the listing.
    pub fn inputs(self, folder: &Path) -> Vec<Input> {
        let mut inputs = self.shards;
        inputs.extend(self.broken.map(|fault| Input {
            source: Source::file(folder),
            number: Err(fault),
        }));
        inputs
    }
}

/// Whether a path leads to a folder.
pub fn is_folder(path: &Path) -> bool {
    fs::metadata(path).is_ok_and(|about| about.is_dir())
}

/// A shard whose file, or one file of whose pair, was named by itself: what
/// `--shard` says, else what the name says. A file may be a pipe.
pub fn single(args: &Args, sharding: &Sharding, path: &Path) -> Input {
    let source = of_file(path);
    let number = match (fs::metadata(path), args.number(SHARD)) {
        (Err(error), _) => Err(Fault::system(path, "read", error)),
        (_, Err(fault)) => Err(fault),
        (_, Ok(Some(number))) => Ok(number),
        (_, Ok(None)) => named(sharding, &source, true),
    };
    let missing = source.paths().find(|half| is_missing(half));
    match (number, missing) {
        (Ok(_), Some(missing)) => unclear(path, half(path, missing)),
        (number, _) => Input { source, number },
    }
}

/// The number that the name of a shard's file says. The two names of a pair say the
/// same.
fn named(sharding: &Sharding, source: &Source, alone: bool) -> Result<u64, Fault> {
    let number = shard_number(sharding, source.path.file_name().unwrap_or_default());
    number.ok_or_else(|| no_shard(sharding, &source.path, alone))
}

/// Whether neither `--shard` nor the name of a file says which shard it is.
pub fn is_unnumbered(args: &Args, sharding: &Sharding, path: &Path) -> bool {
    let name = path.file_name().unwrap_or_default();
    !args.flag(SHARD) && shard_number(sharding, name).is_none()
}

/// The files of a shard, of which this is one: the other of a pair stands beside
/// it.
fn of_file(path: &Path) -> Source {
    match Ending::of(path.file_name().unwrap_or_default()) {
        Some((stem, Ending::Index | Ending::Data)) => {
            let beside = |ending: Ending| path.with_file_name(ending.behind(stem));
            Source::pair(beside(Ending::Index), beside(Ending::Data))
        }
        _ => Source::file(path),
    }
}

/// The pair of which this is a file.
pub fn pair(path: &Path) -> Result<Source, Fault> {
    fs::metadata(path).map_err(|error| Fault::system(path, "read", error))?;
    let source = of_file(path);
    if source.data.is_none() {
        return Err(Fault::wrong_use(format!(
            "{}: is no file of a pair, whose names end in .index and .data",
            shown(path)
        )));
    }
    if let Some(missing) = source.paths().find(|half| is_missing(half)) {
        return Err(half(path, missing));
    }
    Ok(source)
}

/// Half a pair is missing.
fn half(there: &Path, missing: &Path) -> Fault {
    let missing = missing.file_name().unwrap_or_default().to_os_string();
    Fault::Unclear {
        path: there.to_path_buf(),
        unclear: Unclear::Half(missing),
    }
}

/// A shard whose files do not say which bytes are its own.
fn unclear(path: &Path, fault: Fault) -> Input {
    Input {
        source: Source::file(path),
        number: Err(fault),
    }
}

/// The shards of a folder, not those of its subfolders.
pub fn list(sharding: &Sharding, folder: &Path) -> Listing {
    let (names, others, ended) = names(folder);
    let inputs = |(stem, endings): (&OsString, _)| inputs(sharding, folder, stem, endings);
    let mut shards: Vec<Input> = names.iter().flat_map(inputs).collect();
    shards.sort_by(|one, other| one.source.cmp(&other.source));
    let broken = ended.err();
    Listing {
        shards,
        others,
        broken: broken.map(|error| Fault::system(folder, "listed", error)),
    }
}

/// The shard of this number in a folder; `None` where no file has its name.
pub fn find(sharding: &Sharding, folder: &Path, number: u64) -> Result<Option<Input>, Refusal> {
    let name = OsString::from(sharding.shard_name(number)?);
    let stem = Ending::of(&name).map_or(OsStr::new(""), |(stem, _)| stem);
    let there = |ending: &Ending| !is_missing(&folder.join(ending.behind(stem)));
    let endings = Ending::ALL.into_iter().filter(there).collect();
    Ok(inputs(sharding, folder, stem, &endings).pop())
}

/// Names of shards' files: what stands before the ending, and which endings there
/// are.
type Names = BTreeMap<OsString, BTreeSet<Ending>>;

/// The names of shards, the number of other files, and whether the folder could be
/// listed to its end.
fn names(folder: &Path) -> (Names, u64, io::Result<()>) {
    let (mut names, mut others) = (Names::new(), 0);
    let mut note = |entry: DirEntry| {
        if let Some((stem, ending)) = Ending::in_folder(&entry.file_name()) {
            names.entry(stem.to_os_string()).or_default().insert(ending);
        } else if !entry.file_type().is_ok_and(|kind| kind.is_dir()) {
            others += 1;
        }
    };
    let ended = fs::read_dir(folder)
        .and_then(|mut entries| entries.try_for_each(|entry| entry.map(&mut note)));
    (names, others, ended)
}

/// What a folder's files of one name are: a shard of either edition, or one that
/// has no clear edition, or misnamed files.
fn inputs(
    sharding: &Sharding,
    folder: &Path,
    stem: &OsStr,
    endings: &BTreeSet<Ending>,
) -> Vec<Input> {
    let path = |ending: Ending| folder.join(ending.behind(stem));
    let is_named = shard_number(sharding, &Ending::Shard.behind(stem)).is_some();
    let file = || entry(sharding, Source::file(&path(Ending::Shard)));
    let there: Vec<Ending> = endings.iter().copied().collect();
    match there[..] {
        [] => Vec::new(),
        [Ending::Shard] => vec![file()],
        [Ending::Shard, ref pair @ ..] if is_named => {
            let names = pair.iter().map(|ending| ending.behind(stem)).collect();
            let path = path(Ending::Shard);
            let both = Fault::Unclear {
                unclear: Unclear::Both(Ending::Shard.behind(stem), names),
                path: path.clone(),
            };
            vec![unclear(&path, both)]
        }
        [Ending::Shard, ref pair @ ..] => {
            let pair = BTreeSet::from_iter(pair.iter().copied());
            let mut all = inputs(sharding, folder, stem, &pair);
            all.push(file());
            all
        }
        [Ending::Index, Ending::Data] => {
            let pair = Source::pair(path(Ending::Index), path(Ending::Data));
            vec![entry(sharding, pair)]
        }
        [one, ..] if is_named => {
            let other = if one == Ending::Data {
                Ending::Index
            } else {
                Ending::Data
            };
            let there = path(one);
            vec![unclear(&there, half(&there, &path(other)))]
        }
        [one, ..] => vec![entry(sharding, Source::file(&path(one)))],
    }
}

/// One of a folder's shards. Only files are read: a pipe would be waited for.
fn entry(sharding: &Sharding, source: Source) -> Input {
    let unread = |path: &Path| match fs::metadata(path) {
        Err(error) => Some(Fault::system(path, "read", error)),
        Ok(about) if !about.is_file() => Some(no_file(path)),
        Ok(_) => None,
    };
    let number = match source.paths().find_map(unread) {
        Some(fault) => Err(fault),
        None => named(sharding, &source, false),
    };
    Input { source, number }
}

/// Something else than a file stands there.
pub fn no_file(path: &Path) -> Fault {
    let error = io::Error::new(io::ErrorKind::InvalidInput, "it is no regular file");
    Fault::system(path, "read", error)
}

#[cfg(test)]
mod tests {
    use super::*;
    use crate::trial::Folder;
    use std::ffi::OsStr;
    use std::os::unix::ffi::OsStrExt;
    use std::os::unix::fs::symlink;

    const SHARDING: Sharding = Sharding {
        preshift: 0,
        hash: 0,
        minishard_bits: 0,
        shard_bits: 5,
        kind: Sharding::VOLUME,
    };

    /// Name and number of each shard; 'misnamed', 'unclear' and 'fault' stand for
    /// what they say.
    fn listed(folder: &Folder) -> (Vec<(OsString, String)>, u64) {
        let listing = list(&SHARDING, folder.path());
        let told = |input: &Input| {
            let number = match &input.number {
                Ok(number) => number.to_string(),
                Err(Fault::Misnamed { .. }) => "misnamed".into(),
                Err(Fault::Unclear { .. }) => "unclear".into(),
                Err(_) => "fault".into(),
            };
            let name = input.source.path.file_name().unwrap();
            (name.to_os_string(), number)
        };
        (listing.shards.iter().map(told).collect(), listing.others)
    }

    #[test]
    fn shards_come_in_name_order() {
        let folder = Folder::new("folder-order");
        for name in ["1f.shard", "00.shard", "0a.shard", "info", "deposit.card"] {
            folder.write(name, b"");
        }
        let shards = [("00.shard", "0"), ("0a.shard", "10"), ("1f.shard", "31")];
        let shards = shards.map(|(name, number)| (name.into(), number.into()));
        assert_eq!(listed(&folder), (shards.to_vec(), 2));
    }

    #[test]
    fn other_names_pipes_links_and_folders() {
        let folder = Folder::new("folder-kinds");
        let odd = OsStr::from_bytes(b"\xff.shard");
        folder.write("0A.shard", b"");
        folder.write("20.shard", b"");
        folder.write(".00.shard.1.part", b"");
        folder.write(odd, b"");
        fs::create_dir(folder.at("01.shard")).unwrap();
        fs::create_dir(folder.at("inner")).unwrap();
        folder.write("inner/03.shard", b"");
        symlink(folder.at("inner/03.shard"), folder.at("03.shard")).unwrap();
        symlink(folder.at("none"), folder.at("04.shard")).unwrap();
        symlink("/dev/zero", folder.at("05.shard")).unwrap();
        let shards = [
            (OsStr::new("01.shard"), "fault"),
            (OsStr::new("03.shard"), "3"),
            (OsStr::new("04.shard"), "fault"),
            (OsStr::new("05.shard"), "fault"),
            (OsStr::new("0A.shard"), "misnamed"),
            (OsStr::new("20.shard"), "misnamed"),
            (odd, "misnamed"),
        ];
        let shards = shards.map(|(name, number)| (name.to_os_string(), number.into()));
        assert_eq!(listed(&folder), (shards.to_vec(), 1));
    }

    #[test]
    fn pairs_are_one_shard_each() {
        let folder = Folder::new("folder-pairs");
        for name in ["0a.index", "0a.data", "1f.data", "1f.index", "02.shard"] {
            folder.write(name, b"");
        }
        // Neither half of a pair nor of another edition is guessed.
        for name in ["03.index", "04.data", "05.shard", "05.index", "05.data"] {
            folder.write(name, b"");
        }
        folder.write("06.shard", b"");
        folder.write("06.data", b"");
        // Under other names: a pair, half a pair, and a shard beside half a pair.
        for name in ["A.index", "A.data", "b.data", "c.index", "c.shard"] {
            folder.write(name, b"");
        }
        // Other files.
        for name in ["notes.data", "book.index", ".data"] {
            folder.write(name, b"");
        }
        fs::create_dir(folder.at("07.index")).unwrap();
        folder.write("07.data", b"");
        let shards = [
            ("02.shard", "2"),
            ("03.index", "unclear"),
            ("04.data", "unclear"),
            ("05.shard", "unclear"),
            ("06.shard", "unclear"),
            ("07.index", "fault"),
            ("0a.index", "10"),
            ("1f.index", "31"),
            ("A.index", "misnamed"),
            ("b.data", "misnamed"),
            ("c.index", "misnamed"),
            ("c.shard", "misnamed"),
        ];
        let shards = shards.map(|(name, number)| (name.into(), number.into()));
        assert_eq!(listed(&folder), (shards.to_vec(), 3));
        let listing = list(&SHARDING, folder.path());
        let numbers = [2, 3, 4, 5, 6, 7, 10, 31];
        assert!(listing.numbers(&SHARDING).into_iter().eq(numbers));
        // Each by itself.
        for (number, name) in [
            (2, "02.shard"),
            (3, "03.index"),
            (6, "06.shard"),
            (10, "0a.index"),
        ] {
            let found = find(&SHARDING, folder.path(), number).unwrap().unwrap();
            let listed = |input: &&Input| input.source.path == folder.at(name);
            let listed = listing.shards.iter().find(listed).unwrap();
            assert_eq!(found.source, listed.source);
            assert_eq!(found.number.ok(), listed.number.as_ref().ok().copied());
        }
        assert!(find(&SHARDING, folder.path(), 8).unwrap().is_none());
        assert_eq!(find(&SHARDING, folder.path(), 32).unwrap_err().number, 5);
    }

    #[test]
    fn what_is_unclear_is_told() {
        let folder = Folder::new("folder-unclear");
        let told = |number| {
            let input = find(&SHARDING, folder.path(), number).unwrap().unwrap();
            let fault = input.number.expect_err("it is unclear");
            assert_eq!(fault.status() as u8, 1);
            let text = fault.to_string();
            let (_, text) = text.rsplit_once('/').unwrap();
            text.to_string()
        };
        folder.write("03.index", b"");
        assert_eq!(told(3), "03.index: half a pair, 03.data is missing");
        folder.write("04.data", b"");
        assert_eq!(told(4), "04.data: half a pair, 04.index is missing");
        folder.write("04.shard", b"");
        assert_eq!(
            told(4),
            "04.shard: there in both editions, 04.shard and 04.data; neither is read"
        );
        folder.write("04.index", b"");
        assert_eq!(
            told(4),
            "04.shard: there in both editions, 04.shard and 04.index with 04.data; neither is read"
        );
    }

    #[test]
    fn a_folder_that_cannot_be_listed_is_told() {
        let folder = Folder::new("folder-not");
        let none = folder.at("none");
        let inputs = list(&SHARDING, &none).inputs(&none);
        let [input] = &inputs[..] else {
            panic!("one input");
        };
        assert_eq!(input.source.path, none);
        assert!(matches!(&input.number, Err(fault) if fault.status() as u8 == 3));
    }
}
