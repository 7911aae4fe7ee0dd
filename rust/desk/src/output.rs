//! Output files: under its final name a file is whole or not there.
//!
//! A file is written under another name beside its final place, flushed, and
//! only then given its name. This part file is locked while it is written: one
//! that nobody holds was left by a run that was killed. Whoever takes a part
//! file's name away holds its lock.

use std::collections::hash_map::RandomState;
use std::ffi::{OsStr, OsString};
use std::fs::{self, File, OpenOptions, TryLockError};
use std::hash::{BuildHasher, Hasher};
use std::io::{self, Read, Write};
use std::os::unix::ffi::{OsStrExt, OsStringExt};
use std::os::unix::fs::MetadataExt;
use std::path::{Path, PathBuf};

use crate::fault::Fault;
use crate::files::Inputs;
use crate::text::shown;

/// What became of an output.
#[derive(Clone, Copy, Debug, PartialEq, Eq)]
pub enum Placed {
    /// It was written.
    Written,
    /// A file with the very same bytes was there.
    AlreadyThere,
    /// A file with other bytes is there and was left as it is.
    OtherBytes,
}

/// Writes a new file, or with `force` in place of an existing one.
pub fn write_new(path: &Path, force: bool, bytes: &[u8]) -> Result<(), Fault> {
    let taken = is_taken(path)? && !force;
    if taken || !put(path, force, bytes)? {
        return Err(Fault::wrong_use(format!(
            "{}: exists (--force overwrites)",
            shown(path)
        )));
    }
    Ok(())
}

/// Sees to it that a file with these bytes is there. One with other bytes is
/// replaced with `force` only, and never where it is one of the inputs.
pub fn place(path: &Path, force: bool, bytes: &[u8], inputs: &Inputs) -> Result<Placed, Fault> {
    if !is_taken(path)? && put(path, false, bytes)? {
        return Ok(Placed::Written);
    }
    // Another run may have written the file since it was looked for.
    let same = holds(path, bytes).map_err(|error| Fault::system(path, "compared", error));
    match (same, force) {
        (Ok(true), _) => sync_folder_of(path).map(|()| Placed::AlreadyThere),
        (Ok(false), false) => Ok(Placed::OtherBytes),
        (Err(fault), false) => Err(fault),
        (_, true) => {
            inputs.spare(path)?;
            put(path, true, bytes).map(|_| Placed::Written)
        }
    }
}

/// Removes the part files that killed runs have left in a folder, of outputs
/// whose names are `wanted`. One that is read as an input stays, and so does
/// what cannot be removed: it harms nobody.
pub fn remove_stale_parts(folder: &Path, inputs: &Inputs, wanted: impl Fn(&OsStr) -> bool) {
    let Ok(entries) = fs::read_dir(folder) else {
        return;
    };
    for entry in entries.flatten() {
        let path = entry.path();
        if part_of(&entry.file_name()).is_some_and(|name| wanted(&name)) && !inputs.have(&path) {
            remove_unheld(&path);
        }
    }
}

/// The same for one output.
pub fn remove_stale_parts_of(output: &Path, inputs: &Inputs) {
    let name = output.file_name().unwrap_or_default();
    let wanted = |part: &OsStr| part.as_bytes() == repeated(name);
    remove_stale_parts(folder_of(output), inputs, wanted);
}

/// Makes an output folder where it is missing. `reason` says why it must be
/// one.
pub fn make_folder(out: &Path, reason: &str) -> Result<(), Fault> {
    match fs::create_dir(out) {
        Ok(()) => sync_folder_of(out),
        Err(error) if error.kind() == io::ErrorKind::AlreadyExists => match out.is_dir() {
            true => Ok(()),
            false => Err(Fault::wrong_use(format!(
                "{}: is no folder, and {reason}",
                shown(out)
            ))),
        },
        Err(error) => Err(Fault::system(out, "made", error)),
    }
}

/// Makes a name in a folder last.
pub fn sync_folder_of(path: &Path) -> Result<(), Fault> {
    sync_folder(folder_of(path)).map_err(|error| Fault::system(path, "made to last", error))
}

/// The folder that a path is in.
pub fn folder_of(path: &Path) -> &Path {
    match path.parent() {
        Some(folder) if folder != Path::new("") => folder,
        _ => Path::new("."),
    }
}

/// Whether a file has this name. Anything else under it is left alone: a link
/// may lead to an input, and a device or folder holds no output.
pub fn is_taken(path: &Path) -> Result<bool, Fault> {
    match fs::symlink_metadata(path) {
        Ok(about) if about.is_file() => Ok(true),
        Ok(about) => {
            let kind = match about.file_type() {
                kind if kind.is_dir() => "a folder",
                kind if kind.is_symlink() => "a symbolic link",
                _ => "no regular file",
            };
            Err(Fault::wrong_use(format!(
                "{}: is {kind} and cannot be the output",
                shown(path)
            )))
        }
        Err(error) if error.kind() == io::ErrorKind::NotFound => Ok(false),
        Err(error) => Err(Fault::system(path, "written", error)),
    }
}

/// Whether the file holds exactly these bytes, and lastingly: whoever put them
/// there may have been killed before they were flushed. It is read in pieces.
fn holds(path: &Path, bytes: &[u8]) -> io::Result<bool> {
    let mut file = File::open(path)?;
    if file.metadata()?.len() != bytes.len() as u64 {
        return Ok(false);
    }
    let mut piece = vec![0; 1 << 16];
    let mut rest = bytes;
    loop {
        let count = match file.read(&mut piece) {
            Err(error) if error.kind() == io::ErrorKind::Interrupted => continue,
            count => count?,
        };
        if count == 0 {
            return file.sync_all().map(|()| rest.is_empty());
        }
        if rest.get(..count) != Some(&piece[..count]) {
            return Ok(false);
        }
        rest = &rest[count..];
    }
}

/// Writes a file and gives it its name; `false` where that name is taken and
/// not to be replaced.
fn put(path: &Path, replace: bool, bytes: &[u8]) -> Result<bool, Fault> {
    put_whole(path, replace, bytes).map_err(|error| Fault::system(path, "written", error))
}

fn put_whole(path: &Path, replace: bool, bytes: &[u8]) -> io::Result<bool> {
    let mut part = Part::create(path)?;
    part.file.write_all(bytes)?;
    part.file.sync_all()?;
    let named = if replace {
        part.rename(path).map(|()| true)
    } else {
        part.link(path)
    }?;
    drop(part);
    sync_folder(folder_of(path))?;
    Ok(named)
}

/// Makes names in a folder last. Some file systems cannot do this for a
/// folder; they are taken at their word.
fn sync_folder(folder: &Path) -> io::Result<()> {
    match File::open(folder)?.sync_all() {
        Err(error) if error.kind() == io::ErrorKind::InvalidInput => Ok(()),
        Err(error) if error.kind() == io::ErrorKind::Unsupported => Ok(()),
        synced => synced,
    }
}

/// A file that is being written. The part file's name goes with it, on errors
/// too.
struct Part {
    path: PathBuf,
    file: File,
    renamed: bool,
}

impl Part {
    /// Begins the part file of an output.
    fn create(output: &Path) -> io::Result<Part> {
        let name = output.file_name().ok_or(io::ErrorKind::InvalidFilename)?;
        // A run that clears away may take the file between its making and its
        // locking.
        for _ in 0..100 {
            let path = folder_of(output).join(part_name(name, random()));
            if let Some(part) = Part::try_create(&path)? {
                return Ok(part);
            }
        }
        Err(io::ErrorKind::ResourceBusy.into())
    }

    /// Makes and locks the file; `None` where another run has its name or takes it away.
    fn try_create(path: &Path) -> io::Result<Option<Part>> {
        let file = match OpenOptions::new().write(true).create_new(true).open(path) {
            Err(error) if error.kind() == io::ErrorKind::AlreadyExists => return Ok(None),
            file => file?,
        };
        // Where locks are not to be had, no run can take the file for a stale
        // one either.
        if matches!(file.try_lock(), Err(TryLockError::WouldBlock)) || !names(path, &file) {
            return Ok(None);
        }
        Ok(Some(Part {
            path: path.to_path_buf(),
            file,
            renamed: false,
        }))
    }

    /// Gives the file its final name in place of any file that has it.
    fn rename(&mut self, output: &Path) -> io::Result<()> {
        fs::rename(&self.path, output)?;
        self.renamed = true;
        Ok(())
    }

    /// Gives the file its final name; `false` where that name is taken.
    fn link(&mut self, output: &Path) -> io::Result<bool> {
        match fs::hard_link(&self.path, output) {
            Ok(()) => Ok(true),
            Err(error) if error.kind() == io::ErrorKind::AlreadyExists => Ok(false),
            Err(error) if links_are_missing(&error) => self.rename_to_free(output),
            Err(error) => Err(error),
        }
    }

    /// The same where the file system has no hard links. A file that another
    /// run puts there in this very moment would be replaced.
    fn rename_to_free(&mut self, output: &Path) -> io::Result<bool> {
        match fs::symlink_metadata(output) {
            Ok(_) => Ok(false),
            Err(error) if error.kind() == io::ErrorKind::NotFound => {
                self.rename(output).map(|()| true)
            }
            Err(error) => Err(error),
        }
    }
}

impl Drop for Part {
    fn drop(&mut self) {
        if !self.renamed {
            let _ = fs::remove_file(&self.path);
        }
    }
}

/// Whether an error of linking says that there are no links here.
fn links_are_missing(error: &io::Error) -> bool {
    matches!(
        error.kind(),
        io::ErrorKind::PermissionDenied | io::ErrorKind::Unsupported
    )
}

/// Removes a part file that no run holds.
fn remove_unheld(path: &Path) {
    let regular = fs::symlink_metadata(path).is_ok_and(|about| about.is_file());
    if !regular {
        return;
    }
    let Ok(file) = OpenOptions::new().write(true).open(path) else {
        return;
    };
    if file.try_lock().is_ok() && names(path, &file) {
        let _ = fs::remove_file(path);
    }
}

/// Whether a path is still the name of an opened file.
fn names(path: &Path, file: &File) -> bool {
    match (fs::symlink_metadata(path), file.metadata()) {
        (Ok(named), Ok(opened)) => named.dev() == opened.dev() && named.ino() == opened.ino(),
        _ => false,
    }
}

/// Bytes of an output's name that its part file's name repeats, so that this
/// one is not too long for the file system.
const MOST_NAME_BYTES: usize = 200;

/// The name of a part file: `.NAME.NUMBER.part`.
fn part_name(name: &OsStr, number: u64) -> OsString {
    let mut part = vec![b'.'];
    part.extend(repeated(name));
    part.extend(format!(".{number}.part").as_bytes());
    OsString::from_vec(part)
}

/// A number that no other run has, on no other machine that shares the folder: the
/// hash of nothing under keys that the system draws.
fn random() -> u64 {
    RandomState::new().build_hasher().finish()
}

/// What a part file's name repeats of the output's.
fn repeated(name: &OsStr) -> &[u8] {
    let name = name.as_bytes();
    &name[..name.len().min(MOST_NAME_BYTES)]
}

/// The output's name in a part file's name.
fn part_of(part: &OsStr) -> Option<OsString> {
    let inner = part.as_bytes().strip_prefix(b".")?.strip_suffix(b".part")?;
    let dot = inner.iter().rposition(|byte| *byte == b'.')?;
    let (name, number) = (&inner[..dot], &inner[dot + 1..]);
    let numbered = !number.is_empty() && number.iter().all(u8::is_ascii_digit);
    numbered.then(|| OsStr::from_bytes(name).to_os_string())
}

#[cfg(test)]
mod tests {
    use super::*;
    use crate::trial::Folder;
    use std::os::unix::fs::symlink;
    use std::sync::LazyLock;
    use std::thread;

    /// No inputs.
    fn none() -> &'static Inputs {
        static NONE: LazyLock<Inputs> = LazyLock::new(Inputs::default);
        &NONE
    }

    #[test]
    fn an_input_is_not_replaced_and_not_cleared_away() {
        let folder = Folder::new("output-inputs");
        let (a, part) = (
            folder.write("a", b"old"),
            folder.write(".b.77.part", b"half"),
        );
        let inputs = Inputs::of([a.as_path(), &part]);
        for force in [false, true] {
            let placed = place(&a, force, b"new", &inputs);
            assert!(matches!(
                placed,
                Ok(Placed::OtherBytes) | Err(Fault::Use { .. })
            ));
            assert_eq!(fs::read(&a).unwrap(), b"old");
        }
        remove_stale_parts_of(&folder.at("b"), &inputs);
        assert_eq!(folder.names(), [".b.77.part", "a"]);
        remove_stale_parts_of(&folder.at("b"), none());
        assert_eq!(folder.names(), ["a"]);
    }

    #[test]
    fn a_new_file_is_whole_and_alone() {
        let folder = Folder::new("output-new");
        write_new(&folder.at("a"), false, b"abc").unwrap();
        assert_eq!(fs::read(folder.at("a")).unwrap(), b"abc");
        assert_eq!(folder.names(), ["a"]);
        write_new(&folder.at("empty"), false, b"").unwrap();
        assert_eq!(fs::read(folder.at("empty")).unwrap(), b"");
    }

    #[test]
    fn an_existing_file_is_replaced_by_force_only() {
        let folder = Folder::new("output-force");
        let path = folder.write("a", b"old");
        let fault = write_new(&path, false, b"new").unwrap_err();
        assert_eq!(fault.status() as u8, 2);
        assert_eq!(fs::read(&path).unwrap(), b"old");
        write_new(&path, true, b"new").unwrap();
        assert_eq!(fs::read(&path).unwrap(), b"new");
        assert_eq!(folder.names(), ["a"]);
    }

    #[test]
    fn placing_tells_same_bytes_from_others() {
        let folder = Folder::new("output-place");
        let path = folder.at("a");
        let long = vec![5; 200_000];
        let mut other = long.clone();
        other[199_999] = 6;
        assert_eq!(place(&path, false, &long, none()).unwrap(), Placed::Written);
        assert_eq!(
            place(&path, false, &long, none()).unwrap(),
            Placed::AlreadyThere
        );
        assert_eq!(
            place(&path, true, &long, none()).unwrap(),
            Placed::AlreadyThere
        );
        for changed in [&other[..], &long[1..], b""] {
            assert_eq!(
                place(&path, false, changed, none()).unwrap(),
                Placed::OtherBytes
            );
        }
        assert_eq!(fs::read(&path).unwrap(), long);
        assert_eq!(place(&path, true, &other, none()).unwrap(), Placed::Written);
        assert_eq!(fs::read(&path).unwrap(), other);
        assert_eq!(folder.names(), ["a"]);
    }

    #[test]
    fn folders_links_and_devices_are_no_outputs() {
        let folder = Folder::new("output-kinds");
        let target = folder.write("target", b"kept");
        let (link, dangling, inner) =
            (folder.at("link"), folder.at("dangling"), folder.at("inner"));
        symlink(&target, &link).unwrap();
        symlink(folder.at("none"), &dangling).unwrap();
        fs::create_dir(&inner).unwrap();
        for path in [&link, &dangling, &inner, Path::new("/dev/null")] {
            assert_eq!(write_new(path, true, b"new").unwrap_err().status() as u8, 2);
            assert_eq!(
                place(path, true, b"new", none()).unwrap_err().status() as u8,
                2
            );
        }
        assert_eq!(fs::read(&target).unwrap(), b"kept");
        assert_eq!(folder.names(), ["dangling", "inner", "link", "target"]);
    }

    #[test]
    fn what_cannot_be_written_is_told_and_leaves_nothing() {
        let folder = Folder::new("output-not");
        let fault = write_new(&folder.at("none/a"), false, b"x").unwrap_err();
        assert_eq!(fault.status() as u8, 3);
        assert!(fault.to_string().contains("none/a: cannot be written"));
        assert_eq!(
            write_new(&folder.at(".."), false, b"x")
                .unwrap_err()
                .status() as u8,
            2
        );
        assert!(folder.names().is_empty());
    }

    #[test]
    fn a_part_that_is_given_up_goes_away() {
        let folder = Folder::new("output-drop");
        let mut part = Part::create(&folder.at("a")).unwrap();
        part.file.write_all(b"half").unwrap();
        assert_eq!(folder.names().len(), 1);
        drop(part);
        assert!(folder.names().is_empty());
    }

    #[test]
    fn long_names_get_shorter_part_names() {
        let folder = Folder::new("output-long");
        let name = "n".repeat(255);
        write_new(&folder.at(&name), false, b"abc").unwrap();
        assert_eq!(folder.names(), [OsString::from(name)]);
    }

    #[test]
    fn stale_parts_are_removed_and_held_ones_kept() {
        let folder = Folder::new("output-stale");
        let held = Part::create(&folder.at("0.shard")).unwrap();
        folder.write(".1.shard.77.part", b"half");
        folder.write(".1.shard.77.part~", b"not ours");
        folder.write(".1.shard.x.part", b"not ours");
        folder.write(".other.77.part", b"not ours");
        folder.write("1.shard", b"whole");
        fs::hard_link(folder.at("1.shard"), folder.at(".1.shard.78.part")).unwrap();
        symlink(folder.at("1.shard"), folder.at(".2.shard.1.part")).unwrap();
        remove_stale_parts(folder.path(), none(), |name| {
            name.as_bytes().ends_with(b".shard")
        });
        let held_name = held.path.file_name().unwrap();
        let mut kept = vec![
            held_name.to_os_string(),
            ".1.shard.77.part~".into(),
            ".1.shard.x.part".into(),
            ".2.shard.1.part".into(),
            ".other.77.part".into(),
            "1.shard".into(),
        ];
        kept.sort();
        assert_eq!(folder.names(), kept);
        assert_eq!(fs::read(folder.at("1.shard")).unwrap(), b"whole");
        drop(held);
    }

    #[test]
    fn each_run_has_a_part_file_of_its_own() {
        let folder = Folder::new("output-held");
        let mut held = Part::create(&folder.at("a")).unwrap();
        held.file.write_all(b"ab").unwrap();
        write_new(&folder.at("a"), false, b"abc").unwrap();
        assert_eq!(fs::read(folder.at("a")).unwrap(), b"abc");
        // The slower of two gives way.
        assert!(!held.link(&folder.at("a")).unwrap());
        drop(held);
        assert_eq!(fs::read(folder.at("a")).unwrap(), b"abc");
        assert_eq!(folder.names(), ["a"]);
        // The name of a file that is there is not given to another.
        let taken = folder.write(part_name(OsStr::new("b"), 7), b"half");
        assert!(Part::try_create(&taken).unwrap().is_none());
        assert_eq!(fs::read(&taken).unwrap(), b"half");
        let numbers: Vec<u64> = (0..100).map(|_| random()).collect();
        assert!((1..100).all(|place| !numbers[..place].contains(&numbers[place])));
    }

    #[test]
    fn names_of_parts_are_read_back() {
        for name in ["0a.shard", "a", "a.7.part", ".a", ""] {
            let part = part_name(OsStr::new(name), 1234);
            assert_eq!(part_of(&part), Some(OsString::from(name)));
        }
        for other in [
            "a.1.part",
            ".a.part",
            ".a.1.par",
            ".a..part",
            ".a.1x.part",
            ".part",
        ] {
            assert_eq!(part_of(OsStr::new(other)), None, "{other}");
        }
    }

    #[test]
    fn clearing_away_beside_writers_spoils_nothing() {
        let folder = Folder::new("output-race");
        let clears = || remove_stale_parts(folder.path(), none(), |_| true);
        thread::scope(|scope| {
            let writer = scope.spawn(|| {
                for number in 0..300 {
                    let path = folder.at(format!("{number}"));
                    assert_eq!(
                        place(&path, false, b"abc", none()).unwrap(),
                        Placed::Written
                    );
                }
            });
            while !writer.is_finished() {
                clears();
            }
        });
        assert_eq!(folder.names().len(), 300);
    }
}
