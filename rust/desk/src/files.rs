//! Reading whole files.

use std::collections::BTreeMap;
use std::fs::{self, File};
use std::io::{self, Read};
use std::os::unix::fs::MetadataExt;
use std::path::{Path, PathBuf};

use crate::buffers::{reserve, MOST_BYTES};
use crate::fault::Fault;
use crate::text::shown;

/// The bytes of a file, a pipe or a device; at most `MOST_BYTES`.
pub fn read_whole(path: &Path) -> Result<Vec<u8>, Fault> {
    let mut bytes = Vec::new();
    read_into(path, &mut bytes)?;
    Ok(bytes)
}

/// The bytes of a file, however many.
pub fn read_to_end(path: &Path) -> Result<Vec<u8>, Fault> {
    let mut bytes = Vec::new();
    read_front(path, &mut bytes, u64::MAX)?;
    Ok(bytes)
}

/// Reads a file into a buffer, in place of what it held. A buffer that is used
/// again spares the system from clearing new pages for each file.
pub fn read_into(path: &Path, bytes: &mut Vec<u8>) -> Result<(), Fault> {
    read_front(path, bytes, MOST_BYTES)
}

/// The same of the front of a file, at most so many bytes.
pub fn read_front(path: &Path, bytes: &mut Vec<u8>, most: u64) -> Result<(), Fault> {
    bytes.clear();
    fill(path, bytes, most).map_err(|error| Fault::system(path, "read", error))
}

/// Appends what can be read. The length that the file tells is only a first
/// request for memory: the file may grow or shrink meanwhile, and a pipe tells
/// none.
fn fill(path: &Path, bytes: &mut Vec<u8>, most: u64) -> io::Result<()> {
    let file = File::open(path)?;
    let about = file.metadata()?;
    if about.is_dir() {
        return Err(io::ErrorKind::IsADirectory.into());
    }
    reserve(bytes, about.len().min(most) as usize)?;
    file.take(most).read_to_end(bytes)?;
    Ok(())
}

/// How many bytes reading this file will ask for at first, and when it was last
/// changed, in nanoseconds; 0 where the system does not tell.
pub fn length_and_change(path: &Path) -> (u64, u64) {
    fs::metadata(path).map_or((0, 0), |about| {
        let seconds = (about.mtime() as u64).wrapping_mul(1_000_000_000);
        let changed = seconds.wrapping_add(about.mtime_nsec() as u64);
        (about.len().min(MOST_BYTES), changed)
    })
}

/// Whether there is nothing under this name, not even a link that leads
/// nowhere.
pub fn is_missing(path: &Path) -> bool {
    matches!(fs::symlink_metadata(path), Err(error) if error.kind() == io::ErrorKind::NotFound)
}

/// Whether two paths lead to one file or folder, through whatever links. A
/// path that leads nowhere is one with no other.
pub fn one_place(first: &Path, second: &Path) -> bool {
    match (identity(first), identity(second)) {
        (Some(first), Some(second)) => first == second,
        _ => false,
    }
}

/// What a file or folder keeps under all its names: device and inode.
type Identity = (u64, u64);

/// What a path leads to, through whatever links.
fn identity(path: &Path) -> Option<Identity> {
    let about = fs::metadata(path).ok()?;
    Some((about.dev(), about.ino()))
}

/// The files that a run reads, whatever other names they have. It never writes
/// over them and never removes them.
#[derive(Debug, Default)]
pub struct Inputs {
    paths: BTreeMap<Identity, PathBuf>,
}

impl Inputs {
    /// What these paths lead to now.
    pub fn of<'a>(paths: impl IntoIterator<Item = &'a Path>) -> Self {
        let known = |path: &Path| Some((identity(path)?, path.to_path_buf()));
        Inputs {
            paths: paths.into_iter().filter_map(known).collect(),
        }
    }

    /// Whether a path leads to one of them.
    pub fn have(&self, path: &Path) -> bool {
        self.named(path).is_some()
    }

    /// Refuses an output that is one of them.
    pub fn spare(&self, output: &Path) -> Result<(), Fault> {
        match self.named(output) {
            None => Ok(()),
            Some(input) => Err(Fault::wrong_use(format!(
                "{}: is the input {}; inputs are never written over",
                shown(output),
                shown(input)
            ))),
        }
    }

    /// The input that a path leads to, by the name that was given.
    fn named(&self, path: &Path) -> Option<&Path> {
        let input = self.paths.get(&identity(path)?)?;
        Some(input)
    }
}

#[cfg(test)]
mod tests {
    use super::*;
    use crate::trial::Folder;
    use std::io::Write;
    use std::os::unix::fs::symlink;
    use std::thread;

    #[test]
    fn the_bytes_of_a_file() {
        let folder = Folder::new("files-bytes");
        for length in [0, 1, 31, 32, 33, 4096, 100_000] {
            let bytes: Vec<u8> = (0..length).map(|i| (i % 251) as u8).collect();
            let path = folder.write("a", &bytes);
            assert_eq!(read_whole(&path).unwrap(), bytes);
            assert_eq!(length_and_change(&path).0, length as u64);
        }
    }

    #[test]
    fn a_used_buffer_holds_only_the_new_file() {
        let folder = Folder::new("files-again");
        let mut buffer = vec![7; 1000];
        let room = buffer.capacity();
        read_into(&folder.write("a", b"abc"), &mut buffer).unwrap();
        assert_eq!((buffer.as_slice(), buffer.capacity()), (&b"abc"[..], room));
    }

    #[test]
    fn a_file_that_tells_no_length_is_read() {
        let bytes = read_whole(Path::new("/proc/self/status")).unwrap();
        assert!(bytes.starts_with(b"Name:"));
    }

    #[test]
    fn a_pipe_is_read_to_its_end() {
        let (reader, mut writer) = io::pipe().unwrap();
        let path = format!("/proc/self/fd/{}", std::os::fd::AsRawFd::as_raw_fd(&reader));
        let sent = vec![3; 300_000];
        let received = thread::scope(|scope| {
            scope.spawn(|| {
                writer.write_all(&sent).unwrap();
                drop(writer);
            });
            read_whole(Path::new(&path)).unwrap()
        });
        assert_eq!(received, vec![3; 300_000]);
    }

    #[test]
    fn a_report_may_be_longer_than_a_shard() {
        let folder = Folder::in_memory("files-long");
        let path = folder.write("a", b"");
        let long = MOST_BYTES + 5;
        File::options()
            .write(true)
            .open(&path)
            .and_then(|file| file.set_len(long))
            .unwrap();
        assert_eq!(read_to_end(&path).unwrap().len() as u64, long);
    }

    #[test]
    fn a_device_without_end_is_cut_off() {
        assert_eq!(
            read_whole(Path::new("/dev/zero")).unwrap().len() as u64,
            MOST_BYTES
        );
    }

    #[test]
    fn what_cannot_be_read_is_told() {
        let folder = Folder::new("files-not");
        let told = |path: &Path| read_whole(path).unwrap_err().to_string();
        assert!(told(folder.path()).ends_with("cannot be read: is a directory"));
        assert!(told(&folder.at("none")).contains("No such file"));
        let dangling = folder.at("dangling");
        symlink(folder.at("none"), &dangling).unwrap();
        assert!(told(&dangling).contains("No such file"));
        assert_eq!(length_and_change(&dangling), (0, 0));
    }

    #[test]
    fn one_place_by_any_path() {
        let folder = Folder::new("files-place");
        let (a, b) = (folder.write("a", b"x"), folder.write("b", b"x"));
        let (soft, hard) = (folder.at("soft"), folder.at("hard"));
        symlink(&a, &soft).unwrap();
        fs::hard_link(&a, &hard).unwrap();
        assert!(one_place(&a, &soft) && one_place(&hard, &a));
        assert!(one_place(folder.path(), &folder.at(".")));
        assert!(!one_place(&a, &b));
        assert!(!one_place(&folder.at("none"), &folder.at("none")));
    }

    #[test]
    fn inputs_are_known_by_any_path() {
        let folder = Folder::new("files-inputs");
        let (a, b) = (folder.write("a", b"x"), folder.write("b", b"x"));
        let (soft, hard) = (folder.at("soft"), folder.at("hard"));
        symlink(&a, &soft).unwrap();
        fs::hard_link(&a, &hard).unwrap();
        let none = folder.at("none");
        for input in [&a, &soft, &hard] {
            let inputs = Inputs::of([input.as_path(), &none]);
            for path in [&a, &soft, &hard] {
                assert!(inputs.have(path));
                assert_eq!(inputs.spare(path).unwrap_err().status() as u8, 2);
            }
            for path in [&b, &none] {
                assert!(!inputs.have(path) && inputs.spare(path).is_ok());
            }
        }
    }
}
