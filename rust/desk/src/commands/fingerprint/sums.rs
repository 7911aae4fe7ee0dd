//! Lists of fingerprints, in the format of `sha256sum`.

use std::collections::BTreeMap;
use std::ffi::OsStr;
use std::fs::File;
use std::io::{self, BufRead, BufReader, Read};
use std::os::unix::ffi::OsStrExt;
use std::path::Path;

use coronagamba::Sharding;

use crate::digest::{Digest, DIGITS};
use crate::fault::Fault;
use crate::naming::{misnamed, shard_number, Ending};
use crate::record::Checksum;
use crate::text::shown;

/// The longest line: no path that the system takes is as long.
const MOST_LINE: u64 = 1 << 16;

/// The fingerprints that a list has, by the numbers of the shards.
#[derive(Debug, Default)]
pub struct Sums {
    /// The fingerprints.
    pub of: BTreeMap<u64, Digest>,
    /// How many lines are of other files.
    pub others: u64,
}

impl Sums {
    /// Reads a list. Where a line is wrong, nothing is compared.
    pub fn read(path: &Path, sharding: &Sharding) -> Result<Sums, Fault> {
        let system = |error| Fault::system(path, "read", error);
        let mut list = BufReader::new(File::open(path).map_err(system)?);
        let (mut sums, mut line) = (Sums::default(), Vec::new());
        let mut number = 1u64;
        while next(&mut list, &mut line).map_err(system)? {
            sums.note(&line, sharding).map_err(|wrong| {
                let path = shown(path);
                Fault::wrong_use(format!("{path}, line {number}: {wrong}"))
            })?;
            number += 1;
        }
        if sums.of.is_empty() {
            let path = shown(path);
            return Err(Fault::wrong_use(format!("{path}: names no shard")));
        }
        Ok(sums)
    }

    /// A checksum of what it says of shards: parts of a run must share it.
    pub fn checksum(&self) -> u64 {
        let mut sum = Checksum::new();
        for (number, digest) in &self.of {
            sum.add(format!("{number} {digest}\n").as_bytes());
        }
        sum.number()
    }

    /// Takes a line, and gives what is wrong with it. One that begins with # does not
    /// count, as for `sha256sum`.
    fn note(&mut self, line: &[u8], sharding: &Sharding) -> Result<(), String> {
        if line.len() as u64 == MOST_LINE {
            return Err(format!("is longer than {MOST_LINE} bytes"));
        }
        if line.starts_with(b"#") {
            return Ok(());
        }
        let (digest, name) = split(line).ok_or("is not as sha256sum writes it")?;
        let name = OsStr::from_bytes(name);
        if !matches!(Ending::of(name), Some((_, Ending::Shard))) {
            self.others += 1;
            return Ok(());
        }
        let path = Path::new(name);
        let number = shard_number(sharding, name)
            .ok_or_else(|| format!("'{}' is {}", shown(path), misnamed(sharding, path)))?;
        match self.of.insert(number, digest) {
            None => Ok(()),
            Some(_) => Err(format!("'{}' is there twice", shown(path))),
        }
    }
}

/// Reads the next line, without its end, in place of the one before; `false` where
/// there is none.
fn next(list: &mut impl BufRead, line: &mut Vec<u8>) -> io::Result<bool> {
    line.clear();
    let length = list.take(MOST_LINE).read_until(b'\n', line)?;
    // An end may be that of another system, as for `sha256sum`.
    for end in [b'\n', b'\r'] {
        if line.pop_if(|last| *last == end).is_none() {
            break;
        }
    }
    Ok(length > 0)
}

/// The digest and the name of a line: a blank stands between them, and a second one,
/// or an asterisk. A backslash before the digest marks a name with escapes, which no
/// shard's is.
fn split(line: &[u8]) -> Option<(Digest, &[u8])> {
    let line = line.strip_prefix(b"\\").unwrap_or(line);
    let (digits, rest) = line.split_at_checked(DIGITS)?;
    let name = rest.strip_prefix(b"  ").or(rest.strip_prefix(b" *"))?;
    Some((Digest::read(digits)?, name)).filter(|_| !name.is_empty())
}

#[cfg(test)]
mod tests {
    use super::*;
    use crate::trial::{Folder, TWO_MINISHARDS};
    use std::thread;

    const ONE: &str = "ba7816bf8f01cfea414140de5dae2223b00361a396177a9cb410ff61f20015ad";

    const SHARDING: Sharding = Sharding {
        shard_bits: 5,
        ..TWO_MINISHARDS
    };

    /// The numbers that a list has and how many other lines, or what is wrong.
    fn read(text: impl AsRef<[u8]>) -> Result<(Vec<u64>, u64), String> {
        // Tests run side by side, each in a thread of its name.
        let folder = Folder::new(thread::current().name().unwrap_or("sums"));
        let path = folder.write("list", text.as_ref());
        let told = |fault: Fault| fault.to_string().rsplit_once("list").unwrap().1.to_string();
        let sums = Sums::read(&path, &SHARDING).map_err(told)?;
        Ok((sums.of.keys().copied().collect(), sums.others))
    }

    #[test]
    fn lines() {
        let large = ONE.to_uppercase();
        let text = format!("{ONE}  0a.shard\n# a note\n{large} *1f.shard\n{ONE}  info\n");
        assert_eq!(read(&text), Ok((vec![10, 31], 1)));
        // The end of the last line may be missing.
        assert_eq!(read(text.trim_end()), Ok((vec![10, 31], 1)));
        assert_eq!(
            read(format!("\\{ONE}  a\\nb\n{ONE}  00.shard")),
            Ok((vec![0], 1))
        );
        assert_eq!(read(text.replace('\n', "\r\n")), Ok((vec![10, 31], 1)));
    }

    #[test]
    fn wrong_lines() {
        let not = ", line 2: is not as sha256sum writes it";
        for line in [
            String::new(),
            ONE.into(),
            format!("{ONE} "),
            format!("{ONE}  "),
            format!("{ONE} 0b.shard"),
            format!("{ONE}\t\t0b.shard"),
            format!(" {ONE}  0b.shard"),
            format!("{}  0b.shard", &ONE[1..]),
            format!("{ONE}0  0b.shard"),
            format!("SHA256 (0b.shard) = {ONE}"),
            format!("{}é  0b.shard", &ONE[2..]),
        ] {
            let text = format!("{ONE}  0a.shard\n{line}\n");
            assert_eq!(read(text), Err(not.into()), "{line}");
        }
        let twice = format!("{ONE}  0a.shard\n{ONE} *0a.shard\n");
        assert_eq!(
            read(twice),
            Err(", line 2: '0a.shard' is there twice".into())
        );
        for name in [
            "a.shard",
            "20.shard",
            "0A.shard",
            "./0a.shard",
            "d/0a.shard",
        ] {
            let told = read(format!("{ONE}  {name}\n")).unwrap_err();
            let ends = "under this sharding (expected for example 0a.shard)";
            assert!(
                told.starts_with(&format!(", line 1: '{name}' is not")),
                "{told}"
            );
            assert!(told.ends_with(ends), "{told}");
        }
        for text in [String::new(), format!("{ONE}  info\n"), "#\n".into()] {
            assert_eq!(read(text), Err(": names no shard".into()));
        }
        let first = ", line 1: is longer than 65536 bytes";
        for start in [b'a', b'#'] {
            let mut long = vec![start; 1 << 16];
            long.extend(format!("{ONE}  0a.shard\n").bytes());
            assert_eq!(read(long), Err(first.into()));
        }
    }
}
