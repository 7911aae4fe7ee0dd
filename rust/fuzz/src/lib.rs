//! Fuzz targets: each part of the comparison with the reference, by its name.
//!
//! `fuzz/run` builds them with libFuzzer or AFL++. Without a fuzzer the same
//! inputs are replayed by the program `fuzz` and by this crate's tests.

#![forbid(unsafe_code)]

pub mod blocks;
mod listing;
mod planted;

use compare::{Part, PARTS};
use std::path::{Path, PathBuf};
use std::{fs, io};
use testkit::Rng;

/// The part of this name; `planted` has a fault for the fuzzer to find.
pub fn part(name: &str) -> Option<&'static Part> {
    let mut known = PARTS.iter().chain([&planted::PLANTED]);
    known.find(|part| part.name == name)
}

/// The input of a part that a number stands for.
pub fn seed(part: &Part, number: u64) -> Vec<u8> {
    (part.sample)(&mut Rng::new(number))
}

/// Writes the inputs of the numbers from 1 to `count` into a folder.
pub fn write_seeds(part: &Part, folder: &Path, count: u64) -> io::Result<()> {
    fs::create_dir_all(folder)?;
    (1..=count).try_for_each(|n| fs::write(folder.join(format!("{n:04}")), seed(part, n)))
}

/// The files of a folder in the order of their names; none where it is not
/// there.
pub fn files(folder: &Path) -> io::Result<Vec<PathBuf>> {
    if !folder.is_dir() {
        return Ok(Vec::new());
    }
    let entries: io::Result<Vec<_>> = fs::read_dir(folder)?.collect();
    let mut files: Vec<PathBuf> = entries?.iter().map(|entry| entry.path()).collect();
    files.sort();
    Ok(files)
}

/// Compares library and reference on the bytes of each file.
pub fn replay(part: &Part, files: &[PathBuf]) -> io::Result<()> {
    for file in files {
        (part.compare)(&fs::read(file)?);
    }
    Ok(())
}
