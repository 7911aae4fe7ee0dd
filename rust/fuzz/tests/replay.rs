//! Replays, without a fuzzer, the seed inputs and the finds that were kept, so
//! that the targets stay usable.

use compare::PARTS;
use fuzz::{files, replay, seed, write_seeds};
use std::collections::BTreeSet;
use std::fs;
use std::path::{Path, PathBuf};

/// As many as fuzz/run begins with.
const SEEDS: u64 = 400;

#[test]
fn seeds_show_no_difference() {
    for part in PARTS {
        for number in 1..=SEEDS {
            (part.compare)(&seed(part, number));
        }
    }
}

/// What a run of the fuzzer found once, in a folder for each part.
#[test]
fn kept_finds_show_no_difference() {
    let folder = Path::new(env!("CARGO_MANIFEST_DIR")).join("finds");
    for part in PARTS {
        replay(part, &files(&folder.join(part.name)).unwrap()).unwrap();
    }
}

/// A find in a folder of no part's name would never be replayed.
#[test]
fn kept_finds_have_a_part() {
    let folder = Path::new(env!("CARGO_MANIFEST_DIR")).join("finds");
    for kept in files(&folder).unwrap() {
        let name = kept.file_name().unwrap().to_str().unwrap();
        let known = PARTS.iter().any(|part| part.name == name);
        assert!(known, "{name} is no part");
    }
}

#[test]
fn each_part_is_found_by_its_name() {
    let names: BTreeSet<_> = PARTS.iter().map(|part| part.name).collect();
    assert_eq!(names.len(), PARTS.len());
    for name in names {
        assert_eq!(fuzz::part(name).unwrap().name, name);
    }
    assert!(fuzz::part("planted").is_some());
    assert!(fuzz::part("").is_none());
}

/// A folder that is removed again.
struct Scratch(PathBuf);

impl Scratch {
    fn new(name: &str) -> Self {
        let own = format!("coronagamba-fuzz-{name}-{}", std::process::id());
        Scratch(std::env::temp_dir().join(own))
    }
}

impl Drop for Scratch {
    fn drop(&mut self) {
        // What cannot be removed is left to the system.
        let _ = fs::remove_dir_all(&self.0);
    }
}

#[test]
fn seeds_are_the_same_each_time_and_are_replayed_from_files() {
    let folder = Scratch::new("seeds");
    let part = fuzz::part("check").unwrap();
    write_seeds(part, &folder.0, 12).unwrap();
    let written = files(&folder.0).unwrap();
    assert_eq!(written.len(), 12);
    for (number, file) in (1..).zip(&written) {
        assert_eq!(fs::read(file).unwrap(), seed(part, number));
    }
    replay(part, &written).unwrap();
}

/// The planted fault is told from a file as well.
#[test]
#[should_panic(expected = "the check of")]
fn a_difference_in_a_file_is_told() {
    let folder = Scratch::new("planted");
    let part = fuzz::part("planted").unwrap();
    let mut bytes = seed(part, 1);
    // The first of three start steps, in front of the others and of the sizes.
    let at = bytes.len() - 6 * 8;
    bytes[at..at + 8].fill(0xff);
    fs::create_dir_all(&folder.0).unwrap();
    fs::write(folder.0.join("wrapping"), bytes).unwrap();
    replay(part, &files(&folder.0).unwrap()).unwrap();
}
