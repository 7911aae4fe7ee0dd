//! The library beside the reference, part by part, on inputs from seeds.
//!
//! Each part has a quick test of a fixed number of cases. A long run of all
//! parts is had by variables:
//!
//! - `CORONAGAMBA_LONG=SECONDS`: how long it runs;
//! - `CORONAGAMBA_SEED=N`: the seed from which it starts or goes on, else 0;
//! - `CORONAGAMBA_PART=NAME`: one part, or some with commas between, else all.
//!
//! Without the first one, one round of seeds is run. So
//!
//! ```text
//! CORONAGAMBA_LONG=7200 cargo test --release --offline -p compare --test differential long_run
//! ```
//!
//! runs for two hours and says now and then how far it is; with the seed after
//! the last one told it goes on from there. A part and the seed of a difference
//! alone show the difference again.

use compare::run::{rounds, Difference};
use compare::{Part, PARTS};
use std::io::Write;
use std::path::Path;
use std::time::{Duration, Instant};

/// Where an input that shows a difference is stored.
const FOLDER: &str = env!("CARGO_TARGET_TMPDIR");

/// How long a long run says nothing.
const SILENCE: Duration = Duration::from_secs(60);

/// Runs a part over its first seeds and panics at a difference, and where
/// other refusals were met than the papers give.
fn quick(name: &str, cases: u64) {
    let part = part(name);
    match part.run(0..cases) {
        Ok(tally) => {
            println!("{name}: {tally}");
            assert_eq!(tally.numbers(), part.meets, "refusals met");
        }
        Err(difference) => fail(&difference),
    }
}

/// Tells a difference, and how to see it again.
fn fail(difference: &Difference) -> ! {
    let report = difference.report(Path::new(FOLDER));
    let Difference { part, seed, .. } = difference;
    panic!("{report}again: CORONAGAMBA_PART={part} CORONAGAMBA_SEED={seed}\n")
}

/// The part of this name.
fn part(name: &str) -> Part {
    let found = PARTS.iter().find(|part| part.name == name);
    *found.unwrap_or_else(|| {
        let names: Vec<&str> = PARTS.iter().map(|part| part.name).collect();
        panic!("no part {name}; the parts are {}", names.join(", "))
    })
}

/// A test for each part, with its number of cases.
macro_rules! quick {
    ($($name:ident: $cases:expr,)*) => {
        mod quick {
            $(#[test]
            fn $name() {
                super::quick(stringify!($name), $cases);
            })*

            #[test]
            fn every_part_has_a_test() {
                let tested = [$(stringify!($name)),*];
                assert!(compare::PARTS.iter().map(|part| part.name).eq(tested));
            }
        }
    };
}

quick! {
    grid: 600_000,
    key: 600_000,
    keys: 200_000,
    row_keys: 200_000,
    cover: 150_000,
    cell: 500_000,
    bounds: 600_000,
    chunk_name: 300_000,
    place: 2_000_000,
    places: 300_000,
    shard_name: 300_000,
    lookup: 250_000,
    check: 200_000,
    chunks: 100_000,
    listed_count: 150_000,
    listing: 150_000,
    unlisted: 150_000,
    settled_length: 100_000,
    settle: 150_000,
    same: 160_000,
    intake: 150_000,
    forged: 2_000_000,
    mesh_lookup: 100_000,
    fragment: 150_000,
    mesh_check: 120_000,
    mesh_chunks: 50_000,
    mesh_listed_count: 80_000,
    mesh_listing: 80_000,
    mesh_unlisted: 80_000,
    mesh_settled_length: 60_000,
    mesh_settle: 100_000,
    mesh_same: 100_000,
    pair_names: 200_000,
    pair_lookup: 120_000,
    pair_fragment: 120_000,
    pair_check: 120_000,
    pair_listing: 100_000,
    pair_settle: 120_000,
    pair_range: 200_000,
    card_read: 400_000,
    card_write: 300_000,
    info_read: 200_000,
    manifest_check: 80_000,
    manifest_header: 60_000,
    manifest_levels: 10_000,
    manifest_field: 80_000,
    manifest_node: 100_000,
    manifest_nodes: 100_000,
    manifest_all_nodes: 50_000,
    manifest_corners: 100_000,
    label: 200_000,
    unpacked_length: 200_000,
    unpack: 60_000,
}

/// The number in a variable, where it is set.
fn number_from(variable: &str) -> Option<u64> {
    let text = std::env::var(variable).ok()?;
    let number = text.parse();
    Some(number.unwrap_or_else(|_| panic!("{variable}={text} is no number")))
}

/// The parts that the variable names.
fn chosen_parts() -> Vec<Part> {
    match std::env::var("CORONAGAMBA_PART") {
        Ok(names) => names.split(',').map(part).collect(),
        Err(_) => PARTS.to_vec(),
    }
}

/// Says at once, past the test harness, how far the parts are.
fn tell(parts: &[Part], first: u64, next: u64) {
    let mut out = std::io::stderr().lock();
    for part in parts {
        let last = next - 1;
        // Where nobody listens, the run goes on.
        let _ = writeln!(out, "{}: seeds {first} to {last}, no difference", part.name);
    }
}

#[test]
fn long_run() {
    let parts = chosen_parts();
    let first = number_from("CORONAGAMBA_SEED").unwrap_or(0);
    let length = number_from("CORONAGAMBA_LONG").map(Duration::from_secs);
    let start = Instant::now();
    let mut told = start;
    let outcome = rounds(&parts, first, |next| {
        let Some(length) = length else {
            return false;
        };
        let finished = start.elapsed() >= length;
        if finished || told.elapsed() >= SILENCE {
            tell(&parts, first, next);
            told = Instant::now();
        }
        !finished
    });
    if let Err(difference) = outcome {
        fail(&difference);
    }
}
