//! Measures and the yearly holdings sheet: mixed sets of shards in many orders,
//! sheets of parts, totals at the edge of 2^64, and the program `sheet`.

use compare::sides::{answer, refusal, sharding};
use coronagamba::{Counts, Pair, Refusal, Shard, Sheet};
use reference::pair;
use reference::sheet::{self, measure, measure_pair};
use std::collections::BTreeSet;
use std::env;
use std::fs::File;
use std::io::Write;
use std::path::PathBuf;
use std::process::{Command, Stdio};
use testkit::shards::{self, Sample};
use testkit::{meshes, Rng};

/// A shard of either edition: with a seam it is a pair, cut there.
struct Held {
    sample: Sample,
    seam: Option<usize>,
}

impl Held {
    fn draw(rng: &mut Rng) -> Self {
        let sample = if rng.once_in(2) {
            shards::any(rng)
        } else {
            meshes::any(rng)
        };
        let index = if sample.sharding.minishard_bits < 17 {
            16 << sample.sharding.minishard_bits
        } else {
            0
        };
        let seam = match rng.below(6) {
            0 | 1 if index <= sample.file.len() => Some(index),
            2 => Some(rng.index(sample.file.len() + 1)),
            _ => None,
        };
        Held { sample, seam }
    }

    fn pair(&self, seam: usize) -> pair::Pair<'_> {
        pair::Pair::cut(&self.sample.file, seam)
    }

    /// What the reference finds.
    fn found(&self) -> Result<sheet::Counts, reference::Refusal> {
        let Sample {
            sharding,
            number,
            file,
        } = &self.sample;
        match self.seam {
            None => measure(sharding, *number, file),
            Some(seam) => measure_pair(&self.pair(seam), sharding, *number),
        }
    }

    /// What the library finds.
    fn measure(&self) -> Result<Counts, Refusal> {
        let of = sharding(&self.sample.sharding);
        match self.seam {
            None => Shard::open(of, self.sample.number, &self.sample.file).measure(),
            Some(seam) => {
                let pair = self.pair(seam);
                Pair::open(of, self.sample.number, pair.index, pair.data).measure()
            }
        }
    }

    /// Adds it to a sheet of the library.
    fn add(&self, sheet: &mut Sheet) -> Result<(), Refusal> {
        let of = sharding(&self.sample.sharding);
        match self.seam {
            None => sheet.add(&Shard::open(of, self.sample.number, &self.sample.file)),
            Some(seam) => {
                let pair = self.pair(seam);
                sheet.add_pair(&Pair::open(of, self.sample.number, pair.index, pair.data))
            }
        }
    }
}

fn shuffle<T>(rng: &mut Rng, items: &mut [T]) {
    for i in (1..items.len()).rev() {
        items.swap(i, rng.index(i + 1));
    }
}

#[test]
fn mixed_sets_in_many_orders() {
    let mut rng = Rng::new(13);
    let mut seen = BTreeSet::new();
    for _ in 0..60 {
        let mut set: Vec<Held> = (0..rng.within(1, 40))
            .map(|_| Held::draw(&mut rng))
            .collect();
        let mut expected = sheet::Sheet::default();
        for held in &set {
            let found = held.found();
            let counts = found.map(|counts| Counts {
                chunks: counts.chunks,
                bytes: counts.bytes.try_into().expect("a sum of few sizes"),
                unlisted: counts.unlisted,
                settled: counts.settled,
            });
            assert_eq!(held.measure(), answer(counts), "{:?}", held.sample.sharding);
            assert_eq!(expected.add(&found), Ok(()));
            seen.insert(found.err().map_or(0, |refusal| refusal.number));
        }
        for _ in 0..4 {
            shuffle(&mut rng, &mut set);
            let mut whole = Sheet::default();
            for held in &set {
                assert_eq!(held.add(&mut whole), Ok(()));
            }
            assert_eq!(whole.rows().to_vec(), expected.rows());
            // The same in two parts.
            let (first, second) = set.split_at(rng.index(set.len() + 1));
            let [mut first, second] = [first, second].map(|part| {
                let mut sheet = Sheet::default();
                for held in part {
                    assert_eq!(held.add(&mut sheet), Ok(()));
                }
                sheet
            });
            assert_eq!(first.join(&second), Ok(()));
            assert_eq!(first, whole);
        }
    }
    let numbers = sheet::NUMBERS.into_iter().chain([0]).collect();
    assert_eq!(seen, numbers, "each number of the check is met");
}

/// A number near 2^64, so that totals pass it or just do not.
fn edge(rng: &mut Rng) -> u64 {
    match rng.below(4) {
        0 => rng.edge_u64(),
        1 => u64::MAX - rng.below(3),
        2 => u64::MAX - rng.below(5_000),
        _ => rng.below(3),
    }
}

fn forged(rng: &mut Rng) -> [u64; 17] {
    let mut rows = [0; 17];
    let some = rng.below(4);
    for row in &mut rows {
        *row = if rng.below(4) < some {
            edge(rng)
        } else {
            rng.below(9)
        };
    }
    rows
}

#[test]
fn forged_sheets_at_the_edge() {
    let mut rng = Rng::new(27);
    let (mut fits, mut passes) = (0, 0);
    for _ in 0..4_000 {
        let rows = forged(&mut rng);
        let mut ours = Sheet::from_rows(rows);
        let mut theirs = sheet::Sheet::of(&rows);
        let (answer, expected) = if rng.once_in(2) {
            let other = forged(&mut rng);
            (
                ours.join(&Sheet::from_rows(other)),
                theirs.join(&sheet::Sheet::of(&other)),
            )
        } else {
            let held = Held::draw(&mut rng);
            (held.add(&mut ours), theirs.add(&held.found()))
        };
        match expected {
            Ok(()) => fits += 1,
            Err(_) => passes += 1,
        }
        assert_eq!(
            answer,
            expected.map_err(|number| refusal(reference::Refusal::bare(number)))
        );
        assert_eq!(ours.rows().to_vec(), theirs.rows());
        if expected.is_err() {
            assert_eq!(ours.rows(), rows, "a refusal leaves the sheet");
        }
    }
    assert!(fits > 500 && passes > 500, "{fits} fit, {passes} pass");
}

// ---- the program

/// The program: in the folder that the variable names, else where the
/// repository's build leaves it.
fn program() -> PathBuf {
    let folder = env::var_os("CORONAGAMBA_BIN_DIR").map_or_else(
        || PathBuf::from(env!("CARGO_MANIFEST_DIR")).join("../../target/bin"),
        PathBuf::from,
    );
    folder.join("sheet")
}

/// What the program prints for this input.
fn run(input: &[u8]) -> Vec<u8> {
    let path = program();
    let mut child = Command::new(&path)
        .stdin(Stdio::piped())
        .stdout(Stdio::piped())
        .spawn()
        .unwrap_or_else(|error| panic!("{} can't be run: {error}", path.display()));
    let mut stdin = child.stdin.take().expect("a piped input");
    std::thread::scope(|scope| {
        // A program that has seen enough may close its input early.
        scope.spawn(move || stdin.write_all(input).ok());
        child.wait_with_output().expect("the program ends").stdout
    })
}

#[test]
fn the_program_on_mixed_sets() {
    let mut rng = Rng::new(65_536);
    let mut endings = BTreeSet::new();
    for _ in 0..300 {
        let mut input = Vec::new();
        for _ in 0..rng.below(12) {
            let sample = Held::draw(&mut rng).sample;
            if sample.file.len() <= 65_536 || rng.once_in(4) {
                input.extend(sheet::record(&sample.sharding, sample.number, &sample.file));
            }
        }
        match rng.below(4) {
            0 => input.truncate(rng.index(input.len() + 1)),
            1 => {
                let sample = shards::any(&mut rng);
                let mut record = sheet::record(&sample.sharding, sample.number, &sample.file);
                let length = 65_536 + rng.below(3) as u32;
                record[13..17].copy_from_slice(&length.to_le_bytes());
                input.extend(record);
            }
            _ => {}
        }
        let expected = sheet::print(&input);
        let text = String::from_utf8(expected.clone()).expect("lines of text");
        endings.insert(text.lines().nth(17).unwrap_or("").to_string());
        assert_eq!(run(&input), expected);
    }
    assert_eq!(endings, ["", "cut", "too long"].map(String::from).into());
}

#[test]
fn the_program_on_what_it_can_not_read() {
    let folder = File::open(env!("CARGO_MANIFEST_DIR")).expect("a folder");
    let write_only = File::options().write(true).open("/dev/null");
    for input in [folder, write_only.expect("a file that takes all")] {
        let output = Command::new(program())
            .stdin(input)
            .output()
            .expect("the program runs");
        let expected = sheet::Sheet::default().lines() + "unreadable\n";
        assert_eq!(String::from_utf8_lossy(&output.stdout), expected);
    }
}
