//! Runs of parts over seeds: a difference is found, shrunk and told.

use crate::quiet::outcome;
use crate::shrink::shrink;
use crate::Part;
use std::collections::BTreeMap;
use std::fmt;
use std::ops::Range;
use std::path::Path;
use testkit::Rng;

/// How many seeds a round of a long run has.
pub const ROUND: u64 = 500;

/// The longest input that is told in hexadecimal.
const MOST_SHOWN: usize = 256;

impl Part {
    /// The input of a seed.
    pub fn input(&self, seed: u64) -> Vec<u8> {
        // Each part has a stream of its own, so that parts which draw alike
        // don't see the same inputs.
        let name = self.name.bytes().fold(0, |number: u64, byte| {
            number.wrapping_mul(0x0100_0000_01b3) ^ u64::from(byte)
        });
        let mut rng = Rng::new(seed.wrapping_add(name << 32));
        let mut input = (self.sample)(&mut rng);
        if rng.once_in(8) {
            scramble(&mut rng, &mut input);
        }
        input
    }

    /// Compares the inputs of these seeds. Gives what was met, or the first
    /// difference.
    pub fn run(&self, seeds: Range<u64>) -> Result<Tally, Difference> {
        let mut tally = Tally::default();
        for seed in seeds {
            let input = self.input(seed);
            match outcome(self.compare, &input) {
                Ok(met) => tally.note(met),
                Err(message) => return Err(self.difference(seed, message, &input)),
            }
        }
        Ok(tally)
    }

    fn difference(&self, seed: u64, message: String, input: &[u8]) -> Difference {
        let shrunk = shrink(input, |bytes| outcome(self.compare, bytes).is_err());
        Difference {
            part: self.name,
            seed,
            message,
            shrunk_message: outcome(self.compare, &shrunk).err(),
            shrunk,
        }
    }
}

/// Changes some bytes of an input, or puts others in its place: a part takes
/// any bytes.
fn scramble(rng: &mut Rng, input: &mut Vec<u8>) {
    match rng.below(8) {
        0 => {
            let length = rng.index(300);
            *input = rng.bytes(length);
        }
        1 => input.truncate(rng.index(input.len() + 1)),
        2 => {
            let at = rng.index(input.len() + 1);
            input.insert(at, rng.edge(8) as u8);
        }
        _ if input.is_empty() => {}
        3 => {
            input.remove(rng.index(input.len()));
        }
        _ => {
            for _ in 0..rng.within(1, 4) {
                let at = rng.index(input.len());
                input[at] = rng.edge(8) as u8;
            }
        }
    }
}

/// How often each refusal was met; 0 stands for success.
#[derive(Clone, Debug, Default, PartialEq, Eq)]
pub struct Tally {
    counts: BTreeMap<u8, u64>,
}

impl Tally {
    fn note(&mut self, met: u8) {
        *self.counts.entry(met).or_default() += 1;
    }

    /// The numbers met, rising.
    pub fn numbers(&self) -> Vec<u8> {
        self.counts.keys().copied().collect()
    }
}

impl fmt::Display for Tally {
    fn fmt(&self, f: &mut fmt::Formatter<'_>) -> fmt::Result {
        let total: u64 = self.counts.values().sum();
        write!(f, "{total} cases")?;
        for (number, count) in &self.counts {
            write!(f, ", {number}: {count}")?;
        }
        Ok(())
    }
}

/// A difference between library and reference.
#[derive(Clone, Debug)]
pub struct Difference {
    /// The part.
    pub part: &'static str,
    /// The seed of the input that showed it.
    pub seed: u64,
    /// What differed.
    pub message: String,
    /// A small input that shows a difference too.
    pub shrunk: Vec<u8>,
    shrunk_message: Option<String>,
}

impl Difference {
    /// The difference in words. A shrunk input that is too long to show goes
    /// to a file in this folder.
    pub fn report(&self, folder: &Path) -> String {
        let Difference {
            part,
            seed,
            message,
            shrunk,
            ..
        } = self;
        let small = self.shrunk_message.as_deref().unwrap_or("no difference");
        let length = shrunk.len();
        let shown = if length <= MOST_SHOWN {
            let hex: Vec<String> = shrunk.iter().map(|byte| format!("{byte:02x}")).collect();
            hex.concat()
        } else {
            self.stored(folder)
        };
        format!("{part}: a difference at seed {seed}\n{message}\nshrunk to {length} bytes: {shown}\n{small}\n")
    }

    /// Where the shrunk input was stored, in words.
    fn stored(&self, folder: &Path) -> String {
        let path = folder.join(format!("{}-{}.input", self.part, self.seed));
        match std::fs::write(&path, &self.shrunk) {
            Ok(()) => format!("in {}", path.display()),
            Err(error) => format!("not stored in {}: {error}", path.display()),
        }
    }
}

/// Compares the parts over rounds of seeds from `start` on, each round with
/// every part, until `goes_on`, which gets the next seed after each round, says
/// no or the seeds end; or gives the first difference.
pub fn rounds(
    parts: &[Part],
    start: u64,
    mut goes_on: impl FnMut(u64) -> bool,
) -> Result<(), Difference> {
    let mut from = start;
    loop {
        let Some(next) = from.checked_add(ROUND) else {
            return Ok(());
        };
        for part in parts {
            part.run(from..next)?;
        }
        if !goes_on(next) {
            return Ok(());
        }
        from = next;
    }
}

#[cfg(test)]
mod tests {
    use super::*;
    use crate::agree::same;
    use crate::question::{Reader, Writer};
    use coronagamba::Place;
    use reference::sharding::{place_of, Sharding};

    /// Shard bits taken from the top of the hashed id: an error that the
    /// papers have met. Ids below 2^32 do not show it at 32 shard bits or
    /// fewer, as long as the shard is 0.
    fn wrong_place(sharding: &Sharding, id: u64) -> Place {
        let place = sharding.place(id);
        let top = (sharding.hashed_id(id) >> 32) % sharding.shard_count();
        Place {
            shard: top,
            minishard: place.minishard,
        }
    }

    fn compare_wrong(bytes: &[u8]) -> u8 {
        let mut reader = Reader::new(bytes);
        let (sharding, id) = (reader.sharding(), reader.number());
        let wrong = sharding.allowed().map(|()| wrong_place(&sharding, id));
        same(
            format_args!("place of {id}"),
            wrong.map_err(crate::sides::refusal),
            place_of(&sharding, id).map(crate::sides::place),
        )
    }

    fn sample(rng: &mut Rng) -> Vec<u8> {
        Writer::new()
            .sharding(&testkit::places::wild_sharding(rng))
            .number(rng.edge_u64())
            .finish()
    }

    const WRONG: Part = Part {
        name: "wrong",
        about: "a wrong place",
        meets: &[0, 1],
        compare: compare_wrong,
        sample,
    };

    #[test]
    fn a_wrong_library_is_found_and_the_input_shrunk() {
        let difference = WRONG.run(0..1_000).expect_err("a difference");
        // One shard bit, and the lowest bit of the id that it comes from.
        assert_eq!(difference.shrunk, [0, 0, 0, 0, 1, 1]);
        assert!(difference.message.starts_with("place of "));
        let again = WRONG.run(difference.seed..difference.seed + 1);
        assert_eq!(again.expect_err("the same").message, difference.message);
        let report = difference.report(Path::new("nowhere"));
        let seed = format!("wrong: a difference at seed {}\n", difference.seed);
        assert!(report.starts_with(&seed), "{report}");
        assert!(
            report.contains("\nshrunk to 6 bytes: 000000000101\nplace of 1: "),
            "{report}"
        );
    }

    #[test]
    fn rounds_go_on_until_told_or_to_the_first_difference() {
        let place = crate::parts::sharding::PLACE;
        let mut nexts = Vec::new();
        let finished = rounds(&[place], 7, |next| {
            nexts.push(next);
            nexts.len() < 3
        });
        assert!(finished.is_ok());
        assert_eq!(nexts, [7 + ROUND, 7 + 2 * ROUND, 7 + 3 * ROUND]);
        let found = rounds(&[place, WRONG], 7, |_| true);
        assert_eq!(found.expect_err("a difference").part, "wrong");
    }

    #[test]
    fn a_long_input_goes_to_a_file() {
        let folder = std::env::temp_dir();
        let difference = Difference {
            part: "long",
            seed: std::process::id().into(),
            message: "differs".into(),
            shrunk: vec![3; MOST_SHOWN + 1],
            shrunk_message: None,
        };
        let path = folder.join(format!("long-{}.input", difference.seed));
        assert!(difference
            .report(&folder)
            .contains(&format!("in {}\n", path.display())));
        assert_eq!(std::fs::read(&path).expect("the file"), difference.shrunk);
        std::fs::remove_file(path).expect("the file goes");
    }

    #[test]
    fn a_tally_tells_numbers_and_counts() {
        let mut tally = Tally::default();
        for met in [0, 13, 0, 2] {
            tally.note(met);
        }
        assert_eq!(tally.numbers(), [0, 2, 13]);
        assert_eq!(tally.to_string(), "4 cases, 0: 2, 2: 1, 13: 1");
    }
}
