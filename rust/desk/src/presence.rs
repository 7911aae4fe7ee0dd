//! Which of the possible shards of a deposit a folder has. A shard that is not
//! there is no fault by the rules: no chunk may belong to it. But one that was
//! lost should not go unnoticed.

use std::path::{Path, PathBuf};

use coronagamba::Sharding;

use crate::fault::Fault;
use crate::folder::{Input, Listing};
use crate::json::Object;
use crate::naming::Ending;
use crate::report::Report;
use crate::text::shown;

/// Of more possible shards a deposit has but a few; then it says nothing that
/// one is not there.
const MOST_POSSIBLE: u64 = 1 << 16;

/// How many names a plain line gives.
const MOST_NAMES: usize = 5;

/// What a folder has of the possible shards.
pub struct Presence {
    folder: PathBuf,
    there: u64,
    possible: u64,
    /// The names of those that are not there, in order; where all others are
    /// pairs, those of their index files.
    absent: Vec<String>,
}

impl Presence {
    /// What a listed folder has; `None` where it has no shard, was not listed
    /// to its end, or where too many shards are possible.
    pub fn of(sharding: &Sharding, folder: &Path, listing: &Listing) -> Option<Presence> {
        let possible = 1u64.checked_shl(sharding.shard_bits.into())?;
        let there = listing.numbers(sharding);
        if possible > MOST_POSSIBLE || there.is_empty() || listing.broken.is_some() {
            return None;
        }
        let absent = (0..possible).filter(|number| !there.contains(number));
        let is_pair = |input: &Input| input.source.data.is_some();
        let ending = match listing.shards.iter().all(is_pair) {
            true => Ending::Index,
            false => Ending::Shard,
        };
        let names = absent.map(|number| ending.name(sharding, number).ok());
        Some(Presence {
            folder: folder.to_path_buf(),
            there: there.len() as u64,
            possible,
            absent: names.collect::<Option<_>>()?,
        })
    }

    /// Tells it: plain, only where a shard is not there.
    pub fn tell(&self, report: &mut Report) -> Result<(), Fault> {
        if report.json() {
            return report.object(self.object());
        }
        match self.absent.is_empty() {
            true => Ok(()),
            false => report.line(self.line()),
        }
    }

    /// `demo: 7 of 8 possible shards; not there: 7.shard`
    fn line(&self) -> String {
        let names = &self.absent[..self.absent.len().min(MOST_NAMES)];
        let more = match self.absent.len() - names.len() {
            0 => String::new(),
            more => format!(" and {more} more"),
        };
        format!(
            "{}: {} of {} possible shards; not there: {}{more}",
            shown(&self.folder),
            self.there,
            self.possible,
            names.join(", ")
        )
    }

    fn object(&self) -> Object {
        Object::new()
            .named_path("folder", &self.folder)
            .text("result", "folder")
            .number("shards", self.there)
            .number("possible", self.possible)
            .texts("not_there", self.absent.iter().map(String::as_str))
    }
}
