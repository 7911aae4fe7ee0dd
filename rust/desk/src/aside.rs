//! Shards that have no answer of the command's own, counted and told.

use std::path::Path;

use crate::fault::Fault;
use crate::json::Object;
use crate::naming::Ending;
use crate::record::{show, Visit, Way};
use crate::report::{Report, Where};
use crate::round::Outcome;
use crate::text::and;
use crate::unclear::Unclear;

/// How many shards have no answer of the command's own.
#[derive(Clone, Copy, Debug, Default)]
pub struct Aside {
    /// The library refused them.
    pub refused: u64,
    /// They could not be read or written.
    pub failed: u64,
    /// They have the name of no shard.
    pub misnamed: u64,
    /// Half a pair of them is missing.
    pub halves: u64,
    /// They are there in both editions.
    pub both: u64,
}

impl Aside {
    /// Gives the command's own answer, or counts and tells what kept it away.
    pub fn answer<'a, T>(
        &mut self,
        outcome: &'a Outcome<Result<T, Fault>>,
        place: Where,
        report: &mut Report,
    ) -> Result<Option<&'a T>, Fault> {
        let fault = match &outcome.answer {
            Ok(answer) => return Ok(Some(answer)),
            Err(fault) => fault,
        };
        *self.count_of(fault) += 1;
        report.tell(begun(&outcome.path, fault), fault, place)?;
        Ok(None)
    }

    fn count_of(&mut self, fault: &Fault) -> &mut u64 {
        match fault {
            Fault::Refused(_) => &mut self.refused,
            Fault::Misnamed { .. } => &mut self.misnamed,
            Fault::Unclear { unclear, .. } => match unclear {
                Unclear::Half(_) => &mut self.halves,
                Unclear::Both(..) => &mut self.both,
            },
            _ => &mut self.failed,
        }
    }

    /// How many they are.
    pub fn total(&self) -> u64 {
        self.refused + self.failed + self.misnamed + self.halves + self.both
    }

    /// Those without a name or without clear files, as a summary's line ends.
    pub fn unclear_text(&self) -> String {
        [
            and(self.misnamed, "misnamed"),
            and(self.halves, "with half a pair"),
            and(self.both, "in both editions"),
        ]
        .concat()
    }

    /// Shows each count.
    pub fn each(&mut self, visit: Visit) {
        let Aside {
            refused,
            failed,
            misnamed,
            halves,
            both,
        } = self;
        show(visit, "refused", Way::Added, refused);
        show(visit, "failed", Way::Added, failed);
        show(visit, "misnamed", Way::Added, misnamed);
        show(visit, "half pairs", Way::Added, halves);
        show(visit, "both editions", Way::Added, both);
    }

    /// The same numbers behind an object's members.
    pub fn unclear_members(&self, object: Object) -> Object {
        object
            .number("misnamed", self.misnamed)
            .number("half_pairs", self.halves)
            .number("both_editions", self.both)
    }
}

/// The beginning of a shard's object: its path, and the other file where the fault is
/// about that.
fn begun(path: &Path, fault: &Fault) -> Object {
    let object = Object::new().path(path);
    match fault {
        Fault::System { path: other, .. } if is_data_of(path, other) => {
            object.named_path("data", other)
        }
        Fault::System { path: out, .. } if out != path => object.named_path("out", out),
        _ => object,
    }
}

/// Whether a path is that of the data file beside this index file.
fn is_data_of(index: &Path, path: &Path) -> bool {
    let stem = |path: &Path, ending| match Ending::of(path.file_name()?) {
        Some((stem, found)) if found == ending => Some(path.with_file_name(stem)),
        _ => None,
    };
    let (index, data) = (stem(index, Ending::Index), stem(path, Ending::Data));
    index.is_some() && index == data
}
