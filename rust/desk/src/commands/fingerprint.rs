//! `fingerprint`.

use std::collections::BTreeSet;
use std::path::Path;

use coronagamba::Sharding;

use super::command::Command;
use crate::args::Args;
use crate::aside::Aside;
use crate::digest::{self, Digest};
use crate::edition::Source;
use crate::fault::{Fault, Status};
use crate::folder::{is_folder, list, single, Input};
use crate::forms::{Form, Forms};
use crate::gather::{no_shard_option, no_shards, tell_no_shards};
use crate::help;
use crate::json::Object;
use crate::judge;
use crate::memory::Room;
use crate::options::{AGAINST, DROP_UNLISTED, JSON};
use crate::parts;
use crate::record::{show, show_flag, Place, Visit, Way};
use crate::report::{Counts, Report, Where};
use crate::round::{self, Outcome};
use crate::settings;
use crate::text::{and, counted, passed_over};

mod sums;

use sums::Sums;

/// The command.
pub const COMMAND: Command = Command {
    name: "fingerprint",
    help: help::FINGERPRINT,
    options: &[
        settings::OF_SHARDS,
        &[AGAINST, DROP_UNLISTED],
        round::OPTIONS,
        parts::OPTIONS,
        &[JSON],
    ],
    run,
};

fn run(args: &Args, report: &mut Report) -> Result<(), Fault> {
    let settings = settings::of_shards(args)?;
    let [path] = args.exactly(["PATH"])?.map(Path::new);
    if !is_folder(path) {
        parts::for_folders_alone(args)?;
    }
    parts::run(args, COMMAND.name, &settings, report, |report| {
        fingerprint_all(args, settings.sharding, path, report)
    })
}

fn fingerprint_all(
    args: &Args,
    sharding: Sharding,
    path: &Path,
    report: &mut Report,
) -> Result<(), Fault> {
    let workers = round::workers(args, 1)?;
    let against = args.value(AGAINST).map(Path::new);
    let sums = against
        .map(|list| Sums::read(list, &sharding))
        .transpose()?;
    digest::try_program()?;
    let shards = find(args, &sharding, path, sums.is_some())?;
    let mut summary = Summary {
        of_folder: is_folder(path),
        against: sums.is_some(),
        list: sums.as_ref().map_or(0, Sums::checksum),
        other_lines: sums.as_ref().map_or(0, |sums| sums.others),
        others: shards.others,
        ..Summary::default()
    };
    if shards.inputs.is_empty() {
        report.told(Place::Before, |report| summary.tell_no_shards(path, report))?;
    }
    let forms = Forms::of(sharding, args);
    let work = |room: &mut Room, input| {
        judge::work(room, input, |room, source, number| {
            make(&forms, room, source, number)
        })
    };
    let tell = |summary: &mut Summary, outcome: &_, report: &mut Report| {
        summary.tell(sums.as_ref(), outcome, report)
    };
    parts::round(
        workers,
        "fingerprinted",
        shards.inputs,
        Input::weight,
        work,
        &mut summary,
        tell,
        report,
    )?;
    // A single file is compared with its own line.
    if let Some(sums) = sums.filter(|_| summary.of_folder) {
        let is_missing = |(number, _): &(&u64, &Digest)| !shards.numbers.contains(number);
        let missing: Vec<_> = sums.of.iter().filter(is_missing).collect();
        summary.missing = missing.len() as u64;
        report.told(Place::After, |report| {
            tell_missing(&sharding, &missing, report)
        })?;
    }
    report.sum_up(&mut summary)
}

/// What a path leads to.
struct Shards {
    inputs: Vec<Input>,
    /// The numbers of those in a folder, also of those that have no fingerprint.
    numbers: BTreeSet<u64>,
    /// How many files are no shards.
    others: u64,
}

/// The shards that a path leads to. Of a folder that is not known to its end, nothing
/// can be said to be missing, so it is not compared with a list.
fn find(args: &Args, sharding: &Sharding, path: &Path, against: bool) -> Result<Shards, Fault> {
    if !is_folder(path) {
        return Ok(Shards {
            inputs: vec![single(args, sharding, path)],
            numbers: BTreeSet::new(),
            others: 0,
        });
    }
    no_shard_option(args, path)?;
    let mut listing = list(sharding, path);
    match listing.broken.take_if(|_| against) {
        Some(fault) => Err(fault),
        None => Ok(Shards {
            numbers: listing.numbers(sharding),
            others: listing.others,
            inputs: listing.inputs(path),
        }),
    }
}

/// Tells which shards only the list has.
fn tell_missing(
    sharding: &Sharding,
    missing: &[(&u64, &Digest)],
    report: &mut Report,
) -> Result<(), Fault> {
    for (number, expected) in missing {
        report.note(Status::No);
        // The list was read with names of this sharding.
        let name = sharding.shard_name(**number).unwrap_or_default();
        if report.json() {
            let object = Object::new().text("name", &name).text("result", "missing");
            report.object(object.text("expected", &expected.to_string()))?;
        } else {
            report.line(format_args!("{name}: missing, only the list has it"))?;
        }
    }
    Ok(())
}

/// A shard and the fingerprint of its settled form.
struct Made {
    number: u64,
    /// The name of its settled form: also of a pair that of one file.
    name: String,
    digest: Digest,
    chunks: u64,
    from: usize,
    to: usize,
}

/// Fingerprints one shard: makes its settled form and the fingerprint of that.
fn make(forms: &Forms, room: &mut Room, source: &Source, number: u64) -> Result<Made, Fault> {
    let Form { bytes: to, chunks } = forms.make(room, source, number)?;
    let bytes = room.file.bytes();
    let name = judge::ask(&forms.sharding, number, source, bytes, |_| {
        forms.sharding.shard_name(number)
    })?;
    let digest = Digest::of(&room.form[..to])
        .map_err(|error| Fault::system(&source.path, "fingerprinted", error))?;
    Ok(Made {
        number,
        name,
        digest,
        chunks,
        from: bytes.len(),
        to,
    })
}

/// Counts over all shards.
#[derive(Clone, Default)]
pub struct Summary {
    of_folder: bool,
    /// Whether there is a list to compare with, and its checksum.
    against: bool,
    list: u64,
    /// How many of its lines are of other files.
    other_lines: u64,
    others: u64,
    made: u64,
    same: u64,
    different: u64,
    missing: u64,
    more: u64,
    aside: Aside,
}

/// What a list says of a shard.
enum Compared {
    Same,
    Different(Digest),
    More,
}

impl Summary {
    /// Whether standard output is a list of fingerprints, and all else is told apart
    /// from it.
    fn lists(&self, report: &Report) -> bool {
        !self.against && !report.json()
    }

    fn tell_no_shards(&self, folder: &Path, report: &mut Report) -> Result<(), Fault> {
        if !self.lists(report) {
            return tell_no_shards(folder, self.others, report);
        }
        report.note(Status::No);
        report.remark(no_shards(folder, self.others));
        Ok(())
    }

    fn tell(
        &mut self,
        sums: Option<&Sums>,
        outcome: &Outcome<Result<Made, Fault>>,
        report: &mut Report,
    ) -> Result<(), Fault> {
        let path = &outcome.path;
        let place = match self.lists(report) {
            true => Where::Aside,
            false => Where::Answer,
        };
        let Some(made) = self.aside.answer(outcome, place, report)? else {
            return Ok(());
        };
        self.made += 1;
        let Some(sums) = sums else {
            return match report.json() {
                true => report.object(made.object(path, "fingerprint", None)),
                false => report.line(format_args!("{}  {}", made.digest, made.name)),
            };
        };
        let compared = match sums.of.get(&made.number) {
            Some(expected) if *expected == made.digest => Compared::Same,
            Some(expected) => Compared::Different(*expected),
            None => Compared::More,
        };
        self.tell_compared(path, made, compared, report)
    }

    fn tell_compared(
        &mut self,
        path: &Path,
        made: &Made,
        compared: Compared,
        report: &mut Report,
    ) -> Result<(), Fault> {
        let (result, text, expected) = match compared {
            Compared::Same => {
                self.same += 1;
                ("same", "same", Some(made.digest))
            }
            Compared::Different(expected) => {
                self.different += 1;
                ("different", "different", Some(expected))
            }
            Compared::More => {
                self.more += 1;
                ("more", "more, the list does not have it", None)
            }
        };
        if result != "same" {
            report.note(Status::No);
        }
        match report.json() {
            true => report.object(made.object(path, result, expected)),
            false => report.line(format_args!("{}: {text}", made.name)),
        }
    }

    fn total(&self) -> u64 {
        self.made + self.missing + self.aside.total()
    }

    fn object(&self) -> Object {
        let object = Object::new().text("result", "summary");
        let object = object.number("shards", self.total());
        let object = match self.against {
            true => object
                .number("same", self.same)
                .number("different", self.different)
                .number("missing", self.missing)
                .number("more", self.more)
                .number("other_lines", self.other_lines),
            false => object.number("fingerprints", self.made),
        };
        let object = object
            .number("refused", self.aside.refused)
            .number("not_read", self.aside.failed);
        let object = self.aside.unclear_members(object);
        object.number("other_files", self.others)
    }
}

impl Counts for Summary {
    fn each(&mut self, visit: Visit) {
        show_flag(visit, "of folder", &mut self.of_folder);
        show_flag(visit, "against", &mut self.against);
        show(visit, "list", Way::Shared, &mut self.list);
        show(visit, "other lines", Way::Shared, &mut self.other_lines);
        show(visit, "other files", Way::Shared, &mut self.others);
        show(visit, "fingerprints", Way::Added, &mut self.made);
        show(visit, "same", Way::Added, &mut self.same);
        show(visit, "different", Way::Added, &mut self.different);
        show(visit, "missing", Way::Shared, &mut self.missing);
        show(visit, "more", Way::Added, &mut self.more);
        self.aside.each(visit);
    }

    /// `200 shards: 197 same, 1 different, 1 missing, 1 more, 0 refused`. Beside a
    /// list it is told where a shard is not in it, on standard error.
    fn print(&self, report: &mut Report) -> Result<(), Fault> {
        if !self.of_folder {
            return Ok(());
        }
        if report.json() {
            return report.object(self.object());
        }
        let found = match self.against {
            true => format!(
                "{} same, {} different, {} missing, {} more",
                self.same, self.different, self.missing, self.more
            ),
            false => counted(self.made, "fingerprint"),
        };
        let Aside {
            refused, failed, ..
        } = self.aside;
        let line = format!(
            "{}: {found}, {refused} refused{}{}{}{}",
            counted(self.total(), "shard"),
            and(failed, "not read"),
            self.aside.unclear_text(),
            passed_over(self.others, "other file"),
            passed_over(self.other_lines, "other line"),
        );
        match self.against {
            true => report.line(line),
            false if self.aside.total() == 0 => Ok(()),
            false => {
                report.flush()?;
                report.remark(line);
                Ok(())
            }
        }
    }
}

impl Made {
    fn object(&self, path: &Path, result: &str, expected: Option<Digest>) -> Object {
        let object = Object::new().path(path).text("result", result);
        let object = object
            .text("name", &self.name)
            .text("fingerprint", &self.digest.to_string());
        let object = match expected {
            Some(expected) => object.text("expected", &expected.to_string()),
            None => object,
        };
        object
            .number("chunks", self.chunks)
            .number("bytes", self.from as u64)
            .number("settled_bytes", self.to as u64)
    }
}
