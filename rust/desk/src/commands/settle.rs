//! `settle`.

use std::ffi::{OsStr, OsString};
use std::path::{Path, PathBuf};

use coronagamba::Sharding;

use super::command::Command;
use crate::args::Args;
use crate::aside::Aside;
use crate::edition::Source;
use crate::fault::{Fault, Status};
use crate::files::{one_place, Inputs};
use crate::folder::{is_folder, list, single, Input};
use crate::forms::{Form, Forms};
use crate::gather::{no_shard_option, tell_no_shards};
use crate::help;
use crate::json::Object;
use crate::judge;
use crate::memory::Room;
use crate::naming::{shard_number, Ending};
use crate::options::{DROP_UNLISTED, FORCE, JSON, OUT};
use crate::output::{self, Placed};
use crate::parts;
use crate::record::{show, Place, Visit, Way};
use crate::report::{Counts, Report, Where};
use crate::round::{self, Outcome};
use crate::settings;
use crate::text::{and, counted, passed_over, shown};

/// The command.
pub const COMMAND: Command = Command {
    name: "settle",
    help: help::SETTLE,
    options: &[
        settings::OF_SHARDS,
        &[OUT, DROP_UNLISTED, FORCE],
        round::OPTIONS,
        parts::OPTIONS,
        &[JSON],
    ],
    run,
};

fn run(args: &Args, report: &mut Report) -> Result<(), Fault> {
    let settings = settings::of_shards(args)?;
    let [source] = args.exactly(["PATH"])?.map(Path::new);
    if !is_folder(source) {
        parts::for_folders_alone(args)?;
    }
    parts::run(args, COMMAND.name, &settings, report, |report| {
        settle_all(args, settings.sharding, source, report)
    })
}

fn settle_all(
    args: &Args,
    sharding: Sharding,
    source: &Path,
    report: &mut Report,
) -> Result<(), Fault> {
    // One works while the other waits for its output to reach the disk.
    let workers = round::workers(args, 2)?;
    let out = Path::new(args.needed(OUT)?);
    not_one_place(source, out)?;
    let of_folder = is_folder(source);
    let (shards, others) = if of_folder {
        no_shard_option(args, source)?;
        let listing = list(&sharding, source);
        let others = listing.others;
        (listing.inputs(source), others)
    } else {
        (vec![single(args, &sharding, source)], 0)
    };
    if shards.is_empty() {
        return report.told(Place::Before, |report| {
            tell_no_shards(source, others, report)
        });
    }
    let paths = shards.iter().flat_map(|shard| shard.source.paths());
    let task = Task {
        forms: Forms::of(sharding, args),
        force: args.flag(FORCE),
        inputs: Inputs::of(paths.chain(settings::files(args))),
    };
    if of_folder {
        let mut summary = task.folder(workers, shards, out, report)?;
        summary.others = others;
        report.sum_up(&mut summary)
    } else {
        task.file(shards, out, report)
    }
}

/// An input is never written over, by whatever path.
fn not_one_place(source: &Path, out: &Path) -> Result<(), Fault> {
    if one_place(source, out) {
        return Err(Fault::wrong_use(format!(
            "{}: is the output {} itself; inputs are never written over",
            shown(source),
            shown(out)
        )));
    }
    Ok(())
}

/// The name of a shard's settled form in a folder: that of its file. A pair is
/// settled into one file.
fn settled_name(source: &Source) -> OsString {
    let name = source.path.file_name().unwrap_or_default();
    match (&source.data, Ending::of(name)) {
        (Some(_), Some((stem, _))) => Ending::Shard.behind(stem),
        _ => name.to_os_string(),
    }
}

/// A shard and the place of its settled form.
struct Job {
    input: Input,
    out: PathBuf,
}

/// What is told of a settled shard.
struct Settled {
    out: PathBuf,
    placed: Placed,
    chunks: u64,
    from: usize,
    to: usize,
}

/// What all shards are settled with.
struct Task {
    forms: Forms,
    force: bool,
    /// All shards and the card, as they were when the run began: the output of
    /// one shard may be the input of another.
    inputs: Inputs,
}

impl Task {
    /// Settles one file.
    fn file(&self, shard: Vec<Input>, out: &Path, report: &mut Report) -> Result<(), Fault> {
        output::remove_stale_parts_of(out, &self.inputs);
        let job = |input| Job {
            out: out.to_path_buf(),
            input,
        };
        let jobs = shard.into_iter().map(job).collect();
        self.round(1, jobs, report).map(|_| ())
    }

    /// Settles all shards of a folder.
    fn folder(
        &self,
        workers: usize,
        shards: Vec<Input>,
        out: &Path,
        report: &mut Report,
    ) -> Result<Summary, Fault> {
        output::make_folder(out, "a folder is settled into a folder")?;
        let is_shard = |name: &OsStr| {
            let ending = Ending::of(name).map(|(_, ending)| ending);
            ending == Some(Ending::Shard) && shard_number(&self.forms.sharding, name).is_some()
        };
        output::remove_stale_parts(out, &self.inputs, is_shard);
        let job = |input: Input| Job {
            out: out.join(settled_name(&input.source)),
            input,
        };
        let jobs = shards.into_iter().map(job).collect();
        self.round(workers, jobs, report)
    }

    /// Settles the shards and tells what came of each.
    fn round(&self, workers: usize, jobs: Vec<Job>, report: &mut Report) -> Result<Summary, Fault> {
        let mut summary = Summary::default();
        let work = |room: &mut Room, job| self.work(room, job);
        let tell =
            |summary: &mut Summary, outcome: &_, report: &mut Report| summary.tell(outcome, report);
        parts::round(
            workers,
            "settled",
            jobs,
            |job| job.input.weight(),
            work,
            &mut summary,
            tell,
            report,
        )?;
        Ok(summary)
    }

    fn work(&self, room: &mut Room, job: Job) -> Outcome<Result<Settled, Fault>> {
        judge::work(room, job.input, |room, source, number| {
            self.settle(room, source, number, &job.out)
        })
    }

    /// Settles one shard.
    fn settle(
        &self,
        room: &mut Room,
        source: &Source,
        number: u64,
        out: &Path,
    ) -> Result<Settled, Fault> {
        // Before the work, and again where a file is to be replaced.
        self.inputs.spare(out)?;
        output::is_taken(out)?;
        let Form { bytes: to, chunks } = self.forms.make(room, source, number)?;
        Ok(Settled {
            placed: output::place(out, self.force, &room.form[..to], &self.inputs)?,
            out: out.to_path_buf(),
            chunks,
            from: room.file.bytes().len(),
            to,
        })
    }
}

/// Counts over all shards.
#[derive(Clone, Default)]
pub struct Summary {
    settled: u64,
    already_there: u64,
    other_bytes: u64,
    aside: Aside,
    /// How many files are no shards.
    others: u64,
}

impl Summary {
    fn tell(
        &mut self,
        outcome: &Outcome<Result<Settled, Fault>>,
        report: &mut Report,
    ) -> Result<(), Fault> {
        let path = &outcome.path;
        let Some(settled) = self.aside.answer(outcome, Where::Answer, report)? else {
            return Ok(());
        };
        match settled.placed {
            Placed::Written => self.settled += 1,
            Placed::AlreadyThere => self.already_there += 1,
            Placed::OtherBytes => {
                self.other_bytes += 1;
                report.note(Status::Use);
            }
        }
        if report.json() {
            report.object(settled.object(path))
        } else {
            report.line(settled.line(path))
        }
    }

    fn total(&self) -> u64 {
        self.settled + self.already_there + self.other_bytes + self.aside.total()
    }
}

impl Counts for Summary {
    fn each(&mut self, visit: Visit) {
        show(visit, "settled", Way::Added, &mut self.settled);
        show(visit, "already there", Way::Added, &mut self.already_there);
        show(visit, "other bytes", Way::Added, &mut self.other_bytes);
        self.aside.each(visit);
        show(visit, "other files", Way::Shared, &mut self.others);
    }

    /// `200 shards: 196 settled, 4 refused`
    fn print(&self, report: &mut Report) -> Result<(), Fault> {
        let others = self.others;
        let Aside {
            refused, failed, ..
        } = self.aside;
        if report.json() {
            let object = Object::new()
                .text("result", "summary")
                .number("shards", self.total())
                .number("settled", self.settled)
                .number("already_there", self.already_there)
                .number("other_bytes", self.other_bytes)
                .number("refused", refused)
                .number("not_settled", failed);
            let object = self.aside.unclear_members(object);
            return report.object(object.number("other_files", others));
        }
        report.line(format_args!(
            "{}: {} settled{}, {refused} refused{}{}{}{}",
            counted(self.total(), "shard"),
            self.settled,
            and(self.already_there, "already there"),
            and(self.other_bytes, "there with other bytes"),
            and(failed, "not read or not written"),
            self.aside.unclear_text(),
            passed_over(others, "other file"),
        ))
    }
}

impl Settled {
    fn line(&self, path: &Path) -> String {
        let (path, from, to) = (shown(path), self.from, self.to);
        match self.placed {
            Placed::Written => {
                let chunks = counted(self.chunks, "chunk");
                format!("{path}: settled, {chunks}, {from} -> {to} bytes")
            }
            Placed::AlreadyThere => format!("{path}: already there"),
            Placed::OtherBytes => format!(
                "{}: exists with other bytes (--force overwrites)",
                shown(&self.out)
            ),
        }
    }

    fn object(&self, path: &Path) -> Object {
        let result = match self.placed {
            Placed::Written => "settled",
            Placed::AlreadyThere => "already there",
            Placed::OtherBytes => "exists with other bytes",
        };
        Object::new()
            .path(path)
            .text("result", result)
            .named_path("out", &self.out)
            .number("chunks", self.chunks)
            .number("bytes", self.from as u64)
            .number("settled_bytes", self.to as u64)
    }
}

#[cfg(test)]
mod tests {
    use super::*;
    use crate::memory::Gate;
    use crate::trial::{twice_listed, Crowd, Folder, TWO_MINISHARDS};
    use coronagamba::Unlisted;

    #[test]
    fn forms_that_are_longer_than_their_files_wait_for_memory() {
        let folder = Folder::new("settle-waits");
        let file = twice_listed(1000);
        let path = folder.write("a", &file);
        let job = |number| Job {
            input: Input {
                source: Source::file(&path),
                number: Ok(0),
            },
            out: folder.at(format!("{number}")),
        };
        let file = file.len() as u64;
        let form = 32 + 2 * (1000 + 24);
        // Two shards fit by the lengths of their files, but not with their
        // forms.
        let gate = Gate::new(2 * (file + form) - 1);
        assert!(2 * 2 * file < 2 * (file + form) - 1);
        let task = Task {
            forms: Forms {
                sharding: TWO_MINISHARDS,
                unlisted: Unlisted::Refuse,
            },
            force: false,
            inputs: Inputs::default(),
        };
        let work = |room: &mut Room, job| match task.work(room, job).answer {
            Ok(settled) => (settled.placed, settled.to as u64),
            Err(_) => (Placed::OtherBytes, 0),
        };
        let told = Crowd::default().run((0..100).map(job).collect(), &gate, work);
        assert_eq!(told, vec![(Placed::Written, form); 100]);
    }
}
