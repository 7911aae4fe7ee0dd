//! `check`.

use coronagamba::Sharding;

use super::command::Command;
use crate::args::Args;
use crate::aside::Aside;
use crate::diagnosis::Gaps;
use crate::edition::Source;
use crate::fault::Fault;
use crate::folder::Input;
use crate::gather::{gather, tell_no_shards};
use crate::help;
use crate::json::Object;
use crate::judge;
use crate::memory::Room;
use crate::options::{JSON, UNLISTED};
use crate::parts;
use crate::record::{show, show_flag, Place, Visit, Way};
use crate::report::{Counts, Report, Where};
use crate::round::{self, Outcome};
use crate::settings;
use crate::text::{and, counted, passed_over, shown};

/// The command.
pub const COMMAND: Command = Command {
    name: "check",
    help: help::CHECK,
    options: &[
        settings::OF_SHARDS,
        &[UNLISTED],
        round::OPTIONS,
        parts::OPTIONS,
        &[JSON],
    ],
    run,
};

fn run(args: &Args, report: &mut Report) -> Result<(), Fault> {
    let settings = settings::of_shards(args)?;
    parts::run(args, COMMAND.name, &settings, report, |report| {
        check_all(args, settings.sharding, report)
    })
}

fn check_all(args: &Args, sharding: Sharding, report: &mut Report) -> Result<(), Fault> {
    let workers = round::workers(args, 1)?;
    let found = gather(args, &sharding)?;
    for (folder, others) in &found.empty {
        report.told(Place::Before, |report| {
            tell_no_shards(folder, *others, report)
        })?;
    }
    let counting = args.flag(UNLISTED);
    let mut summary = Summary {
        others: found.others,
        counting,
        of_one: found.folders.is_empty() && found.inputs.len() < 2,
        ..Summary::default()
    };
    let work = |room: &mut Room, input| {
        judge::work(room, input, |room, source, number| {
            check(&sharding, counting, room, source, number)
        })
    };
    let tell =
        |summary: &mut Summary, outcome: &_, report: &mut Report| summary.tell(outcome, report);
    parts::round(
        workers,
        "checked",
        found.inputs,
        Input::weight,
        work,
        &mut summary,
        tell,
        report,
    )?;
    let mut known = found.folders.iter().flatten();
    known.try_for_each(|presence| report.told(Place::After, |report| presence.tell(report)))?;
    report.sum_up(&mut summary)
}

/// What is told of a sound shard.
struct Sound {
    chunks: u64,
    bytes: usize,
    /// Where it was asked for.
    unlisted: Option<Unlisted>,
}

/// How many bytes nothing lists, and in which gaps, where these were found.
struct Unlisted {
    bytes: u64,
    gaps: Option<Gaps>,
}

impl Unlisted {
    /// `, 5 unlisted bytes in 2 gaps: byte 32 (3 bytes), byte 90 (2 bytes)`
    fn line(&self) -> String {
        match &self.gaps {
            Some(gaps) if self.bytes > 0 => format!(", {}: {gaps}", gaps.size()),
            _ => format!(", {}", counted(self.bytes, "unlisted byte")),
        }
    }

    fn object(&self, object: Object) -> Object {
        let object = object.number("unlisted", self.bytes);
        let Some(gaps) = &self.gaps else {
            return object;
        };
        let object = object.number("gaps", gaps.count);
        match gaps.first.first() {
            Some(span) => object.number("first_gap", span.start),
            None => object,
        }
    }
}

/// Checks one shard.
fn check(
    sharding: &Sharding,
    counting: bool,
    room: &mut Room,
    source: &Source,
    number: u64,
) -> Result<Sound, Fault> {
    let (chunks, unlisted) = match counting {
        true => {
            let (chunks, unlisted) = judge::measure(sharding, number, source, room)?;
            (chunks, Some(unlisted))
        }
        false => (judge::check(sharding, number, source, room)?, None),
    };
    let file = room.file.bytes();
    Ok(Sound {
        chunks,
        bytes: file.len(),
        unlisted: unlisted.map(|bytes| Unlisted {
            bytes,
            gaps: Gaps::of(sharding, number, file, bytes),
        }),
    })
}

/// Counts over all shards.
#[derive(Clone, Default)]
pub struct Summary {
    sound: u64,
    aside: Aside,
    others: u64,
    /// Whether it was asked how many bytes nothing lists, and how many these are.
    counting: bool,
    unlisted: u64,
    /// Whether one file was named, which needs no summary.
    of_one: bool,
}

impl Counts for Summary {
    fn each(&mut self, visit: Visit) {
        show(visit, "sound", Way::Added, &mut self.sound);
        self.aside.each(visit);
        show(visit, "other files", Way::Shared, &mut self.others);
        show_flag(visit, "counting", &mut self.counting);
        show(visit, "unlisted", Way::Added, &mut self.unlisted);
        show_flag(visit, "of one", &mut self.of_one);
    }

    fn print(&self, report: &mut Report) -> Result<(), Fault> {
        match self.total() {
            0 => Ok(()),
            _ if self.of_one => Ok(()),
            _ => self.tell_all(report),
        }
    }
}

impl Summary {
    fn tell(
        &mut self,
        outcome: &Outcome<Result<Sound, Fault>>,
        report: &mut Report,
    ) -> Result<(), Fault> {
        let path = &outcome.path;
        let Some(sound) = self.aside.answer(outcome, Where::Answer, report)? else {
            return Ok(());
        };
        let Sound {
            chunks,
            bytes,
            unlisted,
        } = sound;
        self.sound += 1;
        if let Some(unlisted) = unlisted {
            self.unlisted += unlisted.bytes;
        }
        if report.json() {
            let object = Object::new().path(path).text("result", "sound");
            let object = object
                .number("chunks", *chunks)
                .number("bytes", *bytes as u64);
            report.object(match unlisted {
                Some(unlisted) => unlisted.object(object),
                None => object,
            })
        } else {
            let path = shown(path);
            let chunks = counted(*chunks, "chunk");
            let unlisted = unlisted.as_ref().map(Unlisted::line).unwrap_or_default();
            report.line(format_args!(
                "{path}: sound, {chunks}, {bytes} bytes{unlisted}"
            ))
        }
    }

    fn total(&self) -> u64 {
        self.sound + self.aside.total()
    }

    /// `200 shards: 196 sound, 4 refused`
    fn tell_all(&self, report: &mut Report) -> Result<(), Fault> {
        let Aside {
            refused, failed, ..
        } = self.aside;
        if report.json() {
            let object = Object::new().text("result", "summary");
            let object = object.number("shards", self.total());
            let object = object
                .number("sound", self.sound)
                .number("refused", refused);
            let object = self
                .aside
                .unclear_members(object.number("not_read", failed));
            let object = object.number("other_files", self.others);
            return report.object(match self.counting {
                true => object.number("unlisted", self.unlisted),
                false => object,
            });
        }
        let unlisted = match self.counting {
            true => format!(", {}", counted(self.unlisted, "unlisted byte")),
            false => String::new(),
        };
        report.line(format_args!(
            "{}: {} sound, {refused} refused{}{}{unlisted}{}",
            counted(self.total(), "shard"),
            self.sound,
            and(failed, "not read"),
            self.aside.unclear_text(),
            passed_over(self.others, "other file"),
        ))
    }
}
