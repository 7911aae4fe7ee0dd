//! A run in parts, and the report in which a part's answers are kept until all parts
//! are joined.

use std::fs;
use std::io;
use std::path::Path;

use coronagamba::{Extents, Offset, Sharding, Volume};

use crate::args::Args;
use crate::fault::{Fault, Status};
use crate::files::{one_place, read_to_end, Inputs};
use crate::json::Object;
use crate::memory::Room;
use crate::options::{Opt, JOBS, JSON, PART, REPORT, RESUME};
use crate::output::{self, Placed};
use crate::part::Part;
use crate::record::{Checksum, Filed, Place, Record};
use crate::report::Report;
use crate::round::{self, Outcome};
use crate::settings::{self, Settings};
use crate::text::{counted, shown};

/// The options of a run in parts.
pub const OPTIONS: &[Opt] = &[PART, REPORT, RESUME];

/// A run that is not in parts.
const WHOLE: Part = Part { number: 1, of: 1 };

/// Works on all jobs, or on those of the part that is asked for, and tells the
/// outcomes in their order. `weigh` gives a job's name, its weight and when its files
/// were changed, `tell` counts and tells an outcome.
#[allow(clippy::too_many_arguments)]
pub fn round<J: Send, V: Send, T: Clone>(
    workers: usize,
    done: &'static str,
    jobs: Vec<J>,
    weigh: impl Fn(&J) -> (&Path, u64, u64),
    work: impl Fn(&mut Room, J) -> Outcome<V> + Sync,
    tally: &mut T,
    tell: impl Fn(&mut T, &Outcome<V>, &mut Report) -> Result<(), Fault>,
    report: &mut Report,
) -> Result<(), Fault> {
    let (jobs, places) = match report.part() {
        None => {
            let places = 0..jobs.len();
            (jobs, places.collect())
        }
        Some(part) => dealt(part, jobs, weigh, report),
    };
    let mut places = places.into_iter();
    let tell = |outcome, report: &mut Report| {
        let place = Place::Shard(places.next().unwrap_or_default());
        let before = tally.clone();
        // A report has the answer in both forms; it is counted once.
        report.told(place, |report| {
            *tally = before.clone();
            tell(tally, &outcome, report)
        })
    };
    round::go(workers, done, jobs, work, tell, report)
}

/// The jobs of a part, and their places among all.
fn dealt<J>(
    part: Part,
    jobs: Vec<J>,
    weigh: impl Fn(&J) -> (&Path, u64, u64),
    report: &mut Report,
) -> (Vec<J>, Vec<usize>) {
    let (mut weights, mut listing) = (Vec::new(), Checksum::new());
    for job in &jobs {
        let (name, weight, changed) = weigh(job);
        listing.add(name.as_os_str().as_encoded_bytes());
        listing.add(format!("\0{weight} {changed}\0").as_bytes());
        weights.push(weight);
    }
    report.listed(jobs.len() as u64, &listing.text());
    if report.only_lists() {
        return (Vec::new(), Vec::new());
    }
    let places = part.places(&weights);
    let mut wanted = places.iter().copied().peekable();
    let of_part = |(place, job)| wanted.next_if_eq(&place).map(|_| job);
    let jobs = jobs.into_iter().enumerate().filter_map(of_part).collect();
    (jobs, places)
}

/// Runs a command over folders, whole or in the part that is asked for, and keeps its
/// answers in a report where one is named.
pub fn run(
    args: &Args,
    command: &'static str,
    settings: &Settings,
    report: &mut Report,
    body: impl Fn(&mut Report) -> Result<(), Fault>,
) -> Result<(), Fault> {
    let part = Part::asked(args)?;
    let Some(path) = args.value(REPORT).map(Path::new) else {
        if args.flag(RESUME) {
            return Err(Fault::wrong_use(format!("{RESUME} goes with {REPORT}")));
        }
        report.take_part(part);
        return body(report);
    };
    let part = part.unwrap_or(WHOLE);
    let head = head(args, command, settings, part);
    let inputs = Inputs::of(settings::files(args));
    stands_apart(path, args)?;
    output::remove_stale_parts_of(path, &inputs);
    report.take_part(Some(part));
    let mut outdated = None;
    if let There::Ended(earlier) = there(path, args.flag(RESUME), &head, part)? {
        if still_holds(&earlier, &head, part, report, &body)? {
            return Ended::of(&earlier).tell(path, "already there", part, report);
        }
        outdated = Some(earlier.checksum);
    }
    report.begin(Record::new(head.clone()));
    let run = body(report);
    let record = report.end();
    run?;
    let ended = Ended {
        status: report.worst(),
        shards: record.told_shards,
    };
    let text = record.text(part, ended.status, report.misused());
    loop {
        // Another run of this part may have ended meanwhile; where it ended well, its
        // report stands.
        let replace = match there(path, true, &head, part)? {
            There::Ended(other) if outdated.as_ref() != Some(&other.checksum) => {
                report.forget();
                return Ended::of(&other).tell(path, "already there", part, report);
            }
            There::Nothing => false,
            _ => true,
        };
        if output::place(path, replace, text.as_bytes(), &inputs)? != Placed::OtherBytes {
            return ended.tell(path, "written", part, report);
        }
    }
}

/// A report in a folder that is gone through would be one of its other files, for some
/// parts and not for others.
fn stands_apart(path: &Path, args: &Args) -> Result<(), Fault> {
    let within = |folder: &&Path| one_place(output::folder_of(path), folder);
    match args.arguments().iter().map(Path::new).find(within) {
        None => Ok(()),
        Some(folder) => Err(Fault::wrong_use(format!(
            "{}: stands in {} itself; a report needs another folder",
            shown(path),
            shown(folder)
        ))),
    }
}

/// Whether folders, lists and outputs are still what an earlier report rests on. They
/// are listed, and no shard is read.
fn still_holds(
    earlier: &Filed,
    head: &Object,
    part: Part,
    report: &mut Report,
    body: impl Fn(&mut Report) -> Result<(), Fault>,
) -> Result<bool, Fault> {
    report.begin(Record::of_folders(head.clone()));
    let listed = body(report);
    let record = report.end();
    listed?;
    report.forget();
    let mut shared = record.shared.iter();
    let counts_hold = shared.all(|(name, count)| earlier.count(name) == *count);
    let now = Filed::read(record.text(part, Status::Yes, false).into_bytes());
    let lists_hold = now.is_ok_and(|now| earlier.disagrees(&now).is_none());
    let is_there = |(path, length): (&Path, u64)| {
        fs::symlink_metadata(path).is_ok_and(|about| about.is_file() && about.len() == length)
    };
    Ok(counts_hold && lists_hold && earlier.outputs_pass(is_there))
}

/// Without folders there are no parts.
pub fn for_folders_alone(args: &Args) -> Result<(), Fault> {
    match OPTIONS.iter().find(|option| args.flag(**option)) {
        None => Ok(()),
        Some(option) => Err(Fault::wrong_use(format!("{option} is for folders"))),
    }
}

/// What a report says first: all that its answers rest on, beside the shards.
fn head(args: &Args, command: &str, settings: &Settings, part: Part) -> Object {
    let Sharding {
        preshift,
        hash,
        minishard_bits,
        shard_bits,
        ..
    } = settings.sharding;
    let head = Object::new()
        .text("result", "part")
        .text("command", command)
        .text("version", env!("CARGO_PKG_VERSION"))
        .number("parts", part.of)
        .number("preshift", preshift)
        .text("hash", if hash == 0 { "identity" } else { "murmur" })
        .number("minishard_bits", minishard_bits)
        .number("shard_bits", shard_bits)
        .text("kind", settings::kind_name(&settings.sharding));
    let head = match settings.volume {
        None => head,
        Some(Volume {
            size,
            chunk,
            offset,
        }) => {
            let three = |Extents { x, y, z }| [x, y, z];
            let Offset { x, y, z } = offset;
            head.numbers("size", three(size))
                .numbers("chunk", three(chunk))
                .numbers("offset", [x, y, z])
        }
    };
    // Settings are told above; the other ones do not bear on the answers.
    let free = [settings::OPTIONS, OPTIONS, &[JOBS, JSON]].concat();
    let words = args.words(|name| free.iter().all(|option| option.name() != name));
    head.texts("words", words.iter().map(String::as_str))
}

/// What stands under a report's name before the run.
enum There {
    Nothing,
    /// A report of this part that was cut short, or of a run that had an error: it is
    /// replaced.
    Unfinished,
    /// The report of this part, which ended well.
    Ended(Filed),
}

/// What a report says of its part as a whole.
struct Ended {
    status: Status,
    /// How many shards it tells of.
    shards: u64,
}

/// Looks for an earlier report. Whatever else stands there is left alone.
fn there(path: &Path, resume: bool, head: &Object, part: Part) -> Result<There, Fault> {
    match fs::symlink_metadata(path) {
        Err(error) if error.kind() == io::ErrorKind::NotFound => return Ok(There::Nothing),
        Err(error) => return Err(Fault::system(path, "written", error)),
        Ok(_) => output::is_taken(path)?,
    };
    if !resume {
        return Err(Fault::wrong_use(format!(
            "{}: exists ({RESUME} goes on from it)",
            shown(path)
        )));
    }
    let bytes = read_to_end(path)?;
    if bytes.is_empty() {
        return Ok(There::Unfinished);
    }
    if !Filed::is_of(&bytes, head, part) {
        return Err(Fault::wrong_use(format!(
            "{}: exists and is no report of this command, these settings and this part",
            shown(path)
        )));
    }
    Ok(match Filed::read(bytes) {
        Ok(filed) if filed.status <= Status::No => There::Ended(filed),
        _ => There::Unfinished,
    })
}

impl Ended {
    fn of(filed: &Filed) -> Self {
        Ended {
            status: filed.status,
            shards: filed.told_shards,
        }
    }

    fn tell(&self, path: &Path, word: &str, part: Part, report: &mut Report) -> Result<(), Fault> {
        report.note(self.status);
        let (status, shards) = (self.status as u8, self.shards);
        if report.json() {
            return report.object(
                Object::new()
                    .path(path)
                    .text("result", "report")
                    .text("report", word)
                    .number("part", part.number)
                    .number("parts", part.of)
                    .number("shards", shards)
                    .number("status", status),
            );
        }
        report.line(format_args!(
            "{}: {word}, part {}/{}, {}, status {status}",
            shown(path),
            part.number,
            part.of,
            counted(shards, "shard"),
        ))
    }
}

#[cfg(test)]
mod splits;

#[cfg(test)]
mod tests {
    use super::*;
    use crate::trial::{Folder, TWO_MINISHARDS};
    use std::ffi::OsString;

    /// A run of one part, during which `meanwhile` happens, and which ends with a status.
    fn run_beside(path: &Path, ends: Status, meanwhile: impl Fn()) -> Status {
        let words = ["--report".into(), OsString::from(path), "--resume".into()];
        let args = Args::parse(&words, &[OPTIONS]).unwrap();
        let settings = Settings {
            sharding: TWO_MINISHARDS,
            volume: None,
        };
        let mut report = Report::to(false, Box::new(io::sink()), Box::new(io::sink()));
        let body = |report: &mut Report| {
            meanwhile();
            report.note(ends);
            Ok(())
        };
        run(&args, "check", &settings, &mut report, body).unwrap();
        report.worst()
    }

    #[test]
    fn a_report_that_ended_well_meanwhile_stands() {
        let folder = Folder::new("parts-meanwhile");
        let (path, good) = (folder.at("r"), folder.at("good"));
        run_beside(&good, Status::No, || {});
        let whole = fs::read(&good).unwrap();
        // Before the run there is no report, or one that did not end well.
        run_beside(&folder.at("bad"), Status::System, || {});
        for before in [None, Some(fs::read(folder.at("bad")).unwrap())] {
            let _ = fs::remove_file(&path);
            if let Some(before) = before {
                folder.write("r", &before);
            }
            let told = run_beside(&path, Status::System, || drop(folder.write("r", &whole)));
            assert_eq!(told, Status::No);
            assert_eq!(fs::read(&path).unwrap(), whole);
        }
        // One that did not end well is replaced by one that did.
        folder.write("r", &fs::read(folder.at("bad")).unwrap());
        assert_eq!(run_beside(&path, Status::No, || {}), Status::No);
        assert_eq!(fs::read(&path).unwrap(), whole);
    }
}
