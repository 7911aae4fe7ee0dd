//! The chunks of a box, each copied from a deposit to a file of its own. Each
//! shard is read once.

use std::collections::BTreeMap;
use std::fs;
use std::path::{Path, PathBuf};
use std::sync::Arc;

use coronagamba::{Cell, Refusal, Sharding, Volume};

use crate::args::Args;
use crate::commands::question::cell_text;
use crate::diagnosis;
use crate::edition::{Bytes, Source};
use crate::fault::{Explain, Fault, Status};
use crate::files::{one_place, Inputs};
use crate::folder::find;
use crate::json::Object;
use crate::judge;
use crate::memory::Room;
use crate::naming::cell_of_chunk;
use crate::options::{Opt, DEPOSIT, FORCE, JOBS, OUT};
use crate::output::{self, Placed};
use crate::report::{complaint, error_members, Report, Where};
use crate::round::{self, Outcome};
use crate::settings;
use crate::text::{and, counted, shown};

/// The options of copies.
pub const OPTIONS: &[Opt] = &[DEPOSIT, OUT, FORCE, JOBS];

/// Where chunks are copied from and to; `None` where they are only listed.
pub fn asked(args: &Args) -> Result<Option<(&Path, &Path)>, Fault> {
    let Some(deposit) = args.value(DEPOSIT) else {
        let needless = OPTIONS.iter().find(|option| args.flag(**option));
        return match needless {
            None => Ok(None),
            Some(option) => Err(Fault::wrong_use(format!(
                "{option}: is for chunks that are copied, and {DEPOSIT} is missing"
            ))),
        };
    };
    let (deposit, out) = (Path::new(deposit), Path::new(args.needed(OUT)?));
    let about = fs::metadata(deposit).map_err(|error| Fault::system(deposit, "read", error))?;
    let wrong = match (about.is_dir(), one_place(deposit, out)) {
        (false, _) => "is no folder, and a deposit is one",
        (true, true) => "is the deposit itself; chunks are copied to another folder",
        (true, false) => return Ok(Some((deposit, out))),
    };
    Err(Fault::wrong_use(format!("{}: {wrong}", shown(deposit))))
}

/// Copies the chunks of these keys.
pub fn copy(
    args: &Args,
    report: &mut Report,
    (sharding, volume): (Sharding, Volume),
    keys: &[u64],
    (deposit, out): (&Path, &Path),
) -> Result<(), Fault> {
    // One works while the other waits for its output to reach the disk.
    let workers = round::workers(args, 2)?;
    let jobs = jobs(&sharding, keys, deposit)
        .explain("settings", |_| diagnosis::of_sharding(&sharding))?;
    output::make_folder(out, "chunks are copied into a folder")?;
    let known = jobs
        .iter()
        .filter_map(|job| job.source.as_ref().ok()?.as_ref());
    let paths = known.flat_map(Source::paths);
    let task = Task {
        sharding,
        volume,
        out,
        force: args.flag(FORCE),
        inputs: Inputs::of(paths.chain(settings::files(args))),
    };
    let is_chunk = |name: &_| cell_of_chunk(&volume, name).is_some();
    output::remove_stale_parts(out, &task.inputs, is_chunk);
    let mut summary = Summary::default();
    let work = |room: &mut Room, job| task.work(room, job);
    let tell = |outcome, report: &mut Report| summary.tell(outcome, report);
    round::go(workers, "read", jobs, work, tell, report)?;
    summary.print(report)
}

/// A shard and the keys that are asked of it, rising.
struct Job {
    /// Its file's path, of a pair that of the index file; where the deposit has
    /// none, the one that it would have.
    path: PathBuf,
    /// Its files, where the deposit has them.
    source: Result<Option<Source>, Fault>,
    number: u64,
    keys: Vec<u64>,
}

/// The shards that have these keys, by number.
fn jobs(sharding: &Sharding, keys: &[u64], deposit: &Path) -> Result<Vec<Job>, Refusal> {
    let mut shards: BTreeMap<u64, Vec<u64>> = BTreeMap::new();
    for (place, key) in sharding.places(keys)?.iter().zip(keys) {
        shards.entry(place.shard).or_default().push(*key);
    }
    let job = |(number, keys)| {
        let found = find(sharding, deposit, number)?;
        let path = match &found {
            Some(input) => input.source.path.clone(),
            None => deposit.join(sharding.shard_name(number)?),
        };
        let known = found.map(|input| Ok(input.known()?.0));
        Ok(Job {
            path,
            source: known.transpose(),
            number,
            keys,
        })
    };
    shards.into_iter().map(job).collect()
}

/// What came of a shard.
struct Read {
    /// Why it could not be read.
    fault: Option<Fault>,
    chunks: Vec<Copied>,
}

/// What came of a chunk.
struct Copied {
    key: u64,
    cell: Cell,
    out: PathBuf,
    end: End,
}

enum End {
    /// Its bytes, so many, are in the folder, or others under its name.
    Placed(Placed, u64),
    /// Its shard does not list it.
    Absent,
    /// The deposit has no such shard.
    NoShard,
    /// The library refused it with this number: the first of its minishard, or a later
    /// one.
    Refused(u8, Arc<Fault>, bool),
    /// Its shard could not be read, which has this status.
    NotRead(Status),
    /// It could not be written.
    NotWritten(Fault),
}

/// What all shards are read with.
struct Task<'a> {
    sharding: Sharding,
    volume: Volume,
    out: &'a Path,
    force: bool,
    inputs: Inputs,
}

impl Task<'_> {
    fn work(&self, room: &mut Room, mut job: Job) -> Outcome<Read> {
        room.file.clear();
        let (fault, chunks) = match self.read(room, &mut job) {
            Ok(true) => (None, self.copies(&job, room.file.bytes())),
            Ok(false) => (None, self.all(&job, || End::NoShard)),
            Err(fault) => {
                let status = fault.status();
                (Some(fault), self.all(&job, || End::NotRead(status)))
            }
        };
        Outcome {
            refused: chunks
                .iter()
                .any(|copy| matches!(copy.end, End::Refused(..))),
            read: room.file.bytes().len() as u64,
            path: job.path,
            answer: Read { fault, chunks },
        }
    }

    /// Reads the shard; `false` where the deposit has none.
    fn read(&self, room: &mut Room, job: &mut Job) -> Result<bool, Fault> {
        let Some(source) = std::mem::replace(&mut job.source, Ok(None))? else {
            return Ok(false);
        };
        let read = |room: &mut Room| {
            room.wait_for([source.length_to_read(), 0, 0]);
            room.file.read(&source)
        };
        room.attempt(read, judge::lacks_memory).map(|()| true)
    }

    /// All chunks of a shard, which came to one end.
    fn all(&self, job: &Job, end: impl Fn() -> End) -> Vec<Copied> {
        job.keys.iter().map(|key| self.named(*key, end())).collect()
    }

    /// Copies the chunks of a shard. A fault in a minishard is looked for once,
    /// however many chunks it keeps back.
    fn copies(&self, job: &Job, file: Bytes) -> Vec<Copied> {
        let shard = file.open(&self.sharding, job.number);
        let mut known: BTreeMap<(u8, u64), Arc<Fault>> = BTreeMap::new();
        let mut copies = Vec::with_capacity(job.keys.len());
        for key in &job.keys {
            let mut copy = self.named(*key, End::Absent);
            copy.end = match shard.chunk(*key) {
                Ok(bytes) => self.place(&copy.out, bytes),
                Err(refusal) if refusal.number == 12 => End::Absent,
                Err(refusal) => {
                    let at = (refusal.number, self.minishard_of(*key, refusal));
                    let first = !known.contains_key(&at);
                    let refused = known
                        .entry(at)
                        .or_insert_with(|| Arc::new(self.refused(job, file, *key, refusal)));
                    End::Refused(refusal.number, Arc::clone(refused), first)
                }
            };
            copies.push(copy);
        }
        copies
    }

    /// The minishard that a refusal is about; 0 where it is about the file.
    fn minishard_of(&self, key: u64, refusal: Refusal) -> u64 {
        match (refusal.number, self.sharding.place(key)) {
            (7..=22, Ok(place)) => place.minishard,
            _ => 0,
        }
    }

    fn refused(&self, job: &Job, file: Bytes, key: u64, refusal: Refusal) -> Fault {
        let diagnosis = diagnosis::of_lookup(&self.sharding, job.number, file, key, refusal);
        Fault::refused(&job.path, refusal, diagnosis)
    }

    fn place(&self, out: &Path, bytes: &[u8]) -> End {
        match output::place(out, self.force, bytes, &self.inputs) {
            Ok(placed) => End::Placed(placed, bytes.len() as u64),
            Err(fault) => End::NotWritten(fault),
        }
    }

    /// A chunk with its cell and the path of its file.
    fn named(&self, key: u64, end: End) -> Copied {
        let cell = self.volume.cell(key);
        let cell = cell.expect("a listed key is that of a cell");
        let name = self.volume.chunk_name(cell);
        Copied {
            key,
            cell,
            out: self.out.join(name.expect("a cell has a name")),
            end,
        }
    }
}

/// Counts over all chunks.
#[derive(Default)]
struct Summary {
    written: u64,
    already_there: u64,
    other_bytes: u64,
    absent: u64,
    no_shard: u64,
    refused: u64,
    failed: u64,
}

impl Summary {
    fn tell(&mut self, outcome: Outcome<Read>, report: &mut Report) -> Result<(), Fault> {
        let (path, Read { fault, chunks }) = (outcome.path, outcome.answer);
        match &fault {
            Some(fault) if report.json() => {
                report.object(error_members(Object::new().path(&path), fault))?;
            }
            Some(fault) => report.complain(fault)?,
            None => {}
        }
        let there = |copy: &Copied| !matches!(copy.end, End::NoShard);
        if !report.json() && !chunks.iter().any(there) {
            report.flush()?;
            tell_no_shard(&path, chunks.len() as u64);
        }
        for copy in chunks {
            self.count(&copy.end, report);
            copy.tell(&path, report)?;
        }
        Ok(())
    }

    fn count(&mut self, end: &End, report: &mut Report) {
        let (count, status) = match end {
            End::Placed(Placed::Written, _) => (&mut self.written, Status::Yes),
            End::Placed(Placed::AlreadyThere, _) => (&mut self.already_there, Status::Yes),
            End::Placed(Placed::OtherBytes, _) => (&mut self.other_bytes, Status::Use),
            End::Absent => (&mut self.absent, Status::Yes),
            End::NoShard => (&mut self.no_shard, Status::Yes),
            End::Refused(..) => (&mut self.refused, Status::No),
            End::NotRead(status) => (&mut self.failed, *status),
            End::NotWritten(fault) => (&mut self.failed, fault.status()),
        };
        *count += 1;
        report.note(status);
    }

    fn total(&self) -> u64 {
        let there = self.written + self.already_there + self.other_bytes;
        there + self.absent + self.no_shard + self.refused + self.failed
    }

    /// `100 chunks: 96 written, 4 absent`
    fn print(&self, report: &mut Report) -> Result<(), Fault> {
        if report.json() {
            return report.object(
                Object::new()
                    .text("result", "summary")
                    .number("chunks", self.total())
                    .number("written", self.written)
                    .number("already_there", self.already_there)
                    .number("other_bytes", self.other_bytes)
                    .number("absent", self.absent)
                    .number("no_shard", self.no_shard)
                    .number("refused", self.refused)
                    .number("not_copied", self.failed),
            );
        }
        report.line(format_args!(
            "{}: {} written{}{}{}{}{}{}",
            counted(self.total(), "chunk"),
            self.written,
            and(self.already_there, "already there"),
            and(self.other_bytes, "there with other bytes"),
            and(self.absent, "absent"),
            and(self.no_shard, "of shards that are not there"),
            and(self.refused, "refused"),
            and(self.failed, "not read or not written"),
        ))
    }
}

/// Tells that a deposit lacks a shard. That is no fault, since no chunk may
/// belong to it; but one that was lost should not go unnoticed.
fn tell_no_shard(path: &Path, chunks: u64) {
    complaint(format_args!(
        "{}: is not there; {} of the box would stand in it",
        shown(path),
        counted(chunks, "chunk")
    ));
}

impl Copied {
    /// The line of a chunk. Standard error says in full what is the matter,
    /// once for each minishard.
    fn tell(self, shard: &Path, report: &mut Report) -> Result<(), Fault> {
        let (json, text) = (report.json(), self.end.text());
        let object = Object::new()
            .number("key", self.key)
            .numbers("cell", [self.cell.x, self.cell.y, self.cell.z])
            .path(shard)
            .named_path("out", &self.out);
        if !json {
            let name = self.out.file_name().unwrap_or_default();
            let (key, name) = (self.key, shown(Path::new(name)));
            report.line(format_args!("{key} {} {name} {text}", cell_text(self.cell)))?;
        }
        match &self.end {
            End::Refused(_, fault, first) if json || *first => {
                report.tell(object, fault, Where::Aside)
            }
            End::NotWritten(fault) => report.tell(object, fault, Where::Aside),
            _ if !json => Ok(()),
            End::Placed(_, bytes) => {
                let object = object.text("result", &text);
                report.object(object.number("bytes", *bytes))
            }
            _ => report.object(object.text("result", &text)),
        }
    }
}

impl End {
    fn text(&self) -> String {
        match self {
            End::Placed(Placed::Written, _) => "written".into(),
            End::Placed(Placed::AlreadyThere, _) => "already there".into(),
            End::Placed(Placed::OtherBytes, _) => "exists with other bytes".into(),
            End::Absent => "absent".into(),
            End::NoShard => "no shard".into(),
            End::Refused(number, ..) => format!("refused {number}"),
            End::NotRead(_) => "not read".into(),
            End::NotWritten(_) => "not written".into(),
        }
    }
}
