//! The shards that are packed: what they are packed with, what came of each, and
//! how many there are.

use std::path::{Path, PathBuf};

use coronagamba::{Refusal, Sharding};

use super::delivery::{Chunk, Job, Sources};
use crate::diagnosis::{self, Diagnosis};
use crate::fault::{Explain, Fault, Status};
use crate::files::Inputs;
use crate::json::Object;
use crate::judge;
use crate::memory::Room;
use crate::output::{self, Placed};
use crate::parts;
use crate::record::{show, Visit, Way};
use crate::report::{Counts, Report, Where};
use crate::round::Outcome;
use crate::text::{and, counted, passed_over, shown};

/// What all shards are packed with.
pub struct Task<'a> {
    /// The sharding of all shards.
    pub sharding: Sharding,
    /// Where the chunk files are.
    pub sources: Sources<'a>,
    /// Whether a file with other bytes is replaced.
    pub force: bool,
    /// What is never written over.
    pub inputs: Inputs,
}

impl Task<'_> {
    /// Packs the shards and tells what came of each.
    pub fn round(
        &self,
        workers: usize,
        jobs: Vec<Job>,
        report: &mut Report,
    ) -> Result<Summary, Fault> {
        let mut summary = Summary::default();
        let work = |room: &mut Room, job| self.work(room, job);
        let tell =
            |summary: &mut Summary, outcome: &_, report: &mut Report| summary.tell(outcome, report);
        parts::round(
            workers,
            "packed",
            jobs,
            Job::weight,
            work,
            &mut summary,
            tell,
            report,
        )?;
        Ok(summary)
    }

    fn work(&self, room: &mut Room, job: Job) -> Outcome<Result<Packed, Fault>> {
        let packed = room.attempt(|room| self.pack(room, &job), judge::lacks_memory);
        let read = packed.as_ref().map_or(0, |packed| packed.bytes);
        Outcome::of(job.out, packed, read as usize)
    }

    /// Packs one shard.
    fn pack(&self, room: &mut Room, job: &Job) -> Result<Packed, Fault> {
        // Before the work, and again where a file is to be replaced.
        self.inputs.spare(&job.out)?;
        output::is_taken(&job.out)?;
        let refused = |at: Option<&_>, length, refusal| self.refused(job, at, length, refusal);
        let form = job.form(&self.sharding, &self.sources, room, refused)?;
        Ok(Packed {
            placed: output::place(&job.out, self.force, form, &self.inputs)?,
            number: job.number,
            chunks: job.chunks.len() as u64,
            bytes: form.len() as u64,
        })
    }

    /// A refusal of a chunk, or of the shard, of which the form would have so many
    /// bytes.
    fn refused(&self, job: &Job, at: Option<&Chunk>, length: u64, refusal: Refusal) -> Fault {
        let diagnosis = match (refusal.number, at) {
            (Refusal::NO_SUCH_SHARD, _) => diagnosis::of_shard_number(&self.sharding, job.number),
            (Refusal::ID_ELSEWHERE, Some(chunk)) => self.elsewhere(job, chunk),
            (Refusal::NO_ROOM, _) => Diagnosis::new(
                format!(
                    "a settled form of {length} bytes, with {}",
                    counted(job.chunks.len() as u64, "chunk")
                ),
                "at most 1073741824 bytes, which is 1 GiB",
                "the chunk files; with more shard bits they would stand in several shards",
            ),
            _ => Diagnosis::new(
                "chunks that the library does not take",
                "chunks by rising minishard and rising id, each with all its bytes",
                "the chunk files; keep them and report it to the keepers of the library",
            ),
        };
        Fault::refused(&job.out, refusal, diagnosis)
    }

    fn elsewhere(&self, job: &Job, chunk: &Chunk) -> Diagnosis {
        let Chunk { id, shard, .. } = chunk;
        let path = shown(&self.sources.path(*id));
        let foreign = |chunk: &&Chunk| chunk.shard != job.number;
        let more = match job.chunks.iter().filter(foreign).count() {
            0 | 1 => String::new(),
            all => format!(", and {} more of other shards", all - 1),
        };
        Diagnosis::new(
            format!("id {id}, {path}, which belongs to shard {shard}{more}"),
            format!("chunks of shard {}", job.number),
            format!(
                "{}; the shard's number; the settings",
                self.sources.origin(*id)
            ),
        )
    }
}

/// What is told of a packed shard.
#[derive(Debug)]
struct Packed {
    placed: Placed,
    number: u64,
    chunks: u64,
    bytes: u64,
}

/// Counts over all shards.
#[derive(Clone, Default)]
pub struct Summary {
    packed: u64,
    already_there: u64,
    other_bytes: u64,
    refused: u64,
    failed: u64,
    /// What the folder holds.
    pub found: Found,
}

impl Summary {
    fn tell(
        &mut self,
        outcome: &Outcome<Result<Packed, Fault>>,
        report: &mut Report,
    ) -> Result<(), Fault> {
        let path = &outcome.path;
        let packed = match &outcome.answer {
            Ok(packed) => packed,
            Err(fault) => {
                match fault.is_refused() {
                    true => self.refused += 1,
                    false => self.failed += 1,
                }
                return report.tell(begun(path, fault), fault, Where::Answer);
            }
        };
        match packed.placed {
            Placed::Written => self.packed += 1,
            Placed::AlreadyThere => self.already_there += 1,
            Placed::OtherBytes => {
                self.other_bytes += 1;
                report.note(Status::Use);
            }
        }
        if report.json() {
            report.object(packed.object(path))
        } else {
            report.line(packed.line(path))
        }
    }

    fn total(&self) -> u64 {
        self.packed + self.already_there + self.other_bytes + self.refused + self.failed
    }
}

impl Counts for Summary {
    fn each(&mut self, visit: Visit) {
        show(visit, "packed", Way::Added, &mut self.packed);
        show(visit, "already there", Way::Added, &mut self.already_there);
        show(visit, "other bytes", Way::Added, &mut self.other_bytes);
        show(visit, "refused", Way::Added, &mut self.refused);
        show(visit, "failed", Way::Added, &mut self.failed);
        let found = &mut self.found;
        show(visit, "chunks", Way::Shared, &mut found.chunks);
        show(
            visit,
            "cells without",
            Way::Shared,
            &mut found.cells_without,
        );
        show(visit, "other files", Way::Shared, &mut found.others);
    }

    /// `8 shards: 8 packed, 0 refused; 96 chunks, 4 cells have none`
    fn print(&self, report: &mut Report) -> Result<(), Fault> {
        let Found {
            chunks,
            cells_without,
            others,
        } = &self.found;
        if report.json() {
            return report.object(
                Object::new()
                    .text("result", "summary")
                    .number("shards", self.total())
                    .number("packed", self.packed)
                    .number("already_there", self.already_there)
                    .number("other_bytes", self.other_bytes)
                    .number("refused", self.refused)
                    .number("not_packed", self.failed)
                    .number("chunks", *chunks)
                    .number("cells_without", *cells_without)
                    .number("other_files", *others),
            );
        }
        let without = match cells_without {
            0 => "every cell has one".into(),
            1 => "1 cell has none".into(),
            many => format!("{many} cells have none"),
        };
        report.line(format_args!(
            "{}: {} packed{}{}, {} refused{}; {}, {without}{}",
            counted(self.total(), "shard"),
            self.packed,
            and(self.already_there, "already there"),
            and(self.other_bytes, "there with other bytes"),
            self.refused,
            and(self.failed, "not read or not written"),
            counted(*chunks, "chunk"),
            passed_over(*others, "other file"),
        ))
    }
}

/// What a folder of chunk files holds.
#[derive(Clone, Default)]
pub struct Found {
    /// How many chunks.
    pub chunks: u64,
    /// How many cells of the grid have no file.
    pub cells_without: u64,
    /// How many files are no chunks.
    pub others: u64,
}

/// The beginning of a shard's object: its path, and the chunk file where the fault is
/// about one.
fn begun(path: &Path, fault: &Fault) -> Object {
    let object = Object::new().path(path);
    match fault {
        Fault::System { path: chunk, .. } if chunk != path => object.named_path("chunk", chunk),
        _ => object,
    }
}

impl Packed {
    fn line(&self, path: &Path) -> String {
        let path = shown(path);
        match self.placed {
            Placed::Written => {
                let chunks = counted(self.chunks, "chunk");
                format!("{path}: packed, {chunks}, {} bytes", self.bytes)
            }
            Placed::AlreadyThere => format!("{path}: already there"),
            Placed::OtherBytes => {
                format!("{path}: exists with other bytes (--force overwrites)")
            }
        }
    }

    fn object(&self, path: &Path) -> Object {
        let result = match self.placed {
            Placed::Written => "packed",
            Placed::AlreadyThere => "already there",
            Placed::OtherBytes => "exists with other bytes",
        };
        Object::new()
            .path(path)
            .text("result", result)
            .number("shard", self.number)
            .number("chunks", self.chunks)
            .number("bytes", self.bytes)
    }
}

/// The file of a shard in a folder.
pub fn out_of(folder: &Path, sharding: &Sharding, number: u64) -> Result<PathBuf, Fault> {
    let name = sharding
        .shard_name(number)
        .explain(format_args!("shard {number}"), |_| {
            diagnosis::of_shard_number(sharding, number)
        })?;
    Ok(folder.join(name))
}
