//! A folder of chunk files under their published names.

use std::ffi::OsString;
use std::fs::{self, DirEntry, FileType};
use std::path::{Path, PathBuf};

use coronagamba::{Cell, Extents, Sharding, Volume};

use super::delivery::{Chunk, Job, Sources};
use super::task::{out_of, Found, Task};
use crate::args::Args;
use crate::fault::{Fault, Status};
use crate::files::{one_place, Inputs};
use crate::gather::no_shard_option;
use crate::json::Object;
use crate::naming::{cell_of_chunk, is_like_chunk, no_chunk, shard_number};
use crate::options::FORCE;
use crate::output;
use crate::parts;
use crate::record::Place;
use crate::report::Report;
use crate::settings::{self, Settings};
use crate::text::{passed_over, shown};

/// Packs a folder.
pub fn pack(
    args: &Args,
    workers: usize,
    folder: &Path,
    out: &Path,
    report: &mut Report,
) -> Result<(), Fault> {
    no_shard_option(args, folder)?;
    let (sharding, volume) = settings::of_cells(args)?;
    let settings = Settings {
        sharding,
        volume: Some(volume),
    };
    parts::run(args, "pack", &settings, report, |report| {
        pack_all(args, workers, (sharding, volume), folder, out, report)
    })
}

fn pack_all(
    args: &Args,
    workers: usize,
    (sharding, volume): (Sharding, Volume),
    folder: &Path,
    out: &Path,
    report: &mut Report,
) -> Result<(), Fault> {
    if one_place(folder, out) {
        return Err(Fault::wrong_use(format!(
            "{}: is the folder of the chunk files itself; shards are packed into another",
            shown(folder)
        )));
    }
    let files = Files::of(folder, &sharding, &volume)?;
    if !files.misnamed.is_empty() {
        return report.told(Place::Before, |report| {
            tell_misnamed(folder, &volume, &files.misnamed, report)
        });
    }
    if files.chunks.is_empty() {
        return report.told(Place::Before, |report| {
            tell_no_chunks(folder, &volume, files.others, report)
        });
    }
    output::make_folder(out, "a folder is packed into a folder")?;
    let links = files.links.iter().map(PathBuf::as_path);
    let task = Task {
        sharding,
        sources: Sources::Named(folder, volume),
        force: args.flag(FORCE),
        inputs: Inputs::of(links.chain(settings::files(args))),
    };
    let is_shard = |name: &_| shard_number(&sharding, name).is_some();
    output::remove_stale_parts(out, &task.inputs, is_shard);
    let shards = files.chunks.chunk_by(|one, next| one.shard == next.shard);
    let job = |chunks| job(&sharding, out, chunks);
    let mut summary = task.round(workers, shards.map(job).collect::<Result<_, _>>()?, report)?;
    summary.found = files.found(&volume);
    report.sum_up(&mut summary)
}

/// The shard of some chunks, which belong to one.
fn job<'a>(sharding: &Sharding, out: &Path, chunks: &'a [Chunk]) -> Result<Job<'a>, Fault> {
    let number = chunks[0].shard;
    Ok(Job {
        number,
        out: out_of(out, sharding, number)?,
        chunks,
    })
}

/// What stands in a folder.
#[derive(Default)]
struct Files {
    /// The chunks, by shard, minishard and id. Their names are not kept: a cell has
    /// one name.
    chunks: Vec<Chunk>,
    /// Those that are links: an output must not be what they lead to.
    links: Vec<PathBuf>,
    /// Names that are like those of chunks, and that no cell has.
    misnamed: Vec<OsString>,
    /// How many other files there are.
    others: u64,
}

impl Files {
    fn of(folder: &Path, sharding: &Sharding, volume: &Volume) -> Result<Files, Fault> {
        let unlisted = |error| Fault::system(folder, "listed", error);
        let mut files = Files::default();
        for entry in fs::read_dir(folder).map_err(unlisted)? {
            files.note(&entry.map_err(unlisted)?, sharding, volume);
        }
        files.chunks.sort_unstable();
        // A folder that changes while it is listed may tell a name twice.
        files.chunks.dedup();
        files.misnamed.sort_unstable();
        Ok(files)
    }

    fn note(&mut self, entry: &DirEntry, sharding: &Sharding, volume: &Volume) {
        let name = entry.file_name();
        let is = |test: fn(&FileType) -> bool| entry.file_type().is_ok_and(|kind| test(&kind));
        let chunk = cell_of_chunk(volume, &name).and_then(|cell| chunk_of(sharding, volume, cell));
        if let Some(chunk) = chunk {
            self.chunks.push(chunk);
            if is(FileType::is_symlink) {
                self.links.push(entry.path());
            }
        } else if is_like_chunk(&name) && !is(FileType::is_dir) {
            self.misnamed.push(name);
        } else if !is(FileType::is_dir) {
            self.others += 1;
        }
    }

    fn found(&self, volume: &Volume) -> Found {
        let chunks = self.chunks.len() as u64;
        // At most 64 key bits make at most 2^64 cells, and one has a file.
        let without = cells(volume) - u128::from(chunks);
        Found {
            chunks,
            cells_without: u64::try_from(without).unwrap_or(u64::MAX),
            others: self.others,
        }
    }
}

fn chunk_of(sharding: &Sharding, volume: &Volume, cell: Cell) -> Option<Chunk> {
    let key = volume.key(cell).ok()?;
    Chunk::of(sharding, key).ok()
}

/// How many cells the grid has.
fn cells(volume: &Volume) -> u128 {
    let grid = volume.grid().expect("a grid that has keys");
    let Extents { x, y, z } = grid;
    [x, y, z].map(u128::from).iter().product()
}

/// How many misnamed files are told.
const MOST_TOLD: usize = 10;

/// Tells of files whose names are like those of chunks and that no cell has. They
/// may be chunks that would be lost, or all names are of another volume, so
/// nothing is packed.
fn tell_misnamed(
    folder: &Path,
    volume: &Volume,
    names: &[OsString],
    report: &mut Report,
) -> Result<(), Fault> {
    report.note(Status::No);
    let text = no_chunk(volume);
    for name in &names[..names.len().min(MOST_TOLD)] {
        let path = folder.join(name);
        if report.json() {
            let object = Object::new().path(&path).text("result", "misnamed");
            report.object(object.text("error", &text))?;
        } else {
            report.line(format_args!("{}: {text}", shown(&path)))?;
        }
    }
    let more = match names.len().saturating_sub(MOST_TOLD) {
        0 => String::new(),
        more => format!("{more} more, "),
    };
    report.flush()?;
    report.remark(format_args!(
        "{}: {more}nothing is packed; look at the settings, or move these files away",
        shown(folder)
    ));
    Ok(())
}

/// Tells of a folder in which there is no chunk file.
fn tell_no_chunks(
    folder: &Path,
    volume: &Volume,
    others: u64,
    report: &mut Report,
) -> Result<(), Fault> {
    report.note(Status::No);
    if report.json() {
        let object = Object::new().path(folder).text("result", "no chunks");
        return report.object(object.number("other_files", others));
    }
    let example = volume.chunk_name(Cell::default()).unwrap_or_default();
    let text = format!(
        "{}: no chunks, no file has the name of one, as {example} is",
        shown(folder)
    );
    report.line(text + &passed_over(others, "other file"))
}
