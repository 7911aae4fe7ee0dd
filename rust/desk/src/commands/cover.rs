//! `cover`: the chunks that share a voxel with a box, listed or copied.

use std::collections::BTreeSet;

use coronagamba::{Bounds, Cell, Place, Point, Refusal, Sharding, Volume};

use super::command::Command;
use super::question::cell_text;
use crate::args::{triple, Args, I64};
use crate::diagnosis::{self, Diagnosis};
use crate::fault::{Explain, Fault};
use crate::help;
use crate::json::Object;
use crate::options::{COUNT, DEPOSIT, JSON, MOST, SHARDS};
use crate::report::{complaint, Report};
use crate::settings;

mod copies;

/// The command.
pub const COMMAND: Command = Command {
    name: "cover",
    help: help::COVER,
    options: &[
        settings::OF_CELLS,
        &[COUNT, SHARDS, MOST],
        copies::OPTIONS,
        &[JSON],
    ],
    run,
};

/// The most chunks that are listed, where no other number is given.
const MOST_LISTED: u64 = 1 << 24;

fn run(args: &Args, report: &mut Report) -> Result<(), Fault> {
    let [from, to] = args.exactly(["FROM", "TO"])?;
    let boxed = Bounds {
        begin: Point::from(triple(from, "FROM", I64)?),
        end: Point::from(triple(to, "TO", I64)?),
    };
    if args.flag(COUNT) && args.flag(SHARDS) {
        return Err(Fault::wrong_use(format!(
            "{COUNT} and {SHARDS} exclude each other"
        )));
    }
    let folders = copies::asked(args)?;
    if folders.is_some() && (args.flag(COUNT) || args.flag(SHARDS)) {
        let text = format!("{COUNT} and {SHARDS} list, and {DEPOSIT} copies; give one of them");
        return Err(Fault::wrong_use(text));
    }
    let most = args.number(MOST)?.unwrap_or(MOST_LISTED);
    let (sharding, volume) = settings::of_cells(args)?;
    let room = usize::try_from(most).unwrap_or(usize::MAX);
    let keys = volume.cover(boxed, room);
    let keys = keys.explain(format_args!("{}", box_text(boxed)), |_| too_many(most))?;
    if keys.is_empty() && !report.json() {
        complaint(format_args!("{}: {}", box_text(boxed), why_none(boxed)));
    }
    if args.flag(COUNT) {
        return tell_count(report, keys.len());
    }
    if args.flag(SHARDS) {
        return tell_shards(report, &sharding, &keys);
    }
    if let Some(folders) = folders {
        return copies::copy(args, report, (sharding, volume), &keys, folders);
    }
    for key in keys {
        tell(report, &sharding, &volume, key)?;
    }
    Ok(())
}

/// The line of one chunk.
fn tell(report: &mut Report, sharding: &Sharding, volume: &Volume, key: u64) -> Result<(), Fault> {
    let found = found(sharding, volume, key);
    let (cell, place, file) = found.explain(format_args!("key {key}"), |refusal| {
        diagnosis::of_key(volume, key, refusal)
    })?;
    if report.json() {
        return report.object(
            Object::new()
                .number("key", key)
                .text("result", "covers")
                .numbers("cell", [cell.x, cell.y, cell.z])
                .number("shard", place.shard)
                .text("file", &file)
                .number("minishard", place.minishard),
        );
    }
    let cell = cell_text(cell);
    report.line(format_args!("{key} {cell} {file} {}", place.minishard))
}

/// The cell of a key, its place and its shard's file name.
fn found(sharding: &Sharding, volume: &Volume, key: u64) -> Result<(Cell, Place, String), Refusal> {
    let place = sharding.place(key)?;
    Ok((volume.cell(key)?, place, sharding.shard_name(place.shard)?))
}

/// How many chunks there are.
fn tell_count(report: &mut Report, count: usize) -> Result<(), Fault> {
    if report.json() {
        let object = Object::new().text("result", "counted");
        return report.object(object.number("chunks", count as u64));
    }
    report.line(count)
}

/// The shard files that have these ids, each once, by number.
fn tell_shards(report: &mut Report, sharding: &Sharding, keys: &[u64]) -> Result<(), Fault> {
    let diagnosed = |_| diagnosis::of_sharding(sharding);
    let places = sharding.places(keys).explain("settings", diagnosed)?;
    let shards: BTreeSet<u64> = places.iter().map(|place| place.shard).collect();
    for shard in shards {
        let file = sharding.shard_name(shard).explain("settings", diagnosed)?;
        if report.json() {
            report.object(
                Object::new()
                    .number("shard", shard)
                    .text("result", "covers")
                    .text("file", &file),
            )?;
        } else {
            report.line(file)?;
        }
    }
    Ok(())
}

/// A box as it is written on the command line.
fn box_text(Bounds { begin, end }: Bounds) -> String {
    let text = |Point { x, y, z }: Point| format!("{x},{y},{z}");
    format!("box {} {}", text(begin), text(end))
}

/// More chunks than asked for.
fn too_many(most: u64) -> Diagnosis {
    Diagnosis::new(
        format!("more than {most} chunks share a voxel with the box"),
        format!("at most {most}"),
        "FROM and TO, or --most",
    )
}

/// Why a box has no chunk.
fn why_none(boxed: Bounds) -> &'static str {
    let [begin, end] = [boxed.begin, boxed.end].map(<[i64; 3]>::from);
    let empty = (0..3).any(|axis| end[axis] <= begin[axis]);
    if empty {
        "no chunk, since the box has no voxel: TO is excluded, and must be above FROM on each axis"
    } else {
        "no chunk, since the box lies outside the volume"
    }
}
