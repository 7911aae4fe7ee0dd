//! `locate`: the key, shard file and minishard of a cell.

use std::ffi::OsStr;
use std::io::{self, BufRead};
use std::os::unix::ffi::OsStrExt;
use std::path::Path;

use coronagamba::{Cell, Place, Refusal, Sharding, Volume};

use super::command::Command;
use super::question::{answer, cell_object, cell_of};
use crate::args::Args;
use crate::diagnosis;
use crate::fault::{Explain, Fault};
use crate::help;
use crate::options::JSON;
use crate::report::{Report, Where};
use crate::settings;

/// The command.
pub const COMMAND: Command = Command {
    name: "locate",
    help: help::LOCATE,
    options: &[settings::OF_CELLS, &[JSON]],
    run,
};

fn run(args: &Args, report: &mut Report) -> Result<(), Fault> {
    let words = args.at_least_one("X,Y,Z")?;
    let (sharding, volume) = settings::of_cells(args)?;
    let mut each = |word: &OsStr, what: &str| {
        answer(report, word, cell_of(word, what), |report, cell| {
            tell(report, &sharding, &volume, cell)
        })
    };
    words.iter().try_for_each(|word| match word.to_str() {
        Some("-") => each_line(&mut each),
        _ => each(word, "X,Y,Z"),
    })
}

/// Takes cells from standard input, one a line.
fn each_line(each: &mut impl FnMut(&OsStr, &str) -> Result<(), Fault>) -> Result<(), Fault> {
    let unread = |error| Fault::system(Path::new("standard input"), "read", error);
    let mut input = io::stdin().lock();
    let mut line = Vec::new();
    for number in 1.. {
        line.clear();
        input.read_until(b'\n', &mut line).map_err(unread)?;
        let word = line.trim_ascii();
        // An empty last line is no question: editors and scripts leave one.
        if word.is_empty() && input.fill_buf().map_err(unread)?.is_empty() {
            break;
        }
        let what = format!("line {number} of standard input");
        each(OsStr::from_bytes(word), &what)?;
    }
    Ok(())
}

/// The line of one cell.
fn tell(
    report: &mut Report,
    sharding: &Sharding,
    volume: &Volume,
    cell: Cell,
) -> Result<(), Fault> {
    let Cell { x, y, z } = cell;
    let subject = format_args!("cell {x},{y},{z}");
    let located = located(sharding, volume, cell)
        .explain(subject, |refusal| diagnosis::of_cell(volume, cell, refusal));
    let (key, place, file) = match located {
        Ok(located) => located,
        Err(fault) => return report.tell(cell_object(cell), &fault, Where::Word),
    };
    if report.json() {
        return report.object(
            cell_object(cell)
                .text("result", "located")
                .number("key", key)
                .number("shard", place.shard)
                .text("file", &file)
                .number("minishard", place.minishard),
        );
    }
    report.line(format_args!("{key} {file} {}", place.minishard))
}

/// The key of a cell, its place and its shard's file name.
fn located(
    sharding: &Sharding,
    volume: &Volume,
    cell: Cell,
) -> Result<(u64, Place, String), Refusal> {
    let key = volume.key(cell)?;
    let place = sharding.place(key)?;
    Ok((key, place, sharding.shard_name(place.shard)?))
}
