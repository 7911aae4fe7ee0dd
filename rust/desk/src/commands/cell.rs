//! `cell`: the cell of a key and its voxels.

use coronagamba::{Bounds, Cell, Refusal, Volume};

use super::command::Command;
use super::question::{answer, cell_text};
use crate::args::{number, Args};
use crate::diagnosis;
use crate::fault::{Explain, Fault};
use crate::help;
use crate::json::Object;
use crate::options::JSON;
use crate::report::{Report, Where};
use crate::settings;

/// The command.
pub const COMMAND: Command = Command {
    name: "cell",
    help: help::CELL,
    options: &[settings::OF_VOLUME, &[JSON]],
    run,
};

fn run(args: &Args, report: &mut Report) -> Result<(), Fault> {
    let words = args.at_least_one("KEY")?;
    let volume = settings::with_keys(settings::volume(args)?)?;
    for word in words {
        answer(report, word, number(word, "KEY"), |report, key| {
            tell(report, &volume, key)
        })?;
    }
    Ok(())
}

/// The line of one key.
fn tell(report: &mut Report, volume: &Volume, key: u64) -> Result<(), Fault> {
    let question = Object::new().number("key", key);
    let found = found(volume, key).explain(format_args!("key {key}"), |refusal| {
        diagnosis::of_key(volume, key, refusal)
    });
    let (cell, Bounds { begin, end }) = match found {
        Ok(found) => found,
        Err(fault) => return report.tell(question, &fault, Where::Word),
    };
    if report.json() {
        return report.object(
            question
                .text("result", "cell")
                .numbers("cell", [cell.x, cell.y, cell.z])
                .numbers("begin", [begin.x, begin.y, begin.z])
                .numbers("end", [end.x, end.y, end.z]),
        );
    }
    report.line(format_args!(
        "{} {}..{} {}..{} {}..{}",
        cell_text(cell),
        begin.x,
        end.x,
        begin.y,
        end.y,
        begin.z,
        end.z
    ))
}

/// The cell of a key and its voxels.
fn found(volume: &Volume, key: u64) -> Result<(Cell, Bounds), Refusal> {
    let cell = volume.cell(key)?;
    Ok((cell, volume.bounds(cell)?))
}
