//! `name`: the name of an unsharded chunk, or of a shard's file or two files.

use coronagamba::{Cell, Refusal, Volume};

use super::command::Command;
use super::question::{answer, cell_object, cell_of};
use crate::args::Args;
use crate::diagnosis;
use crate::fault::{Explain, Fault};
use crate::help;
use crate::json::Object;
use crate::naming::Ending;
use crate::options::{JSON, PAIR, SHARD};
use crate::report::{Report, Where};
use crate::settings;

/// The command.
pub const COMMAND: Command = Command {
    name: "name",
    help: help::NAME,
    options: &[settings::OPTIONS, &[SHARD, PAIR, JSON]],
    run,
};

fn run(args: &Args, report: &mut Report) -> Result<(), Fault> {
    if args.flag(PAIR) && !args.flag(SHARD) {
        return Err(Fault::wrong_use(format!(
            "{PAIR}: only a shard may have two files; {SHARD} is missing",
        )));
    }
    if let Some(number) = args.number(SHARD)? {
        let [] = args.exactly([])?;
        return name_shard(args, report, number);
    }
    let words = args.at_least_one("X,Y,Z (or --shard N)")?;
    let volume = settings::volume(args)?;
    for word in words {
        answer(report, word, cell_of(word, "X,Y,Z"), |report, cell| {
            name_chunk(report, &volume, cell)
        })?;
    }
    Ok(())
}

/// The line of a shard.
fn name_shard(args: &Args, report: &mut Report, number: u64) -> Result<(), Fault> {
    let sharding = settings::of_shards(args)?.sharding;
    let endings: &[(&str, Ending)] = match args.flag(PAIR) {
        false => &[("name", Ending::Shard)],
        true => &[("index", Ending::Index), ("data", Ending::Data)],
    };
    let named =
        |(member, ending): &(&'static str, Ending)| Ok((*member, ending.name(&sharding, number)?));
    let names: Result<Vec<_>, Refusal> = endings.iter().map(named).collect();
    let question = Object::new().number("shard", number);
    match names.explain(format_args!("shard {number}"), |_| {
        diagnosis::of_shard_number(&sharding, number)
    }) {
        Ok(names) if report.json() => {
            let object = question.text("result", "named");
            let add = |object: Object, (member, name): (&str, String)| object.text(member, &name);
            report.object(names.into_iter().fold(object, add))
        }
        Ok(names) => names
            .into_iter()
            .try_for_each(|(_, name)| report.line(name)),
        Err(fault) => report.tell(question, &fault, Where::Word),
    }
}

/// The line of a cell.
fn name_chunk(report: &mut Report, volume: &Volume, cell: Cell) -> Result<(), Fault> {
    let Cell { x, y, z } = cell;
    let subject = format_args!("cell {x},{y},{z}");
    let name = volume
        .chunk_name(cell)
        .explain(subject, |refusal| diagnosis::of_cell(volume, cell, refusal));
    match name {
        Ok(name) if report.json() => report.object(
            cell_object(cell)
                .text("result", "named")
                .text("name", &name),
        ),
        Ok(name) => report.line(name),
        Err(fault) => report.tell(cell_object(cell), &fault, Where::Word),
    }
}
