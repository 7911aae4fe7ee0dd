//! `pack`: loose chunk files into shards of the settled form.

use std::path::Path;

use super::command::Command;
use crate::args::Args;
use crate::fault::Fault;
use crate::folder::is_folder;
use crate::help;
use crate::options::{FORCE, JSON, OUT};
use crate::parts;
use crate::report::Report;
use crate::round;
use crate::settings;

mod delivery;
mod list;
mod loose;
mod task;

pub use task::Summary;

/// The command.
pub const COMMAND: Command = Command {
    name: "pack",
    help: help::PACK,
    options: &[
        settings::OF_CELLS,
        &[OUT, FORCE],
        round::OPTIONS,
        parts::OPTIONS,
        &[JSON],
    ],
    run,
};

fn run(args: &Args, report: &mut Report) -> Result<(), Fault> {
    // One works while the other waits for its output to reach the disk.
    let workers = round::workers(args, 2)?;
    let source = match args.arguments() {
        [] => None,
        _ => Some(Path::new(args.exactly(["LIST or DIR"])?[0])),
    };
    let out = Path::new(args.needed(OUT)?);
    match source.filter(|source| *source != Path::new("-")) {
        Some(folder) if is_folder(folder) => loose::pack(args, workers, folder, out, report),
        list => {
            parts::for_folders_alone(args)?;
            list::pack(args, list, out, report)
        }
    }
}
