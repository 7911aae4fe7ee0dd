//! `label`: the labels of single voxels of a chunk.

use std::path::Path;

use coronagamba::{LabelShape, Labels};

use super::command::Command;
use super::question::answer;
use crate::args::{triple, Args, U32};
use crate::diagnosis;
use crate::fault::{Explain, Fault};
use crate::help;
use crate::json::Object;
use crate::labels;
use crate::options::{CHANNEL, JSON, SIZE_OF_CHUNK};
use crate::report::{Report, Where};

/// The command.
pub const COMMAND: Command = Command {
    name: "label",
    help: help::LABEL,
    options: &[&[SIZE_OF_CHUNK], labels::OPTIONS, &[CHANNEL, JSON]],
    run,
};

fn run(args: &Args, report: &mut Report) -> Result<(), Fault> {
    let (file, voxels) = match args.at_least_one("CHUNK")? {
        [file, voxels @ ..] if !voxels.is_empty() => (file, voxels),
        _ => return Err(Fault::wrong_use("X,Y,Z is missing")),
    };
    let (shape, channel) = (labels::shape(args)?, labels::channel(args)?);
    let path = Path::new(file);
    let chunk = labels::read_chunk(path)?;
    for word in voxels {
        answer(report, word, triple(word, "X,Y,Z", U32), |report, voxel| {
            tell(report, path, (shape, &chunk), voxel, channel)
        })?;
    }
    Ok(())
}

/// The line of one voxel.
fn tell(
    report: &mut Report,
    path: &Path,
    (shape, chunk): (LabelShape, &[u8]),
    [x, y, z]: [u32; 3],
    channel: u32,
) -> Result<(), Fault> {
    let question = Object::new().path(path).numbers("voxel", [x, y, z]);
    let label = Labels::open(shape, chunk).label(x, y, z, channel);
    let label = label.explain(format_args!("voxel {x},{y},{z}"), |refusal| {
        diagnosis::of_label(chunk, &shape, [x, y, z], channel, refusal)
    });
    let label = match label {
        Ok(label) => label,
        Err(fault) => return report.tell(question, &fault, Where::Word),
    };
    if report.json() {
        let object = question.text("result", "label").number("channel", channel);
        return report.object(object.number("label", label));
    }
    report.line(label)
}
