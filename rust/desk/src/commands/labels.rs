//! `labels`: a whole chunk of labels in the raw form.

use std::path::Path;

use coronagamba::{LabelShape, Labels, Refusal};

use super::command::Command;
use crate::args::Args;
use crate::buffers::cleared;
use crate::diagnosis;
use crate::fault::{Fault, Status};
use crate::files::Inputs;
use crate::help;
use crate::json::Object;
use crate::labels;
use crate::options::{FORCE, JSON, OUT, SIZE_OF_CHUNK};
use crate::output::{self, Placed};
use crate::report::Report;
use crate::text::{counted, shown};

/// The command.
pub const COMMAND: Command = Command {
    name: "labels",
    help: help::LABELS,
    options: &[&[SIZE_OF_CHUNK], labels::OPTIONS, &[OUT, FORCE, JSON]],
    run,
};

fn run(args: &Args, report: &mut Report) -> Result<(), Fault> {
    let [path] = args.exactly(["CHUNK"])?.map(Path::new);
    let out = Path::new(args.needed(OUT)?);
    let shape = labels::shape(args)?;
    let inputs = Inputs::of([path]);
    inputs.spare(out)?;
    output::is_taken(out)?;
    output::remove_stale_parts_of(out, &inputs);
    let chunk = labels::read_chunk(path)?;
    let raw = raw_form(path, shape, &chunk)?;
    let placed = output::place(out, args.flag(FORCE), &raw, &inputs)?;
    let unpacked = Unpacked {
        placed,
        labels: (raw.len() / shape.bits.bytes()) as u64,
        from: chunk.len() as u64,
        to: raw.len() as u64,
    };
    if placed == Placed::OtherBytes {
        report.note(Status::Use);
    }
    if report.json() {
        report.object(unpacked.object(path, out))
    } else {
        report.line(unpacked.line(path, out))
    }
}

/// The raw form of a chunk. Where there is no memory for it, that is said only
/// of a chunk that the library would unpack.
fn raw_form(path: &Path, shape: LabelShape, chunk: &[u8]) -> Result<Vec<u8>, Fault> {
    let labels = Labels::open(shape, chunk);
    let (mut raw, lacking) = match labels.unpacked_length().map(cleared) {
        Ok(Ok(raw)) => (raw, None),
        Ok(Err(error)) => (Vec::new(), Some(error)),
        // More bytes than can be counted: without room unpacking says why not.
        Err(_) => (Vec::new(), None),
    };
    match (labels.unpack(&mut raw), lacking) {
        (Ok(_), _) => Ok(raw),
        (Err(refusal), Some(error)) if refusal.number == Refusal::NO_ROOM => {
            Err(Fault::system(path, "unpacked", error))
        }
        (Err(refusal), _) => {
            let diagnosis = diagnosis::of_labels(chunk, &shape, refusal);
            Err(Fault::refused(path, refusal, diagnosis))
        }
    }
}

/// What is told of an unpacked chunk.
struct Unpacked {
    placed: Placed,
    labels: u64,
    from: u64,
    to: u64,
}

impl Unpacked {
    fn line(&self, path: &Path, out: &Path) -> String {
        let path = shown(path);
        match self.placed {
            Placed::Written => {
                let labels = counted(self.labels, "label");
                format!(
                    "{path}: unpacked, {labels}, {} -> {} bytes",
                    self.from, self.to
                )
            }
            Placed::AlreadyThere => format!("{path}: already there"),
            Placed::OtherBytes => format!(
                "{}: exists with other bytes (--force overwrites)",
                shown(out)
            ),
        }
    }

    fn object(&self, path: &Path, out: &Path) -> Object {
        let result = match self.placed {
            Placed::Written => "unpacked",
            Placed::AlreadyThere => "already there",
            Placed::OtherBytes => "exists with other bytes",
        };
        Object::new()
            .path(path)
            .text("result", result)
            .named_path("out", out)
            .number("labels", self.labels)
            .number("bytes", self.from)
            .number("unpacked_bytes", self.to)
    }
}
