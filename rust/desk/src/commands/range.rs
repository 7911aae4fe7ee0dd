//! `range`: bytes of the two files of a pair, as if they were joined.

use std::path::Path;

use coronagamba::{Half, Held};

use super::command::Command;
use crate::args::{number, Args};
use crate::diagnosis;
use crate::edition::{Loaded, Opened, Source};
use crate::fault::{Explain, Fault};
use crate::files::Inputs;
use crate::folder::pair;
use crate::help;
use crate::json::Object;
use crate::options::{FORCE, JSON, OUT, PLACE};
use crate::output::{remove_stale_parts_of, write_new};
use crate::report::Report;
use crate::settings;
use crate::text::{counted, shown};

/// The command.
pub const COMMAND: Command = Command {
    name: "range",
    help: help::RANGE,
    options: &[settings::OF_SHARDS, &[PLACE, OUT, FORCE, JSON]],
    run,
};

fn run(args: &Args, report: &mut Report) -> Result<(), Fault> {
    let [path, start, end] = args.exactly(["PATH", "START", "END"])?;
    let asked = (number(start, "START")?, number(end, "END")?);
    let telling = args.flag(PLACE);
    if telling && args.flag(OUT) {
        return Err(Fault::wrong_use(format!(
            "{PLACE} tells where the bytes are, and {OUT} writes them; give one of them",
        )));
    }
    if report.json() && !telling {
        return Err(Fault::wrong_use(format!(
            "{JSON} is for {PLACE}; the bytes themselves are no JSON",
        )));
    }
    let sharding = settings::of_shards(args)?.sharding;
    let source = pair(Path::new(path))?;
    let out = args.value(OUT).map(Path::new);
    if let Some(out) = out {
        let inputs = Inputs::of(settings::files(args).chain(source.paths()));
        inputs.spare(out)?;
        remove_stale_parts_of(out, &inputs);
    }
    let loaded = Loaded::of(&source)?;
    let bytes = loaded.bytes();
    // A range belongs to no shard number.
    let Opened::Pair(pair) = bytes.open(&sharding, 0) else {
        unreachable!("a pair was read");
    };
    let (start, end) = asked;
    let diagnosed = |refusal| diagnosis::of_range(&sharding, bytes, asked, refusal);
    if telling {
        let held = pair
            .locate_range(start, end)
            .explain(&source.path, diagnosed)?;
        return tell(report, &source, held);
    }
    let bytes = pair.range(start, end).explain(&source.path, diagnosed)?;
    match out {
        Some(out) => write_new(out, args.flag(FORCE), bytes),
        None => report.bytes(bytes),
    }
}

/// Tells which file holds a range, and where.
fn tell(report: &mut Report, source: &Source, held: Held) -> Result<(), Fault> {
    let Held {
        file,
        start,
        length,
    } = held;
    let (name, path) = match file {
        Half::Index => ("index", &source.path),
        Half::Data => ("data", source.data.as_ref().unwrap_or(&source.path)),
    };
    if report.json() {
        return report.object(
            Object::new()
                .path(path)
                .text("result", "held")
                .text("file", name)
                .number("start", start)
                .number("length", length),
        );
    }
    let length = counted(length, "byte");
    report.line(format_args!("{}: byte {start}, {length}", shown(path)))
}
