//! `card`: make, show and check deposit cards.

use std::path::Path;

use coronagamba::{Card, Extents, Offset, Refusal, Sharding};

use super::command::Command;
use crate::args::Args;
use crate::diagnosis::{self, Diagnosis};
use crate::fault::{Explain, Fault};
use crate::files::{read_whole, Inputs};
use crate::fragments::is_mesh;
use crate::help;
use crate::json::Object;
use crate::options::{FORCE, JSON, OUT};
use crate::output::{remove_stale_parts_of, write_new};
use crate::report::{Report, Where};
use crate::settings;
use crate::text::shown;

/// `card make`.
pub const MAKE: Command = Command {
    name: "card make",
    help: help::CARD_MAKE,
    options: &[settings::FOR_CARD, &[OUT, FORCE]],
    run: make,
};

/// `card show`.
pub const SHOW: Command = Command {
    name: "card show",
    help: help::CARD_SHOW,
    options: &[settings::INFO_OPTIONS, &[JSON]],
    run: show,
};

/// `card check`.
pub const CHECK: Command = Command {
    name: "card check",
    help: help::CARD_CHECK,
    options: &[&[JSON]],
    run: check,
};

fn make(args: &Args, report: &mut Report) -> Result<(), Fault> {
    let [] = args.exactly([])?;
    let out = Path::new(args.needed(OUT)?);
    let card = settings::for_card(args)?;
    let bytes = card
        .to_bytes()
        .explain("settings", |refusal| diagnosed(&card, refusal))?;
    let inputs = Inputs::of(settings::files(args));
    inputs.spare(out)?;
    remove_stale_parts_of(out, &inputs);
    write_new(out, args.flag(FORCE), &bytes)?;
    report.line(format_args!(
        "{}: card written, {} bytes",
        shown(out),
        bytes.len()
    ))
}

/// Why no card can say this.
fn diagnosed(card: &Card, refusal: Refusal) -> Diagnosis {
    match refusal.number {
        1 => diagnosis::of_sharding(&card.sharding),
        _ => diagnosis::of_volume(&card.volume, refusal),
    }
}

fn check(args: &Args, report: &mut Report) -> Result<(), Fault> {
    for file in args.at_least_one("FILE")? {
        let path = Path::new(file);
        let checked = check_file(report, path);
        report.go_on(checked, Object::new().path(path), Where::Answer)?;
    }
    Ok(())
}

/// The verdict on one card.
fn check_file(report: &mut Report, path: &Path) -> Result<(), Fault> {
    let bytes = read_whole(path)?;
    settings::card_in(path, &bytes)?;
    if report.json() {
        let object = Object::new().path(path).text("result", "sound");
        return report.object(object.number("bytes", bytes.len() as u64));
    }
    let (path, length) = (shown(path), bytes.len());
    report.line(format_args!("{path}: sound card, {length} bytes"))
}

fn show(args: &Args, report: &mut Report) -> Result<(), Fault> {
    let (path, scale) = match settings::info_given(args)? {
        Some((path, scale)) => {
            let [] = args.exactly([])?;
            (path, Some(scale))
        }
        None => {
            let [file] = args.exactly(["FILE (or --info FILE --scale K)"])?;
            (Path::new(file), None)
        }
    };
    let bytes = read_whole(path)?;
    let card = match scale {
        Some(scale) => settings::info_in(path, &bytes, scale)?,
        None => settings::card_in(path, &bytes)?,
    };
    let shown = Shown::new(card, path, scale)?;
    if report.json() {
        report.object(shown.object(path, bytes.len()))
    } else {
        shown.lines(report, path, bytes.len())
    }
}

/// What a card or a scale of an info file says, with what follows from it.
struct Shown {
    card: Card,
    /// The scale of an info file.
    scale: Option<u64>,
    hash: &'static str,
    grid: Extents,
    /// The names of the first and the last shard file.
    ends: [String; 2],
}

impl Shown {
    fn new(card: Card, path: &Path, scale: Option<u64>) -> Result<Shown, Fault> {
        let Sharding {
            shard_bits, hash, ..
        } = card.sharding;
        let diagnosed = |refusal| diagnosed(&card, refusal);
        let name = |number| card.sharding.shard_name(number).explain(path, diagnosed);
        Ok(Shown {
            card,
            scale,
            hash: if hash == 0 { "identity" } else { "murmur" },
            grid: card.volume.grid().explain(path, diagnosed)?,
            ends: [name(0)?, name((1 << shard_bits) - 1)?],
        })
    }

    /// As plain lines; the last one gives the same settings as options.
    fn lines(&self, report: &mut Report, path: &Path, length: usize) -> Result<(), Fault> {
        let Sharding {
            preshift,
            minishard_bits,
            shard_bits,
            ..
        } = self.card.sharding;
        let hash = self.hash;
        let kind = match is_mesh(&self.card.sharding) {
            false => "",
            true => " --kind mesh",
        };
        let [first, last] = &self.ends;
        let size = extents(self.card.volume.size);
        let chunk = extents(self.card.volume.chunk);
        let Offset { x, y, z } = self.card.volume.offset;
        report.line(match self.scale {
            None => format!("{}: card of {length} bytes", shown(path)),
            Some(scale) => format!(
                "{}: scale {scale} of an info file of {length} bytes",
                shown(path)
            ),
        })?;
        report.line(format_args!("  preshift: {preshift}"))?;
        report.line(format_args!("  hash: {hash}"))?;
        report.line(format_args!(
            "  minishard bits: {minishard_bits} (minishards in a shard: {})",
            1u64 << minishard_bits
        ))?;
        report.line(format_args!(
            "  shard bits: {shard_bits} (shards: {}, {first} to {last})",
            1u64 << shard_bits
        ))?;
        report.line(format_args!(
            "  kind: {}",
            settings::kind_name(&self.card.sharding)
        ))?;
        report.line(format_args!("  volume size: {size}"))?;
        report.line(format_args!("  chunk size: {chunk}"))?;
        report.line(format_args!("  voxel offset: {x},{y},{z}"))?;
        report.line(format_args!("  grid: {} cells", extents(self.grid)))?;
        report.line(format_args!(
            "  as options: --preshift {preshift} --hash {hash} --minishard-bits {minishard_bits} \
             --shard-bits {shard_bits} --size {size} --chunk {chunk} --offset {x},{y},{z}{kind}"
        ))
    }

    /// As a JSON object.
    fn object(&self, path: &Path, length: usize) -> Object {
        let Sharding {
            preshift,
            minishard_bits,
            shard_bits,
            ..
        } = self.card.sharding;
        let volume = self.card.volume;
        let three = |Extents { x, y, z }: Extents| [x, y, z];
        let Offset { x, y, z } = volume.offset;
        let object = Object::new()
            .path(path)
            .text("result", "sound")
            .number("bytes", length as u64);
        let object = match self.scale {
            None => object,
            Some(scale) => object.number("scale", scale),
        };
        object
            .number("preshift", preshift)
            .text("hash", self.hash)
            .number("minishard_bits", minishard_bits)
            .number("shard_bits", shard_bits)
            .text("kind", settings::kind_name(&self.card.sharding))
            .numbers("size", three(volume.size))
            .numbers("chunk", three(volume.chunk))
            .numbers("offset", [x, y, z])
            .numbers("grid", three(self.grid))
            .text("first_shard", &self.ends[0])
            .text("last_shard", &self.ends[1])
    }
}

/// Extents as they are written on the command line.
fn extents(Extents { x, y, z }: Extents) -> String {
    format!("{x},{y},{z}")
}
