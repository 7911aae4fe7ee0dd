//! `list`: all chunks of a shard with their places, of a mesh those of the
//! fragments too.

use std::collections::BTreeSet;
use std::fmt;
use std::io;
use std::path::Path;

use coronagamba::{Sharding, Span};

use super::command::Command;
use crate::args::Args;
use crate::diagnosis;
use crate::edition::{Bytes, Loaded, Opened, Source};
use crate::fault::{Explain, Fault};
use crate::folder::{is_unnumbered, single};
use crate::fragments::{is_mesh, Fragments};
use crate::help;
use crate::json::Object;
use crate::naming::no_shard;
use crate::options::{FRAGMENTS, JSON, KIND, MINISHARD, SHARD};
use crate::report::{Report, Where};
use crate::settings;
use crate::text::shown;

/// The command.
pub const COMMAND: Command = Command {
    name: "list",
    help: help::LIST,
    options: &[settings::OF_SHARDS, &[MINISHARD, FRAGMENTS, SHARD, JSON]],
    run,
};

fn run(args: &Args, report: &mut Report) -> Result<(), Fault> {
    let files = args.at_least_one("FILE")?;
    let only = args.number(MINISHARD)?;
    let sharding = settings::of_shards(args)?.sharding;
    if files.len() > 1 && args.flag(SHARD) {
        return Err(Fault::wrong_use(format!("{SHARD} is for one file")));
    }
    if args.flag(FRAGMENTS) && !is_mesh(&sharding) {
        return Err(Fault::wrong_use(format!(
            "{FRAGMENTS}: a volume has none; a card says mesh, or {KIND} mesh does",
        )));
    }
    let mut pairs = BTreeSet::new();
    for file in files {
        let path = Path::new(file);
        let input = single(args, &sharding, path);
        let source = input.source.clone();
        // One pair whose two files were named is listed once.
        if source.data.is_some() && !pairs.insert(source.clone()) {
            continue;
        }
        if files.len() > 1 && !report.json() {
            report.line(format_args!("{}:", shown(&source.path)))?;
        }
        let object = Object::new().path(&source.path);
        let known = match path.is_dir() {
            true => Err(is_folder(path)),
            false if is_unnumbered(args, &sharding, path) => Err(no_shard(&sharding, path, true)),
            false => input.known(),
        };
        let listed = known.and_then(|shard| list(args, report, &sharding, shard, only));
        report.go_on(listed, object, Where::Aside)?;
    }
    Ok(())
}

/// A folder in place of files.
fn is_folder(path: &Path) -> Fault {
    Fault::wrong_use(format!(
        "{}: is a folder; give its shard files: {}",
        shown(path),
        shown(&path.join("*.shard"))
    ))
}

/// Lists one shard.
fn list(
    args: &Args,
    report: &mut Report,
    sharding: &Sharding,
    (source, number): (Source, u64),
    only: Option<u64>,
) -> Result<(), Fault> {
    let (path, loaded) = (&source.path, Loaded::of(&source)?);
    let bytes = loaded.bytes();
    let shard = bytes.open(sharding, number);
    let minishards = match only {
        Some(minishard) => minishard..=minishard,
        None => 0..=(1 << sharding.minishard_bits) - 1,
    };
    let view = View::of(args, sharding);
    let teller = Teller {
        bytes,
        view,
        about: Object::new().path(path).text("result", view.result()),
    };
    if !report.json() {
        report.line(view.header())?;
    }
    let mut numbers = Vec::new();
    for minishard in minishards {
        let listed = fill(&shard, minishard, &mut numbers, path)?;
        listed.explain(path, |refusal| {
            diagnosis::of_listing(sharding, number, bytes, minishard, refusal)
        })?;
        for entry in numbers.chunks_exact(3) {
            teller.tell(report, minishard, entry)?;
        }
    }
    Ok(())
}

/// Puts id, start and length of each chunk of a minishard into a buffer that
/// all minishards share. A refusal is inside; without memory the system's
/// error is outside.
fn fill(
    shard: &Opened,
    minishard: u64,
    numbers: &mut Vec<u64>,
    path: &Path,
) -> Result<Result<(), coronagamba::Refusal>, Fault> {
    let count = match shard.listed_count(minishard) {
        Ok(count) => 3 * count as usize,
        Err(refusal) => return Ok(Err(refusal)),
    };
    numbers.clear();
    numbers
        .try_reserve_exact(count)
        .map_err(|error| Fault::system(path, "listed", io::Error::from(error)))?;
    numbers.resize(count, 0);
    Ok(shard.write_listing(minishard, numbers).map(|_| ()))
}

/// What is told of each chunk.
#[derive(Clone, Copy)]
enum View {
    /// Its place.
    Chunks,
    /// That of a manifest, and that of all its fragments.
    Manifests,
    /// That of each of its fragments.
    Fragments,
}

impl View {
    fn of(args: &Args, sharding: &Sharding) -> View {
        match (is_mesh(sharding), args.flag(FRAGMENTS)) {
            (false, _) => View::Chunks,
            (true, false) => View::Manifests,
            (true, true) => View::Fragments,
        }
    }

    /// The names of the numbers in a line.
    fn header(self) -> &'static str {
        match self {
            View::Chunks => "ID MINISHARD START LENGTH",
            View::Manifests => "ID MINISHARD START LENGTH FRAGMENTS_START FRAGMENTS_LENGTH",
            View::Fragments => "ID MINISHARD LEVEL NODE START LENGTH",
        }
    }

    /// What an object is about.
    fn result(self) -> &'static str {
        match self {
            View::Chunks | View::Manifests => "chunk",
            View::Fragments => "fragment",
        }
    }
}

/// Tells the chunks of one shard.
struct Teller<'a> {
    bytes: Bytes<'a>,
    view: View,
    /// What each object says about the file.
    about: Object,
}

impl Teller<'_> {
    /// The line of one chunk, or a line for each of its fragments.
    fn tell(&self, report: &mut Report, minishard: u64, entry: &[u64]) -> Result<(), Fault> {
        let &[id, start, length] = entry else {
            return Ok(());
        };
        let front = [("id", id), ("minishard", minishard)];
        let place = [("start", start), ("length", length)];
        let fragments = || Fragments::of(self.bytes, Span { start, length });
        match self.view {
            View::Chunks => self.line(report, &[front, place]),
            View::Manifests => {
                let Span { start, length } = fragments().span();
                let run = [("fragments_start", start), ("fragments_length", length)];
                self.line(report, &[front, place, run])
            }
            View::Fragments => fragments().each().try_for_each(|fragment| {
                let Span { start, length } = fragment.span;
                let node = [
                    ("level", fragment.level.into()),
                    ("node", fragment.node.into()),
                ];
                self.line(
                    report,
                    &[front, node, [("start", start), ("length", length)]],
                )
            }),
        }
    }

    /// A line of these numbers, or an object with their names.
    fn line(&self, report: &mut Report, numbers: &[[(&str, u64); 2]]) -> Result<(), Fault> {
        if !report.json() {
            return report.line(Numbers(numbers.as_flattened()));
        }
        let mut object = self.about.clone();
        for (name, number) in numbers.as_flattened() {
            object = object.number(name, *number);
        }
        report.object(object)
    }
}

/// Numbers with blanks between them.
struct Numbers<'a>(&'a [(&'a str, u64)]);

impl fmt::Display for Numbers<'_> {
    fn fmt(&self, f: &mut fmt::Formatter<'_>) -> fmt::Result {
        for (place, (_, number)) in self.0.iter().enumerate() {
            let blank = if place == 0 { "" } else { " " };
            write!(f, "{blank}{number}")?;
        }
        Ok(())
    }
}
