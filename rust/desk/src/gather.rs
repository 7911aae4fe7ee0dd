//! All shards that the paths of a command line lead to.

use std::collections::BTreeSet;
use std::path::{Path, PathBuf};

use coronagamba::Sharding;

use crate::args::Args;
use crate::fault::{Fault, Status};
use crate::folder::{is_folder, list, single, Input};
use crate::json::Object;
use crate::options::SHARD;
use crate::presence::Presence;
use crate::report::Report;
use crate::text::{passed_over, shown};

/// What the paths lead to.
#[derive(Default)]
pub struct Found {
    /// All shards, in the order of the paths.
    pub inputs: Vec<Input>,
    /// How many other files stand beside them.
    pub others: u64,
    /// Which shards each folder has, where that can be told.
    pub folders: Vec<Option<Presence>>,
    /// The folders without shards, and how many other files each of them has.
    pub empty: Vec<(PathBuf, u64)>,
}

/// All shards that the paths lead to, in their order; one pair whose two files were
/// named comes once.
pub fn gather(args: &Args, sharding: &Sharding) -> Result<Found, Fault> {
    let paths = args.at_least_one("PATH")?;
    if paths.len() > 1 && args.flag(SHARD) {
        return Err(Fault::wrong_use(format!("{SHARD} is for one file")));
    }
    let (mut found, mut pairs) = (Found::default(), BTreeSet::new());
    for path in paths.iter().map(Path::new) {
        if !is_folder(path) {
            let input = single(args, sharding, path);
            if input.source.data.is_none() || pairs.insert(input.source.clone()) {
                found.inputs.push(input);
            }
            continue;
        }
        no_shard_option(args, path)?;
        let listing = list(sharding, path);
        let others = listing.others;
        let presence = Presence::of(sharding, path, &listing);
        let inputs = listing.inputs(path);
        if inputs.is_empty() {
            found.empty.push((path.to_path_buf(), others));
        } else {
            found.inputs.extend(inputs);
            found.others += others;
            found.folders.push(presence);
        }
    }
    Ok(found)
}

/// `--shard` gives the number of a file. A folder's files have their own.
pub fn no_shard_option(args: &Args, folder: &Path) -> Result<(), Fault> {
    match args.flag(SHARD) {
        false => Ok(()),
        true => Err(Fault::wrong_use(format!(
            "{}: is a folder, in which names give the shard numbers; {SHARD} is for a single file",
            shown(folder)
        ))),
    }
}

/// Tells of a folder in which there is no shard.
pub fn tell_no_shards(folder: &Path, others: u64, report: &mut Report) -> Result<(), Fault> {
    report.note(Status::No);
    if report.json() {
        let object = Object::new().path(folder).text("result", "no shards");
        report.object(object.number("other_files", others))
    } else {
        report.line(no_shards(folder, others))
    }
}

/// What is told of it.
pub fn no_shards(folder: &Path, others: u64) -> String {
    let text = "no shards, no file's name ends in .shard, or as those of a pair do";
    format!(
        "{}: {text}{}",
        shown(folder),
        passed_over(others, "other file")
    )
}
