//! `get`: the bytes of one chunk, or of one fragment of a mesh, or the label of
//! one voxel.

use std::path::Path;

use coronagamba::{Point, Sharding};

use super::command::Command;
use super::question::cell_of;
use crate::args::{number, pair, Args};
use crate::diagnosis;
use crate::edition::{Loaded, Source};
use crate::fault::{Explain, Fault, Status};
use crate::files::Inputs;
use crate::folder::{find, is_unnumbered, single};
use crate::help;
use crate::labels::{self, Layout};
use crate::naming::no_shard;
use crate::options::{CELL, FORCE, FRAGMENT, LABEL, OUT, SHARD, VOXEL};
use crate::output::{remove_stale_parts_of, write_new};
use crate::report::{complaint, Report};
use crate::settings;
use crate::text::shown;

mod voxel;

/// The command.
pub const COMMAND: Command = Command {
    name: "get",
    help: help::GET,
    options: &[
        settings::OPTIONS,
        labels::OPTIONS,
        &[CELL, VOXEL],
        voxel::OPTIONS,
        &[FRAGMENT, OUT, FORCE, SHARD],
    ],
    run,
};

/// What is asked for.
struct Asked<'a> {
    path: &'a Path,
    sharding: Sharding,
    id: u64,
    /// The voxel whose chunk this is, and how to read its label where that is
    /// asked for.
    voxel: Option<voxel::Found>,
    label: Option<(Layout, u32)>,
}

fn run(args: &Args, report: &mut Report) -> Result<(), Fault> {
    let fragment = fragment(args)?;
    voxel::sort_out(args)?;
    let Some(asked) = asked(args, report)? else {
        return Ok(());
    };
    let Asked { sharding, id, .. } = asked;
    let (source, number) = match asked.path.is_dir() {
        false if is_unnumbered(args, &sharding, asked.path) => {
            return Err(no_shard(&sharding, asked.path, true))
        }
        false => single(args, &sharding, asked.path).known()?,
        true => match in_folder(args, &sharding, asked.path, id)? {
            Ok(found) => found,
            Err(name) => return tell_missing(report, &asked, &name),
        },
    };
    let out = args.value(OUT).map(Path::new);
    if let Some(out) = out {
        let inputs = Inputs::of(settings::files(args).chain(source.paths()));
        inputs.spare(out)?;
        remove_stale_parts_of(out, &inputs);
    }
    let loaded = Loaded::of(&source)?;
    let file = loaded.bytes();
    let shard = file.open(&sharding, number);
    let found = match fragment {
        None => shard.chunk(id),
        Some([level, node]) => shard.fragment(id, level, node),
    };
    let bytes = found.explain(&source.path, |refusal| match fragment {
        None => diagnosis::of_lookup(&sharding, number, file, id, refusal),
        Some([level, node]) => {
            diagnosis::of_fragment(&sharding, number, file, (id, level, node), refusal)
        }
    })?;
    match (asked.voxel, asked.label, out) {
        (Some(voxel), Some((layout, channel)), _) => {
            voxel.tell_label(report, layout, channel, &source.path, bytes)
        }
        (_, _, Some(out)) => write_new(out, args.flag(FORCE), bytes),
        (_, _, None) => report.bytes(bytes),
    }
}

/// The level and the node whose fragment is asked for.
fn fragment(args: &Args) -> Result<Option<[u64; 2]>, Fault> {
    let Some(word) = args.value(FRAGMENT) else {
        return Ok(None);
    };
    if let Some(option) = [CELL, VOXEL].iter().find(|option| args.flag(**option)) {
        return Err(Fault::wrong_use(format!(
            "{option} and {FRAGMENT} exclude each other: a volume has no fragments, and a mesh no cells"
        )));
    }
    pair(
        word,
        FRAGMENT.name(),
        "two numbers with a comma, LEVEL,NODE",
    )
    .map(Some)
}

/// The path, the sharding and the id asked for: the id itself, the key of a
/// cell, or that of the cell of a voxel. A voxel outside is told, and `None`.
fn asked<'a>(args: &'a Args, report: &mut Report) -> Result<Option<Asked<'a>>, Fault> {
    let (cell, voxel) = (args.value(CELL), voxel::asked(args)?);
    if let (None, None) = (cell, voxel) {
        let [path, id] = args.exactly(["PATH", "ID (or --cell X,Y,Z or --voxel X,Y,Z)"])?;
        let id = number(id, "ID")?;
        return Ok(Some(Asked {
            path: Path::new(path),
            sharding: settings::of_shards(args)?.sharding,
            id,
            voxel: None,
            label: None,
        }));
    }
    let [path] = args.exactly(["PATH"])?.map(Path::new);
    match (cell, voxel) {
        (Some(_), Some(_)) => Err(Fault::wrong_use(format!(
            "{CELL} and {VOXEL} exclude each other"
        ))),
        (_, Some(voxel)) => of_voxel(args, report, path, voxel),
        (word, None) => {
            let word = word.unwrap_or_default();
            let cell = cell_of(word, CELL.name())?;
            let (sharding, volume) = settings::of_cells(args)?;
            let id = volume
                .key(cell)
                .explain(format_args!("cell {}", shown(Path::new(word))), |refusal| {
                    diagnosis::of_cell(&volume, cell, refusal)
                })?;
            Ok(Some(Asked {
                path,
                sharding,
                id,
                voxel: None,
                label: None,
            }))
        }
    }
}

/// The chunk of a voxel, and how to read its label where that is asked for.
fn of_voxel<'a>(
    args: &'a Args,
    report: &mut Report,
    path: &'a Path,
    voxel: Point,
) -> Result<Option<Asked<'a>>, Fault> {
    let (sharding, volume, label) = if args.flag(LABEL) {
        let (sharding, volume, layout) = settings::of_labels(args)?;
        (sharding, volume, Some((layout, labels::channel(args)?)))
    } else {
        let (sharding, volume) = settings::of_cells(args)?;
        (sharding, volume, None)
    };
    let found = voxel::find(&volume, voxel)
        .explain("settings", |refusal| diagnosis::of_volume(&volume, refusal))?;
    let Some(found) = found else {
        return voxel::tell_outside(report, &volume, voxel).map(|()| None);
    };
    Ok(Some(Asked {
        path,
        sharding,
        id: found.key,
        voxel: Some(found),
        label,
    }))
}

/// The files and the number of an id's own shard in a folder, or the name of the
/// file that it would have.
fn in_folder(
    args: &Args,
    sharding: &Sharding,
    folder: &Path,
    id: u64,
) -> Result<Result<(Source, u64), String>, Fault> {
    if args.flag(SHARD) {
        return Err(Fault::wrong_use(format!(
            "{SHARD} is for one file; {} is a folder, whose files say it by their names",
            shown(folder)
        )));
    }
    let find = || {
        let number = sharding.place(id)?.shard;
        Ok((
            find(sharding, folder, number)?,
            sharding.shard_name(number)?,
        ))
    };
    let of_sharding = |_| diagnosis::of_sharding(sharding);
    match find().explain(format_args!("id {id}"), of_sharding)? {
        (Some(input), _) => input.known().map(Ok),
        (None, name) => Ok(Err(name)),
    }
}

/// Tells that a deposit lacks an id's shard: to whoever asks for a chunk this
/// is a plain no, and no error of the system.
fn tell_missing(report: &mut Report, asked: &Asked, name: &str) -> Result<(), Fault> {
    report.note(Status::No);
    if let (true, Some(voxel)) = (report.json(), &asked.voxel) {
        let object = voxel.object().text("result", "no shard");
        let object = object.number("key", asked.id);
        return report.object(object.path(&asked.path.join(name)));
    }
    complaint(format_args!(
        "{}: the deposit has no {name}, in which id {} would stand",
        shown(asked.path),
        asked.id
    ));
    Ok(())
}
