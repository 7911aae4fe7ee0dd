//! A voxel of a deposit: the chunk that has it, and its label in that chunk.

use std::path::Path;

use coronagamba::{Bounds, Cell, Labels, Point, Refusal, Volume};

use crate::args::{triple, Args, I64};
use crate::diagnosis;
use crate::fault::{Explain, Fault, Status};
use crate::json::Object;
use crate::labels::{self, Layout};
use crate::options::{Opt, CHANNEL, FORCE, JSON, LABEL, OUT, VOXEL};
use crate::report::{complaint, Report};
use crate::text::shown;

/// The options of a voxel's label.
pub const OPTIONS: &[Opt] = &[LABEL, CHANNEL, JSON];

/// The voxel that is asked for.
pub fn asked(args: &Args) -> Result<Option<Point>, Fault> {
    let voxel = args
        .value(VOXEL)
        .map(|word| triple(word, VOXEL.name(), I64));
    Ok(voxel.transpose()?.map(Point::from))
}

/// Options that say how labels are read are given with --label alone, and
/// --label with a voxel and without what writes bytes.
pub fn sort_out(args: &Args) -> Result<(), Fault> {
    if args.flag(LABEL) {
        if !args.flag(VOXEL) {
            return Err(Fault::wrong_use(format!(
                "{LABEL} is given without {}",
                VOXEL.usage
            )));
        }
        return match [OUT, FORCE].iter().find(|option| args.flag(**option)) {
            None => Ok(()),
            Some(option) => Err(Fault::wrong_use(format!(
                "{LABEL} and {option} exclude each other: a label is printed"
            ))),
        };
    }
    let mut options = labels::OPTIONS.iter().chain(OPTIONS);
    match options.find(|option| args.flag(**option)) {
        None => Ok(()),
        Some(option) => Err(Fault::wrong_use(format!(
            "{option}: is for labels, and {LABEL} is missing"
        ))),
    }
}

/// A voxel with the cell that has it.
pub struct Found {
    voxel: Point,
    cell: Cell,
    /// The cell's key, the id of its chunk.
    pub key: u64,
    bounds: Bounds,
}

/// The cell of a voxel, where the volume has it: the one that covers the box of
/// this voxel alone.
pub fn find(volume: &Volume, voxel: Point) -> Result<Option<Found>, Refusal> {
    // A voxel with no other behind it is in no volume.
    let next = |place: i64| place.saturating_add(1);
    let Point { x, y, z } = voxel;
    let only = Bounds {
        begin: voxel,
        end: [next(x), next(y), next(z)].into(),
    };
    let Some(key) = volume.cover(only, 1)?.first().copied() else {
        return Ok(None);
    };
    let cell = volume.cell(key)?;
    Ok(Some(Found {
        voxel,
        cell,
        key,
        bounds: volume.bounds(cell)?,
    }))
}

/// Tells that the volume does not have a voxel: a plain no.
pub fn tell_outside(report: &mut Report, volume: &Volume, voxel: Point) -> Result<(), Fault> {
    report.note(Status::No);
    let begin = <[i32; 3]>::from(volume.offset).map(i64::from);
    let size = <[u32; 3]>::from(volume.size).map(i64::from);
    let end = [0, 1, 2].map(|axis| begin[axis] + size[axis]);
    if report.json() {
        return report.object(
            Object::new()
                .numbers("voxel", <[i64; 3]>::from(voxel))
                .text("result", "outside")
                .numbers("begin", begin)
                .numbers("end", end),
        );
    }
    complaint(format_args!(
        "voxel {}: outside the volume, which is {} up to {}, that end excluded",
        commas(voxel.into()),
        commas(begin),
        commas(end)
    ));
    Ok(())
}

impl Found {
    /// The voxel as the question of a JSON object.
    pub fn object(&self) -> Object {
        Object::new().numbers("voxel", <[i64; 3]>::from(self.voxel))
    }

    /// Tells the voxel's label in its chunk, which is in this shard.
    pub fn tell_label(
        &self,
        report: &mut Report,
        layout: Layout,
        channel: u32,
        path: &Path,
        chunk: &[u8],
    ) -> Result<(), Fault> {
        let [begin, end] = [self.bounds.begin, self.bounds.end].map(<[i64; 3]>::from);
        let voxel = <[i64; 3]>::from(self.voxel);
        // A chunk has the extents that are left of the volume.
        let size = [0, 1, 2].map(|axis| (end[axis] - begin[axis]) as u32);
        let within = [0, 1, 2].map(|axis| (voxel[axis] - begin[axis]) as u32);
        let shape = layout.over(size)?;
        let [x, y, z] = within;
        let label = Labels::open(shape, chunk).label(x, y, z, channel);
        let label = label.explain(
            format_args!("voxel {} in {}", commas(voxel), shown(path)),
            |refusal| diagnosis::of_label(chunk, &shape, within, channel, refusal),
        )?;
        if !report.json() {
            return report.line(label);
        }
        let Cell { x, y, z } = self.cell;
        report.object(
            self.object()
                .text("result", "label")
                .number("channel", channel)
                .number("label", label)
                .number("key", self.key)
                .numbers("cell", [x, y, z])
                .path(path),
        )
    }
}

/// Three numbers with commas.
fn commas([x, y, z]: [i64; 3]) -> String {
    format!("{x},{y},{z}")
}
