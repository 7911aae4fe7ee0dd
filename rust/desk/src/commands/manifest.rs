//! `manifest`: show and check mesh manifests, look at one node.

use std::path::Path;

use coronagamba::manifest::{Corners, Level, Node, Visit};
use coronagamba::Manifest;

use super::command::Command;
use crate::args::{number, Args};
use crate::diagnosis::{self, Diagnosis};
use crate::fault::{Explain, Fault, Status};
use crate::files::read_whole;
use crate::help;
use crate::json::Object;
use crate::options::{JSON, NODES};
use crate::report::{diagnosis_members, Report, Where};
use crate::text::{counted, shown};

/// `manifest show`.
pub const SHOW: Command = Command {
    name: "manifest show",
    help: help::MANIFEST_SHOW,
    options: &[&[NODES, JSON]],
    run: show,
};

/// `manifest check`.
pub const CHECK: Command = Command {
    name: "manifest check",
    help: help::MANIFEST_CHECK,
    options: &[&[JSON]],
    run: check,
};

/// `manifest node`.
pub const NODE: Command = Command {
    name: "manifest node",
    help: help::MANIFEST_NODE,
    options: &[&[JSON]],
    run: node,
};

fn check(args: &Args, report: &mut Report) -> Result<(), Fault> {
    for file in args.at_least_one("FILE")? {
        let path = Path::new(file);
        let checked = check_file(report, path);
        report.go_on(checked, Object::new().path(path), Where::Answer)?;
    }
    Ok(())
}

/// The verdict on one manifest.
fn check_file(report: &mut Report, path: &Path) -> Result<(), Fault> {
    let bytes = read_whole(path)?;
    let diagnosed = |refusal| diagnosis::of_manifest(&bytes, refusal);
    let levels = Manifest::open(&bytes).levels().explain(path, diagnosed)?;
    let nodes: u64 = levels.iter().map(|level| u64::from(level.nodes)).sum();
    if report.json() {
        return report.object(
            Object::new()
                .path(path)
                .text("result", "sound")
                .number("levels", levels.len() as u64)
                .number("nodes", nodes)
                .number("bytes", bytes.len() as u64),
        );
    }
    report.line(format_args!(
        "{}: sound manifest, {}, {}, {} bytes",
        shown(path),
        counted(levels.len() as u64, "level"),
        counted(nodes, "node"),
        bytes.len()
    ))
}

fn show(args: &Args, report: &mut Report) -> Result<(), Fault> {
    let [file] = args.exactly(["FILE"])?;
    let path = Path::new(file);
    let bytes = read_whole(path)?;
    let manifest = Manifest::open(&bytes);
    let diagnosed = |refusal| diagnosis::of_manifest(&bytes, refusal);
    let levels = manifest.levels().explain(path, diagnosed)?;
    let mut sizes = vec![0; levels.len()];
    for visit in manifest.nodes().explain(path, diagnosed)? {
        sizes[visit.level as usize] += u64::from(visit.node.size);
    }
    show_head(report, path, &manifest, &levels)?;
    for (number, (level, size)) in levels.iter().zip(sizes).enumerate() {
        show_level(report, path, number, level, size)?;
    }
    if args.flag(NODES) {
        if !report.json() {
            report.line("LEVEL NODE X,Y,Z START SIZE")?;
        }
        for visit in manifest.nodes().explain(path, diagnosed)? {
            show_node(report, path, visit)?;
        }
    }
    Ok(())
}

/// What a manifest says as a whole.
fn show_head(
    report: &mut Report,
    path: &Path,
    manifest: &Manifest,
    levels: &[Level],
) -> Result<(), Fault> {
    let bytes = manifest.bytes();
    let diagnosed = |refusal| diagnosis::of_manifest(bytes, refusal);
    let header = manifest.header().explain(path, diagnosed)?;
    if report.json() {
        return report.object(
            Object::new()
                .path(path)
                .text("result", "sound")
                .number("bytes", bytes.len() as u64)
                .reals("shape", header.shape)
                .reals("origin", header.origin)
                .number("levels", levels.len() as u64),
        );
    }
    report.line(format_args!(
        "{}: manifest of {} bytes",
        shown(path),
        bytes.len()
    ))?;
    report.line(format_args!("  chunk shape: {}", reals(header.shape)))?;
    report.line(format_args!("  grid origin: {}", reals(header.origin)))?;
    report.line(format_args!("  levels: {}", levels.len()))
}

/// The line of a level; `size` is that of all its fragments.
fn show_level(
    report: &mut Report,
    path: &Path,
    number: usize,
    level: &Level,
    size: u64,
) -> Result<(), Fault> {
    if report.json() {
        return report.object(
            Object::new()
                .path(path)
                .text("result", "level")
                .number("level", number as u64)
                .real("scale", level.scale)
                .reals("vertex_offset", level.vertex_offset)
                .number("nodes", level.nodes)
                .number("fragment_bytes", size),
        );
    }
    report.line(format_args!(
        "  level {number}: scale {}, vertex offset {}, {}, {size} fragment bytes",
        f64::from(level.scale),
        reals(level.vertex_offset),
        counted(u64::from(level.nodes), "node")
    ))
}

/// The line of a node among all.
fn show_node(report: &mut Report, path: &Path, visit: Visit) -> Result<(), Fault> {
    let Visit { level, index, node } = visit;
    let [x, y, z] = node.position;
    if report.json() {
        let (level, index) = (u64::from(level), u64::from(index));
        return report.object(node_object(path, level, index, &node));
    }
    report.line(format_args!(
        "{level} {index} {x},{y},{z} {} {}",
        node.start, node.size
    ))
}

/// A node as a JSON object.
fn node_object(path: &Path, level: u64, index: u64, node: &Node) -> Object {
    Object::new()
        .path(path)
        .text("result", "node")
        .number("level", level)
        .number("node", index)
        .numbers("position", node.position)
        .number("start", node.start)
        .number("size", node.size)
}

fn node(args: &Args, report: &mut Report) -> Result<(), Fault> {
    let [file, level, index] = args.exactly(["FILE", "LEVEL", "NODE"])?;
    let path = Path::new(file);
    let (level, index) = (number(level, "LEVEL")?, number(index, "NODE")?);
    let bytes = read_whole(path)?;
    let manifest = Manifest::open(&bytes);
    let diagnosed = |refusal| diagnosis::of_node(&bytes, level, index, refusal);
    let node = manifest.node(level, index).explain(path, diagnosed)?;
    let corners = manifest.corners(level, index);
    let corners = corners.map_err(|refusal| (refusal.number, diagnosed(refusal)));
    if corners.is_err() {
        report.note(Status::No);
    }
    if report.json() {
        let object = node_object(path, level, index, &node);
        return report.object(corners_members(object, &corners));
    }
    let [x, y, z] = node.position;
    let end = node.start + u64::from(node.size);
    report.line(format_args!("{}: level {level}, node {index}", shown(path)))?;
    report.line(format_args!("  position: {x},{y},{z}"))?;
    report.line(format_args!(
        "  fragment: {}..{end} ({} bytes, counted from the first fragment)",
        node.start, node.size
    ))?;
    report.line(format_args!("  corners: {}", corners_text(&corners)))
}

/// An object with the members of a node's corners, or why it has none.
fn corners_members(object: Object, corners: &Result<Corners, (u8, Diagnosis)>) -> Object {
    match corners {
        Ok(Corners { near, far }) => object.reals("near", *near).reals("far", *far),
        Err((number, diagnosis)) => {
            let object = object.number("corners_refusal", *number);
            diagnosis_members(object, diagnosis)
        }
    }
}

/// A node's corners, or why it has none.
fn corners_text(corners: &Result<Corners, (u8, Diagnosis)>) -> String {
    match corners {
        Ok(Corners { near, far }) => format!("{} to {}", reals(*near), reals(*far)),
        Err((number, diagnosis)) => format!(
            "none, refused {number}: found {}, expected {}; look at {}",
            diagnosis.found, diagnosis.expected, diagnosis.look_at
        ),
    }
}

/// Three reals with commas, as in JSON: as f64, since the fewest digits that
/// give back an f32 may be another number.
fn reals(values: [f32; 3]) -> String {
    let [x, y, z] = values.map(f64::from);
    format!("{x},{y},{z}")
}
