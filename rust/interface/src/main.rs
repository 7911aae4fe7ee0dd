//! Makes what repeats the library's C interface and the table of refusals: the
//! export crate, the C header, the declarations and constants of Rust and Python,
//! the desk tool's table and the tables in docs/ENTRY-POINTS.md.
//!
//! `interface ROOT` writes them, `interface ROOT --check` says which differ from
//! what it would write.

#![forbid(unsafe_code)]

mod c;
mod document;
mod layout;
mod python;
mod rust;
mod source;
mod table;
mod thin;

use source::{text, Source};
use std::path::{Path, PathBuf};
use std::process::ExitCode;
use std::{env, fs};

/// The folder in crates/ of the library with the C interface. The export crate's
/// name has `_c` behind it.
const LIBRARY: &str = "coronagamba";

/// The files that are made, with their texts.
fn outputs(root: &Path) -> Result<Vec<(String, String)>, String> {
    let own = root.join("rust/interface");
    let mut source = Source::read(root, LIBRARY)?;
    let thin = thin::files(&source, LIBRARY);
    // All other outputs have the functions in the header's order.
    let template = text(&own.join("coronagamba.h.in"))?;
    source
        .modules
        .sort_by_key(|module| template.find(&format!("@functions {}\n", module.name)));
    let refusals = table::refusals(
        &own.join("refusals.txt"),
        source.modules.iter().flat_map(|m| &m.functions),
    )?;
    let library = "crates/refusal/src/lib.rt";
    table::hold(&refusals, &text(&root.join(library))?)
        .map_err(|why| format!("{library}: {why}"))?;
    let constants = table::constants(&own.join("constants.txt"))?;
    let document = text(&root.join("docs/ENTRY-POINTS.md"))?;
    let workspace = text(&root.join("rust/Cargo.toml"))?;
    let crates = text(&root.join("crates.txt"))?;
    let others = [
        (
            "include/coronagamba.h",
            c::header(&template, &source, &refusals, &constants)?,
        ),
        (
            "rust/coronagamba/src/ffi/declared.rs",
            rust::declarations(&source),
        ),
        (
            "rust/coronagamba/src/numbers.rs",
            rust::numbers(&source, &refusals, &constants),
        ),
        ("rust/desk/src/explain/table.rs", rust::explained(&refusals)),
        (
            "python/coronagamba/_declared.py",
            python::declarations(&source, &constants),
        ),
        (
            "python/coronagamba/_refusals.py",
            python::refusals(&refusals),
        ),
        (
            "docs/ENTRY-POINTS.md",
            document::document(&document, &source, &refusals)?,
        ),
        (
            "rust/Cargo.toml",
            rust::workspace(&workspace, source.version)?,
        ),
        (
            "crates.txt",
            listed(&crates, &thin::uses(&source, LIBRARY))?,
        ),
    ];
    let others = others.map(|(name, made)| (name.to_string(), made));
    Ok(thin.into_iter().chain(others).collect())
}

/// crates.txt with the export crate's line made anew.
fn listed(crates: &str, uses: &[String]) -> Result<String, String> {
    let start = format!("{LIBRARY}_c staticlib:");
    let there = crates.lines().any(|line| line.starts_with(&start));
    let lines = crates.lines().map(|line| match line.starts_with(&start) {
        true => format!("{start} {}\n", uses.join(" ")),
        false => format!("{line}\n"),
    });
    let made = lines.collect();
    there
        .then_some(made)
        .ok_or_else(|| format!("crates.txt has no line {start}"))
}

/// The files in the export crate's src/ that are not made: there should be none.
fn strange(root: &Path, outputs: &[(String, String)]) -> Result<Vec<String>, String> {
    let folder = format!("crates/{LIBRARY}_c/src");
    let Ok(entries) = fs::read_dir(root.join(&folder)) else {
        return Ok(Vec::new());
    };
    let mut found = Vec::new();
    for entry in entries {
        let entry = entry.map_err(|error| format!("{folder}: {error}"))?;
        let path = format!("{folder}/{}", entry.file_name().to_string_lossy());
        if !outputs.iter().any(|(made, _)| *made == path) {
            found.push(path);
        }
    }
    Ok(found)
}

/// The first line in which two texts differ, and the line in each.
fn difference(there: &str, made: &str) -> String {
    let (mut old, mut new) = (there.lines(), made.lines());
    for number in 1.. {
        let (one, other) = (old.next(), new.next());
        if one != other || one.is_none() {
            let shown = |line: Option<&str>| line.unwrap_or("(the end)").to_string();
            return format!(
                "line {number}\n  is:     {}\n  made:   {}",
                shown(one),
                shown(other)
            );
        }
    }
    unreachable!("texts end")
}

fn run() -> Result<bool, String> {
    let mut words = env::args_os().skip(1);
    let root = PathBuf::from(words.next().ok_or("usage: interface ROOT [--check]")?);
    let check = match words.next() {
        None => false,
        Some(word) if word == "--check" => true,
        Some(_) => return Err("usage: interface ROOT [--check]".into()),
    };
    let outputs = outputs(&root)?;
    let mut differing = 0;
    for path in strange(&root, &outputs)? {
        differing += 1;
        if check {
            println!("interface: {path} is none of the files that ./interface makes");
        } else {
            fs::remove_file(root.join(&path)).map_err(|error| format!("{path}: {error}"))?;
            println!("interface: removed {path}");
        }
    }
    for (name, made) in &outputs {
        let path = root.join(name);
        let there = fs::read_to_string(&path).unwrap_or_default();
        if there == *made {
            continue;
        }
        differing += 1;
        if check {
            println!(
                "interface: {name} is not what ./interface makes: {}",
                difference(&there, made)
            );
        } else {
            if let Some(folder) = path.parent() {
                fs::create_dir_all(folder).map_err(|error| format!("{name}: {error}"))?;
            }
            fs::write(&path, made).map_err(|error| format!("{name}: {error}"))?;
            println!("interface: wrote {name}");
        }
    }
    println!(
        "interface: {} files made from the library's C interface and its tables, {differing} differ{}",
        outputs.len(),
        if check { "" } else { "ed" }
    );
    Ok(!check || differing == 0)
}

fn main() -> ExitCode {
    match run() {
        Ok(true) => ExitCode::SUCCESS,
        Ok(false) => ExitCode::FAILURE,
        Err(what) => {
            eprintln!("interface: {what}");
            ExitCode::from(2)
        }
    }
}
