//! `sample`.

use std::fs;
use std::io::ErrorKind;
use std::path::Path;

use super::command::Command;
use crate::args::Args;
use crate::diagnosis::Diagnosis;
use crate::fault::{Explain, Fault};
use crate::help;
use crate::output::write_new;
use crate::report::Report;
use crate::sample::{parts, Files, Part};
use crate::text::shown;

/// The command.
pub const COMMAND: Command = Command {
    name: "sample",
    help: help::SAMPLE,
    options: &[],
    run,
};

fn run(args: &Args, report: &mut Report) -> Result<(), Fault> {
    let [folder] = args.exactly(["DIR"])?;
    if folder.is_empty() {
        return Err(Fault::wrong_use("DIR is an empty word; '.' is this folder"));
    }
    let folder = Path::new(folder);
    let parts = parts().explain("the sample deposit", |_| not_made())?;
    claim(folder)?;
    for part in &parts {
        write(folder, part)?;
        let path = folder.join(part.name);
        report.line(format_args!("{}: {}", shown(&path), part.about))?;
    }
    report.line(next(&shown(folder)))
}

/// Makes the folder, or takes it where it is there and empty: a sample never
/// mixes with other files.
fn claim(folder: &Path) -> Result<(), Fault> {
    let taken = match fs::read_dir(folder) {
        Ok(mut entries) => entries.next().is_some(),
        Err(error) if error.kind() == ErrorKind::NotFound => false,
        Err(error) if error.kind() == ErrorKind::NotADirectory => true,
        Err(error) => return Err(Fault::system(folder, "read", error)),
    };
    if taken {
        let message = format!("{}: is there and is no empty folder", shown(folder));
        return Err(Fault::wrong_use(message));
    }
    make(folder)
}

/// Makes a folder where it is missing.
fn make(folder: &Path) -> Result<(), Fault> {
    fs::create_dir_all(folder).map_err(|error| Fault::system(folder, "made", error))
}

/// Writes the files of a part.
fn write(folder: &Path, part: &Part) -> Result<(), Fault> {
    let path = folder.join(part.name);
    match &part.files {
        Files::One(bytes) => write_file(&path, bytes),
        Files::Folder(files) => {
            make(&path)?;
            files
                .iter()
                .try_for_each(|(name, bytes)| write_file(&path.join(name), bytes))
        }
    }
}

/// Writes a file of the sample. One that appeared meanwhile is left, and no
/// --force is offered: a sample never overwrites.
fn write_file(path: &Path, bytes: &[u8]) -> Result<(), Fault> {
    write_new(path, false, bytes).map_err(|fault| match fault {
        Fault::Use { .. } => Fault::wrong_use(format!(
            "{}: exists; a sample goes into a new or empty folder",
            shown(path)
        )),
        fault => fault,
    })
}

/// What to try on the sample.
fn next(folder: &str) -> String {
    format!(
        "try next:
  coronagamba check {folder}/copy-a --card {folder}/deposit.card
  coronagamba same {folder}/copy-a {folder}/copy-b --card {folder}/deposit.card
  coronagamba same {folder}/copy-a {folder}/pairs --card {folder}/deposit.card
  coronagamba check {folder}/damaged --card {folder}/deposit.card
  coronagamba get {folder}/copy-b --cell 1,2,1 --card {folder}/deposit.card
  coronagamba check {folder}/murmur --info {folder}/info --scale 1
  coronagamba manifest show {folder}/mesh.manifest
  coronagamba list {folder}/mesh-a/0.shard --card {folder}/mesh.card
  coronagamba get {folder}/labels --voxel 7,12,3 --label --info {folder}/labels.info --scale 0"
    )
}

/// The sample's numbers are fixed and allowed, so this tells of a broken
/// library.
fn not_made() -> Diagnosis {
    Diagnosis::new(
        "the library refuses the sample's own numbers",
        "a sample of allowed numbers",
        "how this program was built",
    )
}

#[cfg(test)]
mod tests {
    use super::*;
    use crate::trial::Folder;

    #[test]
    fn a_file_that_appeared_meanwhile_is_left() {
        let folder = Folder::new("sample-meanwhile");
        let path = folder.write("deposit.card", b"other");
        let told = write_file(&path, b"card").unwrap_err();
        assert_eq!(told.status() as u8, 2);
        assert!(!told.to_string().contains("--force"), "{told}");
        assert_eq!(fs::read(&path).unwrap(), b"other");
    }
}
