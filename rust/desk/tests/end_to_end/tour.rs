//! The tour of the README, its rest in docs/TOUR.md and the dumps of
//! docs/POSITIONS.md, run word for word.
//!
//! Every fenced block is run. A line that begins with `$ ` is a command; the
//! lines behind it are what a terminal shows, and `[status N]` closes them where
//! the exit status is not 0.

use crate::support::{Folder, PROGRAM};
use std::fs;
use std::os::unix::fs::symlink;
use std::process::Command;

const README: &str = concat!(env!("CARGO_MANIFEST_DIR"), "/../../README.md");
const TOUR: &str = concat!(env!("CARGO_MANIFEST_DIR"), "/../../docs/TOUR.md");
const POSITIONS: &str = concat!(env!("CARGO_MANIFEST_DIR"), "/../../docs/POSITIONS.md");

/// A command of a document and what is shown behind it.
struct Step {
    command: String,
    shown: String,
}

/// The commands of all blocks, in order.
fn steps(text: &str) -> Vec<Step> {
    let mut steps: Vec<Step> = Vec::new();
    // Every second part is what stands between two fences.
    for block in text.split("```").skip(1).step_by(2) {
        let lines = block
            .strip_prefix("console\n")
            .expect("a block of console text");
        for line in lines.lines() {
            if let Some(command) = line.strip_prefix("$ ") {
                steps.push(Step {
                    command: command.to_string(),
                    shown: String::new(),
                });
            } else {
                let step = steps.last_mut().expect("a command before its output");
                step.shown += &format!("{line}\n");
            }
        }
    }
    steps
}

/// What a terminal shows of a command, and its status where it is not 0.
fn shown(folder: &Folder, command: &str) -> String {
    let output = Command::new("sh")
        .args(["-c", &format!("exec 2>&1; {command}")])
        .current_dir(folder.path())
        .output()
        .expect("sh starts");
    let mut shown = String::from_utf8(output.stdout).expect("a command shows text");
    if output.status.code() != Some(0) {
        let status = output.status.code().expect("an exit status");
        shown += &format!("[status {status}]\n");
    }
    shown
}

/// Runs commands, each of which begins with one of these programs, in one fresh
/// folder. Panics where one shows something else than it should.
fn run(steps: &[Step], programs: &[&str]) {
    let folder = Folder::new();
    symlink(PROGRAM, folder.at("coronagamba")).expect("a link");
    for Step { command, shown } in steps {
        let program = command.split(' ').next().unwrap_or_default();
        assert!(programs.contains(&program), "{command}");
        let found = self::shown(&folder, command);
        assert_eq!(found, *shown, "$ {command}\n{found}");
    }
}

/// The commands of a document.
fn read(path: &str) -> Vec<Step> {
    let text = fs::read_to_string(path).unwrap_or_else(|error| panic!("{path}: {error}"));
    steps(&text)
}

/// The commands of the tool that its help lists: two spaces, a name, what it does.
fn commands() -> Vec<String> {
    let folder = Folder::new();
    let help = folder.run(["help"]);
    let text = help.expect_status(0).text();
    let (lists, _) = text.split_once("\nOptions may").expect("options behind");
    let named = |line: &str| -> Option<String> {
        let name = line.strip_prefix("  ")?.split(' ').next()?;
        (!name.is_empty()).then(|| name.to_string())
    };
    lists.lines().filter_map(named).collect()
}

/// As a reader goes: the README's tour and then the rest, in one folder. Neither
/// has lost a block, the README's stays short, and no command is left out.
#[test]
fn the_tours_show_what_they_say() {
    let (first, rest) = (read(README), read(TOUR));
    assert!(first.len() >= 6, "README: {} commands", first.len());
    assert!(rest.len() >= 47, "docs/TOUR.md: {} commands", rest.len());
    let lines = |step: &Step| 1 + step.shown.lines().count();
    let length: usize = first.iter().map(lines).sum();
    assert!((30..=45).contains(&length), "README: {length} lines");
    let steps: Vec<Step> = first.into_iter().chain(rest).collect();
    let commands = commands();
    assert!(commands.len() >= 18, "{commands:?}");
    for command in commands {
        let begin = format!("./coronagamba {command} ");
        let shown = steps.iter().any(|step| step.command.starts_with(&begin));
        assert!(shown, "no tour has {command}");
    }
    run(&steps, &["./coronagamba", "cat"]);
}

/// Each of 7 to 11, 15 to 17 and 21 is met by a check, and the next dump begins at
/// the byte that it tells, with as many bytes as the rules give the position.
#[test]
fn the_dumps_show_what_they_say() {
    let steps = read(POSITIONS);
    run(&steps, &["./coronagamba", "cp", "printf", "od"]);
    for number in (7..=11).chain(15..=17).chain([21]) {
        let refused = format!(": refused {number} in minishard ");
        let met = steps.iter().position(|step| step.shown.contains(&refused));
        let at = met.unwrap_or_else(|| panic!("no refusal {number}"));
        let told = steps[at]
            .shown
            .split_once("look at: byte ")
            .expect("a byte");
        let byte = told.1.split(' ').next().expect("a byte's number");
        let bytes = if number < 9 { 16 } else { 8 };
        let file = steps[at].command.split(' ').nth(2).expect("a file");
        assert_eq!(
            steps[at + 1].command,
            format!("od -v -A d -t x1 -w8 -j {byte} -N {bytes} {file}")
        );
    }
}
