//! The desk tool: checks, settles, packs, compares and reads the shards of a
//! deposit through the proved library.

#![forbid(unsafe_code)]

mod args;
mod aside;
mod buffers;
mod commands;
mod diagnosis;
mod difference;
mod digest;
mod edition;
mod explain;
mod fault;
mod files;
mod folder;
mod forms;
mod fragments;
mod gather;
mod help;
mod json;
mod judge;
mod labels;
mod memory;
mod naming;
mod options;
mod output;
mod part;
mod parts;
mod pool;
mod presence;
mod progress;
mod record;
mod report;
mod round;
mod sample;
mod settings;
mod sheet;
mod text;
#[cfg(test)]
mod trial;
mod unclear;

use std::env;
use std::ffi::{OsStr, OsString};
use std::path::Path;
use std::process::ExitCode;

use args::{nearest, Args};
use commands::{Command, Group, COMMANDS, GROUPS};
use fault::{Fault, Status};
use report::{complaint, Report};
use text::shown;

fn main() -> ExitCode {
    let words: Vec<OsString> = env::args_os().skip(1).collect();
    ExitCode::from(run(&words) as u8)
}

/// Runs the program on its words.
fn run(words: &[OsString]) -> Status {
    match words.first().map(|first| first.to_str()) {
        None => wrong_use("no command is given", ""),
        Some(Some("--help" | "-h")) => print(help::PROGRAM),
        Some(Some("--version")) => print(help::VERSION),
        Some(Some("help")) if words.len() == 1 => print(help::PROGRAM),
        Some(Some("help")) => help_about(&words[1..]),
        Some(_) => run_command(words),
    }
}

/// What the first words name.
enum Found<'a> {
    /// A command, and the words behind its name.
    Command(&'static Command, &'a [OsString]),
    /// A group of commands without one of its second words, and the words
    /// behind its name.
    Group(&'static Group, &'a [OsString]),
    /// Nothing that is known.
    Nothing,
}

/// Finds what the first words name.
fn find(words: &[OsString]) -> Found<'_> {
    for command in &COMMANDS {
        let length = command.name.split(' ').count();
        if words.len() >= length && command.name.split(' ').eq(&words[..length]) {
            return Found::Command(command, &words[length..]);
        }
    }
    match GROUPS.iter().find(|group| words[0] == group.name) {
        Some(group) => Found::Group(group, &words[1..]),
        None => Found::Nothing,
    }
}

/// Runs the command that the first words name.
fn run_command(words: &[OsString]) -> Status {
    match find(words) {
        Found::Command(command, rest) if asks_for_help(rest) => print(&command.help()),
        Found::Command(command, rest) => run_on(command, rest),
        Found::Group(group, rest) if asks_for_help(rest) => print(group.help),
        Found::Group(group, _) => {
            let members: Vec<&str> = group.members().collect();
            let message = format!("{} needs one of: {}", group.name, members.join(", "));
            wrong_use(&message, group.name)
        }
        Found::Nothing => unknown(&words[0]),
    }
}

/// Prints the help of what the words name.
fn help_about(words: &[OsString]) -> Status {
    match find(words) {
        Found::Command(command, []) => print(&command.help()),
        Found::Group(group, []) => print(group.help),
        Found::Command(..) | Found::Group(..) => wrong_use("help takes one command", ""),
        Found::Nothing => unknown(&words[0]),
    }
}

/// Whether an option asks for help.
fn asks_for_help(words: &[OsString]) -> bool {
    let mut options = words.iter().take_while(|word| *word != "--");
    options.any(|word| word == "--help" || word == "-h")
}

/// Runs a command on the words behind its name.
fn run_on(command: &Command, words: &[OsString]) -> Status {
    let args = match Args::parse(words, command.options) {
        Ok(args) => args,
        Err(fault) => return wrong_use(&fault.to_string(), command.name),
    };
    let mut report = Report::new(args.flag(options::JSON));
    let ended = (command.run)(&args, &mut report);
    let told = match ended {
        Err(fault) if !fault.ends_the_run() => report.complain(&fault),
        ended => ended,
    };
    // Where both outputs are one, the answers stand before the hint.
    let told = told.and_then(|()| report.flush());
    if report.misused() {
        see(command.name);
    }
    close(report, told)
}

/// Writes out the rest of a report and gives the status of the run.
fn close(mut report: Report, ended: Result<(), Fault>) -> Status {
    match ended.and_then(|()| report.flush()) {
        Ok(()) => report.worst(),
        Err(fault) => {
            if !matches!(fault, Fault::ClosedPipe) {
                complaint(&fault);
            }
            report.worst().max(fault.status())
        }
    }
}

/// Complains of a word that names no command.
fn unknown(word: &OsStr) -> Status {
    let names = COMMANDS.iter().map(|command| command.name);
    let groups = GROUPS.iter().map(|group| group.name);
    let near = nearest(word, names.chain(groups).filter(|name| !name.contains(' ')));
    let message = format!(
        "there is no command '{}' (nearest: {})",
        shown(Path::new(word)),
        near.unwrap_or_default()
    );
    wrong_use(&message, "")
}

/// Complains of wrong use and names the help text to read.
fn wrong_use(message: &str, command: &str) -> Status {
    complaint(message);
    see(command);
    Status::Use
}

/// Names the help text to read.
fn see(command: &str) {
    match command {
        "" => complaint("see: coronagamba --help"),
        command => complaint(format_args!("see: coronagamba {command} --help")),
    }
}

/// Prints a text that ends with its line.
fn print(text: &str) -> Status {
    let mut report = Report::new(false);
    let printed = report.bytes(text.as_bytes());
    close(report, printed)
}
