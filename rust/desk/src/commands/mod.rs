//! The commands.

use crate::help;

mod card;
mod cell;
mod check;
mod command;
mod cover;
mod explain;
mod fingerprint;
mod get;
mod holdings;
mod join;
mod label;
mod labels;
mod list;
mod locate;
mod manifest;
mod name;
mod pack;
mod question;
mod range;
mod same;
mod sample;
mod settle;

pub use command::Command;

/// All commands, in the order of the help.
pub static COMMANDS: [Command; 24] = [
    check::COMMAND,
    settle::COMMAND,
    pack::COMMAND,
    same::COMMAND,
    holdings::COMMAND,
    join::COMMAND,
    fingerprint::COMMAND,
    get::COMMAND,
    list::COMMAND,
    range::COMMAND,
    locate::COMMAND,
    cell::COMMAND,
    cover::COMMAND,
    name::COMMAND,
    card::MAKE,
    card::SHOW,
    card::CHECK,
    manifest::SHOW,
    manifest::CHECK,
    manifest::NODE,
    label::COMMAND,
    labels::COMMAND,
    explain::COMMAND,
    sample::COMMAND,
];

/// Commands with the same first word.
pub struct Group {
    /// The first word.
    pub name: &'static str,
    /// The help text over all of them.
    pub help: &'static str,
}

/// All groups.
pub static GROUPS: [Group; 2] = [
    Group {
        name: "card",
        help: help::CARD,
    },
    Group {
        name: "manifest",
        help: help::MANIFEST,
    },
];

impl Group {
    /// The second words of its commands.
    pub fn members(&self) -> impl Iterator<Item = &'static str> + '_ {
        COMMANDS
            .iter()
            .filter_map(|command| command.name.split_once(' '))
            .filter(|(first, _)| *first == self.name)
            .map(|(_, second)| second)
    }
}
