//! What a command is.

use crate::args::Args;
use crate::fault::Fault;
use crate::help;
use crate::options::Opt;
use crate::report::Report;

/// A command of the program.
pub struct Command {
    /// Its name, of one word or two.
    pub name: &'static str,
    /// Its help text, without the options.
    pub help: &'static str,
    /// The options that it takes, in parts and in the order of the help. `--json` is
    /// one of them where the command offers it.
    pub options: &'static [&'static [Opt]],
    /// Runs it. Statuses of single files go to the report; a fault ends the
    /// run.
    pub run: fn(&Args, &mut Report) -> Result<(), Fault>,
}

impl Command {
    /// Its help text.
    pub fn help(&self) -> String {
        help::with_options(self.help, self.options)
    }
}
