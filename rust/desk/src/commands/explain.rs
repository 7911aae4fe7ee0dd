//! `explain`: what a refusal number means and what to do.

use coronagamba::Refusal;

use super::command::Command;
use crate::args::{number, Args};
use crate::explain::{explained, Explained, TABLE};
use crate::fault::Fault;
use crate::help;
use crate::json::Object;
use crate::options::JSON;
use crate::report::Report;

/// The command.
pub const COMMAND: Command = Command {
    name: "explain",
    help: help::EXPLAIN,
    options: &[&[JSON]],
    run,
};

fn run(args: &Args, report: &mut Report) -> Result<(), Fault> {
    if args.arguments().is_empty() {
        return TABLE.iter().try_for_each(|row| in_short(report, row));
    }
    let [word] = args.exactly(["N"])?;
    let asked = number(word, "N")?;
    let row = explained(asked).ok_or_else(|| {
        Fault::wrong_use(format!(
            "there is no refusal {asked}; the numbers are 1 to {}",
            TABLE.last().map_or(0, |row| row.number)
        ))
    })?;
    in_full(report, row)
}

/// The library's sentence for a number.
fn sentence(row: &Explained) -> &'static str {
    Refusal::meaning(row.number).expect("the library has every number of the table")
}

/// One line; as an object always all that there is.
fn in_short(report: &mut Report, row: &Explained) -> Result<(), Fault> {
    if report.json() {
        return in_full(report, row);
    }
    report.line(format_args!("{:>2}  {}", row.number, sentence(row)))
}

/// The whole explanation.
fn in_full(report: &mut Report, row: &Explained) -> Result<(), Fault> {
    if report.json() {
        return report.object(
            Object::new()
                .number("refusal", row.number)
                .text("sentence", sentence(row))
                .text("given", row.given)
                .text("cause", row.cause)
                .text("remedy", row.remedy),
        );
    }
    report.line(format_args!("refusal {}: {}", row.number, sentence(row)))?;
    report.line(format_args!("  given exactly when: {}", row.given))?;
    report.line(format_args!("  usual cause: {}", row.cause))?;
    report.line(format_args!("  what to do: {}", row.remedy))
}
