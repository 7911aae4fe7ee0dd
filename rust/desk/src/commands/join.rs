//! `join`.

use std::collections::{BTreeMap, BTreeSet};
use std::path::Path;

use super::command::Command;
use super::{check, fingerprint, holdings, pack, same, settle};
use crate::args::Args;
use crate::fault::Fault;
use crate::files::read_to_end;
use crate::help;
use crate::options::JSON;
use crate::record::{Answer, Filed, Place, Told, Way};
use crate::report::{Counts, Report};
use crate::text::{counted, shown};

/// The command.
pub const COMMAND: Command = Command {
    name: "join",
    help: help::JOIN,
    options: &[&[JSON]],
    run,
};

/// How many parts or shards a complaint names.
const MOST_NAMED: usize = 10;

fn run(args: &Args, report: &mut Report) -> Result<(), Fault> {
    let paths = args.at_least_one("REPORT")?;
    let (mut faults, mut parts) = (Vec::new(), Vec::new());
    for path in paths.iter().map(Path::new) {
        match read(path) {
            Ok(filed) => parts.push((path, filed)),
            Err(fault) => faults.push(fault),
        }
    }
    faults.extend(disagreements(&parts));
    // Where reports are not read, it is not known which parts are missing.
    if faults.is_empty() {
        faults.extend(missing(&parts));
    }
    // Nothing is printed of a whole that is not there.
    match faults.is_empty() {
        true => tell(&parts, report),
        false => faults.iter().try_for_each(|fault| report.complain(fault)),
    }
}

fn read(path: &Path) -> Result<Filed, Fault> {
    Filed::read(read_to_end(path)?).map_err(|why| {
        let path = shown(path);
        Fault::wrong_use(format!("{path}: is no whole report: {why}"))
    })
}

/// What reports say otherwise than the first one, and parts that stand twice.
fn disagreements(parts: &[(&Path, Filed)]) -> Vec<Fault> {
    let (mut faults, mut seen) = (Vec::new(), BTreeMap::new());
    for (path, filed) in parts {
        let (first, other) = &parts[0];
        let what = other.disagrees(filed);
        if let Some(what) = what.or_else(|| shared(other, filed)) {
            faults.push(Fault::wrong_use(format!(
                "{} and {} disagree on {what}",
                shown(first),
                shown(path)
            )));
        } else if let Some(twice) = seen.insert(filed.part, path) {
            faults.push(Fault::wrong_use(format!(
                "{} and {} are both of part {}",
                shown(twice),
                shown(path),
                filed.part
            )));
        }
    }
    faults
}

/// A count that all parts share, and that two of them have otherwise.
fn shared(first: &Filed, second: &Filed) -> Option<String> {
    let mut found = None;
    counts_of(first.command())?.each(&mut |name, way, _| {
        let count = |filed: &Filed| filed.count(name);
        if way == Way::Shared && count(first) != count(second) {
            found.get_or_insert_with(|| name.to_string());
        }
    });
    found
}

/// The parts that no report is of.
fn missing(parts: &[(&Path, Filed)]) -> Option<Fault> {
    let of = parts.first()?.1.parts;
    let there: BTreeSet<u64> = parts.iter().map(|(_, filed)| filed.part).collect();
    let missing = || (1..=of).filter(|part| !there.contains(part));
    let (count, named) = (missing().count(), missing().take(MOST_NAMED));
    let named: Vec<String> = named.map(|part| part.to_string()).collect();
    let more = match count.saturating_sub(MOST_NAMED) {
        0 => String::new(),
        more => format!(" and {more} more"),
    };
    (count > 0).then(|| {
        let (count, named) = (counted(count as u64, "part"), named.join(", "));
        Fault::wrong_use(format!("{count} of {of} missing: {named}{more}"))
    })
}

/// The lines of all reports in the order of one run, each shard in one part.
fn in_order<'a>(parts: &'a [(&Path, Filed)], shards: u64) -> Result<Vec<(Place, &'a str)>, Fault> {
    let told: u64 = parts.iter().map(|(_, filed)| filed.told_shards).sum();
    let mut all = Vec::with_capacity(told as usize);
    for (number, (_, filed)) in parts.iter().enumerate() {
        // What stands before and behind the shards is the same in all parts.
        let once = |(place, _): &(Place, &str)| number == 0 || matches!(place, Place::Shard(_));
        all.extend(filed.lines().filter(once));
    }
    all.sort_by_key(|(place, _)| *place);
    let mut next = 0;
    for (place, _) in &all {
        match place {
            Place::Shard(place) if *place == next => next += 1,
            _ => {}
        }
    }
    match next as u64 == shards && told == shards {
        true => Ok(all),
        false => Err(Fault::wrong_use(format!(
            "the parts do not have each of {} once",
            counted(shards, "shard")
        ))),
    }
}

/// Tells what one run would have told.
fn tell(parts: &[(&Path, Filed)], report: &mut Report) -> Result<(), Fault> {
    let (_, first) = &parts[0];
    let command = first.command();
    let Some(mut counts) = counts_of(command) else {
        return Err(Fault::wrong_use(
            "the reports are of no command that has parts",
        ));
    };
    let lines = in_order(parts, first.shards)?;
    let json = report.json();
    for answer in lines.iter().filter_map(|(_, line)| Answer::read(line)) {
        let Told { lines, complaints } = answer.form(json);
        lines.iter().try_for_each(|line| report.line(line))?;
        if !complaints.is_empty() {
            report.flush()?;
        }
        complaints.iter().for_each(|line| report.remark(line));
    }
    for (_, filed) in parts {
        report.note(filed.status);
        counts.add_part(filed);
    }
    if first.has_counts() {
        counts.print(report)?;
    }
    if parts.iter().any(|(_, filed)| filed.misused) {
        report.flush()?;
        report.remark(format_args!("see: coronagamba {command} --help"));
    }
    Ok(())
}

/// The counts of a command, as they are before a run.
fn counts_of(command: &str) -> Option<Box<dyn Counts>> {
    Some(match command {
        "check" => Box::new(check::Summary::default()),
        "settle" => Box::new(settle::Summary::default()),
        "pack" => Box::new(pack::Summary::default()),
        "same" => Box::new(same::Summary::default()),
        "holdings" => Box::new(holdings::Total::of_nothing()),
        "fingerprint" => Box::new(fingerprint::Summary::default()),
        _ => return None,
    })
}
