//! `holdings`.

use std::collections::btree_map::{BTreeMap, Entry};
use std::ffi::OsString;
use std::fs;
use std::path::{Path, PathBuf};

use coronagamba::{Refusal, Sharding, Sheet};

use super::command::Command;
use crate::args::Args;
use crate::diagnosis::Diagnosis;
use crate::fault::{Fault, Status};
use crate::files::{one_place, read_front};
use crate::folder::Input;
use crate::gather::{gather, no_shards};
use crate::help;
use crate::json::Object;
use crate::judge;
use crate::memory::Room;
use crate::options::{ADD, JSON, VERBOSE};
use crate::parts;
use crate::record::{show, Filed, Place, Visit, Way};
use crate::report::{complaint, Counts, Report, Where};
use crate::round::{self, Outcome};
use crate::settings;
use crate::sheet::{names, Holdings, LEFT_OUT};
use crate::text::{counted, shown};

/// The command.
pub const COMMAND: Command = Command {
    name: "holdings",
    help: help::HOLDINGS,
    options: &[
        settings::OF_SHARDS,
        &[ADD, VERBOSE],
        round::OPTIONS,
        parts::OPTIONS,
        &[JSON],
    ],
    run,
};

/// More bytes than a sheet has in either form, also with space between its parts.
const MOST_BYTES: u64 = 1 << 14;

fn run(args: &Args, report: &mut Report) -> Result<(), Fault> {
    if args.flag(ADD) {
        return match of_sheets(args, report)? {
            Some(total) => total.print(report),
            None => Ok(()),
        };
    }
    let settings = settings::of_shards(args)?;
    parts::run(args, COMMAND.name, &settings, report, |report| {
        of_shards(args, settings.sharding, report)
    })
}

/// The sheet of all shards that the paths lead to.
fn of_shards(args: &Args, sharding: Sharding, report: &mut Report) -> Result<(), Fault> {
    let workers = round::workers(args, 1)?;
    let verbose = args.flag(VERBOSE);
    let found = gather(args, &sharding)?;
    for (folder, others) in &found.empty {
        report.told(Place::Before, |report| {
            report.note(Status::No);
            report.remark(no_shards(folder, *others));
            Ok(())
        })?;
    }
    if verbose && found.others > 0 {
        let others = counted(found.others, "other file");
        report.told(Place::Before, |report| {
            report.remark(format_args!("{others} passed over"));
            Ok(())
        })?;
    }
    let mut total = Total::of_nothing();
    let work = |room: &mut Room, input| add(&sharding, verbose, room, input);
    let tell = |total: &mut Total, outcome: &_, report: &mut Report| total.take(outcome, report);
    let inputs = once_each(found.inputs);
    parts::round(
        workers,
        "counted",
        inputs,
        Input::weight,
        work,
        &mut total,
        tell,
        report,
    )?;
    report.sum_up(&mut total)
}

/// Each shard once, also where two paths lead to it: the folder of a file has one
/// path without links. Whichever comes first, the file that is named by itself is
/// taken, since it may be read where a folder's file is not.
fn once_each(inputs: Vec<Input>) -> Vec<Input> {
    let mut folders: BTreeMap<PathBuf, PathBuf> = BTreeMap::new();
    let mut places: BTreeMap<(PathBuf, OsString), usize> = BTreeMap::new();
    let mut kept: Vec<Input> = Vec::new();
    for input in inputs {
        let path = &input.source.path;
        let (Some(parent), Some(name)) = (path.parent(), path.file_name()) else {
            kept.push(input);
            continue;
        };
        let folder = folders
            .entry(parent.to_path_buf())
            .or_insert_with(|| real_folder(parent));
        match places.entry((folder.clone(), name.to_os_string())) {
            Entry::Vacant(entry) => {
                entry.insert(kept.len());
                kept.push(input);
            }
            Entry::Occupied(entry) => {
                let other = &mut kept[*entry.get()];
                if trouble(&input) < trouble(other) {
                    *other = input;
                }
            }
        }
    }
    kept
}

/// The path of a folder without links, where it can be told.
fn real_folder(folder: &Path) -> PathBuf {
    let here = Path::new(".");
    let folder = if folder == Path::new("") {
        here
    } else {
        folder
    };
    fs::canonicalize(folder).unwrap_or_else(|_| folder.to_path_buf())
}

/// How far it is from being counted: it may be read, or its number should have been
/// given, or there is something else with it.
fn trouble(input: &Input) -> u8 {
    match input.number {
        Ok(_) => 0,
        Err(Fault::Misnamed { alone: true, .. }) => 1,
        Err(_) => 2,
    }
}

/// The sheet of one shard.
struct Added {
    sheet: Sheet,
    /// Where the check refuses it and its name is asked for.
    refused: Option<Fault>,
}

/// Reads one shard and makes its sheet, for which it is judged once; once more
/// where its refusal is to be told.
fn add(
    sharding: &Sharding,
    verbose: bool,
    room: &mut Room,
    input: Input,
) -> Outcome<Result<Added, Fault>> {
    let mut outcome = judge::work(room, input, |room, source, number| {
        room.wait_for([source.length_to_read(), 0, 0]);
        room.file.read(source)?;
        let bytes = room.file.bytes();
        let mut sheet = Sheet::default();
        judge::ask(sharding, number, source, bytes, |shard| {
            shard.add_to(&mut sheet)
        })?;
        let told = verbose && sheet.sound() == 0;
        let check = || judge::ask(sharding, number, source, bytes, |shard| shard.check());
        let refused = told.then(|| check().err()).flatten();
        Ok(Added { sheet, refused })
    });
    outcome.refused |= matches!(&outcome.answer, Ok(added) if added.sheet.sound() == 0);
    outcome
}

/// The sum of the sheets that the paths lead to; none where one of them cannot be
/// read, so that no part is missing in silence.
fn of_sheets(args: &Args, report: &mut Report) -> Result<Option<Total>, Fault> {
    let others = COMMAND.options.iter().copied().flatten();
    let mut others = others.filter(|option| ![ADD, JSON].contains(option));
    if let Some(other) = others.find(|option| args.flag(**option)) {
        return Err(Fault::wrong_use(format!(
            "{other} is for shards; {ADD} takes sheets alone"
        )));
    }
    let paths: Vec<&Path> = args.at_least_one("SHEET")?.iter().map(Path::new).collect();
    let mut total = Some(Total::new("that row in each of the sheets"));
    for (place, path) in paths.iter().enumerate() {
        let is_same = |other: &&Path| one_place(path, other);
        let read = match paths[..place].iter().any(is_same) {
            true => Err(Fault::wrong_use(format!("{}: is given twice", shown(path)))),
            false => sheet_in(path),
        };
        match (read, &mut total) {
            (Ok(holdings), Some(total)) => total.add(path, &holdings, report)?,
            (Ok(_), None) => {}
            (Err(fault), _) => {
                report.complain(&fault)?;
                total = None;
            }
        }
    }
    Ok(total)
}

/// The sheet in a file.
fn sheet_in(path: &Path) -> Result<Holdings, Fault> {
    let mut text = Vec::new();
    read_front(path, &mut text, MOST_BYTES)?;
    let read = match text.len() as u64 {
        MOST_BYTES => Err("it is longer than one".into()),
        _ => Holdings::read(&text),
    };
    read.map_err(|why| {
        let path = shown(path);
        Fault::wrong_use(format!("{path}: is no holdings sheet: {why}"))
    })
}

/// The count of a report that says whether a sum passes.
const REFUSAL: &str = "refusal";

/// The sheet over all, as far as it goes.
#[derive(Clone)]
pub struct Total {
    holdings: Holdings,
    /// The rows' sums, also where they pass what a sheet can hold.
    exact: [u128; 17],
    /// A sum passes.
    refusal: Option<Refusal>,
    /// Where to look then.
    look_at: &'static str,
}

impl Total {
    /// The sheet of no shards.
    pub fn of_nothing() -> Self {
        Total::new("the shards that list so much")
    }

    /// The sheet of nothing; `look_at` says where to look where a sum passes.
    fn new(look_at: &'static str) -> Self {
        Total {
            holdings: Holdings::default(),
            exact: [0; 17],
            refusal: None,
            look_at,
        }
    }

    /// Adds a sheet that was printed before.
    fn add(&mut self, path: &Path, other: &Holdings, report: &mut Report) -> Result<(), Fault> {
        self.join(&other.sheet);
        if other.left_out > 0 {
            report.note(Status::No);
            complaint(format_args!("{}: {} left out", shown(path), other.left_out));
        }
        let left_out = self.holdings.left_out.checked_add(other.left_out);
        self.holdings.left_out = left_out.ok_or_else(|| {
            let path = shown(path);
            Fault::wrong_use(format!("{path}: more is left out than can be counted"))
        })?;
        Ok(())
    }

    fn join(&mut self, sheet: &Sheet) {
        for (sum, row) in self.exact.iter_mut().zip(sheet.rows()) {
            *sum += u128::from(row);
        }
        if let Err(refusal) = self.holdings.sheet.join(sheet) {
            self.refusal = Some(refusal);
        }
    }

    /// Adds a shard's sheet, or tells why it has none. All that is told of single
    /// shards goes to standard error: the sheet is the same in any order.
    fn take(
        &mut self,
        outcome: &Outcome<Result<Added, Fault>>,
        report: &mut Report,
    ) -> Result<(), Fault> {
        match &outcome.answer {
            Ok(added) => {
                self.join(&added.sheet);
                if let Some(refused) = &added.refused {
                    report.remark(refused);
                }
                return Ok(());
            }
            // The sizes of its chunks alone pass.
            Err(Fault::Refused(refused)) => {
                self.refusal = Some(refused.refusal);
                report.remark(refused);
                return Ok(());
            }
            Err(fault @ Fault::Misnamed { .. }) => report.complain(fault)?,
            Err(fault) => {
                report.note(fault.status());
                report.remark(fault);
            }
        }
        self.holdings.left_out += 1;
        Ok(())
    }

    fn diagnosis(&self) -> Diagnosis {
        let most = u128::from(u64::MAX);
        let rows = names().into_iter().zip(self.exact);
        let passing: Vec<String> = rows
            .filter(|(_, sum)| *sum > most)
            .map(|(name, sum)| format!("{name} {sum}"))
            .collect();
        let found = match &passing[..] {
            [] => "a shard whose chunks are larger together".into(),
            passing => passing.join(", "),
        };
        Diagnosis::new(found, format!("at most {most} in each row"), self.look_at)
    }
}

impl Counts for Total {
    fn each(&mut self, visit: Visit) {
        for (name, sum) in names().iter().zip(&mut self.exact) {
            visit(name, Way::Added, sum);
        }
        show(visit, LEFT_OUT, Way::Added, &mut self.holdings.left_out);
        let mut refusal = self.refusal.map_or(0, |refusal| u64::from(refusal.number));
        show(visit, REFUSAL, Way::Added, &mut refusal);
    }

    /// The library adds the part's sheet, as it adds all others. A part in which a sum
    /// passes has none: it was refused with 27, and so is the whole.
    fn add_part(&mut self, part: &Filed) {
        let rows = names().map(|name| part.count(&name));
        if rows.iter().all(|row| *row <= u128::from(u64::MAX)) {
            self.join(&Sheet::from_rows(rows.map(|row| row as u64)));
        } else {
            let sums = self.exact.iter_mut().zip(rows);
            sums.for_each(|(sum, row)| *sum = sum.saturating_add(row));
        }
        let left_out = u64::try_from(part.count(LEFT_OUT)).unwrap_or(u64::MAX);
        self.holdings.left_out = self.holdings.left_out.saturating_add(left_out);
        if part.count(REFUSAL) > 0 {
            self.refusal = Some(Refusal {
                number: Refusal::TOTAL_TOO_LARGE,
                minishard: None,
                position: None,
            });
        }
    }

    /// Tells the sheet, or that a sum passes: no part of the shards is better than
    /// another one, so there is no sheet then.
    fn print(&self, report: &mut Report) -> Result<(), Fault> {
        if let Some(refusal) = self.refusal {
            let subject = "the holdings sheet";
            let fault = Fault::refused(subject, refusal, self.diagnosis());
            return report.tell(Object::new().text("subject", subject), &fault, Where::Word);
        }
        if report.json() {
            return report.object(self.holdings.object());
        }
        let mut lines = self.holdings.lines().into_iter();
        lines.try_for_each(|line| report.line(line))
    }
}

#[cfg(test)]
mod tests {
    use super::*;
    use crate::edition::Source;
    use crate::naming::no_shard;
    use crate::part::Part;
    use crate::record::Record;
    use crate::trial::{Folder, TWO_MINISHARDS};
    use std::os::unix::fs::symlink;

    /// A sheet with this many bytes of chunks, in so many shards.
    fn sheet(shards: u64, bytes: u64) -> Sheet {
        let mut rows = [0; 17];
        (rows[0], rows[15]) = (shards, bytes);
        Sheet::from_rows(rows)
    }

    fn total(sheets: &[Sheet]) -> Total {
        let mut total = Total::of_nothing();
        sheets.iter().for_each(|sheet| total.join(sheet));
        total.holdings.left_out = sheets.len() as u64;
        total
    }

    /// The totals of two parts, each by way of its report.
    fn joined(parts: [Total; 2]) -> Total {
        let mut whole = Total::of_nothing();
        for (number, mut part) in (1..).zip(parts) {
            let head = Object::new().text("result", "part").number("parts", 2);
            let mut record = Record::new(head);
            record.count(|visit| part.each(visit));
            let text = record.text(Part { number, of: 2 }, Status::Yes, false);
            whole.add_part(&Filed::read(text.into_bytes()).unwrap());
        }
        whole
    }

    /// What is printed.
    fn printed(total: &Total) -> (Option<Refusal>, String, Option<Holdings>) {
        let sheet = total.refusal.is_none().then_some(total.holdings);
        (total.refusal, total.diagnosis().found, sheet)
    }

    #[test]
    fn parts_are_added_up_as_one_run_does_it() {
        const HALF: u64 = 1 << 63;
        for (sheets, passes) in [
            (vec![sheet(1, 7), sheet(2, 8), sheet(3, 0)], false),
            (vec![sheet(1, HALF), sheet(2, HALF - 1), sheet(0, 0)], false),
            // Over all, and in one part or in both of them too.
            (vec![sheet(1, HALF), sheet(2, 5), sheet(3, HALF)], true),
            (vec![sheet(1, u64::MAX); 4], true),
            (vec![sheet(u64::MAX, 1), sheet(1, u64::MAX)], true),
        ] {
            let one = total(&sheets);
            assert_eq!(one.refusal.is_some(), passes);
            for cut in 0..=sheets.len() {
                let parts = [&sheets[..cut], &sheets[cut..]].map(total);
                assert_eq!(printed(&joined(parts)), printed(&one), "{cut}");
            }
        }
        // A shard whose chunks alone are larger has no sheet: no sum passes then.
        let mut one = total(&[sheet(1, 7), sheet(2, 8)]);
        let parts = [0, 1].map(|part| {
            let mut part = total(&[sheet(1 + part, 7 + part)]);
            part.refusal = total(&[sheet(u64::MAX, 0), sheet(1, 0)]).refusal;
            one.refusal = part.refusal;
            part
        });
        assert_eq!(printed(&joined(parts)), printed(&one));
    }

    #[test]
    fn a_shard_that_two_paths_lead_to_comes_once() {
        let folder = Folder::new("holdings-once");
        fs::create_dir(folder.at("a")).unwrap();
        fs::create_dir(folder.at("b")).unwrap();
        symlink(folder.at("a"), folder.at("c")).unwrap();
        for name in ["a/0.shard", "b/0.shard"] {
            folder.write(name, b"");
        }
        symlink(folder.at("a/0.shard"), folder.at("b/1.shard")).unwrap();
        let with = |name: &str, number| Input {
            source: Source::file(&folder.at(name)),
            number,
        };
        let input = |name: &&str| with(name, Ok(0));
        let names = [
            "a/0.shard",
            "a/../a/0.shard",
            "b/0.shard",
            "c/0.shard",
            "b/1.shard",
            "none/0.shard",
        ];
        let left = once_each(names.iter().map(input).collect());
        let left: Vec<PathBuf> = left.into_iter().map(|input| input.source.path).collect();
        // A link to a file is a shard of its own folder.
        let expected = ["a/0.shard", "b/0.shard", "b/1.shard", "none/0.shard"];
        assert_eq!(left, expected.map(|name| folder.at(name)));
        // Whichever comes first, the one that can be read.
        let misnamed = |alone| Err(no_shard(&TWO_MINISHARDS, Path::new("x"), alone));
        let ranked = |rank| match rank {
            0 => Ok(7),
            rank => misnamed(rank == 1),
        };
        for (better, worse) in [(0, 1), (0, 2), (1, 2)] {
            for order in [[better, worse], [worse, better]] {
                let inputs = order.map(|rank| with("a/0.shard", ranked(rank)));
                let left = once_each(inputs.into());
                assert_eq!(left.len(), 1);
                assert_eq!(trouble(&left[0]), better as u8);
            }
        }
    }
}
