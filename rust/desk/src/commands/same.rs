//! `same`.

use std::collections::BTreeMap;
use std::ffi::OsString;
use std::fs;
use std::path::Path;

use coronagamba::{Sharding, Unlisted};

use super::command::Command;
use crate::args::Args;
use crate::buffers::front;
use crate::difference::{first_difference, Difference, Kind, Side};
use crate::edition::{both_changes, Loaded, Source};
use crate::fault::{Fault, Status};
use crate::files::one_place;
use crate::folder::{is_folder, list, single, Input};
use crate::fragments::is_mesh;
use crate::gather::{no_shard_option, tell_no_shards};
use crate::help;
use crate::json::Object;
use crate::judge;
use crate::memory::{Lengths, Room};
use crate::naming::shard_number;
use crate::options::JSON;
use crate::parts;
use crate::record::{show, show_flag, Place, Visit, Way};
use crate::report::{Counts, Report, Where};
use crate::round::{self, Outcome};
use crate::settings;
use crate::text::{and, counted, shown};

/// The command.
pub const COMMAND: Command = Command {
    name: "same",
    help: help::SAME,
    options: &[settings::OF_SHARDS, round::OPTIONS, parts::OPTIONS, &[JSON]],
    run,
};

fn run(args: &Args, report: &mut Report) -> Result<(), Fault> {
    let settings = settings::of_shards(args)?;
    let paths = args.exactly(["PATH1", "PATH2"])?.map(Path::new);
    if paths.iter().any(|path| !is_folder(path)) {
        parts::for_folders_alone(args)?;
    }
    parts::run(args, COMMAND.name, &settings, report, |report| {
        compare_all(args, settings.sharding, paths, report)
    })
}

fn compare_all(
    args: &Args,
    sharding: Sharding,
    paths: [&Path; 2],
    report: &mut Report,
) -> Result<(), Fault> {
    let workers = round::workers(args, 1)?;
    let mut summary = Summary {
        mesh: is_mesh(&sharding),
        ..Summary::default()
    };
    let copies = match paths.map(is_folder) {
        [true, true] => {
            no_shard_option(args, paths[0])?;
            folders(&sharding, paths, &mut summary, report)?
        }
        [false, false] => vec![files(args, &sharding, paths)?],
        _ => return Err(unlike(paths)),
    };
    if one_place(paths[0], paths[1]) || copies.iter().any(Copies::are_one_pair) {
        report.told(Place::Before, |report| {
            report.remark("note: the first and the second are one and the same on the disk");
            Ok(())
        })?;
    }
    let work = |room: &mut Room, copies: Copies| copies.compare(&sharding, room);
    let tell =
        |summary: &mut Summary, outcome: &_, report: &mut Report| summary.tell(outcome, report);
    parts::round(
        workers,
        "compared",
        copies,
        Copies::weight,
        work,
        &mut summary,
        tell,
        report,
    )?;
    report.sum_up(&mut summary)
}

/// One path is that of a folder, the other is not, or leads nowhere.
fn unlike(paths: [&Path; 2]) -> Fault {
    for path in paths {
        if let Err(error) = fs::metadata(path) {
            return Fault::system(path, "read", error);
        }
    }
    Fault::wrong_use("one is a folder, the other is not")
}

/// The copies of one shard in two folders, or the two that were named.
struct Copies {
    name: OsString,
    sides: Sides,
}

/// On which sides there is a file.
enum Sides {
    Both([Input; 2]),
    Only(Side, Input),
}

/// All shards of either folder. The summary learns what else bears on the
/// answer.
fn folders(
    sharding: &Sharding,
    paths: [&Path; 2],
    summary: &mut Summary,
    report: &mut Report,
) -> Result<Vec<Copies>, Fault> {
    let mut union: BTreeMap<OsString, Sides> = BTreeMap::new();
    for (side, path) in Side::BOTH.into_iter().zip(paths) {
        let listing = list(sharding, path);
        // Of a folder that is not known to its end, nothing can be said to be
        // missing.
        if let Some(fault) = listing.broken {
            return Err(fault);
        }
        if listing.shards.is_empty() {
            summary.bare += 1;
            report.told(Place::Before, |report| {
                tell_no_shards(path, listing.others, report)
            })?;
        }
        summary.strays[side as usize] = listing.numbers(sharding).len() < listing.shards.len();
        for input in listing.shards {
            let name = one_name(sharding, &input.source);
            let sides = match union.remove(&name) {
                Some(Sides::Only(Side::First, first)) => Sides::Both([first, input]),
                _ => Sides::Only(side, input),
            };
            union.insert(name, sides);
        }
    }
    let copies = |(name, sides): (OsString, Sides)| Copies {
        name: sides.own_name().unwrap_or(name),
        sides,
    };
    Ok(union.into_iter().map(copies).collect())
}

/// The name under which a shard is looked for on the other side: that of its file
/// in the present edition, also of a pair; a file that has no shard's name keeps its
/// own.
fn one_name(sharding: &Sharding, source: &Source) -> OsString {
    let name = source.path.file_name().unwrap_or_default();
    let number = shard_number(sharding, name);
    match number.and_then(|number| sharding.shard_name(number).ok()) {
        Some(name) => name.into(),
        None => name.to_os_string(),
    }
}

impl Copies {
    /// Their name and their lengths, by which they are dealt to a part, and their change.
    fn weight(&self) -> (&Path, u64, u64) {
        let (lengths, changed) = match &self.sides {
            Sides::Both(inputs) => {
                let [first, second] = [0, 1].map(|side| inputs[side].source.length_and_change());
                (first.0 + second.0, both_changes(first.1, second.1))
            }
            Sides::Only(_, input) => input.source.length_and_change(),
        };
        (Path::new(&self.name), lengths, changed)
    }

    /// Whether both were named by files of one pair.
    fn are_one_pair(&self) -> bool {
        matches!(&self.sides, Sides::Both([first, second]) if first.source == second.source)
    }
}

impl Sides {
    /// The name of its file, where that is one and the same.
    fn own_name(&self) -> Option<OsString> {
        let name = |input: &Input| Some(input.source.path.file_name()?.to_os_string());
        match self {
            Sides::Only(_, input) => name(input),
            Sides::Both([first, second]) => {
                name(first).filter(|own| name(second).as_ref() == Some(own))
            }
        }
    }
}

/// Two files, which must be copies of one shard.
fn files(args: &Args, sharding: &Sharding, paths: [&Path; 2]) -> Result<Copies, Fault> {
    let sides = paths.map(|path| single(args, sharding, path));
    let name = match (&sides[0].number, &sides[1].number) {
        (Ok(first), Ok(second)) if first != second => {
            return Err(Fault::wrong_use(format!(
                "these are shards {first} and {second}; copies of one shard can be compared"
            )))
        }
        (Ok(number), _) | (_, Ok(number)) => sharding.shard_name(*number).ok(),
        _ => None,
    };
    let first = paths[0].file_name().unwrap_or_default();
    Ok(Copies {
        name: name.map_or_else(|| first.to_os_string(), OsString::from),
        sides: Sides::Both(sides),
    })
}

/// What came of two copies.
enum Comparison {
    Same,
    /// The first difference, where there was memory to look for it.
    Different(Option<Difference>),
    /// Only this side has the shard; it is sound and lists so many chunks.
    Only(Side, u64),
    /// Refused, not read, misnamed.
    Unknown(Vec<Unread>),
}

/// A file that could not be compared.
struct Unread {
    side: Side,
    fault: Fault,
    /// Whether the other side has no file of the name.
    only: bool,
}

impl Copies {
    fn compare(self, sharding: &Sharding, room: &mut Room) -> Outcome<Comparison> {
        let mut read = 0;
        let answer = match self.sides {
            Sides::Both(inputs) => match [&inputs[0].number, &inputs[1].number] {
                [&Ok(number), Ok(_)] => {
                    let sources = inputs.map(|input| input.source);
                    read = sources.iter().map(Source::length_to_read).sum();
                    Task {
                        sharding: *sharding,
                        number,
                        sources,
                    }
                    .compare(room)
                }
                _ => Comparison::unknown(inputs.map(|input| input.number.err())),
            },
            Sides::Only(side, Input { source, number }) => {
                read = source.length_to_read();
                let check = |number| {
                    let check = |room: &mut Room| judge::check(sharding, number, &source, room);
                    room.attempt(check, judge::lacks_memory)
                };
                match number.and_then(check) {
                    Ok(chunks) => Comparison::Only(side, chunks),
                    Err(fault) => {
                        let only = true;
                        Comparison::Unknown(vec![Unread { side, fault, only }])
                    }
                }
            }
        };
        Outcome {
            path: self.name.into(),
            refused: answer.any(Fault::is_refused),
            answer,
            read,
        }
    }
}

impl Comparison {
    /// What kept the sides from being compared.
    fn unknown(faults: [Option<Fault>; 2]) -> Self {
        let unread = Side::BOTH.into_iter().zip(faults);
        let unread = unread.filter_map(|(side, fault)| {
            let (fault, only) = (fault?, false);
            Some(Unread { side, fault, only })
        });
        Comparison::Unknown(unread.collect())
    }

    fn any(&self, test: fn(&Fault) -> bool) -> bool {
        matches!(self, Comparison::Unknown(unread) if unread.iter().any(|one| test(&one.fault)))
    }
}

impl Unread {
    /// The beginning of its object in JSON.
    fn object(&self, name: &Path) -> Object {
        let object = Object::new().path(name).text("side", self.side.name());
        match self.only && !self.fault.is_misnamed() {
            true => object.text("missing_in", self.side.other().name()),
            false => object,
        }
    }

    /// Why it could not be compared.
    fn tell(&self, name: &Path, report: &mut Report) -> Result<(), Fault> {
        let object = self.object(name);
        let Fault::Refused(refused) = &self.fault else {
            return report.tell(object, &self.fault, Where::Answer);
        };
        let (name, side) = (shown(name), self.side.name());
        let only = if self.only { "only " } else { "" };
        let subject = format_args!("{name}: {only}in the {side}");
        let fault = Fault::refused(subject, refused.refusal, refused.diagnosis.clone());
        report.tell(object, &fault, Where::Answer)
    }
}

/// Two copies of one shard.
struct Task {
    sharding: Sharding,
    number: u64,
    sources: [Source; 2],
}

impl Task {
    fn compare(&self, room: &mut Room) -> Comparison {
        let lacks_memory = |answer: &Comparison| answer.any(Fault::lacks_memory);
        room.attempt(|room| self.try_compare(room), lacks_memory)
    }

    /// Compares the settled forms. The second copy takes the first one's
    /// place in memory.
    fn try_compare(&self, room: &mut Room) -> Comparison {
        let [first, second] = [0, 1].map(|side| self.sources[side].length_to_read());
        let mut lengths = [first.max(second), first, second];
        loop {
            room.wait_for(lengths);
            let settled = Side::BOTH.map(|side| self.settle(room, side, &mut lengths));
            match settled {
                [Ok(Some(first)), Ok(Some(second))] => return self.judge(room, [first, second]),
                [Ok(_), Ok(_)] => {}
                settled => return Comparison::unknown(settled.map(Result::err)),
            }
        }
    }

    /// Settles the copy of one side and gives the form's length. `None` where
    /// others hold the memory for it; `lengths` says then how much it takes.
    fn settle(
        &self,
        room: &mut Room,
        side: Side,
        lengths: &mut Lengths,
    ) -> Result<Option<usize>, Fault> {
        let source = &self.sources[side as usize];
        room.file.read(source)?;
        let bytes = room.file.bytes();
        let length = judge::ask(&self.sharding, self.number, source, bytes, |shard| {
            shard.settled_length(Unlisted::Drop)
        })?;
        let wanted = &mut lengths[1 + side as usize];
        *wanted = length.max(*wanted);
        if !room.may_have(*lengths) {
            return Ok(None);
        }
        let buffer = match side {
            Side::First => &mut room.form,
            Side::Second => &mut room.other,
        };
        let form = front(buffer, length as usize)
            .map_err(|error| Fault::system(&source.path, "settled", error))?;
        let bytes = room.file.bytes();
        let settled = judge::ask(&self.sharding, self.number, source, bytes, |shard| {
            shard.settle(Unlisted::Drop, form)
        });
        settled.map(Some)
    }

    /// The answer over two settled forms of these lengths.
    fn judge(&self, room: &mut Room, [first, second]: [usize; 2]) -> Comparison {
        let forms = [&room.form[..first], &room.other[..second]];
        if forms[0] == forms[1] {
            return Comparison::Same;
        }
        // The listings take the place of the file.
        room.file = Loaded::default();
        Comparison::Different(first_difference(&self.sharding, self.number, forms))
    }
}

/// Counts over all shards.
#[derive(Clone, Default)]
pub struct Summary {
    /// Whether chunks have fragments, which are compared too.
    mesh: bool,
    same: u64,
    different: u64,
    refused: u64,
    /// Shards that list chunks on the other side.
    missing: [u64; 2],
    /// Shards that only one side has and that list no chunk.
    empty: u64,
    not_read: u64,
    misnamed: u64,
    /// Shards of which half a pair is missing on a side, or which have both editions
    /// there.
    unclear: u64,
    /// Which folders have a file that has the name of no shard. It may be any
    /// shard that is missing there.
    strays: [bool; 2],
    /// Folders without shards. They may be no deposits.
    bare: u64,
}

impl Summary {
    fn tell(&mut self, outcome: &Outcome<Comparison>, report: &mut Report) -> Result<(), Fault> {
        let name = &outcome.path;
        match &outcome.answer {
            Comparison::Same => {
                self.same += 1;
                say(name, "same", |object| object.text("result", "same"), report)
            }
            Comparison::Different(difference) => {
                self.different += 1;
                report.note(Status::No);
                tell_different(name, difference.as_ref(), report)
            }
            Comparison::Only(side, 0) => {
                self.empty += 1;
                tell_only(name, *side, 0, report)
            }
            Comparison::Only(side, chunks) => {
                self.missing[side.other() as usize] += 1;
                report.note(Status::No);
                tell_only(name, *side, *chunks, report)
            }
            Comparison::Unknown(unread) => {
                self.count_unread(unread);
                unread.iter().try_for_each(|one| one.tell(name, report))
            }
        }
    }

    /// A shard counts once, by the worst that came of its copies.
    fn count_unread(&mut self, unread: &[Unread]) {
        let all = |test: fn(&Fault) -> bool| unread.iter().all(|one| test(&one.fault));
        if all(Fault::is_misnamed) {
            self.misnamed += 1;
        } else if all(Fault::is_refused) {
            self.refused += 1;
        } else if all(Fault::is_unclear) {
            self.unclear += 1;
        } else {
            self.not_read += 1;
        }
    }
}

impl Counts for Summary {
    fn each(&mut self, visit: Visit) {
        show_flag(visit, "mesh", &mut self.mesh);
        show(visit, "same", Way::Added, &mut self.same);
        show(visit, "different", Way::Added, &mut self.different);
        show(visit, "refused", Way::Added, &mut self.refused);
        let ([first, second], strays) = (&mut self.missing, &mut self.strays);
        show(visit, "missing in first", Way::Added, first);
        show(visit, "missing in second", Way::Added, second);
        show(visit, "empty", Way::Added, &mut self.empty);
        show(visit, "not read", Way::Added, &mut self.not_read);
        show(visit, "misnamed", Way::Added, &mut self.misnamed);
        show(visit, "unclear", Way::Added, &mut self.unclear);
        show_flag(visit, "strays in first", &mut strays[0]);
        show_flag(visit, "strays in second", &mut strays[1]);
        show(visit, "folders without shards", Way::Shared, &mut self.bare);
    }

    /// The answer for the two as a whole, in one sentence.
    fn print(&self, report: &mut Report) -> Result<(), Fault> {
        let (answer, sentence) = self.sentence();
        if !report.json() {
            return report.line(sentence);
        }
        report.object(
            Object::new()
                .text("result", "summary")
                .text("answer", answer)
                .number("same", self.same)
                .number("different", self.different)
                .number("refused", self.refused)
                .number("missing_in_first", self.missing[0])
                .number("missing_in_second", self.missing[1])
                .number("empty_on_one_side", self.empty)
                .number("not_read", self.not_read)
                .number("misnamed", self.misnamed)
                .number("unclear", self.unclear)
                .number("folders_without_shards", self.bare)
                .text("sentence", &sentence),
        )
    }
}

impl Summary {
    /// The answer in a word and in a sentence.
    fn sentence(&self) -> (&'static str, String) {
        let (answer, beginning) = if self.differs() {
            ("different", "The two do not hold the same")
        } else if self.is_unknown() {
            ("unknown", "It is not known whether the two hold the same")
        } else {
            return ("same", self.sentence_of_same());
        };
        let bare = match self.bare {
            0 => String::new(),
            bare => format!(", {} without shards", counted(bare, "folder")),
        };
        let [first, second] = self.missing;
        let sentence = format!(
            "{beginning} {}: {} same, {} different, {} refused, {first} missing in the first, \
             {second} missing in the second{}{}{}{}{bare}.",
            self.what(),
            counted(self.same, "shard"),
            self.different,
            self.refused,
            and(self.empty, "on one side only without chunks"),
            and(self.not_read, "not read"),
            and(self.misnamed, "misnamed"),
            and(self.unclear, "unclear by their files"),
        );
        (answer, sentence)
    }

    /// Whether one side surely lists a chunk that the other does not list with
    /// the same bytes.
    fn differs(&self) -> bool {
        let lacks = |side: Side| self.missing[side as usize] > 0 && !self.strays[side as usize];
        self.different > 0 || Side::BOTH.into_iter().any(lacks)
    }

    /// Whether something was left unjudged.
    fn is_unknown(&self) -> bool {
        let [first, second] = self.missing;
        let unjudged = self.refused + self.not_read + self.misnamed + self.unclear + self.bare;
        unjudged + first + second > 0
    }

    fn sentence_of_same(&self) -> String {
        let empty = match self.empty {
            0 => String::new(),
            empty => format!("; shards on one side only that list no chunk: {empty}"),
        };
        let (what, shards) = (self.what(), counted(self.same, "shard"));
        format!("The two hold the same {what}: {shards} compared, all the same{empty}.")
    }

    /// What was compared.
    fn what(&self) -> &'static str {
        match self.mesh {
            false => "chunks",
            true => "chunks and fragments",
        }
    }
}

/// A shard's answer: a line, or an object with these members.
fn say(
    name: &Path,
    line: &str,
    members: impl FnOnce(Object) -> Object,
    report: &mut Report,
) -> Result<(), Fault> {
    if report.json() {
        report.object(members(Object::new().path(name)))
    } else {
        report.line(format_args!("{}: {line}", shown(name)))
    }
}

fn tell_different(
    name: &Path,
    difference: Option<&Difference>,
    report: &mut Report,
) -> Result<(), Fault> {
    let Some(difference) = difference else {
        let line = "different; there is no memory to look for the first id";
        let members = |object: Object| {
            let object = object.text("result", "different");
            object.text("error", "no memory to look for the first id")
        };
        return say(name, line, members, report);
    };
    let members = |object: Object| {
        let object = object.text("result", "different");
        let object = object.number("id", difference.id);
        match difference.kind {
            Kind::OnlyIn(side) => object.text("only_in", side.name()),
            Kind::Bytes { at, lengths } => object
                .number("first_difference", at as u64)
                .numbers("lengths", lengths.map(|length| length as u64)),
            Kind::Fragment { level, node, at } => object
                .number("level", level)
                .number("node", node)
                .number("first_difference", at as u64),
        }
    };
    say(name, &format!("different: {difference}"), members, report)
}

/// A sound shard that one side has and the other has not.
fn tell_only(name: &Path, side: Side, chunks: u64, report: &mut Report) -> Result<(), Fault> {
    let (result, what) = match chunks {
        0 => ("empty", ", lists no chunk".to_string()),
        _ => ("missing", format!(": {}", counted(chunks, "chunk"))),
    };
    let line = format!("only in the {}{what}", side.name());
    let members = |object: Object| {
        object
            .text("result", result)
            .text("missing_in", side.other().name())
            .number("chunks", chunks)
    };
    say(name, &line, members, report)
}

#[cfg(test)]
mod tests {
    use super::*;
    use crate::memory::Gate;
    use crate::trial::{twice_listed, Crowd, Folder, TWO_MINISHARDS};

    #[test]
    fn forms_that_are_longer_than_their_files_wait_for_memory() {
        let folder = Folder::new("same-waits");
        let file = twice_listed(1000);
        let paths = ["a", "b"].map(|name| folder.write(name, &file));
        let copies = || Copies {
            name: "0.shard".into(),
            sides: Sides::Both(paths.clone().map(|path| Input {
                source: Source::file(&path),
                number: Ok(0),
            })),
        };
        let file = file.len() as u64;
        let form = 32 + 2 * (1000 + 24);
        // Two shards fit by the lengths of their files, but not with their
        // forms.
        let gate = Gate::new(2 * (file + form + form) - 1);
        assert!(2 * 3 * file < 2 * (file + form + form) - 1);
        let work = |room: &mut Room, copies: Copies| {
            let outcome = copies.compare(&TWO_MINISHARDS, room);
            matches!(outcome.answer, Comparison::Same)
        };
        let jobs = (0..100).map(|_| copies()).collect();
        assert_eq!(Crowd::default().run(jobs, &gate, work), vec![true; 100]);
    }

    fn sentence(summary: Summary) -> String {
        summary.sentence().1
    }

    #[test]
    fn the_answer_for_the_whole() {
        let same = || Summary {
            same: 12,
            ..Summary::default()
        };
        assert_eq!(
            sentence(same()),
            "The two hold the same chunks: 12 shards compared, all the same."
        );
        let of_mesh = |summary| {
            sentence(Summary {
                mesh: true,
                ..summary
            })
        };
        assert_eq!(
            of_mesh(same()),
            "The two hold the same chunks and fragments: 12 shards compared, all the same."
        );
        let beginning =
            "The two do not hold the same chunks and fragments: 12 shards same, 1 different,";
        let different = Summary {
            different: 1,
            ..same()
        };
        assert!(of_mesh(different).starts_with(beginning));
        assert_eq!(
            sentence(Summary {
                same: 10,
                different: 1,
                refused: 1,
                ..Summary::default()
            }),
            "The two do not hold the same chunks: 10 shards same, 1 different, 1 refused, \
             0 missing in the first, 0 missing in the second."
        );
        assert_eq!(
            sentence(Summary {
                missing: [0, 1],
                misnamed: 2,
                ..same()
            }),
            "The two do not hold the same chunks: 12 shards same, 0 different, 0 refused, \
             0 missing in the first, 1 missing in the second, 2 misnamed."
        );
        let unknown = "It is not known whether the two hold the same chunks: 12 shards same, \
                       0 different,";
        assert_eq!(
            sentence(Summary {
                refused: 1,
                ..same()
            }),
            format!("{unknown} 1 refused, 0 missing in the first, 0 missing in the second.")
        );
        assert_eq!(
            sentence(Summary {
                not_read: 3,
                ..same()
            }),
            format!(
                "{unknown} 0 refused, 0 missing in the first, 0 missing in the second, \
                 3 not read."
            )
        );
        assert!(sentence(Summary {
            misnamed: 1,
            ..same()
        })
        .starts_with(unknown));
    }

    /// The answer for these counts; strays only where a name is no shard's.
    fn answer(summary: &Summary) -> &'static str {
        summary.sentence().0
    }

    #[test]
    fn what_is_missing_is_different_unless_it_may_be_there_under_another_name() {
        let missing = |missing, strays| Summary {
            same: 3,
            missing,
            strays,
            misnamed: u64::from(strays[0]) + u64::from(strays[1]),
            ..Summary::default()
        };
        for (counts, strays, expected) in [
            ([0, 1], [false, false], "different"),
            ([1, 0], [false, false], "different"),
            ([0, 1], [true, false], "different"),
            ([1, 0], [false, true], "different"),
            ([0, 1], [false, true], "unknown"),
            ([1, 0], [true, false], "unknown"),
            ([1, 1], [true, false], "different"),
            ([1, 1], [true, true], "unknown"),
            ([0, 0], [true, true], "unknown"),
            ([0, 0], [false, false], "same"),
        ] {
            let summary = missing(counts, strays);
            assert_eq!(answer(&summary), expected, "{counts:?} {strays:?}");
            // A shard that differs decides, whatever else there is.
            let summary = Summary {
                different: 1,
                ..summary
            };
            assert_eq!(answer(&summary), "different");
        }
    }

    #[test]
    fn what_lists_no_chunk_decides_nothing() {
        let empty = || Summary {
            empty: 2,
            ..Summary::default()
        };
        assert_eq!(answer(&empty()), "same");
        assert_eq!(
            answer(&Summary {
                refused: 1,
                ..empty()
            }),
            "unknown"
        );
        assert_eq!(answer(&Summary { bare: 1, ..empty() }), "unknown");
        assert_eq!(
            answer(&Summary {
                missing: [1, 0],
                ..empty()
            }),
            "different"
        );
    }
}
