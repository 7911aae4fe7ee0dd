//! A report: the answers of one part as JSON objects, one a line, from which the
//! answers of a whole run are made again, in plain lines and in JSON.
//!
//! The first line says what the answers rest on. Then come the objects that `--json`
//! prints, each with its place among all shards behind its own members, and with the
//! plain lines and the complaints that say the same. The last line has the counts, the
//! status and a checksum of all before it, so that a report cut short is none.

use std::ops::Range;
use std::path::Path;

use crate::fault::Status;
use crate::json::{self, Object, Value};
use crate::part::{self, Part};

/// Where an answer stands in a run.
#[derive(Clone, Copy, Debug, PartialEq, Eq, PartialOrd, Ord)]
pub enum Place {
    /// Before all shards: of the folders.
    Before,
    /// At the place of a shard among all, from 0.
    Shard(usize),
    /// Behind all shards: of the folders.
    After,
}

/// What is told on the two outputs.
#[derive(Clone, Debug, Default, PartialEq, Eq)]
pub struct Told {
    /// Answers.
    pub lines: Vec<String>,
    /// Complaints.
    pub complaints: Vec<String>,
}

impl Told {
    fn is_empty(&self) -> bool {
        self.lines.is_empty() && self.complaints.is_empty()
    }
}

/// How a count of the whole follows from those of its parts.
#[derive(Clone, Copy, Debug, PartialEq, Eq)]
pub enum Way {
    /// They are added up.
    Added,
    /// They are the same in all parts.
    Shared,
}

/// Who is shown each count by its name, and may set it.
pub type Visit<'a> = &'a mut dyn FnMut(&str, Way, &mut u128);

/// Shows a count.
pub fn show(visit: Visit, name: &str, way: Way, count: &mut u64) {
    let mut wide = u128::from(*count);
    visit(name, way, &mut wide);
    *count = u64::try_from(wide).unwrap_or(u64::MAX);
}

/// Shows what is true or not, which all parts share.
pub fn show_flag(visit: Visit, name: &str, flag: &mut bool) {
    let mut wide = u128::from(*flag);
    visit(name, Way::Shared, &mut wide);
    *flag = wide > 0;
}

/// The 64-bit FNV-1a sum of bytes. It is for accidents: a changed folder, a damaged
/// report.
#[derive(Clone, Copy, Debug)]
pub struct Checksum(u64);

impl Checksum {
    /// The sum of no bytes.
    pub fn new() -> Self {
        Checksum(0xcbf2_9ce4_8422_2325)
    }

    /// Goes on with more bytes.
    pub fn add(&mut self, bytes: &[u8]) {
        for byte in bytes {
            self.0 = (self.0 ^ u64::from(*byte)).wrapping_mul(0x100_0000_01b3);
        }
    }

    /// As a number.
    pub fn number(&self) -> u64 {
        self.0
    }

    /// Its 16 hexadecimal digits.
    pub fn text(&self) -> String {
        format!("{:016x}", self.0)
    }
}

/// A report that is being made.
pub struct Record {
    head: Object,
    /// Whether it is of the folders alone, and no shard is read.
    pub only_lists: bool,
    /// How many shards there are in all parts, and the checksum of their names, lengths
    /// and times of change.
    shards: u64,
    listing: String,
    lines: String,
    /// How many shards were told.
    pub told_shards: u64,
    counts: Vec<String>,
    /// The counts that all parts share.
    pub shared: Vec<(String, u128)>,
    /// What is being told.
    pub told: Told,
}

impl Record {
    /// A report without answers.
    pub fn new(head: Object) -> Self {
        Record {
            head,
            only_lists: false,
            shards: 0,
            listing: Checksum::new().text(),
            lines: String::new(),
            told_shards: 0,
            counts: Vec::new(),
            shared: Vec::new(),
            told: Told::default(),
        }
    }

    /// The same of the folders alone.
    pub fn of_folders(head: Object) -> Self {
        Record {
            only_lists: true,
            ..Record::new(head)
        }
    }

    /// Learns which shards there are.
    pub fn listed(&mut self, shards: u64, listing: &str) {
        self.shards = shards;
        self.listing = listing.into();
    }

    /// Notes an answer, as objects and as plain lines.
    pub fn add(&mut self, place: Place, objects: &Told, plain: &Told) {
        let begun = match place {
            Place::Before => Object::new().text("place", "before"),
            Place::Shard(place) => Object::new().number("place", place as u64),
            Place::After => Object::new().text("place", "after"),
        };
        match place {
            Place::Shard(_) => self.told_shards += 1,
            _ if objects.is_empty() && plain.is_empty() => return,
            _ => {}
        }
        let mut last = begun.clone();
        if !plain.lines.is_empty() {
            last = last.texts("lines", plain.lines.iter().map(String::as_str));
        }
        if !plain.complaints.is_empty() {
            last = last.texts("complaints", plain.complaints.iter().map(String::as_str));
        }
        if !objects.complaints.is_empty() {
            let complaints = objects.complaints.iter().map(String::as_str);
            last = last.texts("json_complaints", complaints);
        }
        match objects.lines.split_last() {
            None => self.line(&last.finish()),
            Some((object, before)) => {
                for object in before {
                    self.line(&behind(object, begun.clone()));
                }
                self.line(&behind(object, last));
            }
        }
    }

    fn line(&mut self, line: &str) {
        self.lines.push_str(line);
        self.lines.push('\n');
    }

    /// Notes the counts, which `each` shows.
    pub fn count(&mut self, each: impl FnOnce(Visit)) {
        let (counts, shared) = (&mut self.counts, &mut self.shared);
        each(&mut |name, way, count| {
            counts.push(format!("{name} {count}"));
            if way == Way::Shared {
                shared.push((name.into(), *count));
            }
        });
    }

    /// The report as text.
    pub fn text(self, part: Part, status: Status, misused: bool) -> String {
        let head = self.head.number("shards", self.shards);
        let head = head.text("listing", &self.listing);
        let head = head.number("part", part.number).finish();
        let ended = Object::new()
            .text("result", "ended")
            .number("status", status as u8)
            .number("misused", u8::from(misused))
            .texts("counts", self.counts.iter().map(String::as_str));
        let mut text = self.lines;
        text.insert_str(0, &(head + "\n"));
        text.push_str(ended.finish().trim_end_matches('}'));
        let mut sum = Checksum::new();
        sum.add(text.as_bytes());
        let sum = Object::new().text("checksum", &sum.text()).finish();
        text + "," + &sum[1..] + "\n"
    }
}

/// The text of an object with more members behind its own.
fn behind(object: &str, members: Object) -> String {
    let object = object.strip_suffix('}').unwrap_or(object);
    format!("{object},{}", &members.finish()[1..])
}

/// A report that was read.
#[derive(Debug)]
pub struct Filed {
    /// The members of its first line.
    head: Vec<(String, Value)>,
    /// Which part it is of.
    pub part: u64,
    /// Of how many.
    pub parts: u64,
    /// How many shards there are in all parts.
    pub shards: u64,
    /// How many of them it tells of.
    pub told_shards: u64,
    /// Its text, and where its answers stand in it.
    text: String,
    answers: Range<usize>,
    counts: Vec<(String, u128)>,
    /// Its status.
    pub status: Status,
    /// Whether wrong use was complained of.
    pub misused: bool,
    /// The checksum of its text.
    pub checksum: String,
}

impl Filed {
    /// Whether bytes begin as a report of this head and part does.
    pub fn is_of(bytes: &[u8], head: &Object, part: Part) -> bool {
        let first = bytes.split(|byte| *byte == b'\n').next();
        let Some(first) = first.and_then(|line| str::from_utf8(line).ok()) else {
            return false;
        };
        let head = head.clone().finish();
        let begun = first.starts_with(head.trim_end_matches('}'));
        let part = format!(",\"part\":{}}}", part.number);
        begun && first.ends_with(&part) && json::members(first).is_some()
    }

    /// The report that these bytes are, or why they are none.
    pub fn read(bytes: Vec<u8>) -> Result<Filed, String> {
        const CUT: &str = "it is cut short";
        let text = String::from_utf8(bytes).map_err(|_| "it is not text")?;
        let lines = text.strip_suffix('\n').ok_or(CUT)?;
        let (before, last) = lines.rsplit_once('\n').ok_or(CUT)?;
        let ended = json::members(last).ok_or(CUT)?;
        if word(&ended, "result") != Some("ended") {
            return Err(CUT.into());
        }
        let summed = lines.rfind(",\"checksum\":").ok_or(CUT)?;
        let mut sum = Checksum::new();
        sum.add(&text.as_bytes()[..summed]);
        if word(&ended, "checksum") != Some(&sum.text()) {
            return Err("its checksum is that of other bytes".into());
        }
        let end = before.len();
        Filed::of(text, end, &ended).ok_or_else(|| "it is none of this program".into())
    }

    /// The report whose last line stands behind `end`.
    fn of(text: String, end: usize, ended: &[(String, Value)]) -> Option<Filed> {
        let before = &text[..end];
        let first = before.find('\n').unwrap_or(end);
        let head = json::members(&before[..first])?;
        if word(&head, "result") != Some("part") {
            return None;
        }
        let answers = end.min(first + 1)..end;
        let (mut told_shards, mut last) = (0, Place::Before);
        for line in before[answers.clone()].lines() {
            let place = Answer::read(line)?.place;
            if place < last {
                return None;
            }
            told_shards += u64::from(matches!(place, Place::Shard(_)) && place != last);
            last = place;
        }
        let number = |members, name| json::whole(json::member(members, name)?);
        let (part, parts) = (number(&head, "part")?, number(&head, "parts")?);
        if !(1..=parts).contains(&part) || parts > part::MOST {
            return None;
        }
        let counts = json::texts(json::member(ended, "counts")?)?;
        let count = |line: &String| {
            let (name, count) = line.rsplit_once(' ')?;
            Some((name.to_string(), count.parse().ok()?))
        };
        Some(Filed {
            part,
            parts,
            shards: number(&head, "shards")?,
            told_shards,
            status: Status::of(number(ended, "status")?)?,
            misused: number(ended, "misused")? > 0,
            checksum: word(ended, "checksum")?.into(),
            counts: counts.iter().map(count).collect::<Option<_>>()?,
            head,
            text,
            answers,
        })
    }

    /// The lines of its answers with their places, in the order of these. They are
    /// kept as they were read: a report may tell of a million shards.
    pub fn lines(&self) -> impl Iterator<Item = (Place, &str)> {
        let lines = self.text[self.answers.clone()].lines();
        lines.filter_map(|line| Some((place_of(line)?, line)))
    }

    /// In which point another report is not of the same run: a member of its first line
    /// but the part, or what is told of the folders.
    pub fn disagrees(&self, other: &Filed) -> Option<String> {
        let shared = |filed: &Filed| -> Vec<(String, Value)> {
            let members = filed.head.iter();
            let members = members.filter(|(name, _)| name != "part");
            members.cloned().collect()
        };
        let (own, others) = (shared(self), shared(other));
        if let Some(((name, _), _)) = own.iter().zip(&others).find(|(own, other)| own != other) {
            return Some(name.clone());
        }
        if own.len() != others.len() {
            return Some("the settings".into());
        }
        let of_folder = |(place, _): &(Place, &str)| !matches!(place, Place::Shard(_));
        let alike = self
            .lines()
            .filter(of_folder)
            .eq(other.lines().filter(of_folder));
        (!alike).then(|| "the folders".into())
    }

    /// Whether all files that the part wrote, or found written, pass a test of their paths
    /// and lengths.
    pub fn outputs_pass(&self, test: impl Fn((&Path, u64)) -> bool) -> bool {
        let (path, length) = match self.command() {
            "settle" => ("out", "settled_bytes"),
            "pack" => ("path", "bytes"),
            _ => return true,
        };
        let passes = |line: &str| {
            let members = json::members(line)?;
            let result = word(&members, "result")?;
            let written = ["settled", "packed", "already there"].contains(&result);
            let length = json::member(&members, length).and_then(json::whole);
            Some(!written || test((Path::new(word(&members, path)?), length?)))
        };
        self.lines()
            .all(|(place, line)| !matches!(place, Place::Shard(_)) || passes(line).unwrap_or(false))
    }

    /// The count of a name; 0 where it has none.
    pub fn count(&self, name: &str) -> u128 {
        let mut counts = self.counts.iter();
        let found = counts.find(|(there, _)| there == name);
        found.map_or(0, |(_, count)| *count)
    }

    /// Whether it has counts: a run that met no shard may print none.
    pub fn has_counts(&self) -> bool {
        !self.counts.is_empty()
    }

    /// The command.
    pub fn command(&self) -> &str {
        word(&self.head, "command").unwrap_or_default()
    }
}

/// A line of a report that is an answer.
pub struct Answer {
    place: Place,
    objects: Told,
    plain: Told,
}

/// What begins the members that a report puts behind an object's own. Within a text of
/// JSON no quotation mark stands without a backslash before it, so this is met first
/// where it is no text.
const MARK: &str = "\"place\":";

/// The object of a line, where it has one, and the members behind it.
fn split(line: &str) -> Option<(Option<&str>, &str)> {
    if line.strip_prefix('{')?.starts_with(MARK) {
        return Some((None, &line[1..]));
    }
    let mark = line.find(&format!(",{MARK}"))?;
    Some((Some(&line[..mark]), &line[mark + 1..]))
}

/// The place of a line.
fn place_of(line: &str) -> Option<Place> {
    let (_, members) = split(line)?;
    let end = members.find([',', '}'])?;
    match members[..end].strip_prefix(MARK)? {
        "\"before\"" => Some(Place::Before),
        "\"after\"" => Some(Place::After),
        number => number.parse().ok().map(Place::Shard),
    }
}

impl Answer {
    /// The answer that a line is.
    pub fn read(line: &str) -> Option<Answer> {
        let (object, members) = split(line)?;
        let members = json::members(&format!("{{{members}"))?;
        let texts = |name| match json::member(&members, name) {
            None => Some(Vec::new()),
            Some(value) => json::texts(value),
        };
        let object = object.map(|object| format!("{object}}}"));
        Some(Answer {
            place: place_of(line)?,
            objects: Told {
                lines: object.into_iter().collect(),
                complaints: texts("json_complaints")?,
            },
            plain: Told {
                lines: texts("lines")?,
                complaints: texts("complaints")?,
            },
        })
    }

    /// The answer in one of its two forms.
    pub fn form(self, json: bool) -> Told {
        match json {
            true => self.objects,
            false => self.plain,
        }
    }
}

/// A member that is text.
fn word<'a>(members: &'a [(String, Value)], name: &str) -> Option<&'a str> {
    match json::member(members, name)? {
        Value::Text(text) => Some(text),
        _ => None,
    }
}

#[cfg(test)]
mod tests {
    use super::*;

    const HEAD: &str = r#"{"result":"part","command":"check","parts":3,"shards":2,"part":1}"#;
    const ENDED: &str = r#"{"result":"ended","status":0,"misused":0,"counts":["sound 2"]"#;

    /// A report of these lines, with a checksum that is right.
    fn read(head: &str, answers: &str, ended: &str) -> Result<Filed, String> {
        let text = format!("{head}\n{answers}{ended}");
        let mut sum = Checksum::new();
        sum.add(text.as_bytes());
        Filed::read(format!("{text},\"checksum\":\"{}\"}}\n", sum.text()).into_bytes())
    }

    #[test]
    fn a_report_is_read() {
        let answers = "{\"place\":\"before\",\"lines\":[\"a\"]}\n\
                       {\"path\":\",\\\"place\\\":9\",\"place\":4}\n\
                       {\"result\":\"x\",\"place\":4,\"complaints\":[\"b\",\"c\"]}\n";
        let filed = read(HEAD, answers, ENDED).unwrap();
        assert_eq!((filed.part, filed.parts, filed.shards), (1, 3, 2));
        assert_eq!((filed.told_shards, filed.count("sound")), (1, 2));
        let places: Vec<Place> = filed.lines().map(|(place, _)| place).collect();
        assert_eq!(places, [Place::Before, Place::Shard(4), Place::Shard(4)]);
        let (_, last) = filed.lines().last().unwrap();
        let told = |json| Answer::read(last).unwrap().form(json);
        assert_eq!(told(true).lines, ["{\"result\":\"x\"}"]);
        assert_eq!(told(false).complaints, ["b", "c"]);
        assert!(read(HEAD, "", ENDED).is_ok());
    }

    // Whoever can make the checksum can make any report, but none that does harm.
    #[test]
    fn what_this_program_does_not_write_is_refused() {
        for head in [
            "",
            "{}",
            &HEAD.replace("\"part\":1", "\"part\":0"),
            &HEAD.replace("\"part\":1", "\"part\":4"),
            &HEAD.replace("\"parts\":3", "\"parts\":1000001"),
            &HEAD.replace("\"shards\":2", "\"shards\":-2"),
            &HEAD.replace("\"shards\":2", "\"shards\":[2]"),
            &HEAD.replace("\"result\":\"part\"", "\"result\":\"parts\""),
        ] {
            assert!(read(head, "", ENDED).is_err(), "{head}");
        }
        for answers in [
            "\n\n",
            "{}\n",
            "{\"place\":-1}\n",
            "{\"place\":\"here\"}\n",
            "{\"place\":18446744073709551616}\n",
            "{\"place\":1,\"lines\":[1]}\n",
            "{\"place\":1}\n{\"place\":0}\n",
            "{\"place\":\"after\"}\n{\"place\":0}\n",
            &format!("{{\"place\":1,\"lines\":{}\n", "[".repeat(1 << 20)),
        ] {
            assert!(read(HEAD, answers, ENDED).is_err(), "{answers:.60}");
        }
        for ended in [
            &ENDED.replace("\"status\":0", "\"status\":4"),
            &ENDED.replace("sound 2", "sound -2"),
            &ENDED.replace("ended", "part"),
        ] {
            assert!(read(HEAD, "", ended).is_err(), "{ended}");
        }
    }
}
