//! What the program says: answers on standard output, complaints on standard
//! error.

use std::fmt;
use std::io::{self, BufWriter, Write};

use crate::diagnosis::words::Diagnosis;
use crate::fault::{Fault, Refused, Status, Subject};
use crate::json::Object;
use crate::part::Part;
use crate::record::{Filed, Place, Record, Visit, Way};

/// Bytes of answers that are kept before they are written.
const BUFFER_BYTES: usize = 1 << 16;

/// Where a no of the library or of the names is told in plain lines.
#[derive(Clone, Copy, Debug, PartialEq, Eq)]
pub enum Where {
    /// It is the answer, and stands on standard output.
    Answer,
    /// `refused N` stands in the answer's place, and the rest on standard error.
    Word,
    /// It keeps an answer away, and stands on standard error.
    Aside,
}

/// The counts of a command over many shards.
pub trait Counts {
    /// Shows each of them, always the same ones in the same order.
    fn each(&mut self, visit: Visit);

    /// Prints the last lines of the command's answer.
    fn print(&self, report: &mut Report) -> Result<(), Fault>;

    /// Adds the counts of a part.
    fn add_part(&mut self, part: &Filed) {
        self.each(&mut |name, way, count| {
            let of_part = part.count(name);
            *count = match way {
                Way::Added => count.saturating_add(of_part),
                Way::Shared => of_part,
            };
        });
    }
}

/// The answers of one run and the worst status so far.
pub struct Report {
    json: bool,
    worst: Status,
    misused: bool,
    out: BufWriter<Box<dyn Write>>,
    err: Box<dyn Write>,
    /// The part that is asked for.
    part: Option<Part>,
    /// Where answers are kept instead of being printed.
    record: Option<Record>,
}

impl Report {
    /// A report in plain lines, or in JSON objects.
    pub fn new(json: bool) -> Self {
        Report::to(json, Box::new(io::stdout()), Box::new(io::stderr()))
    }

    /// The same with these outputs in place of the standard ones.
    pub fn to(json: bool, out: Box<dyn Write>, err: Box<dyn Write>) -> Self {
        Report {
            json,
            worst: Status::Yes,
            misused: false,
            out: BufWriter::with_capacity(BUFFER_BYTES, out),
            err,
            part: None,
            record: None,
        }
    }

    /// The part that is asked for.
    pub fn part(&self) -> Option<Part> {
        self.part
    }

    /// Learns which part is asked for.
    pub fn take_part(&mut self, part: Option<Part>) {
        self.part = part;
    }

    /// From here on answers are kept.
    pub fn begin(&mut self, record: Record) {
        self.record = Some(record);
    }

    /// From here on they are printed again.
    pub fn end(&mut self) -> Record {
        self.record.take().expect("a record was begun")
    }

    /// Whether folders are listed, and no shard is read.
    pub fn only_lists(&self) -> bool {
        let record = self.record.as_ref();
        record.is_some_and(|record| record.only_lists)
    }

    /// Learns which shards there are in all parts.
    pub fn listed(&mut self, shards: u64, listing: &str) {
        if let Some(record) = &mut self.record {
            record.listed(shards, listing);
        }
    }

    /// Tells an answer; where answers are kept, in both forms.
    pub fn told(
        &mut self,
        place: Place,
        mut tell: impl FnMut(&mut Report) -> Result<(), Fault>,
    ) -> Result<(), Fault> {
        if self.record.is_none() {
            return tell(self);
        }
        let asked = self.json;
        let [objects, plain] = [true, false].map(|json| {
            self.json = json;
            let ended = tell(self);
            let told = self.record.as_mut().map(|record| &mut record.told);
            ended.map(|()| told.map(std::mem::take).unwrap_or_default())
        });
        self.json = asked;
        let (objects, plain) = (objects?, plain?);
        if let Some(record) = &mut self.record {
            record.add(place, &objects, &plain);
        }
        Ok(())
    }

    /// Prints the counts of a run as its last lines, or keeps them.
    pub fn sum_up(&mut self, counts: &mut impl Counts) -> Result<(), Fault> {
        match &mut self.record {
            Some(record) => {
                record.count(|visit| counts.each(visit));
                Ok(())
            }
            None => counts.print(self),
        }
    }

    /// A line beside the answers, on standard error.
    pub fn remark(&mut self, text: impl fmt::Display) {
        match &mut self.record {
            Some(record) => record.told.complaints.push(text.to_string()),
            // Where standard error is closed, nobody wants to know.
            None => drop(writeln!(self.err, "{text}")),
        }
    }

    /// Whether answers are JSON objects.
    pub fn json(&self) -> bool {
        self.json
    }

    /// The worst status so far.
    pub fn worst(&self) -> Status {
        self.worst
    }

    /// Whether wrong use was complained of.
    pub fn misused(&self) -> bool {
        self.misused
    }

    /// Counts a status.
    pub fn note(&mut self, status: Status) {
        self.worst = self.worst.max(status);
    }

    /// From here on it is as if nothing had been met.
    pub fn forget(&mut self) {
        (self.worst, self.misused) = (Status::Yes, false);
    }

    /// A plain line of the answer.
    pub fn line(&mut self, text: impl fmt::Display) -> Result<(), Fault> {
        if let Some(record) = &mut self.record {
            record.told.lines.push(text.to_string());
            return Ok(());
        }
        writeln!(self.out, "{text}").map_err(unwritten)
    }

    /// A JSON line of the answer.
    pub fn object(&mut self, object: Object) -> Result<(), Fault> {
        self.line(object.finish())
    }

    /// Bytes of the answer, as they are.
    pub fn bytes(&mut self, bytes: &[u8]) -> Result<(), Fault> {
        self.out.write_all(bytes).map_err(unwritten)
    }

    /// Writes out all answers so far.
    pub fn flush(&mut self) -> Result<(), Fault> {
        self.out.flush().map_err(unwritten)
    }

    /// Tells a fault. With --json `object`, which begins with the input or the question,
    /// gets its members, so that each of them has an object. Plain, a no goes where
    /// `place` says, and all else to standard error.
    pub fn tell(&mut self, object: Object, fault: &Fault, place: Where) -> Result<(), Fault> {
        if self.json {
            match fault.is_misuse() {
                true => self.complain_aside(fault)?,
                false => self.note(fault.status()),
            }
            return self.object(fault_members(object, fault));
        }
        match (place, fault) {
            (Where::Answer, fault) if fault.status() == Status::No => {
                self.note(Status::No);
                return self.line(fault);
            }
            (Where::Word, Fault::Refused(refused)) => {
                self.line(format_args!("refused {}", refused.refusal.number))?;
            }
            _ => {}
        }
        self.complain_aside(fault)
    }

    /// A fault that kept an answer from being given. With --json a refusal and a system
    /// error are objects among the answers; all else goes to standard error.
    pub fn complain(&mut self, fault: &Fault) -> Result<(), Fault> {
        match subject_object(fault) {
            Some(object) if self.json => self.tell(object, fault, Where::Aside),
            _ => self.complain_aside(fault),
        }
    }

    fn complain_aside(&mut self, fault: &Fault) -> Result<(), Fault> {
        self.note(fault.status());
        self.misused |= fault.is_misuse();
        self.flush()?;
        self.remark(fault);
        Ok(())
    }

    /// Tells a fault over one of many inputs, with which `object` begins, so that the
    /// next one has its turn. A fault of the output itself ends the run.
    pub fn go_on(
        &mut self,
        ended: Result<(), Fault>,
        object: Object,
        place: Where,
    ) -> Result<(), Fault> {
        match ended {
            Err(fault) if !fault.ends_the_run() => self.tell(object, &fault, place),
            ended => ended,
        }
    }
}

/// A line on standard error. Where that is closed, nobody wants to know.
pub fn complaint(text: impl fmt::Display) {
    let _ = writeln!(io::stderr().lock(), "{text}");
}

/// The object of what a fault is about, where it can be told in one.
fn subject_object(fault: &Fault) -> Option<Object> {
    let object = Object::new();
    match fault {
        Fault::Refused(refused) => Some(match &refused.subject {
            Subject::Path(path) => object.path(path),
            Subject::Asked(asked) => object.text("subject", asked),
        }),
        Fault::Settings { fault, .. } => subject_object(fault),
        Fault::Unclear { path, .. } | Fault::System { path, .. } => Some(object.path(path)),
        _ => None,
    }
}

/// An object with a fault's members behind its own. That of the file which gives the
/// settings says so.
fn fault_members(object: Object, fault: &Fault) -> Object {
    match fault {
        Fault::Refused(refused) => refusal_members(object, refused),
        Fault::Settings { kind, fault } => fault_members(object, fault).text("subject", kind),
        Fault::Misnamed { error, .. } => object.text("result", "misnamed").text("error", error),
        Fault::Unclear { unclear, .. } => {
            let object = object.text("result", unclear.result());
            object.text("error", &unclear.to_string())
        }
        fault => error_members(object, fault),
    }
}

/// An object with an error behind its own members.
pub fn error_members(object: Object, fault: &Fault) -> Object {
    let object = object.text("result", "error");
    object.text("error", &fault.to_string())
}

/// An object with a refusal's members behind its own.
fn refusal_members(object: Object, refused: &Refused) -> Object {
    let mut object = object
        .text("result", "refused")
        .number("refusal", refused.refusal.number);
    if let Some(minishard) = refused.refusal.minishard {
        object = object.number("minishard", minishard);
    }
    let object = object.text("sentence", refused.refusal.sentence());
    diagnosis_members(object, &refused.diagnosis)
}

/// An object with a diagnosis behind its own members: the sentences, and the
/// numbers in them that a script may want.
pub fn diagnosis_members(object: Object, diagnosis: &Diagnosis) -> Object {
    let mut object = object
        .text("found", &diagnosis.found)
        .text("expected", &diagnosis.expected)
        .text("look_at", &diagnosis.look_at);
    if let Some(byte) = diagnosis.byte {
        object = object.number("byte", byte);
    }
    if let Some((line, column)) = diagnosis.line {
        object = object.number("line", line).number("column", column);
    }
    if let Some((entry, id)) = diagnosis.entry {
        object = object.number("entry", entry).number("id", id);
    }
    object
}

/// Why answers could not be written.
fn unwritten(error: io::Error) -> Fault {
    match error.kind() {
        io::ErrorKind::BrokenPipe => Fault::ClosedPipe,
        _ => Fault::Unwritten { error },
    }
}

#[cfg(test)]
mod tests {
    use super::*;
    use coronagamba::Refusal;
    use std::path::Path;

    #[test]
    fn a_refusal_as_an_object() {
        let diagnosis = Diagnosis {
            byte: Some(460),
            line: Some((4, 7)),
            entry: Some((3, u64::MAX)),
            ..Diagnosis::new("f", "e", "l")
        };
        let refusal = Refusal {
            number: 11,
            minishard: Some(2),
            position: Some(460),
        };
        let fault = Fault::refused(Path::new("0.shard"), refusal, diagnosis);
        let object = subject_object(&fault).unwrap();
        assert_eq!(
            fault_members(object, &fault).finish(),
            "{\"path\":\"0.shard\",\"result\":\"refused\",\"refusal\":11,\"minishard\":2,\
             \"sentence\":\"A chunk ends past the file.\",\"found\":\"f\",\"expected\":\"e\",\
             \"look_at\":\"l\",\"byte\":460,\"line\":4,\"column\":7,\"entry\":3,\"id\":18446744073709551615}"
        );
    }
}
