//! What stops a command, and the exit status that goes with it.

use std::fmt;
use std::fs;
use std::io;
use std::path::{Path, PathBuf};

use coronagamba::Refusal;

use crate::buffers::MOST_BYTES;
use crate::diagnosis::words::Diagnosis;
use crate::text::shown;
use crate::unclear::Unclear;

/// The exit status of the program. Over many files the greatest one counts.
#[derive(Clone, Copy, Debug, Default, PartialEq, Eq, PartialOrd, Ord)]
pub enum Status {
    /// Yes.
    #[default]
    Yes = 0,
    /// A refusal, or the answer 'different', 'absent' or 'missing'.
    No = 1,
    /// Wrong use of the program.
    Use = 2,
    /// The operating system's error.
    System = 3,
}

impl Status {
    /// The status of a number.
    pub fn of(number: u64) -> Option<Status> {
        let all = [Status::Yes, Status::No, Status::Use, Status::System];
        all.into_iter().find(|status| *status as u64 == number)
    }
}

/// What a refusal is about.
#[derive(Clone, Debug, PartialEq, Eq)]
pub enum Subject {
    /// A file or folder.
    Path(PathBuf),
    /// Something that was asked for in words: the settings, a cell, a key.
    Asked(String),
}

impl From<&PathBuf> for Subject {
    fn from(path: &PathBuf) -> Self {
        Subject::Path(path.clone())
    }
}

impl From<&Path> for Subject {
    fn from(path: &Path) -> Self {
        Subject::Path(path.to_path_buf())
    }
}

impl From<&str> for Subject {
    fn from(asked: &str) -> Self {
        Subject::Asked(asked.to_string())
    }
}

impl From<fmt::Arguments<'_>> for Subject {
    fn from(asked: fmt::Arguments) -> Self {
        Subject::Asked(asked.to_string())
    }
}

impl fmt::Display for Subject {
    fn fmt(&self, f: &mut fmt::Formatter<'_>) -> fmt::Result {
        match self {
            Subject::Path(path) => f.write_str(&shown(path)),
            Subject::Asked(asked) => f.write_str(asked),
        }
    }
}

/// A refusal of the library with what the desk can say about it.
#[derive(Clone, Debug, PartialEq, Eq)]
pub struct Refused {
    /// What was refused.
    pub subject: Subject,
    /// The library's verdict.
    pub refusal: Refusal,
    /// What was found, what was expected, where to look.
    pub diagnosis: Diagnosis,
}

/// An answer of the library, whose refusal is explained and becomes a fault.
pub trait Explain<T> {
    /// The answer, or the refusal of this subject with its diagnosis.
    fn explain(
        self,
        subject: impl Into<Subject>,
        diagnose: impl FnOnce(Refusal) -> Diagnosis,
    ) -> Result<T, Fault>;
}

impl<T> Explain<T> for Result<T, Refusal> {
    fn explain(
        self,
        subject: impl Into<Subject>,
        diagnose: impl FnOnce(Refusal) -> Diagnosis,
    ) -> Result<T, Fault> {
        self.map_err(|refusal| Fault::refused(subject, refusal, diagnose(refusal)))
    }
}

/// The length of a shard file that is too long. It is read only as far as that
/// shows; the system knows the rest.
fn length_not_read(subject: &Subject, refusal: Refusal) -> Option<u64> {
    let Subject::Path(path) = subject else {
        return None;
    };
    let about = fs::metadata(path).ok()?;
    let too_long = refusal.number == 6 && about.is_file() && about.len() >= MOST_BYTES;
    too_long.then_some(about.len())
}

/// The four lines of a refusal, without the end of the last line.
impl fmt::Display for Refused {
    fn fmt(&self, f: &mut fmt::Formatter<'_>) -> fmt::Result {
        write!(f, "{}: refused {}", self.subject, self.refusal.number)?;
        if let Some(minishard) = self.refusal.minishard {
            write!(f, " in minishard {minishard}")?;
        }
        writeln!(f, ": {}", self.refusal.sentence())?;
        writeln!(f, "  found: {}", self.diagnosis.found)?;
        writeln!(f, "  expected: {}", self.diagnosis.expected)?;
        write!(f, "  look at: {}", self.diagnosis.look_at)
    }
}

/// What stops a command.
#[derive(Debug)]
pub enum Fault {
    /// The library refused.
    Refused(Box<Refused>),
    /// The program was used wrongly.
    Use {
        /// What was wrong, one sentence without an end.
        message: String,
    },
    /// The file that gives the settings was refused or could not be read. It is
    /// told apart from the inputs.
    Settings {
        /// What it is: 'card' or 'info'.
        kind: &'static str,
        /// What is the matter with it.
        fault: Box<Fault>,
    },
    /// A file has the name of no shard under the sharding.
    Misnamed {
        /// The file.
        path: PathBuf,
        /// What is said of its name.
        error: String,
        /// Whether it was named by itself, so that `--shard` could have given its
        /// number.
        alone: bool,
    },
    /// The files of a shard do not say which bytes are its own.
    Unclear {
        /// A file of it that is there.
        path: PathBuf,
        /// Why.
        unclear: Unclear,
    },
    /// The operating system's error.
    System {
        /// The file or folder.
        path: PathBuf,
        /// What could not be done with it: 'opened', 'read', 'written' ..
        done: &'static str,
        /// What the system says.
        error: io::Error,
    },
    /// Nobody reads the output any more. Nothing is said about it.
    ClosedPipe,
    /// Standard output cannot be written for another reason.
    Unwritten {
        /// What the system says.
        error: io::Error,
    },
}

impl Fault {
    /// The library's refusal of something.
    pub fn refused(
        subject: impl Into<Subject>,
        refusal: Refusal,
        mut diagnosis: Diagnosis,
    ) -> Self {
        let subject = subject.into();
        if let Some(length) = length_not_read(&subject, refusal) {
            diagnosis.found = format!("a file of {length} bytes");
        }
        Fault::Refused(Box::new(Refused {
            subject,
            refusal,
            diagnosis,
        }))
    }

    /// Wrong use.
    pub fn wrong_use(message: impl Into<String>) -> Self {
        Fault::Use {
            message: message.into(),
        }
    }

    /// The operating system's error over a file: it cannot be `done`.
    pub fn system(path: &Path, done: &'static str, error: io::Error) -> Self {
        Fault::System {
            path: path.to_path_buf(),
            done,
            error,
        }
    }

    /// The same over a file of this kind that gives the settings.
    pub fn of_settings(self, kind: &'static str) -> Self {
        Fault::Settings {
            kind,
            fault: Box::new(self),
        }
    }

    /// The exit status that goes with it.
    pub fn status(&self) -> Status {
        match self {
            Fault::Use { .. } | Fault::Misnamed { alone: true, .. } => Status::Use,
            Fault::Refused(_) | Fault::Misnamed { .. } | Fault::Unclear { .. } => Status::No,
            Fault::Settings { fault, .. } => fault.status(),
            Fault::System { .. } | Fault::ClosedPipe | Fault::Unwritten { .. } => Status::System,
        }
    }

    /// Whether it is a refusal of the library.
    pub fn is_refused(&self) -> bool {
        matches!(self, Fault::Refused(_))
    }

    /// Whether it is about a name.
    pub fn is_misnamed(&self) -> bool {
        matches!(self, Fault::Misnamed { .. })
    }

    /// Whether it is not clear which bytes are a shard's.
    pub fn is_unclear(&self) -> bool {
        matches!(self, Fault::Unclear { .. })
    }

    /// Whether the command line is wrong, whose help is named then.
    pub fn is_misuse(&self) -> bool {
        matches!(
            self,
            Fault::Use { .. } | Fault::Misnamed { alone: true, .. }
        )
    }

    /// Whether the system had no memory to give.
    pub fn lacks_memory(&self) -> bool {
        matches!(self, Fault::System { error, .. } if error.kind() == io::ErrorKind::OutOfMemory)
    }

    /// Whether no further answer can be given.
    pub fn ends_the_run(&self) -> bool {
        matches!(self, Fault::ClosedPipe | Fault::Unwritten { .. })
    }
}

impl fmt::Display for Fault {
    fn fmt(&self, f: &mut fmt::Formatter<'_>) -> fmt::Result {
        match self {
            Fault::Refused(refused) => refused.fmt(f),
            Fault::Use { message } => f.write_str(message),
            Fault::Settings { fault, .. } => fault.fmt(f),
            Fault::Misnamed { path, error, alone } => {
                let hint = match alone {
                    true => "; give the shard's number with --shard N",
                    false => "",
                };
                write!(f, "{}: {error}{hint}", shown(path))
            }
            Fault::Unclear { path, unclear } => write!(f, "{}: {unclear}", shown(path)),
            Fault::System { path, done, error } => {
                write!(f, "{}: cannot be {done}: {error}", shown(path))
            }
            Fault::ClosedPipe => f.write_str("the output was closed"),
            Fault::Unwritten { error } => write!(f, "standard output: cannot be written: {error}"),
        }
    }
}

#[cfg(test)]
mod tests {
    use super::*;

    fn refused(minishard: Option<u64>) -> Fault {
        let diagnosis = Diagnosis::new("one", "two", "three");
        let refusal = Refusal {
            number: 11,
            minishard,
            position: Some(61),
        };
        Fault::refused(Path::new("a/0.shard"), refusal, diagnosis)
    }

    #[test]
    fn a_refusal_has_four_lines() {
        assert_eq!(
            refused(Some(3)).to_string(),
            "a/0.shard: refused 11 in minishard 3: A chunk ends past the file.\n  \
             found: one\n  expected: two\n  look at: three"
        );
        assert_eq!(
            refused(None).to_string().lines().next(),
            Some("a/0.shard: refused 11: A chunk ends past the file.")
        );
    }

    #[test]
    fn the_greatest_status_is_the_worst() {
        assert!(Status::Yes < Status::No && Status::No < Status::Use);
        assert!(Status::Use < Status::System);
        assert_eq!(refused(None).status() as u8, 1);
        assert_eq!(Fault::wrong_use("x").status() as u8, 2);
        let error = io::Error::from_raw_os_error(2);
        let fault = Fault::system(Path::new("b"), "opened", error);
        assert_eq!(fault.status() as u8, 3);
        assert_eq!(
            fault.to_string(),
            "b: cannot be opened: No such file or directory (os error 2)"
        );
    }
}
