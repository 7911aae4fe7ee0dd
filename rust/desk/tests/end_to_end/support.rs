//! Folders that go away again, and runs of the built program in them.

use std::ffi::OsStr;
use std::fs;
use std::io;
use std::path::{Path, PathBuf};
use std::process::{Command, Output};
use std::sync::atomic::{AtomicU32, Ordering};

/// The program under test.
pub const PROGRAM: &str = env!("CARGO_BIN_EXE_coronagamba");

/// A fresh folder, removed with all that it holds when it is dropped.
pub struct Folder {
    path: PathBuf,
}

impl Folder {
    /// An empty folder.
    pub fn new() -> Self {
        let place = Path::new(env!("CARGO_TARGET_TMPDIR"));
        fs::create_dir_all(place).expect("a place for folders");
        Folder::within(place).expect("a fresh folder")
    }

    /// An empty folder for long files with a hole: in memory, where there is such a
    /// place. There a hole takes no room, and to read one costs a fifth.
    pub fn for_holes() -> Self {
        Folder::within(Path::new("/dev/shm")).unwrap_or_else(|_| Folder::new())
    }

    /// A fresh folder at this place.
    fn within(place: &Path) -> io::Result<Self> {
        static COUNT: AtomicU32 = AtomicU32::new(0);
        let count = COUNT.fetch_add(1, Ordering::Relaxed);
        let path = place.join(format!("desk-{}-{count}", std::process::id()));
        fs::create_dir(&path)?;
        Ok(Folder { path })
    }

    /// A folder with the sample deposit in `demo`.
    pub fn with_sample() -> Self {
        let folder = Folder::new();
        folder.run(["sample", "demo"]).expect_status(0);
        folder
    }

    /// Where it is.
    pub fn path(&self) -> &Path {
        &self.path
    }

    /// The path of something in it.
    pub fn at(&self, name: impl AsRef<Path>) -> PathBuf {
        self.path.join(name)
    }

    /// Makes a folder in it.
    pub fn make(&self, name: impl AsRef<Path>) -> PathBuf {
        let path = self.at(name);
        fs::create_dir_all(&path).expect("a folder is made");
        path
    }

    /// Writes a file in it, and its folder where that is missing.
    pub fn write(&self, name: impl AsRef<Path>, bytes: impl AsRef<[u8]>) -> PathBuf {
        let path = self.at(name);
        let parent = path.parent().expect("a file has a folder");
        fs::create_dir_all(parent).expect("a folder is made");
        fs::write(&path, bytes).expect("a file is written");
        path
    }

    /// The bytes of a file in it.
    pub fn read(&self, name: impl AsRef<Path>) -> Vec<u8> {
        let path = self.at(name);
        fs::read(&path).unwrap_or_else(|error| panic!("{}: {error}", path.display()))
    }

    /// The names in one of its folders, in order, hidden ones too.
    pub fn names(&self, name: impl AsRef<Path>) -> Vec<String> {
        let entries = fs::read_dir(self.at(name)).expect("a folder is read");
        let name = |entry: std::io::Result<fs::DirEntry>| {
            let name = entry.expect("an entry is read").file_name();
            name.to_string_lossy().into_owned()
        };
        let mut names: Vec<String> = entries.map(name).collect();
        names.sort();
        names
    }

    /// The program, to be run in this folder.
    pub fn program(&self) -> Command {
        let mut command = Command::new(PROGRAM);
        command.current_dir(&self.path);
        command
    }

    /// Runs the program in this folder.
    pub fn run<S: AsRef<OsStr>>(&self, arguments: impl IntoIterator<Item = S>) -> Run {
        let mut command = self.program();
        command.args(arguments);
        Run::of(&mut command)
    }

    /// Runs the program in this folder with a line's words as arguments.
    pub fn run_line(&self, line: &str) -> Run {
        self.run(line.split_whitespace())
    }

    /// Runs the program through a shell that first does something else, such
    /// as setting a limit.
    pub fn run_after(&self, first: &str, line: &str) -> Run {
        let script = format!("{first}; exec \"$0\" \"$@\"");
        let mut command = Command::new("sh");
        command.args(["-c", &script, PROGRAM]);
        command.args(line.split_whitespace());
        Run::of(command.current_dir(&self.path))
    }
}

impl Drop for Folder {
    fn drop(&mut self) {
        // What can't be removed stays behind; the test has had its answer.
        let _ = fs::remove_dir_all(&self.path);
    }
}

/// What a run of the program left.
pub struct Run {
    /// What was run.
    what: String,
    /// The exit status; none where a signal ended it.
    pub status: Option<i32>,
    /// What it printed.
    pub stdout: Vec<u8>,
    /// What it complained of.
    pub stderr: String,
}

impl Run {
    /// Runs the command to its end.
    pub fn of(command: &mut Command) -> Self {
        let what = format!("{command:?}");
        let output = command.output().expect("the program starts");
        Run::told(what, output)
    }

    /// What such an output tells.
    pub fn told(what: String, output: Output) -> Self {
        let stderr = String::from_utf8_lossy(&output.stderr).into_owned();
        assert!(!stderr.contains("panicked"), "{what}\n{stderr}");
        Run {
            what,
            status: output.status.code(),
            stdout: output.stdout,
            stderr,
        }
    }

    /// What it printed, as text.
    pub fn text(&self) -> &str {
        std::str::from_utf8(&self.stdout).expect("the program prints text")
    }

    /// The lines that it printed.
    pub fn lines(&self) -> Vec<&str> {
        self.text().lines().collect()
    }

    /// Panics unless it ended with this status. Wrong use and errors of the
    /// operating system must be told in words.
    #[track_caller]
    pub fn expect_status(&self, status: i32) -> &Self {
        assert_eq!(self.status, Some(status), "{self}");
        if status >= 2 {
            assert!(
                !(self.stdout.is_empty() && self.stderr.is_empty()),
                "{self}"
            );
        }
        self
    }

    /// Panics unless one of its lines is this one.
    #[track_caller]
    pub fn expect_line(&self, line: &str) -> &Self {
        assert!(self.lines().contains(&line), "no line {line:?}\n{self}");
        self
    }
}

impl std::fmt::Display for Run {
    fn fmt(&self, f: &mut std::fmt::Formatter<'_>) -> std::fmt::Result {
        let Run {
            what,
            status,
            stdout,
            stderr,
        } = self;
        let stdout = String::from_utf8_lossy(stdout);
        write!(f, "{what}\nstatus {status:?}\n{stdout}---\n{stderr}")
    }
}
