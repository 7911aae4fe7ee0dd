//! Every split of the sample deposits, run and joined in this process, which takes
//! seconds where a process for each part would take minutes.

use std::cell::RefCell;
use std::ffi::OsString;
use std::fs;
use std::io::{self, Write};
use std::path::Path;
use std::rc::Rc;

use crate::args::Args;
use crate::commands::COMMANDS;
use crate::fault::Status;
use crate::options::JSON;
use crate::report::Report;
use crate::trial::Folder;

/// An output that is kept.
#[derive(Clone, Default)]
struct Kept(Rc<RefCell<Vec<u8>>>);

impl Write for Kept {
    fn write(&mut self, bytes: &[u8]) -> io::Result<usize> {
        self.0.borrow_mut().write(bytes)
    }

    fn flush(&mut self) -> io::Result<()> {
        Ok(())
    }
}

/// What a run leaves.
#[derive(Debug, PartialEq, Eq)]
struct Run {
    out: String,
    err: String,
    status: Status,
}

/// Runs the program on the words of a line, as `main` does it.
fn run(line: &str) -> Run {
    let words: Vec<OsString> = line.split_whitespace().map(OsString::from).collect();
    let command = COMMANDS.iter().find(|command| words[0] == command.name);
    let command = command.expect("a command");
    let args = Args::parse(&words[1..], command.options).expect("its options");
    let (out, err) = (Kept::default(), Kept::default());
    let outputs = (Box::new(out.clone()), Box::new(err.clone()));
    let mut report = Report::to(args.flag(JSON), outputs.0, outputs.1);
    let ended = (command.run)(&args, &mut report);
    ended
        .or_else(|fault| report.complain(&fault))
        .expect("its output is open");
    if report.misused() {
        report.remark(format_args!("see: coronagamba {} --help", command.name));
    }
    report.flush().expect("its output is open");
    let text = |kept: Kept| String::from_utf8(kept.0.take()).expect("text");
    Run {
        out: text(out),
        err: text(err),
        status: report.worst(),
    }
}

/// The files in a folder, which is removed.
fn taken(folder: &Path) -> Vec<(OsString, Vec<u8>)> {
    let Ok(entries) = fs::read_dir(folder) else {
        return Vec::new();
    };
    let file = |entry: io::Result<fs::DirEntry>| {
        let entry = entry.expect("an entry");
        (entry.file_name(), fs::read(entry.path()).expect("a file"))
    };
    let mut files: Vec<_> = entries.map(file).collect();
    files.sort();
    fs::remove_dir_all(folder).expect("the folder is removed");
    files
}

/// The joined parts of a line are what the plain line prints and writes, in both forms.
fn expect_joined(folder: &Folder, line: &str, splits: impl IntoIterator<Item = u64>) {
    let at = |word: &str| match word.strip_prefix('@') {
        Some(name) => folder.at(name).display().to_string(),
        None => word.to_string(),
    };
    let line: Vec<String> = line.split(' ').map(at).collect();
    let (line, out) = (line.join(" "), folder.at("out"));
    let forms = ["", " --json"];
    let plain = forms.map(|form| (run(&format!("{line}{form}")), taken(&out)));
    for of in splits {
        let mut reports = String::new();
        for part in 1..=of {
            let report = folder.at(format!("{part}.report")).display().to_string();
            let run = run(&format!("{line} --part {part}/{of} --report {report}"));
            assert_eq!(run.err, "", "{line}");
            assert_eq!(run.out.lines().count(), 1, "{line}");
            reports += &format!(" {report}");
        }
        let files = taken(&out);
        for (form, (plain, written)) in forms.iter().zip(&plain) {
            let joined = run(&format!("join{reports}{form}"));
            assert_eq!(joined, *plain, "{line}{form} in {of}");
            assert_eq!(files, *written, "{line}{form} in {of}");
        }
        for report in reports.split_whitespace() {
            fs::remove_file(report).expect("a report");
        }
    }
}

/// The sample in `demo`, a folder of odd files, and the loose chunks of a deposit.
fn deposits(name: &str) -> Folder {
    let folder = Folder::in_memory(name);
    let at = |name: &str| folder.at(name).display().to_string();
    assert_eq!(run(&format!("sample {}", at("demo"))).status, Status::Yes);
    for made in ["odd", "empty", "odd/6.shard"] {
        fs::create_dir(folder.at(made)).expect("a folder");
    }
    for name in ["0.shard", "3.shard"] {
        let (from, to) = (
            folder.at("demo/copy-a").join(name),
            folder.at("odd").join(name),
        );
        fs::copy(from, to).expect("a copy");
    }
    for (name, bytes) in [
        ("odd/name.shard", &b"x"[..]),
        ("odd/4.shard", b""),
        ("odd/5.index", b""),
        ("odd/3.data", b""),
        ("odd/notes", b""),
    ] {
        folder.write(name, bytes);
    }
    let cover = format!(
        "cover -1000,-1000,-1000 1000,1000,1000 --deposit {} --out {} --card {}",
        at("demo/copy-a"),
        at("loose"),
        at("demo/deposit.card")
    );
    assert_eq!(run(&cover).status, Status::Yes);
    folder
}

const CARD: &str = "--card @demo/deposit.card --jobs 1";

#[test]
fn any_split_joins_to_the_plain_run() {
    let folder = deposits("splits-any");
    let all = "@demo/copy-a @demo/copy-b @demo/copy-c @demo/pairs @demo/damaged @odd";
    for line in [
        format!("check {all} @empty --unlisted"),
        format!("holdings {all} --verbose"),
    ] {
        expect_joined(&folder, &format!("{line} {CARD}"), 1..=50);
    }
    // A folder has 8 shards at most: past that, a split has more empty parts and nothing else.
    let splits = || (1..=20).chain([50]);
    for line in [
        "same @demo/copy-a @demo/copy-b",
        "same @demo/copy-c @demo/damaged",
        "same @demo/pairs @odd",
        "settle @demo/copy-b --drop-unlisted --out @out",
        "settle @demo/copy-c --out @out",
        "settle @demo/pairs --drop-unlisted --out @out",
        "settle @demo/damaged --out @out",
        "pack @loose --out @out",
    ] {
        expect_joined(&folder, &format!("{line} {CARD}"), splits());
    }
    for line in [
        "check @demo/murmur --card @demo/murmur.card",
        "check @demo/mesh-a @demo/mesh-b --card @demo/mesh.card",
        "same @demo/mesh-a @demo/mesh-b --card @demo/mesh.card",
        "settle @demo/mesh-b --out @out --card @demo/mesh.card",
        "check @demo/labels --info @demo/labels.info --scale 0",
    ] {
        expect_joined(&folder, line, splits());
    }
}

#[test]
fn odd_deposits_join() {
    let folder = deposits("splits-all");
    for line in [
        "check @demo/copy-a/0.shard",
        "check @demo/copy-a/0.shard @demo/damaged",
        "check @empty",
        "same @odd @empty",
        "same @odd @odd",
        "holdings @empty",
        "settle @empty --out @out",
        "settle @odd --drop-unlisted --out @out",
        "pack @empty --out @out",
        "pack @demo --out @out",
        "fingerprint @demo/copy-a",
        "fingerprint @demo/damaged",
        "fingerprint @odd --drop-unlisted",
        "fingerprint @empty",
    ] {
        expect_joined(&folder, &format!("{line} {CARD}"), [1, 2, 3, 7, 20]);
    }
    let list = run(&format!(
        "fingerprint {} --drop-unlisted --card {}",
        folder.at("demo/copy-b").display(),
        folder.at("demo/deposit.card").display()
    ));
    folder.write("list", list.out.as_bytes());
    for line in [
        "fingerprint @demo/damaged --against @list",
        "fingerprint @odd --against @list",
        "fingerprint @empty --against @list",
    ] {
        expect_joined(&folder, &format!("{line} {CARD}"), [1, 2, 3, 7, 20]);
    }
}
