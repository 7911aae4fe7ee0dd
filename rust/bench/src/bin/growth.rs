//! How the desk tool's runs grow with the deposit: check, settle and holdings of more
//! and more shards, on one and two cores and in parts, and what one of very many shards
//! costs beside its bytes. Prints the tables of docs/BENCHMARKS.md.
//!
//! usage: growth FOLDER [COUNT.. [--many COUNT]]
//!
//! All deposits are made in FOLDER, one at a time, and removed again: 1,000 shards of
//! 16 MiB and their settled forms take 32 GiB.

use bench::clock::{used, Used};
use reference::settle::settled_form;
use reference::sharding::Sharding;
use std::env;
use std::fs;
use std::path::{Path, PathBuf};
use std::process::{Command, Stdio};

const CHUNK_BYTES: usize = 1 << 16;
const MIB: f64 = (1u64 << 20) as f64;
const COMMANDS: [&str; 3] = ["check", "settle", "holdings"];

/// 2^20 shards of 64 minishards.
const SHARDING: Sharding = Sharding {
    preshift: 0,
    hash: 0,
    minishard_bits: 6,
    shard_bits: 20,
    kind: 0,
};

/// Writes shards with so many chunks of 64 KiB; one without chunks is its shard index,
/// 1 KiB. A process of its own does it: a program that is started counts the memory of
/// the one that started it as its own.
fn make(folder: &Path, shards: u64, chunks: u64) {
    let body: Vec<u8> = (0..CHUNK_BYTES)
        .map(|byte| ((byte * 7919) >> 8) as u8)
        .collect();
    for shard in 0..shards {
        let id = |chunk: u64| (chunk >> 6) << 26 | shard << 6 | chunk & 0x3f;
        let content: Vec<(u64, &[u8])> = (0..chunks).map(|chunk| (id(chunk), &body[..])).collect();
        let file = settled_form(&SHARDING, &content);
        fs::write(folder.join(format!("{shard:05x}.shard")), file).expect("a shard is written");
    }
}

/// A deposit, and where runs over it write.
struct Deposit {
    place: PathBuf,
    bytes: u64,
}

impl Deposit {
    fn new(place: &Path, shards: u64, chunks: u64) -> Self {
        let place = place.join(format!("growth-{}", std::process::id()));
        let from = place.join("from");
        fs::create_dir_all(&from).expect("a folder for the shards");
        let this = env::current_exe().expect("this program's path");
        let numbers = [shards, chunks].map(|number| number.to_string());
        let made = Command::new(this)
            .arg("make")
            .arg(&from)
            .args(numbers)
            .status();
        assert!(made.expect("this program starts").success());
        let entries = fs::read_dir(&from).expect("a folder");
        let length = |entry: fs::DirEntry| entry.metadata().expect("a file").len();
        Deposit {
            bytes: entries.map(|entry| length(entry.expect("a file"))).sum(),
            place,
        }
    }

    /// A command over all shards.
    fn asked(&self, command: &str, options: &[&str]) -> Command {
        let mut tool = tool();
        tool.arg(command).arg(self.place.join("from")).args(options);
        tool.args("--preshift 0 --hash identity --minishard-bits 6 --shard-bits 20".split(' '));
        if command == "settle" {
            tool.arg("--out").arg(self.place.join("to"));
        }
        tool
    }

    /// A part of it.
    fn part(&self, command: &str, part: u64, of: u64) -> Command {
        let part_of = format!("{part}/{of}");
        let mut tool = self.asked(command, &["--jobs", "1", "--part", &part_of]);
        tool.arg("--report").arg(self.report(part));
        tool
    }

    fn report(&self, part: u64) -> PathBuf {
        self.place.join(format!("{part}.report"))
    }

    fn join(&self, of: u64) -> Command {
        let mut tool = tool();
        tool.arg("join")
            .args((1..=of).map(|part| self.report(part)));
        tool
    }

    /// Removes what a run has written.
    fn clear(&self) {
        let _ = fs::remove_dir_all(self.place.join("to"));
        (1..=4).for_each(|part| drop(fs::remove_file(self.report(part))));
    }

    /// The middle one of three runs; one alone of the larger deposits.
    fn middle(&self, run: impl Fn() -> Used) -> Used {
        let runs = if self.bytes > 1 << 30 { 1 } else { 3 };
        let mut all: Vec<Used> = (0..runs).map(|_| (self.clear(), run()).1).collect();
        all.sort_by(|one, other| one.seconds.total_cmp(&other.seconds));
        all.swap_remove(runs / 2)
    }

    /// One command in all ways.
    fn measure(&self, command: &str) -> Row {
        let with_jobs = |jobs| self.middle(|| used([self.asked(command, &["--jobs", jobs])]));
        let (one, two) = (with_jobs("1"), with_jobs("2"));
        let at_once = self.middle(|| used([1, 2].map(|part| self.part(command, part, 2))));
        let in_turn = self.middle(|| {
            let parts = (1..=4).map(|part| used([self.part(command, part, 4)]));
            parts.fold(Used::default(), Used::then)
        });
        let length = |part| fs::metadata(self.report(part)).expect("a report").len();
        let row = Row {
            one,
            two,
            at_once,
            in_turn,
            report: (1..=4).map(length).sum(),
            join: used([self.join(4)]),
        };
        self.clear();
        row
    }

    /// The fewest open files with which a command ends well; of large deposits it is
    /// not tried.
    fn handles(&self, command: &str) -> String {
        if self.bytes > 2 << 30 {
            return String::new();
        }
        let command = self.asked(command, &["--jobs", "2"]);
        let ends = |limit: &u64| {
            self.clear();
            let mut shell = Command::new("sh");
            shell.args(["-c", "ulimit -n \"$0\" && exec \"$@\"", &limit.to_string()]);
            shell.arg(command.get_program()).args(command.get_args());
            let status = shell.stdout(Stdio::null()).stderr(Stdio::null()).status();
            status.expect("sh starts").success()
        };
        let fewest = (3..1024).find(ends);
        self.clear();
        fewest.expect("1,024 are enough").to_string()
    }
}

impl Drop for Deposit {
    fn drop(&mut self) {
        let _ = fs::remove_dir_all(&self.place);
    }
}

/// The desk tool, which lies beside this program.
fn tool() -> Command {
    let here = env::current_exe().expect("this program's path");
    let tool = here.with_file_name("coronagamba");
    assert!(tool.is_file(), "{} is not built", tool.display());
    Command::new(tool)
}

/// What the ways of one command took.
struct Row {
    one: Used,
    two: Used,
    at_once: Used,
    in_turn: Used,
    join: Used,
    report: u64,
}

/// What a command took for one of the shards of the largest deposit of a size.
struct PerShard {
    mib: u64,
    command: &'static str,
    seconds: f64,
    /// The resident memory of a part, in MiB.
    resident: f64,
    report: f64,
}

/// The table of shards of one size.
fn grow(place: &Path, mib: u64, counts: &[u64]) -> Vec<PerShard> {
    println!("\n| {mib} MiB a shard | command | s, 1 job | 2 jobs | 2 parts at once | 4 parts in turn | join of 4 | MiB/s, 1 job | 2 jobs | MiB resident, 1 job | 2 jobs | a part | join | report, bytes a shard | open files, 2 jobs |");
    println!("|{}", "---|".repeat(15));
    let mut largest = Vec::new();
    for shards in counts {
        let deposit = Deposit::new(place, *shards, 16 * mib);
        // The first run may have the files to read.
        used([deposit.asked("check", &[])]);
        let of_command = |command| {
            let row = deposit.measure(command);
            let rate = |used: &Used| deposit.bytes as f64 / MIB / used.seconds;
            let of_shard = PerShard {
                mib,
                command,
                seconds: row.one.seconds / *shards as f64,
                resident: row.in_turn.mib(),
                report: row.report as f64 / *shards as f64,
            };
            println!(
                "| {shards} | {command} | {:.3} | {:.3} | {:.3} | {:.3} | {:.3} | {:.0} | {:.0} | {:.1} | {:.1} | {:.1} | {:.1} | {:.0} | {} |",
                row.one.seconds,
                row.two.seconds,
                row.at_once.seconds,
                row.in_turn.seconds,
                row.join.seconds,
                rate(&row.one),
                rate(&row.two),
                row.one.mib(),
                row.two.mib(),
                row.in_turn.mib(),
                row.join.mib(),
                of_shard.report,
                deposit.handles(command),
            );
            of_shard
        };
        largest = COMMANDS.map(of_command).into();
    }
    largest
}

/// What a shard costs beside its bytes: in every part, which lists all of them, and in
/// the join; seconds and bytes.
struct Beside {
    listing: (f64, f64),
    join: (f64, f64),
}

/// The table of that, from very many shards without chunks beside one.
fn many(place: &Path, shards: u64) -> Beside {
    // Of `settle` the disk would be timed, which has each output flushed to it.
    let commands = ["check", "holdings"];
    let [one, all] = [1, shards].map(|shards| {
        let deposit = Deposit::new(place, shards, 0);
        used([deposit.asked("check", &[])]);
        let rows = commands.map(|command| deposit.measure(command));
        let listing = deposit.middle(|| used([deposit.part("check", 1, 10_000)]));
        (rows, listing)
    });
    let more = (shards - 1) as f64;
    let seconds = |one: &Used, all: &Used| (all.seconds - one.seconds) / more;
    let bytes = |one: &Used, all: &Used| (all.mib() - one.mib()) * MIB / more;
    println!("\n| {shards} shards without chunks, of 1 KiB, for each | µs, 1 job | µs, join | bytes resident, 1 job | a part of 4 | join | report, bytes |");
    println!("|{}", "---|".repeat(7));
    for (number, command) in commands.iter().enumerate() {
        let (one, all) = (&one.0[number], &all.0[number]);
        println!(
            "| {command} | {:.1} | {:.1} | {:.0} | {:.0} | {:.0} | {:.0} |",
            seconds(&one.one, &all.one) * 1e6,
            seconds(&one.join, &all.join) * 1e6,
            bytes(&one.one, &all.one),
            bytes(&one.in_turn, &all.in_turn),
            bytes(&one.join, &all.join),
            (all.report - one.report) as f64 / more,
        );
    }
    let of = |one: &Used, all: &Used| (seconds(one, all), bytes(one, all));
    let beside = Beside {
        listing: of(&one.1, &all.1),
        join: of(&one.0[0].join, &all.0[0].join),
    };
    let (time, memory) = beside.listing;
    println!(
        "| a part of 10,000 | {:.1} | | | {memory:.0} | | |",
        time * 1e6
    );
    beside
}

/// A million shards in a thousand parts, a hundred of them at a time.
fn million(of_shards: &[PerShard], beside: &Beside) {
    println!("\n| 10^6 shards | hours, 1 job | 1,000 parts, 100 at once | of these for listing | s, join | MiB resident, a part | join | MiB, all reports | KiB, a report |");
    println!("|{}", "---|".repeat(9));
    for shard in of_shards {
        let listing = 1e6 * beside.listing.0;
        let in_parts = 10.0 * (listing + 1000.0 * shard.seconds);
        println!(
            "| {}, {} MiB | {:.2} | {:.2} | {:.2} | {:.1} | {:.0} | {:.0} | {:.0} | {:.0} |",
            shard.command,
            shard.mib,
            1e6 * shard.seconds / 3600.0,
            in_parts / 3600.0,
            10.0 * listing / 3600.0,
            1e6 * beside.join.0,
            shard.resident + (1e6 * beside.listing.1 + 1000.0 * shard.report) / MIB,
            1e6 * beside.join.1 / MIB,
            1e6 * shard.report / MIB,
            1000.0 * shard.report / 1024.0,
        );
    }
}

fn main() {
    let words: Vec<String> = env::args().skip(1).collect();
    let number = |word: &String| -> u64 { word.parse().unwrap_or_else(|_| wrong(word)) };
    let (place, rest) = match &words[..] {
        [make, folder, shards, chunks] if make == "make" => {
            return self::make(Path::new(folder), number(shards), number(chunks));
        }
        [] => wrong("no folder"),
        [place, rest @ ..] => (Path::new(place), rest),
    };
    let at = rest.iter().position(|word| word == "--many");
    let counts = &rest[..at.unwrap_or(rest.len())];
    let counts: Vec<u64> = match counts {
        [] => vec![1, 10, 100, 1000],
        counts => counts.iter().map(number).collect(),
    };
    let of_shards: Vec<PerShard> = [1, 16]
        .into_iter()
        .flat_map(|mib| grow(place, mib, &counts))
        .collect();
    let all = at.and_then(|at| rest.get(at + 1)).map_or(100_000, number);
    million(&of_shards, &many(place, all));
}

fn wrong(word: &str) -> ! {
    eprintln!("growth: {word}; usage: growth FOLDER [COUNT.. [--many COUNT]]");
    std::process::exit(2);
}
