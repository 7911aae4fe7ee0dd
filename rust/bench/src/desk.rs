//! The desk tool over a folder of shards, beside `cp` and `cat` on the same
//! files. These are times on the wall: the tool works on all cores, and its
//! outputs are flushed to the disk, which `cp` leaves to the system unless
//! `sync` follows.

use crate::runner::{bytes, quartiles};
use reference::settle::settled_form;
use reference::sharding::Sharding;
use std::env;
use std::fs;
use std::path::{Path, PathBuf};
use std::process::{Command, Stdio};
use std::time::Instant;

const RUNS: usize = 5;
const SHARDS: u64 = 16;
const CHUNKS: u64 = 1 << 10;
const CHUNK_BYTES: usize = 1 << 16;

const SHARDING: Sharding = Sharding {
    preshift: 0,
    hash: 0,
    minishard_bits: 6,
    shard_bits: 4,
    kind: 0,
};

/// The desk tool, which lies beside this program.
fn tool() -> PathBuf {
    let here = env::current_exe().expect("this program's path");
    let tool = here.with_file_name("coronagamba");
    assert!(tool.is_file(), "{} is not built", tool.display());
    tool
}

/// Writes shards of 64 MiB in chunks of 64 KiB; gives how many bytes these are.
fn write_shards(folder: &Path) -> u64 {
    let body = bytes(CHUNK_BYTES);
    let write = |shard: u64| {
        let id = |chunk: u64| chunk << 4 & !0x3ff | shard << 6 | chunk & 0x3f;
        let content: Vec<(u64, &[u8])> = (0..CHUNKS).map(|chunk| (id(chunk), &body[..])).collect();
        let file = settled_form(&SHARDING, &content);
        fs::write(folder.join(format!("{shard:x}.shard")), &file).expect("a shard is written");
        file.len() as u64
    };
    (0..SHARDS).map(write).sum()
}

/// The tool with a command and the settings of the shards.
fn asked(command: &str, folder: &Path) -> Command {
    let mut tool = Command::new(tool());
    tool.arg(command).arg(folder);
    for (option, number) in [
        ("--preshift", SHARDING.preshift),
        ("--minishard-bits", SHARDING.minishard_bits),
        ("--shard-bits", SHARDING.shard_bits),
    ] {
        tool.arg(option).arg(number.to_string());
    }
    tool.args(["--hash", "identity"]);
    tool
}

/// A shell's command with the two folders as `$1` and `$2`.
fn shell(script: &str, from: &Path, to: &Path) -> Command {
    let mut shell = Command::new("sh");
    shell.args(["-c", script, "sh"]).arg(from).arg(to);
    shell
}

/// The seconds that a command takes.
fn seconds(mut command: Command) -> f64 {
    let start = Instant::now();
    let status = command.stdout(Stdio::null()).status();
    assert!(status.expect("the command runs").success());
    start.elapsed().as_secs_f64()
}

/// Prints the table.
pub fn run() {
    let place = env::temp_dir().join(format!("desk-{}", std::process::id()));
    let (from, to) = (place.join("from"), place.join("to"));
    fs::create_dir_all(&from).expect("a folder for the shards");
    let length = write_shards(&from);
    let settle = || {
        let mut command = asked("settle", &from);
        command.arg("--out").arg(&to);
        command
    };
    let rows: [(&str, &dyn Fn() -> Command); 5] = [
        ("`check DIR`", &|| asked("check", &from)),
        ("`cat`, nothing written", &|| {
            shell("cat \"$1\"/* >/dev/null", &from, &to)
        }),
        ("`settle DIR --out DIR2`, flushed", &settle),
        ("`cp`", &|| shell("cp -r \"$1\" \"$2\"", &from, &to)),
        ("`cp`, then `sync`", &|| {
            shell("cp -r \"$1\" \"$2\" && sync -f \"$2\"", &from, &to)
        }),
    ];
    println!("\n| {SHARDS} shards of 64 MiB in chunks of 64 KiB | GB/s (middle half) |\n|---|---|");
    let mut rates = rows.map(|_| Vec::new());
    for _ in 0..=RUNS {
        for ((_, command), rates) in rows.iter().zip(&mut rates) {
            let _ = fs::remove_dir_all(&to);
            rates.push(length as f64 / 1e9 / seconds(command()));
        }
    }
    for ((name, _), mut rates) in rows.into_iter().zip(rates) {
        // The first run has the pages to fill.
        rates.remove(0);
        let [low, rate, high] = quartiles(rates);
        println!("| {name} | {rate:.2} ({low:.2} to {high:.2}) |");
    }
    fs::remove_dir_all(&place).expect("the shards are removed");
}
