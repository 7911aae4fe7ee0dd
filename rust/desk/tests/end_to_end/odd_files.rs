//! Files that can't be read, odd names, and outputs that nobody reads.

use crate::json::Json;
use crate::shards::{example, options, ONE};
use crate::support::{Folder, Run, PROGRAM};
use std::ffi::OsStr;
use std::fs::{self, File, Permissions};
use std::io;
use std::os::unix::ffi::OsStrExt;
use std::os::unix::fs::{symlink, MetadataExt, PermissionsExt};
use std::os::unix::process::CommandExt;
use std::path::{Path, PathBuf};
use std::process::{Command, Stdio};

/// The user nobody.
const NOBODY: u32 = 65534;

/// A deposit of 16 shards, of which 0, 4 and f are sound.
const OPTIONS: &str = "--preshift 0 --hash identity --minishard-bits 1 --shard-bits 4";

/// A sound shard without chunks.
fn empty() -> Vec<u8> {
    vec![0; 32]
}

fn three_sound() -> Folder {
    let folder = Folder::new();
    for name in ["0.shard", "4.shard", "f.shard"] {
        folder.write(format!("deposit/{name}"), empty());
    }
    folder
}

/// Runs the program for at most a minute, so that one that waits for ever is
/// noticed.
fn run_for_a_minute(folder: &Folder, line: &str) -> Run {
    let mut command = Command::new("timeout");
    command.args(["60", PROGRAM]).args(line.split_whitespace());
    Run::of(command.current_dir(folder.path()))
}

/// Panics unless the sound shards were judged and this one was named.
#[track_caller]
fn the_rest_is_judged(run: &Run, name: &str) {
    run.expect_status(3);
    for sound in ["0.shard", "4.shard", "f.shard"] {
        run.expect_line(&format!("deposit/{sound}: sound, 0 chunks, 32 bytes"));
    }
    let all = format!("{}{}", run.text(), run.stderr);
    assert!(all.contains(&format!("deposit/{name}: ")), "{run}");
    assert!(run.text().contains("1 not read"), "{run}");
}

#[test]
fn what_is_no_readable_file() {
    let folder = three_sound();
    let line = format!("check deposit {OPTIONS}");
    let bad = folder.at("deposit/3.shard");
    symlink("nowhere", &bad).expect("a link");
    the_rest_is_judged(&run_for_a_minute(&folder, &line), "3.shard");
    fs::remove_file(&bad).expect("removed");

    symlink("3.shard", &bad).expect("a link to itself");
    the_rest_is_judged(&run_for_a_minute(&folder, &line), "3.shard");
    fs::remove_file(&bad).expect("removed");

    fs::create_dir(&bad).expect("a folder");
    the_rest_is_judged(&run_for_a_minute(&folder, &line), "3.shard");
    fs::remove_dir(&bad).expect("removed");

    let made = Command::new("mkfifo").arg(&bad).status();
    assert!(made.expect("mkfifo starts").success());
    the_rest_is_judged(&run_for_a_minute(&folder, &line), "3.shard");
    let settle = format!("settle --drop-unlisted deposit --out settled {OPTIONS}");
    run_for_a_minute(&folder, &settle).expect_status(3);
    assert_eq!(folder.names("settled"), ["0.shard", "4.shard", "f.shard"]);
}

#[test]
fn single_files_that_can_not_be_read() {
    let folder = Folder::with_sample();
    symlink("nowhere", folder.at("3.shard")).expect("a link");
    folder.make("4.shard");
    for name in ["3.shard", "nothing/3.shard"] {
        for command in ["check", "list"] {
            let line = format!("{command} {name} --card demo/deposit.card");
            run_for_a_minute(&folder, &line).expect_status(3);
        }
        let get = format!("get {name} 12 --card demo/deposit.card");
        run_for_a_minute(&folder, &get).expect_status(3);
        let settle = format!("settle --drop-unlisted {name} --out out --card demo/deposit.card");
        run_for_a_minute(&folder, &settle).expect_status(3);
        let same = format!("same {name} demo/copy-a/3.shard --card demo/deposit.card");
        run_for_a_minute(&folder, &same).expect_status(3);
        for command in ["card show", "card check", "manifest check", "manifest show"] {
            run_for_a_minute(&folder, &format!("{command} {name}")).expect_status(3);
        }
        let card = format!("check demo/copy-a --card {name}");
        run_for_a_minute(&folder, &card).expect_status(3);
    }
    folder
        .run_line("list 4.shard --card demo/deposit.card")
        .expect_status(2);
    folder.run_line("card show 4.shard").expect_status(3);
    assert!(!folder.at("out").exists());
    // A folder without the id's shard file.
    let lost = folder.run_line("get demo/damaged 31 --card demo/deposit.card");
    lost.expect_status(1);
    assert!(lost.stderr.contains("7.shard"), "{lost}");
}

#[test]
fn files_that_vanish_during_the_run() {
    let sharding = "--preshift 0 --hash identity --minishard-bits 1 --shard-bits 8";
    let folder = Folder::new();
    let names: Vec<String> = (0..256)
        .map(|number| format!("{number:02x}.shard"))
        .collect();
    for _ in 0..5 {
        for name in &names {
            folder.write(format!("deposit/{name}"), vec![0; 100_000]);
        }
        let mut command = folder.program();
        command
            .arg("check")
            .arg("deposit")
            .args(sharding.split(' '));
        command.stdout(Stdio::piped()).stderr(Stdio::piped());
        let child = command.spawn().expect("the program starts");
        for name in names.iter().rev() {
            fs::remove_file(folder.at(format!("deposit/{name}"))).expect("removed");
        }
        let run = Run::told("check".into(), child.wait_with_output().expect("ended"));
        // Where it came too late, there was no shard or no folder to list.
        assert!(matches!(run.status, Some(0 | 1 | 3)), "{run}");
        let sound = run
            .text()
            .matches(": sound, 0 chunks, 100000 bytes")
            .count();
        let told = run.lines().len() + run.stderr.lines().count();
        assert!(
            run.stderr.lines().all(|line| line.contains("No such file")),
            "{run}"
        );
        let summary = format!(": {sound} sound, 0 refused");
        assert!(told == 1 || run.text().contains(&summary), "{run}");
    }
}

/// The program as a user who may not read everything; as root where that can
/// be changed to nobody, else as who runs the test.
fn restricted(folder: &Folder) -> Option<Command> {
    let mut command = folder.program();
    let owner = fs::metadata(folder.path()).expect("a folder").uid();
    if owner == 0 {
        command.uid(NOBODY);
        let mut probe = folder.program();
        probe.uid(NOBODY).arg("--version");
        probe
            .output()
            .ok()
            .filter(|output| output.status.success())?;
    }
    Some(command)
}

#[test]
fn files_without_permission() {
    let folder = three_sound();
    let Some(mut command) = restricted(&folder) else {
        eprintln!("the program can't be run as nobody here");
        return;
    };
    let bad = folder.write("deposit/3.shard", empty());
    fs::set_permissions(&bad, Permissions::from_mode(0o000)).expect("no permission");
    let line = format!("check deposit {OPTIONS}");
    let run = Run::of(command.args(line.split_whitespace()));
    the_rest_is_judged(&run, "3.shard");

    // No permission to write into the folder, or to read it.
    folder.make("locked");
    for mode in [0o555, 0o000] {
        let permissions = Permissions::from_mode(mode);
        fs::set_permissions(folder.at("locked"), permissions).expect("changed");
        let settle = format!("settle --drop-unlisted deposit --out locked {OPTIONS}");
        let mut command = restricted(&folder).expect("as before");
        Run::of(command.args(settle.split_whitespace())).expect_status(3);
    }
    let mut command = restricted(&folder).expect("as before");
    let check = format!("check locked {OPTIONS}");
    Run::of(command.args(check.split_whitespace())).expect_status(3);
    fs::set_permissions(folder.at("locked"), Permissions::from_mode(0o755)).expect("changed");
    assert!(folder.names("locked").is_empty());
}

/// A path in the folder whose last part has these bytes.
fn odd_path(folder: &Folder, name: &[u8]) -> PathBuf {
    folder.at(Path::new(OsStr::from_bytes(name)))
}

/// The program's run on these words, the last of them a path.
fn run_on(folder: &Folder, line: &str, path: &Path) -> Run {
    let mut command = folder.program();
    command.args(line.split_whitespace()).arg(path);
    Run::of(&mut command)
}

#[test]
fn names_that_are_not_utf_8() {
    let folder = Folder::new();
    let one = options(&ONE);
    let deposit = odd_path(&folder, b"d\xffp");
    fs::create_dir(&deposit).expect("a folder");
    fs::write(deposit.join("0.shard"), example()).expect("a file");
    fs::write(deposit.join(OsStr::from_bytes(b"\xfe.shard")), "x").expect("a file");
    fs::write(deposit.join(OsStr::from_bytes(b"\xfe")), "x").expect("a file");

    let plain = run_on(&folder, &format!("check {one}"), &deposit);
    plain.expect_status(1);
    assert!(
        plain
            .text()
            .contains("d\u{fffd}p/0.shard: sound, 2 chunks, 85 bytes"),
        "{plain}"
    );
    assert!(
        plain
            .text()
            .contains("\u{fffd}.shard: not the name of a shard"),
        "{plain}"
    );
    assert!(plain.text().contains("1 misnamed"), "{plain}");

    let json = run_on(&folder, &format!("check --json {one}"), &deposit);
    json.expect_status(1);
    let objects: Vec<Json> = json
        .lines()
        .iter()
        .map(|l| Json::read(l).expect("JSON"))
        .collect();
    let hex = |path: &Path| -> String {
        let bytes = path.as_os_str().as_bytes();
        bytes.iter().map(|byte| format!("{byte:02x}")).collect()
    };
    for name in [&b"0.shard"[..], b"\xfe.shard"] {
        let path = hex(&deposit.join(OsStr::from_bytes(name)));
        let told = objects
            .iter()
            .any(|o| o.text("path_hex") == Some(path.as_str()));
        assert!(told, "{path}\n{json}");
    }

    let get = {
        let mut command = folder.program();
        command
            .arg("get")
            .arg(&deposit)
            .arg("10")
            .args(one.split_whitespace());
        Run::of(&mut command)
    };
    assert_eq!(get.expect_status(0).stdout, b"cde");
    let settled = odd_path(&folder, b"s\xff");
    let settle = {
        let mut command = folder.program();
        command.arg("settle").arg(deposit.join("0.shard"));
        command
            .args(one.split_whitespace())
            .arg("--out")
            .arg(&settled);
        Run::of(&mut command)
    };
    settle.expect_status(0);
    assert_eq!(fs::read(&settled).expect("a settled form"), example());
    let mut joined = OsStr::from_bytes(b"--out=").to_os_string();
    joined.push(odd_path(&folder, b"\xffj"));
    let settle = {
        let mut command = folder.program();
        command.arg("settle").arg(deposit.join("0.shard"));
        command.args(one.split_whitespace()).arg(joined);
        Run::of(&mut command)
    };
    settle.expect_status(0);
    assert_eq!(
        fs::read(odd_path(&folder, b"\xffj")).expect("a settled form"),
        example()
    );
}

#[test]
fn names_with_control_characters() {
    let folder = Folder::new();
    let deposit = odd_path(&folder, b"a\nb\x1b[2J: sound");
    fs::create_dir(&deposit).expect("a folder");
    fs::write(deposit.join("0.shard"), example()).expect("a file");
    fs::write(deposit.join("1\n.shard"), example()).expect("a file");
    for line in ["check", "check --json"] {
        let run = run_on(&folder, &format!("{line} {}", options(&ONE)), &deposit);
        run.expect_status(1);
        let control = |byte: &u8| *byte != b'\n' && byte.is_ascii_control();
        assert!(!run.stdout.iter().any(control), "{run}");
        assert!(
            !run.lines().iter().any(|line| line.starts_with("b")),
            "{run}"
        );
    }
    let run = run_on(
        &folder,
        &format!("list {}", options(&ONE)),
        &deposit.join("2\t.shard"),
    );
    run.expect_status(2);
    assert!(
        !run.stderr.contains('\t') && !run.stderr.contains('\x1b'),
        "{run}"
    );
}

/// Lines that print enough to notice a closed output.
const TALKATIVE: [&str; 9] = [
    "check demo/copy-a --card demo/deposit.card",
    "check demo/damaged --json --card demo/deposit.card",
    "same demo/copy-a demo/damaged --card demo/deposit.card",
    "list demo/copy-a/0.shard --card demo/deposit.card",
    "get demo/copy-a 21 --card demo/deposit.card",
    "manifest show demo/mesh.manifest --nodes",
    "explain",
    "--help",
    "check --help",
];

#[test]
fn an_output_that_nobody_reads_any_more() {
    let folder = Folder::with_sample();
    for line in TALKATIVE {
        let (reader, writer) = io::pipe().expect("a pipe");
        drop(reader);
        let mut command = folder.program();
        command.args(line.split_whitespace()).stdout(writer);
        let run = Run::of(&mut command);
        let told = (run.status, run.stderr.as_str());
        assert_eq!(told, (Some(3), ""), "{run}");
        let shell = Command::new("sh")
            .args(["-c", "\"$0\" \"$@\" | head -n 1", PROGRAM])
            .args(line.split_whitespace())
            .current_dir(folder.path())
            .output();
        let first = Run::told(line.to_string(), shell.expect("sh starts"));
        assert!(
            first.stderr.is_empty() || line.contains("damaged"),
            "{first}"
        );
    }
}

#[test]
fn an_output_without_room() {
    let folder = Folder::with_sample();
    for line in TALKATIVE {
        let mut command = folder.program();
        let full = File::options()
            .write(true)
            .open("/dev/full")
            .expect("a full device");
        command.args(line.split_whitespace()).stdout(full);
        let run = Run::of(&mut command);
        run.expect_status(3);
        assert!(!run.stderr.is_empty(), "{run}");
    }
}
