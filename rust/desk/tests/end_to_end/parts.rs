//! Runs in parts, their reports, and the joining of these.

use std::fs;
use std::process::{Child, Stdio};
use std::thread;
use std::time::{Duration, Instant};

use crate::json::Json;
use crate::support::{Folder, Run};
use testkit::Rng;

/// Runs a line in so many parts, with a report for each, and gives their names.
fn in_parts(folder: &Folder, line: &str, of: u64) -> Vec<String> {
    let report = |part| {
        let name = format!("{part}of{of}.report");
        let _ = fs::remove_file(folder.at(&name));
        let line = format!("{line} --part {part}/{of} --report {name}");
        let run = folder.run_line(&line);
        assert!(
            run.stderr.is_empty() || run.stderr.starts_with("see:"),
            "{run}"
        );
        assert_eq!(run.lines().len(), 1, "{run}");
        name
    };
    (1..=of).map(report).collect()
}

fn join(folder: &Folder, reports: &[String], options: &str) -> Run {
    folder.run_line(&format!("join {} {options}", reports.join(" ")))
}

/// Two runs told the same, on both outputs.
#[track_caller]
fn expect_alike(one: &Run, other: &Run, what: &str) {
    assert_eq!(one.text(), other.text(), "{what}");
    assert_eq!(one.stderr, other.stderr, "{what}");
    assert_eq!(one.status, other.status, "{what}");
}

/// The joined parts of a line are what the plain line prints, in both forms.
fn expect_joined(folder: &Folder, line: &str, splits: impl IntoIterator<Item = u64>) {
    let plain = ["", "--json"].map(|form| folder.run_line(&format!("{line} {form}")));
    for of in splits {
        let reports = in_parts(folder, line, of);
        for (plain, form) in plain.iter().zip(["", "--json"]) {
            let what = format!("{line} {form} in {of}");
            expect_alike(&join(folder, &reports, form), plain, &what);
        }
    }
}

/// The sample's deposits, sound, damaged and of pairs, and one with odd files.
fn deposits() -> Folder {
    let folder = Folder::with_sample();
    folder.make("empty");
    folder.make("odd");
    for name in ["0.shard", "3.shard"] {
        fs::copy(
            folder.at("demo/copy-a").join(name),
            folder.at("odd").join(name),
        )
        .unwrap();
    }
    folder.write("odd/name.shard", b"x");
    folder.write("odd/4.shard", b"");
    folder.write("odd/5.index", b"");
    folder.write("odd/3.data", b"");
    folder.write("odd/notes", b"");
    folder.make("odd/6.shard");
    folder
}

const CARD: &str = "--card demo/deposit.card";

/// All splits are joined in the crate's own tests, in one process.
#[test]
fn parts_of_processes_join_to_the_plain_run() {
    let folder = deposits();
    for line in [
        "check demo/damaged odd --unlisted",
        "same demo/copy-a odd",
        "holdings demo/damaged odd --verbose",
        "fingerprint demo/damaged",
    ] {
        expect_joined(&folder, &format!("{line} {CARD}"), [1, 3, 11]);
    }
}

/// The files of a folder, by name.
fn files(folder: &Folder, name: &str) -> Vec<(String, Vec<u8>)> {
    let names = folder.names(name).into_iter();
    names
        .map(|file| (file.clone(), folder.read(format!("{name}/{file}"))))
        .collect()
}

/// The chunks of the sample's deposit as loose files in `loose`.
fn with_loose(folder: &Folder) {
    let cover = "cover -1000,-1000,-1000 1000,1000,1000 --deposit demo/copy-a --out loose";
    folder.run_line(&format!("{cover} {CARD}")).expect_status(0);
}

#[test]
fn parts_settle_and_pack_what_one_run_does() {
    let folder = deposits();
    with_loose(&folder);
    for line in [
        "settle demo/copy-b --drop-unlisted",
        "settle odd --drop-unlisted",
        "pack loose",
    ] {
        let line = format!("{line} --out out {CARD}");
        for form in ["", "--json"] {
            let plain = folder.run_line(&format!("{line} {form}"));
            let whole = files(&folder, "out");
            fs::remove_dir_all(folder.at("out")).unwrap();
            let joined = join(&folder, &in_parts(&folder, &line, 3), form);
            expect_alike(&joined, &plain, &format!("{line} {form}"));
            assert_eq!(files(&folder, "out"), whole);
            assert!(!whole.is_empty());
            fs::remove_dir_all(folder.at("out")).unwrap();
        }
    }
}

#[test]
fn a_part_alone_tells_its_shards() {
    let folder = deposits();
    let line = format!("check demo/damaged {CARD}");
    let plain = folder.run_line(&format!("{line} --json"));
    let is_shard = |line: &&str| Json::read(line).unwrap().get("path").is_some();
    let mut all: Vec<&str> = plain.lines().into_iter().filter(is_shard).collect();
    let parts: Vec<Run> = (1..=3)
        .map(|part| folder.run_line(&format!("{line} --json --part {part}/3")))
        .collect();
    let mut told: Vec<&str> = parts.iter().flat_map(Run::lines).filter(is_shard).collect();
    all.sort_unstable();
    told.sort_unstable();
    assert_eq!(told, all);
}

#[test]
fn a_report_has_an_object_a_line() {
    let folder = deposits();
    let plain = folder.run_line(&format!("check odd --json {CARD}"));
    let reports = in_parts(&folder, &format!("check odd {CARD}"), 1);
    let report = String::from_utf8(folder.read(&reports[0])).unwrap();
    let lines: Vec<Json> = report
        .lines()
        .map(|line| Json::read(line).unwrap())
        .collect();
    let (head, last) = (&lines[0], &lines[lines.len() - 1]);
    assert_eq!(head.text("result"), Some("part"));
    assert_eq!(head.text("command"), Some("check"));
    assert_eq!(
        (head.number("part"), head.number("parts")),
        (Some("1"), Some("1"))
    );
    assert_eq!(last.text("result"), Some("ended"));
    assert_eq!(last.number("status"), Some("3"));
    // Each object that is printed, in its order, with its members first.
    let printed = plain.lines();
    let inner = report.lines().skip(1).take(lines.len() - 2);
    for (line, printed) in inner.zip(&printed[..printed.len() - 1]) {
        assert!(
            line.starts_with(&printed[..printed.len() - 1]),
            "{line}\n{printed}"
        );
    }
    assert_eq!(lines.len() - 2, printed.len() - 1);
}

#[test]
fn missing_and_doubled_parts_are_named() {
    let folder = deposits();
    let reports = in_parts(&folder, &format!("check demo/copy-a {CARD}"), 12);
    let run = join(&folder, &reports[..11], "");
    run.expect_status(2);
    assert!(run.stdout.is_empty());
    assert!(
        run.stderr.starts_with("1 part of 12 missing: 12\n"),
        "{run}"
    );
    let run = join(&folder, &reports[..1], "--json");
    run.expect_status(2);
    let named = "11 parts of 12 missing: 2, 3, 4, 5, 6, 7, 8, 9, 10, 11 and 1 more\n";
    assert!(run.stderr.starts_with(named), "{run}");
    let mut twice = reports.clone();
    twice[4] = reports[7].clone();
    let run = join(&folder, &twice, "");
    run.expect_status(2);
    let named = "8of12.report and 8of12.report are both of part 8\n";
    assert!(run.stderr.starts_with(named), "{run}");
    let mut reports = reports;
    reports.push("none".into());
    join(&folder, &reports, "").expect_status(3);
}

#[test]
fn parts_that_disagree_are_named() {
    let folder = deposits();
    let first = format!("check demo/copy-a {CARD} --part 1/2 --report 1.report");
    folder.run_line(&first).expect_status(0);
    let second = |line: &str, what: &str| {
        let _ = fs::remove_file(folder.at("2.report"));
        folder.run_line(&format!("{line} --part 2/2 --report 2.report"));
        let run = folder.run_line("join 1.report 2.report");
        run.expect_status(2);
        assert!(run.stdout.is_empty());
        let told = format!("1.report and 2.report disagree on {what}\n");
        assert!(run.stderr.starts_with(&told), "{run}");
    };
    second(&format!("holdings demo/copy-a {CARD}"), "command");
    second(&format!("check demo/copy-b {CARD}"), "words");
    second(&format!("check demo/copy-a --unlisted {CARD}"), "words");
    second("check demo/copy-a --card demo/murmur.card", "hash");
    // Settings that are given otherwise are the same ones.
    let _ = fs::remove_file(folder.at("2.report"));
    let shown = folder.run_line("card show demo/deposit.card");
    let options = shown.text().split_once("as options: ").unwrap().1;
    let line = format!("check demo/copy-a {options} --part 2/2 --report 2.report --jobs 1");
    folder.run_line(&line).expect_status(0);
    folder.run_line("join 1.report 2.report").expect_status(0);
    // A folder that has changed meanwhile: a file, a shard, a length.
    folder.write("demo/copy-a/notes", b"");
    second(&format!("check demo/copy-a {CARD}"), "other files");
    fs::remove_file(folder.at("demo/copy-a/notes")).unwrap();
    let shard = folder.read("demo/copy-a/0.shard");
    fs::write(folder.at("demo/copy-a/0.shard"), &shard[1..]).unwrap();
    second(&format!("check demo/copy-a {CARD}"), "listing");
    fs::remove_file(folder.at("demo/copy-a/0.shard")).unwrap();
    second(&format!("check demo/copy-a {CARD}"), "shards");
}

#[test]
fn a_report_cut_short_or_changed_is_none() {
    let folder = deposits();
    let reports = in_parts(&folder, &format!("check odd {CARD}"), 1);
    let report = folder.read(&reports[0]);
    join(&folder, &reports, "").expect_status(3);
    let step = report.len() / 60 + 1;
    for end in (0..report.len()).step_by(step).chain([report.len() - 1]) {
        folder.write("cut", &report[..end]);
        let run = folder.run_line("join cut");
        run.expect_status(2);
        assert!(run.stdout.is_empty(), "{end}");
        assert!(run.stderr.starts_with("cut: is no whole report: "), "{run}");
    }
    for place in (0..report.len()).step_by(step) {
        let mut changed = report.clone();
        changed[place] ^= 1;
        folder.write("changed", &changed);
        let run = folder.run_line("join changed");
        run.expect_status(2);
        assert!(
            run.stderr.starts_with("changed: is no whole report: "),
            "{run}"
        );
    }
    let twice = [&report[..], &report[..]].concat();
    folder.write("twice", twice);
    folder.run_line("join twice").expect_status(2);
}

#[test]
fn what_ended_well_is_not_done_again() {
    let folder = deposits();
    let line = format!("check demo/damaged {CARD} --part 2/3 --report r");
    let run = folder.run_line(&line);
    let told = run.text().replace("written", "already there");
    assert!(run.text().starts_with("r: written, part 2/3, "), "{run}");
    let report = folder.read("r");
    // Without --resume a report is left alone.
    let again = folder.run_line(&line);
    again.expect_status(2);
    assert!(
        again
            .stderr
            .starts_with("r: exists (--resume goes on from it)"),
        "{again}"
    );
    // With it the folder is listed and no shard is read: other bytes of the same length
    // and the same time are not seen.
    let shard = folder.at("demo/damaged/1.shard");
    let (bytes, about) = (fs::read(&shard).unwrap(), fs::metadata(&shard).unwrap());
    let write = |bytes: &[u8]| {
        fs::write(&shard, bytes).unwrap();
        let file = fs::File::options().write(true).open(&shard).unwrap();
        file.set_modified(about.modified().unwrap()).unwrap();
    };
    write(&vec![0; bytes.len()]);
    let again = folder.run_line(&format!("{line} --resume"));
    assert_eq!((again.text(), again.status), (&told[..], run.status));
    write(&bytes);
    // Cut short, it is made again.
    let first_line = report.iter().position(|byte| *byte == b'\n').unwrap();
    for end in [0, first_line, report.len() / 2, report.len() - 1] {
        folder.write("r", &report[..end]);
        let again = folder.run_line(&format!("{line} --resume"));
        assert_eq!((again.text(), again.status), (run.text(), run.status));
        assert_eq!(folder.read("r"), report);
    }
    // Anything else is left alone.
    for other in [&b"notes"[..], &report[..first_line / 2]] {
        folder.write("r", other);
        folder
            .run_line(&format!("{line} --resume"))
            .expect_status(2);
        assert_eq!(folder.read("r"), other);
    }
    folder.write("r", &report);
    for line in [
        line.replace("2/3", "1/3"),
        line.replace("2/3", "2/4"),
        line.replace("damaged", "copy-a"),
        line.replace("deposit.card", "murmur.card"),
        line.replace("check", "holdings"),
    ] {
        folder
            .run_line(&format!("{line} --resume"))
            .expect_status(2);
        assert_eq!(folder.read("r"), report);
    }
    // A run with an error did not end well.
    let line = format!("check odd {CARD} --report s");
    folder.run_line(&line).expect_status(3);
    fs::remove_dir(folder.at("odd/6.shard")).unwrap();
    let again = folder.run_line(&format!("{line} --resume"));
    again.expect_status(1);
    assert!(again.text().starts_with("s: written, "), "{again}");
}

/// A part that ended well, and a change after which it is done again.
#[track_caller]
fn expect_done_again(folder: &Folder, line: &str, change: impl FnOnce()) -> Run {
    let _ = fs::remove_file(folder.at("r"));
    let line = format!("{line} {CARD} --report r --resume");
    assert!(folder.run_line(&line).status <= Some(1));
    let again = folder.run_line(&line);
    assert!(again.text().starts_with("r: already there, "), "{again}");
    change();
    let again = folder.run_line(&line);
    assert!(again.text().starts_with("r: written, "), "{again}");
    again
}

#[test]
fn a_changed_deposit_is_gone_through_again() {
    let folder = deposits();
    let shard = |number: u8| folder.at(format!("demo/copy-a/{number}.shard"));
    let line = "check demo/copy-a";
    let cut = || {
        let bytes = fs::read(shard(3)).unwrap();
        fs::write(shard(3), &bytes[1..]).unwrap();
    };
    expect_done_again(&folder, line, cut).expect_status(1);
    // At the same length.
    let other = || {
        let length = fs::metadata(shard(2)).unwrap().len();
        fs::write(shard(2), vec![0; length as usize]).unwrap();
    };
    expect_done_again(&folder, line, other).expect_status(1);
    expect_done_again(&folder, line, || fs::remove_file(shard(0)).unwrap());
    let note = || drop(folder.write("demo/copy-a/notes", b""));
    expect_done_again(&folder, line, note);
    // All of it gone: the earlier answer is none of today.
    let gone = || fs::rename(folder.at("demo/copy-b"), folder.at("gone")).unwrap();
    expect_done_again(&folder, "check demo/copy-b", gone).expect_status(3);
}

#[test]
fn outputs_that_are_gone_are_made_again() {
    let folder = deposits();
    with_loose(&folder);
    for line in ["settle demo/copy-b --drop-unlisted", "pack loose"] {
        let line = format!("{line} --out out");
        let gone = || fs::remove_dir_all(folder.at("out")).unwrap();
        expect_done_again(&folder, &line, gone).expect_status(0);
        let whole = files(&folder, "out");
        assert!(!whole.is_empty());
        let one = || fs::remove_file(folder.at("out").join(&whole[0].0)).unwrap();
        expect_done_again(&folder, &line, one).expect_status(0);
        assert_eq!(files(&folder, "out"), whole);
        // One that is cut is another's: it is not written over.
        let cut = || drop(folder.write(format!("out/{}", whole[0].0), b"cut"));
        expect_done_again(&folder, &line, cut).expect_status(2);
        fs::remove_dir_all(folder.at("out")).unwrap();
    }
}

#[test]
fn a_changed_list_is_compared_again() {
    let folder = deposits();
    let list = folder.run_line(&format!("fingerprint demo/copy-a {CARD}"));
    folder.write("list", list.text());
    let shorter = || drop(folder.write("list", list.lines()[1..].join("\n")));
    let line = "fingerprint demo/copy-a --against list";
    expect_done_again(&folder, line, shorter).expect_status(1);
    // Ends of lines do not bear on it, lines of other files are counted.
    let digest = &list.text()[..64];
    let other = format!("{}{digest}  info\n", list.text()).replace('\n', "\r\n");
    folder.write("list", other);
    let run = folder.run_line(&format!("{line} {CARD}"));
    run.expect_status(0);
    let last = run.lines().pop().unwrap();
    assert!(
        last.ends_with(", 0 refused, 1 other line passed over"),
        "{run}"
    );
    let run = folder.run_line(&format!("{line} --json {CARD}"));
    let last = Json::read(run.lines().pop().unwrap()).unwrap();
    assert_eq!(last.number("other_lines"), Some("1"));
}

#[test]
fn a_report_stands_outside_the_deposit() {
    let folder = deposits();
    for line in [
        "check demo/copy-a --report demo/copy-a/r",
        "same demo/copy-a demo/copy-b --report demo/../demo/copy-b/r",
    ] {
        let run = folder.run_line(&format!("{line} {CARD}"));
        run.expect_status(2);
        assert!(
            run.stderr.contains("a report needs another folder"),
            "{run}"
        );
    }
    assert!(!folder.at("demo/copy-a/r").exists() && !folder.at("demo/copy-b/r").exists());
}

/// Where both outputs are one, the order is that of the join.
#[test]
fn the_hint_stands_behind_all_answers() {
    let folder = deposits();
    folder.write("unnamed", b"");
    let line = format!("check unnamed demo/copy-a {CARD}");
    let both = fs::File::create(folder.at("both")).unwrap();
    let mut command = folder.program();
    command.args(line.split_whitespace());
    let status = command
        .stdout(both.try_clone().unwrap())
        .stderr(both)
        .status();
    assert_eq!(status.unwrap().code(), Some(2));
    let text = String::from_utf8(folder.read("both")).unwrap();
    assert_eq!(
        text.lines().last(),
        Some("see: coronagamba check --help"),
        "{text}"
    );
}

#[test]
fn wrong_use() {
    let folder = deposits();
    for part in [
        "0/2",
        "3/2",
        "1/0",
        "1",
        "1/",
        "/2",
        "a/b",
        "+1/2",
        "1/1000001",
        "1/2/3",
    ] {
        let run = folder.run_line(&format!("check demo/copy-a {CARD} --part {part}"));
        run.expect_status(2);
        assert!(run.stderr.starts_with("--part: '"), "{run}");
    }
    for line in [
        "check demo/copy-a --resume",
        "settle demo/copy-a/0.shard --out o --part 1/2",
        "fingerprint demo/copy-a/0.shard --part 1/2",
        "same demo/copy-a/0.shard demo/copy-b/0.shard --report r",
        "pack list --out 0.shard --part 1/1",
        "holdings --add sheet --part 1/2",
    ] {
        let card = if line.contains("--add") { "" } else { CARD };
        folder.run_line(&format!("{line} {card}")).expect_status(2);
    }
    assert!(!folder.at("r").exists());
    // Settings that are refused, or a wrong output: there is no report.
    folder.write("bad.card", b"no card");
    folder
        .run_line("check demo/copy-a --card bad.card --report r")
        .expect_status(1);
    let line = format!("settle demo/copy-a --out demo/copy-a {CARD} --report r");
    folder.run_line(&line).expect_status(2);
    assert!(!folder.at("r").exists());
    folder.run_line("join").expect_status(2);
}

/// Puts files into a folder in place of all that it has.
fn put_back(folder: &Folder, name: &str, files: &[(String, Vec<u8>)]) {
    let _ = fs::remove_dir_all(folder.at(name));
    for (file, bytes) in files {
        folder.write(format!("{name}/{file}"), bytes);
    }
}

/// Starts the program in a folder, with nobody listening.
fn start(folder: &Folder, line: &str) -> Child {
    let mut command = folder.program();
    command.args(line.split_whitespace());
    let child = command.stdout(Stdio::null()).stderr(Stdio::null()).spawn();
    child.expect("the program starts")
}

/// No file that a run has begun is left.
#[track_caller]
fn expect_no_part_files(folder: &Folder) {
    for name in [".", "out"]
        .into_iter()
        .filter(|name| folder.at(name).is_dir())
    {
        let left = folder.names(name);
        assert!(!left.iter().any(|name| name.ends_with(".part")), "{left:?}");
    }
}

/// How long a run takes that nobody kills: the middle one of five.
fn run_time(folder: &Folder, line: &str) -> Duration {
    let mut times: Vec<Duration> = (0..5)
        .map(|_| {
            let _ = fs::remove_dir_all(folder.at("out"));
            let begun = Instant::now();
            assert!(start(folder, line).wait().expect("it ends").success());
            fs::remove_file(folder.at("1.report")).unwrap();
            begun.elapsed()
        })
        .collect();
    times.sort();
    times[2]
}

/// What became of a run that was to be killed.
enum Killed {
    /// It was, with so many outputs written.
    After(usize),
    /// It had ended before, after this time.
    Not(Duration),
}

/// Kills part 1 of 2 after a time, then runs it to its end; what it left shows in
/// nothing but in the word 'already there', which a plain run says of the same files.
fn kill_and_resume(folder: &Folder, line: &str, after: Duration) -> Killed {
    let part = |part: u8| format!("{line} --part {part}/2 --report {part}.report --resume");
    let _ = fs::remove_dir_all(folder.at("out"));
    let started = Instant::now();
    let mut child = start(folder, &part(1));
    while started.elapsed() < after && child.try_wait().expect("it is known").is_none() {
        thread::sleep(Duration::from_micros(100).min(after - started.elapsed().min(after)));
    }
    child.kill().expect("it can be killed");
    if child.wait().expect("it ends").code().is_some() {
        fs::remove_file(folder.at("1.report")).unwrap();
        return Killed::Not(started.elapsed());
    }
    let mut begun = Vec::new();
    if !folder.at("1.report").exists() && folder.at("out").is_dir() {
        begun = files(folder, "out");
        begun.retain(|(name, _)| !name.ends_with(".part"));
    }
    let reports = [1, 2].map(|number| {
        folder.run_line(&part(number)).expect_status(0);
        format!("{number}.report")
    });
    let joined = ["", "--json"].map(|form| join(folder, &reports, form));
    expect_no_part_files(folder);
    let parts = folder.at("out").is_dir().then(|| files(folder, "out"));
    for (joined, form) in joined.iter().zip(["", "--json"]) {
        put_back(folder, "out", &begun);
        let plain = folder.run_line(&format!("{line} {form}"));
        expect_alike(
            joined,
            &plain,
            &format!("{line} {form}, {} files", begun.len()),
        );
    }
    assert_eq!(
        folder.at("out").is_dir().then(|| files(folder, "out")),
        parts
    );
    for report in reports {
        fs::remove_file(folder.at(report)).unwrap();
    }
    Killed::After(begun.len())
}

#[test]
fn killed_at_random_points_a_resumed_run_ends_right() {
    let (folder, rng) = (deposits(), &mut Rng::new(32_100));
    with_loose(&folder);
    let mut between_outputs = 0;
    for (line, times) in [
        ("settle demo/copy-b --drop-unlisted --out out", 40),
        ("pack loose --out out", 40),
        ("check demo/copy-a demo/copy-b demo/copy-c demo/pairs", 20),
    ] {
        let line = format!("{line} {CARD} --jobs 1");
        let whole = run_time(&folder, &format!("{line} --part 1/2 --report 1.report"));
        // The time of a run follows the machine's other work: it is what the last run took
        // that ended, and a little more after each that did not.
        let (mut most, mut killed, mut not_killed) = (whole.as_micros() as u64, 0, 0);
        while killed < times {
            let after = Duration::from_micros(rng.below(most));
            match kill_and_resume(&folder, &line, after) {
                Killed::After(outputs) => {
                    killed += 1;
                    most += most / 20;
                    between_outputs += u32::from((1..4).contains(&outputs));
                }
                Killed::Not(took) => {
                    not_killed += 1;
                    most = took.as_micros() as u64;
                }
            }
            assert!(
                not_killed <= 4 * times,
                "{line}: runs end before they are killed"
            );
        }
    }
    assert!(
        between_outputs > 5,
        "{between_outputs} of 100 kills came between outputs"
    );
}

/// Two tasks may run one part, where a lost node comes back.
#[test]
fn two_runs_of_one_part_spoil_nothing() {
    let folder = deposits();
    with_loose(&folder);
    for line in ["settle demo/copy-b --drop-unlisted", "pack loose"] {
        let line = format!("{line} --out out {CARD}");
        folder.run_line(&line).expect_status(0);
        let whole = files(&folder, "out");
        for _ in 0..10 {
            fs::remove_dir_all(folder.at("out")).unwrap();
            let part = format!("{line} --report 1.report --resume");
            let mut runs = [&part; 2].map(|line| start(&folder, line));
            for run in &mut runs {
                assert!(run.wait().expect("it ends").success());
            }
            assert_eq!(files(&folder, "out"), whole);
            expect_no_part_files(&folder);
            let joined = folder.run_line("join 1.report");
            joined.expect_status(0);
            assert!(joined.text().contains("8 shards: "), "{joined}");
            fs::remove_file(folder.at("1.report")).unwrap();
        }
        fs::remove_dir_all(folder.at("out")).unwrap();
    }
}
