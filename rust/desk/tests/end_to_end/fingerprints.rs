//! Fingerprints: held to `sha256sum` on the independent program's settled forms.

use crate::json::Json;
use crate::shards::options;
use crate::support::{Folder, Run, PROGRAM};
use reference::names::{data_name, index_name, shard_name};
use reference::pair::Pair;
use reference::settle::{content_of, form_of};
use reference::sharding::{Sharding, VOLUME};
use std::fs;
use std::process::{Command, Output};
use testkit::{shards, Rng};

const CARD: &str = "--card demo/deposit.card";

/// 32 shards of 4 minishards.
const SHARDING: Sharding = Sharding {
    preshift: 1,
    hash: 0,
    minishard_bits: 2,
    shard_bits: 5,
    kind: VOLUME,
};

/// What `sha256sum` says of files in a folder.
fn sha256sum(folder: &Folder, name: &str, words: &[&str]) -> Output {
    Command::new("sha256sum")
        .args(words)
        .current_dir(folder.at(name))
        .output()
        .expect("sha256sum starts")
}

/// Whether `sha256sum -c` says yes to a list over a folder.
fn checks(folder: &Folder, name: &str, list: &str) -> bool {
    let list = folder.at(list);
    let list = list.to_str().expect("a path of the tests");
    sha256sum(folder, name, &["--strict", "-c", list])
        .status
        .success()
}

/// Two layouts of the same chunks, `one` of them with pairs, and the independent
/// program's settled forms in `forms`.
fn deposits(folder: &Folder, rng: &mut Rng) {
    for number in 0..32 {
        let content = shards::content(rng, &SHARDING, number, 9);
        let name = shard_name(&SHARDING, number).expect("a name");
        for side in ["one", "two"] {
            let file = shards::lay_out(rng, &SHARDING, &content);
            if side == "one" && rng.once_in(3) {
                let pair = Pair::cut(&file, 16 << SHARDING.minishard_bits);
                let [index, data] = [index_name, data_name];
                let named = |name: Result<String, u8>| format!("one/{}", name.expect("a name"));
                folder.write(named(index(&SHARDING, number)), pair.index);
                folder.write(named(data(&SHARDING, number)), pair.data);
            } else {
                folder.write(format!("{side}/{name}"), &file);
            }
            let listed = content_of(&SHARDING, number, &file).expect("a sound shard");
            let form = form_of(&SHARDING, &listed);
            folder.write(format!("forms/{name}"), form);
        }
    }
}

/// Runs `fingerprint` over a folder of these deposits.
fn fingerprint(folder: &Folder, line: &str) -> Run {
    let options = options(&SHARDING);
    folder.run_line(&format!("fingerprint {line} --drop-unlisted {options}"))
}

#[test]
fn lists_are_those_of_sha256sum_over_settled_forms() {
    let (folder, rng) = (Folder::new(), &mut Rng::new(32_001));
    deposits(&folder, rng);
    let names = folder.names("forms");
    let words: Vec<&str> = names.iter().map(String::as_str).collect();
    let expected = sha256sum(&folder, "forms", &words).stdout;
    assert_eq!(names.len(), 32);
    for side in ["one", "two", "forms"] {
        for more in ["", "--jobs 1", "--jobs 7"] {
            let run = fingerprint(&folder, &format!("{side} {more}"));
            assert_eq!(run.expect_status(0).stdout, expected, "{run}");
            assert_eq!(run.stderr, "");
        }
    }
    // A pair by either of its files, and a file under another name.
    let first = String::from_utf8(expected.clone()).expect("text");
    let first = first.lines().next().expect("a line");
    fs::copy(folder.at("forms/00.shard"), folder.at("copy")).expect("copied");
    let run = fingerprint(&folder, "copy --shard 0");
    assert_eq!(run.expect_status(0).lines(), [first], "{run}");
    let mut pairs = folder.names("one").into_iter();
    let pair = pairs.find(|name| name.ends_with(".data"));
    let stem = pair.expect("a pair").replace(".data", "");
    let [index, data] =
        ["index", "data"].map(|ending| fingerprint(&folder, &format!("one/{stem}.{ending}")));
    assert_eq!(index.expect_status(0).stdout, data.expect_status(0).stdout);
    assert!(index.lines()[0].ends_with(&format!("  {stem}.shard")));
}

/// Settled by this program, a copy answers `sha256sum -c` as it answers `--against`:
/// whole, with a changed byte, and with a file that is not there.
#[test]
fn a_settled_copy_answers_sha256sum_alone() {
    let (folder, rng) = (Folder::new(), &mut Rng::new(32_002));
    deposits(&folder, rng);
    let options = options(&SHARDING);
    let settle = format!("settle two --out settled --drop-unlisted {options}");
    folder.run_line(&settle).expect_status(0);
    let list = fingerprint(&folder, "one");
    folder.write("list", &list.expect_status(0).stdout);
    assert!(checks(&folder, "settled", "list"));
    let against = "settled --against list";
    let run = fingerprint(&folder, against);
    run.expect_status(0)
        .expect_line("32 shards: 32 same, 0 different, 0 missing, 0 more, 0 refused");
    assert_eq!(run.lines()[10], "0a.shard: same");
    // The other site's list is of `sha256sum`.
    let names = folder.names("settled");
    let words: Vec<&str> = names.iter().map(String::as_str).collect();
    folder.write("list", sha256sum(&folder, "settled", &words).stdout);
    fingerprint(&folder, "one --against list").expect_status(0);
    // Another chunk.
    let name = "settled/0a.shard";
    let sound = folder.read(name);
    let other = shard_with_one_more(rng, &sound);
    folder.write(name, other);
    assert!(!checks(&folder, "settled", "list"));
    let run = fingerprint(&folder, against);
    run.expect_status(1)
        .expect_line("0a.shard: different")
        .expect_line("32 shards: 31 same, 1 different, 0 missing, 0 more, 0 refused");
    // No such shard.
    fs::remove_file(folder.at(name)).expect("removed");
    assert!(!checks(&folder, "settled", "list"));
    let run = fingerprint(&folder, against);
    run.expect_status(1)
        .expect_line("0a.shard: missing, only the list has it")
        .expect_line("32 shards: 31 same, 0 different, 1 missing, 0 more, 0 refused");
    // A single file is compared with its own line.
    fingerprint(&folder, "settled/0b.shard --against list").expect_status(0);
    // One that the list does not have.
    let text = String::from_utf8(folder.read("list")).expect("text");
    let few: Vec<&str> = text.lines().filter(|line| !line.contains(" 0b.")).collect();
    folder.write("few", few.join("\n"));
    let run = fingerprint(&folder, "settled --against few");
    run.expect_status(1)
        .expect_line("0b.shard: more, the list does not have it")
        .expect_line("32 shards: 30 same, 0 different, 1 missing, 1 more, 0 refused");
}

/// A settled form of other chunks than these.
fn shard_with_one_more(rng: &mut Rng, form: &[u8]) -> Vec<u8> {
    loop {
        let content = shards::content(rng, &SHARDING, 10, 9);
        let file = shards::lay_out(rng, &SHARDING, &content);
        let listed = content_of(&SHARDING, 10, &file).expect("a sound shard");
        let other = form_of(&SHARDING, &listed);
        if other != form {
            return other;
        }
    }
}

/// Nothing but the list goes to standard output: what has no fingerprint is told apart
/// from it.
#[test]
fn what_has_no_fingerprint_is_told_apart() {
    let folder = Folder::with_sample();
    let list = folder.run_line(&format!("fingerprint demo/copy-a {CARD}"));
    folder.write("list", &list.expect_status(0).stdout);
    let odd = folder.make("odd");
    for number in 0..4 {
        let name = format!("{number}.shard");
        fs::copy(folder.at("demo/copy-a").join(&name), odd.join(&name)).expect("copied");
    }
    folder.write("odd/1.shard", b"short");
    folder.write("odd/2.data", b"");
    folder.write("odd/04.shard", b"");
    folder.write("odd/5.index", b"");
    folder.write("odd/info", b"");
    fs::create_dir(folder.at("odd/6.shard")).expect("made");
    let run = folder.run_line(&format!("fingerprint odd {CARD}"));
    run.expect_status(3);
    assert_eq!(run.lines(), [list.lines()[0], list.lines()[3]], "{run}");
    for told in [
        "1.shard: refused 6: ",
        "2.shard: ",
        "04.shard: not the name of a shard",
        "5.index: ",
        "6.shard: cannot be read: ",
        "\n7 shards: 2 fingerprints, 1 refused, 1 not read, 1 misnamed, 1 with half a pair, \
         1 in both editions, 1 other file passed over\n",
    ] {
        assert!(run.stderr.contains(told), "{told}\n{run}");
    }
    // With a list these are answers; those that are there are not missing.
    let run = folder.run_line(&format!("fingerprint odd --against list {CARD}"));
    run.expect_status(3)
        .expect_line("0.shard: same")
        .expect_line("4.shard: missing, only the list has it")
        .expect_line("7.shard: missing, only the list has it");
    let last = run.lines().pop().expect("a summary").to_string();
    assert!(last.starts_with("9 shards: 2 same, 0 different, 2 missing, 0 more, 1 refused, 1 not"));
    assert!(!run.text().contains("5.shard: missing"), "{run}");
}

#[test]
fn objects() {
    let folder = Folder::with_sample();
    let list = folder.run_line(&format!("fingerprint demo/copy-a {CARD}"));
    let few: Vec<&str> = list.lines().into_iter().skip(1).collect();
    folder.write("few", few.join("\n"));
    fs::remove_file(folder.at("demo/copy-a/7.shard")).expect("removed");
    let run = folder.run_line(&format!(
        "fingerprint demo/copy-a --against few --json {CARD}"
    ));
    let lines = run.expect_status(1).lines();
    assert_eq!(lines.len(), 9, "{run}");
    for line in &lines {
        Json::read(line).expect("an object");
    }
    let [digest, name] = few[0].splitn(2, "  ").collect::<Vec<_>>()[..] else {
        panic!("{}", few[0]);
    };
    assert_eq!(
        lines[1],
        format!(
            "{{\"path\":\"demo/copy-a/1.shard\",\"result\":\"same\",\"name\":\"{name}\",\
             \"fingerprint\":\"{digest}\",\"expected\":\"{digest}\",\"chunks\":16,\
             \"bytes\":1328,\"settled_bytes\":1328}}"
        )
    );
    let (missing, _) = few[6].split_once("  ").expect("a line");
    assert_eq!(
        lines[7],
        format!("{{\"name\":\"7.shard\",\"result\":\"missing\",\"expected\":\"{missing}\"}}")
    );
    assert_eq!(
        lines[8],
        "{\"result\":\"summary\",\"shards\":8,\"same\":6,\"different\":0,\"missing\":1,\
         \"more\":1,\"other_lines\":0,\"refused\":0,\"not_read\":0,\"misnamed\":0,\
         \"half_pairs\":0,\"both_editions\":0,\"other_files\":0}"
    );
}

/// Without the program, and with one that answers otherwise, there is no list.
#[test]
fn a_sha256sum_that_is_missing_or_wrong_is_told() {
    let folder = Folder::with_sample();
    folder.make("bin");
    let run = |path: &str| {
        let mut command = Command::new(PROGRAM);
        command.args(["fingerprint", "demo/copy-a", "--card", "demo/deposit.card"]);
        command.current_dir(folder.path()).env("PATH", path);
        Run::of(&mut command)
    };
    let bin = folder.at("bin");
    let bin = bin.to_str().expect("a path of the tests");
    let missing = run(bin);
    assert_eq!(missing.expect_status(3).text(), "");
    assert!(missing.stderr.contains("sha256sum: cannot be used: "));
    let path = format!("{bin}:/usr/bin:/bin");
    for (script, told) in [
        ("exec sha512sum", "gave no SHA-256"),
        ("cat >/dev/null; exit 1", "ended with"),
        (
            "cat >/dev/null; printf '%064d  -\\n' 7",
            "which is not its SHA-256",
        ),
    ] {
        let file = folder.write("bin/sha256sum", format!("#!/bin/sh\n{script}\n"));
        let runs = std::os::unix::fs::PermissionsExt::from_mode(0o755);
        fs::set_permissions(&file, runs).expect("it runs");
        let wrong = run(&path);
        assert_eq!(wrong.expect_status(3).text(), "", "{script}");
        assert!(wrong.stderr.contains(told), "{wrong}");
    }
}
