//! Folders of shards: every verdict is held to the independent program's.

use crate::json::Json;
use crate::shards::options;
use crate::support::{Folder, Run};
use reference::names::shard_name;
use reference::shard;
use reference::sharding::Sharding;
use std::collections::BTreeMap;
use testkit::shards::{content, damage, differing, lay_out, overlapping, Content, Difference};
use testkit::Rng;

/// 256 shards of 4 minishards, names of two digits.
const SHARDING: Sharding = Sharding {
    preshift: 1,
    hash: 0,
    minishard_bits: 2,
    shard_bits: 8,
    kind: 0,
};

/// Shard files by number.
type Shards = BTreeMap<u64, Vec<u8>>;

fn name(number: u64) -> String {
    shard_name(&SHARDING, number).expect("a shard of the specification")
}

/// This many shards, some of them damaged.
fn shards(rng: &mut Rng, count: u64) -> Shards {
    let mut shards = Shards::new();
    for number in 0..count {
        let mut file = if rng.once_in(4) {
            overlapping(rng, &SHARDING, number, 12)
        } else {
            let content = content(rng, &SHARDING, number, 12);
            lay_out(rng, &SHARDING, &content)
        };
        if rng.once_in(4) {
            damage(rng, &SHARDING, &mut file);
        }
        shards.insert(number, file);
    }
    shards
}

/// Writes the shards into a folder under their names.
fn store(folder: &Folder, under: &str, shards: &Shards) {
    folder.make(under);
    for (number, file) in shards {
        folder.write(format!("{under}/{}", name(*number)), file);
    }
}

/// The start of the line that a check prints for a shard.
fn verdict(path: &str, number: u64, file: &[u8]) -> String {
    match shard::list(&SHARDING, number, file) {
        Ok(entries) => {
            let chunks = if entries.len() == 1 {
                "chunk"
            } else {
                "chunks"
            };
            format!(
                "{path}: sound, {} {chunks}, {} bytes",
                entries.len(),
                file.len()
            )
        }
        Err(refusal) => match refusal.minishard {
            Some(minishard) => format!(
                "{path}: refused {} in minishard {minishard}: ",
                refusal.number
            ),
            None => format!("{path}: refused {}: ", refusal.number),
        },
    }
}

/// How many chunks a sound shard lists, in words.
fn count(number: u64, file: &[u8]) -> String {
    match shard::list(&SHARDING, number, file).expect("sound").len() {
        1 => "1 chunk".to_string(),
        count => format!("{count} chunks"),
    }
}

/// The lines that begin an answer; those that explain a refusal are indented.
fn answers(run: &Run) -> Vec<&str> {
    let lines = run.lines().into_iter();
    lines.filter(|line| !line.starts_with(' ')).collect()
}

#[test]
fn two_hundred_shards_are_checked() {
    let shards = shards(&mut Rng::new(1), 200);
    let folder = Folder::new();
    store(&folder, "deposit", &shards);
    let line = format!("check deposit {}", options(&SHARDING));
    let run = folder.run_line(&line);
    run.expect_status(1);

    let answers = answers(&run);
    assert_eq!(answers.len(), 202, "{run}");
    let mut refused = BTreeMap::new();
    for ((number, file), answer) in shards.iter().zip(&answers) {
        let expected = verdict(&format!("deposit/{}", name(*number)), *number, file);
        assert!(answer.starts_with(&expected), "{answer}\n{expected}");
        if let Err(refusal) = shard::check(&SHARDING, *number, file) {
            *refused.entry(refusal.number).or_insert(0) += 1;
        } else {
            assert_eq!(*answer, expected);
        }
    }
    let count: u32 = refused.values().sum();
    assert!(refused.len() >= 4 && count > 20, "{refused:?}");
    let summary = format!("200 shards: {} sound, {count} refused", 200 - count);
    assert_eq!(
        answers[200],
        "deposit: 200 of 256 possible shards; not there: c8.shard, c9.shard, ca.shard, cb.shard, cc.shard and 51 more"
    );
    assert!(answers[201].starts_with(&summary), "{}", answers[201]);

    for jobs in ["1", "2", "3", "64"] {
        let again = folder.run_line(&format!("{line} --jobs {jobs}"));
        assert_eq!(again.text(), run.text(), "{jobs} jobs");
        assert_eq!(again.status, run.status);
    }
}

#[test]
fn a_long_shard_is_told_in_its_place() {
    let folder = Folder::new();
    // All entries of the shard index are empty, so both kinds are sound.
    folder.write("deposit/00.shard", vec![0; 40_000_000]);
    for number in 1..40 {
        folder.write(format!("deposit/{}", name(number)), [0; 64]);
    }
    for command in [
        "check deposit",
        "settle --drop-unlisted deposit --out out",
        "same deposit deposit",
    ] {
        let run = folder.run_line(&format!("{command} --jobs 4 {}", options(&SHARDING)));
        run.expect_status(0);
        let names: Vec<&str> = answers(&run)
            .into_iter()
            .filter_map(|line| line.split_once(".shard: ").map(|(name, _)| name))
            .collect();
        assert_eq!(names.len(), 40, "{run}");
        assert!(names.is_sorted(), "{run}");
    }
}

#[test]
fn every_refusal_is_explained_in_three_lines() {
    let rng = &mut Rng::new(8);
    let folder = Folder::new();
    let line = format!("check deposit {}", options(&SHARDING));
    for _ in 0..4 {
        let mut shards = shards(rng, 256);
        for file in shards.values_mut() {
            damage(rng, &SHARDING, file);
            damage(rng, &SHARDING, file);
        }
        store(&folder, "deposit", &shards);
        let run = folder.run_line(&line);
        let lines = run.lines();
        let refused = |line: &&str| !line.starts_with(' ') && line.contains(": refused ");
        let places: Vec<usize> = (0..lines.len()).filter(|at| refused(&lines[*at])).collect();
        assert!(places.len() > 50, "{}", places.len());
        for at in places {
            for (line, start) in lines[at + 1..].iter().zip(["found", "expected", "look at"]) {
                let said = line.strip_prefix(&format!("  {start}: "));
                assert!(said.is_some_and(|said| said.len() > 5), "{line}\n{run}");
            }
            assert!(!lines[at + 4].starts_with(' '), "{run}");
        }
    }
}

#[test]
fn two_hundred_shards_are_told_in_json() {
    let shards = shards(&mut Rng::new(2), 200);
    let folder = Folder::new();
    store(&folder, "deposit", &shards);
    let run = folder.run_line(&format!("check deposit --json {}", options(&SHARDING)));
    run.expect_status(1);
    let objects: Vec<Json> = run
        .lines()
        .into_iter()
        .map(|line| Json::read(line).unwrap_or_else(|why| panic!("{why}: {line}")))
        .collect();
    let of_shards: Vec<&Json> = objects.iter().filter(|o| o.get("path").is_some()).collect();
    assert_eq!(of_shards.len(), 200);
    for ((number, file), object) in shards.iter().zip(of_shards) {
        let path = format!("deposit/{}", name(*number));
        assert_eq!(object.text("path"), Some(path.as_str()));
        match shard::list(&SHARDING, *number, file) {
            Ok(entries) => {
                assert_eq!(object.text("result"), Some("sound"));
                assert_eq!(
                    object.number("chunks"),
                    Some(entries.len().to_string().as_str())
                );
                assert_eq!(
                    object.number("bytes"),
                    Some(file.len().to_string().as_str())
                );
            }
            Err(refusal) => {
                assert_eq!(object.text("result"), Some("refused"));
                assert_eq!(
                    object.number("refusal"),
                    Some(refusal.number.to_string().as_str())
                );
                let minishard = refusal.minishard.map(|m| m.to_string());
                assert_eq!(object.number("minishard"), minishard.as_deref());
                let byte = refusal.position.map(|byte| byte.to_string());
                assert_eq!(object.number("byte"), byte.as_deref());
            }
        }
    }
}

#[test]
fn two_hundred_shards_are_settled() {
    let shards = shards(&mut Rng::new(3), 200);
    let folder = Folder::new();
    store(&folder, "deposit", &shards);
    let line = format!(
        "settle --drop-unlisted deposit --out settled {}",
        options(&SHARDING)
    );
    let run = folder.run_line(&line);
    run.expect_status(1);
    let mut expected = Vec::new();
    for (number, file) in &shards {
        let path = format!("deposit/{}", name(*number));
        match shard::list(&SHARDING, *number, file) {
            Ok(entries) => {
                let listed: Vec<_> = entries.iter().map(|e| (e.id, e.bytes(file))).collect();
                let form = reference::settle::settled_form(&SHARDING, &listed);
                let settled = folder.read(format!("settled/{}", name(*number)));
                assert!(settled == form, "{path}");
                let chunks = if entries.len() == 1 {
                    "chunk"
                } else {
                    "chunks"
                };
                run.expect_line(&format!(
                    "{path}: settled, {} {chunks}, {} -> {} bytes",
                    entries.len(),
                    file.len(),
                    form.len()
                ));
                expected.push(name(*number));
            }
            Err(refusal) => {
                let start = format!("{path}: refused {}: ", refusal.number);
                assert!(
                    answers(&run).iter().any(|line| line.starts_with(&start)),
                    "{start}"
                );
            }
        }
    }
    assert_eq!(folder.names("settled"), expected);
    // A second run finds all of them; another number of jobs makes the same.
    let again = folder.run_line(&line);
    assert_eq!(again.status, Some(1));
    let there = answers(&again)
        .iter()
        .filter(|line| line.ends_with("already there"))
        .count();
    assert_eq!(there, expected.len(), "{again}");
    let one = line.replace("--out settled", "--out other --jobs 1");
    assert_eq!(folder.run_line(&one).text(), run.text());
    for shard in &expected {
        assert!(folder.read(format!("settled/{shard}")) == folder.read(format!("other/{shard}")));
    }
}

/// What `same` says of two contents: the first differing id decides.
fn compared(first: &Content, second: &Content) -> String {
    let ids: std::collections::BTreeSet<&u64> = first.keys().chain(second.keys()).collect();
    for id in ids {
        match (first.get(id), second.get(id)) {
            (Some(one), Some(other)) if one == other => {}
            (Some(one), Some(other)) => {
                let alike = one.iter().zip(other).take_while(|(a, b)| a == b).count();
                return format!(
                    "different: id {id} has other bytes: first difference at byte {alike}, lengths {} and {}",
                    one.len(),
                    other.len()
                );
            }
            (Some(_), None) => return format!("different: id {id} is only in the first"),
            _ => return format!("different: id {id} is only in the second"),
        }
    }
    "same".to_string()
}

/// Contents of two copies: shards that are the same, and shards that differ in
/// each way.
fn two_contents(rng: &mut Rng) -> BTreeMap<u64, (Content, Content)> {
    let mut contents = BTreeMap::new();
    for number in 0..60 {
        let first = content(rng, &SHARDING, number, 12);
        let second = Difference::ALL
            .get(number as usize % 6)
            .and_then(|difference| differing(rng, &SHARDING, number, &first, *difference))
            .unwrap_or_else(|| first.clone());
        contents.insert(number, (first, second));
    }
    contents
}

#[test]
fn two_copies_are_compared_in_both_orders() {
    let rng = &mut Rng::new(4);
    let contents = two_contents(rng);
    let folder = Folder::new();
    for (number, (first, second)) in &contents {
        folder.write(
            format!("one/{}", name(*number)),
            lay_out(rng, &SHARDING, first),
        );
        folder.write(
            format!("two/{}", name(*number)),
            lay_out(rng, &SHARDING, second),
        );
    }
    let options = options(&SHARDING);
    let there = folder.run_line(&format!("same one two {options}"));
    let back = folder.run_line(&format!("same two one {options}"));
    let (there, back) = (there.expect_status(1), back.expect_status(1));
    let mut kinds = BTreeMap::new();
    for (number, (first, second)) in &contents {
        let verdict = compared(first, second);
        there.expect_line(&format!("{}: {verdict}", name(*number)));
        back.expect_line(&format!("{}: {}", name(*number), compared(second, first)));
        let kind: String = verdict.chars().filter(|c| !c.is_ascii_digit()).collect();
        *kinds.entry(kind).or_insert(0) += 1;
    }
    assert_eq!(kinds.len(), 4, "{kinds:?}");
    let same = kinds["same"];
    let sentence = format!(
        "The two do not hold the same chunks: {same} shards same, {} different, 0 refused, 0 missing in the first, 0 missing in the second.",
        60 - same
    );
    there.expect_line(&sentence);
    back.expect_line(&sentence);
}

#[test]
fn copies_in_other_layouts_are_the_same() {
    let rng = &mut Rng::new(5);
    let folder = Folder::new();
    for number in 0..20 {
        let content = content(rng, &SHARDING, number, 12);
        folder.write(
            format!("one/{}", name(number)),
            lay_out(rng, &SHARDING, &content),
        );
        folder.write(
            format!("two/{}", name(number)),
            lay_out(rng, &SHARDING, &content),
        );
    }
    let run = folder.run_line(&format!("same one two {}", options(&SHARDING)));
    run.expect_status(0);
    run.expect_line("The two hold the same chunks: 20 shards compared, all the same.");
    for jobs in ["1", "5"] {
        let again = folder.run_line(&format!(
            "same one two --jobs {jobs} {}",
            options(&SHARDING)
        ));
        assert_eq!(again.text(), run.text());
    }
}

#[test]
fn what_is_refused_or_missing_on_one_side() {
    let rng = &mut Rng::new(6);
    let folder = Folder::new();
    let file = |rng: &mut Rng, number| {
        let content = content(rng, &SHARDING, number, 12);
        lay_out(rng, &SHARDING, &content)
    };
    let sound = file(rng, 0);
    for side in ["one", "two"] {
        folder.write(format!("{side}/00.shard"), &sound);
    }
    // Nothing differs, but one side can't be judged.
    folder.write("one/01.shard", &sound[..10]);
    folder.write("two/01.shard", file(rng, 1));
    let options = options(&SHARDING);
    let run = folder.run_line(&format!("same one two {options}"));
    run.expect_status(1);
    let refused = answers(&run)[1];
    assert!(
        refused.contains("01.shard")
            && refused.contains("in the first")
            && refused.contains("refused 6"),
        "{run}"
    );
    assert!(
        answers(&run)[2].starts_with("It is not known whether"),
        "{run}"
    );
    let back = folder.run_line(&format!("same two one {options}"));
    back.expect_status(1);
    assert!(answers(&back)[1].contains("in the second"), "{back}");
    // Refused on both sides: both are told.
    folder.write("two/01.shard", &sound[..11]);
    let both = folder.run_line(&format!("same one two {options}"));
    both.expect_status(1);
    assert!(
        both.text().contains("in the first") && both.text().contains("in the second"),
        "{both}"
    );
    std::fs::remove_file(folder.at("one/01.shard")).expect("removed");
    std::fs::remove_file(folder.at("two/01.shard")).expect("removed");

    folder.write("one/02.shard", file(rng, 2));
    let run = folder.run_line(&format!("same one two {options}"));
    let chunks = count(2, &folder.read("one/02.shard"));
    run.expect_status(1).expect_line(&format!("02.shard: only in the first: {chunks}")).expect_line(
        "The two do not hold the same chunks: 1 shard same, 0 different, 0 refused, 0 missing in the first, 1 missing in the second.",
    );
    let back = folder.run_line(&format!("same two one {options}"));
    back.expect_status(1)
        .expect_line(&format!("02.shard: only in the second: {chunks}"));
}

#[test]
fn a_folder_with_other_files() {
    let rng = &mut Rng::new(7);
    let folder = Folder::new();
    store(&folder, "deposit", &shards(rng, 1));
    let sound = lay_out(rng, &SHARDING, &Content::new());
    folder.write("deposit/00.shard", &sound);
    folder.write("deposit/info", "{}");
    folder.write("deposit/00.shard.md5", "x");
    folder.write("deposit/inner/01.shard", "no shard at all");
    let line = format!("check deposit {}", options(&SHARDING));
    let run = folder.run_line(&line);
    run.expect_status(0);
    assert!(run.text().contains("other files passed over"), "{run}");
    for odd in ["1.shard", "0A.shard", "001.shard", "x.shard"] {
        let path = folder.write(format!("deposit/{odd}"), &sound);
        let run = folder.run_line(&line);
        run.expect_status(1);
        run.expect_line(&format!(
            "deposit/{odd}: not the name of a shard under this sharding (expected for example 0a.shard)"
        ));
        assert!(run.text().contains("1 misnamed"), "{run}");
        std::fs::remove_file(path).expect("removed");
    }
    folder.make("empty");
    folder
        .run_line(&line.replace("deposit", "empty"))
        .expect_status(1);
    folder
        .run_line(&line.replace("deposit", "nothing"))
        .expect_status(3);
}

/// The sample's copy a as `one` and `two`, and the words that compare them.
fn two_copies() -> (Folder, &'static str) {
    let folder = Folder::with_sample();
    for side in ["one", "two"] {
        for name in folder.names("demo/copy-a") {
            let shard = folder.read(format!("demo/copy-a/{name}"));
            folder.write(format!("{side}/{name}"), shard);
        }
    }
    (folder, "same one two --card demo/deposit.card")
}

/// The objects of a run with --json.
fn objects(folder: &Folder, line: &str) -> Vec<Json> {
    let run = folder.run_line(&format!("{line} --json"));
    let read = |line: &str| Json::read(line).unwrap_or_else(|why| panic!("{why}: {line}"));
    run.lines().into_iter().map(read).collect()
}

/// Compares, in plain lines and in JSON; gives the last line. The summary
/// object must hold the same sentence and this answer.
#[track_caller]
fn compared_as(folder: &Folder, line: &str, status: i32, answer: &str) -> (Run, String) {
    let run = folder.run_line(line);
    run.expect_status(status);
    let last = run.lines().last().expect("a sentence").to_string();
    let beginning = match answer {
        "same" => "The two hold the same chunks: ",
        "different" => "The two do not hold the same chunks: ",
        _ => "It is not known whether the two hold the same chunks: ",
    };
    assert!(last.starts_with(beginning), "{run}");
    let objects = objects(folder, line);
    let summary = objects.last().expect("a summary");
    assert_eq!(summary.text("result"), Some("summary"));
    assert_eq!(summary.text("answer"), Some(answer));
    assert_eq!(summary.text("sentence"), Some(last.as_str()));
    (run, last)
}

#[test]
fn a_shard_without_chunks_on_one_side_changes_nothing() {
    let (folder, line) = two_copies();
    // Two empty entries of the shard index: a sound shard that lists nothing.
    folder.write("one/3.shard", [0; 32]);
    std::fs::remove_file(folder.at("two/3.shard")).expect("removed");
    let (run, last) = compared_as(&folder, line, 0, "same");
    run.expect_line("3.shard: only in the first, lists no chunk");
    assert_eq!(
        last,
        "The two hold the same chunks: 7 shards compared, all the same; shards on one side only that list no chunk: 1."
    );
    let objects = objects(&folder, line);
    let third = &objects[3];
    assert_eq!(third.text("path"), Some("3.shard"));
    assert_eq!(third.text("result"), Some("empty"));
    assert_eq!(third.text("missing_in"), Some("second"));
    assert_eq!(third.number("chunks"), Some("0"));
    assert_eq!(objects[8].number("empty_on_one_side"), Some("1"));
    assert_eq!(objects[8].number("missing_in_second"), Some("0"));
    // A difference elsewhere is still one.
    std::fs::remove_file(folder.at("one/7.shard")).expect("removed");
    let (run, last) = compared_as(&folder, line, 1, "different");
    run.expect_line("7.shard: only in the second: 8 chunks");
    assert!(
        last.ends_with(
            "6 shards same, 0 different, 0 refused, 1 missing in the first, 0 missing in the second, 1 on one side only without chunks."
        ),
        "{run}"
    );
}

#[test]
fn a_shard_on_one_side_is_judged() {
    let (folder, line) = two_copies();
    std::fs::remove_file(folder.at("two/7.shard")).expect("removed");
    // Shorter than its index.
    folder.write("one/7.shard", [0; 20]);
    let (run, last) = compared_as(&folder, line, 1, "unknown");
    assert!(
        run.text()
            .contains("7.shard: only in the first: refused 6: "),
        "{run}"
    );
    assert!(
        last.contains("1 refused, 0 missing in the first, 0 missing"),
        "{run}"
    );
    let refused = &objects(&folder, line)[7];
    assert_eq!(refused.text("path"), Some("7.shard"));
    assert_eq!(refused.text("side"), Some("first"));
    assert_eq!(refused.text("missing_in"), Some("second"));
    assert_eq!(refused.number("refusal"), Some("6"));
    // One that cannot be read.
    std::fs::remove_file(folder.at("one/7.shard")).expect("removed");
    folder.make("one/7.shard");
    let (_, last) = compared_as(&folder, line, 3, "unknown");
    assert!(last.ends_with(", 1 not read."), "{last}");
    let unread = &objects(&folder, line)[7];
    assert_eq!(unread.text("path"), Some("7.shard"));
    assert_eq!(unread.text("side"), Some("first"));
    assert_eq!(unread.text("result"), Some("error"));
}

#[test]
fn a_misnamed_file_may_be_the_one_that_is_missing() {
    let (folder, line) = two_copies();
    std::fs::rename(folder.at("two/1.shard"), folder.at("two/01.shard")).expect("renamed");
    let (run, last) = compared_as(&folder, line, 1, "unknown");
    run.expect_line("1.shard: only in the first: 16 chunks");
    assert!(
        last.ends_with("1 missing in the second, 1 misnamed."),
        "{run}"
    );
    let misnamed = &objects(&folder, line)[1];
    assert_eq!(misnamed.text("path"), Some("01.shard"));
    assert_eq!(misnamed.text("side"), Some("second"));
    assert_eq!(misnamed.text("result"), Some("misnamed"));
    // On the same side it is not: the second surely lacks a chunk.
    std::fs::rename(folder.at("two/01.shard"), folder.at("one/01.shard")).expect("renamed");
    compared_as(&folder, line, 1, "different");
    // A misnamed file that cannot be read may be it as well.
    std::fs::remove_file(folder.at("one/01.shard")).expect("removed");
    std::os::unix::fs::symlink("nowhere", folder.at("two/01.shard")).expect("a link");
    compared_as(&folder, line, 3, "unknown");
}

#[test]
fn folders_without_shards_have_an_answer() {
    let folder = Folder::with_sample();
    folder.make("one");
    folder.make("two");
    let line = "same one two --card demo/deposit.card";
    let (_, last) = compared_as(&folder, line, 1, "unknown");
    assert!(last.ends_with(", 2 folders without shards."), "{last}");
    folder.write("one/3.shard", [0; 32]);
    let (_, last) = compared_as(&folder, line, 1, "unknown");
    assert!(last.ends_with(", 1 folder without shards."), "{last}");
    folder.write("one/7.shard", folder.read("demo/copy-a/7.shard"));
    compared_as(&folder, line, 1, "different");
}

#[test]
fn shards_that_are_not_there_are_told() {
    let folder = Folder::with_sample();
    let line = "check demo/copy-a --card demo/deposit.card";
    let all = folder.run_line(line);
    assert!(!all.text().contains("possible"), "{all}");
    for (name, told) in [
        ("7", "7 of 8 possible shards; not there: 7.shard"),
        ("2", "6 of 8 possible shards; not there: 2.shard, 7.shard"),
    ] {
        std::fs::remove_file(folder.at(format!("demo/copy-a/{name}.shard"))).expect("removed");
        let run = folder.run_line(line);
        run.expect_status(0);
        run.expect_line(&format!("demo/copy-a: {told}"));
    }
    let told = &objects(&folder, line)[6];
    assert_eq!(told.text("folder"), Some("demo/copy-a"));
    assert_eq!(told.text("result"), Some("folder"));
    assert_eq!(told.number("shards"), Some("6"));
    assert_eq!(told.number("possible"), Some("8"));
    let names = ["2.shard", "7.shard"].map(|name| Json::Text(name.to_string()));
    assert_eq!(told.get("not_there"), Some(&Json::Array(names.to_vec())));
    // One that is there and cannot be read is not missing.
    folder.make("demo/copy-a/7.shard");
    folder
        .run_line(line)
        .expect_line("demo/copy-a: 7 of 8 possible shards; not there: 2.shard");
    // Of very many possible shards most are never there.
    let many = "--preshift 0 --hash identity --minishard-bits 1 --shard-bits 17";
    folder.write("many/00003.shard", [0; 32]);
    let run = folder.run_line(&format!("check many {many}"));
    run.expect_status(0);
    assert!(!run.text().contains("possible"), "{run}");
}

#[test]
fn one_way_for_a_name_of_no_shard() {
    let folder = Folder::with_sample();
    folder.write("odd/x.shard", folder.read("demo/copy-a/0.shard"));
    let card = "--card demo/deposit.card";
    for (line, at) in [
        ("check odd", 0),
        ("check odd/x.shard", 0),
        ("check demo/copy-a/0.shard odd/x.shard", 1),
        ("settle --drop-unlisted odd --out out", 0),
        ("settle --drop-unlisted odd/x.shard --out out.shard", 0),
    ] {
        let objects = objects(&folder, &format!("{line} {card}"));
        assert_eq!(objects[at].text("path"), Some("odd/x.shard"), "{line}");
        assert_eq!(objects[at].text("result"), Some("misnamed"), "{line}");
    }
    // Named by itself it is wrong use, since --shard gives the number.
    let run = folder.run_line(&format!("check demo/copy-a/0.shard odd/x.shard {card}"));
    run.expect_status(2);
    assert!(run.stderr.contains("--shard N"), "{run}");
    run.expect_line("2 shards: 1 sound, 0 refused, 1 misnamed");
    let line = format!("same odd/x.shard demo/copy-a/0.shard {card}");
    folder.run_line(&line).expect_status(2);
    let misnamed = &objects(&folder, &line)[0];
    assert_eq!(misnamed.text("result"), Some("misnamed"));
    assert_eq!(misnamed.text("side"), Some("first"));
    folder
        .run_line(&format!("{line} --shard 0"))
        .expect_status(0);
}

#[test]
fn one_number_is_for_one_file() {
    let folder = Folder::with_sample();
    let shards = "demo/copy-a/0.shard demo/copy-a/1.shard";
    let card = "--card demo/deposit.card";
    let run = folder.run_line(&format!("check {shards} --shard 0 {card}"));
    run.expect_status(2);
    assert!(run.stderr.contains("--shard is for one file"), "{run}");
    folder
        .run_line(&format!("check demo/copy-a/0.shard --shard 0 {card}"))
        .expect_status(0);
}

#[test]
fn an_output_that_cannot_be_written_is_told_beside_its_input() {
    let folder = Folder::with_sample();
    folder.write("file", "x");
    for out in ["none/f", "file/f"] {
        let line = format!(
            "settle --drop-unlisted demo/copy-b/5.shard --out {out} --card demo/deposit.card"
        );
        folder.run_line(&line).expect_status(3);
        let object = &objects(&folder, &line)[0];
        assert_eq!(object.text("path"), Some("demo/copy-b/5.shard"));
        assert_eq!(object.text("result"), Some("error"));
        assert_eq!(object.text("out"), Some(out));
    }
}

#[test]
fn the_length_of_a_file_that_is_too_long() {
    let folder = Folder::for_holes();
    let length = (1 << 30) + 12_345;
    let long = std::fs::File::create(folder.at("00.shard")).expect("a file");
    long.set_len(length).expect("a file with a hole");
    let run = folder.run_line(&format!("check 00.shard {}", options(&SHARDING)));
    run.expect_status(1);
    run.expect_line(&format!("  found: a file of {length} bytes"));
}
