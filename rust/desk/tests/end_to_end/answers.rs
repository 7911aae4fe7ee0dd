//! What the answers say: to a person who asked for something that is not
//! there, and to a script that reads them.

use crate::json::Json;
use crate::shards::{example, options, with_index, ONE};
use crate::support::{Folder, Run, PROGRAM};
use std::os::unix::fs::symlink;
use std::process::Command;
use testkit::manifests::Parts;

const CARD: &str = "--card demo/deposit.card";

/// The objects that a run printed.
#[track_caller]
fn objects(run: &Run) -> Vec<Json> {
    let read = |line: &&str| Json::read(line).unwrap_or_else(|why| panic!("{why}\n{run}"));
    run.lines().iter().map(read).collect()
}

/// The member `result` of each object.
#[track_caller]
fn results(objects: &[Json]) -> Vec<&str> {
    let result = |object: &Json| object.text("result").is_some();
    assert!(objects.iter().all(result), "{objects:?}");
    objects
        .iter()
        .flat_map(|object| object.text("result"))
        .collect()
}

/// A run on this standard input.
fn run_on(folder: &Folder, input: &str, line: &str) -> Run {
    folder.write("input", input);
    let mut command = Command::new("sh");
    command.args(["-c", "exec \"$0\" \"$@\" < input", PROGRAM]);
    command.args(line.split_whitespace());
    Run::of(command.current_dir(folder.path()))
}

#[test]
fn a_shard_that_a_deposit_does_not_have_is_a_plain_no() {
    let folder = Folder::with_sample();
    // Id 28 is binary 11100: preshift 1, minishard 0, shard 7, which is lost.
    let missing = "demo/damaged: the deposit has no 7.shard, in which id 28 would stand\n";
    let run = folder.run_line(&format!("get demo/damaged 28 {CARD}"));
    run.expect_status(1);
    assert_eq!((run.text(), run.stderr.as_str()), ("", missing), "{run}");
    let run = folder.run_line(&format!("get demo/damaged 28 --out out {CARD}"));
    assert_eq!(run.expect_status(1).stderr, missing);
    assert!(!folder.at("out").exists());
    // A file that is named, and one that is there but leads nowhere, are
    // errors of the system.
    folder
        .run_line(&format!("get demo/damaged/7.shard 28 {CARD}"))
        .expect_status(3);
    symlink("nowhere", folder.at("demo/damaged/7.shard")).expect("a link");
    folder
        .run_line(&format!("get demo/damaged 28 {CARD}"))
        .expect_status(3);
}

/// The numbers of a refusal that a check told: byte, entry and id.
#[track_caller]
fn numbers_of(folder: &Folder, line: &str) -> [Option<String>; 3] {
    let run = folder.run_line(&format!("{line} --json"));
    run.expect_status(1);
    let refused = &objects(&run)[0];
    assert_eq!(refused.text("result"), Some("refused"), "{run}");
    ["byte", "entry", "id"].map(|name| refused.number(name).map(str::to_string))
}

#[test]
fn a_refusal_s_place_is_given_in_numbers() {
    let folder = Folder::new();
    let sound = [4, 6, 0, 0, 2, 3];
    let first = |index: &[u64]| with_index([5, 53, 0, 0], index);
    // The shard index is bytes 0 to 32; the rows of minishard 0 begin at bytes
    // 37, 53 and 69.
    let cases = [
        (with_index([5, 53, 1, 0], &sound), ["16", "", ""]),
        (with_index([5, 53, 0, 54], &sound), ["16", "", ""]),
        (with_index([5, 52, 0, 0], &sound), ["0", "", ""]),
        (first(&[4, 0, 0, 0, 2, 3]), ["45", "1", "4"]),
        // Id 1, by a step that wraps, belongs to minishard 1.
        (first(&[4, u64::MAX - 2, 0, 0, 2, 3]), ["45", "1", "1"]),
        (first(&[4, 7, 0, 0, 2, 3]), ["45", "1", "11"]),
        (first(&[4, 6, 0, 0, 2, 52]), ["61", "1", "10"]),
        (first(&[4, 6, 0, 99, 2, 3]), ["61", "1", "10"]),
        (example()[..20].to_vec(), ["", "", ""]),
    ];
    for (file, expected) in cases {
        folder.write("0.shard", &file);
        let found = numbers_of(&folder, &format!("check 0.shard {}", options(&ONE)));
        assert_eq!(found.map(Option::unwrap_or_default), expected);
    }
    // A card's first tag, which should be 1, and a manifest's level count.
    folder.write("card", "x");
    let [byte, ..] = numbers_of(&folder, "card check card");
    assert_eq!(byte.as_deref(), Some("0"));
    folder.write("mesh", [0xff; 28]);
    let [byte, ..] = numbers_of(&folder, "manifest check mesh");
    assert_eq!(byte.as_deref(), Some("24"));
}

#[test]
fn each_listed_file_has_an_object() {
    let folder = Folder::with_sample();
    folder.write("sum.txt", "x");
    let files = "nothing/0.shard sum.txt demo demo/damaged/4.shard demo/damaged/7.shard";
    let run = folder.run_line(&format!("list {files} {CARD} --json"));
    run.expect_status(3);
    let objects = objects(&run);
    assert_eq!(
        results(&objects),
        ["error", "misnamed", "error", "refused", "error"]
    );
    let paths = objects.iter().map(|object| object.text("path"));
    assert!(paths.eq(files.split(' ').map(Some)), "{run}");
    // Wrong use is told on standard error too.
    assert!(
        run.stderr.contains("sum.txt: not the name of a shard"),
        "{run}"
    );
}

#[test]
fn objects_say_what_they_are() {
    let folder = Folder::with_sample();
    let run = folder.run_line(&format!("list demo/copy-a/5.shard {CARD} --json"));
    let listed = objects(&run);
    assert_eq!(results(&listed), ["chunk"; 12]);
    let mesh = "demo/mesh.manifest";
    let shown = objects(&folder.run_line(&format!("manifest show {mesh} --nodes --json")));
    let mut expected = vec!["sound"];
    expected.extend(["level"; 3]);
    expected.extend(["node"; 8]);
    assert_eq!(results(&shown), expected);
    assert!(shown.iter().all(|object| object.text("path") == Some(mesh)));
}

#[test]
fn a_card_that_is_refused_is_no_refused_shard() {
    let folder = Folder::with_sample();
    folder.write("bad.card", "x");
    for line in [
        "check demo/copy-a",
        "list demo/copy-a/0.shard",
        "locate 0,0,0",
    ] {
        for (card, result) in [("bad.card", "refused"), ("no.card", "error")] {
            let run = folder.run_line(&format!("{line} --card {card} --json"));
            let told = &objects(&run)[0];
            assert_eq!(told.text("subject"), Some("card"), "{run}");
            assert_eq!(told.text("path"), Some(card), "{run}");
            assert_eq!(told.text("result"), Some(result), "{run}");
        }
    }
    // Where a card is the question it is no setting.
    let asked = folder.run_line("card check bad.card --json");
    assert_eq!(objects(&asked)[0].text("subject"), None);
}

/// The numbers of an array, read as the 64-bit reals that JSON readers make.
fn reals(object: &Json, name: &str) -> Vec<f64> {
    let Some(Json::Array(items)) = object.get(name) else {
        panic!("{name} is no array in {object:?}");
    };
    let real = |item: &Json| match item {
        Json::Number(text) => text.parse().expect("a real"),
        other => panic!("{other:?} is no number"),
    };
    items.iter().map(real).collect()
}

#[test]
fn reals_of_a_manifest_are_exact() {
    let folder = Folder::new();
    // 2^27, whose shortest decimal as a 32-bit real is 134217730.
    let wide = 134_217_728.0_f32;
    let mesh = Parts::new([wide, 0.1, 1.0], [0.0; 3], vec![vec![([1, 1, 1], 5)]]);
    folder.write("mesh", mesh.bytes());
    let run = folder.run_line("manifest show mesh");
    // The 32-bit real next to 0.1 is 13421773 / 2^27.
    run.expect_status(0)
        .expect_line("  chunk shape: 134217728,0.10000000149011612,1");
    let shown = objects(&folder.run_line("manifest show mesh --json"));
    let tenth = 13_421_773.0 / 134_217_728.0;
    assert_eq!(reals(&shown[0], "shape"), [134_217_728.0, tenth, 1.0]);
    let node = folder.run_line("manifest node mesh 0 0");
    node.expect_line(
        "  corners: 134217728,0.10000000149011612,1 to 268435456,0.20000000298023224,2",
    );
    let node = objects(&folder.run_line("manifest node mesh 0 0 --json"));
    assert_eq!(reals(&node[0], "near"), [134_217_728.0, tenth, 1.0]);
}

#[test]
fn advice_can_be_followed() {
    let folder = Folder::new();
    let explained = |number: u8| {
        folder
            .run_line(&format!("explain {number}"))
            .text()
            .to_string()
    };
    // 'same' refuses a shard that is refused.
    for number in 6..=11 {
        assert!(!explained(number).contains("'same'"), "{number}");
    }
    assert!(explained(9).contains("'check'"));
    assert!(explained(33).contains("a minishard number is not below 2^minishard_bits"));
    let told = explained(18);
    let (cause, remedy) = told.split_once("what to do").expect("a remedy");
    let (_, cause) = cause.split_once("usual cause").expect("a cause");
    assert!(
        cause.contains("corner") && remedy.contains("corner"),
        "{told}"
    );
}

#[test]
fn hints_name_options_that_are_there() {
    let folder = Folder::new();
    let run = folder.run_line("card make --out m");
    run.expect_status(2);
    assert!(run.stderr.contains("missing: --preshift, --hash"), "{run}");
    assert!(!run.stderr.contains("--card"), "{run}");
    let run = folder.run_line("check 0.shard");
    assert!(run.expect_status(2).stderr.contains("--card FILE"), "{run}");
}

#[test]
fn each_question_has_its_line() {
    let folder = Folder::with_sample();
    let place = "21 5.shard 0";
    let run = folder.run_line(&format!("locate 1,2,1 1,2 5,0,0 1,2,1 {CARD}"));
    run.expect_status(2);
    assert_eq!(run.lines(), [place, "wrong", "refused 2", place], "{run}");
    assert!(run.stderr.contains("'1,2' is not three numbers"), "{run}");
    assert_eq!(
        run.stderr.matches("see: coronagamba locate --help").count(),
        1
    );
    let run = folder.run_line(&format!("cell 21 1x 0x15 {CARD}"));
    run.expect_status(2);
    let cell = "1,2,1 0..64 128..192 64..128";
    assert_eq!(run.lines(), [cell, "wrong", cell], "{run}");
    let run = folder.run_line(&format!("name 1,2,1 x 1,2,1 {CARD}"));
    run.expect_status(2);
    let name = "0-64_128-192_64-128";
    assert_eq!(run.lines(), [name, "wrong", name], "{run}");
    // In JSON too.
    let run = folder.run_line(&format!("locate x 1,2,1 {CARD} --json"));
    run.expect_status(2);
    let told = objects(&run);
    assert_eq!(results(&told), ["wrong", "located"]);
    assert_eq!(told[0].text("question"), Some("x"));
    assert!(told[0].text("error").is_some(), "{run}");
}

#[test]
fn each_line_of_standard_input_has_its_answer() {
    let folder = Folder::with_sample();
    let line = format!("locate - {CARD}");
    let place = "21 5.shard 0";
    let run = run_on(&folder, "1,2,1\n\nx\n1,2,1", &line);
    run.expect_status(2);
    assert_eq!(run.lines(), [place, "wrong", "wrong", place], "{run}");
    assert!(run.stderr.contains("line 2 of standard input: ''"), "{run}");
    assert!(
        run.stderr.contains("line 3 of standard input: 'x'"),
        "{run}"
    );
    // An empty last line is no question.
    for input in ["1,2,1\n", "1,2,1\n\n", "1,2,1\r\n\r\n", "1,2,1\n  "] {
        let run = run_on(&folder, input, &line);
        run.expect_status(0);
        assert_eq!(run.lines(), [place], "{run}");
    }
    let run = run_on(&folder, "1,2,1\n\n\n", &line);
    assert_eq!(run.expect_status(2).lines(), [place, "wrong"], "{run}");
}

#[test]
fn a_sample_needs_a_name() {
    let folder = Folder::new();
    folder.run(["sample", ""]).expect_status(2);
    assert!(folder.names(".").is_empty());
}

#[test]
fn the_published_name_of_the_hash() {
    let folder = Folder::with_sample();
    let options = "--preshift 1 --minishard-bits 1 --shard-bits 3 --hash";
    folder
        .run_line(&format!("check demo/murmur {options} murmurhash3_x86_128"))
        .expect_status(0);
    for word in ["md5", "murmurhash3", "Murmur"] {
        let run = folder.run_line(&format!("check demo/murmur {options} {word}"));
        run.expect_status(2);
        assert!(run.stderr.contains("murmurhash3_x86_128"), "{run}");
    }
}

#[test]
fn a_folder_is_not_listed() {
    let folder = Folder::with_sample();
    for path in ["demo/copy-a", "demo/copy-a/"] {
        let run = folder.run_line(&format!("list {path} {CARD}"));
        run.expect_status(2);
        assert!(run.text().is_empty(), "{run}");
        assert!(run.stderr.contains("demo/copy-a/*.shard"), "{run}");
    }
    let help = folder.run_line("list --help");
    assert!(help.text().contains("header line"), "{help}");
}
