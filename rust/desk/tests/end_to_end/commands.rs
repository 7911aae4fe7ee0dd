//! Each command's exit statuses, help, settings and JSON.

use crate::json::Json;
use crate::support::{Folder, PROGRAM};
use std::collections::{BTreeMap, BTreeSet};
use std::os::unix::fs::symlink;
use std::process::Command;

/// All commands, with those that have members.
const COMMANDS: [&str; 26] = [
    "check",
    "settle",
    "pack",
    "same",
    "holdings",
    "join",
    "fingerprint",
    "get",
    "list",
    "range",
    "locate",
    "cell",
    "cover",
    "name",
    "card",
    "card make",
    "card show",
    "card check",
    "manifest",
    "manifest show",
    "manifest check",
    "manifest node",
    "label",
    "labels",
    "explain",
    "sample",
];

const CARD: &str = "--card demo/deposit.card";
const MESH_CARD: &str = "--card demo/mesh.card";
const SHARDING: &str = "--preshift 1 --hash identity --minishard-bits 1 --shard-bits 3";
const VOLUME: &str = "--size 300,260,200 --chunk 64,64,64 --offset -64,0,0";

/// Lines and the exit status of each; all run on the sample.
fn statuses() -> Vec<(String, i32)> {
    let with_card = [
        ("check demo/copy-a", 0),
        ("check demo/copy-a demo/copy-b/3.shard", 0),
        ("check demo/damaged", 1),
        ("check demo/damaged/0.shard", 0),
        ("check demo/damaged/2.shard", 1),
        ("check", 2),
        ("check demo/copy-a --unknown", 2),
        ("check demo/copy-a --jobs 0", 2),
        ("check demo/copy-a --jobs x", 2),
        ("check nothing/0.shard", 3),
        ("check demo/copy-a nothing/0.shard", 3),
        ("settle --drop-unlisted demo/copy-b/0.shard --out one", 0),
        ("settle --drop-unlisted demo/copy-b --out all", 0),
        ("settle --drop-unlisted demo/copy-b --out all", 0),
        ("settle --drop-unlisted demo/damaged --out some", 1),
        ("settle --drop-unlisted demo/damaged/2.shard --out two", 1),
        ("settle demo/copy-b", 2),
        ("settle --out x", 2),
        ("settle --drop-unlisted demo/copy-b/1.shard --out one", 2),
        ("settle --drop-unlisted nothing --out none", 3),
        (
            "settle --drop-unlisted demo/copy-b/0.shard --out nothing/inner/0.shard",
            3,
        ),
        ("pack /dev/null --out 7.shard", 0),
        ("pack /dev/null --out 7.shard", 0),
        ("pack demo --out packed", 1),
        ("pack /dev/null --out packed --shard 8", 1),
        ("pack /dev/null --out packed", 2),
        ("pack demo/deposit.card --out 6.shard", 2),
        ("pack nothing --out 6.shard", 3),
        ("same demo/copy-a demo/copy-b", 0),
        ("same demo/copy-a/0.shard demo/copy-b/0.shard", 0),
        ("same demo/copy-a demo/damaged", 1),
        ("same demo/copy-a/5.shard demo/damaged/5.shard", 1),
        ("same demo/copy-a", 2),
        ("same demo/copy-a demo/copy-b/0.shard", 2),
        ("same demo/copy-a nothing", 3),
        ("holdings demo/copy-a demo/pairs", 0),
        ("holdings demo/damaged", 0),
        ("holdings demo/copy-a --jobs 0", 2),
        ("holdings demo/copy-a --add", 2),
        ("holdings", 2),
        ("holdings nothing/0.shard", 3),
        ("fingerprint demo/copy-a", 0),
        ("fingerprint demo/copy-a/5.shard", 0),
        ("fingerprint demo/pairs --drop-unlisted", 0),
        ("fingerprint demo/pairs", 1),
        ("fingerprint demo/damaged --drop-unlisted", 1),
        ("fingerprint demo", 1),
        ("fingerprint", 2),
        ("fingerprint demo/copy-a demo/copy-b", 2),
        ("fingerprint demo/copy-a --shard 0", 2),
        ("fingerprint demo/copy-a --against demo/deposit.card", 2),
        ("fingerprint demo/copy-a --against nothing", 3),
        ("fingerprint nothing/0.shard", 3),
        ("get demo/copy-a 21", 0),
        ("get demo/copy-b --cell 1,2,1", 0),
        ("get demo/copy-a/5.shard 0x15", 0),
        ("get demo/copy-a/4.shard 21", 1),
        ("get demo/copy-a --cell 4,4,0", 1),
        ("get demo/copy-a --cell 5,0,0", 1),
        ("get demo/copy-a", 2),
        ("get demo/copy-a 1 2", 2),
        ("get demo/copy-a 21 --cell 1,2,1", 2),
        ("get demo/copy-a twenty", 2),
        ("get demo/copy-a --cell 1,2", 2),
        ("get demo/damaged --cell 2,2,1", 1),
        ("get demo/damaged/7.shard --cell 2,2,1", 3),
        ("list demo/copy-a/0.shard", 0),
        (
            "list demo/copy-a/0.shard demo/copy-a/1.shard --minishard 1",
            0,
        ),
        ("list demo/damaged/2.shard", 1),
        ("list demo/damaged/2.shard --minishard 1", 0),
        ("list", 2),
        ("list demo/copy-a/0.shard --minishard x", 2),
        ("list demo/copy-a/8.shard", 2),
        ("list demo/copy-a", 2),
        ("list demo/copy-a/0.shard --fragments", 2),
        ("get demo/copy-a 21 --fragment 0,0", 1),
        ("check demo/copy-a --kind mesh", 2),
        ("check demo/copy-a --kind volume", 0),
        ("list nothing/0.shard", 3),
        ("check demo/pairs", 0),
        ("check demo/pairs/0.data demo/pairs/1.index", 0),
        ("check nothing/0.index", 3),
        ("same demo/pairs demo/copy-b", 0),
        ("same demo/pairs/3.data demo/copy-b/3.shard", 0),
        ("same demo/pairs demo/damaged", 1),
        ("get demo/pairs --cell 1,2,1", 0),
        ("get demo/pairs/5.data 21", 0),
        ("get demo/pairs --cell 4,4,0", 1),
        ("list demo/pairs/0.index demo/pairs/1.data", 0),
        ("list nothing/0.data", 3),
        ("range demo/pairs/0.index 0 32", 0),
        ("range demo/pairs/0.data 32 32", 0),
        ("range demo/pairs/0.data 0x20 0x30 --place", 0),
        ("range demo/pairs/0.index 0 33", 1),
        ("range demo/pairs/0.index 9 8", 1),
        ("range demo/pairs/0.index 0 99999", 1),
        ("range demo/pairs/0.index 0", 2),
        ("range demo/pairs/0.index 0 1 2", 2),
        ("range demo/pairs/0.index zero 1", 2),
        ("range demo/pairs/0.index 0 1 --json", 2),
        ("range demo/pairs/0.index 0 1 --place --out x", 2),
        ("range demo/copy-a/0.shard 0 1", 2),
        ("range demo/pairs 0 1", 2),
        ("range nothing/0.index 0 1", 3),
        ("name --shard 5 --pair", 0),
        ("name --shard 8 --pair", 1),
        ("name --pair", 2),
        ("locate 0,0,0 4,3,2", 0),
        ("locate 0,0,0 5,0,0", 1),
        ("locate", 2),
        ("locate 0,0", 2),
        ("locate -1,0,0", 2),
        ("cell 0 21", 0),
        ("cell 18446744073709551615", 1),
        ("cell", 2),
        ("cell x", 2),
        ("cover 0,0,0 1,1,1", 0),
        ("cover 1,1,1 0,0,0", 0),
        ("cover -64,0,0 236,260,200 --most 99", 1),
        ("cover 0,0,0", 2),
        ("cover 0,0,0 1,1", 2),
        ("cover 0,0,0 1,1,1 --count --shards", 2),
        ("cover 0,0,0 9223372036854775808,1,1", 2),
        ("name 0,0,0", 0),
        ("name --shard 7", 0),
        ("name 0,0,4", 1),
        ("name --shard 8", 1),
        ("name", 2),
    ];
    let with_mesh_card = [
        ("check demo/mesh-a", 0),
        ("check demo/mesh-b --kind mesh", 0),
        ("check demo/mesh-b --kind volume", 2),
        ("check demo/mesh-b --kind net", 2),
        ("check demo/mesh-b --kind", 2),
        ("check demo/copy-a/0.shard", 1),
        ("settle --drop-unlisted demo/mesh-b --out nets", 0),
        ("settle --drop-unlisted demo/mesh-b/0.shard --out net", 0),
        ("same demo/mesh-a demo/mesh-b", 0),
        ("same demo/mesh-a nets", 0),
        ("get demo/mesh-a 17", 0),
        ("get demo/mesh-b 17 --fragment 0,1", 0),
        ("get demo/mesh-b 17 --fragment 0x0,0x1", 0),
        ("get demo/mesh-b 17 --fragment 0,2", 1),
        ("get demo/mesh-b 17 --fragment 2,0", 1),
        ("get demo/mesh-b 18 --fragment 0,0", 1),
        ("get demo/mesh-b 17 --fragment 0", 2),
        ("get demo/mesh-b 17 --fragment 0,0,0", 2),
        ("get demo/mesh-b 17 --fragment -1,0", 2),
        ("get demo/mesh-b --cell 0,0,0", 2),
        ("get demo/mesh-b --cell 0,0,0 --fragment 0,0", 2),
        ("list demo/mesh-a/0.shard", 0),
        (
            "list demo/mesh-a/0.shard demo/mesh-a/1.shard --fragments",
            0,
        ),
        ("list demo/mesh-a/0.shard --fragments=1", 2),
        ("locate 0,0,0", 2),
        ("cover 0,0,0 1,1,1", 2),
        ("cell 21", 0),
        ("name 0,0,0", 0),
        ("name --shard 1", 0),
    ];
    let plain = [
        (
            "check demo/mesh-a --info demo/info --scale 0 --kind mesh",
            1,
        ),
        ("card show demo/mesh.card", 0),
        ("card check demo/mesh.card", 0),
        (
            "card make --info demo/info --scale 0 --kind mesh --out info-mesh.card",
            0,
        ),
        (
            "card make --info demo/info --scale 0 --kind x --out x.card",
            2,
        ),
        ("locate 0,0,0 --card nothing", 3),
        ("card show demo/deposit.card", 0),
        ("card show demo/mesh.manifest", 1),
        ("card show --info demo/info --scale 1", 0),
        ("card show --info demo/info --scale 2", 1),
        ("card show --info demo/deposit.card --scale 0", 1),
        ("card show --info demo/info", 2),
        ("card show demo/deposit.card --info demo/info --scale 0", 2),
        ("card show demo/deposit.card --scale 0", 2),
        ("card show --info nothing --scale 0", 3),
        ("check demo/copy-a --info demo/info --scale 0", 0),
        ("check demo/murmur --info demo/info --scale 0x1", 0),
        ("check demo/copy-a --info demo/info --scale 1", 1),
        ("check demo/copy-a --info demo/info --scale 2", 1),
        ("check demo/copy-a --info demo/info", 2),
        ("check demo/copy-a --scale 0", 2),
        ("check demo/copy-a --info demo/info --scale first", 2),
        (
            "check demo/copy-a --info demo/info --scale 0 --card demo/deposit.card",
            2,
        ),
        (
            "check demo/copy-a --info demo/info --scale 0 --hash murmur",
            2,
        ),
        ("check demo/copy-a --info nothing --scale 0", 3),
        (
            "settle --drop-unlisted demo/copy-b --out by-info --info demo/info --scale 0",
            0,
        ),
        ("same demo/copy-a demo/copy-b --info demo/info --scale 0", 0),
        ("get demo/copy-b --cell 1,2,1 --info demo/info --scale 0", 0),
        ("list demo/copy-a/0.shard --info demo/info --scale 0", 0),
        ("locate 1,2,1 --info demo/info --scale 0", 0),
        ("cell 21 --info demo/info --scale 0", 0),
        ("cover 0,0,0 9,9,9 --info demo/info --scale 0", 0),
        ("cover 0,0,0 9,9,9 --card nothing", 3),
        ("name 1,2,1 --info demo/info --scale 0", 0),
        ("name --shard 5 --info demo/info --scale 0", 0),
        ("card make --info demo/info --scale 0 --out info.card", 0),
        (
            "card make --info demo/info --scale 0 --out demo/info --force",
            2,
        ),
        (
            "card make --info demo/info --scale 0 --out other.card --size 1,1,1",
            2,
        ),
        ("card make --info demo/info --out other.card", 2),
        ("card make --info demo/info --scale 7 --out other.card", 1),
        ("card make --info nothing --scale 0 --out other.card", 3),
        ("card show", 2),
        ("card show a b", 2),
        ("card show nothing", 3),
        ("card check demo/deposit.card demo/murmur.card", 0),
        ("card check demo/deposit.card demo/mesh.manifest", 1),
        ("card check", 2),
        ("card check nothing demo/deposit.card", 3),
        ("card", 2),
        ("card burn", 2),
        ("manifest show demo/mesh.manifest", 0),
        ("manifest show demo/mesh.manifest --nodes", 0),
        ("manifest show demo/deposit.card", 1),
        ("manifest show", 2),
        ("manifest show nothing", 3),
        ("manifest check demo/mesh.manifest", 0),
        ("manifest check demo/deposit.card demo/mesh.manifest", 1),
        ("manifest check", 2),
        ("manifest check nothing", 3),
        ("manifest node demo/mesh.manifest 0 4", 0),
        ("manifest node demo/mesh.manifest 0 5", 1),
        ("manifest node demo/mesh.manifest 0", 2),
        ("manifest node demo/mesh.manifest zero 0", 2),
        ("manifest node nothing 0 0", 3),
        ("manifest", 2),
        (
            "label demo/labels.chunk 0,0,0 --size 16,16,16 --block 8,8,8 --channels 1 --bits 64",
            0,
        ),
        (
            "labels demo/labels.chunk --out raw --size 16,16,16 --block 8,8,8 --channels 1 --bits 64",
            0,
        ),
        (
            "labels demo/deposit.card --out no --size 16,16,16 --block 8,8,8 --channels 1 --bits 64",
            1,
        ),
        (
            "get demo/labels --voxel 7,12,3 --label --info demo/labels.info --scale 0",
            0,
        ),
        (
            "get demo/labels --voxel 7,12,3 --info demo/labels.info --scale 0",
            0,
        ),
        (
            "get demo/labels --voxel 32,0,0 --info demo/labels.info --scale 0",
            1,
        ),
        ("explain", 0),
        ("explain 9", 0),
        ("explain 21", 0),
        ("explain 23", 0),
        ("explain 24", 0),
        ("explain 25", 0),
        ("explain 26", 0),
        ("explain 30", 0),
        ("explain 0", 2),
        ("explain 200", 2),
        ("explain 99", 2),
        ("explain nine", 2),
        ("sample fresh", 0),
        ("sample demo", 2),
        ("sample", 2),
        ("sample /proc/no-folder-can-be-made-here", 3),
        ("", 2),
        ("chek demo/copy-a", 2),
        ("--help", 0),
        ("--version", 0),
        ("help", 0),
        ("help nothing", 2),
    ];
    let mut all: Vec<(String, i32)> = Vec::new();
    all.extend(with_card.map(|(line, status)| (format!("{line} {CARD}"), status)));
    all.extend(with_mesh_card.map(|(line, status)| (format!("{line} {MESH_CARD}"), status)));
    all.extend(plain.map(|(line, status)| (line.to_string(), status)));
    let make = format!("card make --out made.card {SHARDING} {VOLUME}");
    all.push((make.clone(), 0));
    all.push((make.clone(), 2));
    all.push((format!("{make} --force"), 0));
    all.push((make.replace("--chunk 64", "--chunk 0"), 1));
    all.push((make.replace("made.card", "nothing/made.card"), 3));
    all.push((make.replace("--hash identity", ""), 2));
    all
}

#[test]
fn exit_statuses() {
    let folder = Folder::with_sample();
    for (line, status) in statuses() {
        let run = folder.run_line(&line);
        run.expect_status(status);
        if status == 2 && !line.contains("--out one") && !line.contains("made.card") {
            let last = run.stderr.lines().last().unwrap_or("");
            assert!(last.starts_with("see: coronagamba "), "{run}");
        }
    }
    assert_eq!(folder.read("made.card"), folder.read("demo/deposit.card"));
    assert_eq!(folder.read("info.card"), folder.read("demo/deposit.card"));
    assert_eq!(
        folder.names("."),
        [
            "7.shard",
            "all",
            "by-info",
            "demo",
            "fresh",
            "info-mesh.card",
            "info.card",
            "made.card",
            "net",
            "nets",
            "one",
            "raw",
            "some"
        ]
    );
    assert_eq!(folder.names("some"), ["0.shard", "5.shard", "6.shard"]);
}

#[test]
fn a_card_and_the_same_settings_in_words_give_the_same_answers() {
    let folder = Folder::with_sample();
    let words = format!("{SHARDING} {VOLUME}");
    for line in [
        "check demo/copy-a",
        "check demo/damaged",
        "same demo/copy-a demo/copy-b",
        "get demo/copy-b --cell 1,2,1",
        "list demo/copy-b/3.shard",
        "locate 1,2,1 4,3,2",
        "cell 21",
        "cover 0,0,0 99,99,99",
        "name 0,0,0",
        "name --shard 5",
    ] {
        let by_card = folder.run_line(&format!("{line} {CARD}"));
        let by_words = folder.run_line(&format!("{line} {words}"));
        assert_eq!(by_card.text(), by_words.text());
        assert_eq!(by_card.status, by_words.status);
        assert!(matches!(by_card.status, Some(0 | 1)), "{by_card}");
        let joined = words.replace(" --", "\n--").replace(' ', "=");
        let by_joined = folder.run_line(&format!("{line} {joined}"));
        assert_eq!(by_card.text(), by_joined.text(), "{by_joined}");
    }
}

#[test]
fn no_setting_is_assumed() {
    let folder = Folder::with_sample();
    for missing in ["--preshift", "--hash", "--minishard-bits", "--shard-bits"] {
        let words: Vec<&str> = SHARDING.split(' ').collect();
        let pairs = words.chunks(2).filter(|pair| pair[0] != missing);
        let rest = pairs
            .map(|pair| pair.join(" "))
            .collect::<Vec<_>>()
            .join(" ");
        for line in [
            "check demo/copy-a",
            "settle --drop-unlisted demo/copy-a --out x",
            "pack /dev/null --out 0.shard",
            "same demo/copy-a demo/copy-b",
            "get demo/copy-a 21",
            "list demo/copy-a/0.shard",
            "name --shard 0",
        ] {
            let run = folder.run_line(&format!("{line} {rest}"));
            run.expect_status(2);
            assert!(run.stderr.contains(missing), "{run}");
            for given in ["--preshift", "--hash", "--minishard-bits", "--shard-bits"] {
                let named = run.stderr.lines().next().unwrap_or("").contains(given);
                assert_eq!(named, given == missing, "{run}");
            }
        }
    }
    for missing in ["--size", "--chunk"] {
        let words: Vec<&str> = VOLUME.split(' ').collect();
        let pairs = words.chunks(2).filter(|pair| pair[0] != missing);
        let rest = pairs
            .map(|pair| pair.join(" "))
            .collect::<Vec<_>>()
            .join(" ");
        let run = folder.run_line(&format!("locate 0,0,0 {SHARDING} {rest}"));
        run.expect_status(2);
        assert!(run.stderr.contains(missing), "{run}");
    }
    // The offset alone has a value of its own.
    let size = "--size 300,260,200 --chunk 64,64,64";
    let run = folder.run_line(&format!("name 0,0,0 {SHARDING} {size}"));
    assert_eq!(run.expect_status(0).text(), "0-64_0-64_0-64\n");
    // A card and settings in words are never mixed.
    for extra in ["--preshift 1", "--hash identity", "--offset 0,0,0"] {
        folder
            .run_line(&format!("check demo/copy-a {CARD} {extra}"))
            .expect_status(2);
    }
    for bad in [
        SHARDING.replace("--preshift 1", "--preshift 256"),
        SHARDING.replace("--hash identity", "--hash md5"),
        SHARDING.replace("--shard-bits 3", "--shard-bits -1"),
        SHARDING.replace("--shard-bits 3", "--shard-bits 3 --shard-bits 3"),
        SHARDING.replace("--shard-bits 3", "--shard-bits"),
    ] {
        folder
            .run_line(&format!("check demo/copy-a {bad}"))
            .expect_status(2);
    }
}

#[test]
fn a_shard_number_comes_from_the_name_or_from_words() {
    let folder = Folder::with_sample();
    folder.write("copied.bin", folder.read("demo/copy-b/5.shard"));
    let run = folder.run_line(&format!("check copied.bin {CARD}"));
    run.expect_status(2);
    assert!(run.stderr.contains("7.shard"), "{run}");
    for number in ["5", "0x5"] {
        let run = folder.run_line(&format!("check copied.bin --shard {number} {CARD}"));
        run.expect_status(0)
            .expect_line("copied.bin: sound, 12 chunks, 1228 bytes");
    }
    folder
        .run_line(&format!("check copied.bin --shard 4 {CARD}"))
        .expect_status(1);
}

#[test]
fn cells_from_standard_input() {
    let folder = Folder::with_sample();
    let script = format!("printf '1,2,1\\n4,3,2\\n' | \"$0\" locate - {CARD}");
    let output = Command::new("sh")
        .args(["-c", &script, PROGRAM])
        .current_dir(folder.path())
        .output()
        .expect("sh starts");
    let from_words = folder.run_line(&format!("locate 1,2,1 4,3,2 {CARD}"));
    assert_eq!(output.stdout, from_words.expect_status(0).stdout);
    assert_eq!(output.status.code(), Some(0));
}

#[test]
fn locate_prints_what_the_proved_program_prints() {
    // The scope's worked case.
    let folder = Folder::new();
    let settings = "--preshift 0 --hash identity --minishard-bits 1 --shard-bits 2 --size 100,100,100 --chunk 64,64,64";
    let run = folder.run_line(&format!("locate 1,0,1 1,1,0 {settings}"));
    assert_eq!(run.expect_status(0).text(), "5 2.shard 1\n3 1.shard 1\n");
}

#[test]
fn the_scope_s_names() {
    let folder = Folder::new();
    let settings = "--preshift 0 --hash identity --minishard-bits 1 --size 100,1,1 --chunk 64,1,1 --offset -64,0,0 --shard-bits";
    let names = folder.run_line(&format!("name 0,0,0 1,0,0 {settings} 4"));
    assert_eq!(
        names.expect_status(0).text(),
        "-64-0_0-1_0-1\n0-36_0-1_0-1\n"
    );
    for (bits, number, name) in [(4, 10, "a.shard"), (5, 10, "0a.shard"), (0, 0, "0.shard")] {
        let run = folder.run_line(&format!("name --shard {number} {settings} {bits}"));
        assert_eq!(run.expect_status(0).text(), format!("{name}\n"));
    }
}

/// The commands that a help text gives as examples; a line that ends in a
/// backslash goes on in the next.
fn examples(help: &str) -> Vec<String> {
    let (_, examples) = help.rsplit_once("\nexample").expect("an example");
    let joined = examples.replace("\\\n", " ");
    let lines = joined.lines().skip(1).map(str::trim_start);
    let commands = lines.filter(|line| line.starts_with("coronagamba "));
    commands.map(str::to_string).collect()
}

#[test]
fn each_help_text_has_an_example_that_works() {
    let folder = Folder::with_sample();
    folder.make("bin");
    symlink(PROGRAM, folder.at("bin/coronagamba")).expect("a link");
    for command in COMMANDS.iter().chain(&[""]) {
        let help = folder.run_line(&format!("{command} --help"));
        help.expect_status(0);
        assert!(help.text().contains("\nusage: coronagamba "), "{help}");
        let examples = examples(help.text());
        assert!(!examples.is_empty(), "{help}");
        for example in examples {
            // The parts of a run are of one deposit, which is not made anew between them.
            if !example.contains(".report") {
                let _ = std::fs::remove_dir_all(folder.at("demo"));
                folder.run_line("sample demo").expect_status(0);
            }
            if example.contains("sample demo") {
                std::fs::remove_dir_all(folder.at("demo")).expect("removed");
            }
            let output = Command::new("sh")
                .args(["-c", &format!("PATH=\"$PWD/bin:$PATH\"; {example}")])
                .current_dir(folder.path())
                .output()
                .expect("sh starts");
            let told = String::from_utf8_lossy(&output.stderr);
            let expected = i32::from(example.contains("demo/damaged"));
            assert_eq!(output.status.code(), Some(expected), "{example}\n{told}");
        }
    }
}

#[test]
fn help_is_there_in_each_form() {
    let folder = Folder::new();
    for command in COMMANDS.iter().chain(&[""]) {
        let long = folder.run_line(&format!("{command} --help"));
        let short = folder.run_line(&format!("{command} -h"));
        let by_name = folder.run_line(&format!("help {command}"));
        assert_eq!(long.expect_status(0).text(), short.expect_status(0).text());
        assert_eq!(long.text(), by_name.expect_status(0).text());
        // An example may be longer than a terminal is wide.
        let fits = |line: &&str| line.chars().count() <= 80 || line.contains("  coronagamba ");
        assert!(long.lines().iter().all(fits), "{long}");
    }
    let all = folder.run_line("--help");
    for command in COMMANDS {
        let word = command.split(' ').next().unwrap_or(command);
        assert!(
            all.text().contains(&format!("\n  {word} ")),
            "{word}\n{all}"
        );
    }
    let near = folder.run_line("chek x");
    assert!(near.expect_status(2).stderr.contains("check"), "{near}");
    let near = folder.run_line("settel x");
    assert!(near.expect_status(2).stderr.contains("settle"), "{near}");
}

/// The options that a help text names: each with the words of its entry, the word for its
/// value and the text, or with none where it is of no use.
fn options_in(help: &str) -> BTreeMap<String, String> {
    let mut options = BTreeMap::new();
    for part in help.split("\n\n") {
        let idle = part.strip_prefix("Also taken, and of no use here: ");
        for name in idle.unwrap_or_default().split_whitespace() {
            let name = name.trim_end_matches([',', '.']);
            assert_eq!(options.insert(name.to_string(), String::new()), None);
        }
        if !part.starts_with("settings, ") && !part.starts_with("options:") {
            continue;
        }
        for entry in part.split("\n  --").skip(1) {
            let words: Vec<&str> = entry.split_whitespace().collect();
            let name = format!("--{}", words[0]);
            assert_eq!(options.insert(name, words[1..].join(" ")), None);
        }
    }
    options
}

/// The commands that do something, with the options that their help names.
fn options_of_all(folder: &Folder) -> Vec<(&'static str, BTreeMap<String, String>)> {
    let commands = COMMANDS
        .iter()
        .filter(|name| !["card", "manifest"].contains(name));
    let options = commands.map(|command| {
        let help = folder.run_line(&format!("{command} --help"));
        (*command, options_in(help.text()))
    });
    options.collect()
}

#[test]
fn help_names_the_options_that_are_taken_and_no_others() {
    let folder = Folder::new();
    let commands = options_of_all(&folder);
    let mut with_value = BTreeMap::new();
    for (name, entry) in commands.iter().flat_map(|(_, options)| options) {
        // The word for a value is in capitals, a text is not.
        *with_value.entry(name).or_insert(false) |= entry.starts_with(char::is_uppercase);
    }
    assert!(with_value.len() > 40, "{with_value:?}");
    for (command, options) in &commands {
        for (name, with_value) in &with_value {
            let run = folder.run_line(&format!("{command} {name} --unheard-of"));
            let told = match (options.contains_key(*name), with_value) {
                (false, _) => format!("there is no option {name} here"),
                (true, false) => "there is no option --unheard-of here".to_string(),
                (true, true) => format!("option {name} needs a value"),
            };
            assert!(run.expect_status(2).stderr.contains(&told), "{run}");
        }
    }
}

#[test]
fn an_option_has_one_text_in_all_commands() {
    let folder = Folder::new();
    let mut texts: BTreeMap<String, BTreeSet<String>> = BTreeMap::new();
    for (name, entry) in options_of_all(&folder).into_iter().flat_map(|(_, all)| all) {
        if !entry.is_empty() {
            texts.entry(name).or_default().insert(entry);
        }
    }
    for (name, texts) in &texts {
        // Extents are those of the volume, or of the one chunk whose labels are read.
        let expected = if name == "--size" { 2 } else { 1 };
        assert_eq!(texts.len(), expected, "{name}: {texts:?}");
    }
}

#[test]
fn json_lines_are_json_objects() {
    let folder = Folder::with_sample();
    let with_card = [
        ("check demo/copy-a demo/damaged", 1),
        ("settle --drop-unlisted demo/damaged --out settled", 1),
        ("settle --drop-unlisted demo/damaged --out settled", 1),
        ("settle --drop-unlisted demo/copy-b/0.shard --out one", 0),
        ("pack /dev/null --out 7.shard", 0),
        ("pack demo --out packed", 1),
        ("same demo/copy-a demo/copy-b", 0),
        ("same demo/copy-a demo/damaged", 1),
        ("same demo/copy-a/0.shard demo/copy-b/0.shard", 0),
        ("holdings demo/copy-a demo/damaged", 0),
        ("holdings nothing/0.shard", 3),
        ("fingerprint demo/copy-a", 0),
        ("fingerprint --drop-unlisted demo/damaged", 1),
        ("fingerprint demo", 1),
        ("list demo/copy-a/0.shard", 0),
        ("list demo/damaged/2.shard", 1),
        ("check demo/pairs", 0),
        ("settle --drop-unlisted demo/pairs --out from-pairs", 0),
        ("same demo/copy-a demo/pairs", 0),
        ("list demo/pairs/0.index", 0),
        ("range demo/pairs/0.index 32 40 --place", 0),
        ("range demo/pairs/0.index 31 33 --place", 1),
        ("name --shard 5 --pair", 0),
        ("locate 1,2,1 5,0,0", 1),
        ("cell 21 18446744073709551615", 1),
        ("name 1,2,1", 0),
        ("name --shard 5", 0),
        ("check nothing/0.shard", 3),
    ];
    let with_mesh_card = [
        ("check demo/mesh-a demo/mesh-b", 0),
        ("check demo/copy-a", 1),
        ("settle --drop-unlisted demo/mesh-b --out nets", 0),
        ("same demo/mesh-a demo/mesh-b", 0),
        ("list demo/mesh-a/0.shard", 0),
        ("list demo/mesh-a/0.shard --fragments", 0),
    ];
    let plain = [
        ("card show demo/deposit.card", 0),
        ("card show demo/mesh.card", 0),
        ("card check demo/deposit.card demo/mesh.manifest", 1),
        ("manifest show demo/mesh.manifest", 0),
        ("manifest show demo/mesh.manifest --nodes", 0),
        ("manifest check demo/mesh.manifest demo/deposit.card", 1),
        ("manifest node demo/mesh.manifest 1 1", 0),
        ("manifest node demo/mesh.manifest 1 2", 1),
        (
            "label demo/labels.chunk 0,0,0 16,0,0 --size 16,16,16 --block 8,8,8 --channels 1 --bits 64",
            1,
        ),
        (
            "labels demo/labels.chunk --out raw --size 16,16,16 --block 8,8,8 --channels 1 --bits 64",
            0,
        ),
        (
            "get demo/labels --voxel 7,12,3 --label --info demo/labels.info --scale 0",
            0,
        ),
        ("explain", 0),
        ("explain 12", 0),
    ];
    let with_card = with_card.map(|(line, status)| (format!("{line} {CARD} --json"), status));
    let with_mesh_card =
        with_mesh_card.map(|(line, status)| (format!("{line} {MESH_CARD} --json"), status));
    let plain = plain.map(|(line, status)| (format!("{line} --json"), status));
    let all = with_card.into_iter().chain(with_mesh_card).chain(plain);
    for (line, status) in all {
        let run = folder.run_line(&line);
        run.expect_status(status);
        assert!(!run.lines().is_empty(), "{run}");
        for line in run.lines() {
            match Json::read(line) {
                Ok(Json::Object(_)) => {}
                other => panic!("{other:?}\n{run}"),
            }
        }
    }
}

#[test]
fn ids_stay_exact_in_json() {
    let folder = Folder::new();
    let index = [1u64 << 63, u64::MAX - (1 << 63), 0, 0, 0, 0];
    let mut file = [0u64, 48].map(u64::to_le_bytes).concat();
    file.extend(index.iter().flat_map(|n| n.to_le_bytes()));
    folder.write("0.shard", file);
    let run = folder.run_line(
        "list 0.shard --json --preshift 0 --hash identity --minishard-bits 0 --shard-bits 0",
    );
    run.expect_status(0);
    let ids: Vec<String> = run
        .lines()
        .iter()
        .filter_map(|line| {
            Json::read(line)
                .expect("JSON")
                .number("id")
                .map(str::to_string)
        })
        .collect();
    assert_eq!(ids, ["9223372036854775808", "18446744073709551615"]);
}
