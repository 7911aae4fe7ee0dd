//! The chunks of a box, copied to files: held to `get` and to the independent
//! program.

use crate::json::Json;
use crate::support::{Folder, Run};
use reference::grid::{cell_of, cover, Volume};
use reference::names::{chunk_name, shard_name};
use reference::shard;
use reference::sharding::Sharding;
use std::collections::BTreeMap;
use std::fs;
use std::os::unix::fs::symlink;
use testkit::Rng;

const CARD: &str = "--card demo/deposit.card";
const ALL: &str = "-64,0,0 236,260,200";
const VOLUME: Volume = Volume {
    size: [300, 260, 200],
    chunk: [64; 3],
    offset: [-64, 0, 0],
};

/// The sharding of the sample.
fn sharding() -> Sharding {
    Sharding {
        preshift: 1,
        hash: 0,
        minishard_bits: 1,
        shard_bits: 3,
        kind: 0,
    }
}

/// The name that a key's chunk gets.
fn name_of(key: u64) -> String {
    let cell = cell_of(&VOLUME, key).expect("a cell");
    chunk_name(&VOLUME, cell).expect("a name")
}

/// The chunks of these keys that a deposit of the sample has, by name, as the
/// independent program finds them.
fn expected(folder: &Folder, deposit: &str, keys: &[u64]) -> BTreeMap<String, Vec<u8>> {
    let sharding = sharding();
    let mut chunks = BTreeMap::new();
    for key in keys {
        let number = sharding.place(*key).shard;
        let name = shard_name(&sharding, number).expect("a shard");
        let Ok(file) = fs::read(folder.at(format!("demo/{deposit}/{name}"))) else {
            continue;
        };
        if let Ok(entry) = shard::lookup(&sharding, number, *key, &file) {
            chunks.insert(name_of(*key), entry.bytes(&file).to_vec());
        }
    }
    chunks
}

/// What a folder holds.
fn held(folder: &Folder, name: &str) -> BTreeMap<String, Vec<u8>> {
    let names = folder.names(name).into_iter();
    names
        .map(|file| (file.clone(), folder.read(format!("{name}/{file}"))))
        .collect()
}

/// Copies a box of the sample.
fn copy(folder: &Folder, corners: &str, deposit: &str, out: &str) -> Run {
    folder.run_line(&format!(
        "cover {corners} --deposit demo/{deposit} --out {out} {CARD}"
    ))
}

#[test]
fn chunks_of_boxes() {
    let rng = &mut Rng::new(8);
    let folder = Folder::with_sample();
    let mut copied = 0;
    for round in 0..8 {
        let corner = |rng: &mut Rng| -> [i64; 3] {
            std::array::from_fn(|axis| {
                let by = rng.below(u64::from(VOLUME.size[axis]) + 2) as i64;
                i64::from(VOLUME.offset[axis]) - 1 + by
            })
        };
        let (one, two) = (corner(rng), corner(rng));
        let lower: [i64; 3] = std::array::from_fn(|axis| one[axis].min(two[axis]));
        let upper: [i64; 3] = std::array::from_fn(|axis| one[axis].max(two[axis]));
        let words = [lower, upper].map(|[x, y, z]| format!("{x},{y},{z}"));
        let keys = cover(&VOLUME, lower, upper, 100).expect("at most 100 keys");
        for deposit in ["copy-a", "copy-b", "damaged"] {
            let out = format!("{deposit}-{round}");
            let run = copy(&folder, &words.join(" "), deposit, &out);
            let chunks = expected(&folder, deposit, &keys);
            assert_eq!(held(&folder, &out), chunks, "{run}");
            let summary = format!("{} chunk", keys.len());
            let lines = run.lines();
            let (last, lines) = lines.split_last().expect("a summary");
            assert!(last.starts_with(&summary), "{run}");
            assert!(last.contains(&format!(": {} written", chunks.len())));
            assert_eq!(lines.len(), keys.len(), "{run}");
            let refused = lines.iter().any(|line| line.contains(" refused "));
            run.expect_status(i32::from(refused));
            copied += chunks.len();
        }
    }
    assert!(copied > 100, "{copied}");
}

/// Each line's file holds what `get` gives, and there is no file where it
/// gives nothing.
#[test]
fn files_hold_what_get_gives() {
    let folder = Folder::with_sample();
    for (deposit, status) in [("copy-a", 0), ("damaged", 1)] {
        let run = copy(&folder, ALL, deposit, deposit);
        run.expect_status(status);
        let lines = run.lines();
        assert_eq!(lines.len(), 101, "{run}");
        for line in &lines[..100] {
            let [key, cell, name, end] = line.splitn(4, ' ').collect::<Vec<_>>()[..] else {
                panic!("{line}");
            };
            assert_eq!(name, name_of(key.parse().expect("a key")));
            let get = folder.run_line(&format!("get demo/{deposit} --cell {cell} {CARD}"));
            let file = fs::read(folder.at(format!("{deposit}/{name}"))).ok();
            let given = (get.status == Some(0)).then(|| get.stdout.clone());
            assert_eq!(file, given, "{line} {get}");
            let told = match end {
                "written" => "",
                "absent" => "refused 12",
                "no shard" => "the deposit has no",
                refused => refused,
            };
            assert!(get.stderr.contains(told), "{line} {get}");
        }
    }
}

/// A damaged minishard keeps back its own chunks alone, and is told once.
#[test]
fn a_damaged_shard_is_told_and_the_rest_is_copied() {
    let folder = Folder::with_sample();
    let run = copy(&folder, ALL, "damaged", "chunks");
    run.expect_status(1);
    let summary = "100 chunks: 58 written, 4 absent, 8 of shards that are not there, 30 refused";
    assert_eq!(run.lines().last(), Some(&summary));
    for (shard, refusal) in [(1, 7), (2, 9), (3, 11), (4, 6)] {
        let told = format!("demo/damaged/{shard}.shard: refused {refusal}: ");
        assert_eq!(run.stderr.matches(&told).count(), 1, "{told}\n{run}");
    }
    assert_eq!(run.stderr.matches("refused").count(), 4, "{run}");
    let lost = "demo/damaged/7.shard: is not there; 8 chunks of the box would stand in it";
    assert!(run.stderr.contains(lost), "{run}");

    let json = folder.run_line(&format!(
        "cover {ALL} --deposit demo/damaged --out json --jobs 1 --json {CARD}"
    ));
    json.expect_status(1);
    assert!(json.stderr.is_empty(), "{json}");
    let objects: Vec<Json> = json
        .lines()
        .iter()
        .map(|line| Json::read(line).unwrap())
        .collect();
    let (summary, chunks) = objects.split_last().expect("a summary");
    let count = |result: &str| {
        let told = |object: &&Json| object.text("result") == Some(result);
        chunks.iter().filter(told).count()
    };
    let counts = ["written", "absent", "no shard", "refused"].map(count);
    assert_eq!((counts, chunks.len()), ([58, 4, 8, 30], 100));
    for (name, number) in [
        ("chunks", "100"),
        ("written", "58"),
        ("already_there", "0"),
        ("other_bytes", "0"),
        ("absent", "4"),
        ("no_shard", "8"),
        ("refused", "30"),
        ("not_copied", "0"),
    ] {
        assert_eq!(summary.number(name), Some(number), "{name} {json}");
    }
    let first = "{\"key\":0,\"cell\":[0,0,0],\"path\":\"demo/damaged/0.shard\",\
                 \"out\":\"json/-64-0_0-64_0-64\",\"result\":\"written\",\"bytes\":33}";
    assert_eq!(json.lines()[0], first);
    assert_eq!(held(&folder, "json"), held(&folder, "chunks"));
}

/// A shard that cannot be read keeps back its own chunks.
#[test]
fn a_shard_that_cannot_be_read() {
    let folder = Folder::with_sample();
    fs::remove_file(folder.at("demo/copy-a/3.shard")).expect("removed");
    folder.make("demo/copy-a/3.shard");
    let run = copy(&folder, ALL, "copy-a", "chunks");
    run.expect_status(3);
    let unread = run
        .lines()
        .iter()
        .filter(|line| line.ends_with(" not read"))
        .count();
    let told = format!("{unread} not read or not written");
    assert!(unread > 0 && run.lines()[100].ends_with(&told), "{run}");
    assert!(
        run.stderr.contains("demo/copy-a/3.shard: cannot be read"),
        "{run}"
    );
    let keys = cover(&VOLUME, [-64, 0, 0], [236, 260, 200], 100).expect("100 keys");
    assert_eq!(held(&folder, "chunks"), expected(&folder, "copy-a", &keys));
}

#[test]
fn nothing_is_overwritten_or_left_half() {
    let folder = Folder::with_sample();
    let corners = "0,0,0 128,64,128";
    let all = copy(&folder, corners, "copy-a", "whole");
    assert_eq!(
        all.expect_status(0).lines().last(),
        Some(&"4 chunks: 4 written")
    );
    let whole = held(&folder, "whole");
    let names: Vec<&String> = whole.keys().collect();
    let [other, same, linked, free] = names[..] else {
        panic!("{names:?}");
    };

    folder.write(format!("chunks/{other}"), "mine");
    folder.write(format!("chunks/{same}"), &whole[same]);
    symlink(
        folder.at("demo/deposit.card"),
        folder.at(format!("chunks/{linked}")),
    )
    .expect("a link");
    folder.write(format!("chunks/.{free}.4194305.part"), "half");
    folder.write("chunks/.note.4194305.part", "mine");
    let card = folder.read("demo/deposit.card");
    let run = copy(&folder, corners, "copy-a", "chunks");
    run.expect_status(2);
    let summary = "4 chunks: 1 written, 1 already there, 1 there with other bytes, \
                   1 not read or not written";
    assert_eq!(run.lines().last(), Some(&summary), "{run}");
    assert!(
        run.stderr
            .contains("is a symbolic link and cannot be the output"),
        "{run}"
    );
    assert_eq!(folder.read(format!("chunks/{other}")), b"mine");
    assert_eq!(folder.read(format!("chunks/{free}")), whole[free]);
    assert_eq!(
        folder.names("chunks").len(),
        5,
        "{:?}",
        folder.names("chunks")
    );
    assert!(folder
        .names("chunks")
        .contains(&".note.4194305.part".to_string()));

    fs::remove_file(folder.at(format!("chunks/{linked}"))).expect("removed");
    let forced = folder.run_line(&format!(
        "cover {corners} --deposit demo/copy-a --out chunks --force {CARD}"
    ));
    let summary = "4 chunks: 2 written, 2 already there";
    assert_eq!(forced.expect_status(0).lines().last(), Some(&summary));
    fs::remove_file(folder.at("chunks/.note.4194305.part")).expect("removed");
    assert_eq!(held(&folder, "chunks"), whole);
    assert_eq!(folder.read("demo/deposit.card"), card);

    // An input under a chunk's name, by another link to the same file.
    fs::create_dir(folder.at("inputs")).expect("a folder");
    fs::hard_link(
        folder.at("demo/deposit.card"),
        folder.at(format!("inputs/{other}")),
    )
    .expect("a link");
    let spared = folder.run_line(&format!(
        "cover {corners} --deposit demo/copy-a --out inputs --force {CARD}"
    ));
    spared.expect_status(2);
    assert!(
        spared.stderr.contains("inputs are never written over"),
        "{spared}"
    );
    assert_eq!(folder.read("demo/deposit.card"), card);
}

#[test]
fn wrong_use_and_boxes_without_chunks() {
    let folder = Folder::with_sample();
    for (words, status, told) in [
        ("--deposit demo/copy-a", 2, "--out is missing"),
        ("--out x", 2, "--deposit is missing"),
        ("--force", 2, "--deposit is missing"),
        ("--jobs 2", 2, "--deposit is missing"),
        (
            "--deposit demo/copy-a --out x --count",
            2,
            "give one of them",
        ),
        (
            "--deposit demo/copy-a --out x --shards",
            2,
            "give one of them",
        ),
        ("--deposit demo/copy-a --out x --jobs 0", 2, "--jobs"),
        (
            "--deposit demo/copy-a --out demo/../demo/copy-a",
            2,
            "the deposit itself",
        ),
        ("--deposit demo/copy-a/0.shard --out x", 2, "is no folder"),
        (
            "--deposit demo/copy-a --out demo/deposit.card",
            2,
            "is no folder",
        ),
        ("--deposit nothing --out x", 3, "nothing: cannot be read"),
        (
            "--deposit demo/copy-a --out no/where",
            3,
            "no/where: cannot be made",
        ),
        (
            "--deposit demo/copy-a --out x --most 3",
            1,
            "more than 3 chunks",
        ),
    ] {
        let run = folder.run_line(&format!("cover 0,0,0 128,64,128 {words} {CARD}"));
        run.expect_status(status);
        assert!(run.text().is_empty() && run.stderr.contains(told), "{run}");
    }
    assert_eq!(folder.names("."), ["demo"]);
    let none = copy(&folder, "5,5,5 5,9,9", "copy-a", "none");
    assert_eq!(none.expect_status(0).lines(), ["0 chunks: 0 written"]);
    assert!(none.stderr.contains("the box has no voxel"), "{none}");
    assert!(folder.names("none").is_empty());
}
