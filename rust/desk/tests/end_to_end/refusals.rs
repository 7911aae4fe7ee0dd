//! Every refusal number from files and words: the number, the minishard and the
//! position where the rules give them, and exit status 1. What is expected
//! follows from the scope's table; the independent program must agree.

use crate::json::Json;
use crate::shards::{example, options, with_index, ONE};
use crate::support::{Folder, Run};
use reference::sharding::Sharding;
use reference::{card, info, manifest, settle, shard, unlisted, Refusal};
use std::fs::File;
use testkit::manifests::Parts;
use testkit::shards::{self, Sample};
use testkit::{meshes, Rng};

/// The refusal that a plain run told in its first words about it.
fn told(run: &Run) -> Option<Refusal> {
    let all = format!("{}\n{}", run.text(), run.stderr);
    let (_, told) = all.split_once(": refused ")?;
    let line = told.lines().next()?;
    let (number, rest) = line.split_at(line.find(|c: char| !c.is_ascii_digit())?);
    let minishard = rest.strip_prefix(" in minishard ").map(|rest| {
        let (minishard, _) = rest.split_once(':').expect("a colon behind the minishard");
        minishard.parse().expect("a minishard number")
    });
    let number = number.parse().ok()?;
    Some(Refusal {
        number,
        minishard,
        position: position(number, || {
            let (_, place) = told.split_once("look at: byte ").expect("a place");
            let end = place.find(' ').expect("a word behind the byte");
            place[..end].parse().expect("a byte's number")
        }),
    })
}

/// The byte told, where the number is one that always has a position. Of other
/// numbers the desk may tell a byte of its own finding.
fn position(number: u8, byte: impl FnOnce() -> u64) -> Option<u64> {
    (7..=11).contains(&number).then(byte)
}

/// The refusal that a run with --json told.
fn told_in_json(run: &Run) -> Option<Refusal> {
    let refused = run.lines().into_iter().find_map(|line| {
        let object = Json::read(line).unwrap_or_else(|why| panic!("{why}\n{run}"));
        object.get("refusal").is_some().then_some(object)
    })?;
    let whole = |name| {
        refused
            .number(name)
            .map(|n| n.parse::<u64>().expect("whole"))
    };
    let number = whole("refusal")? as u8;
    Some(Refusal {
        number,
        minishard: whole("minishard"),
        position: position(number, || whole("byte").expect("a byte")),
    })
}

/// Panics unless this line is refused so, in words and in JSON.
#[track_caller]
fn refused(folder: &Folder, line: &str, expected: Refusal) {
    let plain = folder.run_line(line);
    plain.expect_status(1);
    assert_eq!(told(&plain), Some(expected), "{plain}");
    let takes_json = !line.starts_with("get") && !line.starts_with("card make");
    if takes_json {
        let json = folder.run_line(&format!("{line} --json"));
        json.expect_status(1);
        assert_eq!(told_in_json(&json), Some(expected), "{json}");
    }
}

/// Panics unless this line is refused with this number alone.
#[track_caller]
fn refused_bare(folder: &Folder, line: &str, number: u8) {
    refused(folder, line, Refusal::bare(number));
}

const VOLUME: &str = "--size 300,260,200 --chunk 64,64,64 --offset -64,0,0";

#[test]
fn number_1_a_field_of_the_specification() {
    let folder = Folder::new();
    folder.write("0.shard", example());
    for bad in [
        Sharding {
            preshift: 64,
            ..ONE
        },
        Sharding {
            minishard_bits: 17,
            ..ONE
        },
        Sharding {
            shard_bits: 33,
            ..ONE
        },
    ] {
        assert_eq!(bad.allowed(), Err(1));
        let options = options(&bad);
        refused_bare(&folder, &format!("check 0.shard --shard 0 {options}"), 1);
        refused_bare(&folder, &format!("check 0.shard {options}"), 1);
        refused_bare(&folder, &format!("list 0.shard {options}"), 1);
        refused_bare(&folder, &format!("get 0.shard 4 {options}"), 1);
        refused_bare(
            &folder,
            &format!("settle --drop-unlisted 0.shard --out out {options}"),
            1,
        );
        refused_bare(&folder, &format!("same 0.shard 0.shard {options}"), 1);
        refused_bare(&folder, &format!("locate 0,0,0 {options} {VOLUME}"), 1);
        refused_bare(&folder, &format!("name --shard 0 {options}"), 1);
        refused_bare(&folder, &format!("card make --out c {options} {VOLUME}"), 1);
    }
    assert_eq!(folder.names("."), ["0.shard"]);
}

/// A card of the sample's volume.
fn sample_card() -> Vec<u8> {
    let card = card::Card {
        sharding: ONE,
        volume: reference::grid::Volume {
            size: [300, 260, 200],
            chunk: [64; 3],
            offset: [-64, 0, 0],
        },
    };
    card::to_bytes(&card).expect("an allowed card")
}

/// That card with other bytes from this place on.
fn card_with(place: usize, bytes: &[u8]) -> Vec<u8> {
    let mut card = sample_card();
    card[place..][..bytes.len()].copy_from_slice(bytes);
    card
}

/// Cards that are refused, and their numbers. The fields' bodies stand at 3
/// preshift, 7 hash, 11 minishard bits, 15 shard bits, 19 size, 34 chunk, 49
/// offset, each behind a tag and a length.
fn refused_cards() -> Vec<(Vec<u8>, u8)> {
    let mut wide = card_with(19, &[0xff; 12]);
    wide[34..46].copy_from_slice(&[1, 0, 0, 0].repeat(3));
    vec![
        (Vec::new(), 14),
        (sample_card()[..60].to_vec(), 14),
        (card_with(0, &[2]), 14),
        (card_with(1, &[2]), 14),
        (card_with(49, &[0; 12]), 14),
        ([&sample_card()[..], &[8, 1, 0, 0]].concat(), 14),
        ([&sample_card()[..46], &[8, 1, 0, 2]].concat(), 14),
        ([&sample_card()[..46], &[8, 1, 0, 1, 0]].concat(), 14),
        (card_with(3, &[64]), 1),
        (card_with(7, &[2]), 1),
        (card_with(11, &[17]), 1),
        (card_with(15, &[33]), 1),
        (card_with(19, &[0; 4]), 2),
        (card_with(34, &[0; 12]), 2),
        (wide, 3),
    ]
}

#[test]
fn cards_give_14_then_1_then_2_then_3() {
    let folder = Folder::new();
    folder.write("0.shard", example());
    for (bytes, number) in refused_cards() {
        assert_eq!(card::read(&bytes), Err(number));
        folder.write("bad.card", &bytes);
        refused_bare(&folder, "card check bad.card", number);
        refused_bare(&folder, "card show bad.card", number);
        refused_bare(&folder, "locate 0,0,0 --card bad.card", number);
        refused_bare(&folder, "check 0.shard --card bad.card", number);
    }
    folder.write("good.card", sample_card());
    folder.run_line("card check good.card").expect_status(0);
    let check = folder.run_line("check 0.shard --card good.card");
    check.expect_status(0);
}

/// The sample's info file after an edit, which must change it.
fn info_with(folder: &Folder, old: &str, new: &str) -> Vec<u8> {
    let text = String::from_utf8(folder.read("demo/info")).expect("text");
    let edited = text.replacen(old, new, 1);
    assert_ne!(edited, text, "{old}");
    edited.into_bytes()
}

#[test]
fn info_files_give_19_then_20_then_1_then_2_then_3() {
    let folder = Folder::with_sample();
    folder.write("0.shard", example());
    let size = "\"size\": [300, 260, 200]";
    for (old, new, number, place) in [
        ("[{\"chunk", "[{,\"chunk", 19, "line 4, column 14 "),
        ("\"type\"", "\"type\": 1 \"a\"", 19, "line 30, column 12 "),
        ("raw", "\\ra\\w", 19, "line 5, column 21 "),
        ("\"scales\"", "\"scale\"", 20, "line 1, column 1 "),
        (size, "\"size\": [300, 260]", 20, "line 15, column 12 "),
        (size, "\"size\": [300, 260, 2e2]", 20, "line 15, column 23 "),
        (
            "\"preshift_bits\": 1",
            "\"preshift_bits\": 64",
            1,
            "line 13, column 22 ",
        ),
        ("\"identity\"", "\"sha256\"", 1, "line 10, column 13 "),
        (size, "\"size\": [300, 0, 200]", 2, "line 15, column 12 "),
        (
            size,
            "\"size\": [4294967295, 4294967295, 4294967295]",
            3,
            "line 15, column 12 ",
        ),
    ] {
        let mut text = info_with(&folder, old, new);
        if number == 3 {
            let wide = String::from_utf8(text).expect("text");
            text = wide
                .replacen("[[64, 64, 64]]", "[[1, 1, 1]]", 1)
                .into_bytes();
        }
        assert_eq!(info::read(&text, 0), Err(number), "{old} {new}");
        folder.write("bad", &text);
        for line in [
            "card show --info bad --scale 0",
            "card make --out made.card --info bad --scale 0",
            "locate 0,0,0 --info bad --scale 0",
            "check 0.shard --info bad --scale 0",
        ] {
            refused_bare(&folder, line, number);
            let run = folder.run_line(line);
            assert!(
                run.stderr.contains(&format!("look at: {place}")),
                "{place}{run}"
            );
        }
        assert!(!folder.names(".").contains(&"made.card".to_string()));
    }
    let told = folder.run_line("check 0.shard --json --info bad --scale 0");
    let object = Json::read(told.lines()[0]).expect("JSON");
    assert_eq!(object.text("subject"), Some("info"));
    assert_eq!(
        (object.number("line"), object.number("column")),
        (Some("15"), Some("12"))
    );
    refused_bare(&folder, "card show --info demo/info --scale 2", 20);
}

#[test]
fn numbers_2_3_and_4_cells_and_keys() {
    let folder = Folder::new();
    let all = format!("{} {VOLUME}", options(&ONE));
    for cell in ["5,0,0", "0,5,0", "0,0,4", "4294967295,0,0"] {
        refused_bare(&folder, &format!("locate {cell} {all}"), 2);
        refused_bare(&folder, &format!("name {cell} {all}"), 2);
    }
    let flat = format!("{} --size 0,1,1 --chunk 1,1,1", options(&ONE));
    refused_bare(&folder, &format!("locate 0,0,0 {flat}"), 2);
    refused_bare(&folder, &format!("cell 0 {flat}"), 2);
    refused_bare(&folder, &format!("card make --out c {flat}"), 2);
    // The scope's case: 2^22, 2^22, 2^21 cells need 65 bits.
    let wide = format!(
        "{} --size 4194304,4194304,2097152 --chunk 1,1,1",
        options(&ONE)
    );
    refused_bare(&folder, &format!("locate 0,0,0 {wide}"), 3);
    refused_bare(&folder, &format!("cell 0 {wide}"), 3);
    refused_bare(&folder, &format!("card make --out c {wide}"), 3);
    // The scope's case: grid 5,3,1 has no cell of key 20 and none of key 32.
    let small = format!("{} --size 5,3,1 --chunk 1,1,1", options(&ONE));
    for key in ["20", "32", "0x20", "18446744073709551615"] {
        refused_bare(&folder, &format!("cell {key} {small}"), 4);
    }
    let fine = folder.run_line(&format!("cell 24 {small}"));
    assert!(fine.expect_status(0).text().contains("4,2,0"), "{fine}");
    assert!(folder.names(".").is_empty());
}

#[test]
fn number_5_another_shard() {
    let folder = Folder::new();
    folder.write("0.shard", example());
    let one = options(&ONE);
    for number in ["1", "0x100000000", "18446744073709551615"] {
        assert_eq!(shard::check(&ONE, 1, &example()), Err(Refusal::bare(5)));
        refused_bare(&folder, &format!("check 0.shard --shard {number} {one}"), 5);
        refused_bare(
            &folder,
            &format!("settle --drop-unlisted 0.shard --out o --shard {number} {one}"),
            5,
        );
        refused_bare(&folder, &format!("list 0.shard --shard {number} {one}"), 5);
        refused_bare(&folder, &format!("name --shard {number} {one}"), 5);
    }
    refused_bare(&folder, &format!("list 0.shard --minishard 2 {one}"), 33);
    let two = Sharding {
        shard_bits: 1,
        ..ONE
    };
    let elsewhere = shard::lookup(&two, 0, 2, &example());
    assert_eq!(elsewhere, Err(Refusal::bare(5)));
    refused_bare(&folder, &format!("get 0.shard 2 {}", options(&two)), 5);
}

#[test]
fn number_6_too_short_or_too_long() {
    let folder = Folder::new();
    let one = options(&ONE);
    for length in [0, 1, 31] {
        let file = &example()[..length];
        assert_eq!(shard::check(&ONE, 0, file), Err(Refusal::bare(6)));
        folder.write("0.shard", file);
        refused_bare(&folder, &format!("check 0.shard {one}"), 6);
        refused_bare(
            &folder,
            &format!("settle --drop-unlisted 0.shard --out o {one}"),
            6,
        );
        refused_bare(&folder, &format!("get 0.shard 4 {one}"), 6);
        refused_bare(&folder, &format!("list 0.shard {one}"), 6);
    }
    folder.write("0.shard", &example()[..32]);
    // The shard index alone: its first entry ends past the file.
    refused(
        &folder,
        &format!("check 0.shard {one}"),
        Refusal::at(7, 0).in_minishard(0),
    );
    let folder = Folder::for_holes();
    let long = File::create(folder.at("0.shard")).expect("a file");
    long.set_len((1 << 30) + 1).expect("a file with a hole");
    refused_bare(&folder, &format!("check 0.shard {one}"), 6);
}

/// A faulty shard of [`ONE`] and what the whole-shard check says of it. The rows
/// begin at byte 37; two entries have their start steps at bytes 53 and 61.
fn faulty() -> Vec<(Vec<u8>, Refusal)> {
    let sound = [4, 6, 0, 0, 2, 3];
    let first = |index: &[u64]| with_index([5, 5 + 8 * index.len() as u64, 0, 0], index);
    let second = |start, end| with_index([5, 53, start, end], &sound);
    let fault = |number, minishard, byte| Refusal::at(number, byte).in_minishard(minishard);
    vec![
        (with_index([53, 5, 0, 0], &sound), fault(7, 0, 0)),
        (second(1, 0), fault(7, 1, 16)),
        (second(0, 54), fault(7, 1, 16)),
        (second(u64::MAX - 1, u64::MAX), fault(7, 1, 16)),
        (with_index([5, 52, 0, 0], &sound), fault(8, 0, 0)),
        (second(0, 1), fault(8, 1, 16)),
        (first(&[4, 0, 0, 0, 2, 3]), fault(9, 0, 45)),
        // 4, 10, 4: by a step that wraps.
        (
            first(&[4, 6, u64::MAX - 5, 0, 0, 0, 2, 3, 0]),
            fault(9, 0, 53),
        ),
        (with_index([5, 53, 5, 53], &sound), fault(10, 1, 37)),
        (first(&[4, 7, 0, 0, 2, 3]), fault(10, 0, 45)),
        (first(&[4, 6, 0, 0, 2, 52]), fault(11, 0, 61)),
        // Three bytes back from 2: a start of 2^64-1, and nothing wraps behind it.
        (first(&[4, 6, 0, u64::MAX - 2, 2, 3]), fault(11, 0, 61)),
        (first(&[4, 6, 0, u64::MAX, 2, 53]), fault(11, 0, 61)),
        // Within a minishard lower numbers go first, and a minishard is
        // finished before the next.
        (first(&[4, 0, 0, 0, 2, 99]), fault(9, 0, 45)),
        (
            with_index([5, 53, 1, 0], &[4, 6, 0, 0, 2, 52]),
            fault(11, 0, 61),
        ),
    ]
}

#[test]
fn numbers_7_to_11_name_minishard_and_position_in_a_check() {
    let folder = Folder::new();
    let one = options(&ONE);
    for (file, expected) in faulty() {
        assert_eq!(shard::check(&ONE, 0, &file), Err(expected));
        folder.write("0.shard", &file);
        refused(&folder, &format!("check 0.shard {one}"), expected);
        let settling = expected.passed_on();
        assert_eq!(settle::length_of(&ONE, 0, &file, true), Err(settling));
        refused(
            &folder,
            &format!("settle --drop-unlisted 0.shard --out o {one}"),
            settling,
        );
        assert!(!folder.at("o").exists());
    }
}

#[test]
fn numbers_7_to_11_name_the_position_in_a_lookup_and_a_listing() {
    let folder = Folder::new();
    let one = options(&ONE);
    for (file, expected) in faulty() {
        folder.write("0.shard", &file);
        for id in [4, 10, 6, 5, 7] {
            let line = format!("get 0.shard {id} {one}");
            match shard::lookup(&ONE, 0, id, &file) {
                Ok(entry) => {
                    let run = folder.run_line(&line);
                    run.expect_status(0);
                    assert_eq!(run.stdout, entry.bytes(&file));
                }
                Err(told) => refused(&folder, &line, told),
            }
        }
        let minishard = expected.minishard.expect("7 to 11 name it");
        let told = Err(expected.passed_on());
        assert_eq!(shard::lookup(&ONE, 0, minishard, &file), told);
        refused(
            &folder,
            &format!("list 0.shard --minishard {minishard} {one}"),
            expected.passed_on(),
        );
    }
}

#[test]
fn number_12_an_id_that_is_not_listed() {
    let folder = Folder::new();
    folder.write("0.shard", example());
    for id in ["6", "7", "0x5", "18446744073709551615"] {
        refused_bare(&folder, &format!("get 0.shard {id} {}", options(&ONE)), 12);
        refused_bare(
            &folder,
            &format!("get 0.shard {id} --out o {}", options(&ONE)),
            12,
        );
    }
    assert_eq!(folder.names("."), ["0.shard"]);
}

/// A sound shard of 256 minishards that all list the same 5 MiB, so that its
/// settled form has more than 1 GiB.
fn folded() -> (Sharding, Vec<u8>) {
    const CHUNK: u64 = 5 << 20;
    let sharding = Sharding {
        minishard_bits: 8,
        ..ONE
    };
    let count = sharding.minishard_count();
    let mut file = Vec::new();
    for minishard in 0..count {
        let start = CHUNK + 24 * minishard;
        file.extend([start, start + 24].map(u64::to_le_bytes).concat());
    }
    file.resize(file.len() + CHUNK as usize, 7);
    for id in 0..count {
        file.extend([id, 0, CHUNK].map(u64::to_le_bytes).concat());
    }
    (sharding, file)
}

#[test]
fn number_13_a_settled_form_beyond_a_gibibyte() {
    let folder = Folder::new();
    let (sharding, file) = folded();
    assert_eq!(shard::check(&sharding, 0, &file), Ok(()));
    let length = settle::length_of(&sharding, 0, &file, true);
    assert_eq!(length, Err(Refusal::bare(13)));
    folder.write("0.shard", &file);
    folder.write("copy/0.shard", &file);
    let options = options(&sharding);
    folder
        .run_line(&format!("check 0.shard {options}"))
        .expect_status(0);
    refused_bare(
        &folder,
        &format!("settle --drop-unlisted 0.shard --out o {options}"),
        13,
    );
    refused_bare(&folder, &format!("same 0.shard copy/0.shard {options}"), 13);
    assert_eq!(folder.names("."), ["0.shard", "copy"]);
}

#[test]
fn numbers_15_to_18_manifests() {
    let folder = Folder::new();
    let node = |x| ([x, 0, 0], 8);
    let sound = Parts::new(
        [8.0; 3],
        [10.0; 3],
        vec![vec![node(0), node(1)], vec![([1 << 24, 0, 0], 5)]],
    );
    let mut shape = sound.clone();
    shape.shape[1] = 0.0;
    let mut origin = sound.clone();
    origin.origin[2] = f32::NAN;
    let mut falling = sound.clone();
    falling.levels[0].reverse();
    let mut longer = sound.bytes();
    longer.push(0);
    let many = Parts::new([1.0; 3], [0.0; 3], vec![Vec::new(); 33]).bytes();
    let cases = [
        (longer, 15),
        (sound.bytes()[..20].to_vec(), 15),
        (many, 15),
        (shape.bytes(), 16),
        (origin.bytes(), 16),
        (falling.bytes(), 17),
    ];
    for (bytes, number) in cases {
        assert_eq!(manifest::check(&bytes), Err(number));
        folder.write("m", &bytes);
        refused_bare(&folder, "manifest check m", number);
        refused_bare(&folder, "manifest show m", number);
        refused_bare(&folder, "manifest node m 0 0", number);
    }
    folder.write("m", sound.bytes());
    folder.run_line("manifest check m").expect_status(0);
    for (level, node) in [(0, 2), (1, 1), (2, 0), (u64::MAX, 0), (0, u64::MAX)] {
        assert_eq!(manifest::node(&sound.bytes(), level, node), Err(18));
        refused_bare(&folder, &format!("manifest node m {level} {node}"), 18);
    }
    // A node without corners is a node all the same.
    assert_eq!(manifest::corners(&sound.bytes(), 1, 0), Err(18));
    let run = folder.run_line("manifest node m 1 0");
    run.expect_status(1).expect_line("  position: 16777216,0,0");
    assert!(run.text().contains("corners: none, refused 18: "), "{run}");
}

#[test]
fn number_22_unlisted_bytes() {
    let folder = Folder::new();
    let (form, one) = (example(), options(&ONE));
    let file = [&form[..], b"--"].concat();
    folder.write("0.shard", &file);
    assert_eq!(
        settle::length_of(&ONE, 0, &file, false),
        Err(Refusal::bare(22))
    );
    let settle = format!("settle 0.shard --out o {one}");
    refused_bare(&folder, &settle, 22);
    assert_eq!(folder.names("."), ["0.shard"]);
    let run = folder.run_line(&settle);
    let told =
        "0.shard: refused 22: The shard has bytes that nothing lists, and dropping them was \
                not asked for.
  found: 2 unlisted bytes in 1 gap
  expected: every byte past the shard index listed, or the wish to lose the others (--drop-unlisted)
  look at: byte 85 (2 bytes)
";
    assert_eq!(run.text(), told);
    folder
        .run_line(&format!("{settle} --drop-unlisted"))
        .expect_status(0);
    assert!(folder.read("o") == form);
    // A form has none, and needs no wish.
    let again = folder.run_line(&format!("settle o --shard 0 --out p {one}"));
    again.expect_status(0);
    assert!(folder.read("p") == form);
    // What the check refuses comes first.
    let mut twice = file.clone();
    twice[45..53].fill(0);
    folder.write("0.shard", &twice);
    refused(&folder, &settle, Refusal::at(9, 45));
}

/// Counts and first gaps beside the reference's, of sound shards of both kinds.
#[test]
fn check_counts_unlisted_bytes() {
    let rng = &mut Rng::new(81);
    let folder = Folder::new();
    let (mut with, mut without) = (0, 0);
    for turn in 0..60 {
        let Sample {
            sharding,
            number,
            file,
        } = match turn % 2 {
            0 => shards::sound(rng, 8),
            _ => meshes::sound(rng, 5),
        };
        folder.write("s", &file);
        let words = format!("--shard {number} {}", options(&sharding));
        let gaps = unlisted::gaps(&sharding, number, &file).expect("it is sound");
        let bytes: u64 = gaps.iter().map(|gap| gap.1).sum();
        let json = folder.run_line(&format!("check s --unlisted --json {words}"));
        json.expect_status(0);
        let object = Json::read(json.lines()[0]).expect("an object");
        assert_eq!(object.number("unlisted"), Some(&bytes.to_string()[..]));
        assert_eq!(object.number("gaps"), Some(&gaps.len().to_string()[..]));
        let first = gaps.first().map(|gap| gap.0.to_string());
        assert_eq!(object.number("first_gap"), first.as_deref());
        let plain = folder.run_line(&format!("check s {words}"));
        assert!(!plain.expect_status(0).text().contains("unlisted"));
        let line = folder.run_line(&format!("check s --unlisted {words}"));
        let settled = folder.run_line(&format!("settle s --out o --force {words}"));
        match gaps.first() {
            None => {
                without += 1;
                assert!(line.text().ends_with(", 0 unlisted bytes\n"), "{line}");
                settled.expect_status(0);
            }
            Some((start, length)) => {
                with += 1;
                let place = format!(": byte {start} ({length} byte");
                assert!(line.text().contains(&place), "{line}");
                settled.expect_status(1);
            }
        }
    }
    assert!(with > 20 && without > 5, "{with} with, {without} without");
}
