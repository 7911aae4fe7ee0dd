//! Commands that only read, on random inputs, held to the independent program.

use crate::json::Json;
use crate::shards::options;
use crate::support::{Folder, Run};
use reference::card::{to_bytes, Card};
use reference::grid::{bounds_of, cell_of, cover, grid_size, key_bits, key_of, Cell, Volume};
use reference::manifest;
use reference::names::{chunk_name, shard_name};
use reference::shard;
use reference::sharding::Sharding;
use std::collections::BTreeSet;
use testkit::places::{cell, key, volume};
use testkit::shards::{sound, Sample};
use testkit::{manifests, places, Rng};

/// Three numbers with commas.
fn triple<T: ToString>(numbers: [T; 3]) -> String {
    numbers.map(|number| number.to_string()).join(",")
}

/// The volume as options.
fn volume_options(volume: &Volume) -> String {
    format!(
        "--size {} --chunk {} --offset {}",
        triple(volume.size),
        triple(volume.chunk),
        triple(volume.offset)
    )
}

/// A volume that a card can hold.
fn kept_volume(rng: &mut Rng) -> Volume {
    loop {
        let volume = volume(rng);
        if grid_size(&volume).is_ok_and(|grid| key_bits(grid) <= 64) {
            return volume;
        }
    }
}

/// The line of an answer, or of its refusal.
fn line(answer: Result<String, u8>) -> String {
    answer.unwrap_or_else(|number| format!("refused {number}"))
}

/// Panics unless these lines were printed and the status goes with them.
#[track_caller]
fn expect_lines(run: &Run, expected: &[String]) {
    assert_eq!(run.lines(), expected, "{run}");
    let refused = expected.iter().any(|line| line.starts_with("refused"));
    run.expect_status(i32::from(refused));
}

/// What `locate` prints for a cell.
fn located(sharding: &Sharding, volume: &Volume, cell: Cell) -> Result<String, u8> {
    let key = key_of(volume, cell)?;
    let place = sharding.place(key);
    let file = shard_name(sharding, place.shard)?;
    Ok(format!("{key} {file} {}", place.minishard))
}

/// What `cell` prints for a key.
fn celled(volume: &Volume, key: u64) -> Result<String, u8> {
    let cell = cell_of(volume, key)?;
    let bounds = bounds_of(volume, cell)?;
    let axis = |axis: usize| format!("{}..{}", bounds.begin[axis], bounds.end[axis]);
    Ok(format!(
        "{} {} {} {}",
        triple(cell),
        axis(0),
        axis(1),
        axis(2)
    ))
}

#[test]
fn cells_keys_and_names() {
    let rng = &mut Rng::new(1);
    let folder = Folder::new();
    for _ in 0..40 {
        let (sharding, volume) = (places::sharding(rng), kept_volume(rng));
        let words = format!("{} {}", options(&sharding), volume_options(&volume));
        let make = folder.run_line(&format!("card make --out card --force {words}"));
        make.expect_status(0);
        let card = reference::card::Card { sharding, volume };
        assert_eq!(Ok(folder.read("card")), reference::card::to_bytes(&card));

        let cells: Vec<Cell> = (0..8).map(|_| cell(rng, &volume)).collect();
        let asked = cells
            .iter()
            .map(|cell| triple(*cell))
            .collect::<Vec<_>>()
            .join(" ");
        let places = cells
            .iter()
            .map(|cell| line(located(&sharding, &volume, *cell)));
        let places: Vec<String> = places.collect();
        let names = cells.iter().map(|cell| line(chunk_name(&volume, *cell)));
        let names: Vec<String> = names.collect();
        for settings in [words.as_str(), "--card card"] {
            expect_lines(
                &folder.run_line(&format!("locate {asked} {settings}")),
                &places,
            );
            expect_lines(
                &folder.run_line(&format!("name {asked} {settings}")),
                &names,
            );
        }

        let keys: Vec<u64> = (0..8).map(|_| key(rng, &volume)).collect();
        let asked = keys
            .iter()
            .map(u64::to_string)
            .collect::<Vec<_>>()
            .join(" ");
        let cells: Vec<String> = keys.iter().map(|key| line(celled(&volume, *key))).collect();
        expect_lines(
            &folder.run_line(&format!("cell {asked} --card card")),
            &cells,
        );
    }
}

/// What `cover` prints for a key.
fn covering(sharding: &Sharding, volume: &Volume, key: u64) -> Result<String, u8> {
    let cell = cell_of(volume, key)?;
    let place = sharding.place(key);
    let file = shard_name(sharding, place.shard)?;
    Ok(format!("{key} {} {file} {}", triple(cell), place.minishard))
}

#[test]
fn chunks_that_cover_a_box() {
    let rng = &mut Rng::new(7);
    let folder = Folder::new();
    for _ in 0..40 {
        let (sharding, volume) = (places::sharding(rng), places::volume_of_bits(rng, 4));
        let card = Card { sharding, volume };
        folder.write("card", to_bytes(&card).expect("an allowed card"));
        let corner = |rng: &mut Rng| -> [i64; 3] {
            std::array::from_fn(|axis| {
                let by = rng.below(u64::from(volume.size[axis]) + 2);
                i64::from(volume.offset[axis]) - 1 + by as i64
            })
        };
        let (lower, upper) = (corner(rng), corner(rng));
        let words = [lower, upper].map(|[x, y, z]| format!("{x},{y},{z}"));
        let line = format!("cover {} --card card", words.join(" "));
        let keys = cover(&volume, lower, upper, 1 << 12).expect("a few keys");
        let lines: Result<Vec<String>, u8> = keys
            .iter()
            .map(|key| covering(&sharding, &volume, *key))
            .collect();
        let run = folder.run_line(&line);
        assert_eq!(run.expect_status(0).lines(), lines.expect("cells"), "{run}");
        assert_eq!(run.stderr.is_empty(), !keys.is_empty(), "{run}");
        let count = folder.run_line(&format!("{line} --count"));
        assert_eq!(count.expect_status(0).lines(), [keys.len().to_string()]);
        let shards: BTreeSet<u64> = keys.iter().map(|key| sharding.place(*key).shard).collect();
        let files = shards.iter().map(|shard| shard_name(&sharding, *shard));
        let files: Result<Vec<String>, u8> = files.collect();
        let told = folder.run_line(&format!("{line} --shards"));
        assert_eq!(told.expect_status(0).lines(), files.expect("names"));
        let exact = folder.run_line(&format!("{line} --most {}", keys.len()));
        assert_eq!(exact.text(), run.text());
        if let Some(short) = keys.len().checked_sub(1) {
            let refused = folder.run_line(&format!("{line} --most {short}"));
            refused.expect_status(1);
            assert!(refused.text().is_empty(), "{refused}");
            let told = format!("more than {short} chunks share a voxel");
            assert!(refused.stderr.contains(&told), "{refused}");
        }
    }
}

#[test]
fn a_box_in_json_and_without_chunks() {
    let folder = Folder::with_sample();
    let card = "--card demo/deposit.card";
    let run = folder.run_line(&format!("cover 0,128,64 65,192,128 {card} --json"));
    let first = run.expect_status(0).lines()[0];
    assert_eq!(
        first,
        "{\"key\":21,\"result\":\"covers\",\"cell\":[1,2,1],\"shard\":5,\
         \"file\":\"5.shard\",\"minishard\":0}"
    );
    assert_eq!(run.lines().len(), 2, "{run}");
    let shards = folder.run_line(&format!("cover 0,128,64 65,192,128 {card} --shards --json"));
    let whole = "{\"shard\":5,\"result\":\"covers\",\"file\":\"5.shard\"}";
    assert!(shards.lines().contains(&whole), "{shards}");
    let count = folder.run_line(&format!("cover 0,128,64 65,192,128 {card} --count --json"));
    assert_eq!(count.lines(), ["{\"result\":\"counted\",\"chunks\":2}"]);
    for (corners, why) in [
        ("5,5,5 5,9,9", "the box has no voxel"),
        ("5,5,5 9,9,-9", "the box has no voxel"),
        ("236,0,0 999,9,9", "the box lies outside the volume"),
        ("-999,0,0 -64,9,9", "the box lies outside the volume"),
    ] {
        let run = folder.run_line(&format!("cover {corners} {card}"));
        assert!(run.expect_status(0).text().is_empty(), "{run}");
        assert!(run.stderr.contains(why), "{run}");
        let json = folder.run_line(&format!("cover {corners} {card} --json"));
        assert!(json.expect_status(0).text().is_empty() && json.stderr.is_empty());
    }
    // The whole of the numbers is the whole volume: 5 x 5 x 4 chunks.
    let ends = format!("{0},{0},{0} {1},{1},{1}", i64::MIN, i64::MAX);
    let all = folder.run_line(&format!("cover {ends} --count {card}"));
    assert_eq!(all.expect_status(0).lines(), ["100"]);
}

/// The lines of a listing.
fn listing(sharding: &Sharding, number: u64, file: &[u8]) -> Vec<String> {
    let entries = shard::list(sharding, number, file).expect("a sound shard");
    let header = "ID MINISHARD START LENGTH".to_string();
    let lines = entries.iter().map(|entry| {
        let minishard = sharding.place(entry.id).minishard;
        format!("{} {minishard} {} {}", entry.id, entry.start, entry.length)
    });
    [header].into_iter().chain(lines).collect()
}

#[test]
fn listings_and_chunks() {
    let rng = &mut Rng::new(2);
    let folder = Folder::new();
    let mut chunks = 0;
    for _ in 0..40 {
        let Sample {
            sharding,
            number,
            file,
        } = sound(rng, 8);
        let name = shard_name(&sharding, number).expect("a shard");
        folder.write(format!("deposit/{name}"), &file);
        let options = options(&sharding);
        let run = folder.run_line(&format!("list deposit/{name} {options}"));
        run.expect_status(0);
        assert_eq!(run.lines(), listing(&sharding, number, &file), "{run}");
        for entry in shard::list(&sharding, number, &file).expect("a sound shard") {
            // A folder finds the file of an id by its name.
            let run = folder.run_line(&format!("get deposit {} {options}", entry.id));
            run.expect_status(0);
            assert!(run.stdout == entry.bytes(&file), "{run}");
            chunks += 1;
        }
    }
    assert!(chunks > 80, "{chunks}");
}

/// A member that is an array of numbers, as written.
fn numbers(object: &Json, name: &str) -> Vec<String> {
    let Some(Json::Array(items)) = object.get(name) else {
        panic!("{name} is no array in {object:?}");
    };
    let number = |item: &Json| match item {
        Json::Number(number) => number.clone(),
        other => panic!("{other:?} is no number"),
    };
    items.iter().map(number).collect()
}

/// The bits of reals that are written in decimal. A reader that makes 64-bit
/// reals of them must get the very same numbers.
fn real_bits(object: &Json, name: &str) -> Vec<u32> {
    let real = |text: &String| {
        let wide: f64 = text.parse().expect("a real");
        let real = wide as f32;
        assert_eq!(f64::from(real), wide, "{text}");
        real.to_bits()
    };
    numbers(object, name).iter().map(real).collect()
}

#[test]
fn nodes_of_manifests() {
    let rng = &mut Rng::new(3);
    let folder = Folder::new();
    let (mut with_corners, mut without) = (0, 0);
    for _ in 0..120 {
        let bytes = manifests::sound(rng, 6);
        folder.write("m", &bytes);
        let (level, number) = manifests::question(rng, &bytes);
        let run = folder.run_line(&format!("manifest node m {level} {number} --json"));
        let Ok(node) = manifest::node(&bytes, level, number) else {
            run.expect_status(1);
            continue;
        };
        let object = Json::read(run.text().trim_end()).expect("a JSON object");
        assert_eq!(
            numbers(&object, "position"),
            node.position.map(|p| p.to_string())
        );
        assert_eq!(
            object.number("start"),
            Some(node.start.to_string().as_str())
        );
        assert_eq!(object.number("size"), Some(node.size.to_string().as_str()));
        match manifest::corners(&bytes, level, number) {
            Ok(corners) => {
                run.expect_status(0);
                assert_eq!(real_bits(&object, "near"), corners.near, "{run}");
                assert_eq!(real_bits(&object, "far"), corners.far, "{run}");
                with_corners += 1;
            }
            Err(refusal) => {
                run.expect_status(1);
                assert_eq!(
                    object.number("corners_refusal"),
                    Some(refusal.to_string().as_str())
                );
                without += 1;
            }
        }
    }
    assert!(with_corners > 10 && without > 5, "{with_corners} {without}");
}
