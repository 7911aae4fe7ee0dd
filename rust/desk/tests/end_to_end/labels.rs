//! Labels inside a chunk: `label`, `labels`, and `get --voxel --label`.

use crate::json::Json;
use crate::support::{Folder, Run, PROGRAM};
use reference::grid::{key_of, Volume};
use reference::labels::{encode, Layout, Style, WIDTHS};
use reference::settle::settled_form;
use reference::sharding::{Sharding, VOLUME};
use std::process::Command;

const MIB: u64 = 1 << 20;

/// Words as a chunk stores them.
fn bytes(words: &[u32]) -> Vec<u8> {
    words.iter().flat_map(|word| word.to_le_bytes()).collect()
}

/// The published document's description worked by hand: one block of 2 by 2 by 2
/// voxels, width 1, its table at word 3 and its values at word 2 of the channel.
const WORKED: [u32; 6] = [1, 0x0100_0003, 2, 0xa5, 7, 9];
const WORKED_SHAPE: &str = "--size 2,2,2 --block 2,2,2 --channels 1 --bits 32";

/// A layout as options.
fn options(layout: &Layout) -> String {
    let three = |[x, y, z]: [u32; 3]| format!("{x},{y},{z}");
    let bits = if layout.wide { 64 } else { 32 };
    format!(
        "--size {} --block {} --channels {} --bits {bits}",
        three(layout.size),
        three(layout.block),
        layout.channels
    )
}

/// Labels in the raw form.
fn raw(labels: &[u64], wide: bool) -> Vec<u8> {
    let length = if wide { 8 } else { 4 };
    let bytes = |label: &u64| label.to_le_bytes()[..length].to_vec();
    labels.iter().flat_map(bytes).collect()
}

/// The one object that a run printed.
#[track_caller]
fn object(run: &Run) -> Json {
    assert_eq!(run.lines().len(), 1, "{run}");
    Json::read(run.text()).unwrap_or_else(|why| panic!("{why}\n{run}"))
}

#[test]
fn the_worked_chunk() {
    let folder = Folder::new();
    folder.write("chunk", bytes(&WORKED));
    let voxels = "0,0,0 1,0,0 0,1,0 1,1,0 0,0,1 1,0,1 0,1,1 1,1,1";
    let run = folder.run_line(&format!("label chunk {voxels} {WORKED_SHAPE}"));
    run.expect_status(0);
    assert_eq!(run.lines(), ["9", "7", "9", "7", "7", "9", "7", "9"]);
    let run = folder.run_line(&format!("labels chunk --out raw {WORKED_SHAPE}"));
    assert_eq!(
        run.expect_status(0).text(),
        "chunk: unpacked, 8 labels, 24 -> 32 bytes\n"
    );
    assert_eq!(folder.read("raw"), bytes(&[9, 7, 9, 7, 7, 9, 7, 9]));
    assert_eq!(folder.names("."), ["chunk", "raw"]);
    let run = folder.run_line(&format!("label chunk 0,0,0 --json {WORKED_SHAPE}"));
    assert_eq!(
        run.expect_status(0).text(),
        "{\"path\":\"chunk\",\"voxel\":[0,0,0],\"result\":\"label\",\"channel\":0,\"label\":9}\n"
    );
    let run = folder.run_line(&format!("labels chunk --out other --json {WORKED_SHAPE}"));
    assert_eq!(
        run.expect_status(0).text(),
        "{\"path\":\"chunk\",\"result\":\"unpacked\",\"out\":\"other\",\"labels\":8,\"bytes\":24,\
         \"unpacked_bytes\":32}\n"
    );
}

/// All widths and both bits, two channels, blocks that stick out.
#[test]
fn chunks_of_the_reference() {
    let folder = Folder::new();
    for wide in [false, true] {
        let layout = Layout {
            size: [5, 4, 3],
            block: [3, 2, 2],
            channels: 2,
            wide,
        };
        let top = if wide { u64::MAX } else { u64::from(u32::MAX) };
        let labels: Vec<u64> = (0..120).map(|i| top - i * i % 7).collect();
        let options = options(&layout);
        for least_width in WIDTHS {
            let style = Style {
                least_width,
                shared: least_width > 1,
                tables_last: least_width > 4,
            };
            folder.write("chunk", encode(&labels, &layout, style));
            let run = folder.run_line(&format!("labels chunk --out raw --force {options}"));
            run.expect_status(0);
            assert_eq!(folder.read("raw"), raw(&labels, wide));
            let run = folder.run_line(&format!("label chunk 4,3,2 0,1,0 --channel 1 {options}"));
            let expected = [labels[119], labels[60 + 5]].map(|label| label.to_string());
            assert_eq!(run.expect_status(0).lines(), expected);
        }
    }
}

#[test]
fn each_refusal_has_its_words() {
    let folder = Folder::new();
    let chunk = |place: usize, word: u32| {
        let mut words = WORKED;
        words[place] = word;
        bytes(&words)
    };
    let look_at = "; and at the size, block, channels and bits of the settings";
    for (name, chunk, number, found, place) in [
        (
            "width",
            chunk(1, 0x0300_0003),
            29,
            "width 3 of block 0,0,0 of channel 0",
            "byte 7 of the chunk (the width in the block's header)",
        ),
        (
            "header",
            chunk(0, 5),
            28,
            "the header of block 0,0,0 of channel 0 at byte 20",
            "byte 0 of the chunk (the offset of channel 0)",
        ),
        (
            "values",
            chunk(2, 5),
            28,
            "packed word 0 of block 0,0,0 of channel 0 at byte 24",
            "byte 8 of the chunk (the offset of the packed values in the block's header)",
        ),
        (
            "table",
            chunk(1, 0x0100_0004),
            28,
            "entry 1 of the table of block 0,0,0 of channel 0 at byte 24",
            "byte 4 of the chunk (the width and the table's offset in the block's header)",
        ),
    ] {
        folder.write(name, chunk);
        let run = folder.run_line(&format!("label {name} 0,0,0 {WORKED_SHAPE}"));
        run.expect_status(1)
            .expect_line(&format!("refused {number}"));
        let begin = format!("voxel 0,0,0: refused {number}: ");
        assert!(run.stderr.starts_with(&begin), "{run}");
        let found = format!("  found: {found}\n");
        let place = format!("  look at: {place}{look_at}\n");
        assert!(
            run.stderr.contains(&found) && run.stderr.ends_with(&place),
            "{run}"
        );
        let run = folder.run_line(&format!("labels {name} --out raw {WORKED_SHAPE}"));
        run.expect_status(1);
        let begin = format!("{name}: refused {number}: ");
        assert!(
            run.stderr.starts_with(&begin) && run.stderr.contains(&found),
            "{run}"
        );
        let run = folder.run_line(&format!("labels {name} --out raw --json {WORKED_SHAPE}"));
        let told = object(run.expect_status(1));
        assert_eq!(told.number("refusal"), Some(number.to_string().as_str()));
        assert!(!folder.at("raw").exists(), "a refusal leaves no file");
    }
    // One voxel of a block may be refused and another not: entry 0 is there.
    let run = folder.run_line(&format!("label table 0,0,0 1,0,0 {WORKED_SHAPE}"));
    assert_eq!(run.expect_status(1).lines(), ["refused 28", "9"]);
    for number in [28, 29] {
        let run = folder.run_line(&format!("explain {number}"));
        run.expect_status(0);
        assert!(run.text().contains("in a chunk of labels"), "{run}");
    }
}

#[test]
fn voxels_outside_and_words_that_are_none() {
    let folder = Folder::new();
    folder.write("chunk", bytes(&WORKED));
    let run = folder.run_line(&format!("label chunk 1,1,1 0,2,0 x 0,0,0 {WORKED_SHAPE}"));
    run.expect_status(2);
    assert_eq!(run.lines(), ["9", "refused 2", "wrong", "9"], "{run}");
    let run = folder.run_line(&format!("label chunk 0,0,0 --channel 1 {WORKED_SHAPE}"));
    run.expect_status(1).expect_line("refused 2");
    assert!(run.stderr.contains("found: channel 1\n"), "{run}");
    for (from, to) in [
        ("--size 2,2,2", "--size 2,0,2"),
        ("--block 2,2,2", "--block 0,2,2"),
        ("--channels 1", "--channels 0"),
    ] {
        let shape = WORKED_SHAPE.replace(from, to);
        for line in ["label chunk 0,0,0", "labels chunk --out raw"] {
            let run = folder.run_line(&format!("{line} {shape}"));
            run.expect_status(1);
            assert!(run.stderr.starts_with("settings: refused 2: "), "{run}");
        }
    }
    assert_eq!(folder.names("."), ["chunk"]);
}

#[test]
fn no_setting_of_labels_is_assumed() {
    let folder = Folder::new();
    folder.write("chunk", bytes(&WORKED));
    let words: Vec<&str> = WORKED_SHAPE.split(' ').collect();
    for missing in ["--size", "--block", "--channels", "--bits"] {
        let rest: Vec<&str> = words
            .chunks(2)
            .filter(|pair| pair[0] != missing)
            .flatten()
            .copied()
            .collect();
        for line in ["label chunk 0,0,0", "labels chunk --out raw"] {
            let run = folder.run_line(&format!("{line} {}", rest.join(" ")));
            let told = format!("settings are never assumed; missing: {missing}\n");
            assert!(run.expect_status(2).stderr.starts_with(&told), "{run}");
        }
    }
    for (line, status) in [
        ("label chunk".to_string(), 2),
        ("label".to_string(), 2),
        ("labels chunk".to_string(), 2),
        ("labels --out raw".to_string(), 2),
        ("labels chunk chunk --out raw".to_string(), 2),
        ("label none 0,0,0".to_string(), 3),
        ("labels none --out raw".to_string(), 3),
        ("labels chunk --out none/raw".to_string(), 3),
    ] {
        folder
            .run_line(&format!("{line} {WORKED_SHAPE}"))
            .expect_status(status);
    }
    for (from, to) in [
        ("32", "16"),
        ("2,2,2", "2,2"),
        ("--channels 1", "--channels -1"),
    ] {
        folder
            .run_line(&format!(
                "label chunk 0,0,0 {}",
                WORKED_SHAPE.replacen(from, to, 1)
            ))
            .expect_status(2);
    }
    assert_eq!(folder.names("."), ["chunk"]);
}

#[test]
fn an_output_is_whole_or_not_there() {
    let folder = Folder::new();
    folder.write("chunk", bytes(&WORKED));
    let line = format!("labels chunk --out raw {WORKED_SHAPE}");
    folder.write(".raw.77.part", "left by a run that was killed");
    folder.run_line(&line).expect_status(0);
    assert_eq!(folder.names("."), ["chunk", "raw"]);
    let run = folder.run_line(&line);
    assert_eq!(run.expect_status(0).text(), "chunk: already there\n");
    folder.write("raw", "mine");
    let run = folder.run_line(&line);
    assert_eq!(
        run.expect_status(2).text(),
        "raw: exists with other bytes (--force overwrites)\n"
    );
    assert_eq!(folder.read("raw"), b"mine");
    folder.run_line(&format!("{line} --force")).expect_status(0);
    assert_eq!(folder.read("raw").len(), 32);
    // The chunk itself is never an output.
    std::fs::hard_link(folder.at("chunk"), folder.at("link")).expect("a link");
    for out in ["chunk", "./chunk", "link"] {
        let run = folder.run_line(&format!("labels chunk --out {out} --force {WORKED_SHAPE}"));
        run.expect_status(2);
        assert_eq!(folder.read("chunk"), bytes(&WORKED));
    }
    folder.make("inner");
    folder
        .run_line(&format!("labels chunk --out inner --force {WORKED_SHAPE}"))
        .expect_status(2);
    // A chunk may come through a pipe.
    let script = format!("cat chunk | \"$0\" labels /dev/stdin --out piped {WORKED_SHAPE}");
    let mut command = Command::new("sh");
    command.args(["-c", &script, PROGRAM]);
    Run::of(command.current_dir(folder.path())).expect_status(0);
    assert_eq!(folder.read("piped"), folder.read("raw"));
}

/// A chunk of 16 bytes may say any number of labels: one block of width 0.
#[test]
fn the_chunk_and_its_raw_form_fit_in_memory_or_it_is_said() {
    let folder = Folder::new();
    folder.write("chunk", bytes(&[1, 2, 0, 5]));
    let length = 96 * MIB;
    let shape = |x: u64| format!("--size {x},1,1 --block {x},1,1 --channels 1 --bits 32");
    let limit = |bytes: u64| format!("ulimit -d {}", bytes / 1024);
    let line = format!("labels chunk --out raw {}", shape(length / 4));
    let run = folder.run_after(&limit(length / 2), &line);
    run.expect_status(3);
    let told = format!("chunk: cannot be unpacked: out of memory, {length} bytes are needed\n");
    assert_eq!(run.stderr, told);
    assert_eq!(folder.names("."), ["chunk"]);
    folder
        .run_after(&limit(length + 64 * MIB), &line)
        .expect_status(0);
    assert!(folder.read("raw") == 5u32.to_le_bytes().repeat(length as usize / 4));
    // What no memory holds is said at once, and a refusal goes before it.
    let run = folder.run_line(
        "labels chunk --out most --size 4294967295,1048576,1 --channels 1 --bits 32 \
         --block 4294967295,1048576,1",
    );
    let told = "out of memory, 18014398505287680 bytes are needed\n";
    assert!(run.expect_status(3).stderr.ends_with(told), "{run}");
    let most = "labels chunk --out most --size 4294967295,4294967295,4294967295 --channels 1";
    let block = "--block 4294967295,4294967295,4294967295";
    for (line, number) in [
        (format!("{most} --bits 32 {block}"), 13),
        (format!("{most} --bits 32 --block 8,8,8"), 28),
        // The table of 64-bit labels is cut off.
        (format!("{most} --bits 64 {block}"), 28),
    ] {
        let run = folder.run_line(&line);
        let told = format!("chunk: refused {number}: ");
        assert!(run.expect_status(1).stderr.starts_with(&told), "{run}");
    }
    assert_eq!(folder.names("."), ["chunk", "raw"]);
}

const ONE_SHARD: Sharding = Sharding {
    preshift: 0,
    hash: 0,
    minishard_bits: 0,
    shard_bits: 1,
    kind: VOLUME,
};

/// A volume that no chunk divides, and no block a chunk at its upper faces.
const LABELLED: Volume = Volume {
    size: [13, 9, 7],
    chunk: [6, 4, 5],
    offset: [-7, 3, 0],
};
const BLOCK: [u32; 3] = [4, 3, 2];
const CHANNELS: u32 = 2;

/// The label of a voxel, counted from the volume's beginning.
fn label_of([x, y, z]: [u32; 3], channel: u32) -> u64 {
    (u64::from(x) << 40) + u64::from(100 * (y / 2) + 10 * z + channel)
}

/// The chunk of a cell, by the reference's encoder.
fn chunk_of(cell: [u32; 3]) -> Vec<u8> {
    let from = [0, 1, 2].map(|axis| cell[axis] * LABELLED.chunk[axis]);
    let size = [0, 1, 2].map(|axis| LABELLED.chunk[axis].min(LABELLED.size[axis] - from[axis]));
    let layout = Layout {
        size,
        block: BLOCK,
        channels: CHANNELS,
        wide: true,
    };
    let mut labels = Vec::new();
    for channel in 0..CHANNELS {
        for z in 0..size[2] {
            for y in 0..size[1] {
                for x in 0..size[0] {
                    labels.push(label_of([from[0] + x, from[1] + y, from[2] + z], channel));
                }
            }
        }
    }
    encode(&labels, &layout, Style::default())
}

/// An info file with these members at its head and in its scale.
fn info(head: &str, scale: &str) -> String {
    format!(
        r#"{{{head} "scales": [{{{scale} "size": [13, 9, 7], "chunk_sizes": [[6, 4, 5]],
            "voxel_offset": [-7, 3, 0], "sharding": {{"@type": "neuroglancer_uint64_sharded_v1",
            "preshift_bits": 0, "hash": "identity", "minishard_bits": 0, "shard_bits": 1}}}}]}}"#
    )
}

const HEAD: &str = r#""data_type": "uint64", "num_channels": 2,"#;
const SCALE: &str = r#""encoding": "compressed_segmentation",
    "compressed_segmentation_block_size": [4, 3, 2],"#;
const BY_INFO: &str = "--info info --scale 0";
const BY_WORDS: &str = "--preshift 0 --hash identity --minishard-bits 0 --shard-bits 1 \
    --size 13,9,7 --chunk 6,4,5 --offset -7,3,0";
const LAYOUT: &str = "--block 4,3,2 --channels 2 --bits 64";

/// A deposit of labels in `deposit`, all its cells but 2,2,1 and those of odd
/// keys, whose shard is not there; with an info file and a card.
fn deposit() -> Folder {
    let folder = Folder::new();
    let mut chunks = Vec::new();
    for x in 0..3 {
        for y in 0..3 {
            for z in 0..2 {
                let key = key_of(&LABELLED, [x, y, z]).expect("a cell of the grid");
                if key.is_multiple_of(2) && [x, y, z] != [2, 2, 1] {
                    chunks.push((key, chunk_of([x, y, z])));
                }
            }
        }
    }
    chunks.sort();
    let listed: Vec<(u64, &[u8])> = chunks
        .iter()
        .map(|(key, chunk)| (*key, &chunk[..]))
        .collect();
    folder.write("deposit/0.shard", settled_form(&ONE_SHARD, &listed));
    folder.write("info", info(HEAD, SCALE));
    folder
        .run_line(&format!("card make --out card {BY_WORDS}"))
        .expect_status(0);
    folder
}

#[test]
fn from_a_voxel_to_its_net() {
    let folder = deposit();
    let mut told = [0; 3];
    for x in 0..13 {
        // A part of all voxels, so that each row and layer is met.
        for (y, z) in [(x % 9, x % 7), (8 - x % 9, 0), (8, 6)] {
            let voxel = format!("{},{},{}", i64::from(x) - 7, y + 3, z);
            let cell = [x / 6, y / 4, z / 5];
            let channel = x % CHANNELS;
            let line = format!("get deposit --voxel {voxel} --label --channel {channel} {BY_INFO}");
            let run = folder.run_line(&line);
            if cell[0] % 2 == 1 {
                run.expect_status(1);
                assert!(run.stderr.contains("the deposit has no 1.shard"), "{run}");
                told[1] += 1;
            } else if cell == [2, 2, 1] {
                run.expect_status(1);
                assert!(run.stderr.contains(": refused 12: "), "{run}");
                told[2] += 1;
            } else {
                let expected = label_of([x, y, z], channel);
                assert_eq!(
                    run.expect_status(0).text(),
                    format!("{expected}\n"),
                    "{run}"
                );
                told[0] += 1;
            }
        }
    }
    assert!(told.iter().all(|count| *count > 0), "{told:?}");
}

#[test]
fn each_way_to_say_how_labels_are_laid_out() {
    let folder = deposit();
    folder.write("plain-info", info("", ""));
    let asked = "get deposit --voxel -4,6,4 --label";
    let expected = format!("{}\n", label_of([3, 3, 4], 0));
    for settings in [
        BY_INFO.to_string(),
        format!("--card card {LAYOUT}"),
        format!("{BY_WORDS} {LAYOUT}"),
        format!("--info plain-info --scale 0 {LAYOUT}"),
    ] {
        let run = folder.run_line(&format!("{asked} {settings}"));
        assert_eq!(run.expect_status(0).text(), expected, "{run}");
    }
    // An info file that comes through a pipe is read once.
    let script = format!("cat info | \"$0\" {asked} --info /dev/stdin --scale 0");
    let mut command = Command::new("sh");
    command.args(["-c", &script, PROGRAM]);
    let run = Run::of(command.current_dir(folder.path()));
    assert_eq!(run.expect_status(0).text(), expected, "{run}");
    folder.write("raw-info", info(HEAD, r#""encoding": "raw","#));
    folder.write("image-info", info(r#""data_type": "uint8","#, SCALE));
    for (settings, told) in [
        ("--card card", "missing: --block, --channels, --bits"),
        (
            "--card card --block 4,3,2 --bits 64",
            "missing: --channels (",
        ),
        (
            "--info plain-info --scale 0 --bits 64 --channels 2",
            "missing: --block, which the info file does not say",
        ),
        (
            "--info info --scale 0 --block 4,3,2",
            "--info and --block are given together",
        ),
        (
            "--info raw-info --scale 0 --block 4,3,2",
            "raw-info: the string \"raw\" at line 1, column",
        ),
        (
            "--info image-info --scale 0 --channels 2",
            "image-info: the string \"uint8\" at line 1, column",
        ),
    ] {
        let run = folder.run_line(&format!("{asked} {settings}"));
        assert!(run.expect_status(2).stderr.contains(told), "{run}");
    }
    // Another layout than the writer's is refused, or gives other labels.
    let run = folder.run_line(&format!(
        "{asked} --card card --block 1,1,1 --channels 2 --bits 64"
    ));
    assert_ne!(run.text(), expected, "{run}");
    let run = folder.run_line(&format!(
        "{asked} --card card --block 0,1,1 --channels 2 --bits 64"
    ));
    assert!(
        run.expect_status(1)
            .stderr
            .starts_with("settings: refused 2"),
        "{run}"
    );
}

#[test]
fn a_voxel_s_chunk() {
    let folder = deposit();
    for (voxel, cell) in [
        ("-7,3,0", [0, 0, 0]),
        ("-2,6,4", [0, 0, 0]),
        ("5,11,4", [2, 2, 0]),
    ] {
        let line = format!("get deposit --voxel {voxel} {BY_INFO}");
        let run = folder.run_line(&line);
        assert_eq!(run.expect_status(0).stdout, chunk_of(cell));
        folder
            .run_line(&format!("{line} --out chunk --force"))
            .expect_status(0);
        assert_eq!(folder.read("chunk"), chunk_of(cell));
    }
    // With the extents that are left, it has its labels.
    let run = folder.run_line(&format!("label chunk 0,0,4 --size 1,1,5 {LAYOUT}"));
    let expected = format!("{}\n", label_of([12, 8, 4], 0));
    assert_eq!(run.expect_status(0).text(), expected);
}

#[test]
fn voxels_outside_the_volume() {
    let folder = deposit();
    for voxel in [
        "-8,3,0",
        "6,3,0",
        "-7,2,0",
        "-7,12,0",
        "-7,3,-1",
        "-7,3,7",
        "9223372036854775807,3,0",
        "-7,3,-9223372036854775808",
    ] {
        for label in ["--label", ""] {
            let run = folder.run_line(&format!("get deposit --voxel {voxel} {label} {BY_INFO}"));
            run.expect_status(1);
            let told = format!(
                "voxel {voxel}: outside the volume, which is -7,3,0 up to 6,12,7, that end excluded\n"
            );
            assert_eq!((run.text(), run.stderr.as_str()), ("", told.as_str()));
        }
    }
}

#[test]
fn options_that_do_not_go_together() {
    let folder = deposit();
    let voxel = format!("get deposit --voxel -7,3,0 {BY_INFO}");
    for (line, told) in [
        (format!("{voxel} --cell 0,0,0"), "--cell and --voxel"),
        (format!("{voxel} 0"), "'0' is one argument too many"),
        (format!("{voxel} --fragment 0,0"), "--voxel and --fragment"),
        (format!("{voxel} --label --out x"), "--label and --out"),
        (format!("{voxel} --channel 1"), "--label is missing"),
        (format!("{voxel} --json"), "--label is missing"),
        (format!("{voxel} --block 4,3,2"), "--label is missing"),
        (
            format!("get deposit 0 --label {BY_INFO}"),
            "--label is given without --voxel",
        ),
        (
            format!("get deposit --voxel 0,0 {BY_INFO}"),
            "--voxel: '0,0' is not three numbers",
        ),
        (
            format!("get deposit --voxel 0,0,0 --label --kind mesh {BY_INFO}"),
            "these are the settings of a mesh",
        ),
    ] {
        let run = folder.run_line(&line);
        assert!(run.expect_status(2).stderr.contains(told), "{run}");
    }
    assert_eq!(folder.names("."), ["card", "deposit", "info"]);
}

#[test]
fn labels_of_voxels_in_json() {
    let folder = deposit();
    let ask = |voxel: &str| {
        let line = format!("get deposit --voxel {voxel} --label --json {BY_INFO}");
        folder.run_line(&line)
    };
    let run = ask("5,11,4");
    let key = key_of(&LABELLED, [2, 2, 0]).expect("a cell of the grid");
    let label = label_of([12, 8, 4], 0);
    assert_eq!(
        run.expect_status(0).text(),
        format!(
            "{{\"voxel\":[5,11,4],\"result\":\"label\",\"channel\":0,\"label\":{label},\
             \"key\":{key},\"cell\":[2,2,0],\"path\":\"deposit/0.shard\"}}\n"
        )
    );
    for (voxel, result) in [
        ("6,11,4", "outside"),
        ("-1,3,0", "no shard"),
        ("5,11,5", "refused"),
    ] {
        let run = ask(voxel);
        let told = object(run.expect_status(1));
        assert_eq!(told.text("result"), Some(result), "{run}");
    }
}

/// A chunk of the deposit with a fault: the label is refused, with the shard and
/// the byte of the chunk.
#[test]
fn a_damaged_chunk_of_a_deposit() {
    let folder = deposit();
    let chunk = chunk_of([0, 0, 0]);
    for (damaged, number, found) in [
        (
            {
                let mut damaged = chunk.clone();
                // Behind two channel offsets, the width of the first header.
                damaged[8 + 3] = 5;
                damaged
            },
            29,
            "width 5 of block 0,0,0 of channel 0",
        ),
        (
            chunk[..12].to_vec(),
            28,
            "the header of block 0,0,0 of channel 0 at byte 8",
        ),
    ] {
        let listed = [(0, &damaged[..])];
        folder.write("deposit/0.shard", settled_form(&ONE_SHARD, &listed));
        let run = folder.run_line(&format!("get deposit --voxel -7,3,0 --label {BY_INFO}"));
        run.expect_status(1);
        let begin = format!("voxel -7,3,0 in deposit/0.shard: refused {number}: ");
        assert!(run.stderr.starts_with(&begin), "{run}");
        assert!(run.stderr.contains(&format!("found: {found}\n")), "{run}");
    }
}
