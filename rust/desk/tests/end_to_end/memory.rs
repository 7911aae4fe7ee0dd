//! Memory: at most the file, its output and 64 MiB.

use crate::shards::options;
use crate::support::Folder;
use reference::sharding::Sharding;
use std::fs::File;
use std::io::{Seek, SeekFrom, Write};
use std::os::unix::fs::symlink;

const MIB: u64 = 1 << 20;

const SHARDING: Sharding = Sharding {
    preshift: 0,
    hash: 0,
    minishard_bits: 0,
    shard_bits: 0,
    kind: 0,
};

/// A shard file of one chunk of this many bytes, most of them a hole.
fn write_shard(folder: &Folder, name: &str, chunk: u64) {
    write_shard_of(folder, name, 5, chunk);
}

/// The same with the chunk's id.
fn write_shard_of(folder: &Folder, name: &str, id: u64, chunk: u64) {
    let mut file = File::create(folder.at(name)).expect("a file");
    let index = [chunk, chunk + 24].map(u64::to_le_bytes).concat();
    file.write_all(&index).expect("the shard index");
    file.seek(SeekFrom::Start(16 + chunk)).expect("the chunk");
    file.write_all(&[id, 0, chunk].map(u64::to_le_bytes).concat())
        .expect("the minishard index");
}

/// The words that set this limit of memory, in the shell.
fn limit(bytes: u64) -> String {
    format!("ulimit -d {}", bytes / 1024)
}

#[test]
fn the_file_its_output_and_64_mib_are_enough() {
    let folder = Folder::new();
    let chunk = 96 * MIB;
    write_shard(&folder, "0.shard", chunk);
    let options = options(&SHARDING);
    let file = chunk + 40;
    let check = format!("check 0.shard {options}");
    folder
        .run_after(&limit(file + 64 * MIB), &check)
        .expect_status(0);
    let list = format!("list 0.shard {options}");
    folder
        .run_after(&limit(file + 64 * MIB), &list)
        .expect_status(0);
    let get = format!("get 0.shard 5 --out chunk {options}");
    folder
        .run_after(&limit(file + 64 * MIB), &get)
        .expect_status(0);
    let settle = format!("settle --drop-unlisted 0.shard --out settled {options}");
    folder
        .run_after(&limit(2 * file + 64 * MIB), &settle)
        .expect_status(0);
    assert!(folder.read("settled") == folder.read("0.shard"));
    // The limit is one: with less than the file nothing is read, nothing is
    // written, and the program says why.
    for line in [check, list, get + " --force", settle + " --force"] {
        let run = folder.run_after(&limit(chunk / 2), &line);
        run.expect_status(3);
        assert!(
            run.stdout.is_empty() || !run.text().contains("sound"),
            "{run}"
        );
    }
    assert_eq!(folder.names("."), ["0.shard", "chunk", "settled"]);
}

/// Three shards of a chunk each: packed they have memory for one, and their chunks
/// are never there together.
#[test]
fn packing_takes_the_output_and_64_mib() {
    let folder = Folder::new();
    let chunk = 48 * MIB;
    for begin in 0..3 {
        let name = format!("chunks/{begin}-{}_0-1_0-1", begin + 1);
        let file = File::create(folder.write(name, "")).expect("a file");
        file.set_len(chunk).expect("a file with a hole");
    }
    let options = options(&Sharding {
        shard_bits: 2,
        ..SHARDING
    });
    let line = format!("pack chunks --out packed --size 3,1,1 --chunk 1,1,1 {options}");
    let run = folder.run_after(&limit(chunk + 64 * MIB), &line);
    run.expect_status(0)
        .expect_line("packed/2.shard: packed, 1 chunk, 50331688 bytes");
    write_shard_of(&folder, "expected", 2, chunk);
    assert!(folder.read("packed/2.shard") == folder.read("expected"));
    let run = folder.run_after(
        &limit(chunk / 2),
        &line.replace("--out packed", "--out less"),
    );
    run.expect_status(3);
    assert!(run.stderr.contains("out of memory"), "{run}");
    assert!(folder.names("less").is_empty());
}

/// A mesh shard of one manifest, the longest one that is allowed: its nodes lie
/// along x, each with a fragment of one byte.
fn write_mesh(folder: &Folder, name: &str) -> u64 {
    let nodes = ((1 << 24) - 28 - 20) / 16u32;
    let one = 1f32.to_bits();
    let mut items = vec![one, one, one, 0, 0, 0, 1, 0, 0, 0, 0, nodes];
    items.extend(0..nodes);
    items.resize(items.len() + 2 * nodes as usize, 0);
    items.resize(items.len() + nodes as usize, 1);
    let manifest: Vec<u8> = items.into_iter().flat_map(u32::to_le_bytes).collect();
    assert_eq!(manifest.len(), 1 << 24);
    let (lead, end) = (u64::from(nodes), u64::from(nodes) + (1 << 24));
    let mut file = [end, end + 24].map(u64::to_le_bytes).concat();
    file.resize(file.len() + nodes as usize, b'f');
    file.extend(manifest);
    file.extend([5, lead, 1 << 24].map(u64::to_le_bytes).concat());
    folder.write(name, file);
    lead
}

/// The numbers of all nodes of a manifest are two and a half times as long as
/// the manifest itself.
#[test]
fn the_longest_manifest_takes_no_more() {
    let folder = Folder::new();
    let nodes = write_mesh(&folder, "0.shard");
    let options = options(&Sharding {
        kind: 1,
        ..SHARDING
    });
    let file = 40 + nodes + (1 << 24);
    let limit = limit(file + 64 * MIB);
    let run = folder.run_after(&limit, &format!("list 0.shard {options}"));
    let line = format!("5 0 {} {} 16 {nodes}", 16 + nodes, 1 << 24);
    run.expect_status(0).expect_line(&line);
    let last = format!("--fragment 0,{}", nodes - 1);
    let run = folder.run_after(&limit, &format!("get 0.shard 5 {last} {options}"));
    assert_eq!(run.expect_status(0).text(), "f");
}

/// The longest shard, whose settled form is as long: both fit a machine of
/// 4 GiB with room to spare.
#[test]
fn a_shard_of_one_gibibyte() {
    let (folder, out) = (Folder::for_holes(), Folder::new());
    let file = 1 << 30;
    write_shard(&folder, "0.shard", file - 40);
    let options = options(&SHARDING);
    folder
        .run_after(&limit(file + 64 * MIB), &format!("check 0.shard {options}"))
        .expect_status(0);
    symlink(out.path(), folder.at("out")).expect("a link");
    folder
        .run_after(
            &limit(2 * file + 64 * MIB),
            &format!("settle --drop-unlisted 0.shard --out out/settled {options}"),
        )
        .expect_status(0);
    let length = |name| folder.at(name).metadata().expect("a file").len();
    assert_eq!((length("0.shard"), length("out/settled")), (file, file));
}

#[test]
fn two_files_and_both_forms_are_compared_one_after_another() {
    let folder = Folder::new();
    let chunk = 48 * MIB;
    write_shard(&folder, "0.shard", chunk);
    write_shard(&folder, "1.shard", chunk);
    let line = format!("same 0.shard 1.shard --shard 0 {}", options(&SHARDING));
    folder
        .run_after(&limit(3 * chunk + 64 * MIB), &line)
        .expect_status(0);
}

#[test]
fn a_folder_under_a_limit_says_what_it_could_not_read() {
    let folder = Folder::new();
    let sharding = Sharding {
        shard_bits: 1,
        ..SHARDING
    };
    write_shard(&folder, "0.shard", 96 * MIB);
    folder.write("1.shard", vec![0; 16]);
    let line = format!("check . {}", options(&sharding));
    let run = folder.run_after(&limit(60 * MIB), &line);
    run.expect_status(3);
    assert!(run.text().contains("1.shard: sound"), "{run}");
    assert!(run.text().contains("1 not read"), "{run}");
}

#[test]
fn a_shard_that_gets_no_memory_waits_until_it_is_alone() {
    let folder = Folder::new();
    let sharding = Sharding {
        shard_bits: 2,
        ..SHARDING
    };
    let chunk = 96 * MIB;
    for number in 0..4u64 {
        // Id 4 + number belongs to that shard.
        let name = format!("deposit/{number}.shard");
        folder.write(&name, "");
        write_shard_of(&folder, &name, 4 + number, chunk);
    }
    let options = options(&sharding);
    // There is memory for one file and its form, not for those of all.
    let limit = limit(2 * (chunk + 40) + 64 * MIB);
    for line in [
        format!("check deposit --jobs 4 {options}"),
        format!("settle --drop-unlisted deposit --out settled --jobs 4 {options}"),
    ] {
        folder.run_after(&limit, &line).expect_status(0);
    }
    let limit = self::limit(3 * (chunk + 40) + 64 * MIB);
    let same = format!("same deposit settled --jobs 4 {options}");
    folder.run_after(&limit, &same).expect_status(0);
    // Where even one alone is too much, the message names the size.
    let limit = self::limit(chunk / 2);
    let run = folder.run_after(&limit, &format!("check deposit --jobs 4 {options}"));
    run.expect_status(3);
    let size = (chunk + 40).to_string();
    assert_eq!(run.stderr.matches(&size).count(), 4, "{run}");
}
