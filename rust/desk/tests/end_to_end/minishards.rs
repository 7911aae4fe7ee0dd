//! Shards of 2^13 to 2^16 minishards (change requests, order 4), from cards and
//! words.

use crate::shards::{options, row, ONE};
use crate::support::Folder;
use reference::sharding::Sharding;
use reference::{card, settle, shard};

/// One shard with so many minishards.
fn specification(minishard_bits: u8) -> Sharding {
    Sharding {
        minishard_bits,
        ..ONE
    }
}

/// A shard whose first minishard and last minishard list a chunk each, the
/// bytes `abc` and this many of them.
fn sparse(specification: &Sharding, size: u64) -> Vec<u8> {
    let last = specification.minishard_count() - 1;
    let mut file = row(&[3, 27]);
    file.resize(specification.index_end() as usize - 16, 0);
    file.extend(row(&[27, 51]));
    file.extend(b"abc");
    file.extend(row(&[0, 0, 3, last, 0, size]));
    file
}

#[test]
fn shards_of_many_minishards() {
    for bits in 13..=16 {
        let folder = Folder::new();
        let specification = specification(bits);
        let last = specification.minishard_count() - 1;
        let words = options(&specification);
        let file = sparse(&specification, 2);
        assert_eq!(shard::check(&specification, 0, &file), Ok(()));
        folder.write("a/0.shard", &file);
        let line = format!("a/0.shard: sound, 2 chunks, {} bytes", file.len());
        let checked = folder.run_line(&format!("check a/0.shard {words}"));
        checked.expect_status(0).expect_line(&line);
        let got = folder.run_line(&format!("get a/0.shard {last} {words}"));
        assert_eq!(got.expect_status(0).text(), "ab");
        let listed = folder.run_line(&format!("list a/0.shard --minishard {last} {words} --json"));
        assert_eq!(listed.expect_status(0).lines().len(), 1, "{listed}");
        let past = folder.run_line(&format!("list a/0.shard --minishard {} {words}", last + 1));
        past.expect_status(1);
        assert!(past.stderr.contains("refused 33:"), "{past}");
        let settled = folder.run_line(&format!("settle --drop-unlisted a --out b {words}"));
        settled.expect_status(0);
        let content: [settle::Listed; 2] = [(0, b"abc"), (last, b"ab")];
        let form = settle::settled_form(&specification, &content);
        assert!(folder.read("b/0.shard") == form);
        let same = folder.run_line(&format!("same a b {words}"));
        same.expect_status(0);
        folder.write("c/0.shard", sparse(&specification, 1));
        folder
            .run_line(&format!("same a c {words}"))
            .expect_status(1);
    }
}

#[test]
fn a_fault_in_the_last_minishard_is_named() {
    for bits in 13..=16 {
        let folder = Folder::new();
        let specification = specification(bits);
        let words = options(&specification);
        let last = specification.minishard_count() - 1;
        folder.write("0.shard", sparse(&specification, 52));
        let run = folder.run_line(&format!("check 0.shard {words}"));
        run.expect_status(1);
        let told = format!("0.shard: refused 11 in minishard {last}");
        assert!(run.text().contains(&told), "{run}");
        // What is found and looked at is told of that minishard too.
        assert!(!run.text().contains("not found again"), "{run}");
        assert!(run.text().contains("look at: "), "{run}");
        let run = folder.run_line(&format!("check 0.shard {words} --json"));
        let object = format!("\"minishard\":{last}");
        assert!(run.text().replace(": ", ":").contains(&object), "{run}");
        folder
            .run_line(&format!("get 0.shard 0 {words}"))
            .expect_status(0);
    }
}

#[test]
fn cards_of_many_minishards() {
    let folder = Folder::new();
    let volume = "--size 300,260,200 --chunk 64,64,64";
    for (bits, status) in [(12, 0), (13, 0), (16, 0), (17, 1)] {
        let specification = specification(bits);
        let words = options(&specification);
        let name = format!("{bits}.card");
        let made = folder.run_line(&format!("card make --out {name} {words} {volume}"));
        made.expect_status(status);
        if status == 0 {
            let bytes = folder.read(&name);
            let read = card::read(&bytes).expect("a card");
            assert_eq!(read.sharding, specification);
            let count = 1u32 << bits;
            let line = format!("  minishard bits: {bits} (minishards in a shard: {count})");
            let shown = folder.run_line(&format!("card show {name}"));
            shown.expect_status(0).expect_line(&line);
            folder
                .run_line(&format!("locate 1,1,1 --card {name}"))
                .expect_status(0);
        } else {
            assert!(made.stderr.contains("refused 1:"), "{made}");
            assert!(made.stderr.contains("minishard bits at most 16"), "{made}");
        }
    }
}
