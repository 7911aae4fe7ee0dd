//! What passed before ids and starts could wrap passes now, and settles byte
//! for byte as it did (change requests, order 2).

use compare::sides;
use coronagamba::{Shard, Unlisted};
use reference::settle;
use reference::sharding::Sharding;

/// Shards and their forms; the file says how they were made.
const STORED: &str = include_str!("old_forms.txt");

/// The bytes of a hexadecimal text.
fn bytes(text: &str) -> Vec<u8> {
    let digits = text.as_bytes().chunks_exact(2);
    let byte = |pair| {
        let pair = std::str::from_utf8(pair).expect("ASCII digits");
        u8::from_str_radix(pair, 16).expect("two digits")
    };
    digits.map(byte).collect()
}

#[test]
fn old_shards_settle_as_they_did() {
    let lines = STORED.lines().filter(|line| !line.starts_with('#'));
    let mut shards = 0;
    let mut settled_before = 0;
    for line in lines {
        let words: Vec<&str> = line.split(' ').collect();
        let field = |at: usize| words[at].parse::<u8>().expect("a field");
        let sharding = Sharding {
            preshift: field(0),
            hash: field(1),
            minishard_bits: field(2),
            shard_bits: field(3),
            kind: 0,
        };
        let number = words[4].parse().expect("a shard number");
        let (file, form) = (bytes(words[5]), bytes(words[6]));
        let mut ours = vec![0; form.len()];
        let told = settle::settle(&sharding, number, &file, true, &mut ours);
        assert_eq!((told, &ours), (Ok(form.len()), &form), "{line}");
        let opened = Shard::open(sides::sharding(&sharding), number, &file);
        assert_eq!(opened.check(), Ok(()), "{line}");
        assert_eq!(opened.settled(Unlisted::Drop).as_ref(), Ok(&form), "{line}");
        shards += 1;
        settled_before += usize::from(file == form);
    }
    assert_eq!(shards, 28);
    assert!(settled_before < shards / 2);
}
