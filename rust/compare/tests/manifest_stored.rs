//! The manifests that `manifests.py` wrote, against what it says of them. The
//! script shares no code with the reference.

mod common;

use common::manifest::{bits, corner_bits};
use coronagamba::manifest::{Manifest, Node};

/// The script's output; the script says what its lines are.
const STORED: &str = include_str!("manifests.txt");

/// The bytes of a text in hexadecimal.
fn from_hex(text: &str) -> Vec<u8> {
    let digit = |digit: u8| (digit as char).to_digit(16).expect("a digit") as u8;
    let pairs = text.as_bytes().chunks_exact(2);
    pairs
        .map(|pair| 16 * digit(pair[0]) + digit(pair[1]))
        .collect()
}

/// The numbers of a line, in base 10.
fn numbers<const COUNT: usize>(line: &str) -> [u64; COUNT] {
    let numbers: Vec<u64> = line
        .split(' ')
        .map(|word| word.parse().expect("a number"))
        .collect();
    numbers.try_into().expect("as many as the line has")
}

/// A number that fits 32 bits.
fn narrow(number: u64) -> u32 {
    u32::try_from(number).expect("32 bits")
}

/// A manifest is sound, and each item is handed out by kind and bits.
fn compare_fields(bytes: &[u8]) {
    let manifest = Manifest::open(bytes);
    assert_eq!(manifest.check(), Ok(()));
    let items: Vec<u32> = bytes
        .chunks_exact(4)
        .map(|item| u32::from_le_bytes(item.try_into().expect("4 bytes")))
        .collect();
    let reals = 7 + 4 * items[6] as usize;
    for (number, item) in items.iter().enumerate() {
        let is_real = number != 6 && number < reals;
        let field = manifest.field(number as u64).map(bits);
        assert_eq!(field, Ok((is_real, *item)), "field {number}");
    }
    let past = manifest.field(items.len() as u64);
    assert_eq!(past.map_err(|refusal| refusal.number), Err(18));
    let header = manifest.header().expect("a header");
    let header = header.shape.iter().chain(&header.origin);
    assert!(header.map(|real| real.to_bits()).eq(items[..6].to_vec()));
}

/// A level has this many nodes.
fn compare_level(bytes: &[u8], line: &str) {
    let [level, count] = numbers(line);
    let manifest = Manifest::open(bytes);
    let past = manifest.node(level, count);
    assert_eq!(past.map_err(|refusal| refusal.number), Err(18), "{line}");
    let nodes = manifest.nodes_of(level).expect("a level");
    assert_eq!(nodes.len() as u64, count, "{line}");
}

/// A node is where the line says, alone and among those of its level.
fn compare_node(bytes: &[u8], line: &str) {
    let [level, node, x, y, z, size, start] = numbers(line);
    let expected = Node {
        position: [x, y, z].map(narrow),
        size: narrow(size),
        start,
    };
    let manifest = Manifest::open(bytes);
    assert_eq!(manifest.node(level, node), Ok(expected), "{line}");
    let nodes = manifest.nodes_of(level).expect("a level");
    assert_eq!(nodes[node as usize], expected, "{line}");
}

/// A node's corners have these bits.
fn compare_corners(bytes: &[u8], line: &str) {
    let words: Vec<&str> = line.split(' ').collect();
    let [level, node] = numbers(&words[..2].join(" "));
    let expected: Vec<u32> = words[2..]
        .iter()
        .map(|word| u32::from_str_radix(word, 16).expect("bits"))
        .collect();
    let (near, far) = corner_bits(bytes, level, node).expect("corners");
    assert_eq!([near, far].concat(), expected, "{line}");
}

/// A node has no corners.
fn compare_refused(bytes: &[u8], line: &str) {
    let [level, node] = numbers(line);
    assert_eq!(corner_bits(bytes, level, node), Err(18), "{line}");
}

#[test]
fn the_stored_manifests() {
    let mut bytes = Vec::new();
    let (mut manifests, mut nodes, mut boxes) = (0, 0, 0);
    for line in STORED.lines() {
        let (kind, rest) = line.split_once(' ').expect("a kind");
        match kind {
            "#" => {}
            "manifest" => {
                bytes = from_hex(rest);
                compare_fields(&bytes);
                manifests += 1;
            }
            "level" => compare_level(&bytes, rest),
            "node" => {
                compare_node(&bytes, rest);
                nodes += 1;
            }
            "corners" | "refused" => {
                let compare = match kind {
                    "corners" => compare_corners,
                    _ => compare_refused,
                };
                compare(&bytes, rest);
                boxes += 1;
            }
            _ => panic!("a line of no known kind: {line}"),
        }
    }
    assert_eq!((manifests, nodes, boxes), (15, 120, 120));
}
