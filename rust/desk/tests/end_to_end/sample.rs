//! The sample deposit.

use crate::support::Folder;
use reference::grid::{bounds_of, cell_of, key_of, Bounds, Volume};
use reference::labels::{label, Layout};
use reference::settle::{content_of, form_of, settle, settled_form, Triple};
use reference::shard::{check, list, list_minishard};
use reference::sharding::{Sharding, MESH, VOLUME};
use reference::{card, info, manifest, Refusal};
use std::collections::{BTreeMap, BTreeSet};

const DEPOSIT: Sharding = Sharding {
    preshift: 1,
    hash: 0,
    minishard_bits: 1,
    shard_bits: 3,
    kind: VOLUME,
};
const MURMUR: Sharding = Sharding { hash: 1, ..DEPOSIT };
const NETS: Sharding = Sharding {
    preshift: 0,
    hash: 1,
    minishard_bits: 1,
    shard_bits: 1,
    kind: MESH,
};
const SCANNED: Volume = Volume {
    size: [300, 260, 200],
    chunk: [64; 3],
    offset: [-64, 0, 0],
};

/// The shards of one of the sample's folders, by number.
fn shards(folder: &Folder, name: &str) -> BTreeMap<u64, Vec<u8>> {
    let path = format!("demo/{name}");
    let shard = |file: String| {
        let digits = file.strip_suffix(".shard").expect("a shard's name");
        let number = u64::from_str_radix(digits, 16).expect("a shard's number");
        (number, folder.read(format!("{path}/{file}")))
    };
    folder.names(&path).into_iter().map(shard).collect()
}

/// All chunks of a folder of sound shards, by id.
fn content(sharding: &Sharding, shards: &BTreeMap<u64, Vec<u8>>) -> BTreeMap<u64, Vec<u8>> {
    let mut content = BTreeMap::new();
    for (number, file) in shards {
        for entry in list(sharding, *number, file).expect("a sound shard") {
            content.insert(entry.id, entry.bytes(file).to_vec());
        }
    }
    content
}

#[test]
fn it_has_the_same_bytes_every_time() {
    let (one, other) = (Folder::with_sample(), Folder::with_sample());
    for part in [
        "copy-a", "copy-b", "copy-c", "damaged", "murmur", "mesh-a", "mesh-b", "labels",
    ] {
        assert_eq!(shards(&one, part), shards(&other, part));
    }
    for file in [
        "demo/deposit.card",
        "demo/murmur.card",
        "demo/info",
        "demo/mesh.manifest",
        "demo/mesh.card",
        "demo/labels.info",
        "demo/labels.chunk",
    ] {
        assert_eq!(one.read(file), other.read(file));
    }
}

#[test]
fn the_cards_and_the_manifest_are_sound() {
    let folder = Folder::with_sample();
    for (name, sharding) in [("deposit", DEPOSIT), ("murmur", MURMUR), ("mesh", NETS)] {
        let card = card::read(&folder.read(format!("demo/{name}.card"))).expect("a card");
        assert_eq!((card.sharding, card.volume), (sharding, SCANNED));
    }
    let text = folder.read("demo/info");
    for (scale, sharding) in [(0, DEPOSIT), (1, MURMUR)] {
        let card = info::read(&text, scale).expect("a scale");
        assert_eq!((card.sharding, card.volume), (sharding, SCANNED));
    }
    assert_eq!(info::read(&text, 2), Err(20));
    let mesh = folder.read("demo/mesh.manifest");
    assert_eq!(manifest::level_count(&mesh), Ok(3));
    assert!(manifest::corners(&mesh, 0, 4).is_ok());
}

#[test]
fn the_copies_hold_the_same_chunks_under_other_bytes() {
    let folder = Folder::with_sample();
    let (a, b) = (shards(&folder, "copy-a"), shards(&folder, "copy-b"));
    let chunks = content(&DEPOSIT, &a);
    assert_eq!(content(&DEPOSIT, &b), chunks);
    assert_eq!(content(&MURMUR, &shards(&folder, "murmur")), chunks);
    assert_eq!(a.len(), 8);
    for (number, file) in &a {
        let entries = list(&DEPOSIT, *number, file).expect("sound");
        let listed: Vec<_> = entries.iter().map(|e| (e.id, e.bytes(file))).collect();
        assert_eq!(*file, settled_form(&DEPOSIT, &listed));
        // Every entry of the shard index differs from copy to copy.
        let other = &b[number];
        for at in (0..32).step_by(8) {
            assert_ne!(file[at..at + 8], other[at..at + 8]);
        }
    }
    let key = |cell| key_of(&SCANNED, cell).expect("a cell of the grid");
    assert_eq!(chunks.len(), 96);
    assert_eq!(
        chunks[&key([1, 2, 1])],
        b"cell 1,2,1 of the sample deposit\n"
    );
    assert_eq!(chunks[&key([2, 2, 3])], b"");
    assert_eq!(chunks.get(&key([4, 4, 0])), None);
}

/// The pairs are the shards of copy-c, cut behind their shard indexes.
#[test]
fn the_earlier_edition() {
    let folder = Folder::with_sample();
    let copy = shards(&folder, "copy-c");
    let mut names = Vec::new();
    for (number, file) in copy {
        let [index, data] = ["index", "data"].map(|ending| format!("{number:x}.{ending}"));
        let read = |name: &str| folder.read(format!("demo/pairs/{name}"));
        assert_eq!(read(&index), file[..32]);
        assert_eq!(read(&data), file[32..]);
        names.extend([data, index]);
    }
    assert_eq!(folder.names("demo/pairs"), names);
}

/// Each nonempty minishard of copy-c lists the ids of copy-a in another order,
/// with starts that jump back, and settles to copy-a's bytes.
#[test]
fn the_third_copy_is_in_order_of_arrival() {
    let folder = Folder::with_sample();
    let (a, c) = (shards(&folder, "copy-a"), shards(&folder, "copy-c"));
    assert_eq!(content(&DEPOSIT, &c), content(&DEPOSIT, &a));
    for (number, file) in &c {
        for minishard in 0..2 {
            let entries = list_minishard(&DEPOSIT, *number, file, minishard).expect("sound");
            assert!(entries.len() > 2);
            assert!(!entries.is_sorted_by_key(|entry| entry.id));
            assert!(!entries.is_sorted_by_key(|entry| entry.start));
        }
        let mut form = vec![0; a[number].len()];
        assert_eq!(
            settle(&DEPOSIT, *number, file, true, &mut form),
            Ok(form.len())
        );
        assert_eq!(form, a[number]);
    }
    let card = "--card demo/deposit.card";
    for other in ["copy-a", "copy-b"] {
        let run = folder.run_line(&format!("same demo/{other} demo/copy-c {card}"));
        run.expect_status(0).expect_line("0.shard: same");
    }
    let run = folder.run_line(&format!(
        "settle --drop-unlisted demo/copy-c --out settled {card}"
    ));
    run.expect_status(0);
    for number in a.keys() {
        let name = format!("{number:x}.shard");
        assert_eq!(folder.read(format!("settled/{name}")), a[number]);
    }
}

/// Both copies of the nets list the same manifests with the same fragments. The
/// first is in settled form, the other lists them in another order.
#[test]
fn the_meshes_hold_the_same_nets() {
    let folder = Folder::with_sample();
    let (a, b) = (shards(&folder, "mesh-a"), shards(&folder, "mesh-b"));
    assert_eq!((a.len(), b.len()), (2, 2));
    let (mut nets, mut bare, mut unsorted) = (0, 0, 0);
    for (number, file) in &b {
        let mut content = content_of(&NETS, *number, file).expect("a sound shard");
        assert_eq!(a[number], form_of(&NETS, &content));
        for Triple {
            fragments, chunk, ..
        } in &content
        {
            let length = manifest::fragments_length(chunk).expect("a sound manifest");
            assert_eq!(fragments.len() as u64, length);
            bare += usize::from(fragments.is_empty());
        }
        nets += content.len();
        unsorted += usize::from(!content.is_sorted_by_key(|triple| triple.id));
        content.sort_by_key(|triple| triple.id);
        let mut other = content_of(&NETS, *number, &a[number]).expect("a sound shard");
        other.sort_by_key(|triple| triple.id);
        assert_eq!(content, other);
    }
    assert_eq!((nets, bare), (10, 1));
    assert!(unsorted > 0);
}

/// The labels are the numbers of the nets, and the chunk by itself is one of
/// theirs.
#[test]
fn the_labels_are_numbers_of_nets() {
    let folder = Folder::with_sample();
    let card = info::read(&folder.read("demo/labels.info"), 0).expect("a scale");
    let chunks = content(&card.sharding, &shards(&folder, "labels"));
    assert_eq!(chunks.len(), 11);
    assert_eq!(chunks[&0], folder.read("demo/labels.chunk"));
    let nets = shards(&folder, "mesh-a");
    let nets = nets.iter().flat_map(|(number, file)| {
        let content = content_of(&NETS, *number, file).expect("a sound shard");
        content.into_iter().map(|triple| triple.id)
    });
    let mut known: BTreeSet<u64> = nets.collect();
    known.insert(0);
    let mut met = BTreeSet::new();
    for (key, chunk) in &chunks {
        let cell = cell_of(&card.volume, *key).expect("a cell of the grid");
        let Bounds { begin, end } = bounds_of(&card.volume, cell).expect("a cell of the grid");
        let size = [0, 1, 2].map(|axis| (end[axis] - begin[axis]) as u32);
        let layout = Layout {
            size,
            block: [8; 3],
            channels: 1,
            wide: true,
        };
        for z in 0..size[2] {
            for y in 0..size[1] {
                for x in 0..size[0] {
                    met.insert(label(chunk, &layout, [x, y, z], 0).expect("a label"));
                }
            }
        }
    }
    assert!(met.is_subset(&known) && met.len() > 5, "{met:?}");
}

#[test]
fn the_damaged_copy_has_a_fault_of_each_kind() {
    let folder = Folder::with_sample();
    let whole = shards(&folder, "copy-b");
    let damaged = shards(&folder, "damaged");
    let verdict = |number: u64| check(&DEPOSIT, number, &damaged[&number]);
    let fault = |number, minishard, byte| Err(Refusal::at(number, byte).in_minishard(minishard));
    assert_eq!(damaged[&0], whole[&0]);
    assert_eq!(verdict(1), fault(7, 1, 16));
    assert_eq!(verdict(2), fault(9, 0, 460));
    assert_eq!(verdict(3), fault(11, 1, 104));
    assert_eq!(verdict(4), Err(Refusal::bare(6)));
    assert_eq!(verdict(5), Ok(()));
    assert_eq!(damaged[&6], whole[&6]);
    assert!(!damaged.contains_key(&7));
    let differing = damaged[&5].iter().zip(&whole[&5]).filter(|(a, b)| a != b);
    assert_eq!(differing.count(), 1);
}

/// The number at a place of a file.
fn number_at(file: &[u8], place: usize) -> u64 {
    reference::endian::read_u64(file, place)
}

#[test]
fn the_damage_is_shown_where_it_was_done() {
    let folder = Folder::with_sample();
    let damaged = shards(&folder, "damaged");
    let run = folder.run_line("check demo/damaged --card demo/deposit.card");
    run.expect_status(1);
    let looked_at = |number: u64| -> usize {
        let (_, told) = run
            .text()
            .split_once(&format!("{number}.shard: refused"))
            .expect("a refusal");
        let (_, place) = told.split_once("look at: byte ").expect("a place");
        let (place, _) = place.split_once(' ').expect("a place");
        place.parse().expect("a byte's number")
    };
    // Minishard 1 of shard 1: its entry is the second of the shard index.
    assert_eq!(looked_at(1), 16);
    assert!(number_at(&damaged[&1], 16) > number_at(&damaged[&1], 24));
    // Minishard 0 of shard 2: the step to its second id.
    let index = 32 + number_at(&damaged[&2], 0) as usize;
    assert_eq!(
        (looked_at(2), number_at(&damaged[&2], index + 8)),
        (index + 8, 0)
    );
    // Minishard 1 of shard 3: the start step of its last chunk. Behind it stands
    // the row of sizes, of which the last was changed.
    let index = 32 + number_at(&damaged[&3], 16) as usize;
    let end = 32 + number_at(&damaged[&3], 24) as usize;
    assert_eq!((looked_at(3), end - index), (end - 8 * 4 - 8, 24 * 4));
    assert!(number_at(&damaged[&3], end - 8) > damaged[&3].len() as u64);
}

#[test]
fn it_goes_into_a_new_or_empty_folder_only() {
    let folder = Folder::new();
    folder.make("empty");
    folder.run_line("sample empty").expect_status(0);
    folder.run_line("sample new/inner").expect_status(0);
    assert_eq!(folder.names("empty"), folder.names("new/inner"));
    folder.write("taken/note", "mine");
    folder.run_line("sample taken").expect_status(2);
    folder.run_line("sample taken/note").expect_status(2);
    folder.run_line("sample empty").expect_status(2);
    assert_eq!(folder.names("taken"), ["note"]);
    assert_eq!(folder.read("taken/note"), b"mine");
    folder.run_line("sample").expect_status(2);
    folder.run_line("sample a b").expect_status(2);
    folder.run_line("sample taken/note/under").expect_status(2);
}
