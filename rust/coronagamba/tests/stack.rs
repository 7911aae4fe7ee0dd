//! How much stack a call needs: what the header says is enough.

use coronagamba::{
    Bounds, Card, Intake, LabelBits, LabelShape, Labels, Manifest, Pair, Shard, Sharding, Sheet,
    Unlisted, Volume,
};
use std::thread;

/// The bytes that coronagamba.h names; the thread's own needs come out of them
/// too.
const STACK: usize = 64 * 1024;
/// Those for a call that judges a minishard of 1,024 chunks or more whose ids do
/// not rise.
const ARRIVAL_STACK: usize = 320 * 1024;

/// What no call passes: those that count unlisted bytes by windows come near it.
const MOST_STACK: usize = 512 * 1024;
/// What the thread itself needs, and the crate around a call.
const OWN: usize = 8 * 1024;

const SHARDING: Sharding = Sharding {
    preshift: 0,
    hash: Sharding::MURMUR,
    minishard_bits: 1,
    shard_bits: 0,
    kind: Sharding::VOLUME,
};

/// Numbers as they stand in a shard.
fn row(numbers: &[u64]) -> Vec<u8> {
    let bytes = numbers.iter().flat_map(|number| number.to_le_bytes());
    bytes.collect()
}

/// An info file whose other members lie 32 deep, half of them in objects, and
/// one with a member that lies one deeper.
fn info() -> (Vec<u8>, Vec<u8>) {
    let nested = |inner: &str| format!("{}{inner}{}", "[{\"a\":".repeat(15), "}]".repeat(15));
    let info = |member: String| {
        format!(
            r#"{{"a": {member}, "scales": [{{"size": [100, 200, 300], "chunk_sizes": [[64, 64, 64]],
                "voxel_offset": [-64, 0, 0], "sharding": {{"@type": "neuroglancer_uint64_sharded_v1",
                "preshift_bits": 0, "hash": "murmurhash3_x86_128", "minishard_bits": 1,
                "shard_bits": 0}}}}]}}"#
        )
        .into_bytes()
    };
    (info(nested("0")), info(nested("[0]")))
}

/// A manifest of one node, whose fragment has 9 bytes.
fn manifest() -> Vec<u8> {
    let mut items = vec![1f32.to_bits(); 6];
    items.extend([1, 0, 0, 0, 0, 1, 0, 0, 0, 9]);
    items.iter().flat_map(|item| item.to_le_bytes()).collect()
}

/// A shard of one minishard with this many empty chunks, their ids falling.
fn falling(chunks: u64) -> Vec<u8> {
    let steps = (0..chunks).map(|i| if i == 0 { chunks } else { u64::MAX });
    let mut numbers = vec![0, 24 * chunks];
    numbers.extend(steps);
    numbers.resize(2 + 3 * chunks as usize, 0);
    row(&numbers)
}

/// The calls that judge a minishard, of one whose ids fall.
fn judging_calls(chunks: u64) {
    let sharding = Sharding {
        hash: Sharding::IDENTITY,
        minishard_bits: 0,
        ..SHARDING
    };
    let file = falling(chunks);
    let shard = Shard::open(sharding, 0, &file);
    assert_eq!(shard.check(), Ok(()));
    assert_eq!(shard.chunk(1), Ok(&[][..]));
    assert_eq!(shard.listed_count(0), Ok(chunks));
    let form = shard.settled(Unlisted::Drop).expect("the shard is sound");
    assert!(form != file && form.len() == file.len());
    let (index, data) = file.split_at(16);
    let pair = Pair::open(sharding, 0, index, data);
    assert_eq!(pair.check(), Ok(()));
    assert_eq!(pair.chunk(1), Ok(&[][..]));
    assert_eq!(pair.listed_count(0), Ok(chunks));
    assert_eq!(pair.settled(Unlisted::Drop), Ok(form));
}

/// The calls that read a shard, of a small one.
fn shard_calls() {
    let id = (0..).find(|id| SHARDING.place(*id).map(|place| place.minishard) == Ok(0));
    let id = id.expect("an id of the first minishard");
    let file = [row(&[2, 26, 0, 0]), b"ab".to_vec(), row(&[id, 0, 2])].concat();
    let shard = Shard::open(SHARDING, 0, &file);
    assert_eq!(shard.check(), Ok(()));
    assert_eq!(shard.chunk(id), Ok(&b"ab"[..]));
    assert_eq!(shard.listing(0).map(|listed| listed.len()), Ok(1));
    assert!(shard.settled(Unlisted::Drop).is_ok_and(|form| form == file));
    let (index, data) = file.split_at(32);
    let pair = Pair::open(SHARDING, 0, index, data);
    assert_eq!(pair.check(), Ok(()));
    assert_eq!(pair.chunk(id), Ok(&b"ab"[..]));
    assert_eq!(pair.listing(0).map(|listed| listed.len()), Ok(1));
    assert!(pair.settled(Unlisted::Drop).is_ok_and(|form| form == file));
    assert_eq!(pair.range(32, 34), Ok(&b"ab"[..]));
    sheet_calls(shard, pair, 0);
}

/// The calls that measure a sound shard, in one file and in two.
fn sheet_calls(shard: Shard, pair: Pair, unlisted: u64) {
    let counts = shard.measure().expect("the shard is sound");
    assert_eq!(counts.unlisted, unlisted);
    assert_eq!(pair.measure(), Ok(counts));
    let mut sheet = Sheet::default();
    assert!(sheet.add(&shard).is_ok() && sheet.add_pair(&pair).is_ok());
    let other = sheet;
    assert!(sheet.join(&other).is_ok());
    assert_eq!((sheet.sound(), sheet.unlisted()), (4, 4 * unlisted));
}

/// The calls of an intake, with 1,000 chunks in a minishard.
fn intake_calls() {
    let sharding = Sharding {
        hash: Sharding::IDENTITY,
        ..SHARDING
    };
    let (mut out, mut waiting) = (vec![0; 32 + 1_001 * 25], vec![0; 1_000 * 16]);
    let mut intake = Intake::open(sharding, 0, &mut out, &mut waiting).expect("opened");
    for id in (0..1_000).map(|place| 2 * place).chain([1]) {
        let mut chunk = intake.announce(id, 1).expect("in order");
        chunk.part(b"a").expect("owed");
    }
    let form = intake.close().expect("nothing is owed");
    assert_eq!(form.len(), 32 + 1_001 * 25);
}

/// The calls that read a mesh shard, of one whose 1,000 ids fall.
fn mesh_calls() {
    let mesh = Sharding {
        hash: Sharding::IDENTITY,
        minishard_bits: 0,
        kind: Sharding::MESH,
        ..SHARDING
    };
    let (chunks, manifest) = (1_000, manifest());
    let length = manifest.len() as u64;
    let file = {
        let data = [vec![b'-'; 9], manifest].concat().repeat(chunks as usize);
        let end = data.len() as u64;
        let steps = (0..chunks).map(|i| if i == 0 { chunks } else { u64::MAX });
        let mut rows: Vec<u64> = steps.collect();
        rows.resize(2 * chunks as usize, 9);
        rows.resize(3 * chunks as usize, length);
        [row(&[end, end + 24 * chunks]), data, row(&rows)].concat()
    };
    let shard = Shard::open(mesh, 0, &file);
    assert_eq!(shard.check(), Ok(()));
    assert_eq!(shard.fragment(1, 0, 0), Ok(&b"---------"[..]));
    let form = shard.settled(Unlisted::Drop).expect("the shard is sound");
    assert!(form != file && form.len() == file.len());
    let (index, data) = file.split_at(16);
    let pair = Pair::open(mesh, 0, index, data);
    assert_eq!(pair.check(), Ok(()));
    assert_eq!(pair.fragment(1, 0, 0), Ok(&b"---------"[..]));
    assert_eq!(pair.settled(Unlisted::Drop), Ok(form));
    sheet_calls(shard, pair, 0);
}

/// A mesh shard of 1 GiB with one byte that nothing lists, the last. Its first
/// manifest lies behind the second, so that its bytes are counted by windows; the
/// pages that no call looks at are never made.
fn longest_mesh() -> Vec<u8> {
    let manifest = manifest();
    let length = manifest.len() as u64;
    let lead = (1 << 30) - 16 - 48 - 1 - 2 * length - 9;
    let mut large = manifest.clone();
    large[60..].copy_from_slice(&(lead as u32).to_le_bytes());
    let (first, second) = (lead, lead + length + 9);
    let end = second + length;
    let mut file = vec![0; 1 << 30];
    let mut put = |at: u64, bytes: &[u8]| {
        file[16 + at as usize..][..bytes.len()].copy_from_slice(bytes);
    };
    put(first, &large);
    put(second, &manifest);
    let back = first.wrapping_sub(end);
    put(end, &row(&[1, 1, second, back, length, length]));
    file[..16].copy_from_slice(&row(&[end, end + 48]));
    file
}

/// The calls that count unlisted bytes, by as many windows as there may be and
/// behind the longest search for ids that stand twice.
fn counting_calls(sharding: Sharding, file: &[u8], unlisted: u64) {
    let shard = Shard::open(sharding, 0, file);
    assert_eq!(shard.unlisted(), Ok(unlisted));
    let (length, settled) = (
        shard.settled_length(Unlisted::Refuse),
        shard.settle(Unlisted::Refuse, &mut []),
    );
    let expected = if unlisted > 0 { 22 } else { 13 };
    assert_eq!(length.is_err(), unlisted > 0);
    assert_eq!(settled.unwrap_err().number, expected);
    let (index, data) = file.split_at(16);
    let pair = Pair::open(sharding, 0, index, data);
    assert_eq!(pair.unlisted(), Ok(unlisted));
    assert_eq!(pair.settled_length(Unlisted::Refuse), length);
    assert_eq!(pair.settle(Unlisted::Refuse, &mut []), settled);
    sheet_calls(shard, pair, unlisted);
}

/// A call of each kind but those. One that passes the stack ends the program.
fn calls() {
    let volume = Volume::new([100, 200, 300], [64; 3], [-64, 0, 0]);
    let cell = [1, 2, 3].into();
    let key = volume.key(cell).expect("the cell is in the grid");
    assert_eq!(volume.cell(key), Ok(cell));
    assert_eq!(volume.keys(&[cell; 9]), Ok(vec![key; 9]));
    assert!(volume.chunk_name(cell).is_ok());
    // The search for the cells of a box goes as deep as there are key bits.
    let whole = Volume::new([1 << 22, 1 << 21, 1 << 21], [1; 3], [0; 3]);
    let middle = Bounds {
        begin: [(1 << 21) - 1, (1 << 20) - 1, (1 << 20) - 1].into(),
        end: [(1 << 21) + 1, (1 << 20) + 1, (1 << 20) + 1].into(),
    };
    assert_eq!(whole.cover(middle, 8).map(|keys| keys.len()), Ok(8));
    assert!(SHARDING.places(&[1, 2, 3]).is_ok() && SHARDING.shard_name(0).is_ok());
    assert!(SHARDING.index_name(0).is_ok() && SHARDING.data_name(0).is_ok());
    let card = Card {
        sharding: SHARDING,
        volume,
    };
    assert_eq!(Card::read(&card.to_bytes().expect("a card")), Ok(card));
    let (info, deep) = info();
    assert_eq!(Card::read_info(&info, 0), Ok(card));
    assert_eq!(
        Card::read_info(&deep, 0).map_err(|refusal| refusal.number),
        Err(19)
    );
    let bytes = manifest();
    let manifest = Manifest::open(&bytes);
    assert!(manifest.header().is_ok() && manifest.levels().is_ok());
    assert!(manifest.node(0, 0).is_ok() && manifest.corners(0, 0).is_ok());
}

/// The calls on a chunk of labels: one of 64 by 64 by 64 voxels, with room and
/// without.
fn label_calls() {
    let blocks = 8 * 8 * 8;
    let values: u32 = 2 * blocks;
    // All blocks share their values, which are 0, and their table.
    let mut words = vec![1];
    words.extend([(4 << 24) + values + 64, values].repeat(blocks as usize));
    words.extend([0; 64]);
    words.push(5);
    let chunk: Vec<u8> = words.iter().flat_map(|word| word.to_le_bytes()).collect();
    let labels = Labels::open(LabelShape::new([64; 3], [8; 3], 1, LabelBits::B32), &chunk);
    assert_eq!(labels.label(63, 62, 61, 0), Ok(5));
    assert_eq!(labels.unpack(&mut []).unwrap_err().number, 13);
    let raw = labels.unpacked().expect("all labels are there");
    assert!(raw == 5u32.to_le_bytes().repeat(64 * 64 * 64));
    let refused = |chunk| {
        Labels::open(labels.shape(), chunk)
            .unpack(&mut [])
            .unwrap_err()
    };
    assert_eq!(refused(&chunk[..chunk.len() - 1]).number, 28);
}

/// Runs this in a thread with as much stack.
fn within(stack: usize, calls: impl FnOnce() + Send + 'static) {
    let thread = thread::Builder::new().stack_size(stack).spawn(calls);
    thread.expect("a thread").join().expect("the calls pass");
}

#[test]
fn a_small_stack_is_enough() {
    within(STACK, calls);
    within(STACK, shard_calls);
    within(STACK, intake_calls);
    within(STACK, || judging_calls(1_000));
    within(STACK, mesh_calls);
    within(STACK, label_calls);
}

/// By the filter, and by the passes.
#[test]
fn ids_in_order_of_arrival_take_more() {
    within(ARRIVAL_STACK, || judging_calls(50_000));
    within(ARRIVAL_STACK, || judging_calls(70_000));
}

/// In all calls the windows' map is on the stack by itself.
#[test]
fn no_call_takes_more_than_the_windows() {
    let mesh = Sharding {
        hash: Sharding::IDENTITY,
        minishard_bits: 0,
        kind: Sharding::MESH,
        ..SHARDING
    };
    within(MOST_STACK + OWN, move || {
        counting_calls(mesh, &longest_mesh(), 1);
    });
    // Ids fall, and the chunks lie in another order than they are listed in.
    let volume = Sharding {
        kind: Sharding::VOLUME,
        ..mesh
    };
    let chunks = 70_000;
    let mut file = falling(chunks);
    let (starts, sizes) = (16 + 8 * chunks as usize, 16 + 16 * chunks as usize);
    let ends = 24 * chunks + 2;
    file.extend(b"abc");
    // The first chunk is the last byte but one, the second the one before.
    file[starts..][..8].copy_from_slice(&(ends - 1).to_le_bytes());
    file[starts + 8..][..8].copy_from_slice(&2u64.wrapping_neg().to_le_bytes());
    for chunk in [0, 1] {
        file[sizes + 8 * chunk..][..8].copy_from_slice(&1u64.to_le_bytes());
    }
    within(MOST_STACK + OWN, move || counting_calls(volume, &file, 1));
    within(MOST_STACK + OWN, || judging_calls(70_000));
}
