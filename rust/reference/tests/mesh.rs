//! Mesh shards by hand (document 02, order 7): every byte, place and answer
//! here was worked out on paper.

use reference::settle::{content_of, form_of, length_of, settle, Triple};
use reference::shard::{
    check, fragment, fragment_part, list_minishard, lookup, lookup_part, write_listing, Entry,
    Fragment,
};
use reference::sharding::{Sharding, MESH, VOLUME};
use reference::Refusal;

/// Two minishards: even ids in the first, odd ones in the second.
const TWO: Sharding = Sharding {
    preshift: 0,
    hash: 0,
    minishard_bits: 1,
    shard_bits: 0,
    kind: MESH,
};

/// The same as a volume.
const AS_VOLUME: Sharding = Sharding {
    kind: VOLUME,
    ..TWO
};

/// The bits of 1.0 and of a number that is none.
const REAL: u32 = 0x3f80_0000;
const NAN: u32 = 0x7fc0_0000;

/// Numbers of 8 bytes.
fn row(numbers: &[u64]) -> Vec<u8> {
    numbers.iter().flat_map(|n| n.to_le_bytes()).collect()
}

/// Items of 4 bytes.
fn items(numbers: &[u32]) -> Vec<u8> {
    numbers.iter().flat_map(|n| n.to_le_bytes()).collect()
}

/// A manifest without levels, 28 bytes.
fn no_levels() -> Vec<u8> {
    items(&[REAL, REAL, REAL, 0, 0, 0, 0])
}

/// A manifest with one node, whose fragment has this size: 64 bytes, the size
/// the last 4 of them.
fn one_node(size: u32) -> Vec<u8> {
    let head = [REAL, REAL, REAL, 0, 0, 0, 1];
    items(&[&head[..], &[0, 0, 0, 0, 1], &[0, 0, 0, size]].concat())
}

/// A manifest of 116 bytes: nodes 0,0,0 and 1,0,0 with fragments of these two
/// sizes, and on the next level node 0,0,0 with this one.
fn three_nodes([first, second, third]: [u32; 3]) -> Vec<u8> {
    let head = [REAL, REAL, REAL, 0, 0, 0, 2];
    let reals_and_counts = [0, 0, 0, 0, 0, 0, 0, 0, 2, 1];
    let level_0 = [0, 1, 0, 0, 0, 0, first, second];
    let level_1 = [0, 0, 0, third];
    items(&[&head[..], &reals_and_counts, &level_0, &level_1].concat())
}

/// Minishard 0 lists ids 4 and 10, minishard 1 lists id 5:
///
/// - bytes 0 to 32: the shard index, entries 189 to 237 and 265 to 289;
/// - 32 to 38: the fragments `ab`, `cde` and `f` of id 4;
/// - 38 to 154: its manifest;
/// - 154 to 157: the fragment `xyz` of id 10;
/// - 157 to 221: its manifest;
/// - 221 to 269: their index, start steps at 237 and 245;
/// - 269 to 297: the manifest of id 5, without levels;
/// - 297 to 321: its index, start step at 305.
///
/// It is settled.
fn example() -> Vec<u8> {
    [
        row(&[189, 237, 265, 289]),
        b"abcdef".to_vec(),
        three_nodes([2, 3, 1]),
        b"xyz".to_vec(),
        one_node(3),
        row(&[4, 6, 6, 3, 116, 64]),
        no_levels(),
        row(&[5, 237, 28]),
    ]
    .concat()
}

/// The example with these bytes from this place on.
fn with(changes: &[(usize, &[u8])]) -> Vec<u8> {
    let mut file = example();
    for (at, bytes) in changes {
        file[*at..*at + bytes.len()].copy_from_slice(bytes);
    }
    file
}

/// The verdict on a fault of this minishard at this byte.
fn fault(number: u8, minishard: u64, position: u64) -> Result<(), Refusal> {
    Err(Refusal::at(number, position).in_minishard(minishard))
}

/// A refusal that names no place.
fn bare<T>(number: u8) -> Result<T, Refusal> {
    Err(Refusal::bare(number))
}

#[test]
fn the_example_is_read() {
    let file = example();
    assert_eq!(file.len(), 321);
    assert_eq!(check(&TWO, 0, &file), Ok(()));
    let entry = |id, start, length, fragments| Entry {
        id,
        start,
        length,
        fragments,
    };
    let first = [entry(4, 38, 116, 6), entry(10, 157, 64, 3)];
    let second = [entry(5, 269, 28, 0)];
    assert_eq!(list_minishard(&TWO, 0, &file, 0), Ok(first.to_vec()));
    assert_eq!(list_minishard(&TWO, 0, &file, 1), Ok(second.to_vec()));
    for expected in first.into_iter().chain(second) {
        assert_eq!(lookup(&TWO, 0, expected.id, &file), Ok(expected));
    }
    assert_eq!(lookup_part(&TWO, 0, 10, &file), one_node(3));
    assert_eq!(lookup(&TWO, 0, 6, &file), bare(12));
    let mut out = [7; 7];
    assert_eq!(write_listing(&TWO, 0, &file, 0, &mut out), Ok(6));
    assert_eq!(out, [4, 38, 116, 10, 157, 64, 7]);
}

#[test]
fn fragments_of_the_example() {
    let file = example();
    let cases: [(u64, u64, u64, u64, &[u8]); 4] = [
        (4, 0, 0, 32, b"ab"),
        (4, 0, 1, 34, b"cde"),
        (4, 1, 0, 37, b"f"),
        (10, 0, 0, 154, b"xyz"),
    ];
    for (id, level, node, start, bytes) in cases {
        let length = bytes.len() as u64;
        let found = fragment(&TWO, 0, id, level, node, &file);
        assert_eq!(found, Ok(Fragment { start, length }));
        let part = fragment_part(&TWO, 0, id, level, node, &file);
        assert_eq!(
            (part, part.as_ptr()),
            (bytes, &raw const file[start as usize])
        );
    }
    for (id, level, node, number) in [
        (4, 0, 2, 18),
        (4, 1, 1, 18),
        (4, 2, 0, 18),
        (4, u64::MAX, u64::MAX, 18),
        (10, 1 << 32, 0, 18),
        (10, 0, 1 << 32, 18),
        (5, 0, 0, 18),
        (6, 0, 0, 12),
        (7, 0, 0, 12),
    ] {
        let found = fragment(&TWO, 0, id, level, node, &file);
        assert_eq!(found, bare(number), "{id} {level} {node}");
        let part = fragment_part(&TWO, 0, id, level, node, &file);
        assert_eq!((part, part.as_ptr()), (&b""[..], file.as_ptr()));
    }
}

/// 1, 5, 6, the faults of the minishard with their places, 12, 18.
#[test]
fn what_a_fragment_is_refused_for_first() {
    let file = example();
    let asked = |sharding: &Sharding, number, id, level, file: &[u8]| {
        fragment(sharding, number, id, level, 0, file).map(|_| ())
    };
    let no_kind = Sharding { kind: 2, ..TWO };
    assert_eq!(asked(&no_kind, 9, 6, 9, &[]), bare(1));
    assert_eq!(asked(&TWO, 1, 6, 9, &[]), bare(5));
    assert_eq!(asked(&TWO, 0, 6, 9, &file[..31]), bare(6));
    let reversed = with(&[(0, &row(&[237, 189]))]);
    assert_eq!(asked(&TWO, 0, 6, 9, &reversed), Err(Refusal::at(7, 0)));
    let short = with(&[(261, &row(&[63]))]);
    assert_eq!(asked(&TWO, 0, 6, 9, &short), Err(Refusal::at(15, 245)));
    let real = with(&[(38, &items(&[NAN]))]);
    assert_eq!(asked(&TWO, 0, 10, 9, &real), Err(Refusal::at(16, 237)));
    let large = with(&[(150, &items(&[2]))]);
    assert_eq!(asked(&TWO, 0, 10, 0, &large), Err(Refusal::at(21, 237)));
    // The other minishard's faults do not count.
    assert_eq!(asked(&TWO, 0, 5, 0, &large), bare(18));
    assert_eq!(asked(&TWO, 0, 7, 0, &large), bare(12));
    assert_eq!(asked(&TWO, 0, 6, 9, &file), bare(12));
    assert_eq!(asked(&TWO, 0, 4, 9, &file), bare(18));
}

/// A volume lists the manifests alone, looks at none of them and has no
/// fragment.
#[test]
fn a_volume_is_not_judged_by_manifests() {
    let file = example();
    assert_eq!(check(&AS_VOLUME, 0, &file), Ok(()));
    assert_eq!(lookup(&AS_VOLUME, 0, 4, &file).map(|e| e.fragments), Ok(0));
    assert_eq!(fragment(&AS_VOLUME, 0, 4, 0, 0, &file), bare(18));
    assert_eq!(fragment(&AS_VOLUME, 0, 6, 0, 0, &file), bare(12));
    // 32 + 116 + 64 + 48 + 28 + 24: the nine bytes of fragments are dropped.
    assert_eq!(length_of(&AS_VOLUME, 0, &file, true), Ok(312));
    assert_eq!(length_of(&TWO, 0, &file, true), Ok(321));
    let broken = with(&[(38, &items(&[NAN])), (106, b"????"), (150, b"????")]);
    assert_eq!(check(&TWO, 0, &broken), fault(16, 0, 237));
    assert_eq!(check(&AS_VOLUME, 0, &broken), Ok(()));
    assert_eq!(length_of(&AS_VOLUME, 0, &broken, true), Ok(312));
}

/// Faults of one manifest: those of the first at its start step 237, those of
/// the second at 245, that of the third in minishard 1 at 305.
#[test]
fn each_fault_and_its_place() {
    let cases: [(&str, Vec<u8>, Result<(), Refusal>); 17] = [
        // Sizes stand at 253, 261 and 313. The second chunk keeps its place.
        (
            "the first a byte short",
            with(&[(245, &row(&[4])), (253, &row(&[115]))]),
            fault(15, 0, 237),
        ),
        (
            "the second a byte short",
            with(&[(261, &row(&[63]))]),
            fault(15, 0, 245),
        ),
        (
            "the second a byte long",
            with(&[(261, &row(&[65]))]),
            fault(15, 0, 245),
        ),
        (
            "the second empty",
            with(&[(261, &row(&[0]))]),
            fault(15, 0, 245),
        ),
        (
            "the third a byte short",
            with(&[(313, &row(&[27]))]),
            fault(15, 1, 305),
        ),
        // Level counts stand at 62, 181 and 293.
        ("33 levels", with(&[(62, &items(&[33]))]), fault(15, 0, 237)),
        (
            "a level without its numbers",
            with(&[(293, &items(&[1]))]),
            fault(15, 1, 305),
        ),
        (
            "a shape of 0",
            with(&[(46, &items(&[0]))]),
            fault(16, 0, 237),
        ),
        (
            "an origin that is no number",
            with(&[(177, &items(&[NAN]))]),
            fault(16, 0, 245),
        ),
        (
            "a shape below 0",
            with(&[(269, &items(&[0xbf80_0000]))]),
            fault(16, 1, 305),
        ),
        (
            "a scale that is no number",
            with(&[(66, &items(&[NAN]))]),
            fault(16, 0, 237),
        ),
        // The x of the nodes of level 0 stand at 106 and 110.
        (
            "a node twice",
            with(&[(110, &items(&[0]))]),
            fault(17, 0, 237),
        ),
        (
            "nodes that fall",
            with(&[(106, &items(&[1, 0]))]),
            fault(17, 0, 237),
        ),
        // Sizes of fragments stand at 130, 134, 150 and 217. The first manifest
        // starts 6 bytes behind the index end, the second 125.
        (
            "fragments of one byte more than there are",
            with(&[(150, &items(&[2]))]),
            fault(21, 0, 237),
        ),
        (
            "the second's from the index end on",
            with(&[(217, &items(&[125]))]),
            Ok(()),
        ),
        (
            "the second's from a byte before it",
            with(&[(217, &items(&[126]))]),
            fault(21, 0, 245),
        ),
        // 2^32 - 1 and 7 are 6 modulo 2^32.
        (
            "a sum of 2^32 and 6",
            with(&[(130, &items(&[u32::MAX, 7])), (150, &items(&[0]))]),
            fault(21, 0, 237),
        ),
    ];
    for (name, file, expected) in cases {
        assert_eq!(check(&TWO, 0, &file), expected, "{name}");
        let passed_on = expected.map_err(Refusal::passed_on);
        assert_eq!(
            length_of(&TWO, 0, &file, true).map(|_| ()),
            passed_on,
            "{name}"
        );
        let settled = settle(&TWO, 0, &file, true, &mut []).map(|_| ());
        assert_eq!(settled, passed_on.and(bare(13)), "{name}");
        if let Err(refusal) = expected {
            let minishard = refusal.minishard.expect("the check names it");
            let listed = list_minishard(&TWO, 0, &file, minishard);
            assert_eq!(listed.map(|_| ()), passed_on, "{name}");
            let other = list_minishard(&TWO, 0, &file, 1 - minishard);
            assert!(other.is_ok(), "{name}");
            for id in [minishard, 4 + minishard] {
                let found = lookup(&TWO, 0, id, &file);
                assert_eq!(found.map(|_| ()), passed_on, "{name}");
            }
        }
    }
}

/// Within a minishard each test runs over all entries before the next, and
/// what it finds first is told; a minishard is finished before the next.
#[test]
fn lower_numbers_go_first() {
    let real_1: (usize, &[u8]) = (38, &items(&[NAN]));
    let real_2: (usize, &[u8]) = (157, &items(&[NAN]));
    let real_3: (usize, &[u8]) = (269, &items(&[NAN]));
    let order_1: (usize, &[u8]) = (106, &items(&[1, 0]));
    let large_1: (usize, &[u8]) = (150, &items(&[2]));
    let large_2: (usize, &[u8]) = (217, &items(&[126]));
    let short_2: (usize, &[u8]) = (261, &row(&[63]));
    let past_2: (usize, &[u8]) = (261, &row(&[999]));
    let short_3: (usize, &[u8]) = (313, &row(&[27]));
    for (changes, expected) in [
        (&[real_1, short_2][..], fault(15, 0, 245)),
        (&[order_1, real_2], fault(16, 0, 245)),
        (&[real_1, order_1], fault(16, 0, 237)),
        (&[large_1, real_2], fault(16, 0, 245)),
        (&[order_1, large_2], fault(17, 0, 237)),
        (&[large_1, large_2], fault(21, 0, 237)),
        (&[large_1, short_2], fault(15, 0, 245)),
        (&[real_1, real_2], fault(16, 0, 237)),
        (&[real_1, past_2], fault(11, 0, 245)),
        (&[large_2, short_3], fault(21, 0, 245)),
        (&[large_2, real_3], fault(21, 0, 245)),
        (&[real_3], fault(16, 1, 305)),
        (&[real_3, short_3], fault(15, 1, 305)),
    ] {
        assert_eq!(check(&TWO, 0, &with(changes)), expected, "{changes:?}");
    }
    // The second entry of the shard index is reversed, at byte 16.
    let reversed: (usize, &[u8]) = (16, &row(&[289, 265]));
    let file = with(&[reversed, large_2]);
    assert_eq!(check(&TWO, 0, &file), fault(21, 0, 245));
    assert_eq!(check(&TWO, 0, &with(&[reversed])), fault(7, 1, 16));
    // An id that stands twice, and one of the other minishard, at byte 229.
    let twice: (usize, &[u8]) = (229, &row(&[0]));
    assert_eq!(check(&TWO, 0, &with(&[twice, real_1])), fault(9, 0, 229));
    let odd: (usize, &[u8]) = (229, &row(&[7]));
    assert_eq!(check(&TWO, 0, &with(&[odd, real_1])), fault(10, 0, 229));
}

#[test]
fn the_example_is_settled() {
    let file = example();
    let content = content_of(&TWO, 0, &file).expect("it is sound");
    let (first, second, third) = (three_nodes([2, 3, 1]), one_node(3), no_levels());
    let triple = |id, fragments, chunk| Triple {
        id,
        fragments,
        chunk,
    };
    let expected = [
        triple(4, b"abcdef", &first[..]),
        triple(10, b"xyz", &second),
        triple(5, b"", &third),
    ];
    assert_eq!(content, expected);
    let mut reversed = expected;
    reversed.reverse();
    assert_eq!(form_of(&TWO, &reversed), file);
    let mut out = vec![7; 323];
    assert_eq!(settle(&TWO, 0, &file, true, &mut out), Ok(321));
    assert_eq!(out, [&file[..], &[7, 7]].concat());
    assert_eq!(settle(&TWO, 0, &file, true, &mut out[..320]), bare(13));
}

/// The same nets with gaps, the later id in front, the index of minishard 1
/// before all and that of minishard 0 in the middle:
///
/// - bytes 32 to 56: the index of minishard 1, entry 0 to 24;
/// - 57 to 60 and 60 to 124: fragment and manifest of id 10, behind a byte;
/// - 124 to 172: the index of minishard 0, entry 92 to 140, ids 10 and 4;
/// - 172 to 178 and 178 to 294: fragments and manifest of id 4;
/// - 296 to 324: the manifest of id 5, behind two bytes.
fn elsewhere() -> Vec<u8> {
    // 60 - 32, then 178 - 32 behind the end of the first chunk at 92.
    let rows = [10, 4u64.wrapping_sub(10), 28, 54, 64, 116];
    [
        row(&[92, 140, 0, 24]),
        row(&[5, 264, 28]),
        b"-".to_vec(),
        b"xyz".to_vec(),
        one_node(3),
        row(&rows),
        b"abcdef".to_vec(),
        three_nodes([2, 3, 1]),
        b"--".to_vec(),
        no_levels(),
    ]
    .concat()
}

#[test]
fn other_layouts_settle_to_the_example() {
    let file = elsewhere();
    assert_eq!(file.len(), 324);
    assert_eq!(check(&TWO, 0, &file), Ok(()));
    let mut out = vec![0; 321];
    assert_eq!(settle(&TWO, 0, &file, true, &mut out), Ok(321));
    assert_eq!(out, example());
    assert_eq!(fragment_part(&TWO, 0, 4, 0, 1, &file), b"cde");
    assert_eq!(fragment_part(&TWO, 0, 10, 0, 0, &file), b"xyz");
}

/// One byte of a fragment makes another form; the volumes' forms, which have
/// no fragments, stay the same.
#[test]
fn a_fragment_counts() {
    let settled = |sharding: &Sharding, file: &[u8]| {
        let mut out = vec![0; length_of(sharding, 0, file, true).expect("it is sound") as usize];
        settle(sharding, 0, file, true, &mut out).expect("it has room");
        out
    };
    let mut other = elsewhere();
    assert_eq!(other[174..177], *b"cde");
    other[175] = b'D';
    assert_eq!(settled(&TWO, &other), with(&[(35, b"D")]));
    let (one, other) = (elsewhere(), other);
    assert_ne!(settled(&TWO, &one), settled(&TWO, &other));
    assert_eq!(settled(&AS_VOLUME, &one), settled(&AS_VOLUME, &other));
}

/// Ids 4 and 10 list the same manifest, and so the same fragments.
#[test]
fn shared_fragments() {
    // The second chunk starts where the first does, 116 bytes back.
    let back = 0u64.wrapping_sub(116);
    let file = [
        row(&[122, 170, 9, 9]),
        b"abcdef".to_vec(),
        three_nodes([2, 3, 1]),
        row(&[4, 6, 6, back, 116, 116]),
    ]
    .concat();
    assert_eq!(check(&TWO, 0, &file), Ok(()));
    assert_eq!(fragment_part(&TWO, 0, 4, 1, 0, &file), b"f");
    assert_eq!(fragment_part(&TWO, 0, 10, 1, 0, &file), b"f");
    // 32 + 2 x (6 + 116) + 48: the form is longer than the shard.
    let mut out = vec![0; 324];
    assert_eq!(settle(&TWO, 0, &file, true, &mut out), Ok(324));
    let net = [b"abcdef".to_vec(), three_nodes([2, 3, 1])].concat();
    let expected = [
        row(&[244, 292, 0, 0]),
        net.clone(),
        net,
        row(&[4, 6, 6, 6, 116, 116]),
    ];
    assert_eq!(out, expected.concat());
}

/// The fragment of id 10 is the example's bytes from the index end on: the
/// fragments and the manifest of id 4 and `xyz`.
#[test]
fn overlapping_fragments() {
    let file = with(&[(217, &items(&[125]))]);
    let found = fragment(&TWO, 0, 10, 0, 0, &file);
    let whole = Fragment {
        start: 32,
        length: 125,
    };
    assert_eq!(found, Ok(whole));
    // 122 bytes more than the example.
    let mut out = vec![0; 443];
    assert_eq!(settle(&TWO, 0, &file, true, &mut out), Ok(443));
    let expected = [
        row(&[311, 359, 387, 411]),
        file[32..154].to_vec(),
        file[32..157].to_vec(),
        one_node(125),
        row(&[4, 6, 6, 125, 116, 64]),
        no_levels(),
        row(&[5, 359, 28]),
    ];
    assert_eq!(out, expected.concat());
}

/// A manifest of one level without nodes, and nodes with empty fragments.
#[test]
fn manifests_without_fragments() {
    let head = [REAL, REAL, REAL, 0, 0, 0, 1];
    let no_nodes = items(&[&head[..], &[0, 0, 0, 0, 0]].concat());
    assert_eq!(no_nodes.len(), 48);
    let file = [
        row(&[164, 212, 0, 0]),
        no_nodes,
        three_nodes([0, 0, 0]),
        row(&[4, 6, 0, 0, 48, 116]),
    ]
    .concat();
    assert_eq!(check(&TWO, 0, &file), Ok(()));
    assert_eq!(fragment(&TWO, 0, 4, 0, 0, &file), bare(18));
    let empty = |start| Ok(Fragment { start, length: 0 });
    assert_eq!(fragment(&TWO, 0, 10, 0, 1, &file), empty(80));
    assert_eq!(fragment(&TWO, 0, 10, 1, 0, &file), empty(80));
    let mut out = vec![0; file.len()];
    assert_eq!(settle(&TWO, 0, &file, true, &mut out), Ok(file.len()));
    assert_eq!(out, file);
}

/// The longest manifest passes; a listed chunk of 16 bytes more is 15, whatever
/// it says.
#[test]
fn a_listed_chunk_beyond_16_mib() {
    const NODES: u32 = (16_777_216 - 48) / 16;
    let file = |nodes: u32| {
        let mut chunk = items(&[REAL, REAL, REAL, 0, 0, 0, 1, 0, 0, 0, 0, nodes]);
        // All x and y are 0, z rises, and no fragment has a byte.
        for number in 0..4 * nodes {
            let z = 2 * nodes <= number && number < 3 * nodes;
            chunk.extend(if z { number - 2 * nodes } else { 0 }.to_le_bytes());
        }
        let length = chunk.len() as u64;
        [
            row(&[length, length + 24, 0, 0]),
            chunk,
            row(&[4, 0, length]),
        ]
        .concat()
    };
    assert_eq!(check(&TWO, 0, &file(NODES)), Ok(()));
    let long = file(NODES + 1);
    let start_step = 32 + 16_777_232 + 8;
    assert_eq!(check(&TWO, 0, &long), fault(15, 0, start_step));
    assert_eq!(check(&AS_VOLUME, 0, &long), Ok(()));
}

/// Every number for a kind but 0 and 1 is refused, before all else.
#[test]
fn other_kinds() {
    let file = example();
    for kind in 0..=255 {
        let sharding = Sharding { kind, ..TWO };
        let number = if kind <= 1 { 5 } else { 1 };
        assert_eq!(check(&sharding, 7, &[]), bare(number));
        assert_eq!(lookup(&sharding, 7, 4, &[]), bare(number));
        assert_eq!(fragment(&sharding, 7, 4, 0, 0, &[]), bare(number));
        assert_eq!(list_minishard(&sharding, 7, &[], 9), bare(number));
        assert_eq!(length_of(&sharding, 7, &[], true), bare(number));
        assert_eq!(settle(&sharding, 7, &[], true, &mut []), bare(number));
        assert_eq!(check(&sharding, 0, &file).is_ok(), kind <= 1);
    }
}
