//! Mesh shards (change requests, order 7): cases made by hand with the byte
//! that each call names, nets known by construction, outputs of every length,
//! what a lookup depends on, and kinds.

use compare::sides::{answer, refusal, sharding};
use coronagamba::manifest::Manifest;
use coronagamba::{Refusal, Shard, Span, Unlisted};
use reference::endian::read_u64;
use reference::settle::{self, content_of, form_of};
use reference::shard::{self, Entry};
use reference::sharding::{Sharding, MESH, VOLUME};
use testkit::manifests::Parts;
use testkit::meshes::{self, Difference, Net, Nets};
use testkit::shards::{self, Sample};
use testkit::{same_writing, Lent, Met, Rng};

/// Two minishards, one shard: an even id belongs to the first, an odd one to
/// the second.
const TWO: Sharding = Sharding {
    preshift: 0,
    hash: 0,
    minishard_bits: 1,
    shard_bits: 0,
    kind: MESH,
};

/// The library's shard over a sample's file.
fn open(sample: &Sample) -> Shard<'_> {
    Shard::open(sharding(&sample.sharding), sample.number, &sample.file)
}

/// Numbers as they stand in a shard.
fn row(numbers: &[u64]) -> Vec<u8> {
    let bytes = numbers.iter().flat_map(|number| number.to_le_bytes());
    bytes.collect()
}

/// A manifest whose nodes lie beside each other, with these fragment sizes on
/// each level.
fn manifest(levels: &[&[u32]]) -> Vec<u8> {
    let mut nodes = Vec::new();
    for sizes in levels {
        let level = (0..).zip(sizes.iter());
        nodes.push(level.map(|(x, size)| ([x, 0, 0], *size)).collect());
    }
    Parts::new([1.0; 3], [0.0; 3], nodes).bytes()
}

// ---- cases made by hand

/// Minishard 0 lists ids 4 and 10, minishard 1 lists id 5:
///
/// - bytes 0 to 32: the shard index, entries 189 to 237 and 265 to 289;
/// - 32 to 38: the fragments `ab`, `cde` and `f` of id 4;
/// - 38 to 154: its manifest, two nodes on level 0 and one on level 1;
/// - 154 to 157: the fragment `xyz` of id 10;
/// - 157 to 221: its manifest, one node;
/// - 221 to 269: their index, start steps at 237 and 245;
/// - 269 to 297: the manifest of id 5, without levels;
/// - 297 to 321: its index, start step at 305.
fn example() -> Vec<u8> {
    [
        row(&[189, 237, 265, 289]),
        b"abcdef".to_vec(),
        manifest(&[&[2, 3], &[1]]),
        b"xyz".to_vec(),
        manifest(&[&[3]]),
        row(&[4, 6, 6, 3, 116, 64]),
        manifest(&[]),
        row(&[5, 237, 28]),
    ]
    .concat()
}

/// A refusal that names this byte and no minishard.
fn at(number: u8, position: u64) -> Refusal {
    refusal(reference::Refusal::at(number, position))
}

/// How many manifests a minishard lists, or its fault.
type Verdict = Result<u64, Refusal>;

/// The verdicts on both minishards of a shard of [`TWO`], by every call on
/// both sides: an even id is asked for in the first, an odd one in the second.
#[track_caller]
fn told(file: &[u8], first: Verdict, second: Verdict) {
    let opened = Shard::open(sharding(&TWO), 0, file);
    for (minishard, expected) in [(0, first), (1, second)] {
        assert_eq!(opened.listed_count(minishard), expected);
        let listed = opened.listing(minishard);
        assert_eq!(listed.map(|listed| listed.len() as u64), expected);
        let listed = shard::list_minishard(&TWO, 0, file, minishard);
        let counted = listed.map(|listed| listed.len() as u64);
        assert_eq!(answer(counted), expected);
        let absent = expected.and(Err(refusal(12)));
        let id = 100 + minishard;
        assert_eq!(opened.lookup(id).map(|_| 0), absent);
        assert_eq!(opened.chunk(id).map(|_| 0), absent);
        assert_eq!(opened.lookup_fragment(id, 0, 0).map(|_| 0), absent);
        assert_eq!(opened.fragment(id, 9, 9).map(|_| 0), absent);
        let looked_up = shard::fragment(&TWO, 0, id, 0, 0, file);
        assert_eq!(answer(looked_up.map(|_| 0)), absent);
    }
    let fault = first.err().or(second.err());
    assert_eq!(opened.settled_length(Unlisted::Drop).err(), fault);
    assert_eq!(
        opened.settle(Unlisted::Drop, &mut []).err(),
        fault.or(Some(refusal(13)))
    );
    assert_eq!(
        settle::length_of(&TWO, 0, file, true).err().map(refusal),
        fault
    );
    let faulty = fault.map(|fault| Refusal {
        minishard: Some(u64::from(first.is_ok())),
        ..fault
    });
    assert_eq!(opened.check().err(), faulty);
    assert_eq!(opened.chunks().err(), faulty);
    assert_eq!(shard::check(&TWO, 0, file).err().map(refusal), faulty);
}

/// Bytes to be put at a place of the example.
type Change = (usize, Vec<u8>);

/// Numbers of four bytes to be put at a place.
fn items(place: usize, numbers: &[u32]) -> Change {
    let bytes = numbers.iter().flat_map(|number| number.to_le_bytes());
    (place, bytes.collect())
}

/// The example with these changes.
fn with(changes: &[&Change]) -> Vec<u8> {
    let mut file = example();
    for (place, bytes) in changes {
        file[*place..*place + bytes.len()].copy_from_slice(bytes);
    }
    file
}

#[test]
fn the_example() {
    let file = example();
    assert_eq!(file.len(), 321);
    told(&file, Ok(2), Ok(1));
    let shard = Shard::open(sharding(&TWO), 0, &file);
    let span = |start, length| Ok(Span { start, length });
    assert_eq!(shard.lookup(4), span(38, 116));
    assert_eq!(shard.lookup(10), span(157, 64));
    assert_eq!(shard.lookup(5), span(269, 28));
    let fragments: [(u64, u64, u64, u64, &[u8]); 4] = [
        (4, 0, 0, 32, b"ab"),
        (4, 0, 1, 34, b"cde"),
        (4, 1, 0, 37, b"f"),
        (10, 0, 0, 154, b"xyz"),
    ];
    for (id, level, node, start, bytes) in fragments {
        let found = shard.lookup_fragment(id, level, node);
        assert_eq!(found, span(start, bytes.len() as u64));
        let part = shard.fragment(id, level, node).expect("it is there");
        assert_eq!(part, bytes);
        assert_eq!(part.as_ptr(), &raw const file[start as usize]);
    }
    for (id, level, node, number) in [
        (4, 0, 2, 18),
        (4, 1, 1, 18),
        (4, 2, 0, 18),
        (4, 1 << 32, 0, 18),
        (4, 0, 1 << 32, 18),
        (4, u64::MAX, u64::MAX, 18),
        (5, 0, 0, 18),
        (6, 0, 0, 12),
        (7, 9, 9, 12),
    ] {
        let refused = shard.lookup_fragment(id, level, node);
        assert_eq!(refused, Err(refusal(number)), "{id} {level} {node}");
    }
    // It is settled, and a volume's form has no fragments.
    assert!(shard.settled(Unlisted::Drop).as_ref() == Ok(&file));
    let volume = Shard::open(sharding(&meshes::as_volume(&TWO)), 0, &file);
    assert_eq!(volume.settled_length(Unlisted::Drop), Ok(312));
    assert_eq!(volume.fragment(4, 0, 0), Err(refusal(18)));
    assert_eq!(volume.fragment(6, 0, 0), Err(refusal(12)));
}

/// Each fault of a manifest, its place, and the order of the tests.
#[test]
fn faults_by_hand() {
    const NAN: u32 = 0x7fc0_0000;
    let short_1: [&Change; 2] = [&(245, row(&[4])), &(253, row(&[115]))];
    let (short_2, short_3) = (&(261, row(&[63])), &(313, row(&[27])));
    let (empty_2, past_2) = (&(261, row(&[0])), &(261, row(&[999])));
    let levels_1 = &items(62, &[33]);
    let (real_1, real_2, real_3) = (&items(38, &[NAN]), &items(177, &[NAN]), &items(269, &[0]));
    let (twice_1, falling_1) = (&items(110, &[0]), &items(106, &[1, 0]));
    // The first manifest starts 6 bytes behind the index end, the second 125.
    let (less_1, more_1) = (&items(150, &[0]), &items(150, &[2]));
    let (all_2, more_2) = (&items(217, &[125]), &items(217, &[126]));
    // 2^32 - 1 and 7 are 6 modulo 2^32.
    let wrapping_1: [&Change; 2] = [&items(130, &[u32::MAX, 7]), less_1];
    let first = |number| (Err(at(number, 237)), Ok(1));
    let second = |number| (Err(at(number, 245)), Ok(1));
    let third = |number| (Ok(2), Err(at(number, 305)));
    let cases: [(&[&Change], (Verdict, Verdict)); 27] = [
        (&short_1, first(15)),
        (&[short_2], second(15)),
        (&[empty_2], second(15)),
        (&[short_3], third(15)),
        (&[levels_1], first(15)),
        (&[real_1], first(16)),
        (&[real_2], second(16)),
        (&[real_3], third(16)),
        (&[twice_1], first(17)),
        (&[falling_1], first(17)),
        (&[less_1], (Ok(2), Ok(1))),
        (&[more_1], first(21)),
        (&[all_2], (Ok(2), Ok(1))),
        (&[more_2], second(21)),
        (&wrapping_1, first(21)),
        // Each test runs over all entries before the next.
        (&[real_1, short_2], second(15)),
        (&[falling_1, real_2], second(16)),
        (&[real_1, falling_1], first(16)),
        (&[more_1, real_2], second(16)),
        (&[more_1, short_2], second(15)),
        (&[falling_1, more_2], first(17)),
        (&[more_1, more_2], first(21)),
        (&[real_1, real_2], first(16)),
        (&[real_1, past_2], second(11)),
        // A minishard is finished before the next.
        (&[more_2, short_3], (Err(at(21, 245)), Err(at(15, 305)))),
        (&[more_2, real_3], (Err(at(21, 245)), Err(at(16, 305)))),
        (&[real_3, short_3], third(15)),
    ];
    for (changes, (first, second)) in cases {
        told(&with(changes), first, second);
    }
    // A volume is not judged by manifests.
    let volume = Sharding {
        kind: VOLUME,
        ..TWO
    };
    for changes in [&[real_1][..], &[falling_1], &[more_1], &[levels_1]] {
        let file = with(changes);
        assert_eq!(Shard::open(sharding(&volume), 0, &file).check(), Ok(()));
    }
}

/// The fragment of id 10 reaches back over the manifest and the fragments of id
/// 4, to the index end. The settled form has these bytes twice.
#[test]
fn overlapping_fragments_by_hand() {
    let file = with(&[&items(217, &[125])]);
    let shard = Shard::open(sharding(&TWO), 0, &file);
    assert_eq!(shard.fragment(10, 0, 0), Ok(&file[32..157]));
    let expected = [
        row(&[311, 359, 387, 411]),
        file[32..154].to_vec(),
        file[32..157].to_vec(),
        manifest(&[&[125]]),
        row(&[4, 6, 6, 125, 116, 64]),
        manifest(&[]),
        row(&[5, 359, 28]),
    ];
    assert_eq!(shard.settled(Unlisted::Drop), Ok(expected.concat()));
}

// ---- nets known by construction

/// Pairs of layouts or contents.
const PAIRS: usize = 4_000;

/// A sharding, a number and nets for it.
fn nets(rng: &mut Rng) -> (Sharding, u64, Nets) {
    let specification = meshes::sharding(rng);
    let number = shards::number(rng, &specification);
    let nets = meshes::content(rng, &specification, number, 8);
    (specification, number, nets)
}

/// The library's settled form of a layout, which is sound.
fn form(specification: &Sharding, number: u64, layout: &[u8]) -> Vec<u8> {
    Shard::open(sharding(specification), number, layout)
        .settled(Unlisted::Drop)
        .expect("a layout is sound")
}

/// A settled form lists the nets, with all fragments, and settles to itself.
fn assert_settled(specification: &Sharding, number: u64, form: &[u8], nets: &Nets) {
    let settled = Shard::open(sharding(specification), number, form);
    assert_eq!(settled.check(), Ok(()));
    for (id, net) in nets {
        assert_net(&settled, *id, net);
    }
    let listed = settled.chunks().expect("it is sound").map(|chunk| chunk.id);
    let mut listed: Vec<u64> = listed.collect();
    listed.sort_unstable();
    assert!(listed.iter().eq(nets.keys()));
    assert!(settled.settled(Unlisted::Drop).as_deref() == Ok(form));
}

/// A shard lists this net under this id: its manifest, and its fragments right
/// before it, one after the other.
fn assert_net(shard: &Shard, id: u64, net: &Net) {
    assert_eq!(shard.chunk(id), Ok(&net.manifest[..]));
    let manifest = shard.lookup(id).expect("it was found before");
    let first = manifest.start - net.fragments.len() as u64;
    let mut end = 0;
    for visit in Manifest::open(&net.manifest).nodes().expect("it is sound") {
        let (start, length) = (visit.node.start, u64::from(visit.node.size));
        let (level, node) = (visit.level.into(), visit.index.into());
        let span = Span {
            start: first + start,
            length,
        };
        assert_eq!(shard.lookup_fragment(id, level, node), Ok(span));
        let bytes = &net.fragments[start as usize..][..length as usize];
        assert_eq!(shard.fragment(id, level, node), Ok(bytes));
        assert_eq!(start, end);
        end += length;
    }
    assert_eq!(end, net.fragments.len() as u64);
}

#[test]
fn two_layouts_of_the_same_nets_settle_to_one_form() {
    let mut rng = Rng::new(71);
    let mut pairs = 0;
    while pairs < PAIRS {
        let (specification, number, nets) = nets(&mut rng);
        let layouts = [(); 2].map(|()| meshes::lay_out(&mut rng, &specification, &nets));
        if layouts[0] == layouts[1] {
            continue;
        }
        for (id, net) in &nets {
            assert_net(
                &Shard::open(sharding(&specification), number, &layouts[0]),
                *id,
                net,
            );
        }
        let [one, other] = layouts.map(|layout| form(&specification, number, &layout));
        assert!(one == other, "{specification:?} {number} {nets:?}");
        assert!(one == form_of(&specification, &meshes::triples(&nets)));
        assert_settled(&specification, number, &one, &nets);
        pairs += 1;
    }
}

/// Fragments that lie over other things are listed as if they did not.
#[test]
fn overlapping_nets_settle_as_others_do() {
    let mut rng = Rng::new(72);
    for _ in 0..PAIRS {
        let specification = meshes::sharding(&mut rng);
        let number = shards::number(&mut rng, &specification);
        let file = meshes::overlapping(&mut rng, &specification, number, 8);
        let triples = content_of(&specification, number, &file).expect("it is sound");
        let nets = meshes::nets(&triples);
        let layout = meshes::lay_out(&mut rng, &specification, &nets);
        let one = form(&specification, number, &file);
        assert!(one == form(&specification, number, &layout));
        assert_settled(&specification, number, &one, &nets);
    }
}

#[test]
fn nets_that_differ_settle_to_different_forms() {
    let mut rng = Rng::new(73);
    for difference in Difference::ALL {
        let mut pairs = 0;
        while pairs < PAIRS / Difference::ALL.len() {
            let (specification, number, nets) = nets(&mut rng);
            let Some(other) =
                meshes::differing(&mut rng, &specification, number, &nets, difference)
            else {
                continue;
            };
            let volume = meshes::as_volume(&specification);
            let [one, other] = [nets, other].map(|nets| {
                let layout = meshes::lay_out(&mut rng, &specification, &nets);
                let mesh = form(&specification, number, &layout);
                assert!(mesh == form_of(&specification, &meshes::triples(&nets)));
                (mesh, form(&volume, number, &layout))
            });
            assert!(one.0 != other.0, "{difference:?}");
            // The manifests alone don't show another byte of a fragment.
            let shown = difference != Difference::Fragment;
            assert_eq!(one.1 != other.1, shown, "{difference:?}");
            pairs += 1;
        }
    }
}

// ---- outputs, lengths and limits

/// Outputs from none at all to a few bytes more than needed; the bytes around
/// them are compared too.
#[test]
fn outputs_of_every_length() {
    let mut rng = Rng::new(74);
    let mut shards = 0;
    while shards < 500 {
        let sample = meshes::sound(&mut rng, 4);
        let Sample {
            sharding,
            number,
            file,
        } = &sample;
        let needed = settle::length_of(sharding, *number, file, true);
        let needed = needed.expect("the sample is sound") as usize;
        assert_eq!(
            open(&sample).settled_length(Unlisted::Drop),
            Ok(needed as u64)
        );
        if !(100..=700).contains(&needed) {
            continue;
        }
        shards += 1;
        for room in 0..=needed + 3 {
            let expected = if room < needed { Err(13) } else { Ok(needed) };
            let settled = same_writing(
                &Lent::new(&mut rng, room),
                |out| open(&sample).settle(Unlisted::Drop, out),
                |out| answer(settle::settle(sharding, *number, file, true, out)),
            );
            assert_eq!(settled, answer(expected));
        }
    }
}

/// Fragments that all ids share make forms that just reach a gibibyte, stay
/// below it or would pass it.
#[test]
fn forms_around_a_gibibyte() {
    const GIBIBYTE: usize = 1 << 30;
    let mut rng = Rng::new(75);
    let mut out = vec![0; GIBIBYTE + 100];
    let mut met = Vec::new();
    while met.len() < 3 {
        let sample = meshes::brimming(&mut rng);
        let shard = open(&sample);
        assert_eq!(shard.check(), Ok(()));
        let length = shard
            .settled_length(Unlisted::Drop)
            .map_err(|refusal| refusal.number);
        if met.contains(&length) {
            continue;
        }
        met.push(length);
        out.fill(7);
        let settled = shard
            .settle(Unlisted::Drop, &mut out)
            .map_err(|refusal| refusal.number);
        assert_eq!(settled.map(|length| length as u64), length);
        let written = settled.unwrap_or(0);
        assert!(out[written..].iter().all(|byte| *byte == 7));
        let Ok(length) = settled else { continue };
        let form = Shard::open(sharding(&sample.sharding), 0, &out[..length]);
        assert_eq!(form.check(), Ok(()));
        for id in [0, 1, 2047, 4095] {
            assert_eq!(form.chunk(id), shard.chunk(id));
            assert!(form.fragment(id, 0, 0) == shard.fragment(id, 0, 0));
        }
    }
    met.sort_unstable();
    let most = GIBIBYTE as u64;
    assert_eq!(met, [Ok(most - 1), Ok(most), Err(13)]);
}

/// Manifests of just 16 MiB, and of a node more, which are 15; with fragments
/// of no byte, and with sizes whose sum is far past 2^32.
#[test]
fn the_longest_manifests() {
    const MOST: usize = 16_777_216;
    for (more, size, number) in [(0, 0, 0), (1, 0, 15), (0, u32::MAX, 21), (0, 1 << 12, 21)] {
        let nodes = ((MOST - 48) / 16 + more) as u32;
        // 2^20 sizes of 2^12 are 0 modulo 2^32.
        let level = (0..nodes).map(|z| ([0, 0, z], size)).collect();
        let manifest = Parts::new([1.0; 3], [0.0; 3], vec![level]).bytes();
        assert_eq!(manifest.len(), MOST + 16 * more);
        let length = manifest.len() as u64;
        let file = [
            row(&[length, length + 24, 0, 0]),
            manifest,
            row(&[4, 0, length]),
        ]
        .concat();
        let shard = Shard::open(sharding(&TWO), 0, &file);
        let expected = shard::check(&TWO, 0, &file);
        assert_eq!(shard.check(), answer(expected));
        let fault = reference::Refusal::at(number, 32 + length + 8).in_minishard(0);
        assert_eq!(expected.err(), (number > 0).then_some(fault));
        if number == 0 {
            assert!(shard.settled(Unlisted::Drop).as_ref() == Ok(&file));
            let last = shard.lookup_fragment(4, 0, u64::from(nodes) - 1);
            let empty = Span {
                start: 32,
                length: 0,
            };
            assert_eq!(last, Ok(empty));
            assert_eq!(shard.fragment(4, 0, nodes.into()), Err(refusal(18)));
        }
    }
}

/// One minishard of many entries in any order, over a few nets, sound and with
/// faults at its ends.
#[test]
fn many_manifests_in_order_of_arrival() {
    const ALL: Sharding = Sharding {
        preshift: 0,
        hash: 0,
        minishard_bits: 0,
        shard_bits: 0,
        kind: MESH,
    };
    let nets = [manifest(&[&[2]]), manifest(&[&[1, 0], &[]]), manifest(&[])];
    let data: Vec<u8> = nets
        .iter()
        .flat_map(|net| [&b"ab"[..], net].concat())
        .collect();
    // Where each manifest starts and how long it is.
    let mut places = Vec::new();
    for net in &nets {
        let before = places.last().map_or(0, |(start, length)| start + length);
        places.push((before + 2, net.len() as u64));
    }
    let mut rng = Rng::new(76);
    for count in [1_000, 1_024, 32_768, 65_537, 70_000] {
        let mut ids: Vec<u64> = (0..count).map(|id| (id << 20) + id % 7).collect();
        rng.shuffle(&mut ids);
        let file = |ids: &[u64]| {
            let (mut id, mut end) = (0u64, 0u64);
            let (mut id_steps, mut start_steps, mut sizes) = (Vec::new(), Vec::new(), Vec::new());
            for next in ids {
                let (start, size) = places[(next % 3) as usize];
                id_steps.push(next.wrapping_sub(id));
                start_steps.push(start.wrapping_sub(end));
                sizes.push(size);
                (id, end) = (*next, start + size);
            }
            let length = data.len() as u64;
            let rows = [id_steps, start_steps, sizes].concat();
            let entry = row(&[length, length + 24 * count]);
            [entry, data.clone(), row(&rows)].concat()
        };
        let sound = file(&ids);
        let shard = Shard::open(sharding(&ALL), 0, &sound);
        assert_eq!(shard.check(), Ok(()));
        let mut expected =
            vec![0; settle::length_of(&ALL, 0, &sound, true).expect("sound") as usize];
        settle::settle(&ALL, 0, &sound, true, &mut expected).expect("it has room");
        assert!(shard.settled(Unlisted::Drop).as_ref() == Ok(&expected));
        assert_eq!(
            shard.fragment(ids[count as usize / 2], 0, 9),
            Err(refusal(18))
        );
        // A shape of 0 in the third net, then too many levels in the first.
        let mut broken = sound.clone();
        for (place, change) in [(places[2].0, [0; 4]), (places[0].0 + 24, [0xff; 4])] {
            broken[16 + place as usize..][..4].copy_from_slice(&change);
            let told = shard::check(&ALL, 0, &broken);
            assert!(told.is_err());
            let shard = Shard::open(sharding(&ALL), 0, &broken);
            assert_eq!(shard.check(), answer(told));
            assert_eq!(shard.lookup(1 << 60).map(|_| ()), {
                let passed_on = told.map_err(reference::Refusal::passed_on);
                answer(passed_on)
            });
        }
    }
}

/// Each front of a small sound shard, from the whole file down to nothing.
#[test]
fn truncations_at_every_length() {
    let mut rng = Rng::new(77);
    let (mut fragments, mut checks) = (Met::new(), Met::new());
    let mut shards = 0;
    while shards < 500 {
        let mut sample = meshes::sound(&mut rng, 6);
        if sample.file.len() > 900 {
            continue;
        }
        shards += 1;
        let (id, level, node) = meshes::question(&mut rng, &sample);
        for length in (0..=sample.file.len()).rev() {
            sample.file.truncate(length);
            let Sample {
                sharding,
                number,
                file,
            } = &sample;
            let checked = shard::check(sharding, *number, file);
            assert_eq!(open(&sample).check(), answer(checked), "{sample:?}");
            checks.note(&checked);
            let found = shard::fragment(sharding, *number, id, level, node, file);
            let bytes = found.map(|fragment| fragment.bytes(file));
            assert_eq!(open(&sample).fragment(id, level, node), answer(bytes));
            fragments.note(&found);
        }
    }
    checks.assert_exactly(&[0, 6, 7, 11]);
    fragments.assert_exactly(&[0, 5, 6, 7, 11, 12, 18]);
}

// ---- what answers depend on

/// Marks the bytes that a lookup under this id may depend on: the minishard's
/// entry in the shard index, its index, and every manifest that it lists.
fn kept(sample: &Sample, id: u64) -> Vec<bool> {
    let Sample {
        sharding,
        number,
        file,
    } = sample;
    let minishard = sharding.place(id).minishard;
    let mut kept = vec![false; file.len()];
    let base = sharding.index_end() as usize;
    let entry = 16 * minishard as usize;
    let at = |place| read_u64(file, place) as usize;
    kept[entry..entry + 16].fill(true);
    kept[base + at(entry)..base + at(entry + 8)].fill(true);
    let entries = shard::list_minishard(sharding, *number, file, minishard);
    for Entry { start, length, .. } in entries.expect("the sample is sound") {
        kept[start as usize..][..length as usize].fill(true);
    }
    kept
}

/// The sample with other bytes where none is kept.
fn changed(rng: &mut Rng, sample: &Sample, kept: &[bool]) -> Sample {
    let mut other = sample.clone();
    for (byte, kept) in other.file.iter_mut().zip(kept) {
        if !kept {
            *byte = rng.bits() as u8;
        }
    }
    other
}

/// Bytes that no part of a lookup names may change freely: other fragments
/// than the one that is handed out, and all of the other minishards.
#[test]
fn other_bytes_may_change() {
    let mut rng = Rng::new(78);
    let (mut manifests, mut fragments) = (0, 0);
    for _ in 0..10_000 {
        let sample = meshes::sound(&mut rng, 8);
        let (id, level, node) = meshes::question(&mut rng, &sample);
        let Ok(manifest) = open(&sample).chunk(id) else {
            continue;
        };
        let mut kept = kept(&sample, id);
        let other = changed(&mut rng, &sample, &kept);
        assert_eq!(open(&other).chunk(id), Ok(manifest));
        let found = open(&sample).lookup_fragment(id, level, node);
        assert_eq!(open(&other).lookup_fragment(id, level, node), found);
        manifests += 1;
        let Ok(Span { start, length }) = found else {
            continue;
        };
        kept[start as usize..][..length as usize].fill(true);
        let other = changed(&mut rng, &sample, &kept);
        let fragment = open(&sample).fragment(id, level, node);
        assert_eq!(open(&other).fragment(id, level, node), fragment);
        fragments += 1;
    }
    assert!(
        manifests > 2_000 && fragments > 1_000,
        "{manifests} {fragments}"
    );
}

/// The calls of one shard pass on what one judge says: settling what the check
/// says, a lookup and a fragment what the listing of the minishard says.
#[test]
fn the_calls_agree() {
    let mut rng = Rng::new(79);
    let mut met = Met::new();
    for _ in 0..10_000 {
        let sample = meshes::damaged(&mut rng, 10);
        let opened = open(&sample);
        let checked = opened.check();
        let passed_on = checked.map_err(|refusal| Refusal {
            minishard: None,
            ..refusal
        });
        assert_eq!(opened.settled_length(Unlisted::Drop).map(|_| ()), passed_on);
        let (id, level, node) = meshes::question(&mut rng, &sample);
        let place = sample.sharding.place(id);
        if place.shard == sample.number && checked.map_or_else(|r| r.number != 6, |()| true) {
            let listed = opened.listed_count(place.minishard).map(|_| ());
            let looked_up = opened.lookup(id).map(|_| ());
            assert!(looked_up == listed || looked_up == Err(refusal(12)) && listed.is_ok());
            let fragment = opened.lookup_fragment(id, level, node).map(|_| ());
            assert!(fragment == looked_up || fragment == Err(refusal(18)) && looked_up.is_ok());
        }
        let Err(fault) = checked else { continue };
        let Some(minishard) = fault.minishard else {
            assert_eq!((fault.number, fault.position), (6, None));
            continue;
        };
        met.note(&Err::<(), u8>(fault.number));
        assert_eq!(opened.listed_count(minishard).map(|_| ()), passed_on);
        let bytes = if fault.number < 9 { 16 } else { 8 };
        let position = fault.position.expect("all of these name a position");
        assert!(position + bytes <= sample.file.len() as u64);
    }
    met.assert_exactly(&[7, 8, 9, 10, 11, 15, 16, 17, 21]);
}

// ---- kinds

/// Each number for a kind, in each call that takes a specification and a file.
#[test]
fn every_number_of_a_kind() {
    let file = example();
    for kind in 0..=u8::MAX {
        let specification = Sharding { kind, ..TWO };
        let shard = Shard::open(sharding(&specification), 0, &file);
        let refused = |answer: Result<(), Refusal>| match answer {
            Ok(()) => 0,
            Err(refusal) => refusal.number,
        };
        let answers = [
            refused(shard.check()),
            refused(shard.lookup(4).map(|_| ())),
            refused(shard.listed_count(0).map(|_| ())),
            refused(shard.write_listing(0, &mut [0; 6]).map(|_| ())),
            refused(shard.settled_length(Unlisted::Drop).map(|_| ())),
            refused(shard.settle(Unlisted::Drop, &mut vec![0; 400]).map(|_| ())),
            refused(shard.fragment(4, 0, 0).map(|_| ())),
        ];
        let (all, fragment) = match kind {
            VOLUME => (0, 18),
            MESH => (0, 0),
            _ => (1, 1),
        };
        assert_eq!(answers, [all, all, all, all, all, all, fragment], "{kind}");
        assert_eq!(
            shard.check(),
            answer(shard::check(&specification, 0, &file))
        );
        // 1 goes before all else.
        let nothing = Shard::open(sharding(&specification), 7, &[]);
        let first = if kind > MESH { 1 } else { 5 };
        assert_eq!(nothing.check(), Err(refusal(first)));
        assert_eq!(nothing.fragment(4, 0, 0), Err(refusal(first)));
    }
}

/// A volume lists the manifests where the mesh does, whatever they hold, and
/// has no fragments.
#[test]
fn a_volume_lists_the_same_chunks() {
    let mut rng = Rng::new(80);
    for _ in 0..5_000 {
        let sample = meshes::sound(&mut rng, 8);
        let volume = Sample {
            sharding: meshes::as_volume(&sample.sharding),
            ..sample.clone()
        };
        let [mesh, volume] = [&sample, &volume].map(open);
        let chunks = [mesh, volume].map(|shard| {
            let chunks = shard.chunks().expect("it is sound as both");
            chunks.collect::<Vec<_>>()
        });
        assert_eq!(chunks[0], chunks[1]);
        let (id, level, node) = meshes::question(&mut rng, &sample);
        let absent = volume.lookup(id).and(Err(refusal(18)));
        assert_eq!(volume.lookup_fragment(id, level, node), absent);
        let entries = shard::list(&sample.sharding, sample.number, &sample.file);
        let entries = entries.expect("it is sound");
        let fragments: u64 = entries.iter().map(|entry| entry.fragments).sum();
        let lengths = [mesh, volume].map(|shard| shard.settled_length(Unlisted::Drop));
        assert_eq!(lengths[0], lengths[1].map(|length| length + fragments));
    }
}
