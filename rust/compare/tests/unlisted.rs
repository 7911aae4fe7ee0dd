//! Unlisted bytes: shards with more than one window of the library's count, a
//! byte at either end, and what comes before 22 and behind it.

use compare::sides::{answer, sharding, unlisted};
use coronagamba::{Refusal, Shard, Unlisted};
use reference::settle;
use reference::sharding::{Sharding, IDENTITY, MESH, VOLUME};
use reference::unlisted::{gaps, unlisted as counted};
use testkit::meshes;
use testkit::shards::{self, Sample};
use testkit::Rng;

/// How many positions the library counts at a time where ranges do not rise.
const WINDOW: u64 = 4_161_536;

/// One shard of this many minishards.
fn minishards(bits: u8, kind: u8) -> Sharding {
    Sharding {
        preshift: 0,
        hash: IDENTITY,
        minishard_bits: bits,
        shard_bits: 0,
        kind,
    }
}

/// Numbers as they stand in a shard.
fn row(numbers: &[u64]) -> Vec<u8> {
    let bytes = numbers.iter().flat_map(|number| number.to_le_bytes());
    bytes.collect()
}

/// Asks both sides for the count and, with both wishes, for the settled length.
fn same_count(specification: &Sharding, number: u64, file: &[u8]) -> Result<u64, Refusal> {
    let shard = Shard::open(sharding(specification), number, file);
    let expected = answer(counted(specification, number, file));
    assert_eq!(shard.unlisted(), expected, "{specification:?} {number}");
    for dropping in [true, false] {
        assert_eq!(
            shard.settled_length(unlisted(dropping)),
            answer(settle::length_of(specification, number, file, dropping))
        );
    }
    expected
}

/// Ranges that begin and end at a window's ends, or a byte or two away, in
/// files of one to three windows.
#[test]
fn ranges_across_the_ends_of_windows() {
    let mut rng = Rng::new(81);
    let (mut none, mut some) = (0, 0);
    for _ in 0..250 {
        let length = (1 + rng.below(3)) * WINDOW + rng.below(200);
        let length = length - rng.below(100);
        let windows = (0..=3).map(|window| window * WINDOW);
        // Groups of positions in a window end here, and words.
        let inner = [64, 4096, 8192, 8256, WINDOW / 2, WINDOW - 4096];
        let mut places: Vec<u64> = windows.filter(|place| *place <= length).collect();
        places.extend((0..rng.below(6)).map(|_| rng.pick(&inner) + WINDOW * rng.below(2)));
        places.retain(|place| *place <= length);
        let Sample {
            sharding: specification,
            number,
            file,
        } = shards::around(&mut rng, length, &places);
        match same_count(&specification, number, &file) {
            Ok(0) => none += 1,
            count => {
                assert!(count.is_ok(), "the shard is sound");
                some += 1;
            }
        }
    }
    assert!(none > 20 && some > 100, "{none} without, {some} with");
}

/// A shard of this length with one minishard, over two chunks that hold all
/// but for one byte: the first one of the data, the last one, or none. The chunks
/// are listed as they stand, or the later one first.
fn two_chunks(length: u64, first: bool, last: bool, turned: bool) -> (Vec<u8>, u64) {
    let data = length - 16;
    let index = data - 48 - u64::from(last);
    let (start, middle) = (u64::from(first), index / 2);
    let rows = if turned {
        let sizes = [index - middle, middle - start];
        [7, 1, middle, start.wrapping_sub(index), sizes[0], sizes[1]]
    } else {
        [7, 1, start, 0, middle - start, index - middle]
    };
    let mut file = vec![0; length as usize];
    file[..16].copy_from_slice(&row(&[index, index + 48]));
    file[16 + index as usize..][..48].copy_from_slice(&row(&rows));
    (file, u64::from(first) + u64::from(last))
}

/// As long as a shard may be, and lengths about the ends of windows.
#[test]
fn a_byte_at_either_end() {
    let lengths = [100, WINDOW + 15, WINDOW + 16, WINDOW + 17, 2 * WINDOW + 16];
    for length in lengths.into_iter().chain([1 << 30]) {
        for ends in 0..4 {
            for turned in [false, true] {
                let (first, last) = (ends & 1 == 1, ends & 2 == 2);
                let (file, expected) = two_chunks(length, first, last, turned);
                let specification = minishards(0, VOLUME);
                let count = same_count(&specification, 0, &file);
                assert_eq!(count, Ok(expected), "{length}, {first}, {last}, {turned}");
            }
        }
    }
}

/// A manifest of one node with a fragment of this size.
fn manifest(size: u64) -> Vec<u8> {
    let mut items = vec![1f32.to_bits(); 6];
    items.extend([1, 0, 0, 0, 0, 1, 0, 0, 0, size as u32]);
    items.iter().flat_map(|item| item.to_le_bytes()).collect()
}

/// Fragments that fill windows before their manifest; a volume of the same
/// bytes does not list them.
#[test]
fn fragments_reach_back_over_windows() {
    for lead in [WINDOW - 64, WINDOW, WINDOW + 1, 2 * WINDOW + 100] {
        for gap in [0, 1, 5000] {
            let (near, far) = (manifest(3), manifest(lead));
            let size = far.len() as u64;
            let front = vec![0; (gap + lead) as usize];
            let data = [&front[..], &far, b"abc", &near].concat();
            let end = data.len() as u64;
            // The later manifest is listed first.
            let second = (gap + lead).wrapping_sub(end);
            let rows = row(&[4, 1, end - size, second, size, size]);
            let file = [row(&[end, end + 48]), data, rows].concat();
            let mesh = minishards(0, MESH);
            assert_eq!(same_count(&mesh, 0, &file), Ok(gap));
            let volume = minishards(0, VOLUME);
            assert_eq!(same_count(&volume, 0, &file), Ok(gap + lead + 3));
        }
    }
}

/// All that the check refuses comes before 22, with the position, and 13 behind
/// it, for an output that is too short and for a form that is too long.
#[test]
fn twenty_two_stands_between() {
    let mut rng = Rng::new(82);
    let two = minishards(1, VOLUME);
    let sound = [
        row(&[5, 53, 0, 0]),
        b"abcde".to_vec(),
        row(&[4, 6, 0, 0, 2, 3]),
    ]
    .concat();
    let more = [&sound[..], b"-"].concat();
    let number = |result: Result<usize, Refusal>| result.map_err(|refusal| refusal.number);
    let settle = |file: &[u8], wish, room: usize| {
        let mut out = vec![7; room];
        let told = Shard::open(sharding(&two), 0, file).settle(wish, &mut out);
        assert!(told.is_ok() || out.iter().all(|byte| *byte == 7));
        number(told)
    };
    for room in [0, 84, 85, 99] {
        let fits = if room < 85 { Err(13) } else { Ok(85) };
        assert_eq!(settle(&more, Unlisted::Refuse, room), Err(22));
        assert_eq!(settle(&more, Unlisted::Drop, room), fits);
        assert_eq!(settle(&sound, Unlisted::Refuse, room), fits);
    }
    // Id 4 twice, and a byte that nothing lists.
    let mut twice = more.clone();
    twice[45..53].fill(0);
    assert_eq!(settle(&twice, Unlisted::Refuse, 0), Err(9));
    for make in [shards::brimming, meshes::brimming] {
        for _ in 0..6 {
            let Sample {
                sharding: specification,
                number: shard,
                mut file,
            } = make(&mut rng);
            same_count(&specification, shard, &file).expect("it is sound");
            file.push(0);
            let long = Shard::open(sharding(&specification), shard, &file);
            assert!(same_count(&specification, shard, &file).is_ok_and(|count| count > 0));
            assert_eq!(number(long.settle(Unlisted::Refuse, &mut [])), Err(22));
            assert_eq!(number(long.settle(Unlisted::Drop, &mut [])), Err(13));
        }
    }
}

/// The gaps add up to the count, and a shard has none exactly where it may be
/// settled with both wishes alike.
#[test]
fn a_form_has_no_gap() {
    let mut rng = Rng::new(83);
    let (mut without, mut with) = (0, 0);
    for _ in 0..4_000 {
        let sample = if rng.once_in(2) {
            shards::sound(&mut rng, 12)
        } else {
            meshes::sound(&mut rng, 6)
        };
        let (specification, file) = (&sample.sharding, &sample.file);
        let gaps = gaps(specification, sample.number, file).expect("it is sound");
        let shard = Shard::open(sharding(specification), sample.number, file);
        let form = shard.settled(Unlisted::Drop).expect("it is short");
        let stopped = shard.settled(Unlisted::Refuse);
        if gaps.is_empty() {
            without += 1;
            assert!(stopped.as_ref() == Ok(&form));
        } else {
            with += 1;
            assert_eq!(stopped.unwrap_err().number, 22);
        }
        let settled = Shard::open(sharding(specification), sample.number, &form);
        assert_eq!(settled.unlisted(), Ok(0));
        assert_eq!(counted(specification, sample.number, &form), Ok(0));
        assert!(settled.settled(Unlisted::Refuse).as_ref() == Ok(&form));
    }
    assert!(
        without > 500 && with > 1_000,
        "{without} without, {with} with"
    );
}
