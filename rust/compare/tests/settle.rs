//! Settling: contents known by construction, outputs of every length, forms
//! around the limit, and the case of the paper.

use compare::sides::{answer, sharding};
use coronagamba::{Refusal, Shard, Unlisted};
use reference::settle;
use reference::sharding::Sharding;
use testkit::shards::{self, Content, Difference, Sample};
use testkit::{same_writing, Lent, Rng};

/// Pairs of layouts or contents.
const PAIRS: usize = 10_000;

/// Settles on both sides into an output of this length.
fn same_settling(rng: &mut Rng, sample: &Sample, room: usize) -> Result<usize, Refusal> {
    let Sample {
        sharding: specification,
        number,
        file,
    } = sample;
    same_writing(
        &Lent::new(rng, room),
        |out| Shard::open(sharding(specification), *number, file).settle(Unlisted::Drop, out),
        |out| answer(settle::settle(specification, *number, file, true, out)),
    )
}

/// Asks both for the settled length.
fn same_length(sample: &Sample) -> Result<u64, Refusal> {
    let Sample {
        sharding: specification,
        number,
        file,
    } = sample;
    let expected = answer(settle::length_of(specification, *number, file, true));
    let shard = Shard::open(sharding(specification), *number, file);
    assert_eq!(shard.settled_length(Unlisted::Drop), expected, "{sample:?}");
    expected
}

/// The library's settled form of a layout, which is sound.
fn form(specification: &Sharding, number: u64, layout: &[u8]) -> Vec<u8> {
    Shard::open(sharding(specification), number, layout)
        .settled(Unlisted::Drop)
        .expect("a layout is sound")
}

/// The reference's settled form of this content.
fn expected_form(specification: &Sharding, content: &Content) -> Vec<u8> {
    let listed: Vec<settle::Listed> = content
        .iter()
        .map(|(id, bytes)| (*id, &bytes[..]))
        .collect();
    settle::settled_form(specification, &listed)
}

/// A settled form lists the content and settles to itself.
fn assert_settled(specification: &Sharding, number: u64, form: &[u8], content: &Content) {
    let settled = Shard::open(sharding(specification), number, form);
    assert_eq!(settled.check(), Ok(()));
    for (id, bytes) in content {
        assert_eq!(settled.chunk(*id), Ok(&bytes[..]));
    }
    assert!(settled.settled(Unlisted::Drop).as_deref() == Ok(form));
}

#[test]
fn two_layouts_of_one_content_settle_to_one_form() {
    let mut rng = Rng::new(3);
    let mut pairs = 0;
    while pairs < PAIRS {
        let specification = shards::sharding(&mut rng);
        let number = shards::number(&mut rng, &specification);
        let content = shards::content(&mut rng, &specification, number, 12);
        let layouts = [(); 2].map(|()| shards::lay_out(&mut rng, &specification, &content));
        // Little content often has the same layout twice.
        if layouts[0] == layouts[1] {
            continue;
        }
        let [one, other] = layouts.map(|layout| form(&specification, number, &layout));
        assert!(one == other, "{specification:?} {number} {content:?}");
        assert!(one == expected_form(&specification, &content));
        assert_settled(&specification, number, &one, &content);
        pairs += 1;
    }
}

#[test]
fn contents_that_differ_settle_to_different_forms() {
    let mut rng = Rng::new(5);
    for difference in Difference::ALL {
        let mut pairs = 0;
        while pairs < PAIRS / Difference::ALL.len() {
            let specification = shards::sharding(&mut rng);
            let number = shards::number(&mut rng, &specification);
            let content = shards::content(&mut rng, &specification, number, 12);
            let Some(other) =
                shards::differing(&mut rng, &specification, number, &content, difference)
            else {
                continue;
            };
            let [one, other] = [content, other].map(|content| {
                let layout = shards::lay_out(&mut rng, &specification, &content);
                let form = form(&specification, number, &layout);
                assert!(form == expected_form(&specification, &content));
                form
            });
            assert!(one != other, "{difference:?}");
            pairs += 1;
        }
    }
}

/// Outputs from none at all to a few bytes more than needed; the bytes around
/// them are compared too.
#[test]
fn outputs_of_every_length() {
    let mut rng = Rng::new(6);
    let mut shards = 0;
    while shards < 1_500 {
        let sample = shards::sound(&mut rng, 8);
        let needed = same_length(&sample).expect("the sample is sound") as usize;
        if needed > 500 {
            continue;
        }
        shards += 1;
        for room in 0..=needed + 3 {
            let expected = if room < needed { Err(13) } else { Ok(needed) };
            assert_eq!(same_settling(&mut rng, &sample, room), answer(expected));
        }
    }
}

/// One byte, or a run of them, listed so often that the settled form would
/// pass a gibibyte, just reaches it, or stays below it.
#[test]
fn forms_around_a_gibibyte() {
    const CHUNKS: u64 = 128;
    let gibibyte = 1u64 << 30;
    let specification = coronagamba::Sharding {
        preshift: 0,
        hash: 0,
        minishard_bits: 7,
        shard_bits: 0,
        kind: 0,
    };
    let index_end = 16 * CHUNKS;
    let whole = (gibibyte - index_end - 24 * CHUNKS) / CHUNKS;
    let rest = (gibibyte - index_end - 24 * CHUNKS) % CHUNKS;
    for (more, fits) in [(0, true), (1, false)] {
        // Each minishard lists one chunk, all over the same bytes.
        let sizes: Vec<u64> = (0..CHUNKS)
            .map(|m| whole + if m == 0 { rest + more } else { 0 })
            .collect();
        let data = whole + rest + more;
        let mut file = Vec::new();
        for m in 0..CHUNKS {
            file.extend((data + 24 * m).to_le_bytes());
            file.extend((data + 24 * (m + 1)).to_le_bytes());
        }
        file.resize((index_end + data) as usize, 0x5a);
        for (m, size) in sizes.iter().enumerate() {
            for number in [m as u64, 0, *size] {
                file.extend(number.to_le_bytes());
            }
        }
        let shard = Shard::open(specification, 0, &file);
        assert_eq!(shard.check(), Ok(()));
        let mut out = vec![0; gibibyte as usize + 100];
        if fits {
            assert_eq!(shard.settled_length(Unlisted::Drop), Ok(gibibyte));
            assert_eq!(
                shard.settle(Unlisted::Drop, &mut out),
                Ok(gibibyte as usize)
            );
            assert!(out[gibibyte as usize..].iter().all(|byte| *byte == 0));
        } else {
            assert_eq!(shard.settled_length(Unlisted::Drop).unwrap_err().number, 13);
            assert_eq!(
                shard.settle(Unlisted::Drop, &mut out).unwrap_err().number,
                13
            );
            assert!(out.iter().all(|byte| *byte == 0));
        }
    }
}

#[test]
fn the_case_of_the_paper() {
    let mut rng = Rng::new(4);
    let specification = Sharding {
        preshift: 0,
        hash: 0,
        minishard_bits: 1,
        shard_bits: 0,
        kind: 0,
    };
    let content = [(4, b"ab".to_vec()), (10, b"cde".to_vec())].into();
    let file = shards::lay_out(&mut rng, &specification, &content);
    let shard = Shard::open(sharding(&specification), 0, &file);
    let form = shard.settled(Unlisted::Drop).expect("a layout is sound");
    let row = |numbers: &[u64]| -> Vec<u8> {
        let bytes = numbers.iter().flat_map(|number| number.to_le_bytes());
        bytes.collect()
    };
    let expected = [
        row(&[5, 53, 0, 0]),
        b"abcde".to_vec(),
        row(&[4, 6, 0, 0, 2, 3]),
    ]
    .concat();
    assert_eq!((form.len(), &form), (85, &expected));
    let settled = Shard::open(sharding(&specification), 0, &form);
    let span = settled.lookup(10).expect("id 10 is listed");
    assert_eq!((span.start, span.start + span.length), (34, 37));
    for absent in [6, 7] {
        assert_eq!(settled.lookup(absent).unwrap_err().number, 12);
    }
}
