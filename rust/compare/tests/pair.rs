//! Pairs: shards cut at every place, ranges at and around both ends and the
//! seam, and lengths around a gibibyte.

use compare::sides::{answer, refusal, sharding};
use coronagamba::{Half, Pair, Refusal, Shard, Unlisted};
use reference::pair::{self, Held};
use reference::sharding::{Sharding, IDENTITY, VOLUME};
use testkit::shards::{self, Sample};
use testkit::{meshes, Rng};

/// A sample of any kind that is cut at every place, and so not long.
fn short(rng: &mut Rng) -> Sample {
    loop {
        let sample = if rng.once_in(2) {
            shards::any(rng)
        } else {
            meshes::any(rng)
        };
        if sample.file.len() < 600 {
            return sample;
        }
    }
}

/// All that a pair answers is what the joined file answers.
fn assert_as_joined(sample: &Sample, index: &[u8], data: &[u8], id: u64) {
    let specification = sharding(&sample.sharding);
    let pair = Pair::open(specification, sample.number, index, data);
    let joined = Shard::open(specification, sample.number, &sample.file);
    assert_eq!(pair.check(), joined.check());
    assert_eq!(pair.lookup(id), joined.lookup(id));
    assert_eq!(pair.chunk(id), joined.chunk(id));
    assert_eq!(pair.fragment(id, 0, 0), joined.fragment(id, 0, 0));
    assert_eq!(pair.unlisted(), joined.unlisted());
    for wish in [Unlisted::Refuse, Unlisted::Drop] {
        let length = joined.settled_length(wish);
        assert_eq!(pair.settled_length(wish), length);
        if length.is_ok_and(|length| length < 1 << 20) {
            assert!(pair.settled(wish) == joined.settled(wish));
        }
    }
    for minishard in 0..4 {
        assert_eq!(pair.listed_count(minishard), joined.listed_count(minishard));
        assert_eq!(pair.listing(minishard), joined.listing(minishard));
    }
}

#[test]
fn shards_cut_at_every_place() {
    let mut rng = Rng::new(10);
    let (mut right, mut wrong) = (0, 0);
    for _ in 0..1_500 {
        let sample = short(&mut rng);
        let Sample {
            sharding: of,
            number,
            file,
        } = &sample;
        let id = shards::question(&mut rng, &sample);
        for seam in 0..=file.len() {
            let (index, data) = file.split_at(seam);
            let opened = Pair::open(sharding(of), *number, index, data);
            let checked = opened.check();
            let expected = pair::Pair { index, data }.check(of, *number);
            assert_eq!(checked, answer(expected));
            if of.allowed().is_ok() && seam as u64 == of.index_end() {
                assert_as_joined(&sample, index, data, id);
                right += 1;
            } else if !matches!(checked, Err(refusal) if refusal.number < 6) {
                let refused = Err(refusal(23));
                assert_eq!(checked, refused);
                assert_eq!(opened.unlisted().map(|_| ()), refused);
                assert_eq!(opened.settled_length(Unlisted::Drop).map(|_| ()), refused);
                assert_eq!(opened.listed_count(0).map(|_| ()), refused);
                let range = opened.locate_range(0, 0).map(|_| ());
                assert_eq!(range, refused);
                wrong += 1;
            }
        }
    }
    println!("{right} at the seam, {wrong} elsewhere");
    assert!(right > 500 && wrong > 50_000);
}

#[test]
fn ranges_of_every_start_and_end() {
    let mut rng = Rng::new(11);
    let mut met = [0u32; 3];
    for _ in 0..40 {
        let sample = shards::sound(&mut rng, 3);
        let (of, file) = (&sample.sharding, &sample.file);
        let seam = of.index_end() as usize;
        if file.len() > 400 {
            continue;
        }
        let pair = pair::Pair::cut(file, seam);
        let opened = Pair::open(sharding(of), sample.number, pair.index, pair.data);
        for start in 0..file.len() as u64 + 3 {
            for end in 0..file.len() as u64 + 3 {
                let expected = pair.range(of, start, end);
                let bytes = expected.clone().map(|held| pair.held_bytes(&held));
                let range = opened.range(start, end);
                assert_eq!(range, answer(bytes));
                let located = opened.locate_range(start, end).map(|held| held.file);
                match expected {
                    Ok(Held::Index(_)) => {
                        assert_eq!(located, Ok(Half::Index));
                        met[0] += 1;
                    }
                    Ok(Held::Data(_)) => {
                        assert_eq!(located, Ok(Half::Data));
                        met[1] += 1;
                    }
                    Err(number) => {
                        assert_eq!(number, 24);
                        met[2] += 1;
                    }
                }
                if let Ok(bytes) = range {
                    assert_eq!(bytes, &file[start as usize..end as usize]);
                }
            }
        }
    }
    println!("{met:?} ranges of the index file, of the data file, refused");
    assert!(met.iter().all(|count| *count > 10_000));
}

/// The part handed out is the lent file's own, an empty one too.
#[test]
fn ranges_are_uncopied() {
    let (index, data) = ([0u8; 16], *b"abcde");
    let pair = Pair::open(sharding(&ONE), 0, &index, &data);
    for (start, end) in [(0, 0), (0, 16), (3, 9), (15, 15)] {
        let part = pair.range(start, end).unwrap();
        assert_eq!(part.as_ptr(), index[start as usize..].as_ptr());
    }
    for (start, end) in [(16, 16), (16, 21), (18, 20), (21, 21)] {
        let part = pair.range(start, end).unwrap();
        assert_eq!(part.as_ptr(), data[start as usize - 16..].as_ptr());
    }
    for (start, end) in [(15, 17), (16, 15), (21, 22), (0, u64::MAX), (u64::MAX, 0)] {
        assert_eq!(pair.range(start, end).unwrap_err().number, 24);
    }
}

/// One minishard in one shard.
const ONE: Sharding = Sharding {
    preshift: 0,
    hash: IDENTITY,
    minishard_bits: 0,
    shard_bits: 0,
    kind: VOLUME,
};

#[test]
fn lengths_around_a_gibibyte() {
    let index = [0; 16];
    let data = vec![0; (1 << 30) + 1 - index.len()];
    let number = |answer: Result<(), Refusal>| answer.map_err(|refusal| refusal.number);
    let long = Pair::open(sharding(&ONE), 0, &index, &data);
    assert_eq!(number(long.check()), Err(6));
    assert_eq!(number(long.lookup(0).map(|_| ())), Err(6));
    assert_eq!(number(long.listed_count(0).map(|_| ())), Err(6));
    assert_eq!(number(long.unlisted().map(|_| ())), Err(6));
    assert_eq!(
        number(long.settled_length(Unlisted::Drop).map(|_| ())),
        Err(6)
    );
    assert_eq!(number(long.range(1, 0).map(|_| ())), Err(6));
    // 23 comes before 6, and 6 before 24.
    let short = Pair::open(sharding(&ONE), 0, &index[1..], &data);
    assert_eq!(number(short.check()), Err(23));
    assert_eq!(number(short.range(1, 0).map(|_| ())), Err(23));
    let full = Pair::open(sharding(&ONE), 0, &index, &data[1..]);
    assert_eq!(full.check(), Ok(()));
    assert_eq!(number(full.lookup(0).map(|_| ())), Err(12));
    assert_eq!(full.unlisted(), Ok((1 << 30) - 16));
    assert_eq!(full.range(1 << 30, 1 << 30), Ok(&[][..]));
    assert_eq!(
        number(full.range(1 << 30, (1 << 30) + 1).map(|_| ())),
        Err(24)
    );
}
