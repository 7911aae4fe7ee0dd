//! Each refusal of the table, met by a call, with its sentence.

use coronagamba::intake::State;
use coronagamba::{
    Card, Half, Held, Intake, LabelBits, LabelShape, Labels, Manifest, Pair, Refusal, Shard,
    Sharding, Sheet, Span, Unlisted, Volume,
};
use std::error::Error;

/// Two minishards, one shard.
const TWO: Sharding = Sharding {
    preshift: 0,
    hash: Sharding::IDENTITY,
    minishard_bits: 1,
    shard_bits: 0,
    kind: Sharding::VOLUME,
};
/// The same of a mesh.
const MESH: Sharding = Sharding {
    kind: Sharding::MESH,
    ..TWO
};

/// The numbers of faults in a minishard: all come with a position.
const FAULTS: [u8; 9] = [7, 8, 9, 10, 11, 15, 16, 17, 21];

/// Numbers as they stand in a shard.
fn row(numbers: &[u64]) -> Vec<u8> {
    let bytes = numbers.iter().flat_map(|number| number.to_le_bytes());
    bytes.collect()
}

/// Items as they stand in a manifest.
fn items(items: &[u32]) -> Vec<u8> {
    let bytes = items.iter().flat_map(|item| item.to_le_bytes());
    bytes.collect()
}

/// A shard of two minishards, of which the second lists these rows behind five
/// chunk bytes, from byte 37 on.
fn second(entry: [u64; 2], rows: &[u64]) -> Vec<u8> {
    let [start, end] = entry;
    [row(&[0, 0, start, end]), b"abcde".to_vec(), row(rows)].concat()
}

/// A mesh shard of two minishards, of which the second lists two manifests under
/// ids 5 and 11, each behind so many bytes: a sound one, then this one. And where
/// the start step of an entry stands.
fn second_mesh(manifest: Vec<u8>, lead: u64, entry: u64) -> (Vec<u8>, u64) {
    let sound = self::manifest(1.0, [0, 1]);
    let (first, second) = (sound.len() as u64, manifest.len() as u64);
    let before = vec![b'-'; lead as usize];
    let data = [&before[..], &sound, &before, &manifest].concat();
    let end = data.len() as u64;
    let rows = row(&[5, 6, lead, lead, first, second]);
    let file = [row(&[0, 0, end, end + 48]), data, rows].concat();
    (file, 32 + end + 16 + 8 * entry)
}

/// A shard whose second minishard has the fault of this number, and where.
fn faulty(number: u8) -> (Vec<u8>, u64) {
    let whole = [5, 53];
    match number {
        7 => (second([53, 5], &[5, 6, 0, 0, 2, 3]), 16),
        8 => (second([5, 52], &[5, 6, 0, 0, 2, 3]), 16),
        9 => (second(whole, &[5, 0, 0, 0, 2, 3]), 45),
        10 => (second(whole, &[5, 5, 0, 0, 2, 3]), 45),
        11 => (second(whole, &[5, 6, 0, 0, 2, 52]), 61),
        15 => second_mesh(manifest(1.0, [0, 1])[1..].to_vec(), 10, 1),
        16 => second_mesh(manifest(0.0, [0, 1]), 10, 1),
        17 => second_mesh(manifest(1.0, [1, 0]), 10, 1),
        // Fragments of 10 bytes, and room for 9.
        21 => second_mesh(manifest(1.0, [0, 1]), 9, 0),
        _ => panic!("{number} is no fault of a minishard"),
    }
}

/// The shard of [`faulty`], of the kind that can have the fault.
fn faulty_shard(number: u8, file: &[u8]) -> Shard<'_> {
    let sharding = if number > 11 { MESH } else { TWO };
    Shard::open(sharding, 0, file)
}

/// The same shard in two files, cut behind its shard index of 32 bytes.
fn faulty_pair(number: u8, file: &[u8]) -> Pair<'_> {
    let shard = faulty_shard(number, file);
    let (index, data) = file.split_at(32);
    Pair::open(shard.sharding(), shard.number(), index, data)
}

/// A manifest of one level with two nodes at these x positions, each with a
/// fragment of 5 bytes.
fn manifest(shape: f32, x: [u32; 2]) -> Vec<u8> {
    let [first, second] = x;
    let shape = shape.to_bits();
    let head = [shape, shape, shape, 0, 0, 0, 1, 0, 0, 0, 0, 2];
    items(&[&head[..], &[first, second, 0, 0, 0, 0, 5, 5]].concat())
}

/// Calls of an intake with room for two chunks of a minishard.
fn intake(calls: impl Fn(&mut Intake) -> Result<(), Refusal>) -> Result<(), Refusal> {
    let (mut out, mut waiting) = ([0; 99], [0; 32]);
    calls(&mut Intake::open(TWO, 0, &mut out, &mut waiting)?)
}

/// Asks for the one label of a chunk of these words.
fn label(words: &[u32]) -> Result<(), Refusal> {
    let shape = LabelShape::new([1; 3], [1; 3], 1, LabelBits::B32);
    let chunk = items(words);
    Labels::open(shape, &chunk).label(0, 0, 0, 0).map(|_| ())
}

/// A call that gives the refusal of this number.
fn refused(number: u8) -> Refusal {
    let grid = |size: [u32; 3]| Volume::new(size, [1; 3], [0; 3]);
    let answer = match number {
        1 => Sharding {
            preshift: 64,
            ..TWO
        }
        .allowed(),
        2 => grid([5, 3, 1]).key([5, 0, 0].into()).map(|_| ()),
        3 => grid([1 << 22, 1 << 22, 1 << 21])
            .key([0; 3].into())
            .map(|_| ()),
        4 => grid([5, 3, 1]).cell(20).map(|_| ()),
        5 => Shard::open(TWO, 1, &[0; 32]).check(),
        6 => Shard::open(TWO, 0, &[0; 31]).check(),
        7..=11 | 21 => faulty_shard(number, &faulty(number).0).check(),
        12 => Shard::open(TWO, 0, &[0; 32]).chunk(6).map(|_| ()),
        13 => Shard::open(TWO, 0, &[0; 32])
            .settle(Unlisted::Refuse, &mut [0; 31])
            .map(|_| ()),
        14 => Card::read(&[]).map(|_| ()),
        15 => Manifest::open(&[0; 27]).check(),
        16 => Manifest::open(&manifest(0.0, [0, 1])).check(),
        17 => Manifest::open(&manifest(1.0, [1, 0])).check(),
        18 => Manifest::open(&manifest(1.0, [0, 1]))
            .node(0, 2)
            .map(|_| ()),
        19 => Card::read_info(b"{", 0).map(|_| ()),
        20 => Card::read_info(b"{}", 0).map(|_| ()),
        22 => Shard::open(TWO, 0, &[0; 33])
            .settled_length(Unlisted::Refuse)
            .map(|_| ()),
        23 => Pair::open(TWO, 0, &[0; 33], &[]).check(),
        24 => Pair::open(TWO, 0, &[0; 32], &[0; 4])
            .range(31, 33)
            .map(|_| ()),
        25 => intake(|intake| {
            intake.announce(5, 0)?;
            intake.announce(5, 0).map(|_| ())
        }),
        26 => intake(|intake| intake.announce(5, 2)?.part(b"abc")),
        27 => Sheet::from_rows([u64::MAX; 17]).add(&Shard::open(TWO, 0, &[0; 32])),
        28 => label(&[1, 2, 0]),
        29 => label(&[1, 3 << 24, 0]),
        30 => {
            let mut out = [0; 32];
            let opened = State::open(TWO, 0, &mut out, &[]);
            opened.and_then(|mut state| state.part(&[], &mut out, &[0]))
        }
        33 => Shard::open(TWO, 0, &[]).listing(2).map(|_| ()),
        _ => panic!("no call of these tests gives {number}"),
    };
    answer.expect_err("the call refuses")
}

#[test]
fn each_number_is_given_and_has_its_sentence() {
    for number in Refusal::numbers() {
        let refusal = refused(number);
        assert_eq!(refusal.number, number);
        assert_eq!(Refusal::meaning(number), Some(refusal.sentence()));
    }
    assert_eq!(refused(12).sentence(), "The id is not listed.");
}

#[test]
fn the_check_names_a_minishard_and_a_position_with_its_faults() {
    for number in FAULTS {
        let (file, position) = faulty(number);
        let refusal = faulty_shard(number, &file).check().unwrap_err();
        assert_eq!(refusal.number, number);
        assert_eq!(refusal.minishard, Some(1));
        assert_eq!(refusal.position, Some(position));
        let sentence = refusal.sentence();
        let place = format!("The fault is in minishard 1, at byte {position}.");
        assert_eq!(
            refusal.to_string(),
            format!("refused {number}: {sentence} {place}")
        );
    }
}

/// 15 to 17 of a manifest by itself among them.
#[test]
fn nothing_else_names_a_place() {
    let others = |number: &u8| !(7..=11).contains(number) && *number != 21;
    for number in Refusal::numbers().filter(others) {
        let refusal = refused(number);
        assert_eq!((refusal.minishard, refusal.position), (None, None));
        let shown = format!("refused {number}: {}", refusal.sentence());
        assert_eq!(refusal.to_string(), shown);
    }
}

/// A volume's chunks are any bytes, and a mesh's fragments must have room.
#[test]
fn a_volume_is_not_judged_by_manifests() {
    for number in [15, 16, 17, 21] {
        let (file, _) = faulty(number);
        let shard = Shard::open(TWO, 0, &file);
        assert_eq!(shard.check(), Ok(()));
        assert_eq!(shard.listed_count(1), Ok(2));
        assert_eq!(shard.chunk(5), Ok(&manifest(1.0, [0, 1])[..]));
        assert_eq!(shard.fragment(5, 0, 0).unwrap_err().number, 18);
    }
}

#[test]
fn fragments() {
    let (file, _) = second_mesh(manifest(1.0, [2, 3]), 10, 0);
    let shard = Shard::open(MESH, 0, &file);
    assert_eq!(shard.check(), Ok(()));
    // Manifests of 80 bytes; the second one's fragments begin behind the first.
    for (id, first) in [(5, 32), (11, 32 + 90)] {
        for node in 0..2 {
            let span = Span {
                start: first + 5 * node,
                length: 5,
            };
            assert_eq!(shard.lookup_fragment(id, 0, node), Ok(span));
            assert_eq!(shard.fragment(id, 0, node), Ok(&b"-----"[..]));
        }
        for (level, node) in [(0, 2), (1, 0), (0, u64::MAX), (1 << 32, 0)] {
            let refusal = shard.fragment(id, level, node).unwrap_err();
            assert_eq!(refusal.number, Refusal::NO_SUCH_NODE);
        }
    }
    assert_eq!(shard.fragment(7, 0, 0).unwrap_err().number, 12);
    assert_eq!(shard.fragment(4, 9, 9).unwrap_err().number, 12);
    let form = shard.settled(Unlisted::Refuse);
    assert_eq!(form.map(|form| form == file), Ok(true));
}

/// All calls that read a shard pass the position on; the check and the measure
/// alone name the minishard.
#[test]
fn each_call_passes_the_position_on() {
    for number in FAULTS {
        let (file, position) = faulty(number);
        let shard = faulty_shard(number, &file);
        let told = Refusal {
            number,
            minishard: None,
            position: Some(position),
        };
        let checked = Refusal {
            minishard: Some(1),
            ..told
        };
        assert_eq!(shard.check(), Err(checked));
        assert_eq!(shard.measure(), Err(checked));
        assert_eq!(shard.chunks().map(|_| ()), Err(checked));
        assert_eq!(shard.lookup(5), Err(told));
        assert_eq!(shard.chunk(5), Err(told));
        assert_eq!(shard.lookup_fragment(5, 0, 0), Err(told));
        assert_eq!(shard.fragment(5, 9, 9), Err(told));
        assert_eq!(shard.listed_count(1), Err(told));
        assert_eq!(shard.write_listing(1, &mut []), Err(told));
        assert_eq!(shard.listing(1), Err(told));
        assert_eq!(shard.unlisted(), Err(told));
        for unlisted in [Unlisted::Refuse, Unlisted::Drop] {
            assert_eq!(shard.settled_length(unlisted), Err(told));
            assert_eq!(shard.settle(unlisted, &mut []), Err(told));
            assert_eq!(shard.settled(unlisted), Err(told));
        }
        let shown = format!("The fault is at byte {position}.");
        assert!(told.to_string().ends_with(&shown));
        // The first minishard is sound, and empty.
        assert_eq!(shard.lookup(4).unwrap_err().number, 12);
        assert_eq!(shard.listed_count(0), Ok(0));
    }
}

/// A pair's calls are refused as those of the joined file, byte for byte.
#[test]
fn a_pair_is_refused_as_the_joined_file() {
    for number in FAULTS {
        let (file, _) = faulty(number);
        let (pair, shard) = (faulty_pair(number, &file), faulty_shard(number, &file));
        assert_eq!(pair.check(), shard.check());
        assert!(pair.check().is_err_and(|told| told.number == number));
        let [of_pair, of_shard] = [pair.chunks().err(), shard.chunks().err()];
        assert_eq!(of_pair, of_shard);
        for id in [4, 5, 7] {
            assert_eq!(pair.lookup(id), shard.lookup(id));
            assert_eq!(pair.chunk(id), shard.chunk(id));
            assert_eq!(
                pair.lookup_fragment(id, 0, 0),
                shard.lookup_fragment(id, 0, 0)
            );
            assert_eq!(pair.fragment(id, 0, 0), shard.fragment(id, 0, 0));
        }
        for minishard in 0..3 {
            assert_eq!(pair.listed_count(minishard), shard.listed_count(minishard));
            assert_eq!(pair.listing(minishard), shard.listing(minishard));
        }
        assert_eq!(pair.unlisted(), shard.unlisted());
        assert_eq!(pair.measure(), shard.measure());
        for unlisted in [Unlisted::Refuse, Unlisted::Drop] {
            assert_eq!(
                pair.settled_length(unlisted),
                shard.settled_length(unlisted)
            );
            assert_eq!(pair.settled(unlisted), shard.settled(unlisted));
        }
    }
}

/// 23 comes behind 1 and 5, in a listing behind 33, before 6, and in each call.
#[test]
fn an_index_file_of_another_length() {
    let number = |answer: Result<(), Refusal>| answer.map_err(|refusal| refusal.number);
    let long = vec![0; 1 << 30];
    for index in [&[][..], &[0; 31], &[0; 33]] {
        for data in [&[][..], &[0; 99], &long] {
            let pair = Pair::open(TWO, 0, index, data);
            assert_eq!(number(pair.check()), Err(23));
            assert_eq!(number(pair.chunk(4).map(|_| ())), Err(23));
            assert_eq!(number(pair.fragment(4, 0, 0).map(|_| ())), Err(23));
            assert_eq!(number(pair.listing(0).map(|_| ())), Err(23));
            assert_eq!(number(pair.listing(2).map(|_| ())), Err(33));
            assert_eq!(number(pair.chunks().map(|_| ())), Err(23));
            assert_eq!(number(pair.unlisted().map(|_| ())), Err(23));
            assert_eq!(number(pair.measure().map(|_| ())), Err(23));
            assert_eq!(number(pair.settled(Unlisted::Drop).map(|_| ())), Err(23));
            assert_eq!(number(pair.range(9, 3).map(|_| ())), Err(23));
            let pair = Pair::open(TWO, 1, index, data);
            assert_eq!(number(pair.check()), Err(5));
            // A range belongs to no shard number.
            assert_eq!(number(pair.range(0, 0).map(|_| ())), Err(23));
            let spec = Sharding { hash: 2, ..TWO };
            let pair = Pair::open(spec, 1, index, data);
            assert_eq!(number(pair.check()), Err(1));
            assert_eq!(number(pair.range(0, 0).map(|_| ())), Err(1));
        }
    }
    let pair = Pair::open(TWO, 0, &[0; 32], &long);
    assert_eq!(number(pair.check()), Err(6));
    assert_eq!(number(pair.range(9, 3).map(|_| ())), Err(6));
}

/// Every range of a small pair: the bytes are the file's own, and where they are
/// is told.
#[test]
fn ranges() {
    let (index, data): (Vec<u8>, Vec<u8>) = ((0..32).collect(), (32..37).collect());
    let joined = [&index[..], &data].concat();
    let pair = Pair::open(TWO, 0, &index, &data);
    for start in 0..40 {
        for end in 0..40 {
            let crosses = start < 32 && end > 32;
            let told = pair.range(start, end).map_err(|refusal| refusal.number);
            if crosses || start > end || end > 37 {
                assert_eq!(told, Err(24), "{start} {end}");
                continue;
            }
            let bytes = &joined[start as usize..end as usize];
            assert_eq!(told, Ok(bytes), "{start} {end}");
            let (file, start) = match start < 32 {
                true => (Half::Index, start),
                false => (Half::Data, start - 32),
            };
            let length = bytes.len() as u64;
            let held = Held {
                file,
                start,
                length,
            };
            assert_eq!(pair.locate_range(end - length, end), Ok(held));
        }
    }
    for (start, end) in [(0, u64::MAX), (u64::MAX, u64::MAX), (u64::MAX, 0)] {
        assert_eq!(pair.range(start, end).unwrap_err().number, 24);
    }
    // Uncopied, also where there is nothing to copy.
    let seam = pair.range(32, 32).unwrap();
    assert_eq!(seam.as_ptr(), data.as_ptr());
    assert_eq!(pair.range(37, 37).unwrap().as_ptr(), data[5..].as_ptr());
    assert_eq!(pair.range(31, 32).unwrap().as_ptr(), index[31..].as_ptr());
}

/// The chunks of a sound pair are parts of its data file.
#[test]
fn chunks_of_a_pair() {
    let file = second([5, 53], &[5, 6, 0, 0, 2, 3]);
    let (index, data) = file.split_at(32);
    let pair = Pair::open(TWO, 0, index, data);
    assert_eq!((pair.index(), pair.data()), (index, data));
    assert_eq!((pair.sharding(), pair.number()), (TWO, 0));
    let all = |chunks: Result<coronagamba::Chunks<'_>, Refusal>| -> Vec<_> {
        let of_chunk = |chunk: coronagamba::Chunk| (chunk.id, chunk.span, chunk.bytes.as_ptr());
        chunks.unwrap().map(of_chunk).collect()
    };
    // The files lie one behind the other here, so that the places are the same.
    assert_eq!(all(pair.chunks()), all(Shard::open(TWO, 0, &file).chunks()));
    assert_eq!(pair.chunk(11), Ok(&b"cde"[..]));
    assert_eq!(pair.settled(Unlisted::Refuse), Ok(file.clone()));
    let mut out = [7; 86];
    assert_eq!(pair.settle(Unlisted::Refuse, &mut out), Ok(85));
    assert_eq!((&out[..85], out[85]), (&file[..], 7));
}

#[test]
fn the_untouched_shard_and_manifest_are_sound() {
    let sound = second([5, 53], &[5, 6, 0, 0, 2, 3]);
    assert_eq!(Shard::open(TWO, 0, &sound).check(), Ok(()));
    let (sound, _) = second_mesh(manifest(1.0, [0, 1]), 10, 0);
    assert_eq!(Shard::open(MESH, 0, &sound).check(), Ok(()));
    assert_eq!(Manifest::open(&manifest(1.0, [0, 1])).check(), Ok(()));
}

#[test]
fn a_refusal_is_an_error() {
    let error: Box<dyn Error + Send + Sync> = refused(14).into();
    assert_eq!(error.to_string(), "refused 14: The card is malformed.");
    assert!(error.source().is_none());
}

/// Shards and manifests may be handed to other threads.
#[test]
fn values_go_between_threads() {
    fn is_shared<T: Send + Sync>() {}
    is_shared::<Refusal>();
    is_shared::<Card>();
    is_shared::<Shard>();
    is_shared::<Pair>();
    is_shared::<Sheet>();
    is_shared::<coronagamba::Chunks>();
    is_shared::<Manifest>();
    is_shared::<coronagamba::manifest::Nodes>();
    is_shared::<Intake>();
    is_shared::<State>();
    is_shared::<Labels>();
}
