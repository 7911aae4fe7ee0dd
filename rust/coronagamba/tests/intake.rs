//! Intake: forms however parts are cut, refusals that change nothing, and states
//! of any numbers.

use coronagamba::intake::{Announced, State, CHUNK_BYTES, MINISHARD_BYTES, WAITING_BYTES};
use coronagamba::{Intake, Refusal, Shard, Sharding, Unlisted};

/// Two shards of two minishards. Of shard 0 the ids 0, 4, 8 .. are in minishard 0,
/// and 1, 5, 9 .. in minishard 1.
const FOUR: Sharding = Sharding {
    preshift: 0,
    hash: Sharding::IDENTITY,
    minishard_bits: 1,
    shard_bits: 1,
    kind: Sharding::VOLUME,
};

/// Numbers as they stand in a shard.
fn row(numbers: &[u64]) -> Vec<u8> {
    let bytes = numbers.iter().flat_map(|number| number.to_le_bytes());
    bytes.collect()
}

/// The settled form of two minishards with these chunks, as the scope lays it out:
/// each minishard's chunks, then its index of id steps, start steps and sizes.
fn settled(minishards: [&[(u64, &[u8])]; 2]) -> Vec<u8> {
    let (mut index, mut data) = (Vec::new(), Vec::new());
    for chunks in minishards {
        let begin = data.len() as u64;
        let (mut ids, mut starts, mut sizes) = (Vec::new(), Vec::new(), Vec::new());
        for (place, (id, bytes)) in chunks.iter().enumerate() {
            ids.push(id - place.checked_sub(1).map_or(0, |before| chunks[before].0));
            starts.push(if place == 0 { begin } else { 0 });
            sizes.push(bytes.len() as u64);
            data.extend(*bytes);
        }
        let start = data.len() as u64;
        data.extend(row(&[ids, starts, sizes].concat()));
        index.extend(match chunks.is_empty() {
            true => [0, 0],
            false => [start, data.len() as u64],
        });
    }
    [row(&index), data].concat()
}

/// Hands over a chunk, cut behind each byte whose bit is set, with an empty part
/// in front.
fn deliver(mut chunk: Announced, bytes: &[u8], cuts: u32) -> Result<(), Refusal> {
    chunk.part(&[])?;
    let mut begin = 0;
    for end in 1..=bytes.len() {
        if end == bytes.len() || cuts >> (end - 1) & 1 == 1 {
            assert_eq!(chunk.owed(), (bytes.len() - begin) as u64);
            chunk.part(&bytes[begin..end])?;
            begin = end;
        }
    }
    assert_eq!(chunk.owed(), 0);
    Ok(())
}

#[test]
fn the_form_of_the_scope() {
    let two = Sharding {
        shard_bits: 0,
        ..FOUR
    };
    let (mut out, mut waiting) = ([7; 85], [7; 2 * WAITING_BYTES]);
    let mut intake = Intake::open(two, 0, &mut out, &mut waiting).expect("room for the index");
    for (id, bytes) in [(4, &b"ab"[..]), (10, b"cde")] {
        let mut chunk = intake.announce(id, bytes.len() as u64).expect("in order");
        chunk.part(bytes).expect("owed");
    }
    let form = intake.close().expect("nothing is owed");
    let rows = row(&[4, 6, 0, 0, 2, 3]);
    assert_eq!(
        form,
        [row(&[5, 53, 0, 0]), b"abcde".to_vec(), rows].concat()
    );
}

/// All cuts of chunks in both minishards, in the first alone, in the second alone,
/// and in none.
#[test]
fn forms_however_parts_are_cut() {
    let first: &[(u64, &[u8])] = &[(0, b"a"), (4, b""), (12, b"bcdefgh")];
    let second: &[(u64, &[u8])] = &[(5, b"ijkl"), (9, b"")];
    for minishards in [[first, second], [first, &[]], [&[], second], [&[], &[]]] {
        let expected = settled(minishards);
        for cuts in 0..1 << 6 {
            // What stood in the buffers does not matter, nor that they are longer.
            for (filling, more) in [(0, 0), (0xff, 9)] {
                let mut out = vec![filling; expected.len() + more];
                let mut waiting = vec![filling; 3 * WAITING_BYTES + more];
                let mut intake = Intake::open(FOUR, 0, &mut out, &mut waiting).expect("opened");
                for (id, bytes) in minishards.concat() {
                    let chunk = intake.announce(id, bytes.len() as u64).expect("announced");
                    deliver(chunk, bytes, cuts).expect("delivered");
                }
                assert_eq!(intake.length(), expected.len() as u64);
                let form = intake.close().expect("closed");
                assert_eq!(form, expected);
                let shard = Shard::open(FOUR, 0, form);
                assert_eq!(shard.check(), Ok(()));
                assert_eq!(shard.settled(Unlisted::Refuse), Ok(expected.clone()));
                assert_eq!(out[expected.len()..], vec![filling; more]);
            }
        }
    }
}

/// The second buffer holds one minishard's ids and sizes, so that room for one
/// chunk is enough where each minishard has one.
#[test]
fn the_second_buffer_is_used_afresh() {
    let sharding = Sharding {
        minishard_bits: 8,
        shard_bits: 0,
        ..FOUR
    };
    let length = 256 * (MINISHARD_BYTES + CHUNK_BYTES + 1);
    let (mut out, mut waiting) = (vec![0; length], [0; WAITING_BYTES]);
    let mut intake = Intake::open(sharding, 0, &mut out, &mut waiting).expect("opened");
    for id in 0..256 {
        let mut chunk = intake.announce(id, 1).expect("announced");
        chunk.part(&[id as u8]).expect("owed");
    }
    let form = intake.close().expect("closed");
    assert_eq!(form.len(), length);
    let shard = Shard::open(sharding, 0, form);
    assert_eq!(shard.check(), Ok(()));
    for id in 0..256 {
        assert_eq!(shard.chunk(id), Ok(&[id as u8][..]));
    }
}

/// Each refusal of the writer in turn, in the midst of a delivery, which goes on
/// as if it had not been.
#[test]
fn a_refused_call_leaves_the_intake_usable() {
    fn announced(intake: &mut Intake, id: u64, size: u64) -> Result<(), u8> {
        let announced = intake.announce(id, size);
        announced.map(|_| ()).map_err(|refusal| refusal.number)
    }
    let expected = settled([&[(4, b"ab")], &[(5, b"c"), (9, b"def")]]);
    let (mut out, mut waiting) = (vec![1; expected.len()], [2; 2 * WAITING_BYTES]);
    let mut intake = Intake::open(FOUR, 0, &mut out, &mut waiting).expect("opened");
    // The id of another shard; more than the output has room for.
    assert_eq!(announced(&mut intake, 2, 0), Err(10));
    assert_eq!(announced(&mut intake, 4, u64::MAX), Err(13));
    assert_eq!(intake.length(), 32);
    assert_eq!(announced(&mut intake, 4, 2), Ok(()));
    // Bytes are owed, of which two would be one too many behind the first.
    assert_eq!(announced(&mut intake, 8, 0), Err(26));
    let mut chunk = intake.owing().expect("bytes are owed");
    chunk.part(b"a").expect("owed");
    assert_eq!(chunk.part(b"bc").unwrap_err().number, 26);
    let not_closed = intake.close().unwrap_err();
    assert_eq!(not_closed.refusal.number, 26);
    assert_eq!(not_closed.to_string(), not_closed.refusal.to_string());
    let mut intake = not_closed.intake;
    intake.owing().expect("one byte").part(b"b").expect("owed");
    // Not above the last id; of a minishard below the open one.
    assert_eq!(announced(&mut intake, 4, 0), Err(25));
    intake.announce(5, 1).expect("ok").part(b"c").expect("owed");
    assert_eq!(announced(&mut intake, 8, 0), Err(25));
    // A byte too many; then room for no third chunk of the minishard.
    assert_eq!(announced(&mut intake, 9, 4), Err(13));
    intake
        .announce(9, 3)
        .expect("ok")
        .part(b"def")
        .expect("owed");
    assert_eq!(announced(&mut intake, 13, 0), Err(13));
    assert_eq!(intake.owed(), 0);
    assert_eq!(intake.close().expect("closed"), expected);
}

/// The state by itself: other lengths, the close, and numbers that no calls leave.
#[test]
fn states() {
    let (mut out, mut waiting) = ([7; 99], [7; 33]);
    let number = |answer: Result<(), Refusal>| answer.map_err(|refusal| refusal.number);
    let mut state = State::open(FOUR, 0, &mut out, &waiting).expect("opened");
    state.announce(5, 2, &mut out, &mut waiting).expect("ok");
    assert_eq!((state.owed(), state.length()), (2, 32 + 24 + 2));
    let before = (state, out, waiting);
    assert_eq!(number(state.part(b"ab", &mut out[1..], &waiting)), Err(30));
    assert_eq!(number(state.part(b"ab", &mut out, &waiting[1..])), Err(30));
    let other = state.announce(9, 0, &mut out[1..], &mut waiting);
    assert_eq!(number(other), Err(30));
    assert_eq!(number(state.close(&mut out, &[]).map(|_| ())), Err(30));
    // Each number by itself made the greatest one: none of them could be left.
    for place in 0..state.numbers.len() {
        let mut forged = state;
        forged.numbers[place] = u64::MAX;
        let kept = forged;
        let lengths = [6, 7].contains(&place);
        let expected = if lengths { Err(30) } else { Err(25) };
        assert_eq!(number(forged.part(b"a", &mut out, &waiting)), expected);
        assert_eq!(
            number(forged.close(&mut out, &waiting).map(|_| ())),
            expected
        );
        assert_eq!(forged, kept);
        let _ = (forged.length(), forged.owed());
    }
    // More came than the only chunk has: 2 bytes of 4 would be unlisted.
    let mut forged = state;
    forged.numbers[12..14].copy_from_slice(&[4, 0]);
    let answer = forged.close(&mut out, &waiting).map(|_| ());
    assert_eq!(number(answer), Err(25));
    assert_eq!((state, out, waiting), before);

    state.part(b"ab", &mut out, &waiting).expect("owed");
    assert_eq!(state.close(&mut out, &waiting), Ok(58));
    let before = (state, out, waiting);
    assert_eq!(number(state.part(&[], &mut out, &waiting)), Err(25));
    assert_eq!(number(state.close(&mut out, &waiting).map(|_| ())), Err(25));
    let after = state.announce(9, 0, &mut out, &mut waiting);
    assert_eq!(number(after), Err(25));
    assert_eq!((state, out, waiting), before);
    assert_eq!(out[..58], settled([&[], &[(5, b"ab")]]));
}
