//! Intake: every refusal at every step, the room to the byte, pairs that were
//! changed, and 1 GiB.

use coronagamba::intake::State;
use coronagamba::{Refusal, Shard, Sharding, Unlisted};
use reference::intake::{Call, Numbers};
use reference::settle::settled_form;
use testkit::{Lent, Rng};

/// Two shards of four minishards each; an id's lowest bits are its minishard.
const SHARDING: Sharding = Sharding {
    preshift: 0,
    hash: Sharding::IDENTITY,
    minishard_bits: 2,
    shard_bits: 1,
    kind: Sharding::VOLUME,
};

/// The chunks of shard 0 in the order of delivery: minishards 0 and 2, and none
/// of 1 and 3; two of them empty.
const CHUNKS: [(u64, &[u8]); 5] = [
    (0, b""),
    (8, b"abcde"),
    (16, b"fg"),
    (2, b"hijk"),
    (10, b""),
];

/// The second buffer for the three chunks of minishard 0.
const WAITING: usize = 48;

fn form() -> Vec<u8> {
    let sharding = reference::sharding::Sharding {
        preshift: 0,
        hash: 0,
        minishard_bits: 2,
        shard_bits: 1,
        kind: 0,
    };
    settled_form(&sharding, &CHUNKS)
}

/// A call of a run.
#[derive(Clone, Copy, Debug)]
enum Step {
    Announce(u64, u64),
    Part(&'static [u8]),
    Close,
}

/// The run that delivers the chunks, each byte for itself.
fn steps() -> Vec<Step> {
    let chunk = |(id, bytes): (u64, &'static [u8])| {
        let announced = Step::Announce(id, bytes.len() as u64);
        let parts = bytes.chunks(1).map(Step::Part);
        std::iter::once(announced).chain(parts)
    };
    let delivered = CHUNKS.into_iter().flat_map(chunk);
    delivered.chain([Step::Close]).collect()
}

/// An intake with its buffers.
#[derive(Clone, PartialEq)]
struct Desk {
    state: State,
    out: Lent,
    waiting: Lent,
}

impl Desk {
    fn open(out: usize, waiting: usize) -> Result<Desk, Refusal> {
        let mut rng = Rng::new(1);
        let (mut out, waiting) = (Lent::new(&mut rng, out), Lent::new(&mut rng, waiting));
        let state = State::open(SHARDING, 0, out.part(), waiting.held())?;
        Ok(Desk {
            state,
            out,
            waiting,
        })
    }

    /// Takes a step with so many bytes fewer of each buffer.
    fn step(&mut self, step: Step, [cut, cut_waiting]: [usize; 2]) -> Result<usize, Refusal> {
        let out = &mut self.out.part()[cut..];
        let waiting = &mut self.waiting.part()[cut_waiting..];
        match step {
            Step::Announce(id, size) => self.state.announce(id, size, out, waiting).map(|()| 0),
            Step::Part(bytes) => self.state.part(bytes, out, waiting).map(|()| 0),
            Step::Close => self.state.close(out, waiting),
        }
    }

    /// The step is refused with this number, and changes neither the state nor a
    /// byte in or around the buffers.
    fn refuses(&mut self, number: u8, step: Step, cuts: [usize; 2]) {
        let before = self.clone();
        let answer = self.step(step, cuts);
        let told = answer.map_err(|refusal| (refusal.number, refusal.position));
        assert_eq!(told, Err((number, None)), "{step:?}, {cuts:?}");
        assert!(
            *self == before,
            "{step:?} was refused, but changed something"
        );
    }
}

/// Tries what each call may refuse, in its order: where two refusals hold, the
/// earlier one comes.
fn refuse_all(desk: &mut Desk, announced: Option<u64>) {
    let longer: &[u8] = &[7; 9];
    for cuts in [[1, 0], [0, 1], [1, 1]] {
        // Another shard, out of order and too long.
        desk.refuses(30, Step::Announce(4, u64::MAX), cuts);
        desk.refuses(30, Step::Part(longer), cuts);
        desk.refuses(30, Step::Part(b""), cuts);
        desk.refuses(30, Step::Close, cuts);
    }
    desk.refuses(10, Step::Announce(4, u64::MAX), [0, 0]);
    if let Some(id) = announced {
        desk.refuses(25, Step::Announce(id, u64::MAX), [0, 0]);
    }
    desk.refuses(26, Step::Part(longer), [0, 0]);
    // The last id that may come: of minishard 3.
    let last = u64::MAX - 4;
    if desk.state.owed() > 0 {
        desk.refuses(26, Step::Announce(last, u64::MAX), [0, 0]);
        desk.refuses(26, Step::Close, [0, 0]);
    } else {
        desk.refuses(13, Step::Announce(last, u64::MAX), [0, 0]);
    }
}

#[test]
fn every_refusal_at_every_step() {
    let form = form();
    let mut desk = Desk::open(form.len(), WAITING).expect("there is room");
    let mut announced = None;
    for step in steps() {
        refuse_all(&mut desk, announced);
        // A chunk that is a byte too long for what is left, and one that fits it.
        if let (Step::Announce(id, _), 0) = (step, desk.state.owed()) {
            let left = form.len() as u64 - desk.state.length();
            desk.refuses(13, Step::Announce(id, left - 23), [0, 0]);
            let mut other = desk.clone();
            assert_eq!(other.step(Step::Announce(id, left - 24), [0, 0]), Ok(0));
        }
        let answer = desk.step(step, [0, 0]);
        if let Step::Announce(id, _) = step {
            announced = Some(id);
        }
        let told = if matches!(step, Step::Close) {
            form.len()
        } else {
            0
        };
        assert_eq!(answer, Ok(told), "{step:?}");
    }
    assert!(desk.out.held() == form);
    for step in [Step::Announce(18, 0), Step::Part(b""), Step::Close] {
        desk.refuses(25, step, [0, 0]);
        desk.refuses(30, step, [1, 0]);
    }
    desk.refuses(10, Step::Announce(4, 0), [0, 0]);
}

/// With an output and a second buffer of every length, the run goes as far as
/// the form of what was announced and the pairs of a minishard have room.
#[test]
fn room_to_the_byte() {
    let form = form();
    let rooms = [0, 15, 16, 31, 47, WAITING, WAITING + 1];
    for (out, waiting) in (0..=form.len() + 1).flat_map(|out| rooms.map(|room| (out, room))) {
        let Ok(mut desk) = Desk::open(out, waiting) else {
            assert!(out < 64);
            continue;
        };
        let (mut needed, mut mates) = (64, [0; 4]);
        let mut closed = false;
        for step in steps() {
            if let Step::Announce(id, size) = step {
                needed += 24 + size as usize;
                mates[id as usize % 4] += 16;
                if needed > out || mates[id as usize % 4] > waiting {
                    desk.refuses(13, step, [0, 0]);
                    break;
                }
            }
            desk.step(step, [0, 0]).expect("there is room");
            closed = matches!(step, Step::Close);
        }
        assert_eq!(closed, out >= form.len() && waiting >= WAITING);
        if !closed {
            // What came before stands, and can be closed.
            let length = desk.state.length() as usize;
            assert_eq!(desk.step(Step::Close, [0, 0]), Ok(length));
            let shard = Shard::open(SHARDING, 0, &desk.out.held()[..length]);
            assert_eq!(shard.settled_length(Unlisted::Refuse), Ok(length as u64));
        }
    }
}

/// However the parts are cut, the output begins with what settling makes of a
/// shard that lists the same.
#[test]
fn any_cut() {
    let form = form();
    let settled = Shard::open(SHARDING, 0, &form).settled(Unlisted::Refuse);
    assert_eq!(settled.as_ref(), Ok(&form));
    // The eleven bytes are cut where a bit says so.
    for cuts in 0..1u32 << 11 {
        let mut desk = Desk::open(form.len() + 3, WAITING + 1).expect("there is room");
        let mut byte = 0;
        for (id, bytes) in CHUNKS {
            let announced = Step::Announce(id, bytes.len() as u64);
            desk.step(announced, [0, 0]).expect("there is room");
            let mut from = 0;
            for to in 1..=bytes.len() {
                if to == bytes.len() || cuts >> byte & 1 == 1 {
                    desk.step(Step::Part(&bytes[from..to]), [0, 0])
                        .expect("they are owed");
                    from = to;
                }
                byte += 1;
            }
        }
        assert_eq!(desk.step(Step::Close, [0, 0]), Ok(form.len()));
        assert!(desk.out.held()[..form.len()] == form);
    }
}

/// Four pairs of zeros before one of id 4, which no calls leave: a shard made of
/// them would be refused with 9. The close sees them, and an announcement that
/// ends the minishard; a part and an announcement in it look at the last pair.
#[test]
fn zeros_before_the_last_pair() {
    let sharding = Sharding {
        minishard_bits: 1,
        shard_bits: 0,
        ..SHARDING
    };
    let mut rng = Rng::new(1);
    let (mut out, mut waiting) = (Lent::new(&mut rng, 200), Lent::new(&mut rng, 96));
    let state = State::open(sharding, 0, out.part(), waiting.held()).expect("there is room");
    let mut desk = Desk {
        state,
        out,
        waiting: {
            waiting.part().fill(0);
            waiting.part()[64] = 4;
            waiting
        },
    };
    desk.state.numbers[9..11].copy_from_slice(&[5, 4]);
    assert_eq!(desk.state.length(), 152);
    desk.refuses(25, Step::Close, [0, 0]);
    desk.refuses(25, Step::Announce(1, 0), [0, 0]);
    assert_eq!(desk.step(Step::Part(b""), [0, 0]), Ok(0));
    assert_eq!(desk.step(Step::Announce(6, 0), [0, 0]), Ok(0));
    desk.refuses(25, Step::Close, [0, 0]);
}

/// Changes a pair of those that wait, or two: an id, a size, a byte from one size
/// to another, or their order.
fn change(rng: &mut Rng, pairs: &mut [[u64; 2]]) {
    let (one, other) = (rng.index(pairs.len()), rng.index(pairs.len()));
    let near = [1, 4, 8, 16][rng.index(4)];
    match rng.below(8) {
        0 => pairs[one][0] = pairs[other][0],
        1 => pairs[one][0] = pairs[one][0].wrapping_add(near),
        2 => pairs[one][0] = pairs[one][0].wrapping_sub(near),
        3 => pairs[one][1] = pairs[one][1].wrapping_add(1),
        4 => pairs[one][1] = rng.edge_u64(),
        5 if pairs[one][1] > 0 => {
            pairs[one][1] -= 1;
            pairs[other][1] = pairs[other][1].wrapping_add(1);
        }
        6 => pairs.swap(one, other),
        _ => {}
    }
}

/// Pairs that were changed since they were announced. The answer and what is left
/// are the reference's, which announces the pairs anew; and what a close takes
/// passes the check.
#[test]
fn changed_pairs() {
    const BYTES: &[u8] = &[7; 4];
    let mut rng = Rng::new(11);
    // Closes, and announcements in another minishard, that were taken and not.
    let mut met = [[0; 2]; 2];
    for _ in 0..6000 {
        let mut desk = Desk::open(500, 8 * 16).expect("there is room");
        let (mut id, count) = (0, 1 + rng.index(7));
        for _ in 0..count {
            let rest = &BYTES[..desk.state.owed() as usize];
            desk.step(Step::Part(rest), [0, 0]).expect("it is owed");
            id += 8 * (1 + rng.below(3));
            let announced = Step::Announce(id, rng.below(5));
            desk.step(announced, [0, 0]).expect("there is room");
        }
        let most = desk.state.owed() as usize;
        let came = if rng.once_in(6) {
            rng.index(most + 1)
        } else {
            most
        };
        desk.step(Step::Part(&BYTES[..came]), [0, 0])
            .expect("it is owed");
        let held = &mut desk.waiting.part()[..16 * count];
        let word = |at: usize| u64::from_le_bytes(held[at..at + 8].try_into().expect("8 bytes"));
        let mut pairs: Vec<[u64; 2]> = (0..count)
            .map(|i| [word(16 * i), word(16 * i + 8)])
            .collect();
        for _ in 0..rng.below(3) {
            change(&mut rng, &mut pairs);
        }
        let bytes: Vec<u8> = pairs
            .iter()
            .flatten()
            .flat_map(|n| n.to_le_bytes())
            .collect();
        held.copy_from_slice(&bytes);

        let steps = [
            Step::Close,
            Step::Announce(2, rng.below(3)),
            Step::Announce(id + 8, 0),
            Step::Part(b""),
        ];
        for (place, step) in steps.into_iter().enumerate() {
            let mut after = desk.clone();
            let (mut numbers, mut out, mut waiting) = (
                Numbers(desk.state.numbers),
                desk.out.clone(),
                desk.waiting.clone(),
            );
            let call = match step {
                Step::Announce(id, size) => Call::Announce { id, size },
                Step::Part(bytes) => Call::Part(bytes),
                Step::Close => Call::Close,
            };
            let told = numbers.call(call, out.part(), waiting.part());
            let answer = after.step(step, [0, 0]).map(|length| length as u64);
            let question = format_args!("{step:?} with the pairs {pairs:?}");
            assert_eq!(answer.map_err(|refusal| refusal.number), told, "{question}");
            assert_eq!(after.state.numbers, numbers.0, "{question}");
            assert!(after.out == out && after.waiting == waiting, "{question}");
            if place < 2 {
                met[place][usize::from(told.is_err())] += 1;
            }
            let length = match (step, answer) {
                (Step::Close, Ok(length)) => length as usize,
                (Step::Announce(2, size), Ok(_)) => {
                    let rest = Step::Part(&BYTES[..size as usize]);
                    after.step(rest, [0, 0]).expect("it is owed");
                    after.step(Step::Close, [0, 0]).expect("nothing is owed")
                }
                _ => continue,
            };
            let shard = Shard::open(SHARDING, 0, &after.out.held()[..length]);
            assert_eq!(shard.check(), Ok(()), "{question}");
        }
    }
    assert!(met.as_flattened().iter().all(|met| *met > 1000), "{met:?}");
}

/// No form passes 1 GiB, however long the output is.
#[test]
fn one_gibibyte() {
    let most = 1u64 << 30;
    // The kernel hands out pages when they are first touched.
    let mut out = vec![0; most as usize + 1000];
    let mut waiting = [0; WAITING];
    let mut state = State::open(SHARDING, 0, &mut out, &waiting).expect("there is room");
    let size = most - 64 - 24;
    let refusal = state.announce(0, size + 1, &mut out, &mut waiting);
    assert_eq!(refusal.map_err(|refusal| refusal.number), Err(13));
    state
        .announce(0, size, &mut out, &mut waiting)
        .expect("it fits");
    assert_eq!(state.length(), most);
}
