//! Intake: runs of calls, and states that nobody can vouch for.

use super::shard::of_kinds;
use crate::agree::same;
use crate::question::{Choice, Reader, Room, Writer};
use crate::{sides, Part};
use coronagamba::intake::State;
use coronagamba::{Refusal, Shard, Unlisted};
use reference::intake::{Call, Intake, Numbers};
use reference::sharding::Sharding;
use testkit::shards::{self, Content};
use testkit::{places, Lent, Rng};

/// Runs of calls.
pub const INTAKE: Part = Part {
    name: "intake",
    about: "a new shard that chunks are delivered to in parts: each call's answer and both buffers",
    meets: &[0, 1, 5, 10, 13, 25, 26, 30],
    compare: |bytes| of_kinds(bytes, compare_runs),
    sample: sample_runs,
};

/// A call with a state that was changed.
pub const FORGED: Part = Part {
    name: "forged",
    about: "a call of an intake whose state or second buffer was changed since the last call",
    meets: &[0, 1, 5, 10, 13, 25, 26, 30],
    compare: |bytes| of_kinds(bytes, compare_forged),
    sample: sample_forged,
};

/// The most steps of a run.
const MOST_STEPS: usize = 200;

/// A step of a run, in one byte that says its kind, and what belongs to it.
#[derive(Clone, Copy, Debug)]
enum Step {
    /// A chunk is announced by its id.
    Announce { id: u64, size: u64 },
    /// The same by an id of the shard that this number stands for.
    Found { seed: u64, size: u64 },
    /// So many bytes are handed over.
    Part(u16),
    /// All bytes that are owed are.
    Rest,
    /// The shard is closed.
    Close,
    /// A call is lent a buffer of another length.
    Other(u8),
}

impl Reader<'_> {
    fn step(&mut self) -> Step {
        match self.byte() % 8 {
            0 => Step::Announce {
                id: self.number(),
                size: self.byte().into(),
            },
            1 => Step::Announce {
                id: self.number(),
                size: self.number(),
            },
            2 => Step::Found {
                seed: self.number(),
                size: self.byte().into(),
            },
            3 => Step::Part(u16::from_le_bytes([self.byte(), self.byte()])),
            4 => Step::Rest,
            5 => Step::Close,
            _ => Step::Other(self.byte()),
        }
    }

    /// All steps that are left.
    fn steps(mut self) -> Vec<Step> {
        let mut steps = Vec::new();
        while !self.is_empty() && steps.len() < MOST_STEPS {
            steps.push(self.step());
        }
        steps
    }
}

impl Writer {
    fn step(self, step: Step) -> Self {
        match step {
            Step::Announce { id, size } if size < 256 => self.byte(0).number(id).byte(size as u8),
            Step::Announce { id, size } => self.byte(1).number(id).number(size),
            Step::Found { seed, size } => self.byte(2).number(seed).byte(size as u8),
            Step::Part(length) => self.byte(3).rest(&length.to_le_bytes()),
            Step::Rest => self.byte(4),
            Step::Close => self.byte(5),
            Step::Other(which) => self.byte(6).byte(which),
        }
    }
}

/// What a run is lent, and what the library and the reference left of it.
struct Run {
    sharding: Sharding,
    number: u64,
    state: State,
    out: Lent,
    waiting: Lent,
    intake: Intake,
    /// The same buffers as the reference left them.
    expected: [Lent; 2],
    /// The same before the last step.
    before: [Lent; 2],
    /// What was delivered, the last chunk perhaps in part.
    content: Content,
}

impl Run {
    /// Opens a shard whose buffers have about the room that the steps need, or
    /// gives the refusal.
    fn open(sharding: Sharding, reader: &mut Reader) -> impl FnOnce(&[Step]) -> Result<Run, u8> {
        let (number, rooms) = (reader.choice(), [reader.room(), reader.room()]);
        move |steps| {
            let number = number.shard(&sharding, &[]);
            let [out, waiting] = lengths(&sharding, steps, rooms);
            let mut rng = Rng::new(out as u64);
            let (mut out, waiting) = (Lent::new(&mut rng, out), Lent::new(&mut rng, waiting));
            let (before, mut expected) = (out.clone(), out.clone());
            let library = sides::sharding(&sharding);
            let state = State::open(library, number, out.part(), waiting.held());
            let intake = Intake::open(sharding, number, expected.part(), waiting.held());
            let question = format_args!("opening of shard {number} under {sharding:?}");
            let met = same(
                question,
                state.map(|_| ()),
                intake.as_ref().map(|_| ()).map_err(|number| *number),
            );
            assert!(out == expected, "{question}: the output differs");
            if met != 0 {
                assert!(out == before, "{question}: refused, but the output changed");
                return Err(met);
            }
            Ok(Run {
                sharding,
                number,
                state: state.expect("it was opened"),
                intake: intake.expect("it was opened"),
                expected: [expected, waiting.clone()],
                before: [before, waiting.clone()],
                out,
                waiting,
                content: Content::new(),
            })
        }
    }

    /// Takes a step on both sides. Gives the refusal, 0 for success.
    fn step(&mut self, step: Step, salt: u64) -> u8 {
        let before = self.state;
        self.before[0].clone_from(&self.out);
        self.before[1].clone_from(&self.waiting);
        let bytes = self.bytes(step, salt);
        let call = self.call(step, &bytes, salt);
        let [cut, cut_waiting] = self.cuts(step);
        let question = format_args!("{step:?} under {:?}", self.sharding);
        let [expected, expected_waiting] = &mut self.expected;
        let met = same(
            question,
            library(
                &mut self.state,
                call,
                &mut self.out.part()[cut..],
                &mut self.waiting.part()[cut_waiting..],
            ),
            reference(
                &mut self.intake,
                call,
                &mut expected.part()[cut..],
                &mut expected_waiting.part()[cut_waiting..],
            ),
        );
        let now = [&self.out, &self.waiting];
        assert!(
            now == self.expected.each_ref(),
            "{question}: a buffer differs"
        );
        if met == 0 {
            self.note(call, salt);
        } else {
            let unchanged = self.state == before && now == self.before.each_ref();
            assert!(unchanged, "{question}: refused, but something changed");
        }
        met
    }

    /// The bytes that a step hands over.
    fn bytes(&self, step: Step, salt: u64) -> Vec<u8> {
        let length = match step {
            Step::Part(length) => length.into(),
            Step::Rest => self.intake.owed(),
            _ => 0,
        };
        Rng::new(salt).bytes(length.min(1 << 16) as usize)
    }

    /// The call of a step.
    fn call<'a>(&self, step: Step, bytes: &'a [u8], salt: u64) -> Call<'a> {
        match step {
            Step::Announce { id, size } => Call::Announce { id, size },
            Step::Found { seed, size } => {
                let found = shards::id(&mut Rng::new(seed), &self.sharding, self.number);
                let id = found.unwrap_or(seed);
                Call::Announce { id, size }
            }
            Step::Part(_) | Step::Rest => Call::Part(bytes),
            Step::Close => Call::Close,
            Step::Other(which) => match which >> 1 & 3 {
                0 => Call::Announce { id: salt, size: 0 },
                1 => Call::Close,
                _ => Call::Part(bytes),
            },
        }
    }

    /// How many bytes of each buffer a step does not lend.
    fn cuts(&self, step: Step) -> [usize; 2] {
        let has = |lent: &Lent| usize::from(!lent.held().is_empty());
        match step {
            Step::Other(which) if which & 1 == 0 => [has(&self.out), 0],
            Step::Other(_) => [0, has(&self.waiting)],
            _ => [0, 0],
        }
    }

    /// Notes what a call that was not refused delivered; what was closed is
    /// compared with a settled shard.
    fn note(&mut self, call: Call, salt: u64) {
        match call {
            Call::Announce { id, .. } => {
                self.content.insert(id, Vec::new());
            }
            Call::Part(bytes) => {
                let last = self.content.get_mut(&self.state.numbers[LAST]);
                if let Some(chunk) = last {
                    chunk.extend(bytes);
                }
            }
            Call::Close => self.assert_settled(salt),
        }
    }

    /// What was closed is what settling makes of a shard that lists the same.
    fn assert_settled(&self, salt: u64) {
        let file = shards::lay_out(&mut Rng::new(salt), &self.sharding, &self.content);
        let library = sides::sharding(&self.sharding);
        let settled = Shard::open(library, self.number, &file).settled(Unlisted::Drop);
        let form = settled.expect("a shard that was laid out here is sound");
        assert!(
            self.out.held().starts_with(&form),
            "the intake of {:?} under {:?} is no settled form",
            self.content,
            self.sharding
        );
    }
}

/// Where the last id stands in the state.
const LAST: usize = 10;

/// The lengths of the buffers for these steps.
fn lengths(sharding: &Sharding, steps: &[Step], rooms: [Room; 2]) -> [usize; 2] {
    let index = match sharding.allowed() {
        Ok(()) => sharding.index_end() as usize,
        Err(_) => 0,
    };
    let sizes = steps.iter().filter_map(|step| match step {
        Step::Announce { size, .. } | Step::Found { size, .. } => Some(*size),
        _ => None,
    });
    let sizes: Vec<usize> = sizes.map(|size| size.min(1 << 12) as usize).collect();
    let form = index + sizes.iter().map(|size| size + 24).sum::<usize>();
    [rooms[0].length(form), rooms[1].length(16 * sizes.len())]
}

fn compare_runs(sharding: Sharding, mut reader: Reader) -> u8 {
    let open = Run::open(sharding, &mut reader);
    let steps = reader.steps();
    let mut run = match open(&steps) {
        Ok(run) => run,
        Err(met) => return met,
    };
    let mut first = 0;
    for (salt, step) in (1..).zip(steps) {
        let met = run.step(step, salt);
        if first == 0 {
            first = met;
        }
    }
    first
}

/// A change to the state or the second buffer.
struct Change {
    at: u8,
    kind: u8,
    number: u64,
}

impl Reader<'_> {
    fn change(&mut self) -> Change {
        Change {
            at: self.byte(),
            kind: self.byte(),
            number: self.number(),
        }
    }
}

impl Change {
    /// A change of a number, or of 8 bytes of the second buffer.
    fn make(&self, numbers: &mut [u64; 15], waiting: &mut [u8]) {
        let at = usize::from(self.at);
        let changed = |old: u64| match self.kind % 5 {
            0 => self.number,
            1 => old.wrapping_add(1 + self.number % 30),
            2 => old.wrapping_sub(1 + self.number % 30),
            3 => numbers[(self.number % 15) as usize],
            _ => old ^ 1 << (self.number % 64),
        };
        if at % 20 < 15 {
            numbers[at % 20] = changed(numbers[at % 20]);
            return;
        }
        let words = waiting.len() / 8;
        if let Some(place) = (at / 20).checked_rem(words) {
            let word = &mut waiting[8 * place..8 * place + 8];
            let old = u64::from_le_bytes((&*word).try_into().expect("8 bytes"));
            word.copy_from_slice(&changed(old).to_le_bytes());
        }
    }
}

fn compare_forged(sharding: Sharding, mut reader: Reader) -> u8 {
    let open = Run::open(sharding, &mut reader);
    let changes: Vec<Change> = (0..reader.byte() % 4).map(|_| reader.change()).collect();
    let (which, id, size) = (reader.byte(), reader.choice(), reader.number());
    let steps = reader.steps();
    let mut run = match open(&steps) {
        Ok(run) => run,
        Err(met) => return met,
    };
    for (salt, step) in (1..).zip(steps) {
        run.step(step, salt);
    }
    let Run {
        mut state,
        mut out,
        mut waiting,
        ..
    } = run;
    for change in changes {
        change.make(&mut state.numbers, waiting.part());
    }
    let id = id.near(state.numbers[LAST]);
    let bytes = Rng::new(size).bytes((size % 64) as usize);
    let call = match which % 3 {
        0 => Call::Announce { id, size },
        1 => Call::Part(&bytes),
        _ => Call::Close,
    };
    let (mut numbers, mut expected) = (Numbers(state.numbers), (out.clone(), waiting.clone()));
    let given = state.numbers;
    let question = format_args!("{call:?} with the state {given:?}");
    let told = numbers.call(call, expected.0.part(), expected.1.part());
    let met = same(
        question,
        library(&mut state, call, out.part(), waiting.part()),
        told,
    );
    assert!(
        Numbers(state.numbers) == numbers,
        "{question}: the new state differs"
    );
    assert!(out == expected.0, "{question}: the output differs");
    assert!(
        waiting == expected.1,
        "{question}: the second buffer differs"
    );
    met
}

/// The library's answer to a call.
fn library(
    state: &mut State,
    call: Call,
    out: &mut [u8],
    waiting: &mut [u8],
) -> Result<u64, Refusal> {
    match call {
        Call::Announce { id, size } => state.announce(id, size, out, waiting).map(|()| 0),
        Call::Part(bytes) => state.part(bytes, out, waiting).map(|()| 0),
        Call::Close => Ok(state.close(out, waiting)? as u64),
    }
}

/// The reference's.
fn reference(
    intake: &mut Intake,
    call: Call,
    out: &mut [u8],
    waiting: &mut [u8],
) -> Result<u64, u8> {
    match call {
        Call::Announce { id, size } => intake.announce(id, size, out, waiting).map(|()| 0),
        Call::Part(bytes) => intake.part(bytes, out, waiting).map(|()| 0),
        Call::Close => Ok(intake.close(out, waiting)? as u64),
    }
}

/// The bytes of a length in random cuts, some of them empty, or all at once.
fn cuts(rng: &mut Rng, length: usize, steps: &mut Vec<Step>) {
    let mut left = length;
    while left > 0 || rng.once_in(6) {
        if rng.once_in(4) {
            steps.push(Step::Rest);
            left = 0;
            continue;
        }
        let part = rng.index(left + 1);
        steps.push(Step::Part(part as u16));
        left -= part;
    }
}

/// The steps that deliver some content of a shard and close it.
fn delivery(rng: &mut Rng, sharding: &Sharding, number: u64) -> Vec<Step> {
    let content = shards::content(rng, sharding, number, 12);
    let mut chunks: Vec<(u64, u64, usize)> = content
        .iter()
        .map(|(id, bytes)| (sharding.place(*id).minishard, *id, bytes.len()))
        .collect();
    chunks.sort_unstable();
    let mut steps = Vec::new();
    if rng.once_in(6) {
        cuts(rng, 0, &mut steps);
    }
    for (_, id, length) in chunks {
        let size = length as u64;
        steps.push(Step::Announce { id, size });
        cuts(rng, length, &mut steps);
    }
    steps.push(Step::Close);
    steps
}

/// Puts a step into a run that is mostly refused there.
fn mistake(rng: &mut Rng, sharding: &Sharding, number: u64, steps: &mut Vec<Step>) {
    let at = rng.index(steps.len() + 1);
    let announced = steps.iter().filter_map(|step| match step {
        Step::Announce { id, .. } => Some(*id),
        _ => None,
    });
    let known: Vec<u64> = announced.collect();
    let near = match known.is_empty() {
        true => rng.edge_u64(),
        false => *rng.pick(&known),
    };
    let id = match rng.below(4) {
        0 => near,
        1 => near.wrapping_add(rng.below(5)),
        2 => shards::id(rng, sharding, number).unwrap_or(near),
        _ => rng.edge_u64(),
    };
    let step = match rng.below(8) {
        0..3 => Step::Announce {
            id,
            size: rng.below(40),
        },
        3 => Step::Announce {
            id,
            size: rng.edge_u64(),
        },
        4 => Step::Part(rng.edge(9) as u16),
        5 => Step::Close,
        6 => Step::Found {
            seed: rng.bits(),
            size: rng.below(9),
        },
        _ => Step::Other(rng.below(8) as u8),
    };
    steps.insert(at, step);
}

/// The front of a run and its steps.
fn run(rng: &mut Rng, mistakes: u64) -> (Writer, Vec<Step>) {
    let sharding = shards::sharding(rng);
    let number = shards::number(rng, &sharding);
    let mut steps = delivery(rng, &sharding, number);
    for _ in 0..rng.below(mistakes + 1) {
        mistake(rng, &sharding, number, &mut steps);
    }
    let told = if rng.once_in(30) {
        Sharding {
            kind: places::kind(rng),
            ..places::wild_sharding(rng)
        }
    } else {
        sharding
    };
    let enough = |rng: &mut Rng| match rng.below(4) {
        0 => Room::draw(rng),
        _ => Room::more(rng),
    };
    let writer = Writer::new()
        .sharding_of_kinds(&told)
        .choice(Choice::draw_near(rng, number))
        .room(enough(rng))
        .room(enough(rng));
    (writer, steps)
}

fn sample_runs(rng: &mut Rng) -> Vec<u8> {
    let (writer, steps) = run(rng, 3);
    steps.into_iter().fold(writer, Writer::step).finish()
}

fn sample_forged(rng: &mut Rng) -> Vec<u8> {
    let (writer, mut steps) = run(rng, 0);
    steps.truncate(rng.index(steps.len() + 1));
    let changes = rng.below(4);
    let mut writer = writer.byte(changes as u8);
    for _ in 0..changes {
        writer = writer
            .byte(rng.bits() as u8)
            .byte(rng.below(5) as u8)
            .number(rng.edge_u64());
    }
    let id = rng.edge_u64();
    let size = match rng.below(3) {
        0 => rng.edge_u64(),
        _ => rng.below(40),
    };
    let writer = writer
        .byte(rng.below(3) as u8)
        .choice(Choice::draw(rng, id))
        .number(size);
    steps.into_iter().fold(writer, Writer::step).finish()
}
