//! Intake from the scanner (document 02, order 11). It remembers each chunk that
//! was delivered; whenever a minishard ends, the output begins with the settled
//! form of them all.

use crate::endian::{bytes_of, put, read_u64, write_front};
use crate::settle::settled_form;
use crate::sharding::{Place, Sharding};
use crate::MOST_SHARD_BYTES;

/// How many bytes of the second buffer a chunk takes.
const PAIR: usize = 16;

/// A chunk that was announced, with the bytes that have come.
#[derive(Clone, Debug)]
struct Chunk {
    id: u64,
    size: u64,
    bytes: Vec<u8>,
}

/// A shard that is being taken in. Each call is lent the two buffers.
#[derive(Clone, Debug)]
pub struct Intake {
    sharding: Sharding,
    number: u64,
    /// The lengths of the output and of the second buffer on opening.
    lengths: [usize; 2],
    chunks: Vec<Chunk>,
    closed: bool,
}

impl Intake {
    /// Opens a new volume shard, or gives 1, 5 or 13.
    pub fn open(
        sharding: Sharding,
        number: u64,
        out: &mut [u8],
        waiting: &[u8],
    ) -> Result<Intake, u8> {
        sharding.allowed()?;
        if sharding.is_mesh() {
            return Err(1);
        }
        if number >= sharding.shard_count() {
            return Err(5);
        }
        let opened = Intake {
            sharding,
            number,
            lengths: [out.len(), waiting.len()],
            chunks: Vec::new(),
            closed: false,
        };
        opened.fits(opened.form_length(), out)?;
        opened.write_form(out);
        Ok(opened)
    }

    /// Announces a chunk, or gives 30, 10, 25, 26 or 13.
    pub fn announce(
        &mut self,
        id: u64,
        size: u64,
        out: &mut [u8],
        waiting: &mut [u8],
    ) -> Result<(), u8> {
        self.same_lengths(out, waiting)?;
        let Place { shard, minishard } = self.sharding.place(id);
        if shard != self.number {
            return Err(10);
        }
        let before = self
            .chunks
            .last()
            .map(|last| (self.minishard(last), last.id));
        if self.closed || before.is_some_and(|before| before >= (minishard, id)) {
            return Err(25);
        }
        if self.owed() > 0 {
            return Err(26);
        }
        let mates = self
            .chunks
            .iter()
            .filter(|c| self.minishard(c) == minishard);
        let slot = PAIR * mates.count();
        self.fits(self.form_length() + 24 + u128::from(size), out)?;
        put(waiting, slot, &[id, size].map(u64::to_le_bytes).concat())?;
        if before.is_some_and(|(open, _)| open < minishard) {
            self.write_form(out);
        }
        let bytes = Vec::new();
        self.chunks.push(Chunk { id, size, bytes });
        Ok(())
    }

    /// Hands over a part of the announced chunk, or gives 30, 25 or 26.
    pub fn part(&mut self, part: &[u8], out: &mut [u8], waiting: &[u8]) -> Result<(), u8> {
        self.same_lengths(out, waiting)?;
        if self.closed {
            return Err(25);
        }
        if part.len() as u64 > self.owed() {
            return Err(26);
        }
        put(out, self.place(), part)?;
        if let Some(chunk) = self.chunks.last_mut() {
            chunk.bytes.extend(part);
        }
        Ok(())
    }

    /// Closes the shard and gives its length, or 30, 25 or 26.
    pub fn close(&mut self, out: &mut [u8], waiting: &[u8]) -> Result<usize, u8> {
        self.same_lengths(out, waiting)?;
        if self.closed {
            return Err(25);
        }
        if self.owed() > 0 {
            return Err(26);
        }
        self.closed = true;
        Ok(self.write_form(out))
    }

    /// How many bytes of the last chunk are still owed.
    pub fn owed(&self) -> u64 {
        let last = self.chunks.last();
        last.map_or(0, |chunk| chunk.size - chunk.bytes.len() as u64)
    }

    fn minishard(&self, chunk: &Chunk) -> u64 {
        self.sharding.place(chunk.id).minishard
    }

    fn same_lengths(&self, out: &[u8], waiting: &[u8]) -> Result<(), u8> {
        if self.lengths == [out.len(), waiting.len()] {
            Ok(())
        } else {
            Err(30)
        }
    }

    /// The length of the settled form of all announced, exact.
    fn form_length(&self) -> u128 {
        let parts = self.chunks.iter().map(|chunk| 24 + u128::from(chunk.size));
        u128::from(self.sharding.index_end()) + parts.sum::<u128>()
    }

    /// Gives 13 where a form of this length would pass the output or 1 GiB.
    fn fits(&self, length: u128, out: &[u8]) -> Result<(), u8> {
        if length > out.len() as u128 || length > u128::from(MOST_SHARD_BYTES) {
            return Err(13);
        }
        Ok(())
    }

    /// Writes the settled form of what came to the front of the output.
    fn write_form(&self, out: &mut [u8]) -> usize {
        let content: Vec<(u64, &[u8])> = self.chunks.iter().map(|c| (c.id, &c.bytes[..])).collect();
        let form = settled_form(&self.sharding, &content);
        write_front(&form, out).expect("what was announced had room")
    }

    /// The final place of the next byte: behind the shard index, the bytes that
    /// came, and the minishard indexes of the minishards that have ended.
    fn place(&self) -> usize {
        let open = self.chunks.last().map(|last| self.minishard(last));
        let came: usize = self.chunks.iter().map(|chunk| chunk.bytes.len()).sum();
        let ended = self
            .chunks
            .iter()
            .filter(|c| Some(self.minishard(c)) != open);
        self.sharding.index_end() as usize + came + 24 * ended.count()
    }
}

/// A call after the opening.
#[derive(Clone, Copy, Debug, PartialEq, Eq)]
pub enum Call<'a> {
    /// A chunk is announced.
    Announce {
        /// Its id.
        id: u64,
        /// Its number of bytes.
        size: u64,
    },
    /// Bytes are handed over.
    Part(&'a [u8]),
    /// The shard is closed.
    Close,
}

/// The state of an intake in the numbers of the C interface, which may be any:
/// what the calls make of numbers that nobody can vouch for.
#[derive(Clone, Copy, Debug, PartialEq, Eq)]
pub struct Numbers(pub [u64; 15]);

const SHARD: usize = 5;
const OUTPUT: usize = 6;
const WAITING: usize = 7;
const MINISHARD: usize = 8;
const COUNT: usize = 9;
const LAST: usize = 10;
const BEGIN: usize = 11;
const NEXT: usize = 12;
const OWED: usize = 13;
const PHASE: usize = 14;

impl Numbers {
    /// The specification; a number that has no 8 bits is not allowed in it.
    fn sharding(&self) -> Sharding {
        let field = |at: usize| u8::try_from(self.0[at]).unwrap_or(u8::MAX);
        Sharding {
            preshift: field(0),
            hash: field(1),
            minishard_bits: field(2),
            shard_bits: field(3),
            kind: field(4),
        }
    }

    /// A number, wide enough for exact sums.
    fn wide(&self, at: usize) -> u128 {
        u128::from(self.0[at])
    }

    /// The length of the settled form of all announced, under an allowed
    /// specification.
    fn form_length(&self) -> u128 {
        let index = u128::from(self.sharding().index_end());
        index + self.wide(NEXT) + self.wide(OWED) + 24 * self.wide(COUNT)
    }

    /// What no form may pass.
    fn limit(&self) -> u128 {
        self.wide(OUTPUT).min(u128::from(MOST_SHARD_BYTES))
    }

    /// Whether the numbers contradict each other or the last pair of the second
    /// buffer, which is as long as on opening: docs/orders/11.md lists what must
    /// hold.
    pub fn contradict(&self, waiting: &[u8]) -> bool {
        let sharding = self.sharding();
        if sharding.allowed().is_err() || sharding.is_mesh() {
            return true;
        }
        let has_room =
            self.form_length() <= self.limit() && 16 * self.wide(COUNT) <= waiting.len() as u128;
        if self.0[SHARD] >= sharding.shard_count() || !has_room {
            return true;
        }
        let [minishard, count, last] = [MINISHARD, COUNT, LAST].map(|at| self.0[at]);
        let [begin, next, owed] = [BEGIN, NEXT, OWED].map(|at| self.wide(at));
        if count == 0 {
            return (minishard, last) != (0, 0) || [begin, next, owed] != [0; 3];
        }
        let pair = PAIR * (count as usize - 1);
        let (id, size) = (read_u64(waiting, pair), read_u64(waiting, pair + 8));
        let place = Place {
            shard: self.0[SHARD],
            minishard,
        };
        let came = (next + owed).checked_sub(begin);
        let holds = sharding.place(last) == place
            && count - 1 <= last
            && begin <= next
            && (begin == 0 || minishard > 0 && begin >= 24)
            && id == last
            && owed <= u128::from(size)
            && came.is_some_and(|came| match count {
                1 => u128::from(size) == came,
                _ => u128::from(size) <= came,
            });
        !holds
    }

    /// Whether calls could have left the pairs that wait. They are announced anew, to
    /// a shard with no chunk and buffers of these lengths, and all bytes are handed
    /// over but those that are owed: no call refuses that, the second buffer is then
    /// as it is here, and as many bytes came to the same minishard. What was written
    /// before is not judged.
    fn announced_anew(&self, waiting: &[u8]) -> bool {
        let mut out = vec![0; self.0[OUTPUT] as usize];
        let mut anew = vec![0; waiting.len()];
        let held = &waiting[..PAIR * self.0[COUNT] as usize];
        let mut intake = Intake {
            sharding: self.sharding(),
            number: self.0[SHARD],
            lengths: [out.len(), anew.len()],
            chunks: Vec::new(),
            closed: false,
        };
        let mut again = || {
            for pair in held.chunks(PAIR) {
                let rest = vec![0; intake.owed() as usize];
                intake.part(&rest, &mut out, &anew)?;
                let (id, size) = (read_u64(pair, 0), read_u64(pair, 8));
                intake.announce(id, size, &mut out, &mut anew)?;
            }
            let rest = intake.owed().checked_sub(self.0[OWED]).ok_or(26)?;
            intake.part(&vec![0; rest as usize], &mut out, &anew)
        };
        if again().is_err() {
            return false;
        }
        let came = intake.place() as u64 - intake.sharding.index_end();
        let minishard = intake.chunks.last().map(|last| intake.minishard(last));
        anew.starts_with(held)
            && minishard.is_none_or(|minishard| minishard == self.0[MINISHARD])
            && self.0[BEGIN] + came == self.0[NEXT]
    }

    /// How many chunks of a minishard wait in the second buffer.
    fn mates(&self, minishard: u64) -> u64 {
        if minishard == self.0[MINISHARD] {
            self.0[COUNT]
        } else {
            0
        }
    }

    /// The refusal of a call, if any: 30, 10, 25, 26 or 13, in this order.
    fn refuse(&self, call: Call, output: usize, waiting: &[u8]) -> Result<(), u8> {
        if [self.0[OUTPUT], self.0[WAITING]] != [output as u64, waiting.len() as u64] {
            return Err(30);
        }
        let sharding = self.sharding();
        let allowed = sharding.allowed().is_ok();
        let unusable = self.contradict(waiting) || self.0[PHASE] != 0;
        let owed = self.0[OWED];
        match call {
            Call::Announce { id, .. } if allowed && sharding.place(id).shard != self.0[SHARD] => {
                Err(10)
            }
            _ if unusable => Err(25),
            Call::Part(bytes) if bytes.len() as u64 > owed => Err(26),
            Call::Part(_) => Ok(()),
            Call::Close if !self.announced_anew(waiting) => Err(25),
            Call::Close if owed > 0 => Err(26),
            Call::Close => Ok(()),
            Call::Announce { id, size } => {
                let minishard = sharding.place(id).minishard;
                let mates = self.mates(minishard);
                if minishard < self.0[MINISHARD] || mates > 0 && id <= self.0[LAST] {
                    return Err(25);
                }
                if minishard > self.0[MINISHARD] && !self.announced_anew(waiting) {
                    return Err(25);
                }
                if owed > 0 {
                    return Err(26);
                }
                let form = self.form_length() + u128::from(size) + 24;
                let slot = 16 * u128::from(mates);
                if form > self.limit() || slot + 16 > waiting.len() as u128 {
                    return Err(13);
                }
                Ok(())
            }
        }
    }

    /// What a call answers, 0 or for the close the length, and leaves in the
    /// numbers and the buffers: nothing else where it is refused.
    pub fn call(&mut self, call: Call, out: &mut [u8], waiting: &mut [u8]) -> Result<u64, u8> {
        self.refuse(call, out.len(), waiting)?;
        let index_end = self.sharding().index_end();
        let answer = match call {
            Call::Announce { id, size } => {
                let minishard = self.sharding().place(id).minishard;
                if minishard != self.0[MINISHARD] {
                    self.end_minishard(out, waiting)?;
                    self.0[NEXT] += 24 * self.0[COUNT];
                    self.0[BEGIN] = self.0[NEXT];
                    self.0[MINISHARD] = minishard;
                    self.0[COUNT] = 0;
                }
                let slot = PAIR * self.0[COUNT] as usize;
                put(waiting, slot, &[id, size].map(u64::to_le_bytes).concat())?;
                self.0[COUNT] += 1;
                self.0[LAST] = id;
                self.0[OWED] = size;
                0
            }
            Call::Part(bytes) => {
                put(out, (index_end + self.0[NEXT]) as usize, bytes)?;
                self.0[NEXT] += bytes.len() as u64;
                self.0[OWED] -= bytes.len() as u64;
                0
            }
            Call::Close => {
                self.end_minishard(out, waiting)?;
                self.0[PHASE] = 1;
                self.form_length() as u64
            }
        };
        Ok(answer)
    }

    /// Writes the minishard index that the waiting pairs make behind the data,
    /// and its entry.
    fn end_minishard(&self, out: &mut [u8], waiting: &[u8]) -> Result<(), u8> {
        let (count, next) = (self.0[COUNT] as usize, self.0[NEXT]);
        if count == 0 {
            return Ok(());
        }
        let ids: Vec<u64> = (0..count).map(|i| read_u64(waiting, PAIR * i)).collect();
        let before = std::iter::once(&0).chain(&ids);
        let steps = ids.iter().zip(before).map(|(id, b)| id - b);
        let starts = std::iter::once(self.0[BEGIN]).chain(std::iter::repeat_n(0, count - 1));
        let sizes = (0..count).map(|i| read_u64(waiting, PAIR * i + 8));
        let rows = bytes_of(steps.chain(starts).chain(sizes));
        put(out, (self.sharding().index_end() + next) as usize, &rows)?;
        let entry = [next, next + rows.len() as u64];
        let at = PAIR * self.0[MINISHARD] as usize;
        put(out, at, &entry.map(u64::to_le_bytes).concat())
    }
}

#[cfg(test)]
mod tests {
    use super::*;
    use crate::shard::check;
    use crate::sharding::VOLUME;

    const ONE: Sharding = Sharding {
        preshift: 0,
        hash: 0,
        minishard_bits: 1,
        shard_bits: 0,
        kind: VOLUME,
    };

    /// Document 01's example, its second chunk in two parts.
    #[test]
    fn the_example() {
        let (mut out, mut waiting) = ([7; 90], [7; 33]);
        let mut intake = Intake::open(ONE, 0, &mut out, &waiting).unwrap();
        assert_eq!(out[..32], [0; 32]);
        intake.announce(4, 2, &mut out, &mut waiting).unwrap();
        assert_eq!(
            waiting[..16],
            [4, 0, 0, 0, 0, 0, 0, 0, 2, 0, 0, 0, 0, 0, 0, 0]
        );
        intake.part(b"ab", &mut out, &waiting).unwrap();
        intake.announce(10, 3, &mut out, &mut waiting).unwrap();
        intake.part(b"c", &mut out, &waiting).unwrap();
        assert_eq!(out[32..36], *b"abc\x07");
        intake.part(b"de", &mut out, &waiting).unwrap();
        assert_eq!(intake.close(&mut out, &waiting), Ok(85));
        assert_eq!(out[..85], settled_form(&ONE, &[(4, b"ab"), (10, b"cde")]));
        assert_eq!((&out[85..], waiting[32]), (&[7; 5][..], 7));
        assert_eq!(check(&ONE, 0, &out[..85]), Ok(()));
        assert_eq!(intake.part(b"", &mut out, &waiting), Err(25));
    }

    #[test]
    fn refusals_in_their_order() {
        let (mut out, mut waiting) = ([7; 100], [7; 16]);
        let mesh = Sharding { kind: 1, ..ONE };
        assert_eq!(Intake::open(mesh, 9, &mut out, &waiting).err(), Some(1));
        assert_eq!(Intake::open(ONE, 1, &mut [], &waiting).err(), Some(5));
        let short = &mut out[..31];
        assert_eq!(Intake::open(ONE, 0, short, &waiting).err(), Some(13));
        let two = Sharding {
            shard_bits: 1,
            ..ONE
        };
        let mut intake = Intake::open(two, 0, &mut out, &waiting).unwrap();
        let mut announce = |id, size, out: &mut [u8]| intake.announce(id, size, out, &mut waiting);
        assert_eq!(announce(2, u64::MAX, &mut out[1..]), Err(30));
        assert_eq!(announce(2, u64::MAX, &mut out), Err(10));
        assert_eq!(announce(5, 45, &mut out), Err(13));
        assert_eq!(announce(5, 44, &mut out), Ok(()));
        assert_eq!(announce(4, 0, &mut out), Err(25));
        assert_eq!(announce(9, 0, &mut out), Err(26));
        assert_eq!(intake.close(&mut out, &waiting), Err(26));
        assert_eq!(intake.part(&[1; 45], &mut out, &waiting), Err(26));
        assert_eq!(intake.part(&[1; 44], &mut out, &waiting), Ok(()));
        // The second buffer has room for one chunk.
        assert_eq!(intake.announce(9, 0, &mut out, &mut waiting), Err(13));
        assert_eq!(intake.close(&mut out, &waiting), Ok(100));
    }

    #[test]
    fn each_minishard_begins_the_second_buffer_afresh() {
        let (mut out, mut waiting) = ([7; 100], [7; 16]);
        let mut intake = Intake::open(ONE, 0, &mut out, &waiting).unwrap();
        for (id, byte) in [(2, b"x"), (3, b"y")] {
            intake.announce(id, 1, &mut out, &mut waiting).unwrap();
            intake.part(byte, &mut out, &waiting).unwrap();
        }
        assert_eq!(read_u64(&waiting, 0), 3);
        assert_eq!(intake.close(&mut out, &waiting), Ok(82));
        assert_eq!(out[..82], settled_form(&ONE, &[(3, b"y"), (2, b"x")]));
    }

    #[test]
    fn numbers_of_an_opened_shard_do_not_contradict() {
        let opened = Numbers([0, 0, 1, 0, 0, 0, 100, 16, 0, 0, 0, 0, 0, 0, 0]);
        assert!(!opened.contradict(&[7; 16]));
        for at in [8, 9, 10, 11, 12, 13] {
            let mut forged = opened;
            forged.0[at] = 1;
            assert!(forged.contradict(&[7; 16]), "number {at}");
        }
    }

    /// An only chunk is all that came of its minishard or is owed: of 10 bytes with
    /// one chunk of 4 the other 6 would be unlisted.
    #[test]
    fn numbers_of_an_only_chunk() {
        let waiting = [7, 0, 0, 0, 0, 0, 0, 0, 4, 0, 0, 0, 0, 0, 0, 0];
        for (next, owed, contradicts) in [(10, 0, true), (4, 0, false), (3, 1, false), (3, 0, true)]
        {
            let numbers = Numbers([0, 0, 1, 0, 0, 0, 100, 16, 1, 1, 7, 0, next, owed, 0]);
            assert_eq!(numbers.contradict(&waiting), contradicts, "{next} came");
        }
    }

    /// Pairs before the last one that no calls leave: the close and an announcement
    /// that ends the minishard see them, a part and an announcement in it do not.
    #[test]
    fn pairs_that_no_calls_left() {
        let pairs = |pairs: [[u64; 2]; 3]| pairs.as_flattened().to_vec();
        let cases = [
            (pairs([[2, 1], [4, 2], [8, 3]]), true),
            (pairs([[4, 1], [4, 2], [8, 3]]), false),
            (pairs([[4, 1], [2, 2], [8, 3]]), false),
            (pairs([[2, 1], [5, 2], [8, 3]]), false),
            (pairs([[2, 2], [4, 2], [8, 3]]), false),
            (pairs([[2, u64::MAX], [4, 4], [8, 3]]), false),
        ];
        for (pairs, could) in cases {
            let numbers = Numbers([0, 0, 1, 0, 0, 0, 200, 64, 0, 3, 8, 0, 6, 0, 0]);
            let mut waiting = bytes_of(pairs);
            waiting.resize(64, 7);
            let answer = |call: Call| {
                let mut out = [0; 200];
                numbers.clone().call(call, &mut out, &mut waiting.clone())
            };
            let told = |length: u64| if could { Ok(length) } else { Err(25) };
            assert_eq!(answer(Call::Close), told(32 + 6 + 72));
            assert_eq!(answer(Call::Announce { id: 1, size: 0 }), told(0));
            assert_eq!(answer(Call::Announce { id: 10, size: 0 }), Ok(0));
            assert_eq!(answer(Call::Part(&[])), Ok(0));
        }
    }

    /// Four pairs of zeros before one of id 4: the shard would be refused with 9.
    #[test]
    fn zeros_before_the_last_pair() {
        let mut numbers = Numbers([0, 0, 1, 0, 0, 0, 200, 80, 0, 5, 4, 0, 0, 0, 0]);
        let (mut out, mut waiting) = ([0; 200], [0; 80]);
        waiting[64] = 4;
        assert!(!numbers.contradict(&waiting));
        assert_eq!(numbers.call(Call::Close, &mut out, &mut waiting), Err(25));
        assert_eq!(out, [0; 200]);
    }

    /// The example's calls over the numbers.
    #[test]
    fn numbers_that_calls_left() {
        let (mut out, mut waiting) = ([7; 90], [7; 33]);
        Intake::open(ONE, 0, &mut out, &waiting).unwrap();
        let mut numbers = Numbers([0, 0, 1, 0, 0, 0, 90, 33, 0, 0, 0, 0, 0, 0, 0]);
        let calls = [
            Call::Announce { id: 4, size: 2 },
            Call::Part(b"ab"),
            Call::Announce { id: 10, size: 3 },
            Call::Part(b"cde"),
        ];
        for call in calls {
            assert_eq!(numbers.call(call, &mut out, &mut waiting), Ok(0));
        }
        let late = Call::Announce { id: 4, size: 0 };
        assert_eq!(numbers.call(late, &mut out, &mut waiting), Err(25));
        assert_eq!(numbers.call(Call::Close, &mut out, &mut waiting), Ok(85));
        assert_eq!(out[..85], settled_form(&ONE, &[(4, b"ab"), (10, b"cde")]));
        assert_eq!(numbers.call(Call::Close, &mut out, &mut waiting), Err(25));
    }
}
