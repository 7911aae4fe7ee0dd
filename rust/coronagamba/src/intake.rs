//! Intake from a scanner: a new volume shard, written in its settled form while
//! its chunks come in parts.
//!
//! Chunks come by rising minishard, then rising id. Each byte goes to its final
//! place in the output at once; the ids and sizes of the open minishard wait in a
//! second buffer. [`Intake`] borrows both buffers from the opening to the close.
//! A program that must use them otherwise between two calls keeps a [`State`]
//! instead, which is plain numbers, and lends the buffers to each call.

use crate::ffi;
use crate::numbers::INTAKE_NUMBERS;
use crate::refusal::{answer, written, Refusal};
use crate::sharding::Sharding;
use std::error::Error;
use std::fmt;

/// Bytes of the second buffer that a chunk takes: its id and its size. The buffer
/// is used afresh for each minishard, so it needs as many of them as the fullest
/// minishard has chunks.
pub const WAITING_BYTES: usize = 16;

/// Bytes of the settled form that each minishard takes, in the shard index.
pub const MINISHARD_BYTES: usize = 16;

/// Bytes of the settled form that a chunk takes beside its own, in its minishard
/// index.
pub const CHUNK_BYTES: usize = 24;

/// A new volume shard that chunks are delivered to. It owns nothing, and borrows
/// the output and the second buffer until the [`close`](Intake::close).
///
/// The output needs [`MINISHARD_BYTES`] for each minishard, [`CHUNK_BYTES`] for
/// each chunk, and the chunks' own bytes; the second buffer [`WAITING_BYTES`] for
/// each chunk of the fullest minishard. A call that has no room is refused, and a
/// refused call changes nothing, so that the next one finds all as it was.
///
/// The example makes a shard of two minishards with ids 4 and 10, and hands over
/// the second chunk in two parts.
///
/// ```
/// use coronagamba::{Intake, Shard, Sharding};
///
/// let sharding = Sharding { preshift: 0, hash: 0, minishard_bits: 1, shard_bits: 0, kind: 0 };
/// let (mut out, mut waiting) = ([0; 100], [0; 2 * 16]);
/// let mut intake = Intake::open(sharding, 0, &mut out, &mut waiting)?;
/// intake.announce(4, 2)?.part(b"ab")?;
/// let mut chunk = intake.announce(10, 3)?;
/// chunk.part(b"c")?;
/// assert_eq!(chunk.owed(), 2);
/// chunk.part(b"de")?;
/// let form = intake.close()?;
///
/// assert_eq!(form.len(), 85);
/// assert_eq!(Shard::open(sharding, 0, form).chunk(10)?, b"cde");
/// # Ok::<(), coronagamba::Refusal>(())
/// ```
///
/// A part belongs to an announced chunk, and there is no other way to hand one
/// over:
///
/// ```compile_fail,E0599
/// # use coronagamba::{Intake, Sharding};
/// # let sharding = Sharding { preshift: 0, hash: 0, minishard_bits: 1, shard_bits: 0, kind: 0 };
/// # let (mut out, mut waiting) = ([0; 100], [0; 32]);
/// # let mut intake = Intake::open(sharding, 0, &mut out, &mut waiting).unwrap();
/// intake.part(b"ab");
/// ```
///
/// While a chunk is held for its parts, no other is announced:
///
/// ```compile_fail,E0499
/// # use coronagamba::{Intake, Sharding};
/// # let sharding = Sharding { preshift: 0, hash: 0, minishard_bits: 1, shard_bits: 0, kind: 0 };
/// # let (mut out, mut waiting) = ([0; 100], [0; 32]);
/// # let mut intake = Intake::open(sharding, 0, &mut out, &mut waiting).unwrap();
/// let mut one = intake.announce(4, 2).unwrap();
/// let mut other = intake.announce(10, 3).unwrap();
/// one.part(b"ab");
/// ```
///
/// nor is the shard closed:
///
/// ```compile_fail,E0505
/// # use coronagamba::{Intake, Sharding};
/// # let sharding = Sharding { preshift: 0, hash: 0, minishard_bits: 1, shard_bits: 0, kind: 0 };
/// # let (mut out, mut waiting) = ([0; 100], [0; 32]);
/// # let mut intake = Intake::open(sharding, 0, &mut out, &mut waiting).unwrap();
/// let mut chunk = intake.announce(4, 2).unwrap();
/// let form = intake.close().unwrap();
/// chunk.part(b"ab");
/// ```
///
/// After the close there is no further call:
///
/// ```compile_fail,E0382
/// # use coronagamba::{Intake, Sharding};
/// # let sharding = Sharding { preshift: 0, hash: 0, minishard_bits: 1, shard_bits: 0, kind: 0 };
/// # let (mut out, mut waiting) = ([0; 100], [0; 32]);
/// # let mut intake = Intake::open(sharding, 0, &mut out, &mut waiting).unwrap();
/// let form = intake.close().unwrap();
/// intake.announce(4, 2);
/// ```
///
/// and before it nobody else writes to the buffers:
///
/// ```compile_fail,E0506
/// # use coronagamba::{Intake, Sharding};
/// # let sharding = Sharding { preshift: 0, hash: 0, minishard_bits: 1, shard_bits: 0, kind: 0 };
/// # let (mut out, mut waiting) = ([0; 100], [0; 32]);
/// let mut intake = Intake::open(sharding, 0, &mut out, &mut waiting).unwrap();
/// waiting[0] = 1;
/// intake.announce(4, 2);
/// ```
#[derive(Debug)]
pub struct Intake<'a> {
    state: State,
    out: &'a mut [u8],
    waiting: &'a mut [u8],
}

impl<'a> Intake<'a> {
    /// Opens a new volume shard. Refusal 1, also for a mesh, 5, or 13 where the
    /// shard index passes `out`.
    ///
    /// ```
    /// use coronagamba::{Intake, Refusal, Sharding};
    ///
    /// let sharding = Sharding { preshift: 0, hash: 0, minishard_bits: 1, shard_bits: 0, kind: 0 };
    /// let mut out = [7; 31];
    /// let refusal = Intake::open(sharding, 0, &mut out, &mut []).unwrap_err();
    /// assert_eq!(refusal.number, Refusal::NO_ROOM);
    /// assert_eq!(out, [7; 31]);
    ///
    /// let mesh = Sharding { kind: Sharding::MESH, ..sharding };
    /// let refusal = Intake::open(mesh, 0, &mut out, &mut []).unwrap_err();
    /// assert_eq!(refusal.number, Refusal::SHARDING_NOT_ALLOWED);
    /// ```
    pub fn open(
        sharding: Sharding,
        number: u64,
        out: &'a mut [u8],
        waiting: &'a mut [u8],
    ) -> Result<Self, Refusal> {
        let state = State::open(sharding, number, out, waiting)?;
        Ok(Intake {
            state,
            out,
            waiting,
        })
    }

    /// Announces the next chunk and its number of bytes, which are owed from then
    /// on. Refusal 10 for an id of another shard; 25 where its minishard is below
    /// the open one, or the same and its id not above the last; 26 while bytes of
    /// the chunk before are owed; 13 where the form of all that was announced, this
    /// chunk included, would pass the output or 1 GiB, or the second buffer has no
    /// 16 bytes left.
    ///
    /// ```
    /// use coronagamba::{Intake, Refusal, Sharding};
    ///
    /// let sharding = Sharding { preshift: 0, hash: 0, minishard_bits: 1, shard_bits: 0, kind: 0 };
    /// let (mut out, mut waiting) = ([0; 100], [0; 16]);
    /// let mut intake = Intake::open(sharding, 0, &mut out, &mut waiting)?;
    /// // Id 4 is of minishard 0, id 5 of minishard 1.
    /// intake.announce(5, 1)?.part(b"a")?;
    /// let refusal = intake.announce(4, 1).unwrap_err();
    /// assert_eq!(refusal.number, Refusal::INTAKE_ORDER);
    /// // The second buffer has room for one chunk of a minishard.
    /// let refusal = intake.announce(7, 1).unwrap_err();
    /// assert_eq!(refusal.number, Refusal::NO_ROOM);
    /// assert_eq!(intake.close()?.len(), 32 + 24 + 1);
    /// # Ok::<(), coronagamba::Refusal>(())
    /// ```
    pub fn announce(&mut self, id: u64, size: u64) -> Result<Announced<'_>, Refusal> {
        self.state.announce(id, size, self.out, self.waiting)?;
        Ok(self.announced())
    }

    /// The chunk that bytes are still owed of, to go on with its parts; `None`
    /// where nothing is owed.
    ///
    /// ```
    /// use coronagamba::{Intake, Sharding};
    ///
    /// let sharding = Sharding { preshift: 0, hash: 0, minishard_bits: 1, shard_bits: 0, kind: 0 };
    /// let (mut out, mut waiting) = ([0; 100], [0; 16]);
    /// let mut intake = Intake::open(sharding, 0, &mut out, &mut waiting)?;
    /// assert!(intake.owing().is_none());
    /// intake.announce(4, 2)?.part(b"a")?;
    /// assert_eq!(intake.owed(), 1);
    /// intake.owing().expect("a byte is owed").part(b"b")?;
    /// assert!(intake.owing().is_none());
    /// # Ok::<(), coronagamba::Refusal>(())
    /// ```
    pub fn owing(&mut self) -> Option<Announced<'_>> {
        (self.owed() > 0).then(|| self.announced())
    }

    fn announced(&mut self) -> Announced<'_> {
        Announced {
            state: &mut self.state,
            out: self.out,
            waiting: self.waiting,
        }
    }

    /// Closes the shard and gives the settled form of what was delivered, which is
    /// the front of the output. Refusal 26 while bytes are owed; the intake comes
    /// back with it, as it was.
    ///
    /// ```
    /// use coronagamba::{Intake, Refusal, Sharding};
    ///
    /// let sharding = Sharding { preshift: 0, hash: 0, minishard_bits: 1, shard_bits: 0, kind: 0 };
    /// let (mut out, mut waiting) = ([0; 100], [0; 16]);
    /// let mut intake = Intake::open(sharding, 0, &mut out, &mut waiting)?;
    /// intake.announce(4, 2)?.part(b"a")?;
    /// let not_closed = intake.close().unwrap_err();
    /// assert_eq!(not_closed.refusal.number, Refusal::INTAKE_OWED);
    ///
    /// let mut intake = not_closed.intake;
    /// intake.owing().expect("a byte is owed").part(b"b")?;
    /// assert_eq!(intake.close()?.len(), 32 + 24 + 2);
    /// # Ok::<(), coronagamba::Refusal>(())
    /// ```
    // The intake comes back as it is: in a box it would take memory of its own.
    #[allow(clippy::result_large_err)]
    pub fn close(mut self) -> Result<&'a [u8], NotClosed<'a>> {
        match self.state.close(self.out, self.waiting) {
            Ok(length) => Ok(&self.out[..length]),
            Err(refusal) => Err(NotClosed {
                intake: self,
                refusal,
            }),
        }
    }

    /// How many bytes are owed of the chunk that was announced last.
    pub fn owed(&self) -> u64 {
        self.state.owed()
    }

    /// The length of the settled form of all that was announced so far, the bytes
    /// that are owed included. The close gives a form of this length.
    ///
    /// ```
    /// use coronagamba::{Intake, Sharding};
    ///
    /// let sharding = Sharding { preshift: 0, hash: 0, minishard_bits: 1, shard_bits: 0, kind: 0 };
    /// let (mut out, mut waiting) = ([0; 100], [0; 16]);
    /// let mut intake = Intake::open(sharding, 0, &mut out, &mut waiting)?;
    /// assert_eq!(intake.length(), 32);
    /// intake.announce(4, 2)?;
    /// assert_eq!(intake.length(), 32 + 24 + 2);
    /// # Ok::<(), coronagamba::Refusal>(())
    /// ```
    pub fn length(&self) -> u64 {
        self.state.length()
    }
}

/// A chunk that was announced, which takes its bytes in parts of any lengths.
#[derive(Debug)]
pub struct Announced<'a> {
    state: &'a mut State,
    out: &'a mut [u8],
    waiting: &'a [u8],
}

impl Announced<'_> {
    /// Hands over the next bytes; there may be none. Refusal 26 where they are more
    /// than are owed, of which none is taken then.
    ///
    /// ```
    /// use coronagamba::{Intake, Refusal, Sharding};
    ///
    /// let sharding = Sharding { preshift: 0, hash: 0, minishard_bits: 1, shard_bits: 0, kind: 0 };
    /// let (mut out, mut waiting) = ([0; 100], [0; 16]);
    /// let mut intake = Intake::open(sharding, 0, &mut out, &mut waiting)?;
    /// let mut chunk = intake.announce(4, 2)?;
    /// assert_eq!(chunk.part(b"abc").unwrap_err().number, Refusal::INTAKE_OWED);
    /// chunk.part(b"")?;
    /// chunk.part(b"ab")?;
    /// assert_eq!(chunk.owed(), 0);
    /// # Ok::<(), coronagamba::Refusal>(())
    /// ```
    pub fn part(&mut self, bytes: &[u8]) -> Result<(), Refusal> {
        self.state.part(bytes, self.out, self.waiting)
    }

    /// How many bytes are still owed.
    pub fn owed(&self) -> u64 {
        self.state.owed()
    }
}

/// A close that was refused, and the intake as it was.
#[derive(Debug)]
pub struct NotClosed<'a> {
    /// The intake, to go on with.
    pub intake: Intake<'a>,
    /// Why it was not closed.
    pub refusal: Refusal,
}

impl fmt::Display for NotClosed<'_> {
    fn fmt(&self, f: &mut fmt::Formatter<'_>) -> fmt::Result {
        self.refusal.fmt(f)
    }
}

impl Error for NotClosed<'_> {}

impl From<NotClosed<'_>> for Refusal {
    fn from(not_closed: NotClosed<'_>) -> Self {
        not_closed.refusal
    }
}

/// An intake between two calls, in plain numbers: for programs that cannot leave
/// the buffers borrowed. Each call is lent the state and both buffers as the last
/// call left them.
///
/// Any numbers may stand here, and no call touches anything out of bounds. Each
/// call judges them, with 25 where they contradict each other, the buffers'
/// lengths or the last pair of the second buffer. The [`close`](State::close),
/// and an announcement in another minishard than the open one, judge all pairs of
/// the open one: 25 where an id does not rise or belongs elsewhere, or where the
/// sizes together are not the bytes that came of it and are owed. No call judges
/// the bytes that were written to the output, nor whether a minishard before the
/// open one can have an id. What passes is believed: the promise of the close is
/// for numbers and buffers that calls left.
///
/// ```
/// use coronagamba::intake::State;
/// use coronagamba::{Refusal, Sharding};
///
/// let sharding = Sharding { preshift: 0, hash: 0, minishard_bits: 1, shard_bits: 0, kind: 0 };
/// let (mut out, mut waiting) = ([0; 100], [0; 16]);
/// let mut state = State::open(sharding, 0, &mut out, &waiting)?;
/// state.announce(4, 2, &mut out, &mut waiting)?;
/// state.part(b"ab", &mut out, &waiting)?;
///
/// // The numbers may be kept wherever the buffers are.
/// let mut state = State { numbers: state.numbers };
/// let refusal = state.part(b"", &mut out[1..], &waiting).unwrap_err();
/// assert_eq!(refusal.number, Refusal::INTAKE_BUFFERS);
/// assert_eq!(state.close(&mut out, &waiting)?, 32 + 24 + 2);
/// let refusal = state.announce(6, 0, &mut out, &mut waiting).unwrap_err();
/// assert_eq!(refusal.number, Refusal::INTAKE_ORDER);
/// # Ok::<(), coronagamba::Refusal>(())
/// ```
#[derive(Clone, Copy, Debug, PartialEq, Eq, Hash)]
pub struct State {
    /// The numbers, as the C interface has them.
    pub numbers: [u64; INTAKE_NUMBERS],
}

/// Where the numbers stand that are told: the minishard bits, the chunks of the
/// open minishard, the bytes behind the shard index so far, and those owed.
const MINISHARD_BITS: usize = 2;
const COUNT: usize = 9;
const NEXT: usize = 12;
const OWED: usize = 13;

impl State {
    /// Opens a new volume shard, as [`Intake::open`] does.
    pub fn open(
        sharding: Sharding,
        number: u64,
        out: &mut [u8],
        waiting: &[u8],
    ) -> Result<State, Refusal> {
        let mut numbers = [0; INTAKE_NUMBERS];
        // SAFETY: each pointer and count are those of one live slice; `out` and
        // the numbers are lent to this call alone.
        answer(unsafe {
            ffi::coronagamba_intake_open(
                sharding.into(),
                number,
                out.as_mut_ptr(),
                out.len(),
                waiting.as_ptr(),
                waiting.len(),
                &mut numbers,
            )
        })?;
        Ok(State { numbers })
    }

    /// Announces a chunk. Refusal 30 where a buffer has another length than on
    /// opening, then as [`Intake::announce`]; 25 also after the close, and where
    /// the numbers contradict each other or the last pair of `waiting` or, in
    /// another minishard than the open one, any pair of that.
    pub fn announce(
        &mut self,
        id: u64,
        size: u64,
        out: &mut [u8],
        waiting: &mut [u8],
    ) -> Result<(), Refusal> {
        // SAFETY: each pointer and count are those of one live slice; both slices
        // and the numbers are lent to this call alone.
        answer(unsafe {
            ffi::coronagamba_intake_announce(
                &mut self.numbers,
                id,
                size,
                out.as_mut_ptr(),
                out.len(),
                waiting.as_mut_ptr(),
                waiting.len(),
            )
        })
    }

    /// Hands over the next bytes. Refusal 30, 25 after the close and where the
    /// numbers contradict each other or the last pair of `waiting`, or 26 where
    /// the bytes are more than are owed.
    pub fn part(&mut self, bytes: &[u8], out: &mut [u8], waiting: &[u8]) -> Result<(), Refusal> {
        // SAFETY: each pointer and count are those of one live slice; `out` and
        // the numbers are lent to this call alone.
        answer(unsafe {
            ffi::coronagamba_intake_part(
                &mut self.numbers,
                bytes.as_ptr(),
                bytes.len(),
                out.as_mut_ptr(),
                out.len(),
                waiting.as_ptr(),
                waiting.len(),
            )
        })
    }

    /// Closes the shard and gives the length of its settled form, with which `out`
    /// then begins. Refusal 30, 25 after the close and where the numbers contradict
    /// each other or any pair of `waiting`, or 26 while bytes are owed.
    pub fn close(&mut self, out: &mut [u8], waiting: &[u8]) -> Result<usize, Refusal> {
        // SAFETY: each pointer and count are those of one live slice; `out`, the
        // numbers and the result are lent to this call alone.
        written(|length| unsafe {
            ffi::coronagamba_intake_close(
                &mut self.numbers,
                out.as_mut_ptr(),
                out.len(),
                waiting.as_ptr(),
                waiting.len(),
                length,
            )
        })
    }

    /// How many bytes are owed, by the numbers.
    pub fn owed(&self) -> u64 {
        self.numbers[OWED]
    }

    /// The length of the settled form of all that was announced, by the numbers of
    /// a state that calls have left before the close.
    pub fn length(&self) -> u64 {
        let index = (MINISHARD_BYTES as u64) << self.numbers[MINISHARD_BITS].min(16);
        let rows = self.numbers[COUNT].saturating_mul(CHUNK_BYTES as u64);
        let data = self.numbers[NEXT].saturating_add(self.numbers[OWED]);
        index.saturating_add(data).saturating_add(rows)
    }
}
