//! Info files in plain Rust, with the same tests: the whole text is judged as
//! JSON before the settings are looked for in it, each object once.

use super::cards::judge;
use coronagamba::{Card, Sharding, Volume};

const MOST_DEPTH: u32 = 32;

/// A place in a text that is JSON, or the number of a refusal.
type Found<T> = Result<T, u8>;

/// What a scale of an info file says, or 19, 20, 1, 2 or 3.
pub fn read(text: &[u8], scale: u64) -> Found<Card> {
    let text = Text(text);
    let end = text.value(text.space(0), MOST_DEPTH)?;
    if text.space(end) != text.0.len() {
        return Err(19);
    }
    let card = text.settings(scale).map_err(|number| match number {
        1 => 1,
        _ => 20,
    })?;
    judge(&card)?;
    Ok(card)
}

struct Text<'a>(&'a [u8]);

impl Text<'_> {
    #[inline]
    fn byte(&self, at: usize) -> u8 {
        // No JSON text has this byte outside a string, and none inside.
        self.0.get(at).copied().unwrap_or(0)
    }

    #[inline]
    fn space(&self, mut at: usize) -> usize {
        while matches!(self.byte(at), b' ' | b'\n' | b'\t' | b'\r') {
            at += 1;
        }
        at
    }

    /// Behind the value that begins here; so many levels are left.
    fn value(&self, at: usize, levels: u32) -> Found<usize> {
        if levels == 0 {
            return Err(19);
        }
        match self.byte(at) {
            b'{' => self.object(at, levels),
            b'[' => self.array(at, levels),
            b'"' => self.string(at),
            b't' => self.word(at, b"true"),
            b'f' => self.word(at, b"false"),
            b'n' => self.word(at, b"null"),
            _ => self.number(at),
        }
    }

    fn word(&self, at: usize, word: &[u8]) -> Found<usize> {
        match self.0[at..].starts_with(word) {
            true => Ok(at + word.len()),
            false => Err(19),
        }
    }

    fn array(&self, at: usize, levels: u32) -> Found<usize> {
        let mut at = self.space(at + 1);
        if self.byte(at) == b']' {
            return Ok(at + 1);
        }
        loop {
            at = self.space(self.value(at, levels - 1)?);
            match self.byte(at) {
                b',' => at = self.space(at + 1),
                b']' => return Ok(at + 1),
                _ => return Err(19),
            }
        }
    }

    fn object(&self, at: usize, levels: u32) -> Found<usize> {
        let mut at = self.space(at + 1);
        if self.byte(at) == b'}' {
            return Ok(at + 1);
        }
        loop {
            at = self.space(self.value(self.behind_name(at)?, levels - 1)?);
            match self.byte(at) {
                b',' => at = self.space(at + 1),
                b'}' => return Ok(at + 1),
                _ => return Err(19),
            }
        }
    }

    /// Where the value of a member begins.
    fn behind_name(&self, at: usize) -> Found<usize> {
        if self.byte(at) != b'"' {
            return Err(19);
        }
        let at = self.space(self.string(at)?);
        match self.byte(at) {
            b':' => Ok(self.space(at + 1)),
            _ => Err(19),
        }
    }

    fn string(&self, at: usize) -> Found<usize> {
        let mut at = at + 1;
        loop {
            at += match self.byte(at) {
                b'"' => return Ok(at + 1),
                b'\\' => self.escape(at + 1)?,
                0..=0x1f => return Err(19),
                0x20..=0x7f => 1,
                _ => self.wide(at)?,
            };
        }
    }

    /// The length of an escape whose letter stands here.
    fn escape(&self, at: usize) -> Found<usize> {
        match self.byte(at) {
            b'"' | b'\\' | b'/' | b'b' | b'f' | b'n' | b'r' | b't' => Ok(2),
            b'u' if (1..5).all(|i| self.byte(at + i).is_ascii_hexdigit()) => Ok(6),
            _ => Err(19),
        }
    }

    /// The length of a character of more than one byte.
    fn wide(&self, at: usize) -> Found<usize> {
        let tail = |i| self.byte(at + i) & 0xc0 == 0x80;
        let second = self.byte(at + 1);
        let length = match (self.byte(at), second) {
            (0xc2..=0xdf, 0x80..=0xbf) => 2,
            (0xe0, 0xa0..=0xbf) | (0xed, 0x80..=0x9f) => 3,
            (0xe1..=0xec | 0xee | 0xef, 0x80..=0xbf) => 3,
            (0xf0, 0x90..=0xbf) | (0xf1..=0xf3, 0x80..=0xbf) | (0xf4, 0x80..=0x8f) => 4,
            _ => return Err(19),
        };
        match (2..length).all(tail) {
            true => Ok(length),
            false => Err(19),
        }
    }

    fn number(&self, at: usize) -> Found<usize> {
        let at = at + usize::from(self.byte(at) == b'-');
        let mut at = match self.byte(at) {
            b'0' => at + 1,
            _ => self.digits(at)?,
        };
        if self.byte(at) == b'.' {
            at = self.digits(at + 1)?;
        }
        if matches!(self.byte(at), b'e' | b'E') {
            let sign = matches!(self.byte(at + 1), b'+' | b'-');
            at = self.digits(at + 1 + usize::from(sign))?;
        }
        Ok(at)
    }

    #[inline]
    fn digits(&self, begin: usize) -> Found<usize> {
        let mut at = begin;
        while self.byte(at).is_ascii_digit() {
            at += 1;
        }
        match at > begin {
            true => Ok(at),
            false => Err(19),
        }
    }
}

/// What is asked of a text that is JSON.
impl Text<'_> {
    /// The values of the members with these names, each there at most once.
    fn members<const N: usize>(&self, at: usize, names: [&str; N]) -> Found<[Option<usize>; N]> {
        let mut found = [None; N];
        if self.byte(at) != b'{' {
            return Err(20);
        }
        let mut at = self.space(at + 1);
        while self.byte(at) == b'"' {
            let value = self.behind_name(at)?;
            if let Some(place) = names.iter().position(|name| self.is(at, name)) {
                if found[place].replace(value).is_some() {
                    return Err(20);
                }
            }
            at = self.space(self.value(value, MOST_DEPTH)?);
            if self.byte(at) == b',' {
                at = self.space(at + 1);
            }
        }
        Ok(found)
    }

    /// Whether the string that begins here is this one, escapes undone.
    fn is(&self, at: usize, wanted: &str) -> bool {
        let mut at = at + 1;
        for wanted in wanted.bytes() {
            let (found, length) = match self.byte(at) {
                b'"' => return false,
                b'\\' => self.unescaped(at + 1),
                byte => (byte.into(), 1),
            };
            if found != u32::from(wanted) {
                return false;
            }
            at += length;
        }
        self.byte(at) == b'"'
    }

    fn unescaped(&self, at: usize) -> (u32, usize) {
        let letter = match self.byte(at) {
            b'b' => 8,
            b'f' => 12,
            b'n' => 10,
            b'r' => 13,
            b't' => 9,
            b'u' => {
                let digit = |i| char::from(self.byte(at + i)).to_digit(16).unwrap_or(0);
                return ((1..5).fold(0, |unit, i| 16 * unit + digit(i)), 6);
            }
            byte => byte.into(),
        };
        (letter, 2)
    }

    /// The element of this number.
    fn element(&self, at: usize, number: u64) -> Found<usize> {
        let mut at = self.first(at)?;
        for _ in 0..number {
            at = self.next(at)?;
        }
        Ok(at)
    }

    /// The first element of an array, if there is one.
    fn first(&self, at: usize) -> Found<usize> {
        let first = self.space(at + 1);
        match self.byte(at) == b'[' && self.byte(first) != b']' {
            true => Ok(first),
            false => Err(20),
        }
    }

    /// The element behind the one that begins here.
    fn next(&self, at: usize) -> Found<usize> {
        let end = self.space(self.value(at, MOST_DEPTH)?);
        match self.byte(end) {
            b',' => Ok(self.space(end + 1)),
            _ => Err(20),
        }
    }

    fn three<T: TryFrom<i64>>(&self, at: usize) -> Found<[T; 3]> {
        let x = self.first(at)?;
        let y = self.next(x)?;
        let z = self.next(y)?;
        match self.next(z) {
            Ok(_) => Err(20),
            Err(_) => Ok([self.whole(x)?, self.whole(y)?, self.whole(z)?]),
        }
    }

    /// A whole number that its field holds.
    fn whole<T: TryFrom<i64>>(&self, at: usize) -> Found<T> {
        let minus = self.byte(at) == b'-';
        let begin = at + usize::from(minus);
        let mut number: i64 = 0;
        let mut end = begin;
        while self.byte(end).is_ascii_digit() {
            let digit = i64::from(self.byte(end) - b'0');
            number = number.saturating_mul(10).saturating_add(digit);
            end += 1;
        }
        let behind = self.byte(end);
        if end == begin || matches!(behind, b'.' | b'e' | b'E') {
            return Err(20);
        }
        T::try_from(if minus { -number } else { number }).map_err(|_| 20)
    }

    fn text(&self, at: usize, wanted: &str) -> bool {
        self.byte(at) == b'"' && self.is(at, wanted)
    }

    fn settings(&self, scale: u64) -> Found<Card> {
        let [scales] = self.members(self.space(0), ["scales"])?;
        let scale = self.element(scales.ok_or(20)?, scale)?;
        let names = ["size", "chunk_sizes", "voxel_offset", "sharding"];
        let [size, chunks, offset, sharding] = self.members(scale, names)?;
        let chunk = self.first(chunks.ok_or(20)?)?;
        if self.next(chunk).is_ok() {
            return Err(20);
        }
        let offset = match offset {
            Some(offset) => self.three(offset)?,
            None => [0; 3],
        };
        let volume = Volume::new(self.three(size.ok_or(20)?)?, self.three(chunk)?, offset);
        let names = [
            "@type",
            "preshift_bits",
            "hash",
            "minishard_bits",
            "shard_bits",
            "minishard_index_encoding",
            "data_encoding",
        ];
        let [kind, preshift, hash, minishards, shards, index, data] =
            self.members(sharding.ok_or(20)?, names)?;
        let raw = |encoding: Option<usize>| encoding.is_none_or(|at| self.text(at, "raw"));
        let typed = self.text(kind.ok_or(20)?, "neuroglancer_uint64_sharded_v1");
        let hash = hash.ok_or(20)?;
        if !typed || !raw(index) || !raw(data) || self.byte(hash) != b'"' {
            return Err(20);
        }
        let bits = |at: Option<usize>| self.whole(at.ok_or(20)?);
        let sharding = Sharding {
            preshift: bits(preshift)?,
            hash: 0,
            minishard_bits: bits(minishards)?,
            shard_bits: bits(shards)?,
            kind: Sharding::VOLUME,
        };
        let hash = match (
            self.is(hash, "identity"),
            self.is(hash, "murmurhash3_x86_128"),
        ) {
            (true, _) => 0,
            (_, true) => 1,
            _ => return Err(1),
        };
        Ok(Card {
            sharding: Sharding { hash, ..sharding },
            volume,
        })
    }
}
