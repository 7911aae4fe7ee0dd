//! Refusals of an info file: 19 and 20, and 1 to 3 of what it says. Places are
//! told by line and column, as editors count them, from 1; a column is a
//! character.

use std::ffi::OsStr;
use std::os::unix::ffi::OsStrExt;
use std::path::Path;

use coronagamba::{LabelBits, Refusal, Sharding, Volume};

use super::places::{bad_fields, told_bits, told_fields, told_zeros, zero_extents};
use super::words::{Diagnosis, Place};
use crate::text::shown;

/// The greatest depth of a value; the outermost one has depth 1.
const MOST_DEPTH: usize = 32;

/// The most characters that are shown of a string or number.
const MOST_SHOWN: usize = 60;

/// A refusal of an info file's scale: 19, 20, 1, 2 or 3.
pub fn of_info(text: &[u8], scale: u64, refusal: Refusal) -> Diagnosis {
    let text = Text::new(text);
    let judged = text.judge();
    let told = match (refusal.number, judged) {
        (19, Err(wrong)) => Some(text.told(wrong)),
        (20, Ok(())) => text.settings(scale).err().map(|wrong| text.told(wrong)),
        (1..=3, Ok(())) => {
            let settings = text.settings(scale).ok();
            settings.and_then(|settings| text.of_meaning(&settings, refusal.number))
        }
        _ => None,
    };
    told.unwrap_or_else(Diagnosis::not_found_again)
}

/// What an info file says of the labels in a scale's chunks, where it says it.
/// The library reads the settings of the shards alone.
#[derive(Clone, Copy, Debug, Default, PartialEq, Eq)]
pub struct InfoLabels {
    /// The extents of a block.
    pub block: Option<[u32; 3]>,
    /// How many channels there are.
    pub channels: Option<u32>,
    /// How many bits a label has.
    pub bits: Option<LabelBits>,
}

/// What an info file says of the labels of a scale that the library has read; an
/// error in words where these are no labels of the compressed segmentation
/// encoding.
pub fn labels_of_info(text: &[u8], scale: u64) -> Result<InfoLabels, String> {
    let text = Text::new(text);
    text.labels(scale).map_err(|wrong| {
        let Place { words, .. } = text.place(wrong.at);
        format!("{} at {words}; expected {}", wrong.found, wrong.expected)
    })
}

/// What is wrong, and where.
struct Wrong {
    at: usize,
    found: String,
    expected: String,
}

/// A value's place, or what is wrong.
type Found<T> = Result<T, Wrong>;

/// The settings of a scale with the places of the values.
struct Settings {
    /// The four of the sharding; none for a hash that is not known.
    sharding: [Option<u8>; 4],
    sharding_at: [usize; 4],
    /// Size, then chunk.
    extents: [[u32; 3]; 2],
    extents_at: [usize; 2],
}

/// The text of an info file.
struct Text<'a> {
    bytes: &'a [u8],
    /// How far it is UTF-8.
    utf8: usize,
}

impl<'a> Text<'a> {
    fn new(bytes: &'a [u8]) -> Self {
        let utf8 = match std::str::from_utf8(bytes) {
            Ok(_) => bytes.len(),
            Err(error) => error.valid_up_to(),
        };
        Text { bytes, utf8 }
    }

    fn told(&self, wrong: Wrong) -> Diagnosis {
        Diagnosis::new(wrong.found, wrong.expected, self.place(wrong.at))
    }

    /// A place by line and column.
    fn place(&self, at: usize) -> Place {
        let before = &self.bytes[..at.min(self.bytes.len())];
        let ends = before.iter().filter(|byte| **byte == b'\n').count();
        let line = before.rsplit(|byte| *byte == b'\n').next().unwrap_or(b"");
        // Every character has one byte that is no tail of another.
        let characters = line.iter().filter(|byte| **byte & 0xc0 != 0x80).count();
        Place::text(ends as u64 + 1, characters as u64 + 1, at as u64)
    }

    fn byte(&self, at: usize) -> Option<u8> {
        self.bytes.get(at).copied()
    }

    /// What stands at a place, in words.
    fn seen(&self, at: usize) -> String {
        match self.byte(at) {
            None => "the end of the text".into(),
            Some(byte) if at >= self.utf8 => format!("byte 0x{byte:02x}, which is not UTF-8 here"),
            Some(_) if self.bytes[at..].starts_with("\u{feff}".as_bytes()) => {
                "a byte order mark".into()
            }
            Some(b' ') => "a space".into(),
            Some(byte @ (0..=0x1f | 0x7f)) => format!("the control character 0x{byte:02x}"),
            Some(b'\'') => "a single quote".into(),
            Some(_) => {
                let valid = std::str::from_utf8(&self.bytes[at..self.utf8]).unwrap_or("");
                match valid.chars().next() {
                    Some(letter) => format!("'{}'", shown(Path::new(&letter.to_string()))),
                    None => "a byte of no character".into(),
                }
            }
        }
    }

    /// What stands there is not what was expected.
    fn not<T>(&self, at: usize, expected: impl Into<String>) -> Found<T> {
        Err(Wrong {
            at,
            found: self.seen(at),
            expected: expected.into(),
        })
    }

    /// The whole text as one value.
    fn judge(&self) -> Found<()> {
        let end = self.value(self.space(0), 1)?;
        match self.space(end) {
            end if end == self.bytes.len() => Ok(()),
            more => self.not(more, "the end of the text"),
        }
    }

    /// Behind white space.
    fn space(&self, mut at: usize) -> usize {
        while let Some(b' ' | b'\t' | b'\n' | b'\r') = self.byte(at) {
            at += 1;
        }
        at
    }

    /// Behind the value that begins here, at this depth.
    fn value(&self, at: usize, depth: usize) -> Found<usize> {
        let first = self.byte(at);
        let begins = matches!(
            first,
            Some(b'{' | b'[' | b'"' | b'-' | b'0'..=b'9' | b't' | b'f' | b'n')
        );
        if begins && depth > MOST_DEPTH {
            return Err(Wrong {
                at,
                found: format!("a value at depth {depth}"),
                expected: format!(
                    "values at most {MOST_DEPTH} deep, the outermost being at depth 1"
                ),
            });
        }
        match first {
            Some(b'{') => self.object(at, depth),
            Some(b'[') => self.array(at, depth),
            Some(b'"') => self.string(at),
            Some(b'-' | b'0'..=b'9') => self.number(at),
            Some(b't') => self.word(at, "true"),
            Some(b'f') => self.word(at, "false"),
            Some(b'n') => self.word(at, "null"),
            _ => self.not(at, "a value"),
        }
    }

    fn word(&self, at: usize, word: &str) -> Found<usize> {
        let matching = self.bytes[at..].iter().zip(word.bytes());
        let length = matching
            .take_while(|(found, wanted)| **found == *wanted)
            .count();
        if length == word.len() {
            return Ok(at + length);
        }
        self.not(at + length, format!("'{word}'"))
    }

    fn array(&self, at: usize, depth: usize) -> Found<usize> {
        let mut at = self.space(at + 1);
        if self.byte(at) == Some(b']') {
            return Ok(at + 1);
        }
        loop {
            at = self.space(self.value(at, depth + 1)?);
            match self.byte(at) {
                Some(b']') => return Ok(at + 1),
                Some(b',') => at = self.space(at + 1),
                _ => return self.not(at, "',' or ']'"),
            }
        }
    }

    fn object(&self, at: usize, depth: usize) -> Found<usize> {
        let mut at = self.space(at + 1);
        if self.byte(at) == Some(b'}') {
            return Ok(at + 1);
        }
        loop {
            let value = self.member_value(at)?;
            at = self.space(self.value(value, depth + 1)?);
            match self.byte(at) {
                Some(b'}') => return Ok(at + 1),
                Some(b',') => at = self.space(at + 1),
                _ => return self.not(at, "',' or '}'"),
            }
        }
    }

    /// Where the value of a member begins.
    fn member_value(&self, at: usize) -> Found<usize> {
        if self.byte(at) != Some(b'"') {
            return self.not(at, "a name in double quotes");
        }
        let colon = self.space(self.string(at)?);
        match self.byte(colon) {
            Some(b':') => Ok(self.space(colon + 1)),
            _ => self.not(colon, "':'"),
        }
    }

    fn string(&self, at: usize) -> Found<usize> {
        let mut at = at + 1;
        loop {
            match self.byte(at) {
                Some(_) if at >= self.utf8 => return self.not(at, "text in UTF-8"),
                Some(b'"') => return Ok(at + 1),
                Some(b'\\') => at = self.escape(at + 1)?,
                Some(0..=0x1f) => return self.not(at, "an escape in its place"),
                Some(_) => at += 1,
                None => return self.not(at, "'\"', the end of the string"),
            }
        }
    }

    /// Behind what follows a backslash.
    fn escape(&self, at: usize) -> Found<usize> {
        match self.byte(at) {
            Some(b'"' | b'\\' | b'/' | b'b' | b'f' | b'n' | b'r' | b't') => Ok(at + 1),
            Some(b'u') => {
                let wrong = (at + 1..at + 5).find(|at| {
                    let digit = self.byte(*at).is_some_and(|byte| byte.is_ascii_hexdigit());
                    !digit
                });
                match wrong {
                    None => Ok(at + 5),
                    Some(at) => self.not(at, "four hexadecimal digits behind \\u"),
                }
            }
            _ => self.not(at, "one of \" \\ / b f n r t u behind a backslash"),
        }
    }

    fn number(&self, at: usize) -> Found<usize> {
        let begin = at + usize::from(self.byte(at) == Some(b'-'));
        let mut at = match self.byte(begin) {
            Some(b'0') => begin + 1,
            _ => self.digits(begin)?,
        };
        if self.byte(at).is_some_and(|byte| byte.is_ascii_digit()) {
            return self.not(at, "no digit behind a leading 0");
        }
        if self.byte(at) == Some(b'.') {
            at = self.digits(at + 1)?;
        }
        if let Some(b'e' | b'E') = self.byte(at) {
            let sign = matches!(self.byte(at + 1), Some(b'+' | b'-'));
            at = self.digits(at + 1 + usize::from(sign))?;
        }
        Ok(at)
    }

    fn digits(&self, begin: usize) -> Found<usize> {
        let mut at = begin;
        while self.byte(at).is_some_and(|byte| byte.is_ascii_digit()) {
            at += 1;
        }
        if at == begin {
            return self.not(at, "a digit");
        }
        Ok(at)
    }
}

/// What a JSON text says; it was judged before.
impl Text<'_> {
    /// A value in words.
    fn kind(&self, at: usize) -> String {
        match self.byte(at) {
            Some(b'{') => "an object".into(),
            Some(b'[') => "an array".into(),
            _ => {
                let end = self.value(at, 1).unwrap_or(at);
                let end = end.min(at + MOST_SHOWN);
                let written = shown(Path::new(OsStr::from_bytes(&self.bytes[at..end])));
                match self.byte(at) {
                    Some(b'"') => format!("the string {written}"),
                    Some(b'-' | b'0'..=b'9') => format!("the number {written}"),
                    _ => written,
                }
            }
        }
    }

    /// A value is of another kind than was expected.
    fn wrong<T>(&self, at: usize, expected: impl Into<String>) -> Found<T> {
        Err(Wrong {
            at,
            found: self.kind(at),
            expected: expected.into(),
        })
    }

    /// Goes to each element of an array or member of an object, by the place
    /// of its value and of its name.
    fn each(&self, at: usize, mut visit: impl FnMut(usize, usize) -> Found<()>) -> Found<()> {
        let object = self.byte(at) == Some(b'{');
        let mut at = self.space(at + 1);
        if let Some(b'}' | b']') = self.byte(at) {
            return Ok(());
        }
        loop {
            let value = if object { self.member_value(at)? } else { at };
            visit(value, at)?;
            at = self.space(self.value(value, 1)?);
            match self.byte(at) {
                Some(b',') => at = self.space(at + 1),
                _ => return Ok(()),
            }
        }
    }

    /// The value of a used member, where it stands in an object once.
    fn member(&self, object: usize, name: &str) -> Found<Option<usize>> {
        if self.byte(object) != Some(b'{') {
            return self.wrong(object, format!("an object with the member \"{name}\""));
        }
        let mut found = None;
        self.each(object, |value, named| {
            if !self.is(named, name) {
                return Ok(());
            }
            match found.replace(value) {
                None => Ok(()),
                Some(_) => Err(Wrong {
                    at: named,
                    found: format!("the member \"{name}\" for the second time"),
                    expected: format!("\"{name}\" once in this object"),
                }),
            }
        })?;
        Ok(found)
    }

    /// The value of a needed member.
    fn needed(&self, object: usize, name: &str) -> Found<usize> {
        self.member(object, name)?.ok_or_else(|| Wrong {
            at: object,
            found: format!("an object without the member \"{name}\""),
            expected: format!("\"{name}\" in this object"),
        })
    }

    /// Whether the string that begins here is this one, escapes undone.
    fn is(&self, at: usize, wanted: &str) -> bool {
        self.is_by(at, wanted, |found, wanted| found == wanted)
    }

    /// The same without regard to the case of ASCII letters, as the format compares the names of data types and encodings.
    fn is_in_any_case(&self, at: usize, wanted: &str) -> bool {
        let lower = |unit: u32| match unit {
            0x41..=0x5A => unit + 0x20,
            _ => unit,
        };
        self.is_by(at, wanted, |found, wanted| lower(found) == lower(wanted))
    }

    fn is_by(&self, at: usize, wanted: &str, same: impl Fn(u32, u32) -> bool) -> bool {
        let mut at = at + 1;
        let mut wanted = wanted.bytes();
        loop {
            let (found, behind) = match self.byte(at) {
                Some(b'"') => return wanted.next().is_none(),
                Some(b'\\') => self.unescaped(at + 1),
                Some(byte) => (u32::from(byte), at + 1),
                None => return false,
            };
            if !wanted
                .next()
                .is_some_and(|wanted| same(found, u32::from(wanted)))
            {
                return false;
            }
            at = behind;
        }
    }

    /// What an escape means, as far as one of ASCII is meant, and what is
    /// behind it.
    fn unescaped(&self, at: usize) -> (u32, usize) {
        let plain = match self.byte(at) {
            Some(b'b') => 8,
            Some(b'f') => 12,
            Some(b'n') => 10,
            Some(b'r') => 13,
            Some(b't') => 9,
            Some(b'u') => {
                let digits = self.bytes.get(at + 1..at + 5).unwrap_or(b"");
                let digits = std::str::from_utf8(digits).unwrap_or("");
                let unit = u32::from_str_radix(digits, 16);
                return (unit.unwrap_or(u32::MAX), at + 5);
            }
            Some(byte) => byte.into(),
            None => u32::MAX,
        };
        (plain, at + 1)
    }

    /// An array's elements, where there are exactly so many.
    fn exactly<const N: usize>(&self, at: usize, expected: &str) -> Found<[usize; N]> {
        if self.byte(at) != Some(b'[') {
            return self.wrong(at, expected);
        }
        let (mut places, mut count) = ([at; N], 0);
        self.each(at, |element, _| {
            if let Some(place) = places.get_mut(count) {
                *place = element;
            }
            count += 1;
            Ok(())
        })?;
        if count == N {
            return Ok(places);
        }
        Err(Wrong {
            at,
            found: format!("an array of {count}"),
            expected: expected.into(),
        })
    }

    /// A whole number of a card's field.
    fn whole<T: TryFrom<i64>>(&self, at: usize, range: &str) -> Found<T> {
        let end = self.value(at, 1)?;
        let written = std::str::from_utf8(&self.bytes[at..end]).unwrap_or("");
        let digits = written.strip_prefix('-').unwrap_or(written);
        let plain = digits.bytes().all(|byte| byte.is_ascii_digit());
        let number = written.parse::<i64>().ok().filter(|_| plain);
        match number.and_then(|number| T::try_from(number).ok()) {
            Some(number) => Ok(number),
            None => self.wrong(
                at,
                format!("a whole number from {range}, without fraction or exponent"),
            ),
        }
    }

    fn three<T: TryFrom<i64> + Default + Copy>(&self, at: usize, range: &str) -> Found<[T; 3]> {
        let places = self.exactly::<3>(at, "an array of three whole numbers")?;
        let mut numbers = [T::default(); 3];
        for (number, place) in numbers.iter_mut().zip(places) {
            *number = self.whole(place, range)?;
        }
        Ok(numbers)
    }

    /// A string that must be this one.
    fn text(&self, at: usize, wanted: &str) -> Found<()> {
        match self.byte(at) {
            Some(b'"') if self.is(at, wanted) => Ok(()),
            _ => self.wrong(at, format!("\"{wanted}\"")),
        }
    }

    /// The place of a scale.
    fn scale(&self, scale: u64) -> Found<usize> {
        let scales = self.needed(self.space(0), "scales")?;
        if self.byte(scales) != Some(b'[') {
            return self.wrong(scales, "an array of scales");
        }
        let (mut found, mut count) = (None, 0);
        self.each(scales, |element, _| {
            if count == scale {
                found = Some(element);
            }
            count += 1;
            Ok(())
        })?;
        found.ok_or_else(|| Wrong {
            at: scales,
            found: match count {
                0 => "no scale".into(),
                1 => "one scale, number 0".into(),
                _ => format!("{count} scales, numbers 0 to {}", count - 1),
            },
            expected: format!("a scale number {scale}"),
        })
    }

    /// The settings of a scale, or the first fault of 20.
    fn settings(&self, scale: u64) -> Found<Settings> {
        const U32: &str = "0 to 4294967295";
        let scale = self.scale(scale)?;
        let size = self.needed(scale, "size")?;
        let chunks = self.needed(scale, "chunk_sizes")?;
        let [chunk] = self.exactly(chunks, "an array of one chunk size")?;
        let extents = [self.three(size, U32)?, self.three(chunk, U32)?];
        if let Some(offset) = self.member(scale, "voxel_offset")? {
            self.three::<i32>(offset, "-2147483648 to 2147483647")?;
        }
        let object = self.needed(scale, "sharding")?;
        self.text(
            self.needed(object, "@type")?,
            "neuroglancer_uint64_sharded_v1",
        )?;
        let names = ["preshift_bits", "hash", "minishard_bits", "shard_bits"];
        let (mut sharding, mut sharding_at) = ([None; 4], [0; 4]);
        for (place, name) in names.into_iter().enumerate() {
            let at = self.needed(object, name)?;
            sharding_at[place] = at;
            sharding[place] = match name {
                "hash" => self.hash(at)?,
                _ => Some(self.whole(at, "0 to 255")?),
            };
        }
        for name in ["minishard_index_encoding", "data_encoding"] {
            if let Some(encoding) = self.member(object, name)? {
                self.text(encoding, "raw")?;
            }
        }
        Ok(Settings {
            sharding,
            sharding_at,
            extents,
            extents_at: [size, chunk],
        })
    }

    /// The number of a hash, where it is known.
    fn hash(&self, at: usize) -> Found<Option<u8>> {
        if self.byte(at) != Some(b'"') {
            return self.wrong(at, "the name of a hash, a string");
        }
        let names = ["identity", "murmurhash3_x86_128"];
        let known = names.iter().position(|name| self.is(at, name));
        Ok(known.map(|number| number as u8))
    }

    /// What is said of the labels of a scale.
    fn labels(&self, scale: u64) -> Found<InfoLabels> {
        const U32: &str = "0 to 4294967295";
        let (whole, scale) = (self.space(0), self.scale(scale)?);
        if let Some(encoding) = self.member(scale, "encoding")? {
            let wanted = "compressed_segmentation";
            if self.byte(encoding) != Some(b'"') || !self.is_in_any_case(encoding, wanted) {
                return self.wrong(encoding, format!("\"{wanted}\""));
            }
        }
        let block = self.member(scale, "compressed_segmentation_block_size")?;
        let channels = self.member(whole, "num_channels")?;
        let data_type = self.member(whole, "data_type")?;
        Ok(InfoLabels {
            block: block.map(|at| self.three(at, U32)).transpose()?,
            channels: channels.map(|at| self.whole(at, U32)).transpose()?,
            bits: data_type.map(|at| self.bits(at)).transpose()?,
        })
    }

    /// The width of a label, by the name of its type.
    fn bits(&self, at: usize) -> Found<LabelBits> {
        match self.byte(at) {
            Some(b'"') if self.is_in_any_case(at, "uint32") => Ok(LabelBits::B32),
            Some(b'"') if self.is_in_any_case(at, "uint64") => Ok(LabelBits::B64),
            _ => self.wrong(at, "\"uint32\" or \"uint64\", the types of labels"),
        }
    }

    /// Refusal 1, 2 or 3 of what the text says.
    fn of_meaning(&self, settings: &Settings, number: u8) -> Option<Diagnosis> {
        let [preshift, hash, minishard_bits, shard_bits] = settings.sharding;
        let [size, chunk] = settings.extents;
        let volume = Volume::new(size, chunk, [0; 3]);
        let place = |at: &[usize]| Place::all(at.iter().map(|at| self.place(*at)).collect());
        match number {
            1 => {
                let Some(hash) = hash else {
                    let at = settings.sharding_at[1];
                    let expected = "\"identity\" or \"murmurhash3_x86_128\"";
                    return Some(Diagnosis::new(self.kind(at), expected, self.place(at)));
                };
                let bad = bad_fields(&Sharding {
                    preshift: preshift?,
                    hash,
                    minishard_bits: minishard_bits?,
                    shard_bits: shard_bits?,
                    kind: Sharding::VOLUME,
                });
                let at: Vec<usize> = bad
                    .iter()
                    .map(|bad| settings.sharding_at[bad.place])
                    .collect();
                Some(told_fields(&bad, place(&at)))
            }
            2 => {
                let zeros = zero_extents(&volume);
                let mut at: Vec<usize> = zeros
                    .iter()
                    .map(|zero| settings.extents_at[zero / 3])
                    .collect();
                at.dedup();
                (!zeros.is_empty()).then(|| told_zeros(&zeros, place(&at)))
            }
            3 => Some(told_bits(&volume, place(&settings.extents_at))),
            _ => None,
        }
    }
}

#[cfg(test)]
mod tests {
    use super::*;
    use coronagamba::Card;

    const INFO: &str = r#"{"type": "image",
 "scales": [
  {"key": "é", "size": [300, 260, 200], "chunk_sizes": [[64, 64, 64]], "voxel_offset": [-64, 0, 0],
   "sharding": {"@type": "neuroglancer_uint64_sharded_v1", "preshift_bits": 1,
    "hash": "identity", "minishard_bits": 1, "shard_bits": 3, "data_encoding": "raw"}}]}
"#;

    /// The library's refusal of a text, explained.
    fn told_of(text: &[u8], scale: u64, number: u8) -> Diagnosis {
        let refusal = Card::read_info(text, scale).expect_err("a refusal");
        assert_eq!(refusal.number, number, "{}", text.escape_ascii());
        of_info(text, scale, refusal)
    }

    /// The same after an edit at the one place where `old` stands.
    fn told(old: &str, new: impl AsRef<[u8]>, number: u8) -> [String; 3] {
        let parts: Vec<&str> = INFO.split(old).collect();
        assert_eq!(parts.len(), 2, "{old}");
        let text = [parts[0].as_bytes(), new.as_ref(), parts[1].as_bytes()].concat();
        let told = told_of(&text, 0, number);
        [told.found, told.expected, told.look_at]
    }

    #[test]
    fn what_is_said_of_labels() {
        let none = InfoLabels::default();
        assert_eq!(labels_of_info(INFO.as_bytes(), 0), Ok(none));
        let of = |head: &str, scale: &str| {
            let text = INFO.replace("{\"type\"", &format!("{{{head}\"type\""));
            let text = text.replace("{\"key\"", &format!("{{{scale}\"key\""));
            labels_of_info(text.as_bytes(), 0)
        };
        let head = r#""data_type": "uint64", "num_channels": 2, "#;
        let scale = r#""encoding": "compressed_segmentation",
            "compressed_segmentation_block_size": [8, 4, 2], "#;
        let all = InfoLabels {
            block: Some([8, 4, 2]),
            channels: Some(2),
            bits: Some(LabelBits::B64),
        };
        assert_eq!(of(head, scale), Ok(all));
        let shouted = (
            head.replace("uint", "UInt"),
            scale.replace(": \"comp", ": \"\\u0043omP"),
        );
        assert_eq!(of(&shouted.0, &shouted.1), Ok(all));
        let bits = Some(LabelBits::B32);
        assert_eq!(
            of(&head.replace("64", "32"), ""),
            Ok(InfoLabels {
                block: None,
                bits,
                ..all
            })
        );
        for (head, scale, told) in [
            (
                r#""data_type": "uint8", "#,
                "",
                "the string \"uint8\" at line 1, column 15 (byte 14); expected \"uint32\" or \
                 \"uint64\", the types of labels",
            ),
            (
                r#""num_channels": 1.0, "#,
                "",
                "the number 1.0 at line 1, column 18 (byte 17); expected a whole number from 0 to \
                 4294967295, without fraction or exponent",
            ),
            (
                "",
                r#""encoding": "raw", "#,
                "the string \"raw\" at line 3, column 16 (byte 46); expected \
                 \"compressed_segmentation\"",
            ),
            (
                "",
                r#""compressed_segmentation_block_size": [8, 8], "#,
                "an array of 2 at line 3, column 42 (byte 72); expected an array of three whole \
                 numbers",
            ),
        ] {
            assert_eq!(of(head, scale), Err(told.to_string()));
        }
    }

    #[test]
    fn the_text_itself_is_read() {
        assert!(Card::read_info(INFO.as_bytes(), 0).is_ok());
    }

    #[test]
    fn what_is_no_json() {
        for (old, new, found, expected, look_at) in [
            (
                "image\",",
                "image\"",
                "'\"'",
                "',' or '}'",
                "line 2, column 2 (byte 18)",
            ),
            (
                "260, 200]",
                "260, 200,]",
                "']'",
                "a value",
                "line 3, column 39",
            ),
            ("200]", "200}", "'}'", "',' or ']'", "line 3, column 38"),
            (
                "\"key\"",
                "key",
                "'k'",
                "a name in double quotes",
                "line 3, column 4",
            ),
            ("\"key\":", "\"key\"", "'\"'", "':'", "line 3, column 10"),
            (
                "\"key\"",
                "'key'",
                "a single quote",
                "a name in double quotes",
                "line 3, column 4",
            ),
            (
                "300",
                "0300",
                "'3'",
                "no digit behind a leading 0",
                "line 3, column 26",
            ),
            ("300", "+300", "'+'", "a value", "line 3, column 25"),
            ("300", "3.", "','", "a digit", "line 3, column 27"),
            ("300", "trve", "'v'", "'true'", "line 3, column 27"),
            (
                "identity",
                "\\q",
                "'q'",
                "one of \" \\ / b f n r t u behind a backslash",
                "line 5, column 15",
            ),
            (
                "identity",
                "\\u12x4",
                "'x'",
                "four hexadecimal digits behind \\u",
                "line 5, column 18",
            ),
            (
                "identity",
                "a\tb",
                "the control character 0x09",
                "an escape in its place",
                "line 5, column 15",
            ),
            (
                "}]}\n",
                "}]}\nx",
                "'x'",
                "the end of the text",
                "line 6, column 1",
            ),
            (
                "}]}\n",
                "}]",
                "the end of the text",
                "',' or '}'",
                "line 5, column 88",
            ),
            (
                "\"raw\"}}]}\n",
                "\"raw",
                "the end of the text",
                "'\"', the end of the string",
                "line 5, column 84",
            ),
        ] {
            let [seen, wanted, place] = told(old, new, 19);
            assert_eq!(
                (seen.as_str(), wanted.as_str()),
                (found, expected),
                "{old} {new}"
            );
            assert!(place.starts_with(look_at), "{old} {new}: {place}");
        }
        let mark = ["\u{feff}", INFO].concat();
        assert_eq!(told_of(mark.as_bytes(), 0, 19).found, "a byte order mark");
        assert_eq!(told_of(b"", 0, 19).found, "the end of the text");
    }

    #[test]
    fn what_is_no_utf8_and_what_is_too_deep() {
        let [found, expected, look_at] = told("identity", b"\xc3(", 19);
        assert_eq!(found, "byte 0xc3, which is not UTF-8 here");
        assert_eq!(expected, "text in UTF-8");
        assert!(look_at.starts_with("line 5, column 14"), "{look_at}");
        let deep = format!("\"a\": {}{}", "[".repeat(32), "]".repeat(32));
        let [found, expected, _] = told("\"type\": \"image\"", deep, 19);
        assert_eq!(found, "a value at depth 33");
        assert_eq!(
            expected,
            "values at most 32 deep, the outermost being at depth 1"
        );
    }

    #[test]
    fn what_are_no_settings() {
        for (old, new, found, expected, look_at) in [
            (
                "\"scales\"",
                "\"scale\"",
                "an object without the member \"scales\"",
                "\"scales\" in this object",
                "line 1, column 1 ",
            ),
            (
                "\"size\"",
                "\"sizes\"",
                "an object without the member \"size\"",
                "\"size\" in this object",
                "line 3, column 3 ",
            ),
            (
                "\"key\": ",
                "\"\\u0073ize\": 1, \"key\": ",
                "the member \"size\" for the second time",
                "\"size\" once in this object",
                "line 3, column 32 ",
            ),
            (
                "[300, ",
                "[",
                "an array of 2",
                "an array of three whole numbers",
                "line 3, column 24 ",
            ),
            (
                "300",
                "3e2",
                "the number 3e2",
                "a whole number from 0 to 4294967295, without fraction or exponent",
                "line 3, column 25 ",
            ),
            (
                "300",
                "\"300\"",
                "the string \"300\"",
                "a whole number from 0 to 4294967295, without fraction or exponent",
                "line 3, column 25 ",
            ),
            (
                "[[64, 64, 64]]",
                "[[64, 64, 64], []]",
                "an array of 2",
                "an array of one chunk size",
                "line 3, column 56 ",
            ),
            (
                "[-64, 0, 0]",
                "null",
                "null",
                "an array of three whole numbers",
                "line 3, column 88 ",
            ),
            (
                "-64",
                "2147483648",
                "the number 2147483648",
                "a whole number from -2147483648 to 2147483647, without fraction or exponent",
                "line 3, column 89 ",
            ),
            (
                "sharded_v1",
                "sharded_v2",
                "the string \"neuroglancer_uint64_sharded_v2\"",
                "\"neuroglancer_uint64_sharded_v1\"",
                "line 4, column 26 ",
            ),
            (
                "\"preshift_bits\": 1",
                "\"preshift_bits\": 256",
                "the number 256",
                "a whole number from 0 to 255, without fraction or exponent",
                "line 4, column 77 ",
            ),
            (
                "\"identity\"",
                "0",
                "the number 0",
                "the name of a hash, a string",
                "line 5, column 13 ",
            ),
            (
                "\"raw\"",
                "\"gzip\"",
                "the string \"gzip\"",
                "\"raw\"",
                "line 5, column 80 ",
            ),
        ] {
            let [seen, wanted, place] = told(old, new, 20);
            assert_eq!(
                (seen.as_str(), wanted.as_str()),
                (found, expected),
                "{old} {new}"
            );
            assert!(place.starts_with(look_at), "{old} {new}: {place}");
        }
        let beyond = told_of(INFO.as_bytes(), 2, 20);
        assert_eq!(beyond.found, "one scale, number 0");
        assert_eq!(beyond.expected, "a scale number 2");
        let other = told_of(b"[1]", 0, 20);
        assert_eq!(other.expected, "an object with the member \"scales\"");
        assert_eq!(other.found, "an array");
    }

    #[test]
    fn what_the_settings_say() {
        let [found, expected, look_at] = told("identity", "sha256", 1);
        assert_eq!(found, "the string \"sha256\"");
        assert_eq!(expected, "\"identity\" or \"murmurhash3_x86_128\"");
        assert!(look_at.starts_with("line 5, column 13 "), "{look_at}");
        let [found, _, look_at] = told("\"preshift_bits\": 1", "\"preshift_bits\": 64", 1);
        assert_eq!(found, "preshift 64");
        assert!(look_at.starts_with("line 4, column 77 "), "{look_at}");
        let [found, _, look_at] = told("260", "0", 2);
        assert_eq!(found, "0 as size along y");
        assert!(look_at.starts_with("line 3, column 24 "), "{look_at}");
        let [found, _, look_at] = told(
            "[300, 260, 200], \"chunk_sizes\": [[64, 64, 64]]",
            "[4294967295, 4294967295, 4294967295], \"chunk_sizes\": [[1, 1, 1]]",
            3,
        );
        assert!(found.ends_with("32 + 32 + 32 = 96 key bits"), "{found}");
        assert!(
            look_at.contains("line 3, column 24 ") && look_at.contains("line 3, column 78 "),
            "{look_at}"
        );
    }

    #[test]
    fn places_are_numbers_too() {
        let told = told_of(b"{\n \"a\": x}", 0, 19);
        assert_eq!((told.line, told.byte), (Some((2, 7)), Some(8)));
        assert_eq!(told.look_at, "line 2, column 7 (byte 8)");
    }
}
