//! Random info files: settings written in many ways, among other members, and
//! damaged in what they say or in their bytes.

use crate::{cards, Rng};
use reference::card::Card;

/// A JSON value, before it is written.
#[derive(Clone, Debug)]
pub enum Json {
    /// A word or a number, or whatever else is to stand there as it is.
    Raw(String),
    /// A string.
    Text(String),
    /// An array.
    Array(Vec<Json>),
    /// An object.
    Object(Vec<(String, Json)>),
}

use Json::{Array, Object, Raw, Text};

impl Json {
    /// A number.
    pub fn number(number: impl ToString) -> Self {
        Raw(number.to_string())
    }

    /// A string.
    pub fn text(text: &str) -> Self {
        Text(text.into())
    }

    /// Three numbers.
    pub fn three<T: ToString>(numbers: [T; 3]) -> Self {
        Array(numbers.map(Json::number).into())
    }

    /// How this is written.
    pub fn written(&self, style: &mut Style) -> Vec<u8> {
        let mut out = Vec::new();
        self.write(&mut out, style);
        out
    }

    fn write(&self, out: &mut Vec<u8>, style: &mut Style) {
        style.space(out);
        match self {
            Raw(text) => out.extend(text.bytes()),
            Text(text) => style.text(out, text),
            Array(elements) => {
                out.push(b'[');
                for (place, element) in elements.iter().enumerate() {
                    if place > 0 {
                        out.push(b',');
                    }
                    element.write(out, style);
                }
                style.space(out);
                out.push(b']');
            }
            Object(members) => {
                out.push(b'{');
                for (place, (name, value)) in members.iter().enumerate() {
                    if place > 0 {
                        out.push(b',');
                    }
                    style.space(out);
                    style.text(out, name);
                    style.space(out);
                    out.push(b':');
                    value.write(out, style);
                }
                style.space(out);
                out.push(b'}');
            }
        }
        style.space(out);
    }
}

/// How a text is written: how often there is white space, and how often a
/// character is escaped, each once in that many times; 0 is never.
pub struct Style<'a> {
    rng: &'a mut Rng,
    spaces: u64,
    escapes: u64,
}

impl<'a> Style<'a> {
    /// A style at random.
    pub fn draw(rng: &'a mut Rng) -> Self {
        let spaces = *rng.pick(&[0, 0, 1, 2, 9]);
        let escapes = *rng.pick(&[0, 0, 0, 2, 30]);
        Style {
            rng,
            spaces,
            escapes,
        }
    }

    fn space(&mut self, out: &mut Vec<u8>) {
        while self.spaces > 0 && self.rng.once_in(self.spaces + 1) {
            out.push(*self.rng.pick(b" \n\t\r"));
        }
    }

    fn text(&mut self, out: &mut Vec<u8>, text: &str) {
        out.push(b'"');
        for letter in text.chars() {
            let must = letter < ' ' || letter == '"' || letter == '\\';
            if must || self.escapes > 0 && self.rng.once_in(self.escapes) {
                self.escape(out, letter);
            } else {
                out.extend(letter.encode_utf8(&mut [0; 4]).bytes());
            }
        }
        out.push(b'"');
    }

    fn escape(&mut self, out: &mut Vec<u8>, letter: char) {
        let short = b"\"\\/\x08\x0c\n\r\t"
            .iter()
            .position(|c| u32::from(*c) == letter.into());
        match short {
            Some(place) if self.rng.once_in(2) => out.extend([b'\\', b"\"\\/bfnrt"[place]]),
            _ => {
                for unit in letter.encode_utf16(&mut [0; 2]) {
                    let digits = match self.rng.below(2) {
                        0 => format!("\\u{unit:04x}"),
                        _ => format!("\\u{unit:04X}"),
                    };
                    out.extend(digits.bytes());
                }
            }
        }
    }
}

/// The published name of a hash.
fn hash_name(rng: &mut Rng, hash: u8) -> &'static str {
    match hash {
        0 => "identity",
        1 => "murmurhash3_x86_128",
        _ => *rng.pick(&[
            "murmur",
            "Identity",
            "identity ",
            "",
            "sha256",
            "identit\u{fe}",
        ]),
    }
}

/// The sharding of a card, as an info file has it.
pub fn sharding(rng: &mut Rng, card: &Card) -> Json {
    let sharding = card.sharding;
    let mut members = vec![
        ("@type".into(), Json::text("neuroglancer_uint64_sharded_v1")),
        ("preshift_bits".into(), Json::number(sharding.preshift)),
        ("hash".into(), Json::text(hash_name(rng, sharding.hash))),
        (
            "minishard_bits".into(),
            Json::number(sharding.minishard_bits),
        ),
        ("shard_bits".into(), Json::number(sharding.shard_bits)),
    ];
    for encoding in ["minishard_index_encoding", "data_encoding"] {
        if rng.once_in(2) {
            members.push((encoding.into(), Json::text("raw")));
        }
    }
    others(rng, &mut members);
    Object(members)
}

/// A scale with the settings of a card.
pub fn scale(rng: &mut Rng, card: &Card) -> Json {
    let volume = card.volume;
    let mut members = vec![
        ("size".into(), Json::three(volume.size)),
        ("chunk_sizes".into(), Array(vec![Json::three(volume.chunk)])),
        ("sharding".into(), sharding(rng, card)),
    ];
    if volume.offset != [0; 3] || rng.once_in(2) {
        members.push(("voxel_offset".into(), Json::three(volume.offset)));
    }
    for (name, value) in [
        ("key", Json::text("8_8_8")),
        ("resolution", Json::three(["8", "8.5", "1e2"])),
        ("encoding", Json::text("compressed_segmentation")),
    ] {
        if rng.once_in(2) {
            members.push((name.into(), value));
        }
    }
    others(rng, &mut members);
    Object(members)
}

/// An info file whose scale of this number has the settings of a card.
pub fn info(rng: &mut Rng, card: &Card, number: usize) -> Json {
    let mut scales: Vec<Json> = (0..number + rng.index(3)).map(|_| other(rng, 3)).collect();
    let scale = scale(rng, card);
    scales.insert(number, scale);
    let mut members = vec![
        ("type".into(), Json::text("image")),
        ("data_type".into(), Json::text("uint8")),
        ("num_channels".into(), Json::number(1)),
        ("scales".into(), Array(scales)),
    ];
    others(rng, &mut members);
    Object(members)
}

/// Puts other members among these, at times with a used one's name but another
/// case or length, and shuffles all.
fn others(rng: &mut Rng, members: &mut Vec<(String, Json)>) {
    for _ in 0..rng.below(3) {
        let name = *rng.pick(&[
            "",
            "a",
            "Size",
            "siz",
            "sizes",
            "scale",
            "@Type",
            "hash\0",
            "shard_bit",
            "\u{1f600}",
            "\"",
            "\\",
        ]);
        let value = other(rng, 3);
        members.push((name.into(), value));
    }
    rng.shuffle(members);
}

/// Any value, this much deeper at most.
fn other(rng: &mut Rng, deeper: usize) -> Json {
    match rng.below(if deeper == 0 { 6 } else { 9 }) {
        0 => Raw("null".into()),
        1 => Raw(rng.pick(&["true", "false"]).to_string()),
        2 => Raw(rng.pick(&NUMBERS).to_string()),
        3 => Json::number(rng.edge_u64()),
        4 | 5 => Text(rng.pick(&TEXTS).to_string()),
        6 => Array((0..rng.below(4)).map(|_| other(rng, deeper - 1)).collect()),
        7 => {
            let mut members = Vec::new();
            for _ in 0..rng.below(4) {
                members.push((rng.pick(&TEXTS).to_string(), other(rng, deeper - 1)));
            }
            Object(members)
        }
        _ => {
            let depth = rng.index(40);
            let inner = other(rng, 0);
            nested(rng, depth, inner)
        }
    }
}

/// A value inside this many arrays and objects.
pub fn nested(rng: &mut Rng, depth: usize, inner: Json) -> Json {
    (0..depth).fold(inner, |inner, _| match rng.below(2) {
        0 => Array(vec![inner]),
        _ => Object(vec![("a".into(), inner)]),
    })
}

const NUMBERS: [&str; 12] = [
    "0",
    "-0",
    "1",
    "-1",
    "0.5",
    "1e5",
    "1E+05",
    "-1.25e-300",
    "4294967296",
    "2147483648",
    "256",
    "123456789012345678901234567890123456789012345678901234567890",
];

const TEXTS: [&str; 14] = [
    "",
    "raw",
    "gzip",
    "size",
    "scales",
    "sharding",
    "identity",
    "hash",
    "a\"b\\c/d",
    "\n\t\r\u{8}\u{c}",
    "\u{7f}",
    "\u{e9}\u{20ac}",
    "\u{1f600}\u{10ffff}",
    "[{\"",
];

/// Changes what a document says at one place.
fn change(rng: &mut Rng, json: &mut Json) {
    // Down to some place, more likely a deep one.
    let deeper = !rng.once_in(6);
    match json {
        Array(elements) if deeper && !elements.is_empty() => {
            let place = rng.index(elements.len());
            change(rng, &mut elements[place]);
        }
        Object(members) if deeper && !members.is_empty() => {
            let place = rng.index(members.len());
            if rng.once_in(4) {
                change_members(rng, members, place);
            } else {
                change(rng, &mut members[place].1);
            }
        }
        Array(elements) if rng.once_in(2) => match rng.below(3) {
            0 => elements.push(Json::number(1)),
            1 => drop(elements.pop()),
            _ => elements.reverse(),
        },
        Raw(number) if rng.once_in(2) => {
            let behind = *rng.pick(&[".0", "e0", "E+0", "0", "00", ".", "e", " "]);
            number.push_str(behind);
        }
        Raw(number) if rng.once_in(2) => {
            let before = *rng.pick(&["-", "0", "+", "1"]);
            number.insert_str(0, before);
        }
        Text(text) if rng.once_in(2) => match rng.below(3) {
            0 => drop(text.pop()),
            1 => text.push('x'),
            _ => *text = text.to_uppercase(),
        },
        _ => *json = other(rng, 3),
    }
}

/// Leaves a member out, doubles it, or gives it another name.
fn change_members(rng: &mut Rng, members: &mut Vec<(String, Json)>, place: usize) {
    match rng.below(4) {
        0 => drop(members.remove(place)),
        1 => {
            let mut again = members[place].clone();
            if rng.once_in(2) {
                again.1 = other(rng, 2);
            }
            let at = rng.index(members.len() + 1);
            members.insert(at, again);
        }
        2 => members[place].0.push('_'),
        _ => members.swap(0, place),
    }
}

/// Bytes that mean something in JSON or break UTF-8.
const PIECES: [&[u8]; 34] = [
    b"{",
    b"}",
    b"[",
    b"]",
    b",",
    b":",
    b"\"",
    b"\\",
    b"\\u",
    b"\\ud800",
    b"\\udc00",
    b"\\u0000",
    b"\\n",
    b"\\x",
    b"0",
    b"-",
    b".",
    b"e",
    b"1",
    b"null",
    b"true",
    b"fals",
    b" ",
    b"\n",
    b"\x00",
    b"\x1f",
    b"\x7f",
    b"\xc3\xa9",
    b"\xc0\x80",
    b"\xed\xa0\x80",
    b"\xf4\x90\x80\x80",
    b"\xef\xbb\xbf",
    b"\xff",
    b"\xe2\x82",
];

/// Changes the bytes of a text at one place.
fn damage(rng: &mut Rng, text: &mut Vec<u8>) {
    let at = rng.index(text.len() + 1);
    match rng.below(7) {
        0 => text.truncate(at),
        1 => drop(text.splice(at..at, rng.pick(&PIECES).iter().copied())),
        2 if at < text.len() => drop(text.remove(at)),
        3 if at < text.len() => text[at] = rng.bits() as u8,
        4 if at < text.len() => drop(text.splice(at..=at, rng.pick(&PIECES).iter().copied())),
        5 => {
            let from = rng.index(at + 1);
            let run = text[from..at].to_vec();
            text.splice(at..at, run);
        }
        _ => text.extend(rng.pick(&PIECES).iter()),
    }
}

/// An info file with the settings of an allowed card, and the scale that has
/// them.
pub fn allowed(rng: &mut Rng) -> (Vec<u8>, u64) {
    loop {
        let card = cards::meaning(rng);
        if reference::card::to_bytes(&card).is_ok() {
            let number = rng.index(3);
            let info = info(rng, &card, number);
            return (info.written(&mut Style::draw(rng)), number as u64);
        }
    }
}

/// A text and a scale: an info file of any settings, changed at times in what
/// it says or in its bytes; now and then any other value.
pub fn text(rng: &mut Rng) -> (Vec<u8>, u64) {
    let number = rng.index(3);
    let mut info = match rng.below(12) {
        0 => {
            let depth = rng.within(28, 36) as usize;
            let inner = other(rng, 0);
            nested(rng, depth, inner)
        }
        1 => other(rng, 5),
        _ => {
            let card = cards::meaning(rng);
            info(rng, &card, number)
        }
    };
    if rng.once_in(2) {
        for _ in 0..rng.within(1, 2) {
            change(rng, &mut info);
        }
    }
    let mut text = info.written(&mut Style::draw(rng));
    if rng.once_in(3) {
        for _ in 0..rng.within(1, 3) {
            damage(rng, &mut text);
        }
    }
    let scale = match rng.below(12) {
        0 => rng.edge_u64(),
        1 => rng.below(5),
        _ => number as u64,
    };
    (text, scale)
}

#[cfg(test)]
mod tests {
    use super::*;
    use crate::Met;
    use reference::info::read;

    #[test]
    fn each_refusal_is_reached_and_each_card_comes_back() {
        let mut rng = Rng::new(1);
        let mut met = Met::new();
        for _ in 0..20_000 {
            let (text, scale) = text(&mut rng);
            met.note(&read(&text, scale));
            let (text, scale) = allowed(&mut rng);
            let read = read(&text, scale);
            // What stands in other members may lie too deep.
            assert!(matches!(read, Ok(_) | Err(19)), "{}", text.escape_ascii());
        }
        met.assert_exactly(&[0, 1, 2, 3, 19, 20]);
    }

    #[test]
    fn a_style_never_changes_what_is_said() {
        let mut rng = Rng::new(2);
        for _ in 0..2_000 {
            let card = cards::meaning(&mut rng);
            let info = info(&mut rng, &card, 0);
            let mut read = || read(&info.written(&mut Style::draw(&mut rng)), 0);
            assert_eq!(read(), read());
        }
    }
}
