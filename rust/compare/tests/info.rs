//! Info files, text by text: each has a name and the number that the rules give
//! it, 0 for success, and library and reference must both give that.

use compare::compare_info;
use std::collections::BTreeMap;
use testkit::infos::nested;
use testkit::infos::{Json, Style};
use testkit::Rng;

/// The settings of one scale, as a published info file has them.
const INFO: &str = r#"{"@type": "neuroglancer_multiscale_volume", "type": "image",
 "data_type": "uint8", "num_channels": 1,
 "scales": [{"chunk_sizes": [[64, 64, 64]], "encoding": "raw", "key": "8_8_8",
   "resolution": [8, 8, 8.5], "size": [6446, 6643, 8090], "voxel_offset": [-64, 0, 7],
   "sharding": {"@type": "neuroglancer_uint64_sharded_v1", "preshift_bits": 9,
     "hash": "murmurhash3_x86_128", "minishard_bits": 6, "shard_bits": 15,
     "minishard_index_encoding": "raw", "data_encoding": "raw"}}],
 "mesh": "mesh"}"#;

const NOT_JSON: u8 = 19;
const NO_SETTINGS: u8 = 20;

/// Texts that were tried, with their numbers.
#[derive(Default)]
struct Tried {
    numbers: BTreeMap<u8, usize>,
}

impl Tried {
    /// Asks both sides for a scale's settings; the number must be this.
    fn scale(&mut self, name: &str, text: impl AsRef<[u8]>, scale: u64, number: u8) {
        let text = text.as_ref();
        let found = std::panic::catch_unwind(|| compare_info(text, scale));
        let found = found.unwrap_or_else(|_| panic!("{name}: the two sides differ"));
        assert_eq!(found, number, "{name}: {}", text.escape_ascii());
        *self.numbers.entry(number).or_default() += 1;
    }

    /// The first scale.
    fn text(&mut self, name: &str, text: impl AsRef<[u8]>, number: u8) {
        self.scale(name, text, 0, number);
    }

    /// The info file after an edit at the one place where `old` stands.
    fn edit(&mut self, name: &str, old: &str, new: impl AsRef<[u8]>, number: u8) {
        self.text(name, edited(old, new), number);
    }

    /// How many texts there were.
    fn count(&self) -> usize {
        self.numbers.values().sum()
    }

    /// Panics unless exactly these numbers were met and at least so many texts
    /// were tried.
    fn assert(&self, numbers: &[u8], least: usize) {
        assert!(self.numbers.keys().eq(numbers), "{:?}", self.numbers);
        assert!(self.count() >= least, "{}", self.count());
    }
}

fn edited(old: &str, new: impl AsRef<[u8]>) -> Vec<u8> {
    let parts: Vec<&str> = INFO.split(old).collect();
    let [before, behind] = parts[..] else {
        panic!("{old} stands {} times", parts.len() - 1);
    };
    [before.as_bytes(), new.as_ref(), behind.as_bytes()].concat()
}

/// What may stand somewhere: values, and the rest.
const VALUES: [&str; 9] = [
    "{}", "[]", "\"a\"", "0", "-1.5e+3", "true", "false", "null", "[{}]",
];
const OTHERS: [&str; 16] = [
    "{", "}", "[", "]", ":", ",", "'a'", "x", "True", "NaN", "+1", "01", "//", "\"", "\\", "\u{e9}",
];

/// A text with a place in it, and what may stand there.
struct Context {
    name: &'static str,
    before: &'static str,
    behind: &'static str,
    allowed: &'static [&'static str],
}

const CONTEXTS: [Context; 15] = {
    const fn context(
        name: &'static str,
        before: &'static str,
        behind: &'static str,
        allowed: &'static [&'static str],
    ) -> Context {
        Context {
            name,
            before,
            behind,
            allowed,
        }
    }
    [
        context("as the whole text", "", "", &VALUES),
        context("before the value", "", " true", &[]),
        context("behind the value", "true ", "", &[]),
        context("as an element", "[ ", " ]", &VALUES),
        context("before an element", "[ ", " true ]", &[]),
        context("behind an element", "[ true ", " ]", &[]),
        context("between elements", "[ true ", " true ]", &[","]),
        context("behind a comma", "[ true , ", " ]", &VALUES),
        context("alone in an object", "{ ", " }", &[]),
        context("as a name", "{ ", " : true }", &["\"a\""]),
        context("behind a name", "{ \"a\" ", " true }", &[":"]),
        context("as a member's value", "{ \"a\" : ", " }", &VALUES),
        context("behind a member", "{ \"a\" : true ", " }", &[]),
        context(
            "between members",
            "{ \"a\" : true ",
            " \"b\" : true }",
            &[","],
        ),
        context(
            "behind a member's comma",
            "{ \"a\" : true , ",
            " : true }",
            &["\"a\""],
        ),
    ]
};

#[test]
fn each_token_in_each_place() {
    let mut tried = Tried::default();
    for Context {
        name,
        before,
        behind,
        allowed,
    } in &CONTEXTS
    {
        for token in VALUES.iter().chain(&OTHERS) {
            let number = match allowed.contains(token) {
                true => NO_SETTINGS,
                false => NOT_JSON,
            };
            let text = format!("{before}{token}{behind}");
            tried.text(&format!("{token} {name}"), text, number);
        }
        let empty = !matches!(
            *name,
            "as an element" | "alone in an object" | "before the value"
        ) && !matches!(
            *name,
            "behind the value" | "before an element" | "behind an element"
        ) && !matches!(*name, "behind a member");
        let number = if empty { NOT_JSON } else { NO_SETTINGS };
        let text = format!("{before}{behind}");
        tried.text(&format!("nothing {name}"), text, number);
    }
    tried.assert(&[NOT_JSON, NO_SETTINGS], 15 * 26);
}

#[test]
fn each_byte_as_space() {
    let mut tried = Tried::default();
    for byte in 0..=255u8 {
        let number = match byte {
            b' ' | b'\t' | b'\n' | b'\r' => 0,
            _ => NOT_JSON,
        };
        let name = format!("byte {byte:#x} as space");
        for old in [
            "{\"@type\": \"neuroglancer_multi",
            ", \"type\"",
            " [{",
            "{\"chunk",
            ", \"encoding\"",
            "}}],",
        ] {
            let new = [&[byte], old.as_bytes()].concat();
            tried.edit(&name, old, new, number);
        }
        tried.text(&name, [INFO.as_bytes(), &[byte]].concat(), number);
    }
    tried.text("a byte order mark", ["\u{feff}", INFO].concat(), NOT_JSON);
    tried.text(
        "a space of another kind",
        ["\u{a0}", INFO].concat(),
        NOT_JSON,
    );
    tried.assert(&[0, NOT_JSON], 256 * 7);
}

#[test]
fn escapes() {
    let mut tried = Tried::default();
    // In a string that is not used, and in a name that is.
    for byte in 0..=255u8 {
        let number = match byte {
            b'"' | b'\\' | b'/' | b'b' | b'f' | b'n' | b'r' | b't' => 0,
            _ => NOT_JSON,
        };
        let name = format!("byte {byte:#x} behind a backslash");
        tried.edit(&name, "8_8_8", [b'8', b'\\', byte, b'8'], number);
    }
    for (place, letter) in "size".char_indices() {
        for digits in [
            format!("{:04x}", letter as u32),
            format!("{:04X}", letter as u32),
        ] {
            let mut word = "\"size\"".to_string();
            word.replace_range(place + 1..place + 2, &format!("\\u{digits}"));
            tried.edit(&word, "\"size\"", &word, 0);
            for at in 0..4 {
                for wrong in [
                    "g", "G", "/", ":", "@", "`", " ", "\"", "\\", "-", "\u{e9}", "",
                ] {
                    let mut wrongly = digits.clone();
                    wrongly.replace_range(at..at + 1, wrong);
                    let name = format!("\\u{wrongly} in a name");
                    let number = match &wrongly[..] {
                        // Three digits and the name's next letter, which is none
                        // but for the last e.
                        cut if cut.len() == 3 && place == 2 => NO_SETTINGS,
                        _ => NOT_JSON,
                    };
                    let mut word = "\"size\"".to_string();
                    word.replace_range(place + 1..place + 2, &format!("\\u{wrongly}"));
                    tried.edit(&name, "\"size\"", word, number);
                }
            }
        }
    }
    for (written, number) in [
        (r#""\u0073\u0069\u007a\u0065""#, 0),
        (r#""si\u007Ae""#, 0),
        (r#""si\u017ae""#, NO_SETTINGS),
        (r#""\u0053ize""#, NO_SETTINGS),
        (r#""size\u0000""#, NO_SETTINGS),
        (r#""\u0000size""#, NO_SETTINGS),
        (r#""size\ud800""#, NO_SETTINGS),
        (r#""\\u0073ize""#, NO_SETTINGS),
        (r#""si\U007ae""#, NOT_JSON),
        (r#""si\x7ae""#, NOT_JSON),
        (r#""si\u{7a}e""#, NOT_JSON),
        (
            r#""si\
ze""#,
            NOT_JSON,
        ),
    ] {
        tried.edit(written, "\"size\"", written, number);
    }
    for (old, written, number) in [
        ("murmurhash3_x86_128", r"murmurhash3\u005fx86\u005F128", 0),
        ("murmurhash3_x86_128", r"\u0069dentity", 0),
        ("murmurhash3_x86_128", r"identity\/", 1),
        (
            "neuroglancer_uint64_sharded_v1",
            r"neuroglancer_uint64_sharded_v\u0031",
            0,
        ),
        (
            "neuroglancer_uint64_sharded_v1",
            r"neuroglancer_uint64_sharded_v\u0032",
            NO_SETTINGS,
        ),
        ("data_encoding\": \"raw", r#"data_encoding": "r\u0061w"#, 0),
        (
            "data_encoding\": \"raw",
            r#"data_encoding": "\u0067zip"#,
            NO_SETTINGS,
        ),
    ] {
        tried.edit(written, old, written, number);
    }
    tried.assert(&[0, 1, NOT_JSON, NO_SETTINGS], 256 + 300);
}

#[test]
fn surrogates() {
    let mut tried = Tried::default();
    for (written, number) in [
        (r"\ud83d\ude00", 0),
        (r"\uD83D\uDE00", 0),
        (r"\ud800", 0),
        (r"\udc00", 0),
        (r"\udfff\ud800", 0),
        (r"\ud800\ud800\udc00", 0),
        (r"\ud800 \udc00", 0),
        (r"\ud800\n", 0),
        (r"\ud800\u0041", 0),
        (r"\ud800\u", NOT_JSON),
        (r"\ud800\udc0", NOT_JSON),
        (r"\ud800\udc0g", NOT_JSON),
        (r"\ud800\x", NOT_JSON),
        (r"\ud80", NOT_JSON),
    ] {
        tried.edit(written, "8_8_8", written, number);
        // In a name it makes another name, never ours.
        let named = format!("si{written}ze\": 1, \"size\"");
        tried.edit(written, "size\"", named, number);
        let hash = match number {
            0 => 1,
            other => other,
        };
        tried.edit(written, "murmurhash3_x86_128", written, hash);
    }
    tried.assert(&[0, 1, NOT_JSON], 42);
}

#[test]
fn controls_stand_in_no_string() {
    let mut tried = Tried::default();
    for byte in 0..0x20u8 {
        let name = format!("control {byte:#x}");
        tried.edit(&name, "8_8_8", [byte], NOT_JSON);
        tried.edit(
            &name,
            "\"mesh\": ",
            [b"\"m", &[byte][..], b"esh\": "].concat(),
            NOT_JSON,
        );
    }
    tried.edit("delete", "8_8_8", "\x7f", 0);
    tried.edit("a control of two bytes", "8_8_8", "\u{80}", 0);
    tried.edit("a line separator", "8_8_8", "\u{2028}", 0);
    tried.assert(&[0, NOT_JSON], 67);
}

#[test]
fn utf8() {
    let mut tried = Tried::default();
    let right: [&[u8]; 12] = [
        b"\x00",
        b"\x7f",
        b"\xc2\x80",
        b"\xdf\xbf",
        b"\xe0\xa0\x80",
        b"\xed\x9f\xbf",
        b"\xee\x80\x80",
        b"\xef\xbb\xbf",
        b"\xef\xbf\xbf",
        b"\xf0\x90\x80\x80",
        b"\xf3\xbf\xbf\xbf",
        b"\xf4\x8f\xbf\xbf",
    ];
    for bytes in &right[1..] {
        let name = format!("{bytes:x?}");
        tried.edit(&name, "8_8_8", bytes, 0);
        tried.edit(&name, "murmurhash3_x86_128", bytes, 1);
        for length in 1..bytes.len() {
            tried.edit(&name, "8_8_8", &bytes[..length], NOT_JSON);
        }
        for at in 1..bytes.len() {
            for tail in [0x00, 0x22, 0x7f, 0xc0, 0xff] {
                let mut broken = bytes.to_vec();
                broken[at] = tail;
                tried.edit(&name, "8_8_8", broken, NOT_JSON);
            }
        }
        // No such character stands outside a string.
        let behind = [INFO.as_bytes(), bytes].concat();
        tried.text(&name, behind, NOT_JSON);
    }
    let wrong: [&[u8]; 14] = [
        b"\x80",
        b"\xbf",
        b"\xc0\x80",
        b"\xc0\xaf",
        b"\xc1\xbf",
        b"\xe0\x80\xaf",
        b"\xe0\x9f\xbf",
        b"\xed\xa0\x80",
        b"\xed\xbf\xbf",
        b"\xf0\x80\x80\xaf",
        b"\xf0\x8f\xbf\xbf",
        b"\xf4\x90\x80\x80",
        b"\xf5\x80\x80\x80",
        b"\xf8\x88\x80\x80\x80",
    ];
    for bytes in wrong {
        let name = format!("{bytes:x?}");
        tried.edit(&name, "8_8_8", bytes, NOT_JSON);
        tried.edit(
            &name,
            "\"mesh\": \"mesh",
            [b"\"", bytes, b"\": \"mesh"].concat(),
            NOT_JSON,
        );
    }
    // An overlong form of a letter is that letter for nobody.
    tried.edit("an overlong s", "\"size\"", b"\"\xc1\xb3ize\"", NOT_JSON);
    for first in 0x80..=0xffu8 {
        tried.edit(&format!("{first:#x} alone"), "8_8_8", [first], NOT_JSON);
    }
    tried.assert(&[0, 1, NOT_JSON], 200);
}

/// A text whose innermost value lies this deep, by its own writing: the kinds
/// of what holds it from outside in.
fn deep(holds: &[bool], innermost: &str) -> String {
    let mut text = innermost.to_string();
    for array in holds.iter().rev() {
        text = match array {
            true => format!("[{text}]"),
            false => format!("{{\"a\":{text}}}"),
        };
    }
    text
}

#[test]
fn depth_in_every_mixture() {
    let mut tried = Tried::default();
    let mut rng = Rng::new(32);
    let mut mixtures: Vec<Vec<bool>> = vec![vec![true; 33], vec![false; 33]];
    for first in [true, false] {
        mixtures.push((0..33).map(|place| (place % 2 == 0) == first).collect());
        for place in 0..33 {
            let mut one = vec![first; 33];
            one[place] = !first;
            mixtures.push(one);
        }
    }
    for _ in 0..200 {
        mixtures.push((0..33).map(|_| rng.once_in(2)).collect());
    }
    for holds in mixtures {
        for innermost in ["0", "-1.5", "\"\"", "true", "false", "null", "[]", "{}"] {
            let name = format!("{innermost} in {holds:?}");
            tried.text(&name, deep(&holds[..31], innermost), NO_SETTINGS);
            tried.text(&name, deep(&holds[..32], innermost), NOT_JSON);
            tried.text(&name, deep(&holds[..33], innermost), NOT_JSON);
            // As the value of a member that is not used, at depth 2.
            let member = |holds| format!("\"mesh\": {}", deep(holds, innermost));
            tried.edit(&name, "\"mesh\": \"mesh\"", member(&holds[..30]), 0);
            tried.edit(&name, "\"mesh\": \"mesh\"", member(&holds[..31]), NOT_JSON);
            // And of one in the scale's sharding, at depth 5.
            let member = |holds| format!("\"a\": {}, \"hash\"", deep(holds, innermost));
            tried.edit(&name, "\"hash\"", member(&holds[..27]), 0);
            tried.edit(&name, "\"hash\"", member(&holds[..28]), NOT_JSON);
        }
    }
    // Values beside one another lie no deeper.
    let row = format!("[{}[]]", "[],".repeat(1000));
    tried.edit("a long row", "\"mesh\"}", format!("{row}}}"), 0);
    tried.text("very deep", "[".repeat(100_000), NOT_JSON);
    tried.text("very deep objects", "{\"\":".repeat(100_000), NOT_JSON);
    tried.assert(&[0, NOT_JSON, NO_SETTINGS], 270 * 8 * 7);
}

/// Numbers, and whether each fits a byte, an extent and a coordinate.
const NUMBERS: [(&str, [bool; 3]); 27] = [
    ("0", [true, true, true]),
    ("-0", [true, true, true]),
    ("1", [true, true, true]),
    ("-1", [false, false, true]),
    ("255", [true, true, true]),
    ("256", [false, true, true]),
    ("257", [false, true, true]),
    ("2147483647", [false, true, true]),
    ("2147483648", [false, true, false]),
    ("-2147483648", [false, false, true]),
    ("-2147483649", [false, false, false]),
    ("4294967295", [false, true, false]),
    ("4294967296", [false, false, false]),
    ("4294967297", [false, false, false]),
    ("18446744073709551615", [false, false, false]),
    ("18446744073709551616", [false, false, false]),
    ("18446744073709551617", [false, false, false]),
    ("-18446744073709551615", [false, false, false]),
    (
        "99999999999999999999999999999999999999",
        [false, false, false],
    ),
    ("1.0", [false, false, false]),
    ("1.5", [false, false, false]),
    ("0.0", [false, false, false]),
    ("-0.0", [false, false, false]),
    ("1e0", [false, false, false]),
    ("0e0", [false, false, false]),
    ("1E+0", [false, false, false]),
    ("10e-1", [false, false, false]),
];

/// What is no number in JSON.
const NO_NUMBERS: [&str; 14] = [
    "00", "01", "-01", "-", "+1", ".5", "1.", "-.5", "1e", "1e+", "0x1", "1_0", "- 1", "1.e5",
];

#[test]
fn numbers_in_each_field() {
    let mut tried = Tried::default();
    let fields = [
        ("\"preshift_bits\": 9", "\"preshift_bits\": ", "", 0),
        ("\"minishard_bits\": 6", "\"minishard_bits\": ", "", 0),
        ("\"shard_bits\": 15", "\"shard_bits\": ", "", 0),
        ("[6446, ", "[", ", ", 1),
        ("6643", "", "", 1),
        (" 8090]", " ", "]", 1),
        ("[[64, ", "[[", ", ", 1),
        (" 64]]", " ", "]]", 1),
        ("-64", "", "", 2),
        (", 0, ", ", ", ", ", 2),
        (", 7]", ", ", "]", 2),
    ];
    for (old, before, behind, kind) in fields {
        for (number, fits) in NUMBERS {
            let text = edited(old, format!("{before}{number}{behind}"));
            let name = format!("{number} in place of {old}");
            // What the field holds may still be refused, by 1, 2 or 3.
            let found = compare_info(&text, 0);
            match fits[kind] {
                true => assert!(found < 4, "{name}: {found}"),
                false => assert_eq!(found, NO_SETTINGS, "{name}"),
            }
            tried.text(&name, text, found);
        }
        for wrong in NO_NUMBERS {
            let text = format!("{before}{wrong}{behind}");
            tried.edit(&format!("{wrong} in place of {old}"), old, text, NOT_JSON);
        }
    }
    for (number, refusal) in [("63", 0), ("64", 1), ("255", 1), ("256", NO_SETTINGS)] {
        let new = format!("\"preshift_bits\": {number}");
        tried.edit(number, "\"preshift_bits\": 9", new, refusal);
    }
    for (number, refusal) in [("32", 0), ("33", 1), ("255", 1), ("256", NO_SETTINGS)] {
        let new = format!("\"shard_bits\": {number}");
        tried.edit(number, "\"shard_bits\": 15", new, refusal);
    }
    tried.edit("an extent of 0", "6643", "0", 2);
    tried.edit("an extent of -0", "6643", "-0", 2);
    tried.edit("an offset of -0", "-64", "-0", 0);
    let wide = "\"size\": [4194304, 4194304, 2097152], \"chunk_sizes\": [[1, 1, 1]]";
    let brim = "\"size\": [4194304, 2097152, 2097152], \"chunk_sizes\": [[1, 1, 1]]";
    for (name, volume, refusal) in [("65 key bits", wide, 3), ("64 key bits", brim, 0)] {
        let text = edited("\"chunk_sizes\": [[64, 64, 64]], ", "");
        let text = String::from_utf8(text).expect("text");
        let text = text.replace("\"size\": [6446, 6643, 8090]", volume);
        tried.text(name, text, refusal);
    }
    for length in [100, 10_000, 1_000_000] {
        let digits = "9".repeat(length);
        tried.edit("a huge number in use", "6643", &digits, NO_SETTINGS);
        let new = format!("\"mesh\": [{digits}, -{digits}.{digits}e-{digits}]");
        tried.edit("huge numbers not in use", "\"mesh\": \"mesh\"", new, 0);
    }
    tried.assert(&[0, 1, 2, 3, NOT_JSON, NO_SETTINGS], 11 * 41);
}

/// Each used member: where it stands, and whether it is needed.
const MEMBERS: [(&str, &str, bool); 12] = [
    ("scales", "\"scales\": [", true),
    ("chunk_sizes", "\"chunk_sizes\": [[64, 64, 64]]", true),
    ("size", "\"size\": [6446, 6643, 8090]", true),
    ("voxel_offset", "\"voxel_offset\": [-64, 0, 7]", false),
    ("sharding", "\"sharding\": {", true),
    (
        "@type",
        "\"@type\": \"neuroglancer_uint64_sharded_v1\"",
        true,
    ),
    ("preshift_bits", "\"preshift_bits\": 9", true),
    ("hash", "\"hash\": \"murmurhash3_x86_128\"", true),
    ("minishard_bits", "\"minishard_bits\": 6", true),
    ("shard_bits", "\"shard_bits\": 15", true),
    (
        "minishard_index_encoding",
        "\"minishard_index_encoding\": \"raw\"",
        false,
    ),
    ("data_encoding", "\"data_encoding\": \"raw\"", false),
];

/// A name with its first letter escaped.
fn escaped(name: &str) -> String {
    let (first, rest) = name.split_at(1);
    format!("\\u{:04x}{rest}", first.as_bytes()[0])
}

#[test]
fn members_missing_doubled_and_of_another_kind() {
    let mut tried = Tried::default();
    for (name, member, needed) in MEMBERS {
        let open = member.ends_with(['[', '{']);
        let colon = member.find(": ").expect("a colon");
        let value = &member[colon + 2..];
        let whole = match name {
            "scales" => "[]",
            "sharding" => "{}",
            _ => value,
        };
        let number = if needed { NO_SETTINGS } else { 0 };
        let other = format!("\"{name}_\": {value}");
        tried.edit(&format!("no {name}"), member, other, number);
        let upper = format!("\"{}\": {value}", name.to_uppercase());
        tried.edit(&format!("{name} in capitals"), member, upper, number);
        tried.edit(
            &format!("{name} escaped"),
            member,
            format!("\"{}\": {value}", escaped(name)),
            0,
        );
        for first in [name.to_string(), escaped(name)] {
            for again in [
                whole,
                "null",
                "1",
                "\"raw\"",
                "[]",
                "{}",
                "[{\"a\": [null]}]",
            ] {
                let doubled = format!("\"{first}\": {again}, {member}");
                tried.edit(
                    &format!("{name} twice, {again} first"),
                    member,
                    doubled,
                    NO_SETTINGS,
                );
                if !open {
                    let doubled = format!("{member}, \"{first}\": {again}");
                    tried.edit(
                        &format!("{name} twice, {again} last"),
                        member,
                        doubled,
                        NO_SETTINGS,
                    );
                }
            }
        }
        if open {
            continue;
        }
        for kind in [
            "null", "true", "false", "\"\"", "\"1\"", "-1", "1.5", "[]", "{}", "[1]", "[[]]",
            "[1, 2]",
        ] {
            let number = match (name, kind) {
                ("hash", "\"\"" | "\"1\"") => 1,
                _ => NO_SETTINGS,
            };
            let new = format!("\"{name}\": {kind}");
            tried.edit(&format!("{name} {kind}"), member, new, number);
        }
    }
    // What is not used may stand there twice and hold anything.
    for twice in [
        "key",
        "resolution",
        "encoding",
        "mesh",
        "type",
        "num_channels",
    ] {
        let text = INFO.replacen(
            &format!("\"{twice}\":"),
            &format!("\"{twice}\": [], \"{twice}\":"),
            1,
        );
        tried.text(&format!("{twice} twice"), text, 0);
    }
    tried.edit(
        "the outermost @type is not used",
        "\"@type\": \"neuroglancer_multiscale_volume\"",
        "\"@type\": 1, \"@type\": {\"scales\": 1, \"scales\": 2}",
        0,
    );
    tried.edit(
        "used names where they are not used",
        "\"key\": \"8_8_8\"",
        "\"hash\": 1, \"hash\": 2, \"scales\": 3, \"scales\": [], \"shard_bits\": -1.5",
        0,
    );
    tried.assert(&[0, 1, NO_SETTINGS], 300);
}

#[test]
fn shapes_of_the_arrays() {
    let mut tried = Tried::default();
    for (old, name) in [
        ("[6446, 6643, 8090]", "size"),
        ("[-64, 0, 7]", "voxel_offset"),
        ("[64, 64, 64]", "chunk"),
    ] {
        for (new, number) in [
            ("[1, 2, 3]", 0),
            ("[ 1,\n2 ,\t3 ]", 0),
            ("[]", NO_SETTINGS),
            ("[1]", NO_SETTINGS),
            ("[1, 2]", NO_SETTINGS),
            ("[1, 2, 3, 4]", NO_SETTINGS),
            ("[[1, 2, 3]]", NO_SETTINGS),
            ("[1, 2, [3]]", NO_SETTINGS),
            ("[1, 2, \"3\"]", NO_SETTINGS),
            ("[1, 2, null]", NO_SETTINGS),
            ("[1, 2, 3.0]", NO_SETTINGS),
            ("{\"x\": 1, \"y\": 2, \"z\": 3}", NO_SETTINGS),
            ("[1, 2, 3,]", NOT_JSON),
            ("[1 2 3]", NOT_JSON),
            ("[1, 2, 3", NOT_JSON),
            ("1, 2, 3]", NOT_JSON),
        ] {
            tried.edit(&format!("{name} {new}"), old, new, number);
        }
    }
    for (new, number) in [
        ("[[64, 64, 64], [32, 32, 32]]", NO_SETTINGS),
        ("[[64, 64, 64], null]", NO_SETTINGS),
        ("[]", NO_SETTINGS),
        ("[[[64, 64, 64]]]", NO_SETTINGS),
        ("[64, 64, 64]", NO_SETTINGS),
        ("[[64, 64, 64],]", NOT_JSON),
    ] {
        tried.edit(new, "[[64, 64, 64]]", new, number);
    }
    tried.assert(&[0, NOT_JSON, NO_SETTINGS], 54);
}

#[test]
fn scales_hashes_types_and_encodings() {
    let mut tried = Tried::default();
    for scale in [1, 2, 255, 1 << 32, u64::MAX] {
        tried.scale("no such scale", INFO, scale, NO_SETTINGS);
    }
    // Another scale's settings are not taken, and not judged.
    let scale =
        &INFO[INFO.find("{\"chunk").expect("a scale")..INFO.find("],\n \"mesh").expect("its end")];
    for (before, behind) in [
        ("", "1"),
        ("null, ", "null"),
        ("{\"size\": 1, \"size\": 2}, ", "[]"),
        ("[], {}, ", "0"),
    ] {
        let text = format!("{{\"scales\": [{before}{scale}, {behind}]}}");
        let place = before.matches(", ").count() - before.matches("1, ").count();
        for k in 0..place + 3 {
            let number = if k == place { 0 } else { NO_SETTINGS };
            tried.scale(&text, &text, k as u64, number);
        }
    }
    for text in [
        "[]",
        "{}",
        "1",
        "\"scales\"",
        "null",
        "{\"scales\": {}}",
        "{\"scales\": null}",
        "{\"scales\": [[]]}",
    ] {
        for scale in [0, 1] {
            tried.scale(text, text, scale, NO_SETTINGS);
        }
    }
    for hash in ["identity", "murmurhash3_x86_128"] {
        tried.edit(hash, "murmurhash3_x86_128", hash, 0);
    }
    for hash in [
        "",
        "murmur",
        "Identity",
        "identity ",
        " identity",
        "murmurhash3_x86_12",
        "murmurhash3_x86_1288",
    ] {
        tried.edit(hash, "murmurhash3_x86_128", hash, 1);
    }
    for kind in [
        "",
        "neuroglancer_uint64_sharded_v",
        "neuroglancer_uint64_sharded_v10",
        "NEUROGLANCER_UINT64_SHARDED_V1",
    ] {
        tried.edit(kind, "neuroglancer_uint64_sharded_v1", kind, NO_SETTINGS);
    }
    for encoding in ["minishard_index_encoding", "data_encoding"] {
        for (named, number) in [
            ("raw", 0),
            ("gzip", 20),
            ("RAW", 20),
            ("raw ", 20),
            ("ra", 20),
            ("", 20),
        ] {
            let (old, new) = (
                format!("\"{encoding}\": \"raw\""),
                format!("\"{encoding}\": \"{named}\""),
            );
            tried.edit(&new, &old, &new, number);
        }
    }
    tried.assert(&[0, 1, NO_SETTINGS], 60);
}

#[test]
fn the_lower_tests_come_first() {
    let mut tried = Tried::default();
    let faults = [
        (NOT_JSON, "\"mesh\": \"mesh\"", "\"mesh\": 01"),
        (
            NO_SETTINGS,
            "\"data_encoding\": \"raw\"",
            "\"data_encoding\": \"gzip\"",
        ),
        (1, "murmurhash3_x86_128", "unknown"),
        (2, "6643", "0"),
    ];
    for chosen in 1..16u32 {
        let mut text = INFO.to_string();
        let mut first = None;
        for (place, (number, old, new)) in faults.iter().enumerate() {
            if chosen >> place & 1 == 1 {
                text = text.replacen(old, new, 1);
                first = first.or(Some(*number));
            }
        }
        tried.text(
            &format!("faults {chosen:04b}"),
            text,
            first.expect("a fault"),
        );
    }
    tried.assert(&[1, 2, NOT_JSON, NO_SETTINGS], 15);
}

#[test]
fn cuts_at_every_byte_and_what_follows() {
    let mut tried = Tried::default();
    for length in 0..INFO.len() {
        tried.text(
            &format!("the first {length} bytes"),
            &INFO[..length],
            NOT_JSON,
        );
        tried.text(
            &format!("from byte {} on", length + 1),
            &INFO[length + 1..],
            NOT_JSON,
        );
    }
    for behind in ["{}", "}", "]", "1", "\"\"", ",", "null", "\0", INFO] {
        let text = [INFO, behind].concat();
        tried.text(&format!("{behind} behind it"), text, NOT_JSON);
    }
    tried.assert(&[NOT_JSON], 2 * INFO.len());
}

/// White space, the order of members and members that are not used never
/// change the answer, and neither do escapes.
#[test]
fn writing_never_matters() {
    let mut rng = Rng::new(17);
    for _ in 0..3_000 {
        let card = testkit::cards::meaning(&mut rng);
        let plain = testkit::infos::info(&mut rng, &card, 0);
        let mut styled = || compare_info(&plain.written(&mut Style::draw(&mut rng)), 0);
        assert_eq!(styled(), styled());
    }
    let deepest = nested(&mut rng, 30, Json::number(1));
    let text = Json::Object(vec![("a".into(), deepest)]);
    assert_eq!(
        compare_info(&text.written(&mut Style::draw(&mut rng)), 0),
        NO_SETTINGS
    );
}
