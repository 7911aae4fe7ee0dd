//! The info file's settings (document 02, order 1; source documents 000 and
//! 002 name the members).

use crate::card::{judge, Card};
use crate::grid::Volume;
use crate::json::{parse, Text, Value};
use crate::sharding::{Sharding, IDENTITY, MURMUR, VOLUME};

/// What a sharding's `@type` must be.
const SHARDED: &str = "neuroglancer_uint64_sharded_v1";

/// The settings of a scale of an info file, always a volume's; or 19, 20, then
/// 1, 2, 3.
pub fn read(text: &[u8], scale: u64) -> Result<Card, u8> {
    let document = parse(text).ok_or(19)?;
    let (card, known_hash) = settings(&document, scale).ok_or(20)?;
    if !known_hash {
        return Err(1);
    }
    judge(&card)?;
    Ok(card)
}

/// The settings of a scale, and whether its hash is known: an unknown one is
/// none of the faults of 20. None where one of those is there.
fn settings(document: &Value, scale: u64) -> Option<(Card, bool)> {
    let scales = elements(required(document, "scales")?)?;
    let scale = scales.get(usize::try_from(scale).ok()?)?;
    let volume = Volume {
        size: three(required(scale, "size")?, extent)?,
        chunk: match elements(required(scale, "chunk_sizes")?)? {
            [only] => three(only, extent)?,
            _ => return None,
        },
        offset: match optional(scale, "voxel_offset")? {
            Some(offset) => three(offset, coordinate)?,
            None => [0; 3],
        },
    };
    let members = required(scale, "sharding")?;
    if !string(required(members, "@type")?)?.is(SHARDED) {
        return None;
    }
    for encoding in ["minishard_index_encoding", "data_encoding"] {
        if let Some(named) = optional(members, encoding)? {
            if !string(named)?.is("raw") {
                return None;
            }
        }
    }
    let bits = |name| required(members, name).and_then(byte);
    let hash = string(required(members, "hash")?)?;
    let number = match () {
        () if hash.is("identity") => Some(IDENTITY),
        () if hash.is("murmurhash3_x86_128") => Some(MURMUR),
        () => None,
    };
    let sharding = Sharding {
        preshift: bits("preshift_bits")?,
        hash: number.unwrap_or(IDENTITY),
        minishard_bits: bits("minishard_bits")?,
        shard_bits: bits("shard_bits")?,
        kind: VOLUME,
    };
    Some((Card { sharding, volume }, number.is_some()))
}

/// A used member of an object, which must stand there exactly once.
fn required<'a>(object: &'a Value, name: &str) -> Option<&'a Value> {
    optional(object, name)?
}

/// A used member of an object, if it is there. None where the value is no
/// object or the member stands there twice.
fn optional<'a>(object: &'a Value, name: &str) -> Option<Option<&'a Value>> {
    let Value::Object(members) = object else {
        return None;
    };
    let mut named = members.iter().filter(|(given, _)| given.is(name));
    let first = named.next();
    match named.next() {
        Some(_) => None,
        None => Some(first.map(|(_, value)| value)),
    }
}

fn elements(value: &Value) -> Option<&[Value]> {
    match value {
        Value::Array(elements) => Some(elements),
        _ => None,
    }
}

fn string(value: &Value) -> Option<&Text> {
    match value {
        Value::String(text) => Some(text),
        _ => None,
    }
}

/// An array of exactly three.
fn three<T: Copy>(value: &Value, number: fn(&Value) -> Option<T>) -> Option<[T; 3]> {
    let [x, y, z] = elements(value)? else {
        return None;
    };
    Some([number(x)?, number(y)?, number(z)?])
}

fn byte(value: &Value) -> Option<u8> {
    whole(value)?.try_into().ok()
}

fn extent(value: &Value) -> Option<u32> {
    whole(value)?.try_into().ok()
}

fn coordinate(value: &Value) -> Option<i32> {
    whole(value)?.try_into().ok()
}

/// A number that is whole and written without fraction or exponent, where it
/// is near enough to 0 for some field.
fn whole(value: &Value) -> Option<i64> {
    let Value::Number(written) = value else {
        return None;
    };
    let digits = written.strip_prefix('-').unwrap_or(written);
    if !digits.chars().all(|digit| digit.is_ascii_digit()) {
        return None;
    }
    // Neither an empty text nor a plus sign can come this far, so only a
    // number that is too large is not read.
    written.parse().ok()
}

#[cfg(test)]
mod tests {
    use super::*;

    const WHOLE: &str = r#"{"type": "image", "scales": [{"key": "8_8_8",
        "size": [6446, 6643, 8090], "chunk_sizes": [[64, 64, 64]], "voxel_offset": [-1, 0, 2147483647],
        "sharding": {"@type": "neuroglancer_uint64_sharded_v1", "preshift_bits": 9,
            "hash": "murmurhash3_x86_128", "minishard_bits": 6, "shard_bits": 15,
            "minishard_index_encoding": "raw", "data_encoding": "raw"}}]}"#;

    fn whole_card() -> Card {
        Card {
            sharding: Sharding {
                preshift: 9,
                hash: MURMUR,
                minishard_bits: 6,
                shard_bits: 15,
                kind: VOLUME,
            },
            volume: Volume {
                size: [6446, 6643, 8090],
                chunk: [64; 3],
                offset: [-1, 0, i32::MAX],
            },
        }
    }

    /// What the text gives after an edit, which must change it.
    fn edited(old: &str, new: &str) -> Result<Card, u8> {
        let text = WHOLE.replacen(old, new, 1);
        assert_ne!(text, WHOLE, "{old}");
        read(text.as_bytes(), 0)
    }

    #[test]
    fn a_whole_file_and_what_may_be_absent() {
        assert_eq!(read(WHOLE.as_bytes(), 0), Ok(whole_card()));
        let mut without = whole_card();
        without.volume.offset = [0; 3];
        let offset = r#""voxel_offset": [-1, 0, 2147483647],"#;
        assert_eq!(edited(offset, ""), Ok(without));
        assert_eq!(edited(r#", "data_encoding": "raw""#, ""), Ok(whole_card()));
        assert_eq!(
            edited(r#""minishard_index_encoding": "raw", "#, ""),
            Ok(whole_card())
        );
        for needed in [
            "scales",
            "size",
            "chunk_sizes",
            "sharding",
            "@type",
            "preshift_bits",
            "hash",
            "minishard_bits",
            "shard_bits",
        ] {
            let name = format!("\"{needed}\"");
            assert_eq!(edited(&name, "\"another\""), Err(20), "{needed}");
        }
    }

    #[test]
    fn no_scale_k() {
        for scale in [1, 2, u64::MAX] {
            assert_eq!(read(WHOLE.as_bytes(), scale), Err(20));
        }
        for text in [
            "[]",
            "1",
            "{}",
            r#"{"scales":{}}"#,
            r#"{"scales":[]}"#,
            r#"{"scales":[1]}"#,
        ] {
            assert_eq!(read(text.as_bytes(), 0), Err(20), "{text}");
        }
    }

    #[test]
    fn a_used_member_twice() {
        for (name, value) in [
            ("size", "[1, 1, 1]"),
            ("chunk_sizes", "[[1, 1, 1]]"),
            ("voxel_offset", "[0, 0, 0]"),
            ("sharding", "{}"),
            ("@type", r#""neuroglancer_uint64_sharded_v1""#),
            ("hash", r#""identity""#),
            ("data_encoding", r#""raw""#),
        ] {
            let member = format!("\"{name}\":");
            let doubled = format!("{member} {value}, {member}");
            assert_eq!(edited(&member, &doubled), Err(20), "{name}");
        }
        assert_eq!(edited(r#""key":"#, r#""key": 1, "key":"#), Ok(whole_card()));
        let escaped = r#""\u0073ize": [1, 1, 1], "size":"#;
        assert_eq!(edited(r#""size":"#, escaped), Err(20));
    }

    #[test]
    fn numbers_and_their_fields() {
        let mut preshifted = whole_card();
        preshifted.sharding.preshift = 0;
        assert_eq!(edited("_bits\": 9", "_bits\": -0"), Ok(preshifted));
        for (number, refusal) in [
            ("64", 1),
            ("255", 1),
            ("256", 20),
            ("-1", 20),
            ("9.0", 20),
            ("9e0", 20),
            ("\"9\"", 20),
            ("99999999999999999999999999", 20),
            ("09", 19),
        ] {
            let bits = format!("_bits\": {number}");
            assert_eq!(edited("_bits\": 9", &bits), Err(refusal), "{number}");
        }
        for (number, refusal) in [("0", 2), ("4294967296", 20), ("[6446]", 20), ("null", 20)] {
            assert_eq!(edited("6446", number), Err(refusal), "{number}");
        }
        for (number, fits) in [
            ("-2147483648", true),
            ("-2147483649", false),
            ("2147483648", false),
        ] {
            assert_eq!(edited("-1", number).is_ok(), fits, "{number}");
        }
        assert_eq!(edited("[6446, ", "[1, 6446, "), Err(20));
        assert_eq!(edited("[[64, ", "[[1, 1, 1], [64, "), Err(20));
        assert_eq!(edited("[[64, 64, 64]]", "[]"), Err(20));
    }

    #[test]
    fn hashes_types_and_encodings() {
        assert_eq!(edited("murmurhash3_x86_128", "murmur"), Err(1));
        assert_eq!(edited("\"murmurhash3_x86_128\"", "1"), Err(20));
        assert_eq!(edited("_sharded_v1", "_sharded_v2"), Err(20));
        assert_eq!(
            edited("index_encoding\": \"raw", "index_encoding\": \"gzip"),
            Err(20)
        );
        assert_eq!(
            edited("data_encoding\": \"raw", "data_encoding\": \"RAW"),
            Err(20)
        );
        assert_eq!(
            edited("data_encoding\": \"raw\"", "data_encoding\": null"),
            Err(20)
        );
    }

    #[test]
    fn the_lower_tests_come_first() {
        let edit = |edits: &[(&str, &str)]| {
            let text = edits.iter().fold(WHOLE.to_string(), |text, (old, new)| {
                text.replacen(old, new, 1)
            });
            read(text.as_bytes(), 0)
        };
        let (not_json, wrong) = (("]}", "]]"), ("[[64", "[[6.4"));
        let (unknown, zero) = (("murmur", "merman"), ("6446", "0"));
        let wide = (
            "6446, 6643, 8090], \"chunk_sizes\": [[64, 64, 64]]",
            "4194304, 4194304, 2097152], \"chunk_sizes\": [[1, 1, 1]]",
        );
        assert_eq!(edit(&[not_json, wrong, unknown, zero]), Err(19));
        assert_eq!(edit(&[wrong, unknown, zero]), Err(20));
        assert_eq!(edit(&[unknown, zero]), Err(1));
        assert_eq!(edit(&[zero]), Err(2));
        assert_eq!(edit(&[unknown, wide]), Err(1));
        assert_eq!(edit(&[wide]), Err(3));
    }
}
