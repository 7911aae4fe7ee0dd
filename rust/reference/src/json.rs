//! JSON texts (RFC 8259) in UTF-8 (RFC 3629), with values at most 32 deep.
//!
//! The whole text is judged and made into a tree before anything is looked up
//! in it.

/// The greatest depth that a value may have; the outermost one has depth 1.
pub const MOST_DEPTH: usize = 32;

/// A JSON value.
#[derive(Clone, Debug, PartialEq, Eq)]
pub enum Value {
    /// `null`.
    Null,
    /// `true` or `false`.
    Bool(bool),
    /// A number, as it is written.
    Number(String),
    /// A string, unescaped.
    String(Text),
    /// The elements of an array.
    Array(Vec<Value>),
    /// The members of an object in their order, doubled names too.
    Object(Vec<(Text, Value)>),
}

/// An unescaped string: its code points. Half of a surrogate pair that was
/// written alone by an escape stands as its own number, which no character has.
#[derive(Clone, Debug, PartialEq, Eq)]
pub struct Text(Vec<u32>);

impl Text {
    /// This string and no other.
    pub fn is(&self, name: &str) -> bool {
        self.0.iter().copied().eq(name.chars().map(u32::from))
    }
}

/// The value that a text is, or none where it is not UTF-8, no JSON text or
/// too deep.
pub fn parse(text: &[u8]) -> Option<Value> {
    let mut parser = Parser {
        points: code_points(text)?,
        at: 0,
    };
    parser.space();
    let value = parser.value(1)?;
    parser.space();
    (parser.at == parser.points.len()).then_some(value)
}

/// The code points of a text in UTF-8, by the table of RFC 3629, section 4.
fn code_points(mut text: &[u8]) -> Option<Vec<u32>> {
    let mut points = Vec::with_capacity(text.len());
    while let Some(&first) = text.first() {
        // How many bytes follow, what the first one carries, and where the
        // second one must lie.
        let (tails, carried, second) = match first {
            0x00..=0x7f => (0, first, 0..=0),
            0xc2..=0xdf => (1, first & 0x1f, 0x80..=0xbf),
            0xe0 => (2, first & 0x0f, 0xa0..=0xbf),
            0xed => (2, first & 0x0f, 0x80..=0x9f),
            0xe1..=0xef => (2, first & 0x0f, 0x80..=0xbf),
            0xf0 => (3, first & 0x07, 0x90..=0xbf),
            0xf1..=0xf3 => (3, first & 0x07, 0x80..=0xbf),
            0xf4 => (3, first & 0x07, 0x80..=0x8f),
            _ => return None,
        };
        let tail = text.get(1..1 + tails)?;
        let mut point = u32::from(carried);
        for (i, &byte) in tail.iter().enumerate() {
            let allowed = if i == 0 { second.clone() } else { 0x80..=0xbf };
            if !allowed.contains(&byte) {
                return None;
            }
            point = point << 6 | u32::from(byte & 0x3f);
        }
        points.push(point);
        text = &text[1 + tails..];
    }
    Some(points)
}

/// What is left of a text.
struct Parser {
    points: Vec<u32>,
    at: usize,
}

impl Parser {
    /// The next character, if it is one of ASCII.
    fn peek(&self) -> Option<char> {
        let point = *self.points.get(self.at)?;
        char::from_u32(point).filter(char::is_ascii)
    }

    /// Passes this character where it comes next.
    fn takes(&mut self, expected: char) -> bool {
        let found = self.peek() == Some(expected);
        self.at += usize::from(found);
        found
    }

    /// Passes this character, which must come next.
    fn expect(&mut self, expected: char) -> Option<()> {
        self.takes(expected).then_some(())
    }

    /// Passes white space.
    fn space(&mut self) {
        while let Some(' ' | '\t' | '\n' | '\r') = self.peek() {
            self.at += 1;
        }
    }

    /// A value at this depth.
    fn value(&mut self, depth: usize) -> Option<Value> {
        if depth > MOST_DEPTH {
            return None;
        }
        match self.peek()? {
            'n' => self.word("null", Value::Null),
            't' => self.word("true", Value::Bool(true)),
            'f' => self.word("false", Value::Bool(false)),
            '"' => self.string().map(Value::String),
            '[' => self.array(depth),
            '{' => self.object(depth),
            _ => self.number(),
        }
    }

    fn word(&mut self, word: &str, value: Value) -> Option<Value> {
        for letter in word.chars() {
            self.expect(letter)?;
        }
        Some(value)
    }

    fn array(&mut self, depth: usize) -> Option<Value> {
        let mut elements = Vec::new();
        self.expect('[')?;
        self.space();
        if self.takes(']') {
            return Some(Value::Array(elements));
        }
        loop {
            self.space();
            elements.push(self.value(depth + 1)?);
            self.space();
            if self.takes(']') {
                return Some(Value::Array(elements));
            }
            self.expect(',')?;
        }
    }

    fn object(&mut self, depth: usize) -> Option<Value> {
        let mut members = Vec::new();
        self.expect('{')?;
        self.space();
        if self.takes('}') {
            return Some(Value::Object(members));
        }
        loop {
            self.space();
            let name = self.string()?;
            self.space();
            self.expect(':')?;
            self.space();
            members.push((name, self.value(depth + 1)?));
            self.space();
            if self.takes('}') {
                return Some(Value::Object(members));
            }
            self.expect(',')?;
        }
    }

    /// `[ minus ] int [ frac ] [ exp ]`.
    fn number(&mut self) -> Option<Value> {
        let start = self.at;
        self.takes('-');
        if !self.takes('0') {
            self.digits()?;
        }
        if self.takes('.') {
            self.digits()?;
        }
        if self.takes('e') || self.takes('E') {
            let _ = self.takes('+') || self.takes('-');
            self.digits()?;
        }
        let written = self.points[start..self.at].iter();
        let written = written.filter_map(|point| char::from_u32(*point));
        Some(Value::Number(written.collect()))
    }

    /// One digit or more.
    fn digits(&mut self) -> Option<()> {
        let start = self.at;
        while self.peek().is_some_and(|next| next.is_ascii_digit()) {
            self.at += 1;
        }
        (self.at > start).then_some(())
    }

    fn string(&mut self) -> Option<Text> {
        let mut text = Vec::new();
        self.expect('"')?;
        loop {
            let point = *self.points.get(self.at)?;
            self.at += 1;
            match char::from_u32(point) {
                Some('"') => return Some(Text(text)),
                Some('\\') => text.push(self.escape()?),
                Some('\0'..='\x1f') => return None,
                _ => text.push(point),
            }
        }
    }

    /// What stands behind a backslash.
    fn escape(&mut self) -> Option<u32> {
        let kind = self.peek()?;
        self.at += 1;
        match kind {
            '"' | '\\' | '/' => Some(u32::from(kind)),
            'b' => Some(8),
            'f' => Some(12),
            'n' => Some(10),
            'r' => Some(13),
            't' => Some(9),
            'u' => self.four_digits().map(|unit| self.joined(unit)),
            _ => None,
        }
    }

    /// Four hexadecimal digits, of either case.
    fn four_digits(&mut self) -> Option<u32> {
        let mut unit = 0;
        for _ in 0..4 {
            unit = 16 * unit + self.peek()?.to_digit(16)?;
            self.at += 1;
        }
        Some(unit)
    }

    /// The character of a leading surrogate and the trailing one that is
    /// escaped right behind it; else the unit itself.
    fn joined(&mut self, unit: u32) -> u32 {
        let behind = self.at;
        if (0xd800..0xdc00).contains(&unit) && self.takes('\\') && self.takes('u') {
            if let Some(trailing @ 0xdc00..=0xdfff) = self.four_digits() {
                return 0x10000 + ((unit - 0xd800) << 10) + (trailing - 0xdc00);
            }
        }
        self.at = behind;
        unit
    }
}

#[cfg(test)]
mod tests {
    use super::*;

    fn is_json(text: impl AsRef<[u8]>) -> bool {
        parse(text.as_ref()).is_some()
    }

    #[test]
    fn values() {
        assert_eq!(parse(b" null\n"), Some(Value::Null));
        assert_eq!(parse(b"[]"), Some(Value::Array(vec![])));
        assert_eq!(parse(b"{\t}"), Some(Value::Object(vec![])));
        let number = |text: &str| Value::Number(text.into());
        assert_eq!(
            parse(b"[ -0 , 1.50E+07,true]"),
            Some(Value::Array(vec![
                number("-0"),
                number("1.50E+07"),
                Value::Bool(true)
            ]))
        );
        for wrong in [
            "",
            " ",
            "nul",
            "nulll",
            "True",
            "[",
            "]",
            "[1,]",
            "[,1]",
            "[1 2]",
            "[1}",
            "{]",
            "{a:1}",
            "{1:1}",
            "{\"a\"}",
            "{\"a\":}",
            "{\"a\":1,}",
            "{\"a\" 1}",
            "1 2",
            "'a'",
            "//\n1",
        ] {
            assert!(!is_json(wrong), "{wrong}");
        }
    }

    #[test]
    fn numbers() {
        for right in ["0", "-0", "10", "0.0", "1e5", "1E-5", "0e+0", "-1.5e300"] {
            assert!(is_json(right), "{right}");
        }
        for wrong in [
            "00", "01", "-", "+1", ".5", "1.", "1.e5", "1e", "1e+", "- 1", "0x1", "1_0", "NaN",
            "Infinity",
        ] {
            assert!(!is_json(wrong), "{wrong}");
        }
        assert!(is_json("9".repeat(5_000)));
    }

    #[test]
    fn strings_compare_unescaped() {
        for (written, name) in [
            (r#""size""#, "size"),
            (r#""\u0073\u0069\u007a\u0065""#, "size"),
            (r#""si\u007Ae""#, "size"),
            (r#""\"\\\/\b\f\n\r\t""#, "\"\\/\u{8}\u{c}\n\r\t"),
            (r#""\ud83d\ude00""#, "\u{1f600}"),
            ("\"\u{1f600}\"", "\u{1f600}"),
        ] {
            let Some(Value::String(text)) = parse(written.as_bytes()) else {
                panic!("{written} is a string");
            };
            assert!(text.is(name), "{written}");
            assert!(!text.is("siz") && !text.is("sizes"), "{written}");
        }
    }

    #[test]
    fn half_a_pair_is_no_character_but_json() {
        for half in [
            r#""\ud800""#,
            r#""\udc00""#,
            r#""\ud800\u0041""#,
            r#""\ud800\ud800\udc00""#,
        ] {
            assert!(is_json(half), "{half}");
        }
        for wrong in [
            r#""\ud800\""#,
            r#""\ud80""#,
            r#""\U0041""#,
            r#""\x41""#,
            r#""\ud800\u00""#,
        ] {
            assert!(!is_json(wrong), "{wrong}");
        }
    }

    #[test]
    fn controls_stand_in_no_string() {
        for control in 0..0x20u8 {
            assert!(!is_json([b'"', control, b'"']), "{control}");
        }
        assert!(is_json([b'"', 0x7f, b'"']));
        assert!(!is_json("\u{a0}1") && !is_json("\u{b}1") && !is_json("\u{feff}1"));
    }

    #[test]
    fn utf8_is_judged_strictly() {
        for right in [
            "\u{80}",
            "\u{7ff}",
            "\u{800}",
            "\u{d7ff}",
            "\u{e000}",
            "\u{ffff}",
            "\u{10ffff}",
        ] {
            assert!(is_json(format!("\"{right}\"")), "{right:?}");
        }
        for wrong in [
            &b"\x80"[..],
            b"\xc0\x80",
            b"\xc1\xbf",
            b"\xe0\x9f\xbf",
            b"\xed\xa0\x80",
            b"\xed\xbf\xbf",
            b"\xf0\x8f\xbf\xbf",
            b"\xf4\x90\x80\x80",
            b"\xf5\x80\x80\x80",
            b"\xff",
            b"\xc3",
            b"\xe2\x82",
            b"\xf0\x9f\x98",
            b"\xc3(",
        ] {
            assert!(!is_json([b"\"", wrong, b"\""].concat()), "{wrong:x?}");
        }
    }

    /// UTF-8 as the standard library judges it.
    #[test]
    fn code_points_are_the_standard_ones() {
        for first in 0xc0..=0xffu8 {
            for second in (0..=0xff).step_by(3) {
                for rest in [&b""[..], b"\x80", b"\xbf\x80", b"\xbf\xc0", b"\x7f\x80"] {
                    let text = [&[first, second], rest].concat();
                    let standard = std::str::from_utf8(&text).ok();
                    let standard = standard.map(|text| text.chars().map(u32::from).collect());
                    assert_eq!(code_points(&text), standard, "{text:x?}");
                }
            }
        }
    }

    #[test]
    fn depth_counts_values() {
        let nested = |depth: usize, inner: &str| {
            format!("{}{inner}{}", "[".repeat(depth), "]".repeat(depth))
        };
        assert!(is_json(nested(32, "")) && is_json(nested(31, "1")));
        assert!(!is_json(nested(33, "")) && !is_json(nested(32, "1")));
        assert!(!is_json(nested(100_000, "")));
        let objects = |depth: usize, inner: &str| {
            format!("{}{inner}{}", "{\"a\":".repeat(depth), "}".repeat(depth))
        };
        assert!(is_json(objects(31, "{}")) && is_json(objects(31, "null")));
        assert!(!is_json(objects(32, "{}")) && !is_json(objects(32, "null")));
    }
}
