//! A small reader of JSON texts, by RFC 8259. Numbers stay as they are
//! written, so that 64-bit integers can be compared exactly.

use std::collections::BTreeMap;

/// A JSON value.
#[derive(Clone, Debug, PartialEq)]
pub enum Json {
    /// `null`.
    Null,
    /// `true` or `false`.
    Bool(bool),
    /// A number, as written.
    Number(String),
    /// A string.
    Text(String),
    /// An array.
    Array(Vec<Json>),
    /// An object; no name stands twice.
    Object(BTreeMap<String, Json>),
}

impl Json {
    /// The value that this text is, with nothing around it.
    pub fn read(text: &str) -> Result<Json, String> {
        let mut reader = Reader { rest: text };
        let value = reader.value()?;
        reader.skip_space();
        if reader.rest.is_empty() {
            Ok(value)
        } else {
            Err(format!("more behind the value: {:?}", reader.rest))
        }
    }

    /// A member of an object.
    pub fn get(&self, name: &str) -> Option<&Json> {
        match self {
            Json::Object(members) => members.get(name),
            _ => None,
        }
    }

    /// A member that is a number, as written.
    pub fn number(&self, name: &str) -> Option<&str> {
        match self.get(name)? {
            Json::Number(number) => Some(number),
            _ => None,
        }
    }

    /// A member that is a string.
    pub fn text(&self, name: &str) -> Option<&str> {
        match self.get(name)? {
            Json::Text(text) => Some(text),
            _ => None,
        }
    }
}

/// What is still to be read.
struct Reader<'a> {
    rest: &'a str,
}

impl Reader<'_> {
    fn skip_space(&mut self) {
        self.rest = self.rest.trim_start_matches([' ', '\t', '\n', '\r']);
    }

    fn wrong<T>(&self, expected: &str) -> Result<T, String> {
        Err(format!("expected {expected} before {:?}", self.rest))
    }

    /// Takes this text where it comes next.
    fn take(&mut self, text: &str) -> bool {
        match self.rest.strip_prefix(text) {
            Some(rest) => {
                self.rest = rest;
                true
            }
            None => false,
        }
    }

    fn expect(&mut self, text: &str) -> Result<(), String> {
        self.skip_space();
        if self.take(text) {
            Ok(())
        } else {
            self.wrong(text)
        }
    }

    fn value(&mut self) -> Result<Json, String> {
        self.skip_space();
        if self.take("null") {
            Ok(Json::Null)
        } else if self.take("true") {
            Ok(Json::Bool(true))
        } else if self.take("false") {
            Ok(Json::Bool(false))
        } else if self.take("[") {
            self.array()
        } else if self.take("{") {
            self.object()
        } else if self.rest.starts_with('"') {
            self.string().map(Json::Text)
        } else {
            self.number()
        }
    }

    fn array(&mut self) -> Result<Json, String> {
        let mut items = Vec::new();
        self.skip_space();
        if self.take("]") {
            return Ok(Json::Array(items));
        }
        loop {
            items.push(self.value()?);
            self.skip_space();
            if self.take("]") {
                return Ok(Json::Array(items));
            }
            self.expect(",")?;
        }
    }

    fn object(&mut self) -> Result<Json, String> {
        let mut members = BTreeMap::new();
        self.skip_space();
        if self.take("}") {
            return Ok(Json::Object(members));
        }
        loop {
            self.skip_space();
            let name = self.string()?;
            self.expect(":")?;
            let value = self.value()?;
            if members.insert(name.clone(), value).is_some() {
                return Err(format!("{name:?} stands twice"));
            }
            self.skip_space();
            if self.take("}") {
                return Ok(Json::Object(members));
            }
            self.expect(",")?;
        }
    }

    fn string(&mut self) -> Result<String, String> {
        if !self.take("\"") {
            return self.wrong("a string");
        }
        let mut text = String::new();
        loop {
            let Some(next) = self.rest.chars().next() else {
                return self.wrong("a closing quote");
            };
            self.rest = &self.rest[next.len_utf8()..];
            match next {
                '"' => return Ok(text),
                '\\' => text.push(self.escape()?),
                '\0'..'\x20' => return self.wrong("no control character"),
                _ => text.push(next),
            }
        }
    }

    fn escape(&mut self) -> Result<char, String> {
        const PLAIN: [(&str, char); 8] = [
            ("\"", '"'),
            ("\\", '\\'),
            ("/", '/'),
            ("b", '\x08'),
            ("f", '\x0c'),
            ("n", '\n'),
            ("r", '\r'),
            ("t", '\t'),
        ];
        for (mark, meaning) in PLAIN {
            if self.take(mark) {
                return Ok(meaning);
            }
        }
        if !self.take("u") {
            return self.wrong("an escape");
        }
        let high = self.hex4()?;
        // A character beyond 16 bits comes as two surrogates.
        let code = if (0xd800..0xdc00).contains(&high) && self.take("\\u") {
            let low = self.hex4()?;
            0x10000 + ((high - 0xd800) << 10) + low.wrapping_sub(0xdc00)
        } else {
            high
        };
        char::from_u32(code).ok_or_else(|| format!("\\u{high:04x} is no character"))
    }

    fn hex4(&mut self) -> Result<u32, String> {
        let digits = self.rest.get(..4).unwrap_or("");
        if digits.len() < 4 || !digits.bytes().all(|b| b.is_ascii_hexdigit()) {
            return self.wrong("four hex digits");
        }
        self.rest = &self.rest[4..];
        u32::from_str_radix(digits, 16).map_err(|error| error.to_string())
    }

    fn digits(&mut self) -> Result<(), String> {
        let end = self.rest.find(|c: char| !c.is_ascii_digit());
        let count = end.unwrap_or(self.rest.len());
        if count == 0 {
            return self.wrong("a digit");
        }
        self.rest = &self.rest[count..];
        Ok(())
    }

    fn number(&mut self) -> Result<Json, String> {
        let whole = self.rest;
        self.take("-");
        if !self.take("0") {
            self.digits()?;
        }
        if self.take(".") {
            self.digits()?;
        }
        if self.take("e") || self.take("E") {
            let _signed = self.take("+") || self.take("-");
            self.digits()?;
        }
        let length = whole.len() - self.rest.len();
        Ok(Json::Number(whole[..length].to_string()))
    }
}

#[test]
fn reads_what_is_json() {
    let text = r#" {"a": [1, -2.5e+3, true, null], "b": "x\u00e9\n\ud83d\ude00", "c": {}} "#;
    let value = Json::read(text).expect("JSON");
    assert_eq!(value.text("b"), Some("xé\n😀"));
    let Some(Json::Array(items)) = value.get("a") else {
        panic!("no array");
    };
    assert_eq!(items[1], Json::Number("-2.5e+3".to_string()));
    let greatest = Json::read("{\"id\":18446744073709551615}").expect("JSON");
    assert_eq!(greatest.number("id"), Some("18446744073709551615"));
}

#[test]
fn refuses_what_is_not_json() {
    for text in [
        "",
        "{",
        "{\"a\":1,}",
        "[1 2]",
        "01",
        "1.",
        "-",
        "\"a",
        "\"\n\"",
        "\"\\x\"",
        "nul",
        "{} {}",
        "{\"a\":1,\"a\":2}",
        "\"\\ud800\"",
        "'a'",
        "+1",
        ".5",
        "NaN",
        "{a:1}",
    ] {
        assert!(Json::read(text).is_err(), "{text:?}");
    }
}
