//! JSON objects, one a line.

use std::fmt::{Display, Write};
use std::os::unix::ffi::OsStrExt;
use std::path::Path;

/// A whole number, which JSON shows as Rust does.
pub trait Whole: Display {}

impl Whole for u8 {}
impl Whole for u32 {}
impl Whole for u64 {}
impl Whole for i32 {}
impl Whole for i64 {}

/// A JSON object under construction, its members in the order given.
#[derive(Clone, Debug)]
pub struct Object {
    text: String,
}

impl Default for Object {
    fn default() -> Self {
        Object::new()
    }
}

impl Object {
    /// An object without members.
    pub fn new() -> Self {
        Object {
            text: String::from("{"),
        }
    }

    /// A member that is text.
    pub fn text(mut self, name: &str, value: &str) -> Self {
        self.name(name);
        quote(value, &mut self.text);
        self
    }

    /// A member that is an array of texts.
    pub fn texts<'a>(mut self, name: &str, values: impl IntoIterator<Item = &'a str>) -> Self {
        self.name(name);
        let quoted = |value: &str| {
            let mut text = String::new();
            quote(value, &mut text);
            text
        };
        array(values.into_iter().map(quoted), &mut self.text);
        self
    }

    /// A member that is a whole number, in full.
    pub fn number(mut self, name: &str, value: impl Whole) -> Self {
        self.name(name);
        let _ = write!(self.text, "{value}");
        self
    }

    /// A member that is an array of whole numbers.
    pub fn numbers<T: Whole>(mut self, name: &str, values: impl IntoIterator<Item = T>) -> Self {
        self.name(name);
        array(values, &mut self.text);
        self
    }

    /// A member that is a finite real. Readers of JSON make an f64 of it, so it
    /// has as many digits as give back the very same f64.
    pub fn real(mut self, name: &str, value: f32) -> Self {
        self.name(name);
        let _ = write!(self.text, "{}", f64::from(value));
        self
    }

    /// A member that is an array of finite reals.
    pub fn reals(mut self, name: &str, values: impl IntoIterator<Item = f32>) -> Self {
        self.name(name);
        array(values.into_iter().map(f64::from), &mut self.text);
        self
    }

    /// The member `path`, and `path_hex` beside it where the path is not
    /// UTF-8.
    pub fn path(self, path: &Path) -> Self {
        self.named_path("path", path)
    }

    /// A member that is a path, and another one with `_hex` behind its name
    /// where the path is not UTF-8.
    pub fn named_path(self, name: &str, path: &Path) -> Self {
        let object = self.text(name, &path.to_string_lossy());
        match path.to_str() {
            Some(_) => object,
            None => object.text(&format!("{name}_hex"), &hex(path.as_os_str().as_bytes())),
        }
    }

    /// The object's text, without an end of line.
    pub fn finish(mut self) -> String {
        self.text.push('}');
        self.text
    }

    /// Begins a member.
    fn name(&mut self, name: &str) {
        if self.text.len() > 1 {
            self.text.push(',');
        }
        quote(name, &mut self.text);
        self.text.push(':');
    }
}

/// An array of what is shown as JSON shows it.
fn array(values: impl IntoIterator<Item = impl Display>, out: &mut String) {
    let mut mark = '[';
    for value in values {
        let _ = write!(out, "{mark}{value}");
        mark = ',';
    }
    out.push_str(if mark == '[' { "[]" } else { "]" });
}

/// Text between quotation marks, escaped as JSON asks. The delete character is
/// escaped too, since it is a control character on a terminal.
fn quote(value: &str, out: &mut String) {
    out.push('"');
    if value.bytes().all(is_plain) {
        out.push_str(value);
    } else {
        escape(value, out);
    }
    out.push('"');
}

/// Whether a byte is a character of its own that is not escaped.
fn is_plain(byte: u8) -> bool {
    (b' '..=b'~').contains(&byte) && byte != b'"' && byte != b'\\'
}

/// Text with all escapes that JSON asks for.
fn escape(value: &str, out: &mut String) {
    for character in value.chars() {
        match character {
            '"' => out.push_str("\\\""),
            '\\' => out.push_str("\\\\"),
            '\n' => out.push_str("\\n"),
            '\r' => out.push_str("\\r"),
            '\t' => out.push_str("\\t"),
            control if control.is_control() => {
                let _ = write!(out, "\\u{:04x}", u32::from(control));
            }
            other => out.push(other),
        }
    }
}

/// Bytes in lowercase hexadecimal.
fn hex(bytes: &[u8]) -> String {
    let mut out = String::new();
    for byte in bytes {
        let _ = write!(out, "{byte:02x}");
    }
    out
}

/// A value that this program writes and reads again.
#[derive(Clone, Debug, PartialEq, Eq)]
pub enum Value {
    /// Text.
    Text(String),
    /// A number, as it is written.
    Number(String),
    /// An array of texts and numbers.
    Array(Vec<Value>),
}

/// The members of an object as this program writes it, without space between its
/// parts, and without objects in it or arrays in arrays.
pub fn members(text: &str) -> Option<Vec<(String, Value)>> {
    let mut reader = Reader { rest: text };
    let mut members = Vec::new();
    reader.take("{")?;
    while reader.take("}").is_none() {
        if !members.is_empty() {
            reader.take(",")?;
        }
        let name = reader.text()?;
        reader.take(":")?;
        members.push((name, reader.value()?));
    }
    reader.rest.is_empty().then_some(members)
}

/// A member by its name.
pub fn member<'a>(members: &'a [(String, Value)], name: &str) -> Option<&'a Value> {
    let mut members = members.iter();
    members
        .find(|(there, _)| there == name)
        .map(|(_, value)| value)
}

/// A value that is a whole number.
pub fn whole(value: &Value) -> Option<u64> {
    match value {
        Value::Number(number) => number.parse().ok(),
        _ => None,
    }
}

/// A value that is an array of texts.
pub fn texts(value: &Value) -> Option<Vec<String>> {
    let Value::Array(values) = value else {
        return None;
    };
    let text = |value: &Value| match value {
        Value::Text(text) => Some(text.clone()),
        _ => None,
    };
    values.iter().map(text).collect()
}

/// What is still to be read.
struct Reader<'a> {
    rest: &'a str,
}

impl Reader<'_> {
    /// Takes this text where it comes next.
    fn take(&mut self, text: &str) -> Option<()> {
        self.rest = self.rest.strip_prefix(text)?;
        Some(())
    }

    fn value(&mut self) -> Option<Value> {
        match self.rest.as_bytes().first()? {
            b'[' => self.array().map(Value::Array),
            _ => self.single(),
        }
    }

    /// A value that an array may hold.
    fn single(&mut self) -> Option<Value> {
        match self.rest.as_bytes().first()? {
            b'"' => self.text().map(Value::Text),
            _ => self.number().map(Value::Number),
        }
    }

    fn array(&mut self) -> Option<Vec<Value>> {
        let mut values = Vec::new();
        self.take("[")?;
        while self.take("]").is_none() {
            if !values.is_empty() {
                self.take(",")?;
            }
            values.push(self.single()?);
        }
        Some(values)
    }

    fn number(&mut self) -> Option<String> {
        let is_digit = |character: char| character.is_ascii_digit() || "+-.eE".contains(character);
        let end = self.rest.find(|character| !is_digit(character))?;
        let (number, rest) = self.rest.split_at(end);
        self.rest = rest;
        (!number.is_empty()).then(|| number.to_string())
    }

    fn text(&mut self) -> Option<String> {
        self.take("\"")?;
        let mut text = String::new();
        loop {
            let stop = self.rest.find(['"', '\\'])?;
            text.push_str(&self.rest[..stop]);
            self.rest = &self.rest[stop..];
            if self.take("\"").is_some() {
                return Some(text);
            }
            text.push(self.escaped()?);
        }
    }

    /// One of the escapes that `escape` writes.
    fn escaped(&mut self) -> Option<char> {
        const SHORT: [(&str, char); 5] = [
            ("\\\"", '"'),
            ("\\\\", '\\'),
            ("\\n", '\n'),
            ("\\r", '\r'),
            ("\\t", '\t'),
        ];
        for (escape, character) in SHORT {
            if self.take(escape).is_some() {
                return Some(character);
            }
        }
        self.take("\\u")?;
        let digits = self.rest.get(..4)?;
        self.rest = &self.rest[4..];
        char::from_u32(u32::from_str_radix(digits, 16).ok()?)
    }
}

#[cfg(test)]
mod tests {
    use super::*;
    use std::ffi::OsStr;

    #[test]
    fn members_stand_in_order() {
        let object = Object::new()
            .text("a", "b")
            .number("n", u64::MAX)
            .number("m", -3)
            .numbers("none", [0u32; 0])
            .numbers("cell", [1u32, 2, 3]);
        assert_eq!(
            object.finish(),
            "{\"a\":\"b\",\"n\":18446744073709551615,\"m\":-3,\"none\":[],\"cell\":[1,2,3]}"
        );
        assert_eq!(Object::new().finish(), "{}");
    }

    #[test]
    fn text_is_escaped() {
        let object = Object::new().text("a\"", "q\" b\\ n\n r\r t\t 0\0 e\x1b d\x7f ü");
        assert_eq!(
            object.finish(),
            "{\"a\\\"\":\"q\\\" b\\\\ n\\n r\\r t\\t 0\\u0000 e\\u001b d\\u007f ü\"}"
        );
    }

    #[test]
    fn reals_come_back() {
        let object = Object::new()
            .real("s", -0.0)
            .reals("r", [1.0, -0.5, 0.1, 134217728.0]);
        assert_eq!(
            object.finish(),
            "{\"s\":-0,\"r\":[1,-0.5,0.10000000149011612,134217728]}"
        );
    }

    #[test]
    fn a_path_that_is_not_utf8_has_its_bytes_beside_it() {
        let plain = Object::new().path(Path::new("a b"));
        assert_eq!(plain.finish(), "{\"path\":\"a b\"}");
        let odd = Object::new().path(Path::new(OsStr::from_bytes(b"a\xff")));
        assert_eq!(
            odd.finish(),
            "{\"path\":\"a\u{fffd}\",\"path_hex\":\"61ff\"}"
        );
    }

    #[test]
    fn what_was_written_is_read_again() {
        let odd = "q\" b\\ n\n r\r t\t 0\0 e\x1b d\x7f ü, \"place\":";
        let object = Object::new()
            .text("a", odd)
            .number("n", u64::MAX)
            .number("m", -3)
            .texts("t", [odd, ""])
            .numbers("none", [0u32; 0]);
        let read = members(&object.finish()).unwrap();
        assert_eq!(member(&read, "a"), Some(&Value::Text(odd.into())));
        assert_eq!(whole(member(&read, "n").unwrap()), Some(u64::MAX));
        assert_eq!(member(&read, "m"), Some(&Value::Number("-3".into())));
        let both = vec![odd.to_string(), String::new()];
        assert_eq!(texts(member(&read, "t").unwrap()), Some(both));
        assert_eq!(member(&read, "none"), Some(&Value::Array(Vec::new())));
        assert_eq!(member(&read, "other"), None);
        assert_eq!(members("{}"), Some(Vec::new()));
    }

    #[test]
    fn what_is_cut_short_is_not_read() {
        let whole = Object::new()
            .text("a", "\n\u{7f}")
            .numbers("n", [1u32, 2])
            .finish();
        assert!(members(&whole).is_some());
        for end in 0..whole.len() {
            assert_eq!(members(&whole[..end]), None, "{end}");
        }
        assert_eq!(members(&format!("{whole}}}")), None);
    }
}
