//! Options and arguments, over the words as the system gives them.

use std::ffi::{OsStr, OsString};
use std::os::unix::ffi::OsStrExt;
use std::path::Path;
use std::str::FromStr;

use crate::fault::Fault;
use crate::options::Opt;
use crate::text::shown;

/// The words of a command, sorted out.
#[derive(Debug, Default)]
pub struct Args {
    given: Vec<(&'static str, OsString)>,
    arguments: Vec<OsString>,
}

impl Args {
    /// Sorts out the words behind a command. Options may stand anywhere,
    /// `--opt value` or `--opt=value`; `--` ends them. A value that begins with
    /// two dashes needs the second form, so that a forgotten value is noticed.
    pub fn parse(words: &[OsString], options: &[&[Opt]]) -> Result<Args, Fault> {
        let mut args = Args::default();
        let mut words = words.iter();
        while let Some(word) = words.next() {
            if word == "--" {
                args.arguments.extend(words.cloned());
                break;
            }
            if !is_option(word) {
                args.arguments.push(word.clone());
                continue;
            }
            let (name, joined) = split(word);
            let option = known(name, options)?;
            let value = match (option.takes_value(), joined) {
                (false, None) => OsString::new(),
                (false, Some(_)) => return Err(with_name(option, "takes no value")),
                (true, Some(value)) => value.to_os_string(),
                (true, None) => words
                    .next()
                    .filter(|next| !next.as_bytes().starts_with(b"--"))
                    .ok_or_else(|| with_name(option, "needs a value"))?
                    .clone(),
            };
            args.give(option, value)?;
        }
        Ok(args)
    }

    /// Takes an option that may be given only once.
    fn give(&mut self, option: Opt, value: OsString) -> Result<(), Fault> {
        if self.flag(option) {
            return Err(with_name(option, "is given twice"));
        }
        self.given.push((option.name(), value));
        Ok(())
    }

    /// Whether an option is given.
    pub fn flag(&self, option: Opt) -> bool {
        self.value(option).is_some()
    }

    /// The value of an option.
    pub fn value(&self, option: Opt) -> Option<&OsStr> {
        let mut given = self.given.iter();
        given
            .find(|(given, _)| *given == option.name())
            .map(|(_, value)| value.as_os_str())
    }

    /// The value of an option that is a whole number, decimal or 0x hex.
    pub fn number(&self, option: Opt) -> Result<Option<u64>, Fault> {
        self.value(option)
            .map(|value| number(value, option.name()))
            .transpose()
    }

    /// The value of an option that must be there.
    pub fn needed(&self, option: Opt) -> Result<&OsStr, Fault> {
        self.value(option)
            .ok_or_else(|| Fault::wrong_use(format!("{option} is missing")))
    }

    /// All words as text: the options that are `wanted`, in the order of their names,
    /// then the arguments.
    pub fn words(&self, wanted: impl Fn(&str) -> bool) -> Vec<String> {
        let text = |word: &OsStr| match word.to_str() {
            Some(text) => text.to_string(),
            None => word.as_bytes().escape_ascii().to_string(),
        };
        let given = self.given.iter().filter(|(name, _)| wanted(name));
        let mut words: Vec<String> = given
            .map(|(name, value)| format!("{name}={}", text(value)))
            .collect();
        words.sort();
        words.extend(self.arguments.iter().map(|word| text(word)));
        words
    }

    /// What is not an option.
    pub fn arguments(&self) -> &[OsString] {
        &self.arguments
    }

    /// Exactly these arguments, each with the name that the help gives it.
    pub fn exactly<const N: usize>(&self, names: [&str; N]) -> Result<[&OsStr; N], Fault> {
        if let Some(name) = names.get(self.arguments.len()) {
            return Err(Fault::wrong_use(format!("{name} is missing")));
        }
        if let Some(extra) = self.arguments.get(N) {
            return Err(Fault::wrong_use(format!(
                "'{}' is one argument too many",
                shown(Path::new(extra))
            )));
        }
        Ok(std::array::from_fn(|place| {
            self.arguments[place].as_os_str()
        }))
    }

    /// One argument or more, each with the name that the help gives it.
    pub fn at_least_one(&self, name: &str) -> Result<&[OsString], Fault> {
        if self.arguments.is_empty() {
            return Err(Fault::wrong_use(format!("{name} is missing")));
        }
        Ok(&self.arguments)
    }
}

/// Whether a word is an option. A lone dash and a negative number are
/// arguments.
fn is_option(word: &OsStr) -> bool {
    match word.as_bytes() {
        [b'-', next, ..] => !next.is_ascii_digit(),
        _ => false,
    }
}

/// The name of an option word and the value joined to it.
fn split(word: &OsStr) -> (&OsStr, Option<&OsStr>) {
    let bytes = word.as_bytes();
    match bytes.iter().position(|byte| *byte == b'=') {
        Some(place) => (
            OsStr::from_bytes(&bytes[..place]),
            Some(OsStr::from_bytes(&bytes[place + 1..])),
        ),
        None => (word, None),
    }
}

/// The option of a name.
fn known(name: &OsStr, options: &[&[Opt]]) -> Result<Opt, Fault> {
    let mut all = options.iter().flat_map(|part| part.iter());
    if let Some(option) = all.find(|option| name == option.name()) {
        return Ok(*option);
    }
    let all = options.iter().flat_map(|part| part.iter());
    let names = all.map(|option| option.name());
    let hint = match nearest(name, names) {
        Some(near) => format!(" (nearest: {near})"),
        None => String::new(),
    };
    Err(Fault::wrong_use(format!(
        "there is no option {} here{hint}",
        shown(Path::new(name))
    )))
}

/// Wrong use of an option.
fn with_name(option: Opt, what: &str) -> Fault {
    Fault::wrong_use(format!("option {option} {what}"))
}

/// The name that needs the fewest single-character changes.
pub fn nearest<'a>(word: &OsStr, names: impl Iterator<Item = &'a str>) -> Option<&'a str> {
    names.min_by_key(|name| changes(word.as_bytes(), name.as_bytes()))
}

/// How many bytes must be put in, taken out or replaced to make `to` of `from`.
fn changes(from: &[u8], to: &[u8]) -> usize {
    let mut row: Vec<usize> = (0..=to.len()).collect();
    for (i, have) in from.iter().enumerate() {
        let mut diagonal = row[0];
        row[0] = i + 1;
        for (j, want) in to.iter().enumerate() {
            let replaced = diagonal + usize::from(have != want);
            diagonal = row[j + 1];
            row[j + 1] = replaced.min(row[j] + 1).min(diagonal + 1);
        }
    }
    row[to.len()]
}

/// A word as text, for numbers and names that are never anything else.
fn text<'a>(word: &'a OsStr, what: &str) -> Result<&'a str, Fault> {
    word.to_str().ok_or_else(|| bad(word, what, "text"))
}

/// A bad value.
fn bad(word: &OsStr, what: &str, wanted: &str) -> Fault {
    Fault::wrong_use(format!(
        "{what}: '{}' is not {wanted}",
        shown(Path::new(word))
    ))
}

/// A whole number of at most 64 bits, decimal or 0x hex. `what` names it in
/// the complaint.
pub fn number(word: &OsStr, what: &str) -> Result<u64, Fault> {
    let wanted = "a number from 0 to 18446744073709551615, decimal or 0x hexadecimal";
    let text = text(word, what)?;
    let parsed = match text.strip_prefix("0x") {
        Some(digits) if digits.bytes().all(|byte| byte.is_ascii_hexdigit()) => {
            u64::from_str_radix(digits, 16).ok()
        }
        None if text.bytes().all(|byte| byte.is_ascii_digit()) => text.parse().ok(),
        _ => None,
    };
    parsed.ok_or_else(|| bad(word, what, wanted))
}

/// A decimal number of a narrower kind; `wanted` says which numbers fit.
pub fn decimal<T: FromStr>(word: &OsStr, what: &str, wanted: &str) -> Result<T, Fault> {
    let text = text(word, what)?;
    let digits = text.strip_prefix('-').unwrap_or(text);
    let plain = digits.bytes().all(|byte| byte.is_ascii_digit());
    let parsed = text.parse().ok().filter(|_| plain);
    parsed.ok_or_else(|| bad(word, what, wanted))
}

/// Three decimal numbers with commas between them; `wanted` says which numbers
/// fit.
pub fn triple<T: FromStr>(word: &OsStr, what: &str, wanted: &str) -> Result<[T; 3], Fault> {
    let parts: Vec<&[u8]> = word.as_bytes().split(|byte| *byte == b',').collect();
    let [x, y, z] = parts[..] else {
        return Err(bad(word, what, "three numbers with commas, X,Y,Z"));
    };
    let part = |bytes| decimal(OsStr::from_bytes(bytes), what, wanted);
    Ok([part(x)?, part(y)?, part(z)?])
}

/// Two whole numbers with a comma between them, each decimal or 0x hex; `wanted`
/// names them.
pub fn pair(word: &OsStr, what: &str, wanted: &str) -> Result<[u64; 2], Fault> {
    let parts: Vec<&[u8]> = word.as_bytes().split(|byte| *byte == b',').collect();
    let [first, second] = parts[..] else {
        return Err(bad(word, what, wanted));
    };
    let part = |bytes| number(OsStr::from_bytes(bytes), what);
    Ok([part(first)?, part(second)?])
}

/// The numbers that fit an extent or a cell coordinate.
pub const U32: &str = "a number from 0 to 4294967295";
/// The numbers that fit a voxel offset.
pub const I32: &str = "a number from -2147483648 to 2147483647";
/// The numbers that fit a place in voxels.
pub const I64: &str = "a number from -9223372036854775808 to 9223372036854775807";
/// The numbers that fit a field of the sharding.
pub const U8: &str = "a number from 0 to 255";

#[cfg(test)]
mod tests {
    use super::*;
    use crate::options::{FORCE, OFFSET, OUT};

    const OPTIONS: &[&[Opt]] = &[&[OUT, OFFSET], &[FORCE]];

    fn parse(words: &[&str]) -> Result<Args, String> {
        let words: Vec<OsString> = words.iter().map(OsString::from).collect();
        Args::parse(&words, OPTIONS).map_err(|fault| fault.to_string())
    }

    fn complaint(words: &[&str]) -> String {
        parse(words).expect_err("wrong use")
    }

    #[test]
    fn options_stand_anywhere() {
        let args = parse(&["a", "--out", "b", "c", "--force", "-", "-1,0,0"]).unwrap();
        assert_eq!(args.arguments(), ["a", "c", "-", "-1,0,0"]);
        assert_eq!(args.value(OUT), Some(OsStr::new("b")));
        assert!(args.flag(FORCE));
        assert_eq!(args.value(OFFSET), None);
    }

    #[test]
    fn values_may_be_joined_empty_negative_or_no_text() {
        let args = parse(&["--out=--x=y", "--offset", "-64,0,0"]).unwrap();
        assert_eq!(args.value(OUT), Some(OsStr::new("--x=y")));
        assert_eq!(args.value(OFFSET), Some(OsStr::new("-64,0,0")));
        assert_eq!(parse(&["--out="]).unwrap().value(OUT), Some(OsStr::new("")));
        let word = OsStr::from_bytes(b"--out=\xff").to_os_string();
        let args = Args::parse(&[word], OPTIONS).unwrap();
        assert_eq!(args.value(OUT), Some(OsStr::from_bytes(b"\xff")));
    }

    #[test]
    fn two_dashes_end_the_options() {
        let args = parse(&["--force", "--", "--out", "-x"]).unwrap();
        assert_eq!(args.arguments(), ["--out", "-x"]);
        assert_eq!(args.value(OUT), None);
    }

    #[test]
    fn wrong_options_are_named() {
        let unknown = "there is no option --forse here (nearest: --force)";
        assert_eq!(complaint(&["--forse"]), unknown);
        assert_eq!(complaint(&["--out"]), "option --out needs a value");
        assert_eq!(
            complaint(&["--out", "--force"]),
            "option --out needs a value"
        );
        assert_eq!(complaint(&["--force=1"]), "option --force takes no value");
        let twice = "option --out is given twice";
        assert_eq!(complaint(&["--out", "a", "--out=a"]), twice);
        assert_eq!(
            complaint(&["--force", "--force"]),
            "option --force is given twice"
        );
    }

    #[test]
    fn arguments_are_counted() {
        let count = |words: &[&str]| {
            let args = parse(words).unwrap();
            let found = args.exactly(["FILE", "ID"]);
            found
                .map(|found| found.map(OsStr::to_os_string))
                .map_err(|fault| fault.to_string())
        };
        assert_eq!(count(&["a", "7"]), Ok(["a".into(), "7".into()]));
        assert_eq!(count(&["a"]), Err("ID is missing".into()));
        assert_eq!(count(&[]), Err("FILE is missing".into()));
        assert_eq!(
            count(&["a", "7", "c\n"]),
            Err("'c\\n' is one argument too many".into())
        );
        assert!(parse(&[]).unwrap().at_least_one("FILE").is_err());
    }

    #[test]
    fn numbers() {
        let read = |word: &str| number(OsStr::new(word), "ID").ok();
        assert_eq!(read("0"), Some(0));
        assert_eq!(read("18446744073709551615"), Some(u64::MAX));
        assert_eq!(read("0xffffffffffffffff"), Some(u64::MAX));
        assert_eq!(read("0x1F"), Some(31));
        for word in [
            "",
            "0x",
            "+1",
            "-1",
            " 1",
            "1_0",
            "0X1",
            "0x+1",
            "1e3",
            "a",
            "18446744073709551616",
        ] {
            assert_eq!(read(word), None, "{word}");
        }
    }

    #[test]
    fn triples() {
        let unsigned = |word: &str| triple::<u32>(OsStr::new(word), "--size", U32).ok();
        let signed = |word: &str| triple::<i32>(OsStr::new(word), "--offset", I32).ok();
        assert_eq!(unsigned("1,2,4294967295"), Some([1, 2, u32::MAX]));
        assert_eq!(
            signed("-2147483648,0,2147483647"),
            Some([i32::MIN, 0, i32::MAX])
        );
        for word in [
            "1,2",
            "1,2,3,4",
            "1,2,",
            "1,2,4294967296",
            "-1,2,3",
            "+1,2,3",
            "1, 2,3",
        ] {
            assert_eq!(unsigned(word), None, "{word}");
        }
        assert_eq!(signed("-,1,2"), None);
        let long = |word: &str| triple::<i64>(OsStr::new(word), "FROM", I64).ok();
        let ends = "-9223372036854775808,9223372036854775807,0";
        assert_eq!(long(ends), Some([i64::MIN, i64::MAX, 0]));
        assert_eq!(long("9223372036854775808,0,0"), None);
        assert_eq!(signed("-2147483649,0,0"), None);
    }

    #[test]
    fn pairs() {
        let read = |word: &str| pair(OsStr::new(word), "--fragment", "a pair").ok();
        assert_eq!(read("0,3"), Some([0, 3]));
        assert_eq!(read("0x1f,18446744073709551615"), Some([31, u64::MAX]));
        for word in ["", "1", "1,", ",1", "1,2,3", "1, 2", "-1,2"] {
            assert_eq!(read(word), None, "{word}");
        }
    }

    #[test]
    fn the_nearest_name() {
        let names = ["check", "settle", "same", "card"];
        let near = |word: &str| nearest(OsStr::new(word), names.iter().copied());
        assert_eq!(near("chek"), Some("check"));
        assert_eq!(near("setle"), Some("settle"));
        assert_eq!(near("cardd"), Some("card"));
        assert_eq!(changes(b"kitten", b"sitting"), 3);
    }
}
