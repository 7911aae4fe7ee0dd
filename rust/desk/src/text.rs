//! Paths and counts in plain lines.

use std::path::Path;

/// A path in plain output: replacement characters where it is not UTF-8, and
/// control characters escaped, so that a name can neither break a line nor
/// steer a terminal.
pub fn shown(path: &Path) -> String {
    let mut out = String::new();
    for character in path.to_string_lossy().chars() {
        if character.is_control() {
            out.extend(character.escape_default());
        } else {
            out.push(character);
        }
    }
    out
}

/// `1 shard`, `2 shards`.
pub fn counted(count: u64, what: &str) -> String {
    let plural = if count == 1 { "" } else { "s" };
    format!("{count} {what}{plural}")
}

/// `, 3 other files passed over`, or nothing.
pub fn passed_over(others: u64, what: &str) -> String {
    match others {
        0 => String::new(),
        others => format!(", {} passed over", counted(others, what)),
    }
}

/// `, 2 misnamed`, or nothing where there are none.
pub fn and(count: u64, what: &str) -> String {
    match count {
        0 => String::new(),
        count => format!(", {count} {what}"),
    }
}

#[cfg(test)]
mod tests {
    use super::*;
    use std::ffi::OsStr;
    use std::os::unix::ffi::OsStrExt;

    #[test]
    fn names_cannot_break_a_line() {
        assert_eq!(shown(Path::new("a\nb\x1b[2J ü")), "a\\nb\\u{1b}[2J ü");
        assert_eq!(shown(Path::new(OsStr::from_bytes(b"a\xffb"))), "a\u{fffd}b");
    }
}
