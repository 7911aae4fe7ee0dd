//! A holdings sheet as text: the lines of docs/SHEET.md, or one JSON object.

use std::array;

use coronagamba::Sheet;

use crate::json::Object;

/// How many rows a sheet has.
const ROWS: usize = Sheet::NUMBERS.len() + 4;

/// A sheet, and how much of what was found is not in it.
#[derive(Clone, Copy, Debug, Default, PartialEq, Eq)]
pub struct Holdings {
    /// The sheet.
    pub sheet: Sheet,
    /// How many files or folders could not be read, have no shard's name, are half
    /// a pair or are there in both editions.
    pub left_out: u64,
}

/// The line behind the rows, where something was left out.
pub const LEFT_OUT: &str = "left out";

/// What an object of a sheet says that it is.
const RESULT: (&str, &str) = ("result", "holdings");

/// The names of the rows, in their order.
pub fn names() -> [String; ROWS] {
    array::from_fn(|row| match (row, Sheet::NUMBERS.get(row.wrapping_sub(1))) {
        (0, _) => "shards sound".into(),
        (_, Some(number)) => format!("shards refused {number}"),
        (row, None) => ["chunks", "chunk bytes", "unlisted bytes"][row + 3 - ROWS].into(),
    })
}

/// The name of a row as that of a member.
fn member(name: &str) -> String {
    name.replace(' ', "_")
}

impl Holdings {
    /// A line for each row, and one more where something was left out.
    pub fn lines(&self) -> Vec<String> {
        let rows = names().into_iter().zip(self.sheet.rows());
        let left_out = (self.left_out > 0).then_some((LEFT_OUT.into(), self.left_out));
        let all = rows.chain(left_out);
        all.map(|(name, count): (String, u64)| format!("{name} {count}"))
            .collect()
    }

    /// The same as a JSON object.
    pub fn object(&self) -> Object {
        let object = Object::new().text(RESULT.0, RESULT.1);
        let rows = names().into_iter().zip(self.sheet.rows());
        let object = rows.fold(object, |object, (name, count)| {
            object.number(&member(&name), count)
        });
        object.number(&member(LEFT_OUT), self.left_out)
    }

    /// What was printed in either form, or why the text is none of them.
    pub fn read(text: &[u8]) -> Result<Holdings, String> {
        let text = str::from_utf8(text).map_err(|_| "it is not text")?;
        if text.trim_start().starts_with('{') {
            read_object(text)
        } else {
            read_lines(text)
        }
    }
}

fn read_lines(text: &str) -> Result<Holdings, String> {
    let mut lines = (1..).zip(text.lines()).peekable();
    let mut rows = [0; ROWS];
    for (row, name) in rows.iter_mut().zip(names()) {
        let Some((place, line)) = lines.next() else {
            return Err(format!("it ends before the line '{name} N'"));
        };
        *row = count_in(line, &name).map_err(|why| at_line(place, line, &why))?;
    }
    let left_out = match lines.next_if(|(_, line)| line.starts_with(LEFT_OUT)) {
        None => 0,
        Some((place, line)) => {
            count_in(line, LEFT_OUT).map_err(|why| at_line(place, line, &why))?
        }
    };
    match lines.next() {
        None => Ok(Holdings {
            sheet: Sheet::from_rows(rows),
            left_out,
        }),
        Some((place, line)) => Err(at_line(place, line, "the end of the sheet")),
    }
}

fn at_line(place: u64, line: &str, expected: &str) -> String {
    let line: String = line.chars().take(60).collect();
    format!(
        "line {place} is '{}', expected {expected}",
        line.escape_debug()
    )
}

/// The number behind a name, or what was expected.
fn count_in(line: &str, name: &str) -> Result<u64, String> {
    let digits = line
        .strip_prefix(name)
        .and_then(|rest| rest.strip_prefix(' '));
    let count = digits.and_then(count);
    count.ok_or_else(|| format!("'{name} N', N from 0 to {}", u64::MAX))
}

/// A number as it is printed.
fn count(digits: &str) -> Option<u64> {
    let number: u64 = digits.parse().ok()?;
    (number.to_string() == digits).then_some(number)
}

/// An object of text and numbers, its members in any order and with any space
/// between its parts, as other programs write it again.
fn read_object(text: &str) -> Result<Holdings, String> {
    let names = names().map(|name| member(&name));
    let (mut rows, mut left_out, mut result) = ([None; ROWS], None, None);
    for (name, value) in members(text)? {
        let twice = match names.iter().position(|known| *known == name) {
            Some(row) => rows[row].replace(number(name, value)?).is_some(),
            None if name == member(LEFT_OUT) => left_out.replace(number(name, value)?).is_some(),
            None if name == RESULT.0 => result.replace(value).is_some(),
            None => return Err(format!("a sheet has no member '{}'", name.escape_debug())),
        };
        if twice {
            return Err(format!("the member '{name}' stands twice"));
        }
    }
    let result_there = result.ok_or_else(|| missing(RESULT.0))?;
    if result_there != format!("\"{}\"", RESULT.1) {
        let there = result_there.escape_debug();
        return Err(format!("its result is {there}, expected \"{}\"", RESULT.1));
    }
    let mut sheet = [0; ROWS];
    for (row, (read, name)) in sheet.iter_mut().zip(rows.into_iter().zip(&names)) {
        *row = read.ok_or_else(|| missing(name))?;
    }
    Ok(Holdings {
        sheet: Sheet::from_rows(sheet),
        left_out: left_out.ok_or_else(|| missing(&member(LEFT_OUT)))?,
    })
}

fn missing(name: &str) -> String {
    format!("the member '{name}' is missing")
}

fn number(name: &str, value: &str) -> Result<u64, String> {
    count(value).ok_or_else(|| {
        let value = value.escape_debug();
        format!(
            "{name} is {value}, expected a number from 0 to {}",
            u64::MAX
        )
    })
}

/// Names and values of one object. No value of a sheet holds a comma, a colon or
/// an escape.
fn members(text: &str) -> Result<Vec<(&str, &str)>, String> {
    let inner = text
        .trim()
        .strip_prefix('{')
        .and_then(|text| text.strip_suffix('}'));
    let inner = inner.filter(|inner| !inner.contains(['{', '}']));
    let inner = inner.ok_or("it is not one JSON object")?;
    let member = |part| {
        let (name, value) = str::split_once(part, ':')?;
        let name = name.trim().strip_prefix('"')?.strip_suffix('"')?;
        Some((name, value.trim()))
    };
    let all: Option<Vec<_>> = inner.split(',').map(member).collect();
    all.ok_or_else(|| "it is not one JSON object of a sheet".into())
}

#[cfg(test)]
mod tests {
    use super::*;

    fn some() -> Holdings {
        Holdings {
            sheet: Sheet::from_rows(array::from_fn(|row| u64::MAX - row as u64)),
            left_out: 0,
        }
    }

    #[test]
    fn the_names() {
        let names = names();
        let expected = [
            "shards sound",
            "shards refused 1",
            "shards refused 5",
            "shards refused 6",
            "shards refused 7",
            "shards refused 8",
            "shards refused 9",
            "shards refused 10",
            "shards refused 11",
            "shards refused 15",
            "shards refused 16",
            "shards refused 17",
            "shards refused 21",
            "shards refused 23",
            "chunks",
            "chunk bytes",
            "unlisted bytes",
        ];
        assert_eq!(names, expected);
    }

    #[test]
    fn what_is_printed_is_read() {
        for left_out in [0, 1, u64::MAX] {
            let holdings = Holdings { left_out, ..some() };
            let lines = holdings.lines();
            assert_eq!(lines.len(), if left_out == 0 { 17 } else { 18 });
            for text in [lines.join("\n"), lines.join("\n") + "\n"] {
                assert_eq!(Holdings::read(text.as_bytes()), Ok(holdings));
            }
            let object = holdings.object().finish();
            assert_eq!(Holdings::read(object.as_bytes()), Ok(holdings));
            let wide = object.replace(',', " ,\n  ").replace(':', " : ");
            assert_eq!(Holdings::read(wide.as_bytes()), Ok(holdings));
        }
    }

    #[track_caller]
    fn refused(text: &str, why: &str) {
        assert_eq!(Holdings::read(text.as_bytes()), Err(why.into()), "{text}");
    }

    #[test]
    fn other_lines() {
        let text = some().lines().join("\n");
        refused("", "it ends before the line 'shards sound N'");
        refused(
            text.rsplit_once('\n').unwrap().0,
            "it ends before the line 'unlisted bytes N'",
        );
        let end = "expected the end of the sheet";
        refused(&format!("{text}\ncut"), &format!("line 18 is 'cut', {end}"));
        refused(&format!("{text}\n\n"), &format!("line 18 is '', {end}"));
        let twice = format!("{text}\nleft out 1\nleft out 1");
        refused(&twice, &format!("line 19 is 'left out 1', {end}"));
        let first = "expected 'shards sound N', N from 0 to 18446744073709551615";
        for line in [
            "shards sound",
            "shards sound ",
            "shards sound 18446744073709551616",
            "shards sound -1",
            "shards sound +1",
            "shards sound 01",
            "shards sound 1 ",
            "shards sound  1",
            "Shards sound 1",
            "shards refused 1 1",
        ] {
            let others = text.split_once('\n').unwrap().1;
            let why = format!("line 1 is '{line}', {first}");
            refused(&format!("{line}\n{others}"), &why);
        }
        assert_eq!(Holdings::read(b"\xff"), Err("it is not text".into()));
    }

    #[test]
    fn other_objects() {
        let text = some().object().finish();
        let with = |old: &str, new: &str| {
            assert!(text.contains(old), "{old}");
            text.replacen(old, new, 1)
        };
        refused(
            &with("\"result\":\"holdings\"", "\"result\":\"sound\""),
            "its result is \\\"sound\\\", expected \"holdings\"",
        );
        refused(
            &with("\"result\":\"holdings\",", ""),
            "the member 'result' is missing",
        );
        refused(
            &with("\"left_out\":0", "\"more\":0"),
            "a sheet has no member 'more'",
        );
        refused(
            &with("\"left_out\":0", "\"chunks\":0"),
            "the member 'chunks' stands twice",
        );
        refused(
            &with(",\"left_out\":0", ""),
            "the member 'left_out' is missing",
        );
        refused(
            &with("\"left_out\":0", "\"left_out\":\"0\""),
            "left_out is \\\"0\\\", expected a number from 0 to 18446744073709551615",
        );
        refused("{}", "it is not one JSON object of a sheet");
        refused(&format!("{text}{text}"), "it is not one JSON object");
        refused(&text[..text.len() - 1], "it is not one JSON object");
    }
}
