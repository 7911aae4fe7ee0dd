//! The table files: records of fields, a blank line between two.

use crate::source::{text, Function};
use std::path::Path;

/// A refusal of the table.
#[derive(Debug)]
pub struct Refusal {
    /// Its number.
    pub number: u8,
    /// Its constants' name.
    pub name: String,
    /// One sentence.
    pub says: String,
    /// When it is given, in the rules' words.
    pub given: String,
    /// What usually causes it.
    pub cause: String,
    /// What to do.
    pub remedy: String,
    /// The functions that name a minishard with it.
    pub minishard: Vec<String>,
    /// The functions that name a position with it.
    pub position: Vec<String>,
}

/// Another constant.
#[derive(Debug)]
pub struct Constant {
    /// Its name.
    pub name: String,
    /// Its Rattle type.
    pub kind: String,
    /// Its value.
    pub value: u64,
    /// What it stands for.
    pub says: String,
}

/// A record's fields, in their order.
type Record = Vec<(String, String)>;

fn records(path: &Path) -> Result<Vec<Record>, String> {
    let mut found: Vec<Record> = vec![Vec::new()];
    let text = text(path)?;
    for line in text.lines().filter(|line| !line.starts_with('#')) {
        let last = found.last_mut().expect("there is a record");
        if line.trim().is_empty() {
            if !last.is_empty() {
                found.push(Vec::new());
            }
        } else if line.starts_with(' ') {
            let (_, value) = last
                .last_mut()
                .ok_or_else(|| format!("{}: goes on with nothing: {line}", path.display()))?;
            value.push(' ');
            value.push_str(line.trim());
        } else {
            let (name, value) = line
                .split_once(':')
                .ok_or_else(|| format!("{}: no field: {line}", path.display()))?;
            last.push((name.into(), value.trim().into()));
        }
    }
    found.retain(|record| !record.is_empty());
    Ok(found)
}

/// The values of a record that has exactly these fields, in this order.
fn values<const N: usize>(record: Record, names: [&str; N]) -> Result<[String; N], String> {
    let found: Vec<&str> = record.iter().map(|(name, _)| name.as_str()).collect();
    if found != names {
        return Err(format!("fields {found:?}, which should be {names:?}"));
    }
    if let Some((name, _)) = record.iter().find(|(_, value)| value.is_empty()) {
        return Err(format!("{name} is empty in {record:?}"));
    }
    let values: Vec<String> = record.into_iter().map(|(_, value)| value).collect();
    Ok(values.try_into().expect("as many as there are names"))
}

/// Reads the table of refusals and holds it to the functions' comments.
pub fn refusals<'a>(
    path: &Path,
    functions: impl Iterator<Item = &'a Function> + Clone,
) -> Result<Vec<Refusal>, String> {
    let wrong = |what: String| format!("{}: {what}", path.display());
    let mut table: Vec<Refusal> = Vec::new();
    for record in records(path)? {
        let names = [
            "number",
            "name",
            "says",
            "given",
            "cause",
            "remedy",
            "minishard",
            "position",
        ];
        let [number, name, says, given, cause, remedy, minishard, position] =
            values(record, names).map_err(wrong)?;
        let number: u8 = number
            .parse()
            .map_err(|_| wrong(format!("no number from 1 to 255: {number}")))?;
        if table.last().map_or(0, |last| last.number) >= number {
            return Err(wrong(format!(
                "{number} does not exceed the number before it"
            )));
        }
        if !constant_name(&name) || table.iter().any(|other| other.name == name) {
            return Err(wrong(format!("{name} is no name, or stands twice")));
        }
        let carriers = |list: String| -> Result<Vec<String>, String> {
            if list == "none" {
                return Ok(Vec::new());
            }
            let list: Vec<String> = list.split(", ").map(String::from).collect();
            match list
                .iter()
                .find(|name| !functions.clone().any(|f| f.name == **name))
            {
                Some(name) => Err(format!("{}: no function {name}", path.display())),
                None => Ok(list),
            }
        };
        table.push(Refusal {
            number,
            name,
            says,
            given,
            cause,
            remedy,
            minishard: carriers(minishard)?,
            position: carriers(position)?,
        });
    }
    for function in functions {
        let known = |number: &u8| table.iter().any(|refusal| refusal.number == *number);
        match numbers(&function.refusals)?
            .iter()
            .find(|number| !known(number))
        {
            Some(number) => {
                return Err(format!(
                    "{}: no refusal {number} in the table",
                    function.name
                ))
            }
            None => continue,
        }
    }
    Ok(table)
}

/// The numbers of a comment's refusals, `1, 7 to 11 of .., 13`.
pub fn numbers(refusals: &str) -> Result<Vec<u8>, String> {
    if refusals == "none" {
        return Ok(Vec::new());
    }
    let mut found = Vec::new();
    for part in refusals.split(", ") {
        let number = |word: &str| word.parse::<u8>().map_err(|_| format!("no number: {part}"));
        let mut words = part.split(' ');
        let first = number(words.next().unwrap_or_default())?;
        let last = match (words.next(), words.next()) {
            (Some("to"), Some(last)) => number(last)?,
            _ => first,
        };
        found.extend(first..=last);
    }
    Ok(found)
}

/// Reads the table of the other constants.
pub fn constants(path: &Path) -> Result<Vec<Constant>, String> {
    let wrong = |what: String| format!("{}: {what}", path.display());
    let mut table = Vec::new();
    for record in records(path)? {
        let [name, kind, value, says] =
            values(record, ["name", "type", "value", "says"]).map_err(wrong)?;
        if !constant_name(&name) {
            return Err(wrong(format!("{name} is no name")));
        }
        let value = value
            .parse()
            .map_err(|_| wrong(format!("no number: {value}")))?;
        table.push(Constant {
            name,
            kind,
            value,
            says,
        });
    }
    Ok(table)
}

fn constant_name(name: &str) -> bool {
    name.starts_with(|c: char| c.is_ascii_uppercase())
        && name
            .chars()
            .all(|c| c.is_ascii_uppercase() || c.is_ascii_digit() || c == '_')
}

/// A constant's name as the library's enum has it.
fn variant(name: &str) -> String {
    name.split('_')
        .filter(|word| !word.is_empty())
        .map(|word| word[..1].to_string() + &word[1..].to_lowercase())
        .collect()
}

/// Sees that the library's own enum of refusals, in this source, has each of the table under the table's number and name. Those that
/// the table leaves out, since no call of C gives them, stand in the enum alone.
pub fn hold(refusals: &[Refusal], source: &str) -> Result<(), String> {
    let (_, behind) = source
        .split_once("pub enum Refusal {")
        .ok_or("no enum Refusal")?;
    let (variants, _) = behind.split_once('}').ok_or("the enum has no end")?;
    for refusal in refusals {
        let wanted = format!("{} = {},", variant(&refusal.name), refusal.number);
        if !variants.lines().any(|line| line.trim() == wanted) {
            return Err(format!(
                "the enum Refusal has no `{wanted}` as refusals.txt says"
            ));
        }
    }
    Ok(())
}

#[cfg(test)]
mod tests {
    use super::*;

    #[test]
    fn the_numbers_of_a_comment() {
        let found = numbers("1, 5 (also for none), 7 to 11 of the first, 13");
        assert_eq!(found, Ok(vec![1, 5, 7, 8, 9, 10, 11, 13]));
        assert_eq!(numbers("none"), Ok(vec![]));
        for wrong in ["", "1, or 2", "7 to more", "256"] {
            assert!(numbers(wrong).is_err(), "{wrong}");
        }
    }

    /// The table of these records, in a file of its own.
    fn table(name: &str, text: &str) -> Result<Vec<Refusal>, String> {
        let path = std::env::temp_dir().join(format!("{name}.{}", std::process::id()));
        std::fs::write(&path, text).expect("a file");
        let found = refusals(&path, [].iter());
        std::fs::remove_file(&path).expect("it was there");
        found
    }

    fn record(number: &str, name: &str, carrier: &str) -> String {
        format!(
            "number: {number}\nname: {name}\nsays: S\n   and more.\ngiven: g\ncause: c\n\
             remedy: r\nminishard: {carrier}\nposition: none\n\n"
        )
    }

    #[test]
    fn a_table() {
        let text = [
            "# words\n\n",
            &record("2", "TWO", "none"),
            &record("30", "X_3", "none"),
        ];
        let found = table("whole", &text.concat()).expect("it is whole");
        let numbers: Vec<u8> = found.iter().map(|refusal| refusal.number).collect();
        assert_eq!(numbers, [2, 30]);
        assert_eq!(found[0].says, "S and more.");
    }

    #[test]
    fn the_library_has_the_numbers_and_names() {
        let text = record("2", "TWO", "none") + &record("30", "TOO_LONG", "none");
        let found = table("held", &text).expect("it is whole");
        let source =
            "// words\npub enum Refusal {\n    Two = 2,\n    TooLong = 30,\n    More = 31,\n}\n";
        assert_eq!(hold(&found, source), Ok(()));
        for (one, other) in [
            ("Two = 2", "Two = 3"),
            ("TooLong", "TooShort"),
            ("    Two = 2,\n", ""),
            ("enum Refusal", "enum Other"),
        ] {
            assert!(
                hold(&found, &source.replace(one, other)).is_err(),
                "{other}"
            );
        }
    }

    #[test]
    fn tables_that_are_refused() {
        let two = record("2", "TWO", "none");
        for (name, text) in [
            ("falling", [&two, &record("1", "ONE", "none")[..]].concat()),
            ("twice", [&two, &record("3", "TWO", "none")[..]].concat()),
            ("great", record("256", "GREAT", "none")),
            ("name", record("1", "small", "none")),
            ("carrier", record("1", "ONE", "nobody")),
            ("lacking", two.replace("cause: c\n", "")),
            ("empty", two.replace("cause: c\n", "cause:\n")),
        ] {
            assert!(table(name, &text).is_err(), "{name}");
        }
    }
}
