//! A diagnosis, its places and its numbers in words.

/// What the desk can say about a refusal.
#[derive(Clone, Debug, PartialEq, Eq)]
pub struct Diagnosis {
    /// What was found.
    pub found: String,
    /// What was expected.
    pub expected: String,
    /// Where to look.
    pub look_at: String,
    /// The byte to look at, where there is one; the first of them.
    pub byte: Option<u64>,
    /// The line and the column to look at in a text, counted from 1; the first
    /// of them.
    pub line: Option<(u64, u64)>,
    /// The entry of the minishard index that is at fault, and its id.
    pub entry: Option<(u64, u64)>,
}

impl Diagnosis {
    /// A diagnosis in its three parts.
    pub fn new(
        found: impl Into<String>,
        expected: impl Into<String>,
        look_at: impl Into<Place>,
    ) -> Self {
        let Place { words, byte, line } = look_at.into();
        Diagnosis {
            found: found.into(),
            expected: expected.into(),
            look_at: words,
            byte,
            line,
            entry: None,
        }
    }

    /// The same, about this entry of a minishard index and its id.
    pub fn of_entry(self, entry: u64, id: u64) -> Self {
        Diagnosis {
            entry: Some((entry, id)),
            ..self
        }
    }

    /// What is said where this reading does not find the place. The library's
    /// verdict stands.
    pub fn not_found_again() -> Self {
        Diagnosis::new(
            "the library refuses, but this second reading does not find the place",
            "that both readings agree",
            "the whole input; keep it and report it to the keepers of the library",
        )
    }
}

/// Where to look: in words, and the byte that they name.
pub struct Place {
    pub words: String,
    byte: Option<u64>,
    line: Option<(u64, u64)>,
}

impl Place {
    /// A byte of something, and what stands there.
    pub fn byte(place: u64, of: &str, what: &str) -> Self {
        Place {
            words: format!("byte {place} of {of} ({what})"),
            byte: Some(place),
            line: None,
        }
    }

    /// A place in a text.
    pub fn text(line: u64, column: u64, byte: u64) -> Self {
        Place {
            words: format!("line {line}, column {column} (byte {byte})"),
            byte: Some(byte),
            line: Some((line, column)),
        }
    }

    /// Several places with commas; the byte is that of the first.
    pub fn all(places: Vec<Place>) -> Self {
        let words: Vec<&str> = places.iter().map(|place| place.words.as_str()).collect();
        Place {
            words: words.join(", "),
            byte: places.first().and_then(|place| place.byte),
            line: places.first().and_then(|place| place.line),
        }
    }

    /// This place, with more words behind it.
    pub fn and(self, more: impl std::fmt::Display) -> Self {
        Place {
            words: format!("{}{more}", self.words),
            ..self
        }
    }
}

impl<T: Into<String>> From<T> for Place {
    fn from(words: T) -> Self {
        Place {
            words: words.into(),
            byte: None,
            line: None,
        }
    }
}

/// Three numbers with commas.
pub fn commas<T: std::fmt::Display>([x, y, z]: [T; 3]) -> String {
    format!("{x},{y},{z}")
}

/// The u64 at a place, where it is inside.
pub fn u64_at(bytes: &[u8], place: u64) -> Option<u64> {
    let place = usize::try_from(place).ok()?;
    let number = bytes.get(place..)?.first_chunk()?;
    Some(u64::from_le_bytes(*number))
}

/// The u32 at a place, where it is inside.
pub fn u32_at(bytes: &[u8], place: u64) -> Option<u32> {
    let place = usize::try_from(place).ok()?;
    let number = bytes.get(place..)?.first_chunk()?;
    Some(u32::from_le_bytes(*number))
}
