//! A shard of which it is not clear which bytes are its own.

use std::ffi::OsString;
use std::fmt;
use std::path::Path;

use crate::text::shown;

/// Why its files do not say which bytes are a shard's. Neither is guessed.
#[derive(Debug)]
pub enum Unclear {
    /// Of its pair this file is missing.
    Half(OsString),
    /// Both editions are there: its file, and these of its pair.
    Both(OsString, Vec<OsString>),
}

impl Unclear {
    /// What it is in a word, as a result in JSON.
    pub fn result(&self) -> &'static str {
        match self {
            Unclear::Half(_) => "half a pair",
            Unclear::Both(..) => "both editions",
        }
    }
}

impl fmt::Display for Unclear {
    fn fmt(&self, f: &mut fmt::Formatter<'_>) -> fmt::Result {
        let shown = |name: &OsString| shown(Path::new(name));
        match self {
            Unclear::Half(missing) => write!(f, "half a pair, {} is missing", shown(missing)),
            Unclear::Both(file, pair) => {
                let pair: Vec<String> = pair.iter().map(shown).collect();
                write!(
                    f,
                    "there in both editions, {} and {}; neither is read",
                    shown(file),
                    pair.join(" with ")
                )
            }
        }
    }
}
