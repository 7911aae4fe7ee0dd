//! A list of chunk files, which are the chunks of one shard.

use std::collections::BTreeMap;
use std::ffi::OsStr;
use std::fs::File;
use std::io::{self, BufRead, BufReader, Read};
use std::os::unix::ffi::OsStrExt;
use std::path::Path;

use coronagamba::{Refusal, Sharding};

use super::delivery::{Chunk, Job, Line, Sources};
use super::task::Task;
use crate::args::{number, Args};
use crate::diagnosis;
use crate::fault::{Explain, Fault};
use crate::files::Inputs;
use crate::fragments::is_mesh;
use crate::naming::{cell_of_chunk, no_chunk, no_shard, shard_number, Ending};
use crate::options::{FORCE, SHARD};
use crate::output;
use crate::report::{complaint, Report};
use crate::settings::{self, Settings};
use crate::text::shown;

/// Packs the chunks of a list; where none is named, it is standard input.
pub fn pack(
    args: &Args,
    source: Option<&Path>,
    out: &Path,
    report: &mut Report,
) -> Result<(), Fault> {
    let settings = settings::of_shards(args)?;
    no_mesh(&settings.sharding)?;
    let volume = settings.volume.map(settings::with_keys).transpose()?;
    let settings = Settings { volume, ..settings };
    let number = number_of(args, &settings.sharding, out)?;
    let name = source.unwrap_or(Path::new("standard input"));
    let lines = match source {
        None => read(io::stdin().lock(), &settings),
        Some(path) => File::open(path).and_then(|file| read(BufReader::new(file), &settings)),
    };
    let lines = lines.map_err(|error| Fault::system(name, "read", error))?;
    if !lines.wrong.is_empty() {
        return tell_wrong(name, &lines, report);
    }
    let chunks = chunks(&settings.sharding, number, &lines.chunks)?;
    let listed = lines.chunks.values().map(|line| line.path.as_path());
    let task = Task {
        sharding: settings.sharding,
        sources: Sources::Listed(&lines.chunks),
        force: args.flag(FORCE),
        inputs: Inputs::of(listed.chain(source).chain(settings::files(args))),
    };
    output::remove_stale_parts_of(out, &task.inputs);
    let job = Job {
        number,
        out: out.to_path_buf(),
        chunks: &chunks,
    };
    task.round(1, vec![job], report).map(|_| ())
}

/// The number of the shard that is packed: what `--shard` says, else what the
/// output's name says, which is one file.
fn number_of(args: &Args, sharding: &Sharding, out: &Path) -> Result<u64, Fault> {
    if let Some(number) = args.number(SHARD)? {
        return Ok(number);
    }
    let name = out.file_name().unwrap_or_default();
    let whole = matches!(Ending::of(name), Some((_, Ending::Shard)));
    let number = shard_number(sharding, name).filter(|_| whole);
    number.ok_or_else(|| no_shard(sharding, out, true))
}

/// A mesh's chunks are manifests with fragments before them, which are not
/// delivered one by one.
fn no_mesh(sharding: &Sharding) -> Result<(), Fault> {
    match is_mesh(sharding) {
        false => Ok(()),
        true => Err(Fault::wrong_use(
            "these are the settings of a mesh, and chunk files are packed into the shards of a volume",
        )),
    }
}

/// The chunks by rising minishard, then rising id. Those of other shards stand in
/// front, so that the library sees them before anything is read.
fn chunks(
    sharding: &Sharding,
    number: u64,
    lines: &BTreeMap<u64, Line>,
) -> Result<Vec<Chunk>, Fault> {
    let chunk = |id: &u64| Chunk::of(sharding, *id);
    let chunks: Result<Vec<Chunk>, Refusal> = lines.keys().map(chunk).collect();
    let mut chunks = chunks.explain("settings", |_| diagnosis::of_sharding(sharding))?;
    chunks.sort_unstable_by_key(|chunk| (chunk.shard == number, *chunk));
    Ok(chunks)
}

/// What a list says.
#[derive(Debug, Default)]
struct Lines {
    /// The chunk files by id.
    chunks: BTreeMap<u64, Line>,
    /// What is wrong, with the line's number; the first of them.
    wrong: Vec<(u64, String)>,
    /// How many more lines are wrong.
    more: u64,
}

/// How many wrong lines are told.
const MOST_TOLD: usize = 10;

/// The longest line: no path that the system takes is as long.
const MOST_LINE: u64 = 1 << 16;

/// Reads a list. Empty lines do not count.
fn read(mut list: impl BufRead, settings: &Settings) -> io::Result<Lines> {
    let mut lines = Lines::default();
    let mut line = Vec::new();
    for number in 1.. {
        line.clear();
        let length = (&mut list).take(MOST_LINE).read_until(b'\n', &mut line)?;
        let text = line.strip_suffix(b"\n");
        if text.is_none() && length as u64 == MOST_LINE {
            lines.wrong(number, format!("is longer than {MOST_LINE} bytes"));
            break;
        }
        if length == 0 {
            break;
        }
        let text = text.unwrap_or(&line);
        let text = text.strip_suffix(b"\r").unwrap_or(text).trim_ascii_start();
        if !text.is_empty() {
            lines
                .note(number, text, settings)
                .unwrap_or_else(|wrong| lines.wrong(number, wrong));
        }
    }
    Ok(lines)
}

impl Lines {
    /// Takes a line: a name or an id, blanks, and a path. Gives what is wrong with
    /// it.
    fn note(&mut self, number: u64, text: &[u8], settings: &Settings) -> Result<(), String> {
        let end = text.iter().position(u8::is_ascii_whitespace);
        let (word, path) = text.split_at(end.unwrap_or(text.len()));
        let (word, path) = (OsStr::from_bytes(word), path.trim_ascii_start());
        let id = id_of(word, settings)?;
        if path.is_empty() {
            let word = brief(word);
            return Err(format!("'{word}' stands alone, and its path is missing"));
        }
        if let Some(first) = self.chunks.get(&id) {
            let first = first.number;
            return Err(format!("id {id} is given twice, first in line {first}"));
        }
        let path = Path::new(OsStr::from_bytes(path)).to_path_buf();
        self.chunks.insert(id, Line { path, number });
        Ok(())
    }

    /// Keeps what is wrong with a line, or counts it.
    fn wrong(&mut self, number: u64, what: String) {
        if self.wrong.len() < MOST_TOLD {
            self.wrong.push((number, what));
        } else {
            self.more += 1;
        }
    }
}

/// The id that a word gives: itself, or the key of the cell that it names.
fn id_of(word: &OsStr, settings: &Settings) -> Result<u64, String> {
    let Some(volume) = &settings.volume else {
        let told = "is no id, and names of chunks need the volume: --size and --chunk, or a card";
        return number(word, "id").map_err(|_| format!("'{}' {told}", brief(word)));
    };
    if let Ok(id) = number(word, "id") {
        let cell = volume.cell(id);
        let told = "is the key of no cell of the volume";
        return cell.map(|_| id).map_err(|_| format!("id {id} {told}"));
    }
    let key = cell_of_chunk(volume, word).and_then(|cell| volume.key(cell).ok());
    key.ok_or_else(|| format!("'{}' is no id, and {}", brief(word), no_chunk(volume)))
}

/// A word that may be anything, as far as it is worth showing.
fn brief(word: &OsStr) -> String {
    let shown = shown(Path::new(word));
    match shown.char_indices().nth(80) {
        None => shown,
        Some((end, _)) => format!("{}..", &shown[..end]),
    }
}

/// Tells what is wrong with a list, of which nothing is packed then.
fn tell_wrong(name: &Path, lines: &Lines, report: &mut Report) -> Result<(), Fault> {
    let name = shown(name);
    for (number, what) in &lines.wrong {
        let fault = Fault::wrong_use(format!("{name}, line {number}: {what}"));
        report.complain(&fault)?;
    }
    let more = match lines.more {
        0 => String::new(),
        more => format!("{more} more are wrong, and "),
    };
    complaint(format_args!("{name}: {more}nothing is packed"));
    Ok(())
}

#[cfg(test)]
mod tests {
    use super::*;
    use crate::trial::TWO_MINISHARDS;

    /// What a list of ids says: ids and paths, and the lines that are wrong.
    fn said(text: &[u8]) -> (Vec<(u64, String)>, Vec<u64>, u64) {
        let settings = Settings {
            sharding: TWO_MINISHARDS,
            volume: None,
        };
        let lines = read(text, &settings).expect("bytes can be read");
        let chunks = lines.chunks.iter();
        let chunks = chunks.map(|(id, line)| (*id, shown(&line.path)));
        let wrong = lines.wrong.iter().map(|(number, _)| *number);
        (chunks.collect(), wrong.collect(), lines.more)
    }

    #[test]
    fn lines() {
        let text = b"7 a\n\n \t0x8\t b c \r\n9 /d\xff/e";
        let chunks = [(7, "a"), (8, "b c "), (9, "/d\u{fffd}/e")];
        let chunks = chunks.map(|(id, path)| (id, path.to_string()));
        assert_eq!(said(text), (chunks.to_vec(), vec![], 0));
        assert_eq!(said(b""), (vec![], vec![], 0));
        assert_eq!(said(b"\n\r\n"), (vec![], vec![], 0));
    }

    #[test]
    fn wrong_lines() {
        let text = b"7 a\n7 b\n8\n-1 c\nx d\n0-1_0-1_0-1 e\n";
        let (chunks, wrong, more) = said(text);
        assert_eq!(chunks, [(7, "a".to_string())]);
        assert_eq!((wrong, more), (vec![2, 3, 4, 5, 6], 0));
        let (_, wrong, more) = said(&b"x\n".repeat(25));
        assert_eq!((wrong, more), ((1..=10).collect(), 15));
    }

    /// The longest line is taken, and behind a longer one nothing is read.
    #[test]
    fn long_lines() {
        let line = |length: usize| [b"7 ", &vec![b'a'; length - 3][..], b"\n"].concat();
        let most = MOST_LINE as usize;
        let (chunks, wrong, _) = said(&line(most));
        assert_eq!((chunks.len(), wrong.len()), (1, 0));
        for text in [line(most + 1), vec![0; 3 * most], line(5 * most)] {
            let (chunks, wrong, more) = said(&[&b"6 a\n"[..], &text, b"8 b\n"].concat());
            assert_eq!((chunks.len(), wrong, more), (1, vec![2], 0));
        }
        // A last line needs no end.
        let (chunks, wrong, _) = said(&line(most)[..most - 1]);
        assert_eq!((chunks.len(), wrong.len()), (1, 0));
    }
}
