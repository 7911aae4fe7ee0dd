//! Which basic blocks of the library's own code a corpus reaches. `fuzz/run`
//! builds it with `--cfg fuzzing` over the archive that has counters.

#[cfg(fuzzing)]
mod counters {
    extern "C" {
        static mut coronagamba_blocks: u8;
        static mut coronagamba_blocks_end: u8;
    }

    /// The byte of each block.
    fn bytes() -> &'static mut [u8] {
        let (start, end) = (&raw mut coronagamba_blocks, &raw mut coronagamba_blocks_end);
        // SAFETY: the assembly puts the two names at the ends of one array, and
        // the library, which alone also writes to it, is not running.
        unsafe { std::slice::from_raw_parts_mut(start, end.offset_from(start) as usize) }
    }

    /// Which blocks ran since this was last asked.
    pub fn take() -> Vec<bool> {
        let reached = bytes().iter().map(|byte| *byte != 0).collect();
        bytes().fill(0);
        reached
    }
}

#[cfg(fuzzing)]
mod report {
    use super::counters;
    use std::collections::BTreeMap;
    use std::error::Error;
    use std::path::Path;
    use std::{env, fs};

    /// A line for each part with the blocks that its files reach.
    fn parts(roots: &[String], blocks: usize) -> Result<Vec<bool>, Box<dyn Error>> {
        let mut all = vec![false; blocks];
        for part in compare::PARTS {
            let folders = roots.iter().map(|root| Path::new(root).join(part.name));
            let files: Vec<_> = folders
                .map(|folder| fuzz::files(&folder))
                .collect::<Result<_, _>>()?;
            let files = files.concat();
            fuzz::replay(part, &files)?;
            let reached = counters::take();
            let count = reached.iter().filter(|block| **block).count();
            println!("part {} {} files {count} blocks", part.name, files.len());
            all.iter_mut().zip(&reached).for_each(|(a, b)| *a |= b);
        }
        Ok(all)
    }

    /// A line for each function: blocks reached, blocks, and where the others
    /// begin.
    fn functions(table: &str, reached: &[bool]) {
        let mut functions: BTreeMap<&str, (usize, Vec<&str>)> = BTreeMap::new();
        for (line, reached) in table.lines().zip(reached) {
            let (name, at) = line.rsplit_once(' ').unwrap_or((line, ""));
            let (count, missed) = functions.entry(name).or_default();
            *count += 1;
            missed.extend((!reached).then_some(at));
        }
        for (name, (count, missed)) in functions {
            let reached = count - missed.len();
            println!(
                "function {name} {reached} of {count}: not {}",
                missed.join(" ")
            );
        }
    }

    pub fn run() -> Result<(), Box<dyn Error>> {
        let words: Vec<String> = env::args().skip(1).collect();
        let [table, roots @ ..] = &words[..] else {
            return Err("usage: coverage TABLE FOLDER...".into());
        };
        let table = fs::read_to_string(table)?;
        let reached = parts(roots, table.lines().count())?;
        functions(&table, &reached);
        let count = reached.iter().filter(|block| **block).count();
        println!("library {count} of {} blocks", reached.len());
        Ok(())
    }
}

#[cfg(fuzzing)]
fn main() {
    if let Err(error) = report::run() {
        eprintln!("coverage: {error}");
        std::process::exit(2);
    }
}

#[cfg(not(fuzzing))]
fn main() {
    eprintln!("coverage: the archive has no counters; fuzz/run builds it with them");
    std::process::exit(2);
}
