//! What a fuzzer needs around it: the parts' names, seed inputs, replaying
//! inputs without a fuzzer, and counters in the library's code.

#![forbid(unsafe_code)]

use fuzz::{blocks, part, replay, write_seeds};
use std::error::Error;
use std::path::{Path, PathBuf};
use std::process::ExitCode;
use std::{env, fs, io};

const USAGE: &str = "usage: fuzz parts
       fuzz seeds PART FOLDER COUNT
       fuzz replay PART FILE...
       fuzz assembly [TABLE] <LISTING";

fn find(name: &str) -> Result<&'static compare::Part, String> {
    part(name).ok_or_else(|| format!("there is no part {name}"))
}

fn parts() {
    for part in compare::PARTS {
        println!("{:20} {}", part.name, part.about);
    }
}

/// Assembles the listing on standard input again: without counters, or with
/// counters and a table of the blocks that they belong to.
fn assembly(table: Option<&String>) -> Result<(), Box<dyn Error>> {
    let listing = io::read_to_string(io::stdin())?;
    let made = blocks::assembly(&listing, table.is_some())?;
    if let Some(table) = table {
        let line = |(function, at): &(String, u64)| format!("{function} {at:#x}\n");
        fs::write(table, made.blocks.iter().map(line).collect::<String>())?;
    }
    print!("{}", made.text);
    Ok(())
}

fn run(words: &[String]) -> Result<ExitCode, Box<dyn Error>> {
    match words {
        [command] if command == "parts" => parts(),
        [command, name, folder, count] if command == "seeds" => {
            write_seeds(find(name)?, Path::new(folder), count.parse()?)?
        }
        [command, name, files @ ..] if command == "replay" => {
            let files: Vec<PathBuf> = files.iter().map(PathBuf::from).collect();
            replay(find(name)?, &files)?;
            println!("{name}: {} inputs, no difference", files.len());
        }
        [command] if command == "assembly" => assembly(None)?,
        [command, table] if command == "assembly" => assembly(Some(table))?,
        _ => {
            eprintln!("{USAGE}");
            return Ok(ExitCode::from(2));
        }
    }
    Ok(ExitCode::SUCCESS)
}

fn main() -> ExitCode {
    let words: Vec<String> = env::args().skip(1).collect();
    run(&words).unwrap_or_else(|error| {
        eprintln!("fuzz: {error}");
        ExitCode::from(2)
    })
}
