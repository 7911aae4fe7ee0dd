//! The program `locate`, through its standard input and output.

use crate::clock::children_time;
use crate::runner::{self, Measure};
use std::env;
use std::fs::{self, File};
use std::path::{Path, PathBuf};
use std::process::{Command, Stdio};

const CELLS: usize = 1_000_000;

/// The proved program: in the folder that the variable names, else where the
/// repository's build leaves it.
fn proved() -> PathBuf {
    let folder = env::var_os("CORONAGAMBA_BIN_DIR").map_or_else(
        || PathBuf::from(env!("CARGO_MANIFEST_DIR")).join("../../target/bin"),
        PathBuf::from,
    );
    folder.join("locate")
}

/// Its match in plain Rust, which lies beside this program.
fn plain() -> PathBuf {
    env::current_exe()
        .expect("this program's path")
        .with_file_name("plain_locate")
}

/// A card with murmur and cells of its volume, one in a hundred outside.
fn input() -> Vec<u8> {
    let mut input = vec![46, 0, 1, 1, 0, 6, 2, 1, 0, 1, 3, 1, 0, 6, 4, 1, 0, 11];
    for (tag, numbers) in [(5, [6446, 6643, 8090]), (6, [64, 64, 64u32])] {
        input.extend([tag, 12, 0]);
        input.extend(numbers.into_iter().flat_map(u32::to_le_bytes));
    }
    for random in runner::numbers(CELLS) {
        let sides = [102, 104, 127];
        for (axis, side) in sides.into_iter().enumerate() {
            let number = (random >> (20 * axis)) as u32 % 1_048_576 % side;
            input.extend(number.to_le_bytes());
        }
    }
    input
}

/// What a program prints for the file.
fn printed(program: &Path, file: &Path) -> Vec<u8> {
    Command::new(program)
        .stdin(File::open(file).expect("the input"))
        .stdout(Stdio::piped())
        .output()
        .unwrap_or_else(|error| panic!("{} can't be run: {error}", program.display()))
        .stdout
}

/// Times both programs over the same cells.
pub fn run() {
    let file = env::temp_dir().join(format!("cells-{}", std::process::id()));
    fs::write(&file, input()).expect("a file for the input");
    let (ours, theirs) = (proved(), plain());
    assert!(printed(&ours, &file) == printed(&theirs, &file));
    let length = |program: &Path| printed(program, &file).len() as u64;
    Measure {
        name: "locate, a cell, murmur",
        operations: CELLS,
        bar: Some(1.0),
    }
    .run_by(children_time, || length(&ours), || length(&theirs), None);
    fs::remove_file(&file).expect("the input is removed");
}
