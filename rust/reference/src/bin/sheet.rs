//! What the program `sheet` prints for standard input, by the reference: the
//! stored output of `crates/sheet` is made with it.

use std::io::{self, Read, Write};

fn main() -> io::Result<()> {
    let mut input = Vec::new();
    io::stdin().read_to_end(&mut input)?;
    io::stdout().write_all(&reference::sheet::print(&input))
}
