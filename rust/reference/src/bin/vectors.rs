//! Prints the hash vectors.

fn main() {
    print!("{}", reference::vectors::vectors());
}
