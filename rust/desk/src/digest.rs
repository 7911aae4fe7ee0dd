//! SHA-256, by the system's own `sha256sum`: the program with which a list of
//! fingerprints is checked later (docs/DECISIONS.md).

use std::fmt;
use std::io::{self, Write};
use std::path::Path;
use std::process::{Command, Stdio};

use crate::fault::Fault;

/// The program that is run.
const PROGRAM: &str = "sha256sum";

/// How many hexadecimal digits a digest has.
pub const DIGITS: usize = 64;

/// A SHA-256.
#[derive(Clone, Copy, Debug, PartialEq, Eq)]
pub struct Digest([u8; DIGITS / 2]);

impl Digest {
    /// The digest that these digits write, large or small.
    pub fn read(digits: &[u8]) -> Option<Digest> {
        let mut digest = [0; DIGITS / 2];
        if digits.len() != DIGITS {
            return None;
        }
        for (byte, pair) in digest.iter_mut().zip(digits.chunks_exact(2)) {
            let digit = |digit: u8| char::from(digit).to_digit(16);
            *byte = (digit(pair[0])? * 16 + digit(pair[1])?) as u8;
        }
        Some(Digest(digest))
    }

    /// The digest of these bytes.
    pub fn of(bytes: &[u8]) -> io::Result<Digest> {
        let mut child = Command::new(PROGRAM)
            .stdin(Stdio::piped())
            .stdout(Stdio::piped())
            .spawn()
            .map_err(of_program)?;
        // It answers only when it has read all, so that neither waits for the other.
        // Dropped, the pipe is at its end.
        let written = match child.stdin.take() {
            Some(mut input) => input.write_all(bytes),
            None => Ok(()),
        };
        let told = child.wait_with_output().map_err(of_program)?;
        written.map_err(of_program)?;
        if !told.status.success() {
            let status = told.status;
            return Err(io::Error::other(format!("{PROGRAM} ended with {status}")));
        }
        let digest = told.stdout.strip_suffix(b"  -\n").and_then(Digest::read);
        digest.ok_or_else(|| io::Error::other(format!("{PROGRAM} gave no SHA-256")))
    }
}

/// In small digits, as `sha256sum` writes it.
impl fmt::Display for Digest {
    fn fmt(&self, f: &mut fmt::Formatter<'_>) -> fmt::Result {
        let mut bytes = self.0.iter();
        bytes.try_for_each(|byte| write!(f, "{byte:02x}"))
    }
}

/// The error names the program, also where a shard's name stands before it.
fn of_program(error: io::Error) -> io::Error {
    io::Error::new(error.kind(), format!("{PROGRAM}: {error}"))
}

/// The SHA-256 of 'abc', as the standard has it (FIPS 180-4, example 1 of SHA-256).
const OF_ABC: &[u8; DIGITS] = b"ba7816bf8f01cfea414140de5dae2223b00361a396177a9cb410ff61f20015ad";

/// Sees that there is such a program and that it answers rightly where the answer is
/// known.
pub fn try_program() -> Result<(), Fault> {
    let fault = |error| Fault::system(Path::new(PROGRAM), "used", error);
    match Digest::of(b"abc").map_err(fault)? {
        digest if Some(digest) == Digest::read(OF_ABC) => Ok(()),
        digest => Err(fault(io::Error::other(format!(
            "it gives {digest} for 'abc', which is not its SHA-256"
        )))),
    }
}

#[cfg(test)]
mod tests {
    use super::*;

    #[test]
    fn digits() {
        let digest = Digest::read(OF_ABC).unwrap();
        assert_eq!(digest.to_string().as_bytes(), OF_ABC);
        let large = OF_ABC.to_ascii_uppercase();
        assert_eq!(Digest::read(&large), Some(digest));
        assert_eq!(Digest::read(&OF_ABC[1..]), None);
        assert_eq!(Digest::read(&[OF_ABC.as_slice(), b"0"].concat()), None);
        for wrong in [b'g', b' ', b'+', b'-', 0xff] {
            let mut digits = *OF_ABC;
            digits[7] = wrong;
            assert_eq!(Digest::read(&digits), None, "{wrong}");
        }
    }

    // FIPS 180-4, the examples of one block and of two; NIST's of a million 'a', which
    // a pipe does not hold at once; and the empty message.
    #[test]
    fn examples_of_the_standard() {
        let of = |bytes: &[u8]| Digest::of(bytes).unwrap().to_string();
        assert_eq!(of(b"abc").as_bytes(), OF_ABC);
        assert_eq!(
            of(b"abcdbcdecdefdefgefghfghighijhijkijkljklmklmnlmnomnopnopq"),
            "248d6a61d20638b8e5c026930c3e6039a33ce45964ff2167f6ecedd419db06c1"
        );
        assert_eq!(
            of(&vec![b'a'; 1_000_000]),
            "cdc76e5c9914fb9281a1c7e284d73e67f1809a48a497200e046d39ccc7112cd0"
        );
        assert_eq!(
            of(b""),
            "e3b0c44298fc1c149afbf4c8996fb92427ae41e4649b934ca495991b7852b855"
        );
        try_program().unwrap();
    }
}
