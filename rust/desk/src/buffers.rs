//! Memory for the bytes of files, asked for so that the program does not end where
//! there is none.

use std::fs;
use std::io;

/// The most bytes that are read of a file: one more than a shard may have, so
/// that the library sees that it is too long and gives 6 (scope, refusals).
pub const MOST_BYTES: u64 = (1 << 30) + 1;

/// Asks for memory for so many more bytes. An error says how many they are.
pub fn reserve(buffer: &mut Vec<u8>, bytes: usize) -> io::Result<()> {
    let reserved = buffer.try_reserve_exact(bytes);
    reserved.map_err(|_| lacking(bytes as u64))
}

/// What is said where so many bytes are not to be had.
fn lacking(bytes: u64) -> io::Error {
    let text = format!("out of memory, {bytes} bytes are needed");
    io::Error::new(io::ErrorKind::OutOfMemory, text)
}

/// The front of a buffer, at least that long afterwards. Only what is added
/// is cleared.
pub fn front(buffer: &mut Vec<u8>, length: usize) -> io::Result<&mut [u8]> {
    if buffer.len() < length {
        reserve(buffer, length - buffer.len())?;
        buffer.resize(length, 0);
    }
    Ok(&mut buffer[..length])
}

/// Cleared memory for so many bytes, of which the system makes a page only when
/// it is written. More than it has to give is not asked for: it might promise it
/// all the same, and end the program later.
pub fn cleared(bytes: u64) -> io::Result<Vec<u8>> {
    let most = available().unwrap_or(u64::MAX);
    let length = usize::try_from(bytes).ok().filter(|_| bytes <= most);
    let length = length.ok_or_else(|| lacking(bytes))?;
    // A vector of zeros ends the program where there is no memory, so it is
    // asked for in this way first.
    reserve(&mut Vec::new(), length)?;
    Ok(vec![0; length])
}

/// The memory that can be had without swapping, as the system estimates it.
pub fn available() -> Option<u64> {
    available_in(&fs::read_to_string("/proc/meminfo").ok()?)
}

fn available_in(meminfo: &str) -> Option<u64> {
    let line = meminfo
        .lines()
        .find_map(|line| line.strip_prefix("MemAvailable:"))?;
    let kibibytes: u64 = line.trim().strip_suffix("kB")?.trim().parse().ok()?;
    kibibytes.checked_mul(1024)
}

#[cfg(test)]
mod tests {
    use super::*;

    #[test]
    fn the_front_of_a_buffer() {
        let mut buffer = Vec::new();
        front(&mut buffer, 4).unwrap().fill(9);
        assert_eq!(front(&mut buffer, 2).unwrap(), [9, 9]);
        assert_eq!(front(&mut buffer, 5).unwrap(), [9, 9, 9, 9, 0]);
        let kind = front(&mut buffer, usize::MAX).unwrap_err().kind();
        assert_eq!(kind, io::ErrorKind::OutOfMemory);
        assert_eq!(buffer.len(), 5);
    }

    #[test]
    fn memory_that_is_not_to_be_had() {
        assert_eq!(cleared(9).unwrap(), [0; 9]);
        assert!(cleared(0).unwrap().is_empty());
        for bytes in [u64::MAX, 1 << 62, 1 << 50] {
            let told = cleared(bytes).unwrap_err();
            assert_eq!(told.kind(), io::ErrorKind::OutOfMemory);
            let expected = format!("out of memory, {bytes} bytes are needed");
            assert_eq!(told.to_string(), expected);
        }
    }

    #[test]
    fn what_the_system_tells() {
        let text = "MemTotal:       24683000 kB\nMemAvailable:   12 kB\nBuffers: 3 kB\n";
        assert_eq!(available_in(text), Some(12 * 1024));
        assert_eq!(available_in("MemTotal: 1 kB\n"), None);
        assert!(available().is_some_and(|bytes| bytes > 0));
    }
}
