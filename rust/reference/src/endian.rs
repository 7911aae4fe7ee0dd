//! Little-endian numbers in byte slices.

/// Byte `at` of `bytes`; a byte past the end counts as 0.
fn byte(bytes: &[u8], at: usize, further: usize) -> u8 {
    at.checked_add(further)
        .and_then(|place| bytes.get(place))
        .copied()
        .unwrap_or(0)
}

/// The `N` bytes from `at` on; bytes past the end count as 0.
fn window<const N: usize>(bytes: &[u8], at: usize) -> [u8; N] {
    match bytes.get(at..).and_then(|rest| rest.first_chunk()) {
        Some(window) => *window,
        None => std::array::from_fn(|i| byte(bytes, at, i)),
    }
}

/// The u16 at `at`; bytes past the end count as 0.
pub fn read_u16(bytes: &[u8], at: usize) -> u16 {
    u16::from_le_bytes(window(bytes, at))
}

/// The u32 at `at`; bytes past the end count as 0.
pub fn read_u32(bytes: &[u8], at: usize) -> u32 {
    u32::from_le_bytes(window(bytes, at))
}

/// The u64 at `at`; bytes past the end count as 0.
pub fn read_u64(bytes: &[u8], at: usize) -> u64 {
    u64::from_le_bytes(window(bytes, at))
}

/// The numbers one behind another, 8 bytes each.
pub fn bytes_of(numbers: impl IntoIterator<Item = u64>) -> Vec<u8> {
    let numbers = numbers.into_iter();
    let mut bytes = Vec::with_capacity(8 * numbers.size_hint().0);
    for number in numbers {
        bytes.extend_from_slice(&number.to_le_bytes());
    }
    bytes
}

/// Writes `text` over `out` from `at` on, or gives 13 where it does not fit.
pub fn put(out: &mut [u8], at: usize, text: &[u8]) -> Result<(), u8> {
    let end = at.checked_add(text.len()).ok_or(13)?;
    out.get_mut(at..end).ok_or(13)?.copy_from_slice(text);
    Ok(())
}

/// Writes a u32 at `at`, or gives 13 where it does not fit.
pub fn put_u32(out: &mut [u8], at: usize, value: u32) -> Result<(), u8> {
    put(out, at, &value.to_le_bytes())
}

/// Writes a u64 at `at`, or gives 13 where it does not fit.
pub fn put_u64(out: &mut [u8], at: usize, value: u64) -> Result<(), u8> {
    put(out, at, &value.to_le_bytes())
}

/// Writes all of `text` at the front of `out` and gives its length, or 13
/// where it does not fit.
pub fn write_front(text: &[u8], out: &mut [u8]) -> Result<usize, u8> {
    put(out, 0, text)?;
    Ok(text.len())
}

#[cfg(test)]
mod tests {
    use super::*;

    #[test]
    fn lowest_byte_comes_first() {
        let bytes = [1, 2, 3, 4, 5, 6, 7, 8, 9];
        assert_eq!(read_u16(&bytes, 1), 0x0302);
        assert_eq!(read_u32(&bytes, 1), 0x0504_0302);
        assert_eq!(read_u64(&bytes, 1), 0x0908_0706_0504_0302);
        assert_eq!(bytes_of([0x0807_0605_0403_0201]), bytes[..8]);
    }

    #[test]
    fn bytes_past_the_end_count_as_zero() {
        let bytes = [1, 2, 3];
        assert_eq!(read_u64(&bytes, 1), 0x0302);
        assert_eq!(read_u32(&bytes, 3), 0);
        assert_eq!(read_u16(&bytes, usize::MAX), 0);
    }

    #[test]
    fn a_number_that_does_not_fit_changes_nothing() {
        let mut out = [7; 9];
        assert_eq!(put_u64(&mut out, 2, 1), Err(13));
        assert_eq!(put_u64(&mut out, usize::MAX, 1), Err(13));
        assert_eq!(out, [7; 9]);
        assert_eq!(put_u64(&mut out, 1, 1), Ok(()));
        assert_eq!(out, [7, 1, 0, 0, 0, 0, 0, 0, 0]);
    }
}
