//! Faults for the damaged copy, as a bad disk or a careless program leaves
//! them. They are made for shards in the layout of [`super::layout`].

/// The number at the front of the bytes.
fn read(bytes: &[u8]) -> u64 {
    let front = bytes.first_chunk().expect("a number has 8 bytes");
    u64::from_le_bytes(*front)
}

/// Puts a number at the front of the bytes.
fn put(bytes: &mut [u8], number: u64) {
    bytes[..8].copy_from_slice(&number.to_le_bytes());
}

/// Where the index of a minishard stands in a file, and its chunk count.
struct Index {
    start: usize,
    chunks: usize,
}

impl Index {
    /// The index that the shard index of a sound file names.
    fn of(file: &[u8], minishard_bits: u8, minishard: usize) -> Self {
        let entry = &file[16 * minishard..];
        let (start, end) = (read(entry), read(&entry[8..]));
        Index {
            start: (16 << minishard_bits) + start as usize,
            chunks: (end - start) as usize / 24,
        }
    }

    /// The place of a number: row 0 has id steps, 1 start steps, 2 sizes.
    fn number(&self, row: usize, chunk: usize) -> usize {
        self.start + 8 * (row * self.chunks + chunk)
    }
}

/// Swaps start and end of an entry of the shard index: refusal 7.
pub fn reverse_entry(file: &mut [u8], minishard: usize) {
    let entry = &mut file[16 * minishard..][..16];
    entry.rotate_left(8);
}

/// Lists the first id of a minishard a second time: refusal 9.
pub fn repeat_id(file: &mut [u8], minishard_bits: u8, minishard: usize) {
    let step = Index::of(file, minishard_bits, minishard).number(0, 1);
    put(&mut file[step..], 0);
}

/// Gives the last chunk of a minishard more bytes than the file has: refusal
/// 11.
pub fn stretch_last(file: &mut [u8], minishard_bits: u8, minishard: usize) {
    let index = Index::of(file, minishard_bits, minishard);
    let size = index.number(2, index.chunks - 1);
    let more = read(&file[size..]) + file.len() as u64;
    put(&mut file[size..], more);
}

/// Cuts the file short within its shard index: refusal 6.
pub fn cut(file: &mut Vec<u8>) {
    file.truncate(20);
}

/// Changes the first byte of a minishard's first chunk: sound, with other
/// content.
pub fn change_chunk(file: &mut [u8], minishard_bits: u8, minishard: usize) {
    let index = Index::of(file, minishard_bits, minishard);
    let step = read(&file[index.number(1, 0)..]);
    file[(16 << minishard_bits) + step as usize] ^= 0x20;
}
