//! A shard written from its chunks in plain Rust: each part is copied to its
//! place, and the rows of a minishard follow its chunks. Nothing is tested.

use coronagamba::Sharding;

/// Writes chunks, given by minishard and id in rising order, which all have
/// these bytes and come in parts of this length. Gives the shard's length.
pub fn write(
    sharding: &Sharding,
    chunks: &[(u64, u64)],
    body: &[u8],
    part: usize,
    out: &mut [u8],
) -> usize {
    let base = 16 << sharding.minishard_bits;
    out[..base].fill(0);
    let mut next = base;
    for mates in chunks.chunk_by(|one, other| one.0 == other.0) {
        let begin = next;
        for _ in mates {
            for bytes in body.chunks(part) {
                out[next..next + bytes.len()].copy_from_slice(bytes);
                next += bytes.len();
            }
        }
        let start = next;
        let before = [0].into_iter().chain(mates.iter().map(|(_, id)| *id));
        let steps = mates
            .iter()
            .zip(before)
            .map(|((_, id), before)| id - before);
        let starts = [begin - base]
            .into_iter()
            .chain(std::iter::repeat_n(0, mates.len() - 1));
        let sizes = std::iter::repeat_n(body.len() as u64, mates.len());
        for number in steps.chain(starts.map(|start| start as u64)).chain(sizes) {
            out[next..next + 8].copy_from_slice(&number.to_le_bytes());
            next += 8;
        }
        let entry = 16 * mates[0].0 as usize;
        out[entry..entry + 8].copy_from_slice(&((start - base) as u64).to_le_bytes());
        out[entry + 8..entry + 16].copy_from_slice(&((next - base) as u64).to_le_bytes());
    }
    next
}
