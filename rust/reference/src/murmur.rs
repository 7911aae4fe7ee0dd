//! MurmurHash3_x86_128, the public algorithm, for any length and seed.

const C: [u32; 4] = [0x239b_961b, 0xab0e_9789, 0x38b3_4ae5, 0xa1e3_8b93];

/// Spreads every bit of `h` over all of them.
fn finish(mut h: u32) -> u32 {
    h ^= h >> 16;
    h = h.wrapping_mul(0x85eb_ca6b);
    h ^= h >> 13;
    h = h.wrapping_mul(0xc2b2_ae35);
    h ^ (h >> 16)
}

/// Lane `i`'s share of a block: its word scrambled by the lane's constants.
fn scramble(i: usize, word: u32) -> u32 {
    const TURNS: [u32; 4] = [15, 16, 17, 18];
    word.wrapping_mul(C[i])
        .rotate_left(TURNS[i])
        .wrapping_mul(C[(i + 1) % 4])
}

/// The four lanes after one whole block of 16 bytes.
fn take_block(h: &mut [u32; 4], block: &[u8]) {
    const TURNS: [u32; 4] = [19, 17, 15, 13];
    const ADD: [u32; 4] = [0x561c_cd1b, 0x0bca_a747, 0x96cd_1c35, 0x32ac_3b17];
    for i in 0..4 {
        let word = u32::from_le_bytes(block[4 * i..4 * i + 4].try_into().unwrap());
        h[i] ^= scramble(i, word);
        h[i] = h[i].rotate_left(TURNS[i]).wrapping_add(h[(i + 1) % 4]);
        h[i] = h[i].wrapping_mul(5).wrapping_add(ADD[i]);
    }
}

/// The last 0 to 15 bytes: each lane that has a byte takes its word, bytes
/// that are not there counting as 0.
fn take_tail(h: &mut [u32; 4], tail: &[u8]) {
    for (i, part) in tail.chunks(4).enumerate() {
        let mut word = [0; 4];
        word[..part.len()].copy_from_slice(part);
        h[i] ^= scramble(i, u32::from_le_bytes(word));
    }
}

/// Adds the other lanes to the first, then the first to each other.
fn mix_lanes(h: &mut [u32; 4]) {
    for i in 1..4 {
        h[0] = h[0].wrapping_add(h[i]);
    }
    for i in 1..4 {
        h[i] = h[i].wrapping_add(h[0]);
    }
}

/// MurmurHash3_x86_128 of `bytes` with this seed.
pub fn murmur3_x86_128(bytes: &[u8], seed: u32) -> [u8; 16] {
    let mut h = [seed; 4];
    let mut blocks = bytes.chunks_exact(16);
    for block in &mut blocks {
        take_block(&mut h, block);
    }
    take_tail(&mut h, blocks.remainder());
    for lane in &mut h {
        *lane ^= bytes.len() as u32;
    }
    mix_lanes(&mut h);
    h = h.map(finish);
    mix_lanes(&mut h);
    let mut hash = [0; 16];
    for (place, lane) in hash.chunks_mut(4).zip(h) {
        place.copy_from_slice(&lane.to_le_bytes());
    }
    hash
}

#[cfg(test)]
mod tests {
    use super::*;

    /// The verification value published with the algorithm.
    #[test]
    fn published_verification_value() {
        let keys: Vec<u8> = (0..=255).collect();
        let mut hashes = Vec::new();
        for n in 0..256 {
            hashes.extend(murmur3_x86_128(&keys[..n], 256 - n as u32));
        }
        let all = murmur3_x86_128(&hashes, 0);
        assert_eq!(
            u32::from_le_bytes(all[..4].try_into().unwrap()),
            0xB3EC_E62A
        );
    }

    #[test]
    fn nothing_hashes_to_zero() {
        assert_eq!(murmur3_x86_128(&[], 0), [0; 16]);
    }
}
