//! The functions of the C archive, as its header declares them.
//!
//! Each that can refuse answers a word: 0 for success, else the refusal's
//! number + 2^8 times (the minishard + 1) + 2^32 times (the position + 1), a
//! part that is not there being 0. Results go through pointers; a refusal
//! leaves everything behind them as it was.
//!
//! What may be passed: a pointer and a count of one live slice, results that
//! are live, and nothing that is written overlaps anything else. An empty
//! slice's pointer is never followed. All that crosses is numbers, in structs
//! without padding, and any bits make a number.

mod declared;

pub use declared::*;

#[cfg(test)]
mod kept;

#[cfg(test)]
mod tests {
    use super::*;
    use crate::{CSharding, Extents, Volume};
    use std::ptr::{null, null_mut};

    /// The specification of one shard with one minishard.
    const NO_BITS: CSharding = CSharding {
        preshift: 0,
        hash: 0,
        minishard_bits: 0,
        shard_bits: 0,
        kind: 0,
    };

    #[test]
    fn no_items_may_come_as_a_null_pointer() {
        let mut length = 9;
        // SAFETY: the header allows a null pointer where the count is 0; the
        // result goes to a live value.
        unsafe {
            assert_eq!(coronagamba_manifest_check(null(), 0), 15);
            let index = [0; 16].as_ptr();
            assert_eq!(coronagamba_pair_check(NO_BITS, 0, index, 16, null(), 0), 0);
            assert_eq!(coronagamba_pair_check(NO_BITS, 0, null(), 0, index, 16), 23);
            assert_eq!(
                coronagamba_settle(
                    NO_BITS,
                    0,
                    [0; 16].as_ptr(),
                    16,
                    0,
                    null_mut(),
                    0,
                    &mut length
                ),
                13
            );
            assert_eq!(length, 9);
            let (ids, shards, minishards) = (null(), null_mut(), null_mut());
            assert_eq!(
                coronagamba_places_of(NO_BITS, ids, 0, shards, 0, minishards, 0, &mut length),
                0
            );
        }
        assert_eq!(length, 0);
    }

    #[test]
    fn numbers_left_over_are_no_cell() {
        let volume = Volume::new([8, 1, 1], [1; 3], [0; 3]);
        let (cells, mut keys, mut length) = ([5, 0, 0, 8, 0], [9; 2], 9);
        let (from, to) = (cells.as_ptr(), keys.as_mut_ptr());
        // SAFETY: each pointer and count are those of one array, and the result
        // goes to a live value.
        unsafe {
            assert_eq!(coronagamba_keys_of(volume, from, 5, to, 2, &mut length), 0);
        }
        assert_eq!((keys, length), ([5, 9], 1));
    }

    #[test]
    fn the_word_of_the_check_names_minishard_and_position() {
        let two = CSharding {
            minishard_bits: 1,
            ..NO_BITS
        };
        // The first minishard is empty, the second one's entry is reversed.
        let mut file = [0; 32];
        file[16] = 1;
        // SAFETY: pointer and count are those of one array.
        unsafe {
            let word = 7 + 256 * 2 + (17 << 32);
            assert_eq!(coronagamba_check(two, 0, file.as_ptr(), 32), word);
            assert_eq!(coronagamba_check(two, 1, file.as_ptr(), 32), 5);
        }
    }

    /// The others pass the position on, and no minishard.
    #[test]
    fn the_other_words_name_the_position_alone() {
        let (file, mut result) = ([1, 0, 0, 0, 0, 0, 0, 0, 0, 0, 0, 0, 0, 0, 0, 0], [9; 2]);
        let (bytes, word) = (file.as_ptr(), 7 + (1 << 32));
        let [first, second] = &mut result;
        // SAFETY: pointer and count are those of one array, results go to live
        // values, and no items may come as a null pointer.
        unsafe {
            let told = coronagamba_lookup(NO_BITS, 0, bytes, 16, 0, first, second);
            assert_eq!(told, word);
            let told = coronagamba_fragment(NO_BITS, 0, bytes, 16, 0, 0, 0, first, second);
            assert_eq!(told, word);
            let told = coronagamba_listed_count(NO_BITS, 0, bytes, 16, 0, first);
            assert_eq!(told, word);
            let told = coronagamba_listing(NO_BITS, 0, bytes, 16, 0, null_mut(), 0, first);
            assert_eq!(told, word);
            let told = coronagamba_unlisted(NO_BITS, 0, bytes, 16, first);
            assert_eq!(told, word);
            for wish in [0, 1] {
                let told = coronagamba_settled_length(NO_BITS, 0, bytes, 16, wish, first);
                assert_eq!(told, word);
                let told = coronagamba_settle(NO_BITS, 0, bytes, 16, wish, null_mut(), 0, first);
                assert_eq!(told, word);
            }
        }
        assert_eq!(result, [9; 2]);
    }

    /// A number in a specification that a byte cannot hold is refused with 1, also
    /// where its lowest byte would be allowed, by the calls that write nothing and
    /// in the sheet.
    #[test]
    fn a_specification_is_not_cut_to_bytes() {
        let (file, mut sheet) = ([0; 16], [0; 17]);
        let bytes = file.as_ptr();
        for more in [256, 1 << 16, 1 << 31, u32::MAX - 255] {
            for field in 0..5 {
                let mut wide = NO_BITS;
                let fields = [
                    &mut wide.preshift,
                    &mut wide.hash,
                    &mut wide.minishard_bits,
                    &mut wide.shard_bits,
                    &mut wide.kind,
                ];
                *fields.into_iter().nth(field).unwrap() = more;
                let before: [u64; 17] = sheet;
                // SAFETY: each pointer and count are those of one array, and no items
                // may come as a null pointer.
                unsafe {
                    assert_eq!(coronagamba_check(wide, 0, bytes, 16), 1);
                    assert_eq!(coronagamba_pair_check(wide, 0, bytes, 16, null(), 0), 1);
                    assert_eq!(coronagamba_sheet_add(&mut sheet, wide, 0, bytes, 16), 0);
                    let told =
                        coronagamba_pair_sheet_add(&mut sheet, wide, 0, bytes, 16, null(), 0);
                    assert_eq!(told, 0);
                }
                // Two shards more are refused with 1.
                let mut expected = before;
                expected[1] += 2;
                assert_eq!(sheet, expected);
            }
        }
    }

    /// 1 asks to drop unlisted bytes, and no other number does.
    #[test]
    fn one_number_asks_to_drop() {
        let (file, mut length, mut out) = ([0; 20], 9, [7; 16]);
        let bytes = file.as_ptr();
        let wide = [257, 1 << 16, (1 << 32) + 1, u64::MAX];
        for wish in (0..=255).chain(wide) {
            let expected = if wish == 1 { 0 } else { 22 };
            // SAFETY: each pointer and count are those of one array, and the
            // result goes to a live value.
            unsafe {
                let told = coronagamba_settled_length(NO_BITS, 0, bytes, 20, wish, &mut length);
                assert_eq!(told, expected);
                let (to, room) = (out.as_mut_ptr(), out.len());
                let told = coronagamba_settle(NO_BITS, 0, bytes, 20, wish, to, room, &mut length);
                assert_eq!(told, expected);
                let data = file[16..].as_ptr();
                let told = coronagamba_pair_settled_length(
                    NO_BITS,
                    0,
                    bytes,
                    16,
                    data,
                    4,
                    wish,
                    &mut length,
                );
                assert_eq!(told, expected);
                let told = coronagamba_pair_settle(
                    NO_BITS,
                    0,
                    bytes,
                    16,
                    data,
                    4,
                    wish,
                    to,
                    room,
                    &mut length,
                );
                assert_eq!(told, expected);
            }
        }
        assert_eq!((length, out), (16, [0; 16]));
    }

    /// Labels have 32 or 64 bits; every other number is refused, and then nothing
    /// is written.
    #[test]
    fn two_label_widths() {
        let words: [u32; 5] = [1, 2, 0, 5, 6];
        let chunk = words.map(u32::to_le_bytes).concat();
        let (from, count, one) = (chunk.as_ptr(), chunk.len(), Extents::from([1; 3]));
        let wide = [256 + 32, 256 + 64, (1 << 32) + 32, (1 << 32) + 64, u64::MAX];
        for bits in (0..=255).chain(wide) {
            let (expected, told, bytes, written) = match bits {
                32 => (0, 5, 4, 4),
                64 => (0, 5 + (6 << 32), 8, 8),
                _ => (2, 9, 9, 0),
            };
            let (mut label, mut length, mut out) = (9, 9, [7; 9]);
            // SAFETY: each pointer and count are those of one array, and the
            // results go to live values.
            unsafe {
                let word =
                    coronagamba_label(from, count, one, one, 1, bits, 0, 0, 0, 0, &mut label);
                assert_eq!((word, label), (expected, told));
                let word = coronagamba_unpacked_length(one, one, 1, bits, &mut length);
                assert_eq!((word, length), (expected, bytes));
                let (to, room) = (out.as_mut_ptr(), out.len());
                let word =
                    coronagamba_unpack(from, count, one, one, 1, bits, to, room, &mut length);
                assert_eq!((word, length), (expected, bytes));
            }
            assert_eq!(out[..written], u64::to_le_bytes(told)[..written]);
            assert_eq!(out[written..], [7; 9][written..]);
        }
    }
}
