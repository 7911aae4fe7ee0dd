//! Refusals and the answer words that carry them.

use crate::numbers::SENTENCES;
use std::error::Error;
use std::fmt;

/// Why a call refused: a number from the archive's table; of a shard, with 7 to
/// 11, 15 to 17 and 21, the place of what offends and, from the whole-shard check
/// and the measure, the minishard that it is in.
///
/// ```
/// use coronagamba::Refusal;
///
/// let refusal = Refusal { number: 9, minishard: Some(3), position: Some(460) };
/// assert_eq!(
///     refusal.to_string(),
///     "refused 9: An id stands twice in a minishard. \
///      The fault is in minishard 3, at byte 460."
/// );
/// ```
#[derive(Clone, Copy, Debug, PartialEq, Eq, Hash)]
pub struct Refusal {
    /// The number in the table, as in [`Refusal::NOT_LISTED`].
    pub number: u8,
    /// The minishard with the fault, from the whole-shard check and the measure
    /// only.
    pub minishard: Option<u64>,
    /// Of a shard, with 7 to 11, 15 to 17 and 21, the byte to look at, counted
    /// from the start of the shard, of a [`Pair`](crate::Pair) from the start of
    /// the two files joined.
    ///
    /// With 7 and 8 the minishard's entry in the shard index begins there, 16
    /// bytes; with 9 and 10 the id step of the first entry that offends, with 11,
    /// 15 to 17 and 21 its start step, 8 bytes each. Of an id that stands twice it
    /// is the later entry. The calls on a manifest by itself give 15 to 17 without
    /// a position.
    pub position: Option<u64>,
}

impl Refusal {
    /// What the table says about a number, as one sentence; `None` for a
    /// number that the table does not have.
    ///
    /// ```
    /// use coronagamba::Refusal;
    ///
    /// assert_eq!(Refusal::meaning(12), Some("The id is not listed."));
    /// assert_eq!(Refusal::meaning(99), None);
    /// ```
    pub fn meaning(number: u8) -> Option<&'static str> {
        let mut rows = SENTENCES.iter();
        rows.find_map(|(known, says)| (*known == number).then_some(*says))
    }

    /// The numbers that the table has, rising.
    ///
    /// ```
    /// use coronagamba::Refusal;
    ///
    /// assert!(Refusal::numbers().any(|number| number == Refusal::NOT_LISTED));
    /// ```
    pub fn numbers() -> impl Iterator<Item = u8> {
        SENTENCES.iter().map(|(number, _)| *number)
    }

    /// What the table says about this number, as one sentence.
    ///
    /// ```
    /// use coronagamba::Refusal;
    ///
    /// let refusal = Refusal { number: 14, minishard: None, position: None };
    /// assert_eq!(refusal.sentence(), "The card is malformed.");
    /// ```
    pub fn sentence(&self) -> &'static str {
        Refusal::meaning(self.number).unwrap_or("The number is not in the table.")
    }
}

impl fmt::Display for Refusal {
    fn fmt(&self, f: &mut fmt::Formatter<'_>) -> fmt::Result {
        write!(f, "refused {}: {}", self.number, self.sentence())?;
        match (self.minishard, self.position) {
            (Some(minishard), Some(position)) => {
                write!(
                    f,
                    " The fault is in minishard {minishard}, at byte {position}."
                )
            }
            (Some(minishard), None) => write!(f, " The fault is in minishard {minishard}."),
            (None, Some(position)) => write!(f, " The fault is at byte {position}."),
            (None, None) => Ok(()),
        }
    }
}

impl Error for Refusal {}

/// The meaning of an answer word: 0 is success, else the low byte is the
/// refusal's number. The next 24 bits are 0 where the word names no minishard,
/// else one more than it; the last 32 do the same for a position.
pub(crate) fn answer(word: u64) -> Result<(), Refusal> {
    if word == 0 {
        return Ok(());
    }
    Err(Refusal {
        number: word as u8,
        minishard: (word >> 8 & 0xff_ffff).checked_sub(1),
        position: (word >> 32).checked_sub(1),
    })
}

/// What a call leaves behind its result pointers, or its refusal.
pub(crate) fn given<T: Default>(call: impl FnOnce(&mut T) -> u64) -> Result<T, Refusal> {
    let mut results = T::default();
    answer(call(&mut results))?;
    Ok(results)
}

/// The length that a writing call reports, or its refusal. What was written
/// fits a slice, so its length fits.
pub(crate) fn written(call: impl FnOnce(&mut u64) -> u64) -> Result<usize, Refusal> {
    given(call).map(|length| length as usize)
}

#[cfg(test)]
mod tests {
    use super::*;

    #[test]
    fn words() {
        let refusal = |number, minishard, position| {
            Err(Refusal {
                number,
                minishard,
                position,
            })
        };
        assert_eq!(answer(0), Ok(()));
        assert_eq!(answer(13), refusal(13, None, None));
        assert_eq!(answer(7 + 256), refusal(7, Some(0), None));
        assert_eq!(answer(11 + 256 * 4096), refusal(11, Some(4095), None));
        assert_eq!(answer(9 + 256 * 65536), refusal(9, Some(65535), None));
        assert_eq!(
            answer(9 + 256 * 4 + (77 << 32)),
            refusal(9, Some(3), Some(76))
        );
        assert_eq!(answer(7 + (1 << 32)), refusal(7, None, Some(0)));
        // The last byte of the longest shard, and the greatest of each part.
        let last = (1 << 30) - 1;
        assert_eq!(answer(11 + (1 << 62)), refusal(11, None, Some(last)));
        assert_eq!(
            answer(u64::MAX),
            refusal(255, Some((1 << 24) - 2), Some((1 << 32) - 2))
        );
    }

    #[test]
    fn each_number_has_a_sentence_of_its_own() {
        let numbers: Vec<u8> = Refusal::numbers().collect();
        assert!(numbers.is_sorted_by(|one, next| one < next));
        for number in 0..=u8::MAX {
            let meaning = Refusal::meaning(number);
            assert_eq!(meaning.is_some(), numbers.contains(&number));
            let mut others = (0..number).filter_map(Refusal::meaning);
            assert!(!others.any(|other| meaning == Some(other)));
        }
    }

    #[test]
    fn the_place_is_shown() {
        for (minishard, position, place) in [
            (None, None, ""),
            (Some(3), None, " The fault is in minishard 3."),
            (None, Some(0), " The fault is at byte 0."),
            (
                Some(0),
                Some(460),
                " The fault is in minishard 0, at byte 460.",
            ),
        ] {
            let refusal = Refusal {
                number: 11,
                minishard,
                position,
            };
            let sentence = "refused 11: A chunk ends past the file.";
            assert_eq!(refusal.to_string(), format!("{sentence}{place}"));
        }
    }
}
