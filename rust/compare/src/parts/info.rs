//! Info files.

use crate::agree::{guarded, same};
use crate::question::{Reader, Writer};
use crate::{sides, Part};
use coronagamba::Card;
use reference::info;
use testkit::{infos, Rng};

/// The byte in front of a scale number that does not fit one byte.
const WIDE: u8 = 255;

/// Reading the settings of a scale.
pub const INFO_READ: Part = Part {
    name: "info_read",
    about: "a scale's settings read from an info file, which write a card that reads back",
    meets: &[0, 1, 2, 3, 19, 20],
    compare,
    sample,
};

/// The scale number, a byte or [`WIDE`] and eight bytes, and the text.
fn compare(bytes: &[u8]) -> u8 {
    let mut reader = Reader::new(bytes);
    let scale = match reader.byte() {
        WIDE => reader.number(),
        small => small.into(),
    };
    compare_text(reader.rest(), scale)
}

/// Both sides on a text and a scale.
pub fn compare_text(text: &[u8], scale: u64) -> u8 {
    guarded(text, |text| {
        let read = Card::read_info(text, scale);
        if let Ok(card) = read {
            let again = card.to_bytes().and_then(|bytes| Card::read(&bytes));
            assert_eq!(again, Ok(card), "the card of {card:?} read back");
        }
        same(
            format_args!("scale {scale} of {}", text.escape_ascii()),
            read,
            info::read(text, scale).map(|card| sides::card(&card)),
        )
    })
}

fn sample(rng: &mut Rng) -> Vec<u8> {
    let (text, scale) = infos::text(rng);
    let front = match u8::try_from(scale) {
        Ok(small) if small != WIDE => Writer::new().byte(small),
        _ => Writer::new().byte(WIDE).number(scale),
    };
    front.rest(&text).finish()
}
