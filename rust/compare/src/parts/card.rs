//! Deposit cards.

use crate::agree::{guarded, same, same_writing};
use crate::question::{Reader, Room, Writer};
use crate::{sides, Part};
use coronagamba::Card;
use reference::card;
use testkit::{cards, Lent, Rng};

/// Reading a card.
pub const CARD_READ: Part = Part {
    name: "card_read",
    about: "a card read from bytes, which writes the same bytes",
    meets: &[0, 1, 2, 3, 14],
    compare: compare_read,
    sample: cards::any,
};

/// Writing a card.
pub const CARD_WRITE: Part = Part {
    name: "card_write",
    about: "a card written, which reads back",
    meets: &[0, 1, 2, 3, 13],
    compare: compare_write,
    sample: sample_write,
};

fn compare_read(bytes: &[u8]) -> u8 {
    guarded(bytes, |bytes| {
        let read = Card::read(bytes);
        if let Ok(card) = read {
            let written = card.to_bytes();
            assert_eq!(written.as_deref(), Ok(bytes), "the card {card:?} written");
        }
        same(
            format_args!("card in {bytes:?}"),
            read,
            card::read(bytes).map(|card| sides::card(&card)),
        )
    })
}

fn compare_write(bytes: &[u8]) -> u8 {
    let mut reader = Reader::new(bytes);
    let card = card::Card {
        sharding: reader.sharding_of_kinds(),
        volume: reader.volume(),
    };
    let library = sides::card(&card);
    let needed = card::to_bytes(&card).map_or(46, |bytes| bytes.len());
    let length = reader.room().length(needed);
    let met = same_writing(
        format_args!("writing of {card:?}"),
        &Lent::new(&mut Rng::new(length as u64), length),
        |out| library.write(out),
        |out| card::write(&card, out),
    );
    if met == 0 {
        let written = library.to_bytes().expect("it was written before");
        assert_eq!(Card::read(&written), Ok(library), "the card read back");
    }
    met
}

fn sample_write(rng: &mut Rng) -> Vec<u8> {
    let card = cards::meaning_of_kinds(rng);
    Writer::new()
        .sharding_of_kinds(&card.sharding)
        .volume(&card.volume)
        .room(Room::draw(rng))
        .finish()
}
