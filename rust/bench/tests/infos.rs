//! Plain Rust makes the tests that the library makes: it gives the same
//! answers, so that the times beside each other are of the same work.

use bench::plain::infos::read;
use coronagamba::Card;
use std::collections::BTreeSet;
use testkit::{infos, Rng};

#[test]
fn info_files_are_answered_alike() {
    let mut numbers = BTreeSet::new();
    for seed in 0..50_000 {
        let (text, scale) = infos::text(&mut Rng::new(seed));
        let plain = read(&text, scale);
        let library = Card::read_info(&text, scale).map_err(|refusal| refusal.number);
        assert_eq!(plain, library, "scale {scale} of {}", text.escape_ascii());
        numbers.insert(plain.err().unwrap_or(0));
    }
    assert_eq!(Vec::from_iter(numbers), [0, 1, 2, 3, 19, 20]);
}
