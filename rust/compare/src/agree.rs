//! The two sides' answers and buffers, which must be the same.

use crate::sides::refusal;
use coronagamba::Refusal;
use std::fmt::{Arguments, Debug};
use testkit::{Lent, Rng};

/// Panics unless the two answers are the same. Gives the refusal's number, 0
/// for success.
pub fn same<T: PartialEq + Debug, E: Into<reference::Refusal>>(
    question: Arguments,
    library: Result<T, Refusal>,
    expected: Result<T, E>,
) -> u8 {
    let expected = expected.map_err(refusal);
    if library != expected {
        panic!("{question}: the library gives {library:?}, the reference {expected:?}");
    }
    expected.map_or_else(|refusal| refusal.number, |_| 0)
}

/// Lets both write into equal buffers and panics unless they answer the same
/// and leave the same items in and around them, all of them as they were where
/// they refuse. Gives the refusal's number, 0 for success.
pub fn same_writing<T: Clone + PartialEq, E: Into<reference::Refusal>>(
    question: Arguments,
    lent: &Lent<T>,
    library: impl FnOnce(&mut [T]) -> Result<usize, Refusal>,
    expected: impl FnOnce(&mut [T]) -> Result<usize, E>,
) -> u8 {
    let (mut ours, mut theirs) = (lent.clone(), lent.clone());
    let met = same(question, library(ours.part()), expected(theirs.part()));
    assert!(ours == theirs, "{question}: the output differs");
    assert!(
        met == 0 || ours == *lent,
        "{question}: refused, but the output changed"
    );
    met
}

/// These bytes with random ones around them, so that reading past an end or
/// writing there shows. `ask` gets them; they must stay as they are.
pub fn guarded<T>(bytes: &[u8], ask: impl FnOnce(&[u8]) -> T) -> T {
    let lent = Lent::holding(&mut Rng::new(bytes.len() as u64), bytes);
    let before = lent.clone();
    let answer = ask(lent.held());
    assert!(lent == before, "the bytes that were read changed");
    answer
}

#[cfg(test)]
mod tests {
    use super::*;

    fn refused(number: u8) -> Refusal {
        refusal(number)
    }

    #[test]
    fn equal_answers_give_their_number() {
        let question = format_args!("q");
        assert_eq!(same::<_, u8>(question, Ok(5), Ok(5)), 0);
        assert_eq!(same::<u8, _>(question, Err(refused(7)), Err(7)), 7);
    }

    #[test]
    #[should_panic(expected = "q: the library gives Ok(5), the reference Ok(6)")]
    fn other_values_differ() {
        same::<_, u8>(format_args!("q"), Ok(5), Ok(6));
    }

    #[test]
    #[should_panic(expected = "the reference Err(Refusal { number: 7, minishard: Some(3), ")]
    fn other_minishards_differ() {
        let expected = reference::Refusal::bare(7).in_minishard(3);
        same::<u8, _>(format_args!("q"), Err(refused(7)), Err(expected));
    }

    #[test]
    #[should_panic(expected = "minishard: None, position: Some(48) })")]
    fn other_positions_differ() {
        let expected = reference::Refusal::at(7, 48);
        let library = refusal(reference::Refusal::at(7, 32));
        same::<u8, _>(format_args!("q"), Err(library), Err(expected));
    }

    /// Writes on both sides, into an output of four bytes.
    fn write(
        library: impl FnOnce(&mut [u8]) -> Result<usize, Refusal>,
        expected: impl FnOnce(&mut [u8]) -> Result<usize, u8>,
    ) -> u8 {
        let lent = Lent::new(&mut Rng::new(1), 4);
        same_writing(format_args!("q"), &lent, library, expected)
    }

    /// Fills the front of an output.
    fn filled(out: &mut [u8], length: usize) -> usize {
        out[..length].fill(0);
        length
    }

    #[test]
    fn equal_outputs_pass() {
        assert_eq!(write(|out| Ok(filled(out, 2)), |out| Ok(filled(out, 2))), 0);
        assert_eq!(write(|_| Err(refused(13)), |_| Err(13)), 13);
    }

    #[test]
    #[should_panic(expected = "q: the output differs")]
    fn a_byte_more_differs() {
        write(
            |out| {
                filled(out, 3);
                Ok(2)
            },
            |out| Ok(filled(out, 2)),
        );
    }

    #[test]
    #[should_panic(expected = "q: the output differs")]
    fn an_output_changed_by_a_refusal_differs() {
        write(
            |out| {
                filled(out, 1);
                Err(refused(13))
            },
            |_| Err(13),
        );
    }

    #[test]
    #[should_panic(expected = "q: refused, but the output changed")]
    fn no_side_may_change_the_output_and_refuse() {
        write(
            |out| {
                filled(out, 1);
                Err(refused(13))
            },
            |out| {
                filled(out, 1);
                Err(13)
            },
        );
    }
}
