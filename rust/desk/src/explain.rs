//! What each refusal number means, what usually causes it, and what to do.

mod row;
mod table;

pub use row::Explained;
pub use table::TABLE;

/// The explanation of a number, where the table has it.
pub fn explained(number: u64) -> Option<&'static Explained> {
    TABLE.iter().find(|row| u64::from(row.number) == number)
}

#[cfg(test)]
mod tests {
    use super::*;

    #[test]
    fn every_refusal_of_the_library_is_explained() {
        let numbers: Vec<u8> = TABLE.iter().map(|row| row.number).collect();
        assert!(coronagamba::Refusal::numbers().eq(numbers));
        assert!(explained(0).is_none() && explained(256).is_none());
        assert_eq!(explained(9).unwrap().number, 9);
    }
}
