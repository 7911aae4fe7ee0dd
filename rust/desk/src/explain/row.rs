//! A row of the table of refusals.

/// A number of the table, explained.
#[derive(Debug)]
pub struct Explained {
    /// The number.
    pub number: u8,
    /// When it is given, in the table's words; what goes beyond them is marked.
    pub given: &'static str,
    /// What usually causes it.
    pub cause: &'static str,
    /// What to do.
    pub remedy: &'static str,
}
