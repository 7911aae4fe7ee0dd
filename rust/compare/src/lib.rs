//! The proved library beside the reference, on any input.
//!
//! A [`Part`] takes any bytes: it decodes the question from the front of them
//! and takes the rest as the file, card or manifest; bytes that are not there
//! count as 0. It asks library and reference the same and panics at the first
//! difference. No input takes long, or needs more than a few times its own
//! length and a few MiB.

#![forbid(unsafe_code)]

mod agree;
mod parts;
mod question;
mod quiet;
pub mod run;
pub mod shrink;
pub mod sides;

/// What a comparison of two shards gives where both are sound and do not list
/// the same. No refusal has this number.
pub const LISTS_DIFFER: u8 = 255;

/// An entry point of the library, compared with the reference.
#[derive(Clone, Copy)]
pub struct Part {
    /// A short name.
    pub name: &'static str,
    /// What is asked.
    pub about: &'static str,
    /// The refusals that the papers give it, rising; 0 stands for success.
    pub meets: &'static [u8],
    /// Decodes a question from any bytes, asks both sides and panics where
    /// they differ. Gives the refusal that both gave, 0 for success.
    pub compare: fn(&[u8]) -> u8,
    /// Draws an input that `compare` decodes to a question near the rules'
    /// edges.
    pub sample: fn(&mut testkit::Rng) -> Vec<u8>,
}

/// Asks library and reference for a scale's settings in an info file, and panics
/// where they differ. Gives the refusal that both gave, 0 for success.
pub fn compare_info(text: &[u8], scale: u64) -> u8 {
    parts::info::compare_text(text, scale)
}

/// All parts.
pub const PARTS: &[Part] = &[
    parts::grid::GRID,
    parts::grid::KEY,
    parts::grid::KEYS,
    parts::grid::ROW_KEYS,
    parts::grid::COVER,
    parts::grid::CELL,
    parts::grid::BOUNDS,
    parts::names::CHUNK_NAME,
    parts::sharding::PLACE,
    parts::sharding::PLACES,
    parts::names::SHARD_NAME,
    parts::shard::LOOKUP,
    parts::shard::CHECK,
    parts::shard::CHUNKS,
    parts::shard::LISTED_COUNT,
    parts::shard::LISTING,
    parts::settle::UNLISTED,
    parts::settle::SETTLED_LENGTH,
    parts::settle::SETTLE,
    parts::settle::SAME,
    parts::intake::INTAKE,
    parts::intake::FORGED,
    parts::mesh::MESH_LOOKUP,
    parts::mesh::FRAGMENT,
    parts::mesh::MESH_CHECK,
    parts::mesh::MESH_CHUNKS,
    parts::mesh::MESH_LISTED_COUNT,
    parts::mesh::MESH_LISTING,
    parts::mesh::MESH_UNLISTED,
    parts::mesh::MESH_SETTLED_LENGTH,
    parts::mesh::MESH_SETTLE,
    parts::mesh::MESH_SAME,
    parts::pair::PAIR_NAMES,
    parts::pair::PAIR_LOOKUP,
    parts::pair::PAIR_FRAGMENT,
    parts::pair::PAIR_CHECK,
    parts::pair::PAIR_LISTING,
    parts::pair::PAIR_SETTLE,
    parts::pair::PAIR_RANGE,
    parts::card::CARD_READ,
    parts::card::CARD_WRITE,
    parts::info::INFO_READ,
    parts::manifest::MANIFEST_CHECK,
    parts::manifest::MANIFEST_HEADER,
    parts::manifest::MANIFEST_LEVELS,
    parts::manifest::MANIFEST_FIELD,
    parts::manifest::MANIFEST_NODE,
    parts::manifest::MANIFEST_NODES,
    parts::manifest::MANIFEST_ALL_NODES,
    parts::manifest::MANIFEST_CORNERS,
    parts::labels::LABEL,
    parts::labels::UNPACKED_LENGTH,
    parts::labels::UNPACK,
];

#[cfg(test)]
mod tests {
    use super::*;

    #[test]
    fn no_refusal_has_a_number_of_the_tests() {
        assert_eq!(coronagamba::Refusal::meaning(LISTS_DIFFER), None);
    }
}
