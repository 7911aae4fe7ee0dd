//! What stands behind a refusal, in words: what was found, what was expected,
//! where to look. It reads the same bytes beside the library and explains; the
//! number, the minishard and the position are always the library's.
//!
//! Bytes, minishards, entries, levels and nodes are counted from 0, lines and
//! columns of a text from 1.

#[cfg(test)]
mod agreement;
mod card;
mod gaps;
mod info;
mod labels;
mod manifest;
mod places;
mod seen;
mod shard;
pub mod words;

pub use card::of_card;
pub use gaps::Gaps;
pub use info::{labels_of_info, of_info, InfoLabels};
pub use labels::{of_label, of_label_shape, of_labels};
pub use manifest::{of_manifest, of_node};
pub use places::{of_cell, of_key, of_shard_number, of_sharding, of_volume};
pub use shard::{of_fragment, of_listing, of_lookup, of_range, of_shard};
pub use words::Diagnosis;
