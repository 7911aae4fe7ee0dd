//! The library's calls in plain Rust.

pub mod cards;
pub mod deposit;
pub mod infos;
pub mod intakes;
pub mod labels;
pub mod manifests;
pub mod meshes;
pub mod places;
pub mod shards;
