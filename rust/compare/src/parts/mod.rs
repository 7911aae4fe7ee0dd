//! The parts, by what they ask about.

pub mod card;
pub mod grid;
pub mod info;
pub mod intake;
pub mod labels;
pub mod manifest;
pub mod mesh;
pub mod names;
pub mod pair;
pub mod settle;
pub mod shard;
pub mod sharding;
