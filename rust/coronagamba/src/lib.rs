//! Safe Rust over the proved library's C archive.
//!
//! Every call takes any numbers and bytes and ends; a refusal carries its
//! number from the archive's table and leaves each lent buffer as it was.
//! The answers are the library's. What this crate adds is types, lifetimes
//! and memory, and these are tested, not proved.
//!
// Each example of the tour is a test.
#![doc = include_str!("../TOUR.md")]
#![warn(clippy::undocumented_unsafe_blocks)]

mod card;
mod cover;
mod ffi;
mod grid;
pub mod intake;
mod labels;
pub mod manifest;
mod names;
pub mod numbers;
mod pair;
mod refusal;
mod scan;
mod settle;
mod shard;
mod sharding;
mod sheet;
mod version;

pub use card::Card;
pub use cover::Cover;
pub use grid::{Bounds, Cell, Extents, Offset, Point, Volume};
pub use intake::Intake;
pub use labels::{LabelBits, LabelNumbers, LabelShape, Labels};
pub use manifest::Manifest;
pub use pair::{Half, Held, Pair};
pub use refusal::Refusal;
pub use scan::Scan;
pub use settle::Unlisted;
pub use shard::{Chunk, Chunks, Listed, Shard, Span};
use sharding::CSharding;
pub use sharding::{Place, Sharding};
pub use sheet::{Counts, Sheet};
pub use version::version;
