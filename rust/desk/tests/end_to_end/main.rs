//! End-to-end tests: the built program on real files.

#![forbid(unsafe_code)]

mod answers;
mod commands;
mod copies;
mod fingerprints;
mod folders;
mod holdings;
mod json;
mod labels;
mod memory;
mod meshes;
mod minishards;
mod nothing_lost;
mod odd_files;
mod packs;
mod pairs;
mod parts;
mod reading;
mod refusals;
mod sample;
mod shards;
mod support;
mod tour;
