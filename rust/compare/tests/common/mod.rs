//! What several tests use.

#![allow(dead_code)]

pub mod manifest;
