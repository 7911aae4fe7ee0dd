//! The proved program's hash vectors, against this crate's own.

use std::env;
use std::path::PathBuf;

/// The file of the proved program's output: the one that the variable names,
/// else the one of the repository.
fn recorded() -> PathBuf {
    env::var_os("CORONAGAMBA_VECTORS").map_or_else(
        || PathBuf::from(env!("CARGO_MANIFEST_DIR")).join("../../crates/vectors/stdout"),
        PathBuf::from,
    )
}

#[test]
fn recorded_vectors_are_ours() {
    let path = recorded();
    let recorded = std::fs::read_to_string(&path)
        .unwrap_or_else(|error| panic!("{} can't be read: {error}", path.display()));
    let ours = reference::vectors::vectors();
    assert_eq!(recorded.lines().count(), ours.lines().count());
    for (recorded, ours) in recorded.lines().zip(ours.lines()) {
        assert_eq!(recorded, ours);
    }
    assert_eq!(recorded, ours);
}
