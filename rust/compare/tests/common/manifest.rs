//! Each manifest call of the library beside the reference's. Reals are
//! compared by their bits, so that zeros of both signs differ. Each comparison
//! gives the reference's answer without its value.

use compare::sides::{self, answer};
use coronagamba::manifest::{Field, Manifest, Node};
use reference::manifest;

/// A field by kind and bits.
pub fn bits(field: Field) -> (bool, u32) {
    match field {
        Field::Real(real) => (true, real.to_bits()),
        Field::Whole(number) => (false, number),
    }
}

/// The reference's field likewise.
fn expected_bits(field: manifest::Field) -> (bool, u32) {
    match field {
        manifest::Field::Real(real) => (true, real.to_bits()),
        manifest::Field::Whole(number) => (false, number),
    }
}

/// Compares the check.
pub fn same_check(bytes: &[u8]) -> Result<(), u8> {
    let expected = manifest::check(bytes);
    assert_eq!(Manifest::open(bytes).check(), answer(expected), "{bytes:?}");
    expected
}

/// Compares the header.
pub fn same_header(bytes: &[u8]) -> Result<(), u8> {
    let expected = manifest::header(bytes);
    let wanted = expected.map(|h| (h.shape.map(f32::to_bits), h.origin.map(f32::to_bits)));
    let header = Manifest::open(bytes).header();
    let ours = header.map(|h| (h.shape.map(f32::to_bits), h.origin.map(f32::to_bits)));
    assert_eq!(ours, answer(wanted), "{bytes:?}");
    expected.map(|_| ())
}

/// Compares a field.
pub fn same_field(bytes: &[u8], number: u64) -> Result<(), u8> {
    let expected = manifest::field(bytes, number);
    let ours = Manifest::open(bytes).field(number).map(bits);
    let wanted = answer(expected.map(expected_bits));
    assert_eq!(ours, wanted, "{bytes:?} {number}");
    expected.map(|_| ())
}

/// Compares a node.
pub fn same_node(bytes: &[u8], level: u64, node: u64) -> Result<(), u8> {
    let expected = manifest::node(bytes, level, node);
    let ours = Manifest::open(bytes).node(level, node);
    let wanted = answer(expected.map(sides::node));
    assert_eq!(ours, wanted, "{bytes:?} {level} {node}");
    expected.map(|_| ())
}

/// Compares the nodes of a level.
pub fn same_nodes(bytes: &[u8], level: u64) -> Result<(), u8> {
    let expected = manifest::nodes(bytes, level);
    let ours = Manifest::open(bytes).nodes_of(level);
    let wanted = expected.map(|nodes| nodes.into_iter().map(sides::node).collect());
    assert_eq!(ours, answer(wanted.clone()), "{bytes:?} {level}");
    wanted.map(|_: Vec<Node>| ())
}

/// A node's corners as the library gives them, by bits.
pub fn corner_bits(bytes: &[u8], level: u64, node: u64) -> Result<([u32; 3], [u32; 3]), u8> {
    let corners = Manifest::open(bytes).corners(level, node);
    let corners = corners.map_err(|refusal| refusal.number)?;
    Ok((
        corners.near.map(f32::to_bits),
        corners.far.map(f32::to_bits),
    ))
}

/// Compares a node's corners.
pub fn same_corners(bytes: &[u8], level: u64, node: u64) -> Result<(), u8> {
    let expected = manifest::corners(bytes, level, node);
    let wanted = expected.map(|corners| (corners.near, corners.far));
    let ours = corner_bits(bytes, level, node);
    assert_eq!(ours, wanted, "{bytes:?} {level} {node}");
    expected.map(|_| ())
}

/// Compares every call on a small manifest: check, header, each field, the
/// nodes of each level and each of its first nodes, and one past them. Gives
/// the check's answer.
pub fn same_answers(bytes: &[u8], most_nodes: u64) -> Result<(), u8> {
    let checked = same_check(bytes);
    assert_eq!(same_header(bytes), checked, "{bytes:?}");
    for number in 0..=bytes.len() as u64 / 4 {
        let _ = same_field(bytes, number);
    }
    let levels = u64::from(reference::endian::read_u32(bytes, 24)).min(32);
    for level in 0..=levels {
        let _ = same_nodes(bytes, level);
        for node in 0..=most_nodes {
            let _ = same_node(bytes, level, node);
            let _ = same_corners(bytes, level, node);
        }
    }
    checked
}
