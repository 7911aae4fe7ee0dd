//! The sample's meshes: the manifest of one around the volume, on three levels,
//! and a few nets with their fragments.

use super::layout::Chunk;

/// A node: its position on its level, and the size of its fragment.
type Node = ([u32; 3], u32);

/// The extents of a node of level 0: those of a chunk.
const SHAPE: [f32; 3] = [64.0; 3];
/// Where the octree begins: at the volume's offset.
const ORIGIN: [f32; 3] = [-64.0, 0.0, 0.0];

/// The nodes of each level in Z-curve order. One fragment is empty, as it is
/// where a node has no faces of its own.
const LEVELS: [&[Node]; 3] = [
    &[
        ([0, 0, 0], 1200),
        ([1, 0, 0], 950),
        ([0, 1, 0], 0),
        ([1, 1, 1], 700),
        ([2, 0, 0], 410),
    ],
    &[([0, 0, 0], 640), ([1, 0, 0], 130)],
    &[([0, 0, 0], 220)],
];

/// The manifest by itself.
pub fn manifest() -> Vec<u8> {
    bytes(&LEVELS)
}

/// The bytes of a manifest of these levels (scope, "Manifest").
fn bytes(levels: &[&[Node]]) -> Vec<u8> {
    let scales = (0..levels.len()).map(|level| (1 << level) as f32);
    let vertex_offsets = vec![0.0; 3 * levels.len()];
    let counts = levels.iter().map(|nodes| nodes.len() as u32);
    let items = reals(SHAPE.into_iter().chain(ORIGIN))
        .chain([levels.len() as u32])
        .chain(reals(scales.chain(vertex_offsets)))
        .chain(counts)
        .chain(levels.iter().flat_map(|nodes| rows(nodes)));
    items.flat_map(u32::to_le_bytes).collect()
}

/// The reals as items of the manifest.
fn reals(reals: impl Iterator<Item = f32>) -> impl Iterator<Item = u32> {
    reals.map(f32::to_bits)
}

/// The rows of a level: all x, all y, all z, all fragment sizes.
fn rows(nodes: &[Node]) -> impl Iterator<Item = u32> + '_ {
    let axis = |axis: usize| nodes.iter().map(move |(position, _)| position[axis]);
    let sizes = nodes.iter().map(|(_, size)| *size);
    axis(0).chain(axis(1)).chain(axis(2)).chain(sizes)
}

/// The numbers of the nets.
pub const NETS: [u64; 10] = [3, 8, 17, 21, 40, 55, 62, 70, 96, 101];
/// A net without a shape: its manifest has no levels.
const NO_SHAPE: u64 = 40;
/// A net whose second node has no faces of its own.
const NO_FACES: u64 = 62;

/// The positions of a net's first nodes, in Z-curve order.
const POSITIONS: [[u32; 3]; 4] = [[0, 0, 0], [1, 0, 0], [0, 1, 0], [1, 1, 0]];

/// The manifests of the nets, each with its fragments, in rising id order.
pub fn nets() -> Vec<Chunk> {
    NETS.into_iter().map(net).collect()
}

/// A net of up to four nodes, and one that joins them on the next level.
fn net(id: u64) -> Chunk {
    let fine = 1 + id as usize % POSITIONS.len();
    let levels: &[usize] = if id == NO_SHAPE { &[] } else { &[fine, 1] };
    let mut lead = Vec::new();
    let mut nodes: Vec<Vec<Node>> = Vec::new();
    for (level, count) in levels.iter().enumerate() {
        let mut of_level = Vec::new();
        for (node, position) in POSITIONS[..*count].iter().enumerate() {
            let fragment = fragment(id, level, node);
            of_level.push((*position, fragment.len() as u32));
            lead.extend(fragment);
        }
        nodes.push(of_level);
    }
    let nodes: Vec<&[Node]> = nodes.iter().map(Vec::as_slice).collect();
    Chunk {
        id,
        lead,
        bytes: bytes(&nodes),
    }
}

/// A line that names the node, and up to 32 bytes that are no text. The format
/// has encoded triangles here, which this archive hands out as they are.
fn fragment(id: u64, level: usize, node: usize) -> Vec<u8> {
    if (id, level, node) == (NO_FACES, 0, 1) {
        return Vec::new();
    }
    let line = format!("net {id}, level {level}, node {node} of the sample deposit\n");
    let more = 16 * ((id as usize + node) % 3);
    let pattern = (0..more).map(|i| (200 + 37 * i + node) as u8);
    line.into_bytes().into_iter().chain(pattern).collect()
}
