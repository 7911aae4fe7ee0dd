//! All nodes of mesh manifests, level by level, against the parts that the
//! manifests are made of.

use coronagamba::manifest::{Manifest, Node, Visit};
use testkit::manifests::{self, Parts};
use testkit::Rng;

/// All nodes, level by level, by the parts that a manifest is made of.
fn visits(parts: &Parts) -> Vec<Visit> {
    let mut visits = Vec::new();
    let mut start = 0;
    for (level, nodes) in (0..).zip(&parts.levels) {
        for (index, (position, size)) in (0..).zip(nodes) {
            let node = Node {
                position: *position,
                size: *size,
                start,
            };
            visits.push(Visit { level, index, node });
            start += u64::from(*size);
        }
    }
    visits
}

/// Asks for the nodes of a manifest of these parts, all at once and level by
/// level.
fn compare(parts: &Parts) {
    let bytes = parts.bytes();
    let manifest = Manifest::open(&bytes);
    let expected = visits(parts);
    let all = manifest.nodes().expect("a sound manifest");
    assert!(all.eq(expected.iter().copied()), "{} bytes", bytes.len());
    let mut rest = &expected[..];
    for (level, nodes) in (0..).zip(&parts.levels) {
        let (visits, more) = rest.split_at(nodes.len());
        let found = manifest.nodes_of(level).expect("there is such a level");
        assert!(visits.iter().map(|visit| visit.node).eq(found));
        rest = more;
    }
    for level in [parts.levels.len() as u64, 1 << 32, u64::MAX] {
        assert_eq!(manifest.nodes_of(level).unwrap_err().number, 18);
    }
}

/// Every level count, with runs of empty levels.
#[test]
fn made_manifests() {
    let mut rng = Rng::new(63);
    for count in 0..=32 {
        for _ in 0..100 {
            let mut level = || -> Vec<manifests::Node> {
                let nodes = 0..rng.below(4) as u32 / 2 * 3;
                nodes.map(|x| ([x, 0, 0], rng.edge_u32())).collect()
            };
            let levels = (0..count).map(|_| level()).collect();
            compare(&Parts::new([1.0; 3], [0.0; 3], levels));
        }
    }
}

#[test]
fn finished_nodes_stay_finished() {
    let mut rng = Rng::new(64);
    for _ in 0..200 {
        let bytes = manifests::sound(&mut rng, 4);
        let mut nodes = Manifest::open(&bytes).nodes().expect("a sound manifest");
        while nodes.next().is_some() {}
        assert!((0..3).all(|_| nodes.next().is_none()));
    }
}

/// Manifests of 16 MiB, whose fragments end far past 2^32: with all nodes in
/// one level, and with one node in each of 31 levels behind it.
#[test]
fn the_longest_manifests() {
    for levels in [1, 32] {
        let more = levels - 1;
        let nodes = (16_777_216 - 28 - 20 * levels) / 16 - more;
        let first = (0..nodes).map(|z| ([0, 0, z], u32::MAX)).collect();
        let mut all: Vec<Vec<manifests::Node>> = vec![first];
        all.extend((0..more).map(|x| vec![([x, 0, 0], u32::MAX)]));
        let parts = Parts::new([1.0; 3], [0.0; 3], all);
        assert!(parts.bytes().len() > 16_777_216 - 16);
        compare(&parts);
    }
}
