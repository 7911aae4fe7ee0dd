//! The levels of mesh manifests, against the parts that they are made of.

use coronagamba::manifest::{Level, Manifest};
use testkit::manifests::Parts;
use testkit::Rng;

/// A finite real: the bit that all infinities and NaNs have is 0.
fn finite(rng: &mut Rng) -> f32 {
    f32::from_bits(rng.bits() as u32 & !(1 << 30))
}

/// A manifest of that many levels, of up to three nodes each.
fn parts(rng: &mut Rng, count: usize) -> Parts {
    let mut levels = Vec::new();
    for _ in 0..count {
        let nodes = (0..rng.below(4) as u32).map(|x| ([x, 0, 0], 5));
        levels.push(nodes.collect());
    }
    Parts {
        scales: (0..count).map(|_| finite(rng)).collect(),
        offsets: (0..count).map(|_| [(); 3].map(|()| finite(rng))).collect(),
        ..Parts::new([1.0; 3], [0.0; 3], levels)
    }
}

/// The bits of a level's numbers, so that zeros of both signs differ.
fn bits(level: &Level) -> (u32, [u32; 3], u32) {
    let offset = level.vertex_offset.map(f32::to_bits);
    (level.scale.to_bits(), offset, level.nodes)
}

/// The bits of a level's parts.
fn expected_bits(parts: &Parts, level: usize) -> (u32, [u32; 3], u32) {
    let offset = parts.offsets[level].map(f32::to_bits);
    let nodes = parts.levels[level].len() as u32;
    (parts.scales[level].to_bits(), offset, nodes)
}

#[test]
fn every_level_count() {
    let mut rng = Rng::new(31);
    for count in 0..=32 {
        for _ in 0..100 {
            let parts = parts(&mut rng, count);
            let bytes = parts.bytes();
            let levels = Manifest::open(&bytes).levels().expect("a sound manifest");
            let found = levels.iter().map(bits);
            let expected = (0..count).map(|level| expected_bits(&parts, level));
            assert!(found.eq(expected), "{parts:?}");
        }
    }
}
