//! Mesh shards: the check, settling, and the fragment of a node.

use crate::runner::{bytes, numbers, pass, touched, Measure};
use bench::plain::meshes as plain;
use coronagamba::{Shard, Sharding, Unlisted};
use reference::settle::{form_of, Triple};
use std::hint::black_box;

/// How many manifests the shard lists.
const MANIFESTS: usize = 1 << 16;

/// How many bytes a manifest and its fragments have: 256 MiB in all.
const NET: usize = 1 << 12;

/// A cube of nodes on each of three levels.
const SIDES: [u32; 3] = [4, 2, 1];

/// A shard of number 0, with the ids that it lists.
struct Sample {
    sharding: Sharding,
    ids: Vec<u64>,
    file: Vec<u8>,
    /// How many bytes a manifest has.
    manifest: usize,
}

/// The positions of a cube with this side, a power of two, along the Z curve.
fn cube(side: u32) -> Vec<[u32; 3]> {
    let bit = |place: u32, axis: u32| {
        (0..side.ilog2()).fold(0, |n, height| {
            n | (place >> (3 * height + axis) & 1) << height
        })
    };
    (0..side.pow(3))
        .map(|place| [0, 1, 2].map(|axis| bit(place, axis)))
        .collect()
}

/// The levels' nodes as a manifest's items, with fragments of this size.
fn manifest(size: u32, last: u32) -> Vec<u8> {
    let levels = SIDES.map(cube);
    let mut items = vec![1f32.to_bits(); 3];
    items.extend([0, 0, 0, levels.len() as u32]);
    items.resize(items.len() + 4 * levels.len(), 0);
    items.extend(levels.iter().map(|nodes| nodes.len() as u32));
    for nodes in &levels {
        for axis in 0..3 {
            items.extend(nodes.iter().map(|position| position[axis]));
        }
        items.extend(nodes.iter().map(|_| size));
    }
    *items.last_mut().expect("there are nodes") = last;
    items.into_iter().flat_map(u32::to_le_bytes).collect()
}

/// A settled shard of 2^16 manifests, 64 in a minishard, each with a fragment
/// for each of its 73 nodes.
fn sample() -> Sample {
    let nodes = SIDES.map(|side| side.pow(3)).iter().sum::<u32>();
    let left = (NET - manifest(0, 0).len()) as u32;
    let size = left / nodes;
    let manifest = manifest(size, left - size * (nodes - 1));
    let fragments = bytes(left as usize);
    let sharding = reference::sharding::Sharding {
        preshift: 0,
        hash: Sharding::MURMUR,
        minishard_bits: 10,
        shard_bits: 0,
        kind: Sharding::MESH,
    };
    let ids = numbers(MANIFESTS);
    let net = |id: &u64| Triple {
        id: *id,
        fragments: &fragments,
        chunk: &manifest,
    };
    let content: Vec<Triple> = ids.iter().map(net).collect();
    Sample {
        sharding: compare::sides::sharding(&sharding),
        file: form_of(&sharding, &content),
        ids,
        manifest: manifest.len(),
    }
}

impl Sample {
    /// The library's view of it.
    fn open(&self) -> Shard<'_> {
        Shard::open(self.sharding, 0, black_box(&self.file))
    }

    /// The manifests as they lie in the file.
    fn manifests(&self) -> Vec<&[u8]> {
        let chunks = self.open().chunks().expect("it is sound");
        let manifests: Vec<&[u8]> = chunks.map(|chunk| chunk.bytes).collect();
        assert_eq!(manifests.len(), MANIFESTS);
        assert!(manifests.iter().all(|bytes| bytes.len() == self.manifest));
        manifests
    }
}

/// The check, timed by manifest; the limit loads all manifests.
fn checks(sample: &Sample) {
    let measure = Measure {
        name: "mesh check, 256 MiB in 2^16 manifests, a manifest",
        operations: MANIFESTS,
        bar: Some(1.3),
    };
    let manifests = sample.manifests();
    measure.run_beside(
        || u64::from(sample.open().check().is_ok()),
        || u64::from(plain::check(&sample.sharding, 0, black_box(&sample.file)).is_ok()),
        || manifests.iter().fold(0, |all, bytes| all ^ pass(bytes)),
    );
}

/// The count of unlisted bytes, which begins with the check, beside the library's
/// own check; timed by manifest. There are none.
fn counting(sample: &Sample) {
    Measure {
        name: "mesh unlisted, in file order, beside the check",
        operations: MANIFESTS,
        bar: Some(1.2),
    }
    .run(
        || sample.open().unlisted().unwrap_or(u64::MAX),
        || u64::from(sample.open().check().is_err()),
    );
}

/// Settling, timed by KiB of output; the limit copies the file.
fn settling(sample: &Sample) {
    let name = "mesh settling, 256 MiB in 2^16 manifests, a KiB";
    let length = sample.file.len();
    let (mut ours, mut theirs, mut copied) = (touched(length), touched(length), touched(length));
    let measure = Measure {
        name,
        operations: length >> 10,
        bar: Some(1.3),
    };
    measure.run_beside(
        || {
            sample
                .open()
                .settle(Unlisted::Drop, black_box(&mut ours))
                .unwrap_or(0) as u64
        },
        || {
            let file = black_box(&sample.file);
            plain::settle(&sample.sharding, 0, file, black_box(&mut theirs)).unwrap_or(0) as u64
        },
        || {
            black_box(&mut copied[..]).copy_from_slice(black_box(&sample.file));
            u64::from(copied[length / 2])
        },
    );
    assert!(ours == sample.file, "{name}: the library's bytes");
    assert!(theirs == sample.file, "{name}: the plain bytes");
}

/// Fragments of the first nodes of listed ids. Each call judges the minishard.
fn fragments(sample: &Sample) {
    let ids = &sample.ids[..1 << 10];
    let shard = sample.open();
    Measure {
        name: "fragment, 64 manifests in the minishard",
        operations: ids.len(),
        bar: None,
    }
    .run(
        || {
            ids.iter().fold(0, |all, id| {
                all ^ shard.lookup_fragment(*id, 0, 9).unwrap_or_default().start
            })
        },
        || {
            ids.iter().fold(0, |all, id| {
                let file = black_box(&sample.file);
                let found = plain::fragment(&sample.sharding, 0, file, *id, 0, 9);
                all ^ found.unwrap_or_default().0
            })
        },
    );
}

/// Prints the lines.
pub fn run() {
    let sample = sample();
    checks(&sample);
    counting(&sample);
    settling(&sample);
    fragments(&sample);
}
