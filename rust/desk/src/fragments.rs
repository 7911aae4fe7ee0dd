//! The fragments of the manifests that a mesh shard lists. Where a manifest
//! stands and what its nodes are is the library's answer; its fragments are the
//! bytes right before it, one after the other.

use coronagamba::manifest::{Nodes, Visit};
use coronagamba::{Manifest, Sharding, Span};

use crate::edition::Bytes;

/// Whether chunks are manifests, with their fragments before them.
pub fn is_mesh(sharding: &Sharding) -> bool {
    sharding.kind == Sharding::MESH
}

/// The fragments of one manifest.
pub struct Fragments<'a> {
    manifest: Manifest<'a>,
    span: Span,
}

impl<'a> Fragments<'a> {
    /// Those of the manifest at this place of a shard, which a sound minishard
    /// lists.
    pub fn of(shard: impl Into<Bytes<'a>>, span: Span) -> Self {
        let manifest = Manifest::open(shard.into().part(span));
        let length = length_of(&manifest).expect("a listed manifest is sound");
        Fragments {
            manifest,
            span: Span {
                start: span.start - length,
                length,
            },
        }
    }

    /// Where all of them are.
    pub fn span(&self) -> Span {
        self.span
    }

    /// Each of them, in the order of the nodes.
    pub fn each(&self) -> impl Iterator<Item = Fragment> + 'a {
        let first = self.span.start;
        nodes(&self.manifest).map(move |Visit { level, index, node }| Fragment {
            level,
            node: index,
            span: Span {
                start: first + node.start,
                length: node.size.into(),
            },
        })
    }
}

/// The fragment of a node.
#[derive(Clone, Copy, Debug, PartialEq, Eq)]
pub struct Fragment {
    /// The node's level.
    pub level: u32,
    /// The node's number in it.
    pub node: u32,
    /// Where it is in the shard.
    pub span: Span,
}

fn nodes<'a>(manifest: &Manifest<'a>) -> Nodes<'a> {
    manifest.nodes().expect("a listed manifest is sound")
}

/// How many bytes the fragments of a manifest have together; `None` where it is
/// not sound.
pub fn length_of(manifest: &Manifest) -> Option<u64> {
    let last = manifest.nodes().ok()?.last();
    Some(last.map_or(0, |visit| visit.node.start + u64::from(visit.node.size)))
}
