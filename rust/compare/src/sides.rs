//! The reference's values as the library's. All that compare the two take them
//! from here.

use coronagamba::manifest::Node;
use coronagamba::{
    Card, Cell, Extents, LabelBits, LabelShape, Place, Point, Refusal, Sharding, Unlisted, Volume,
};

/// A volume.
pub fn volume(volume: &reference::grid::Volume) -> Volume {
    Volume::new(volume.size, volume.chunk, volume.offset)
}

/// Extents.
pub fn extents(extents: [u32; 3]) -> Extents {
    Extents::from(extents)
}

/// A cell.
pub fn cell(cell: [u32; 3]) -> Cell {
    Cell::from(cell)
}

/// A bound of a cell.
pub fn point(point: [i128; 3]) -> Point {
    Point::from(point.map(|number| i64::try_from(number).expect("bounds fit i64")))
}

/// A specification.
pub fn sharding(sharding: &reference::sharding::Sharding) -> Sharding {
    Sharding {
        preshift: sharding.preshift,
        hash: sharding.hash,
        minishard_bits: sharding.minishard_bits,
        shard_bits: sharding.shard_bits,
        kind: sharding.kind,
    }
}

/// How a chunk's labels are laid out.
pub fn labels(layout: &reference::labels::Layout) -> LabelShape {
    let bits = if layout.wide {
        LabelBits::B64
    } else {
        LabelBits::B32
    };
    LabelShape::new(layout.size, layout.block, layout.channels, bits)
}

/// What is to become of unlisted bytes.
pub fn unlisted(dropping: bool) -> Unlisted {
    if dropping {
        Unlisted::Drop
    } else {
        Unlisted::Refuse
    }
}

/// Where an id belongs.
pub fn place(place: reference::sharding::Place) -> Place {
    Place {
        shard: place.shard,
        minishard: place.minishard,
    }
}

/// A card.
pub fn card(card: &reference::card::Card) -> Card {
    Card {
        sharding: sharding(&card.sharding),
        volume: volume(&card.volume),
    }
}

/// A node of a manifest.
pub fn node(node: reference::manifest::Node) -> Node {
    Node {
        position: node.position,
        size: node.size,
        start: node.start,
    }
}

/// A refusal of the reference, as a number or with a minishard and a position.
pub fn refusal(refusal: impl Into<reference::Refusal>) -> Refusal {
    let reference::Refusal {
        number,
        minishard,
        position,
    } = refusal.into();
    Refusal {
        number,
        minishard,
        position,
    }
}

/// An answer of the reference.
pub fn answer<T>(answer: Result<T, impl Into<reference::Refusal>>) -> Result<T, Refusal> {
    answer.map_err(refusal)
}
