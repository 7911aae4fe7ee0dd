//! Where two settled forms of one shard differ.

use std::fmt;

use coronagamba::{Shard, Sharding, Span};

use crate::fragments::{is_mesh, Fragment, Fragments};

/// One of two things that are compared.
#[derive(Clone, Copy, Debug, PartialEq, Eq)]
pub enum Side {
    /// The first one.
    First,
    /// The second one.
    Second,
}

impl Side {
    /// Both, in order.
    pub const BOTH: [Side; 2] = [Side::First, Side::Second];

    /// The other one.
    pub fn other(self) -> Side {
        match self {
            Side::First => Side::Second,
            Side::Second => Side::First,
        }
    }

    /// Its name.
    pub fn name(self) -> &'static str {
        match self {
            Side::First => "first",
            Side::Second => "second",
        }
    }
}

/// How the chunks of one id differ.
#[derive(Clone, Copy, Debug, PartialEq, Eq)]
pub struct Difference {
    /// The id.
    pub id: u64,
    /// What is different.
    pub kind: Kind,
}

/// What is different.
#[derive(Clone, Copy, Debug, PartialEq, Eq)]
pub enum Kind {
    /// Only this side lists the id.
    OnlyIn(Side),
    /// The chunks' bytes.
    Bytes {
        /// The first place at which they differ, or at which one of them ends.
        at: usize,
        /// The two lengths.
        lengths: [usize; 2],
    },
    /// The bytes of a fragment, of one and the same manifest.
    Fragment {
        /// The node's level.
        level: u32,
        /// The node's number in it.
        node: u32,
        /// The first place at which the two fragments differ.
        at: usize,
    },
}

impl fmt::Display for Difference {
    fn fmt(&self, f: &mut fmt::Formatter<'_>) -> fmt::Result {
        match self.kind {
            Kind::OnlyIn(side) => write!(f, "id {} is only in the {}", self.id, side.name()),
            Kind::Bytes { at, lengths } => write!(
                f,
                "id {} has other bytes: first difference at byte {at}, lengths {} and {}",
                self.id, lengths[0], lengths[1]
            ),
            Kind::Fragment { level, node, at } => write!(
                f,
                "id {} has another fragment: first difference at byte {at} of level {level}, node {node}",
                self.id
            ),
        }
    }
}

/// The least id whose chunks differ in two settled forms of one shard, and
/// how. `None` where there is no memory for the listings, or none is found: the
/// forms are equal then (demand 3).
pub fn first_difference(sharding: &Sharding, number: u64, forms: [&[u8]; 2]) -> Option<Difference> {
    let minishards = 0..1u64 << sharding.minishard_bits;
    let mut least: Option<Difference> = None;
    for minishard in minishards {
        let [first, second] = forms.map(|form| listing(sharding, number, form, minishard));
        let found = walk([&first?, &second?], forms, is_mesh(sharding));
        least = match (least, found) {
            (Some(least), Some(found)) if least.id <= found.id => Some(least),
            (least, found) => found.or(least),
        };
    }
    least
}

/// Id, start and length of each chunk that a minishard lists, ids rising.
fn listing(sharding: &Sharding, number: u64, form: &[u8], minishard: u64) -> Option<Vec<u64>> {
    let shard = Shard::open(*sharding, number, form);
    let count = 3 * shard.listed_count(minishard).ok()? as usize;
    let mut listing = Vec::new();
    listing.try_reserve_exact(count).ok()?;
    listing.resize(count, 0);
    shard.write_listing(minishard, &mut listing).ok()?;
    Some(listing)
}

/// The first difference of two listings; `mesh` tells whether chunks have
/// fragments.
fn walk(listings: [&[u64]; 2], forms: [&[u8]; 2], mesh: bool) -> Option<Difference> {
    let only = |entry: &[u64], side| Difference {
        id: entry[0],
        kind: Kind::OnlyIn(side),
    };
    let [mut first, mut second] = listings.map(|listing| listing.chunks_exact(3));
    loop {
        match (first.next(), second.next()) {
            (None, None) => return None,
            (Some(first), Some(second)) if first[0] == second[0] => {
                let spans = [first, second].map(|entry| Span {
                    start: entry[1],
                    length: entry[2],
                });
                let kind =
                    bytes(spans, forms).or_else(|| mesh.then(|| fragments(spans, forms)).flatten());
                if let Some(kind) = kind {
                    return Some(Difference { id: first[0], kind });
                }
            }
            (Some(first), Some(second)) if second[0] < first[0] => {
                return Some(only(second, Side::Second))
            }
            (Some(first), _) => return Some(only(first, Side::First)),
            (None, Some(second)) => return Some(only(second, Side::Second)),
        }
    }
}

/// The bytes at these places, one in each form.
fn parts(spans: [Span; 2], forms: [&[u8]; 2]) -> [&[u8]; 2] {
    [0, 1].map(|side: usize| {
        let Span { start, length } = spans[side];
        &forms[side][start as usize..][..length as usize]
    })
}

/// How the bytes of two chunks differ.
fn bytes(spans: [Span; 2], forms: [&[u8]; 2]) -> Option<Kind> {
    let [first, second] = parts(spans, forms);
    Some(Kind::Bytes {
        at: first_other(first, second)?,
        lengths: [first.len(), second.len()],
    })
}

/// The first place at which two runs of bytes differ, or at which one ends.
fn first_other(first: &[u8], second: &[u8]) -> Option<usize> {
    if first == second {
        return None;
    }
    let mut pairs = first.iter().zip(second);
    let at = pairs.position(|(first, second)| first != second);
    Some(at.unwrap_or(first.len().min(second.len())))
}

/// How the fragments of two equal manifests at these places differ.
fn fragments(spans: [Span; 2], forms: [&[u8]; 2]) -> Option<Kind> {
    let [first, second] = [0, 1].map(|side: usize| Fragments::of(forms[side], spans[side]));
    let [one, other] = parts([first.span(), second.span()], forms);
    let at = first_other(one, other)? as u64 + first.span().start;
    let within = |span: &Span| (span.start..span.start + span.length).contains(&at);
    let Fragment { level, node, span } = first.each().find(|fragment| within(&fragment.span))?;
    Some(Kind::Fragment {
        level,
        node,
        at: (at - span.start) as usize,
    })
}

#[cfg(test)]
mod tests {
    use super::*;
    use coronagamba::Unlisted;

    /// Identity, two minishards: even ids in 0, odd ids in 1.
    const SHARDING: Sharding = Sharding {
        preshift: 0,
        hash: 0,
        minishard_bits: 1,
        shard_bits: 0,
        kind: Sharding::VOLUME,
    };
    const MESH: Sharding = Sharding {
        kind: Sharding::MESH,
        ..SHARDING
    };

    /// An id, what stands right before its chunk, and the chunk.
    type Item<'a> = (u64, &'a [u8], &'a [u8]);

    /// The settled form of these chunks, by the scope's section on it.
    fn form(sharding: Sharding, items: &[Item]) -> Vec<u8> {
        let (mut index, mut data) = (Vec::new(), Vec::new());
        for minishard in 0..2 {
            let own = || items.iter().filter(|(id, ..)| id % 2 == minishard);
            let first = data.len() as u64;
            own().for_each(|(_, lead, bytes)| data.extend([*lead, bytes].concat()));
            let start = data.len() as u64;
            let mut last = 0;
            for (id, ..) in own() {
                data.extend((id - last).to_le_bytes());
                last = *id;
            }
            for (place, (_, lead, _)) in own().enumerate() {
                let before = if place == 0 { first } else { 0 };
                data.extend((before + lead.len() as u64).to_le_bytes());
            }
            own().for_each(|(.., bytes)| data.extend((bytes.len() as u64).to_le_bytes()));
            let end = data.len() as u64;
            let entry = if start == end { [0, 0] } else { [start, end] };
            index.extend(entry.map(u64::to_le_bytes).concat());
        }
        index.extend(data);
        let shard = Shard::open(sharding, 0, &index);
        assert_eq!(
            shard.settled(Unlisted::Drop).as_ref(),
            Ok(&index),
            "a settled form"
        );
        index
    }

    fn told_of(sharding: Sharding, items: [&[Item]; 2]) -> Option<String> {
        let [first, second] = items.map(|items| form(sharding, items));
        let found = first_difference(&sharding, 0, [&first, &second]);
        found.map(|difference| difference.to_string())
    }

    type Chunks = &'static [(u64, &'static [u8])];

    fn told(first: Chunks, second: Chunks) -> Option<String> {
        let items = |chunks: Chunks| -> Vec<Item<'static>> {
            chunks
                .iter()
                .map(|(id, bytes)| (*id, &b""[..], *bytes))
                .collect()
        };
        let (first, second) = (items(first), items(second));
        told_of(SHARDING, [&first, &second])
    }

    /// A manifest of two levels, with two nodes and one; their fragments have
    /// these sizes.
    fn manifest(sizes: [u32; 3]) -> Vec<u8> {
        let one = 1f32.to_bits();
        let [first, second, third] = sizes;
        let mut items = vec![one, one, one, 0, 0, 0, 2];
        items.resize(7 + 8, one);
        items.extend([2, 1, 0, 1, 0, 0, 0, 0, first, second, 0, 0, 0, third]);
        items.into_iter().flat_map(u32::to_le_bytes).collect()
    }

    #[test]
    fn fragments_of_a_mesh() {
        let (some, other) = (manifest([3, 0, 4]), manifest([3, 1, 3]));
        let told = |one: &[Item], two: &[Item]| told_of(MESH, [one, two]);
        let one: &[Item] = &[(2, b"abcdefg", &some), (5, b"hijklmn", &some)];
        assert_eq!(told(one, one), None);
        let text = "has another fragment: first difference at byte";
        assert_eq!(
            told(one, &[(2, b"abxdefg", &some), (5, b"-ijklmn", &some)]),
            Some(format!("id 2 {text} 2 of level 0, node 0"))
        );
        // The second node's fragment is empty.
        assert_eq!(
            told(one, &[(2, b"abcdefg", &some), (5, b"hijkl--", &some)]),
            Some(format!("id 5 {text} 2 of level 1, node 0"))
        );
        // The same bytes, cut at another place: the manifest tells.
        assert_eq!(
            told(one, &[(2, b"abcdefg", &other), (5, b"hijklmn", &some)]),
            Some("id 2 has other bytes: first difference at byte 96, lengths 116 and 116".into())
        );
        assert_eq!(
            told(one, &[(2, b"abcdefg", &some)]),
            Some("id 5 is only in the first".into())
        );
    }

    #[test]
    fn equal_forms_do_not_differ() {
        assert_eq!(told(&[], &[]), None);
        let chunks: Chunks = &[(2, b"ab"), (3, b""), (4, b"c")];
        assert_eq!(told(chunks, chunks), None);
    }

    #[test]
    fn an_id_on_one_side_only() {
        let (few, more): (Chunks, Chunks) = (&[(4, b"ab")], &[(4, b"ab"), (10, b"")]);
        assert_eq!(told(few, more).unwrap(), "id 10 is only in the second");
        assert_eq!(told(more, few).unwrap(), "id 10 is only in the first");
        assert_eq!(told(&[], few).unwrap(), "id 4 is only in the second");
        assert_eq!(
            told(few, &[(6, b"ab")]).unwrap(),
            "id 4 is only in the first"
        );
        assert_eq!(
            told(&[(6, b"ab")], few).unwrap(),
            "id 4 is only in the second"
        );
    }

    #[test]
    fn other_bytes() {
        let text = "id 4 has other bytes: first difference at byte";
        let one: Chunks = &[(2, b"x"), (4, b"abcd"), (6, b"y")];
        let told = |chunk| told(one, chunk).unwrap();
        assert_eq!(
            told(&[(2, b"x"), (4, b"abxd"), (6, b"z")]),
            format!("{text} 2, lengths 4 and 4")
        );
        assert_eq!(
            told(&[(2, b"x"), (4, b"abcdef"), (6, b"y")]),
            format!("{text} 4, lengths 4 and 6")
        );
        assert_eq!(
            told(&[(2, b"x"), (4, b""), (6, b"y")]),
            format!("{text} 0, lengths 4 and 0")
        );
    }

    #[test]
    fn the_least_id_over_all_minishards() {
        let one: Chunks = &[(3, b"a"), (8, b"b")];
        assert_eq!(
            told(one, &[(3, b"x"), (8, b"x")]).unwrap(),
            "id 3 has other bytes: first difference at byte 0, lengths 1 and 1"
        );
        assert_eq!(
            told(one, &[(2, b"n"), (3, b"x"), (8, b"x")]).unwrap(),
            "id 2 is only in the second"
        );
        assert_eq!(
            told(one, &[(3, b"a"), (8, b"b"), (9, b"")]).unwrap(),
            "id 9 is only in the second"
        );
    }
}
