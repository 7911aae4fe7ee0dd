//! Random mesh shards: sound ones in many layouts, and damaged ones.

use crate::manifests::{self, size_items, Parts};
use crate::places;
use crate::shards::{self, Block, Layout, Order, Sample};
use crate::Rng;
use reference::endian::{bytes_of, put_u64, read_u32, read_u64};
use reference::manifest;
use reference::settle::Triple;
use reference::shard::{list_minishard, lookup, Entry};
use reference::sharding::{Sharding, IDENTITY, MESH, VOLUME};
use reference::MOST_SHARD_BYTES;
use std::collections::BTreeMap;

/// What a mesh shard lists under an id.
#[derive(Clone, Debug, PartialEq, Eq)]
pub struct Net {
    /// The bytes of all fragments, in their order.
    pub fragments: Vec<u8>,
    /// The manifest, whose sizes are theirs.
    pub manifest: Vec<u8>,
}

/// Nets by id: what a mesh shard lists.
pub type Nets = BTreeMap<u64, Net>;

/// Nets as the reference takes and gives them.
pub fn triples(nets: &Nets) -> Vec<Triple<'_>> {
    let mut triples = Vec::new();
    for (id, net) in nets {
        triples.push(Triple {
            id: *id,
            fragments: &net.fragments,
            chunk: &net.manifest,
        });
    }
    triples
}

/// Nets that the reference gives.
pub fn nets(triples: &[Triple]) -> Nets {
    let net = |triple: &Triple| Net {
        fragments: triple.fragments.to_vec(),
        manifest: triple.chunk.to_vec(),
    };
    triples.iter().map(|t| (t.id, net(t))).collect()
}

/// An allowed specification of a mesh, under which ids of one shard are found
/// quickly.
pub fn sharding(rng: &mut Rng) -> Sharding {
    Sharding {
        kind: MESH,
        ..shards::sharding(rng)
    }
}

/// The same specification for a volume, which lists the same chunks and looks
/// into none of them.
pub fn as_volume(sharding: &Sharding) -> Sharding {
    Sharding {
        kind: VOLUME,
        ..*sharding
    }
}

/// The size of a fragment: mostly a few bytes, often none.
fn size(rng: &mut Rng) -> u32 {
    let most = *rng.pick(&[1, 1, 4, 9, 9, 40]);
    rng.below(most) as u32
}

/// The parts of a manifest, mostly of few levels and nodes; both may be none.
fn parts(rng: &mut Rng, size: fn(&mut Rng) -> u32) -> Parts {
    let levels = if rng.once_in(40) {
        rng.index(33)
    } else {
        *rng.pick(&[0, 1, 1, 1, 2, 2, 3])
    };
    let most = *rng.pick(&[0, 2, 3, 6, 6]);
    manifests::parts(rng, levels, most, size)
}

/// The manifest's sizes together.
fn sum_of_sizes(manifest: &[u8]) -> u64 {
    let size = |item: usize| u64::from(read_u32(manifest, 4 * item));
    size_items(manifest).into_iter().map(size).sum()
}

/// Fragments for a manifest: random bytes, zeros, or a few repeated ones.
fn fragments(rng: &mut Rng, manifest: &[u8]) -> Vec<u8> {
    let length = sum_of_sizes(manifest) as usize;
    match rng.below(4) {
        0 => vec![0; length],
        1 => b"abcdefgh".iter().copied().cycle().take(length).collect(),
        _ => rng.bytes(length),
    }
}

/// A net of small fragments.
fn net(rng: &mut Rng) -> Net {
    let manifest = parts(rng, size).bytes();
    Net {
        fragments: fragments(rng, &manifest),
        manifest,
    }
}

/// Up to `most` nets for this shard. Some are the same, and some have the same
/// manifest with other fragments.
pub fn content(rng: &mut Rng, sharding: &Sharding, number: u64, most: usize) -> Nets {
    let mut nets = Nets::new();
    for id in shards::ids(rng, sharding, number, most) {
        let twin = shards::listed(rng, &nets).filter(|_| rng.once_in(4));
        let new = match twin {
            None => net(rng),
            Some(twin) if rng.once_in(2) => nets[&twin].clone(),
            Some(twin) => {
                let manifest = nets[&twin].manifest.clone();
                Net {
                    fragments: fragments(rng, &manifest),
                    manifest,
                }
            }
        };
        nets.insert(id, new);
    }
    nets
}

/// How the nets of one shard differ from those of another.
#[derive(Clone, Copy, Debug, PartialEq, Eq, Hash, PartialOrd, Ord)]
pub enum Difference {
    /// A net has another id.
    Id,
    /// A byte of a fragment is another one, and nothing else.
    Fragment,
    /// A real of a manifest is another one.
    Real,
    /// A fragment is longer or shorter by some bytes at its end.
    Size,
    /// A fragment ends elsewhere, and the next one begins there: all bytes of
    /// the fragments together are the same.
    Split,
    /// One more id is listed.
    Added,
    /// One id fewer is listed.
    Removed,
}

impl Difference {
    /// All of them.
    pub const ALL: [Difference; 7] = [
        Difference::Id,
        Difference::Fragment,
        Difference::Real,
        Difference::Size,
        Difference::Split,
        Difference::Added,
        Difference::Removed,
    ];
}

impl Net {
    /// The sizes of its fragments, in their order.
    fn sizes(&self) -> Vec<u32> {
        let items = size_items(&self.manifest);
        let size = |item: usize| read_u32(&self.manifest, 4 * item);
        items.into_iter().map(size).collect()
    }

    /// Writes other sizes.
    fn set_sizes(&mut self, sizes: &[u32]) {
        for (item, size) in size_items(&self.manifest).into_iter().zip(sizes) {
            manifests::set(&mut self.manifest, item, *size);
        }
    }

    /// Makes a fragment one to three bytes longer, or shorter where it has
    /// them; none where there is no fragment.
    fn resize(&mut self, rng: &mut Rng) -> Option<()> {
        let mut sizes = self.sizes();
        let chosen = rng.index(sizes.len().max(1));
        let end: u32 = sizes.get(..=chosen)?.iter().sum();
        let (end, step) = (end as usize, rng.within(1, 3) as u32);
        if rng.once_in(2) && step <= sizes[chosen] {
            self.fragments.drain(end - step as usize..end);
            sizes[chosen] -= step;
        } else {
            self.fragments.splice(end..end, rng.bytes(step as usize));
            sizes[chosen] += step;
        }
        self.set_sizes(&sizes);
        Some(())
    }

    /// Moves the border between two neighbouring fragments; none where there is
    /// no such border to be moved.
    fn split(&mut self, rng: &mut Rng) -> Option<()> {
        let mut sizes = self.sizes();
        let borders: Vec<usize> = (1..sizes.len())
            .filter(|i| sizes[i - 1] + sizes[*i] > 0)
            .collect();
        let border = *borders.get(rng.index(borders.len().max(1)))?;
        let both = sizes[border - 1] + sizes[border];
        let first = (sizes[border - 1] + 1 + rng.below(both.into()) as u32) % (both + 1);
        (sizes[border - 1], sizes[border]) = (first, both - first);
        self.set_sizes(&sizes);
        Some(())
    }
}

/// Nets for the same shard that differ from these in one respect; `None` where
/// these have nothing to differ in or no id was found.
pub fn differing(
    rng: &mut Rng,
    sharding: &Sharding,
    number: u64,
    nets: &Nets,
    difference: Difference,
) -> Option<Nets> {
    let mut other = nets.clone();
    let old = shards::listed(rng, nets);
    match difference {
        Difference::Id => {
            let new = shards::unlisted(rng, sharding, number, nets)?;
            let net = other.remove(&old?)?;
            other.insert(new, net);
        }
        Difference::Fragment => {
            let net = other.get_mut(&old?)?;
            let at = rng.index(net.fragments.len().max(1));
            *net.fragments.get_mut(at)? ^= 1 << rng.below(8);
        }
        Difference::Real => {
            // The lowest bit of an origin: finite ones stay so.
            let net = other.get_mut(&old?)?;
            net.manifest[12 + 4 * rng.index(3)] ^= 1;
        }
        Difference::Size => other.get_mut(&old?)?.resize(rng)?,
        Difference::Split => other.get_mut(&old?)?.split(rng)?,
        Difference::Added => {
            let new = shards::unlisted(rng, sharding, number, nets)?;
            other.insert(new, net(rng));
        }
        Difference::Removed => {
            other.remove(&old?)?;
        }
    }
    Some(other)
}

/// A sound shard that lists these nets, in a random layout: with gaps,
/// minishard indexes before, between or after nets, minishards mixed, in any
/// order, equal nets shared, and odd entries for empty minishards.
pub fn lay_out(rng: &mut Rng, sharding: &Sharding, nets: &Nets) -> Vec<u8> {
    let order = Order::draw(rng);
    let block = |(id, net): (&u64, &Net)| {
        let block = Block {
            lead: net.fragments.len(),
            bytes: [&net.fragments[..], &net.manifest].concat(),
        };
        (*id, block)
    };
    shards::lay_blocks(rng, sharding, &nets.iter().map(block).collect(), order)
}

/// A manifest whose fragments have at most `most` bytes together: often none,
/// or as many as that.
fn reaching(rng: &mut Rng, most: u64) -> Vec<u8> {
    let mut parts = parts(rng, |_| 0);
    let mut left = match rng.below(4) {
        0 => 0,
        1 => most,
        _ => rng.within(0, most.min(60)),
    };
    for (_, size) in parts.levels.iter_mut().flatten() {
        *size = match rng.below(3) {
            0 => 0,
            1 => left as u32,
            _ => rng.within(0, left) as u32,
        };
        left -= u64::from(*size);
    }
    parts.bytes()
}

/// A sound shard whose fragments lie over anything in front of their manifests:
/// other fragments, other manifests, minishard indexes. Some begin at the index
/// end. In arrival order some ids list one manifest. What it lists is what its
/// bytes say.
pub fn overlapping(rng: &mut Rng, sharding: &Sharding, number: u64, most: usize) -> Vec<u8> {
    let order = Order::draw(rng);
    let ids = shards::ids(rng, sharding, number, most);
    let mut minishards = shards::listing(rng, sharding, &ids, order);
    let mut data = shards::gap(rng, 40);
    let mut placed: Vec<(u64, u64)> = Vec::new();
    let index = |minishard: &mut Layout, data: &mut Vec<u8>| {
        minishard.index = Some(data.len() as u64);
        data.resize(data.len() + minishard.index_length() as usize, 0);
    };
    for minishard in minishards.iter_mut().filter(|m| !m.ids.is_empty()) {
        let index_first = rng.once_in(2);
        if index_first {
            index(minishard, &mut data);
        }
        for _ in 0..minishard.ids.len() {
            let again = order == Order::Arrival && !placed.is_empty() && rng.once_in(4);
            let (start, size) = if again {
                *rng.pick(&placed)
            } else {
                data.extend(shards::gap(rng, 20));
                let start = data.len() as u64;
                data.extend(reaching(rng, start));
                (start, data.len() as u64 - start)
            };
            placed.push((start, size));
            minishard.starts.push(start);
            minishard.sizes.push(size);
        }
        if !index_first {
            index(minishard, &mut data);
        }
    }
    data.extend(shards::gap(rng, 20));
    shards::finish(rng, &minishards, data)
}

/// A sound mesh shard of some kind, with up to `most` nets.
pub fn sound(rng: &mut Rng, most: usize) -> Sample {
    let sharding = sharding(rng);
    let number = shards::number(rng, &sharding);
    let file = if rng.once_in(2) {
        let nets = content(rng, &sharding, number, most);
        lay_out(rng, &sharding, &nets)
    } else {
        overlapping(rng, &sharding, number, most)
    };
    Sample {
        sharding,
        number,
        file,
    }
}

/// A minishard that lists something, and its entries as a volume lists them:
/// nothing has been said of manifests. None where there is no such minishard.
fn some_minishard(rng: &mut Rng, sample: &Sample) -> Option<(u64, Vec<Entry>)> {
    let volume = as_volume(&sample.sharding);
    let id = shards::listed_id(&volume, &sample.file, rng.bits())?;
    let minishard = volume.place(id).minishard;
    let entries = list_minishard(&volume, sample.number, &sample.file, minishard);
    entries.ok().map(|entries| (minishard, entries))
}

/// Changes the listed size of an entry, so that the chunks behind it stay.
fn resize(rng: &mut Rng, file: &mut [u8], base: u64, minishard: u64, entry: u64) {
    let at = |place: u64| read_u64(file, place as usize);
    let start = at(16 * minishard);
    let count = (at(16 * minishard + 8) - start) / 24;
    let row = |row: u64, entry: u64| base + start + 8 * (row * count + entry);
    let step = *rng.pick(&[1, 4, 16, 20, 16_777_216]);
    let step = if rng.once_in(2) {
        step
    } else {
        0u64.wrapping_sub(step)
    };
    let size = at(row(2, entry)).wrapping_add(step);
    let next = at(row(1, entry + 1)).wrapping_sub(step);
    // Places that the file does not have stay as they are.
    let _ = put_u64(file, row(2, entry) as usize, size);
    if entry + 1 < count {
        let _ = put_u64(file, row(1, entry + 1) as usize, next);
    }
}

/// Damages the bytes of a manifest in one place; its length stays.
fn damage_manifest(rng: &mut Rng, manifest: &mut [u8]) {
    let mut damaged = manifest.to_vec();
    manifests::damage(rng, &mut damaged);
    for (byte, other) in manifest.iter_mut().zip(damaged) {
        *byte = other;
    }
}

/// Gives a manifest another level count or node count.
fn spoil_counts(rng: &mut Rng, manifest: &mut [u8]) {
    let levels = manifests::levels_said(manifest) as usize;
    let (item, old) = match rng.below(3) {
        0 => (6, 32),
        1 if levels > 0 => {
            let item = 7 + 4 * levels + rng.index(levels);
            (item, read_u32(manifest, 4 * item))
        }
        _ => (6, levels as u32),
    };
    let other = if rng.once_in(2) && old > 0 {
        old - 1
    } else {
        old + 1
    };
    manifests::set(manifest, item, other);
}

/// Gives a manifest a real that is not allowed.
fn spoil_reals(rng: &mut Rng, manifest: &mut [u8]) {
    let levels = manifests::levels_said(manifest) as usize;
    let numbers: Vec<usize> = (0..6).chain(7..7 + 4 * levels).collect();
    let item = *rng.pick(&numbers);
    let not_finite = [f32::NAN, f32::INFINITY, f32::NEG_INFINITY];
    let real = if item < 3 && rng.once_in(2) {
        *rng.pick(&[0.0, -0.0, -1.0])
    } else {
        *rng.pick(&not_finite)
    };
    manifests::set(manifest, item, real.to_bits());
}

/// Gives a node of a manifest the position of the one in front of it, or
/// changes the two, where a level has two nodes.
fn spoil_order(rng: &mut Rng, manifest: &mut [u8]) {
    let rows = manifests::rows(manifest);
    let pairs: Vec<(usize, usize)> = rows.into_iter().filter(|(_, n)| *n > 1).collect();
    if pairs.is_empty() {
        return;
    }
    let (first, count) = *rng.pick(&pairs);
    let (later, equal) = (1 + rng.index(count - 1), rng.once_in(2));
    for axis in 0..3 {
        let (a, b) = (
            first + axis * count + later - 1,
            first + axis * count + later,
        );
        let (one, other) = (read_u32(manifest, 4 * a), read_u32(manifest, 4 * b));
        manifests::set(manifest, b, one);
        if !equal {
            manifests::set(manifest, a, other);
        }
    }
}

/// Gives the fragments of a manifest other sizes, where it has nodes: together
/// just as many bytes as stand between the index end and the manifest, some
/// more or fewer, a sum past 2^32, or one that is small modulo 2^32.
fn spoil_sizes(rng: &mut Rng, manifest: &mut [u8], start: u64) {
    let items = size_items(manifest);
    if items.is_empty() {
        return;
    }
    let (one, other) = (*rng.pick(&items), *rng.pick(&items));
    let small = rng.below(3);
    let near = match rng.below(5) {
        0 => {
            for item in items {
                manifests::set(manifest, item, u32::MAX);
            }
            return;
        }
        1 if one != other => {
            for item in items {
                manifests::set(manifest, item, 0);
            }
            manifests::set(manifest, one, u32::MAX);
            manifests::set(manifest, other, 1 + rng.within(0, start) as u32);
            return;
        }
        2 => start.saturating_sub(small),
        _ => start + 1 + small,
    };
    let others = sum_of_sizes(manifest) - u64::from(read_u32(manifest, 4 * one));
    if let Some(size) = near.checked_sub(others) {
        manifests::set(manifest, one, size as u32);
    }
}

/// Makes the manifest of an entry fail this test, where it can; it may fail
/// others too. One whose length is wrong already stays.
fn spoil(rng: &mut Rng, sample: &mut Sample, entry: &Entry, number: u8) {
    let start = entry.start - sample.sharding.index_end();
    let manifest = &mut sample.file[entry.start as usize..][..entry.length as usize];
    if manifest::check(manifest) == Err(15) {
        return;
    }
    match number {
        15 => spoil_counts(rng, manifest),
        16 => spoil_reals(rng, manifest),
        17 => spoil_order(rng, manifest),
        _ => spoil_sizes(rng, manifest, start),
    }
}

/// Damages the shard in one place, as a volume's are damaged, or a listed size
/// or a manifest, or up to three manifests of one minishard. It may stay sound.
pub fn damage(rng: &mut Rng, sample: &mut Sample) {
    let kind = rng.below(10);
    let chosen = some_minishard(rng, sample).filter(|(_, entries)| !entries.is_empty());
    let (minishard, entries) = match chosen {
        Some(chosen) if kind > 1 => chosen,
        _ => {
            shards::damage(rng, &sample.sharding, &mut sample.file);
            return;
        }
    };
    let entry = rng.index(entries.len());
    match kind {
        2 => {
            let base = sample.sharding.index_end();
            resize(rng, &mut sample.file, base, minishard, entry as u64);
        }
        3 => {
            let Entry { start, length, .. } = entries[entry];
            damage_manifest(rng, &mut sample.file[start as usize..][..length as usize]);
        }
        _ => {
            for _ in 0..rng.within(1, 3) {
                let number = *rng.pick(&[15, 16, 17, 17, 21, 21]);
                let entry = *rng.pick(&entries);
                spoil(rng, sample, &entry, number);
            }
        }
    }
}

/// A shard that was damaged in one or two places; it may still be sound.
pub fn damaged(rng: &mut Rng, most: usize) -> Sample {
    let mut sample = sound(rng, most);
    for _ in 0..rng.within(1, 2) {
        damage(rng, &mut sample);
    }
    sample
}

/// Puts another specification, another number, another kind or some of these
/// in place of the sample's; now and then it keeps its own.
pub fn make_wild(rng: &mut Rng, sample: &mut Sample) {
    shards::make_wild(rng, sample);
    sample.sharding.kind = places::kind(rng);
}

/// Fragments listed so often that the settled form has about a gibibyte: each
/// of 4096 minishards lists one manifest of the same fragments, but for the
/// first, whose fragments have a byte more or fewer.
pub fn brimming(rng: &mut Rng) -> Sample {
    const NETS: u64 = 4096;
    let sharding = Sharding {
        preshift: 0,
        hash: IDENTITY,
        minishard_bits: 12,
        shard_bits: 0,
        kind: MESH,
    };
    let one_node = |size: u64| {
        let nodes = vec![vec![([0; 3], size as u32)]];
        Parts::new([1.0; 3], [0.0; 3], nodes).bytes()
    };
    let manifest = one_node(0).len() as u64;
    // Beside its fragments a net has an entry in each index, and its manifest.
    let whole = (MOST_SHARD_BYTES - (16 + 24 + manifest) * NETS) / NETS;
    let first = whole - 1 + rng.below(3);
    let mut data = vec![0x5a; whole as usize];
    data.extend(one_node(whole));
    data.extend(one_node(first));
    let length = data.len() as u64;
    let mut file = bytes_of((0..NETS).flat_map(|m| [length + 24 * m, length + 24 * (m + 1)]));
    file.extend(data);
    for m in 0..NETS {
        let start = if m == 0 { whole + manifest } else { whole };
        file.extend(bytes_of([m, start, manifest]));
    }
    Sample {
        sharding,
        number: 0,
        file,
    }
}

/// A mesh shard of any kind: sound, damaged, under another specification or
/// number, or of random bytes.
pub fn any(rng: &mut Rng) -> Sample {
    let most = if rng.once_in(200) {
        100
    } else {
        *rng.pick(&[2, 6, 8, 8, 20])
    };
    let mut sample = match rng.below(32) {
        0 => {
            let mut sample = shards::random_bytes(rng);
            sample.sharding.kind = MESH;
            sample
        }
        1..14 => sound(rng, most),
        _ => damaged(rng, most),
    };
    if rng.once_in(8) {
        make_wild(rng, &mut sample);
    }
    sample
}

/// An id, a level and a node to ask a shard for: mostly ones that it has.
pub fn question(rng: &mut Rng, sample: &Sample) -> (u64, u64, u64) {
    let volume = as_volume(&sample.sharding);
    let listed = shards::listed_id(&volume, &sample.file, rng.bits());
    let id = match listed.filter(|_| !rng.once_in(4)) {
        Some(id) => id,
        None => shards::question(rng, sample),
    };
    let found = lookup(&volume, sample.number, id, &sample.file);
    let manifest = found.map_or(&[][..], |entry| entry.bytes(&sample.file));
    let nodes = nodes_said(manifest);
    let (level, node) = if nodes.is_empty() || rng.once_in(3) {
        manifests::question(rng, manifest)
    } else {
        *rng.pick(&nodes)
    };
    (id, level, node)
}

/// The first nodes of each level that a manifest says it has: level and number.
fn nodes_said(manifest: &[u8]) -> Vec<(u64, u64)> {
    let nodes = |level| u64::from(manifests::nodes_said(manifest, level).min(100));
    let levels = 0..u64::from(manifests::levels_said(manifest));
    levels
        .flat_map(|level| (0..nodes(level)).map(move |node| (level, node)))
        .collect()
}

#[cfg(test)]
mod tests {
    use super::*;
    use crate::Met;
    use reference::settle::{content_of, form_of, length_of};
    use reference::shard::{check, fragment, list};
    use reference::Refusal;
    use std::collections::BTreeSet;

    /// What a sound shard lists.
    fn listed(sample: &Sample) -> Nets {
        let Sample {
            sharding,
            number,
            file,
        } = sample;
        nets(&content_of(sharding, *number, file).expect("it is sound"))
    }

    #[test]
    fn layouts_are_sound_and_list_the_nets() {
        let mut rng = Rng::new(1);
        let (mut all, mut empty) = (0, 0);
        for _ in 0..3_000 {
            let sharding = sharding(&mut rng);
            let number = shards::number(&mut rng, &sharding);
            let content = content(&mut rng, &sharding, number, 8);
            let file = lay_out(&mut rng, &sharding, &content);
            let sample = Sample {
                sharding,
                number,
                file,
            };
            assert_eq!(listed(&sample), content);
            all += content.len();
            empty += content.values().filter(|n| n.fragments.is_empty()).count();
        }
        assert!(all > 6_000 && empty > 1_000, "{all} {empty}");
    }

    /// What lies over other things is sound, and other layouts list it too.
    #[test]
    fn overlapping_nets_are_sound_and_can_be_laid_out_again() {
        let mut rng = Rng::new(2);
        for _ in 0..2_000 {
            let sharding = sharding(&mut rng);
            let number = shards::number(&mut rng, &sharding);
            let file = overlapping(&mut rng, &sharding, number, 8);
            let nets = listed(&Sample {
                sharding,
                number,
                file: file.clone(),
            });
            let again = lay_out(&mut rng, &sharding, &nets);
            let form = |file: &[u8]| {
                let content = content_of(&sharding, number, file).expect("sound");
                form_of(&sharding, &content)
            };
            assert!(form(&file) == form(&again));
            assert!(form(&file) == form_of(&sharding, &triples(&nets)));
        }
    }

    #[test]
    fn differing_nets_differ_in_one_respect() {
        let mut rng = Rng::new(3);
        for difference in Difference::ALL {
            let mut found = 0;
            for _ in 0..2_000 {
                let sharding = sharding(&mut rng);
                let number = shards::number(&mut rng, &sharding);
                let nets = content(&mut rng, &sharding, number, 8);
                let Some(other) = differing(&mut rng, &sharding, number, &nets, difference) else {
                    continue;
                };
                let file = lay_out(&mut rng, &sharding, &other);
                let sample = Sample {
                    sharding,
                    number,
                    file,
                };
                assert_eq!(listed(&sample), other, "{difference:?}");
                let kept = |one: &Nets, other: &Nets| {
                    let same = |(id, net): &(&u64, &Net)| other.get(id) == Some(net);
                    one.iter().filter(same).count()
                };
                let lost = nets.len() - kept(&nets, &other);
                let won = other.len() - kept(&other, &nets);
                let expected = match difference {
                    Difference::Added => (0, 1),
                    Difference::Removed => (1, 0),
                    _ => (1, 1),
                };
                assert_eq!((lost, won), expected, "{difference:?}");
                let parts = |nets: &Nets, part: fn(&Net) -> &Vec<u8>| -> Vec<Vec<u8>> {
                    nets.values().map(|net| part(net).clone()).collect()
                };
                let same = |part| parts(&nets, part) == parts(&other, part);
                let same = (same(|n| &n.fragments), same(|n| &n.manifest));
                match difference {
                    Difference::Fragment => assert_eq!(same, (false, true)),
                    Difference::Real | Difference::Split => assert_eq!(same, (true, false)),
                    Difference::Size => assert_eq!(same, (false, false)),
                    _ => {}
                }
                found += 1;
            }
            assert!(found > 300, "{difference:?} {found}");
        }
    }

    #[test]
    fn damage_reaches_each_refusal() {
        let mut rng = Rng::new(4);
        let (mut checks, mut lookups, mut fragments) = (Met::new(), Met::new(), Met::new());
        for _ in 0..20_000 {
            let sample = any(&mut rng);
            let Sample {
                sharding,
                number,
                file,
            } = &sample;
            let (id, level, node) = question(&mut rng, &sample);
            checks.note(&check(sharding, *number, file));
            lookups.note(&lookup(sharding, *number, id, file));
            fragments.note(&fragment(sharding, *number, id, level, node, file));
        }
        let faults = [0, 1, 5, 6, 7, 8, 9, 10, 11, 15, 16, 17, 21];
        checks.assert_exactly(&faults);
        lookups.assert_exactly(&[0, 1, 5, 6, 7, 8, 9, 10, 11, 12, 15, 16, 17, 21]);
        fragments.assert_exactly(&[0, 1, 5, 6, 7, 8, 9, 10, 11, 12, 15, 16, 17, 18, 21]);
    }

    #[test]
    fn forms_on_each_side_of_a_gibibyte() {
        let mut rng = Rng::new(5);
        let mut lengths = BTreeSet::new();
        for _ in 0..20 {
            let Sample {
                sharding,
                number,
                file,
            } = brimming(&mut rng);
            assert!(file.len() < 1 << 20);
            assert_eq!(check(&sharding, number, &file), Ok(()));
            let length = length_of(&sharding, number, &file, true);
            lengths.insert(length.map_err(|refusal| refusal.number));
        }
        let gibibyte = 1 << 30;
        assert!(lengths
            .into_iter()
            .eq([Ok(gibibyte - 1), Ok(gibibyte), Err(13)]));
    }

    /// In a minishard whose entries a volume would list: for each of 15, 16, 17
    /// and 21 the entries that fail it. Where an earlier one is failed by an
    /// entry, nothing is said of the later ones.
    fn failing(sample: &Sample, entries: &[Entry]) -> BTreeMap<u8, Vec<usize>> {
        let base = sample.sharding.index_end();
        let mut failing = BTreeMap::<u8, Vec<usize>>::new();
        for (number, entry) in entries.iter().enumerate() {
            let manifest = entry.bytes(&sample.file);
            let fault = match manifest::check(manifest) {
                Err(fault) => Some(fault),
                Ok(()) => (sum_of_sizes(manifest) > entry.start - base).then_some(21),
            };
            failing.entry(fault.unwrap_or(0)).or_default().push(number);
        }
        failing.remove(&0);
        failing
    }

    /// In which ways a wrong order or a wrong position would show in the fault
    /// of a minishard.
    fn told_apart(
        sample: &Sample,
        minishard: u64,
        entries: &[Entry],
        refusal: Refusal,
    ) -> Vec<&'static str> {
        let failing = failing(sample, entries);
        let (number, offending) = failing.first_key_value().expect("a fault");
        let at = |place: u64| read_u64(&sample.file, place as usize);
        let start = at(16 * minishard);
        let (count, first) = (entries.len() as u64, offending[0] as u64);
        let place = sample.sharding.index_end() + start + 8 * (count + first);
        assert_eq!(refusal, Refusal::at(*number, place));
        let earlier = |(other, at): (&u8, &Vec<usize>)| other > number && at[0] < offending[0];
        let mut ways = vec!["any"];
        for (way, holds) in [
            ("in a later minishard", minishard > 0),
            ("index not at the data's start", start > 0),
            ("not the first entry", first > 0),
            ("not the last entry", first + 1 < count),
            ("other entries fail it too", offending.len() > 1),
            (
                "an entry before fails a later test",
                failing.iter().any(earlier),
            ),
        ] {
            ways.extend(holds.then_some(way));
        }
        ways
    }

    /// Faults of manifests stand where a wrong order of the tests or a wrong
    /// position would show.
    #[test]
    fn faults_stand_in_every_place() {
        let mut rng = Rng::new(6);
        let mut met = BTreeMap::new();
        for _ in 0..40_000 {
            let sample = damaged(&mut rng, 10);
            let Sample {
                sharding,
                number,
                file,
            } = &sample;
            let checked = check(sharding, *number, file);
            let Some(minishard) = checked.err().and_then(|refusal| refusal.minishard) else {
                continue;
            };
            let volume = as_volume(sharding);
            let Ok(entries) = list_minishard(&volume, *number, file, minishard) else {
                continue;
            };
            let refusal = list_minishard(sharding, *number, file, minishard);
            let refusal = refusal.expect_err("the check named it");
            for way in told_apart(&sample, minishard, &entries, refusal) {
                *met.entry((refusal.number, way)).or_insert(0) += 1;
            }
        }
        // No test is behind 21: seven ways for the others, six for it.
        assert_eq!(met.len(), 3 * 7 + 6, "{met:?}");
        assert!(met.values().all(|count| *count > 100), "{met:?}");
    }

    /// Fragments that begin at the index end, a byte before it, and whose sums
    /// pass 2^32; some of these are small modulo 2^32.
    #[test]
    fn fragments_around_the_index_end() {
        let mut rng = Rng::new(7);
        let (mut at_the_end, mut a_byte_before, mut large, mut wrapped) = (0, 0, 0, 0);
        for _ in 0..20_000 {
            let sample = damaged(&mut rng, 8);
            let base = sample.sharding.index_end();
            let Some((_, entries)) = some_minishard(&mut rng, &sample) else {
                continue;
            };
            for entry in entries {
                let manifest = entry.bytes(&sample.file);
                if manifest::check(manifest).is_err() {
                    continue;
                }
                let (sum, start) = (sum_of_sizes(manifest), entry.start - base);
                at_the_end += usize::from(sum > 0 && sum == start);
                a_byte_before += usize::from(sum == start + 1);
                large += usize::from(sum >> 32 > 0);
                wrapped += usize::from(sum >> 32 > 0 && u64::from(sum as u32) <= start);
            }
        }
        for count in [at_the_end, a_byte_before, large, wrapped] {
            assert!(
                count > 100,
                "{at_the_end} {a_byte_before} {large} {wrapped}"
            );
        }
    }

    #[test]
    fn layouts_have_each_oddity() {
        let mut rng = Rng::new(8);
        let mut met = BTreeMap::new();
        for _ in 0..4_000 {
            let Sample {
                sharding,
                number,
                file,
            } = sound(&mut rng, 8);
            let base = sharding.index_end();
            let entries = list(&sharding, number, &file).expect("it is sound");
            let mut note = |oddity, holds: bool| {
                *met.entry(oddity).or_insert(0) += usize::from(holds);
            };
            let fragments = |entry: &Entry| entry.start - entry.fragments..entry.start;
            let chunk = |entry: &Entry| entry.start..entry.start + entry.length;
            let meet = |a: std::ops::Range<u64>, b: std::ops::Range<u64>| {
                a.start.max(b.start) < a.end.min(b.end)
            };
            for (i, entry) in entries.iter().enumerate() {
                let manifest = entry.bytes(&file);
                let levels = manifests::levels_said(manifest);
                note("no levels", levels == 0);
                note(
                    "levels without nodes",
                    levels > 0 && entry.length == 28 + 20 * u64::from(levels),
                );
                note(
                    "nodes without bytes",
                    !size_items(manifest).is_empty() && entry.fragments == 0,
                );
                note(
                    "from the index end on",
                    entry.fragments > 0 && entry.start - entry.fragments == base,
                );
                for other in &entries[..i] {
                    note(
                        "one manifest of two ids",
                        other.start == entry.start && entry.fragments > 0,
                    );
                    note(
                        "fragments over fragments",
                        meet(fragments(entry), fragments(other)),
                    );
                    note(
                        "fragments over a manifest",
                        meet(fragments(entry), chunk(other)),
                    );
                    note("behind a later one", other.start > entry.start);
                }
                let at = 16 * sharding.place(entry.id).minishard as usize;
                let index = base + read_u64(&file, at)..base + read_u64(&file, at + 8);
                note("index before", index.end <= entry.start - entry.fragments);
                note("index behind", index.start >= entry.start + entry.length);
                note("fragments over an index", meet(fragments(entry), index));
            }
        }
        assert_eq!(met.len(), 11, "{met:?}");
        assert!(met.values().all(|count| *count > 100), "{met:?}");
    }
}
