//! The settled form of what a shard lists (document 01, "Settled form";
//! document 02, orders 7 and 8).

use crate::endian::{bytes_of, write_front};
use crate::shard::{list, Entry};
use crate::sharding::Sharding;
use crate::unlisted::unlisted;
use crate::{Refusal, MOST_SHARD_BYTES};

/// A chunk that a volume shard lists: its id and its bytes.
pub type Listed<'a> = (u64, &'a [u8]);

/// What a shard of either kind lists under an id: in a mesh shard the bytes of
/// the fragments and the manifest, in a volume no fragments and the chunk.
#[derive(Clone, Copy, Debug, PartialEq, Eq, Hash)]
pub struct Triple<'a> {
    /// The id.
    pub id: u64,
    /// The fragments' bytes.
    pub fragments: &'a [u8],
    /// The bytes of the manifest or of the chunk.
    pub chunk: &'a [u8],
}

impl<'a> From<Listed<'a>> for Triple<'a> {
    fn from((id, chunk): Listed<'a>) -> Self {
        Triple {
            id,
            fragments: &[],
            chunk,
        }
    }
}

/// The content by minishard number, each in rising id order.
fn by_minishard<'a>(sharding: &Sharding, content: &[Triple<'a>]) -> Vec<Vec<Triple<'a>>> {
    let mut minishards = vec![Vec::new(); sharding.minishard_count() as usize];
    for triple in content {
        minishards[sharding.place(triple.id).minishard as usize].push(*triple);
    }
    for listed in &mut minishards {
        listed.sort_by_key(|triple| triple.id);
    }
    minishards
}

/// The minishard index of chunks that stand one after another, each behind its
/// fragments, the first of all at `place`, counted from the end of the shard
/// index.
fn minishard_index(listed: &[Triple], place: u64) -> Vec<u8> {
    let before = std::iter::once(0).chain(listed.iter().map(|triple| triple.id));
    let id_steps = listed
        .iter()
        .zip(before)
        .map(|(triple, before)| triple.id - before);
    let places = std::iter::once(place).chain(std::iter::repeat(0));
    let start_steps = listed
        .iter()
        .zip(places)
        .map(|(triple, place)| place + triple.fragments.len() as u64);
    let sizes = listed.iter().map(|triple| triple.chunk.len() as u64);
    bytes_of(id_steps.chain(start_steps).chain(sizes))
}

/// The settled form of this content, given in any order: each id stands once
/// and belongs to the shard. The specification is allowed.
pub fn form_of(sharding: &Sharding, content: &[Triple]) -> Vec<u8> {
    let minishards = by_minishard(sharding, content);
    let mut entries = Vec::with_capacity(2 * minishards.len());
    let mut data = Vec::new();
    for listed in minishards {
        if listed.is_empty() {
            entries.extend([0, 0]);
            continue;
        }
        let place = data.len() as u64;
        for triple in &listed {
            data.extend(triple.fragments);
            data.extend(triple.chunk);
        }
        let start = data.len() as u64;
        data.extend(minishard_index(&listed, place));
        entries.extend([start, data.len() as u64]);
    }
    let mut form = bytes_of(entries);
    form.extend(data);
    form
}

/// The settled form of a volume's chunks, likewise.
pub fn settled_form(sharding: &Sharding, content: &[Listed]) -> Vec<u8> {
    let triples: Vec<Triple> = content.iter().copied().map(Triple::from).collect();
    form_of(sharding, &triples)
}

/// The length of the settled form of this content, exact.
fn exact_length(sharding: &Sharding, content: &[Triple]) -> u128 {
    let parts = content
        .iter()
        .map(|triple| 24 + triple.fragments.len() as u128 + triple.chunk.len() as u128);
    u128::from(sharding.index_end()) + parts.sum::<u128>()
}

/// What a sound shard lists, or 1, 5, 6, then the faults of the minishards,
/// which are not named.
pub fn content_of<'a>(
    sharding: &Sharding,
    number: u64,
    file: &'a [u8],
) -> Result<Vec<Triple<'a>>, Refusal> {
    let entries = list(sharding, number, file).map_err(Refusal::passed_on)?;
    let triple = |entry: &Entry| Triple {
        id: entry.id,
        fragments: entry.fragment_bytes(file),
        chunk: entry.bytes(file),
    };
    Ok(entries.iter().map(triple).collect())
}

/// What a sound shard lists: where unlisted bytes are not to be dropped, 22 comes
/// behind the refusals of [`content_of`].
fn kept<'a>(
    sharding: &Sharding,
    number: u64,
    file: &'a [u8],
    dropping: bool,
) -> Result<Vec<Triple<'a>>, Refusal> {
    let content = content_of(sharding, number, file)?;
    if !dropping && unlisted(sharding, number, file)? > 0 {
        return Err(Refusal::bare(22));
    }
    Ok(content)
}

/// The length of a shard's settled form, or 1, 5, 6, then the faults of the
/// check by minishard, then 22 where bytes are unlisted and not to be dropped,
/// then 13 where the form would exceed 1 GiB.
pub fn length_of(
    sharding: &Sharding,
    number: u64,
    file: &[u8],
    dropping: bool,
) -> Result<u64, Refusal> {
    let length = exact_length(sharding, &kept(sharding, number, file, dropping)?);
    if length > u128::from(MOST_SHARD_BYTES) {
        return Err(Refusal::bare(13));
    }
    Ok(length as u64)
}

/// Settles a shard: writes its settled form to the front of `out` and gives
/// its length, or 1, 5, 6, then the faults of the check by minishard, then 22
/// where bytes are unlisted and not to be dropped, then 13.
pub fn settle(
    sharding: &Sharding,
    number: u64,
    file: &[u8],
    dropping: bool,
    out: &mut [u8],
) -> Result<usize, Refusal> {
    let content = kept(sharding, number, file, dropping)?;
    let length = exact_length(sharding, &content);
    if length > out.len() as u128 || length > u128::from(MOST_SHARD_BYTES) {
        return Err(Refusal::bare(13));
    }
    Ok(write_front(&form_of(sharding, &content), out)?)
}

#[cfg(test)]
mod tests {
    use super::*;
    use crate::endian::read_u64;
    use crate::shard::{check, lookup};
    use crate::sharding::VOLUME;

    const ONE: Sharding = Sharding {
        preshift: 0,
        hash: 0,
        minishard_bits: 1,
        shard_bits: 0,
        kind: VOLUME,
    };

    fn numbers(bytes: &[u8]) -> Vec<u64> {
        (0..bytes.len() / 8)
            .map(|i| read_u64(bytes, 8 * i))
            .collect()
    }

    #[test]
    fn the_example() {
        let form = settled_form(&ONE, &[(10, b"cde"), (4, b"ab")]);
        assert_eq!(form.len(), 85);
        assert_eq!(length_of(&ONE, 0, &form, true), Ok(85));
        assert_eq!(numbers(&form[..32]), [5, 53, 0, 0]);
        assert_eq!(&form[32..37], b"abcde");
        assert_eq!(numbers(&form[37..]), [4, 6, 0, 0, 2, 3]);
        let entry = lookup(&ONE, 0, 10, &form).unwrap();
        assert_eq!((entry.start, entry.start + entry.length), (34, 37));
        assert_eq!(lookup(&ONE, 0, 6, &form), Err(Refusal::bare(12)));
        assert_eq!(lookup(&ONE, 0, 7, &form), Err(Refusal::bare(12)));
    }

    #[test]
    fn a_settled_form_is_sound_and_settles_to_itself() {
        let form = settled_form(&ONE, &[(0, b""), (2, b"xyz"), (3, b"q"), (9, b"")]);
        assert_eq!(check(&ONE, 0, &form), Ok(()));
        let mut out = vec![0xa5; form.len() + 3];
        assert_eq!(settle(&ONE, 0, &form, true, &mut out), Ok(form.len()));
        assert_eq!(out[..form.len()], form);
        assert_eq!(out[form.len()..], [0xa5; 3]);
    }

    #[test]
    fn stored_order_and_overlaps_do_not_matter() {
        // Ids 10 and 4, the second chunk one byte into the first.
        let rows: [u64; 6] = [10, 4u64.wrapping_sub(10), 0, u64::MAX, 2, 2];
        let mut file: Vec<u8> = [3u64, 51, 0, 0]
            .iter()
            .flat_map(|n| n.to_le_bytes())
            .collect();
        file.extend(b"abc");
        file.extend(rows.iter().flat_map(|n| n.to_le_bytes()));
        let mut out = vec![0; 84];
        assert_eq!(settle(&ONE, 0, &file, true, &mut out), Ok(84));
        assert_eq!(out, settled_form(&ONE, &[(4, b"bc"), (10, b"ab")]));
    }

    /// A fault of the check is passed on with its position and without its
    /// minishard.
    #[test]
    fn faults_are_passed_on() {
        let mut form = settled_form(&ONE, &[(2, b"xyz"), (3, b"q"), (5, b"rs")]);
        // Minishard 1 is at byte 32 + 30; its second id step says 3 again.
        form[62 + 8] = 0;
        let refusal = Refusal::at(9, 70);
        assert_eq!(check(&ONE, 0, &form), Err(refusal.in_minishard(1)));
        assert_eq!(length_of(&ONE, 0, &form, true), Err(refusal));
        assert_eq!(settle(&ONE, 0, &form, true, &mut []), Err(refusal));
    }

    #[test]
    fn later_minishards_name_their_place() {
        let form = settled_form(&ONE, &[(2, b"xyz"), (3, b"q"), (5, b"rs")]);
        assert_eq!(numbers(&form[..32]), [3, 27, 30, 78]);
        assert_eq!(numbers(&form[32 + 30..]), [3, 2, 27, 0, 1, 2]);
    }

    #[test]
    fn a_short_output_stays_as_it_was() {
        let form = settled_form(&ONE, &[(4, b"ab")]);
        let mut out = vec![7; form.len() - 1];
        let told = settle(&ONE, 0, &form, true, &mut out);
        assert_eq!(told, Err(Refusal::bare(13)));
        assert!(out.iter().all(|byte| *byte == 7));
    }

    #[test]
    fn unlisted_bytes_are_refused_before_13() {
        let form = settled_form(&ONE, &[(4, b"ab"), (5, b"c")]);
        let file = [&form[..], b"-"].concat();
        let refusal = Refusal::bare(22);
        for room in [0, form.len()] {
            let mut out = vec![7; room];
            assert_eq!(settle(&ONE, 0, &file, false, &mut out), Err(refusal));
            assert!(out.iter().all(|byte| *byte == 7));
        }
        assert_eq!(length_of(&ONE, 0, &file, false), Err(refusal));
        assert_eq!(length_of(&ONE, 0, &form, false), Ok(form.len() as u64));
        let mut out = vec![7; form.len()];
        assert_eq!(settle(&ONE, 0, &file, true, &mut out), Ok(form.len()));
        assert_eq!(out, form);
    }
}
