//! Refusals of a shard: 5 to 13, 22, 33, of a mesh 15 to 18 and 21, and of a pair 23 and
//! 24. Where a fault stands is what the library says; here the numbers at that place
//! are read and put into words.

use coronagamba::{Manifest, Refusal, Sharding};

use super::gaps::Gaps;
use super::manifest::{of_manifest, of_no_node};
use super::places::{of_shard_number, of_sharding};
use super::seen::{Seen, ENTRY, ID_STEPS, MOST_INDEX_BYTES, ROWS, SIZES, START_STEPS};
use super::words::{Diagnosis, Place};
use crate::edition::Bytes;
use crate::fragments::{is_mesh, length_of};
use crate::text::counted;

/// The most bytes of a shard and of a settled form.
const MOST_BYTES: u64 = 1 << 30;

/// Whether a number is that of a fault in a minishard, which has a position.
fn is_fault(number: u8) -> bool {
    matches!(number, 7..=11 | 15..=17 | 21)
}

/// A refusal of the whole-shard check, of settling or of a sheet: 1, 5 to 11, 13,
/// 15 to 17, 21 to 23, 27.
pub fn of_shard<'a>(
    sharding: &'a Sharding,
    number: u64,
    bytes: impl Into<Bytes<'a>>,
    refusal: Refusal,
) -> Diagnosis {
    let seen = Seen::of(sharding, number, bytes);
    match refusal.number {
        1 => of_sharding(sharding),
        5 => of_shard_number(sharding, number),
        23 => told(seen.index_file()),
        6 => seen.length(),
        number if is_fault(number) => told(seen.first_fault(refusal)),
        13 => told(seen.settled_length()),
        22 => told(seen.gaps().map(of_gaps)),
        27 => Diagnosis::new(
            "chunks whose sizes are larger together",
            format!("sizes of at most {} together", u64::MAX),
            "the sizes in the minishard indexes, which share bytes",
        ),
        _ => Diagnosis::not_found_again(),
    }
}

/// A refusal of one minishard's listing: 1, 5 to 11, 15 to 17, 21, 33.
pub fn of_listing<'a>(
    sharding: &'a Sharding,
    number: u64,
    bytes: impl Into<Bytes<'a>>,
    minishard: u64,
    refusal: Refusal,
) -> Diagnosis {
    let seen = Seen::of(sharding, number, bytes);
    match refusal.number {
        33 => seen.no_minishard(minishard),
        number if is_fault(number) => told(seen.fault(minishard, refusal)),
        _ => of_shard(sharding, number, seen.bytes, refusal),
    }
}

/// A refusal of a lookup: 1, 5 to 12, 15 to 17, 21.
pub fn of_lookup<'a>(
    sharding: &'a Sharding,
    number: u64,
    bytes: impl Into<Bytes<'a>>,
    id: u64,
    refusal: Refusal,
) -> Diagnosis {
    let seen = Seen::of(sharding, number, bytes);
    let Ok(place) = sharding.place(id) else {
        return of_sharding(sharding);
    };
    match refusal.number {
        5 if sharding.shard_name(number).is_ok() => seen.other_shard(id),
        12 => told(seen.not_listed(id, place.minishard)),
        number if is_fault(number) => told(seen.fault(place.minishard, refusal)),
        _ => of_shard(sharding, number, seen.bytes, refusal),
    }
}

/// A refusal of the fragment of a node: as of a lookup, and 18.
pub fn of_fragment<'a>(
    sharding: &'a Sharding,
    number: u64,
    bytes: impl Into<Bytes<'a>>,
    (id, level, node): (u64, u64, u64),
    refusal: Refusal,
) -> Diagnosis {
    let seen = Seen::of(sharding, number, bytes);
    if refusal.number != 18 {
        return of_lookup(sharding, number, seen.bytes, id, refusal);
    }
    told(seen.no_fragment(id, level, node))
}

/// A refusal of a range of a pair's joined file: 1, 23, 6, 24.
pub fn of_range<'a>(
    sharding: &'a Sharding,
    bytes: impl Into<Bytes<'a>>,
    (start, end): (u64, u64),
    refusal: Refusal,
) -> Diagnosis {
    let seen = Seen::of(sharding, 0, bytes);
    match refusal.number {
        24 => told(seen.no_range(start, end)),
        _ => of_shard(sharding, 0, seen.bytes, refusal),
    }
}

/// Refusal 22 of settling.
fn of_gaps(gaps: Gaps) -> Diagnosis {
    let byte = gaps.first.first().map(|span| span.start);
    Diagnosis {
        byte,
        ..Diagnosis::new(
            gaps.size(),
            "every byte past the shard index listed, or the wish to lose the others (--drop-unlisted)",
            gaps.to_string(),
        )
    }
}

/// A diagnosis, or that none was found.
fn told(found: Option<Diagnosis>) -> Diagnosis {
    found.unwrap_or_else(Diagnosis::not_found_again)
}

impl<'a> Seen<'a> {
    /// The gaps of a shard that passed the check.
    fn gaps(&self) -> Option<Gaps> {
        let unlisted = self.open().unlisted().ok()?;
        Gaps::of(self.sharding, self.number, self.bytes, unlisted)
    }

    /// What places count in.
    fn whole(&self) -> &'static str {
        match self.bytes {
            Bytes::One(_) => "the file",
            Bytes::Two { .. } => "the joined file",
        }
    }

    /// A byte and what stands there. Of a pair it is told in which file it is, and
    /// where in that file.
    fn byte(&self, place: u64, what: &str) -> Place {
        let of = match self.bytes {
            Bytes::One(_) => self.whole().to_string(),
            Bytes::Two { index, .. } => match place.checked_sub(index.len() as u64) {
                None => "the index file".to_string(),
                Some(own) => format!("the joined file, byte {own} of the data file"),
            },
        };
        Place::byte(place, &of, what)
    }

    /// Refusal 6. A file that is too long is read only as far as that shows.
    fn length(&self) -> Diagnosis {
        let (length, index) = (self.file_length(), self.index_length());
        if let Bytes::Two { .. } = self.bytes {
            return Diagnosis::new(
                format!("two files of more than {MOST_BYTES} bytes together"),
                format!("at most {MOST_BYTES} bytes in both files together"),
                "the data file's length: is it that of one shard, and not of several?",
            );
        }
        if length > MOST_BYTES {
            return Diagnosis::new(
                format!("a file of more than {MOST_BYTES} bytes"),
                format!("at most {MOST_BYTES} bytes"),
                "the file's length: is it a shard, and not several joined together?",
            );
        }
        Diagnosis::new(
            format!("a file of {}", counted(length, "byte")),
            format!(
                "at least {index} bytes: a shard index of 16 bytes for each of {}",
                counted(self.minishards(), "minishard")
            ),
            "the file's length: was it cut short? and the minishard bits of the settings",
        )
    }

    /// Refusal 23. An index file that is too long is read only as far as that
    /// shows.
    fn index_file(&self) -> Option<Diagnosis> {
        let Bytes::Two { index, data } = self.bytes else {
            return None;
        };
        let (found, expected) = (index.len() as u64, self.index_length());
        let more = if found > MOST_INDEX_BYTES {
            "at least "
        } else {
            ""
        };
        let swapped = match data.len() as u64 == expected {
            true => "; the data file has just this length: are the two exchanged?",
            false => "",
        };
        Some(Diagnosis::new(
            format!("an index file of {more}{}", counted(found, "byte")),
            format!(
                "exactly {expected} bytes: 16 for each of {}",
                counted(self.minishards(), "minishard")
            ),
            format!(
                "the index file's length: was it cut short, or is it a whole shard? and the \
                 minishard bits of the settings{swapped}"
            ),
        ))
    }

    /// Refusal 24.
    fn no_range(&self, start: u64, end: u64) -> Option<Diagnosis> {
        let Bytes::Two { index, .. } = self.bytes else {
            return None;
        };
        let (seam, length) = (index.len() as u64, self.file_length());
        let whole = format!(
            "the index file is bytes 0 to {seam} of the joined file and the data file bytes \
             {seam} to {length}, each end excluded"
        );
        let (found, expected) = if start > end {
            (
                format!("start {start} is after end {end}"),
                "a start that is at most the end".to_string(),
            )
        } else if end > length {
            (
                format!("end {end}, the joined file ends at byte {length}"),
                format!("an end of at most {length}"),
            )
        } else {
            (
                format!("bytes {start} to {end} cross the seam at byte {seam}"),
                format!("bytes {start} to {seam} and bytes {seam} to {end}, one after the other"),
            )
        };
        Some(Diagnosis::new(found, expected, whole))
    }

    /// Refusal 33.
    fn no_minishard(&self, minishard: u64) -> Diagnosis {
        Diagnosis::new(
            format!("minishard number {minishard}"),
            format!(
                "a number below {} (minishard bits: {})",
                self.minishards(),
                self.sharding.minishard_bits
            ),
            "--minishard; and the minishard bits of the settings",
        )
    }

    /// Refusal 5 of an id that belongs elsewhere.
    fn other_shard(&self, id: u64) -> Diagnosis {
        let Ok(place) = self.sharding.place(id) else {
            return of_sharding(self.sharding);
        };
        let name = |number| self.sharding.shard_name(number).unwrap_or_default();
        Diagnosis::new(
            format!(
                "id {id} belongs to shard {} ({})",
                place.shard,
                name(place.shard)
            ),
            format!("an id of shard {} ({})", self.number, name(self.number)),
            format!("{}, minishard {}", name(place.shard), place.minishard),
        )
    }

    /// A fault of the whole shard. Settling does not name its minishard, so the
    /// check is asked.
    fn first_fault(&self, refusal: Refusal) -> Option<Diagnosis> {
        let minishard = match refusal.minishard {
            Some(minishard) => minishard,
            None => self.open().check().err()?.minishard?,
        };
        self.fault(minishard, refusal)
    }

    /// A fault of a minishard, at the place that the library names.
    fn fault(&self, minishard: u64, refusal: Refusal) -> Option<Diagnosis> {
        let position = refusal.position?;
        match refusal.number {
            7 => self.bad_entry(minishard, position),
            8 => self.bad_length(minishard, position),
            9 => self.repeated_id(minishard, position),
            10 => self.bad_place(minishard, position),
            11 => self.bad_end(minishard, position),
            15..=17 => self.bad_manifest(minishard, position, refusal),
            21 => self.no_room(minishard, position),
            _ => None,
        }
    }

    /// Refusal 7.
    fn bad_entry(&self, minishard: u64, position: u64) -> Option<Diagnosis> {
        let (start, end) = self.entry(position)?;
        let look_at = self.byte(
            position,
            &format!("shard index, entry of minishard {minishard}: start, then end"),
        );
        if start > end {
            return Some(Diagnosis::new(
                format!("start {start} is after end {end}"),
                "a start that is at most the end",
                look_at,
            ));
        }
        let last = u128::from(self.index_length()) + u128::from(end);
        Some(Diagnosis::new(
            format!(
                "start {start} and end {end}, counted from byte {}: the end is byte {last}, {} \
                 ends at byte {}",
                self.index_length(),
                self.whole(),
                self.file_length()
            ),
            format!(
                "an end of at most {}",
                self.file_length().saturating_sub(self.index_length())
            ),
            look_at,
        ))
    }

    /// Refusal 8.
    fn bad_length(&self, minishard: u64, position: u64) -> Option<Diagnosis> {
        let (start, end) = self.entry(position)?;
        let length = end.checked_sub(start)?;
        let rest = length % ROWS;
        Some(Diagnosis::new(
            format!("a minishard index of {length} bytes, {rest} more than a multiple of 24"),
            "a multiple of 24: three numbers of 8 bytes for each chunk",
            self.byte(
                position,
                &format!("shard index, entry of minishard {minishard}: start {start}, end {end}"),
            ),
        ))
    }

    /// Refusal 9.
    fn repeated_id(&self, minishard: u64, position: u64) -> Option<Diagnosis> {
        let rows = self.rows(minishard)?;
        let entry = rows.entry(ID_STEPS, position)?;
        let id = rows.id(entry)?;
        let earlier = rows.ids().position(|earlier| earlier == id)?;
        let told = Diagnosis::new(
            format!("entry {entry} has id {id}, which entry {earlier} has too"),
            "each id once in its minishard, in any order",
            self.byte(position, &format!("id steps of minishard {minishard}")),
        );
        Some(told.of_entry(entry, id))
    }

    /// Refusal 10.
    fn bad_place(&self, minishard: u64, position: u64) -> Option<Diagnosis> {
        let rows = self.rows(minishard)?;
        let entry = rows.entry(ID_STEPS, position)?;
        let id = rows.id(entry)?;
        let place = self.sharding.place(id).ok()?;
        let told = Diagnosis::new(
            format!(
                "entry {entry} has id {id}, which belongs to minishard {} of shard {} ({})",
                place.minishard,
                place.shard,
                self.sharding.shard_name(place.shard).unwrap_or_default()
            ),
            format!("ids of minishard {minishard} of shard {}", self.number),
            self.byte(position, &format!("id steps of minishard {minishard}"))
                .and("; and the settings, if many ids are elsewhere"),
        );
        Some(told.of_entry(entry, id))
    }

    /// Refusal 11.
    fn bad_end(&self, minishard: u64, position: u64) -> Option<Diagnosis> {
        let rows = self.rows(minishard)?;
        let entry = rows.entry(START_STEPS, position)?;
        let (id, length) = (rows.id(entry)?, self.file_length());
        let start = u128::from(self.index_length()) + u128::from(rows.start(entry));
        let size = rows.place(SIZES, entry);
        let end = start + u128::from(self.number_at(size)?);
        let told = Diagnosis::new(
            format!(
                "entry {entry}, id {id}: its chunk starts at byte {start} and ends at byte {end}, \
                 {} ends at byte {length}",
                self.whole()
            ),
            format!("an end of at most {length}"),
            self.byte(
                position,
                &format!("start steps of minishard {minishard}; the size is at byte {size}"),
            ),
        );
        Some(told.of_entry(entry, id))
    }

    /// What the entry of a manifest tells whose start step is at this byte.
    fn listed(&self, minishard: u64, position: u64) -> Option<Listed<'a>> {
        let rows = self.rows(minishard)?;
        let entry = rows.entry(START_STEPS, position)?;
        let size_at = rows.place(SIZES, entry);
        let start = self.index_length().checked_add(rows.start(entry))?;
        let end = start.checked_add(self.number_at(size_at)?)?;
        let words = format!("start steps of minishard {minishard}; the size is at byte {size_at}");
        Some(Listed {
            entry,
            id: rows.id(entry)?,
            start,
            bytes: self.bytes.get(start..end)?,
            place: self.byte(position, &words),
        })
    }

    /// Refusal 15, 16 or 17 of a listed manifest: what is wrong with it by
    /// itself, and where that is in the file.
    fn bad_manifest(&self, minishard: u64, position: u64, refusal: Refusal) -> Option<Diagnosis> {
        let listed = self.listed(minishard, position)?;
        let inner = of_manifest(listed.bytes, refusal);
        let (entry, id) = (listed.entry, listed.id);
        let told = Diagnosis::new(
            format!("entry {entry}, id {id}: {}", inner.found),
            inner.expected.clone(),
            listed.place.and(self.in_manifest(listed.start, &inner)),
        );
        Some(told.of_entry(entry, id))
    }

    /// Refusal 21.
    fn no_room(&self, minishard: u64, position: u64) -> Option<Diagnosis> {
        let listed = self.listed(minishard, position)?;
        let fragments = length_of(&Manifest::open(listed.bytes))?;
        let (base, start) = (self.index_length(), listed.start);
        let room = start - base;
        let told = Diagnosis::new(
            format!(
                "entry {}, id {}: its manifest starts at byte {start}, {} behind the shard index, \
                 and its fragments, right before it, have {} together",
                listed.entry,
                listed.id,
                counted(room, "byte"),
                counted(fragments, "byte")
            ),
            format!("fragments of at most {}", counted(room, "byte")),
            listed.place.and("; and the fragment sizes in the manifest"),
        );
        Some(told.of_entry(listed.entry, listed.id))
    }

    /// Refusal 18 of a fragment: a volume has none, or the manifest has no such
    /// node.
    fn no_fragment(&self, id: u64, level: u64, node: u64) -> Option<Diagnosis> {
        if !is_mesh(self.sharding) {
            return Some(Diagnosis::new(
                "the settings of a volume, whose chunks have no fragments",
                "those of a mesh",
                "the settings: a card that says mesh, or --kind mesh",
            ));
        }
        let shard = self.open();
        let start = shard.lookup(id).ok()?.start;
        let inner = of_no_node(shard.chunk(id).ok()?, level, node)?;
        let place = self.byte(start, "the manifest");
        let look_at = place.and(self.in_manifest(start, &inner));
        Some(Diagnosis::new(
            format!("id {id}: {}", inner.found),
            inner.expected,
            look_at,
        ))
    }

    /// Refusal 12.
    fn not_listed(&self, id: u64, minishard: u64) -> Option<Diagnosis> {
        let (start, end) = self.entry(ENTRY * minishard)?;
        let where_listed = format!("minishard {minishard} of shard {}", self.number);
        let expected = format!("id {id} listed in {where_listed}");
        if start == end {
            return Some(Diagnosis::new(
                format!("{where_listed} lists no chunks"),
                expected,
                self.byte(
                    ENTRY * minishard,
                    &format!(
                        "shard index, entry of minishard {minishard}: start and end are equal"
                    ),
                ),
            ));
        }
        let rows = self.rows(minishard)?;
        let below = rows.ids().filter(|listed| *listed < id).max();
        let above = rows.ids().filter(|listed| *listed > id).min();
        let near = match (below, above) {
            (Some(below), Some(above)) => format!("the nearest ids are {below} and {above}"),
            (Some(below), None) => format!("the greatest id is {below}"),
            (None, Some(above)) => format!("the least id is {above}"),
            (None, None) => return None,
        };
        Some(Diagnosis::new(
            format!(
                "{where_listed} lists {}, not this one; {near}",
                counted(rows.count(), "chunk")
            ),
            expected,
            self.byte(rows.begin, &format!("index of minishard {minishard}")),
        ))
    }

    /// Refusal 13 of settling: the settled form's length is that of its parts.
    fn settled_length(&self) -> Option<Diagnosis> {
        let mut total = u128::from(self.index_length());
        for minishard in 0..self.minishards() {
            let rows = self.rows(minishard)?;
            total += rows.bytes.len() as u128;
            total += rows.numbers(SIZES).map(u128::from).sum::<u128>();
            if is_mesh(self.sharding) {
                total += u128::from(self.fragments(minishard)?);
            }
        }
        let look_at = match is_mesh(self.sharding) {
            false => "chunks that share bytes: a settled form writes each chunk's bytes out by themselves",
            true => {
                "chunks and fragments that share bytes: a settled form writes those of each \
                 manifest out by themselves"
            }
        };
        Some(Diagnosis::new(
            format!("a settled form of {total} bytes"),
            format!("at most {MOST_BYTES} bytes"),
            look_at,
        ))
    }

    /// How many bytes the fragments of a sound mesh minishard have together.
    fn fragments(&self, minishard: u64) -> Option<u64> {
        let listing = self.open().listing(minishard).ok()?.into_iter();
        let lengths =
            listing.map(|listed| length_of(&Manifest::open(self.bytes.part(listed.span))));
        lengths.sum()
    }

    /// Where something of a manifest is, in words behind others.
    fn in_manifest(&self, start: u64, inner: &Diagnosis) -> String {
        match inner.byte {
            Some(byte) => format!(
                "; byte {} of {} is {}",
                start + byte,
                self.whole(),
                inner.look_at
            ),
            None => format!("; the manifest begins at byte {start}; {}", inner.look_at),
        }
    }
}

/// A manifest as its entry lists it.
struct Listed<'a> {
    entry: u64,
    id: u64,
    /// Where it starts in the file.
    start: u64,
    bytes: &'a [u8],
    /// Where the entry's start step is.
    place: Place,
}

#[cfg(test)]
mod tests {
    use super::*;
    use coronagamba::{Shard, Unlisted};

    const SHARDING: Sharding = Sharding {
        preshift: 0,
        hash: 0,
        minishard_bits: 1,
        shard_bits: 0,
        kind: Sharding::VOLUME,
    };

    /// The scope's case: ids 4 and 10 with bytes `ab` and `cde`, settled. The
    /// shard index is bytes 0 to 32, the chunks are bytes 32 to 37, the rows of
    /// minishard 0 begin at bytes 37, 53 and 69.
    fn sound() -> Vec<u8> {
        let mut file = Vec::new();
        let put = |file: &mut Vec<u8>, numbers: &[u64]| {
            numbers
                .iter()
                .for_each(|number| file.extend(number.to_le_bytes()));
        };
        put(&mut file, &[5, 53, 0, 0]);
        file.extend(b"abcde");
        put(&mut file, &[4, 6, 0, 0, 2, 3]);
        file
    }

    /// The sound shard with other numbers at these bytes.
    fn damaged(changes: &[(usize, u64)]) -> Vec<u8> {
        let mut file = sound();
        for (place, number) in changes {
            file[*place..][..8].copy_from_slice(&number.to_le_bytes());
        }
        file
    }

    /// The check's refusal of a file, explained: the byte is the library's.
    /// Settling, which names no minishard, must be explained in the same way.
    fn told_check(file: &[u8], number: u8, minishard: Option<u64>) -> Diagnosis {
        let shard = Shard::open(SHARDING, 0, file);
        let refusal = shard.check().unwrap_err();
        assert_eq!((refusal.number, refusal.minishard), (number, minishard));
        let told = of_shard(&SHARDING, 0, file, refusal);
        assert_eq!(told.byte, refusal.position);
        let settling = shard.settled_length(Unlisted::Drop).unwrap_err();
        assert_eq!((settling.number, settling.minishard), (number, None));
        assert_eq!(of_shard(&SHARDING, 0, file, settling), told);
        told
    }

    fn told_lookup(sharding: Sharding, number: u64, file: &[u8], id: u64) -> (u8, Diagnosis) {
        let refusal = Shard::open(sharding, number, file).lookup(id).unwrap_err();
        let told = of_lookup(&sharding, number, file, id, refusal);
        (refusal.number, told)
    }

    #[test]
    fn the_sound_shard_is_sound() {
        let file = sound();
        assert_eq!(file.len(), 85);
        assert_eq!(Shard::open(SHARDING, 0, &file).check(), Ok(()));
    }

    /// A fault without a place is not explained, and no place is made up.
    #[test]
    fn no_place_no_explanation() {
        for number in (0..=255).filter(|number| is_fault(*number)) {
            let refusal = Refusal {
                number,
                minishard: Some(0),
                position: None,
            };
            let told = of_shard(&SHARDING, 0, &sound(), refusal);
            assert_eq!(told, Diagnosis::not_found_again());
        }
    }

    #[test]
    fn lengths() {
        let told = told_check(&sound()[..31], 6, None);
        assert_eq!(told.found, "a file of 31 bytes");
        assert_eq!(
            told.expected,
            "at least 32 bytes: a shard index of 16 bytes for each of 2 minishards"
        );
    }

    #[test]
    fn index_entries() {
        let told = told_check(&damaged(&[(0, 54)]), 7, Some(0));
        assert_eq!(told.found, "start 54 is after end 53");
        assert_eq!(
            told.look_at,
            "byte 0 of the file (shard index, entry of minishard 0: start, then end)"
        );
        let told = told_check(&damaged(&[(24, 54)]), 7, Some(1));
        assert_eq!(
            told.found,
            "start 0 and end 54, counted from byte 32: the end is byte 86, the file ends at byte 85"
        );
        assert_eq!(told.expected, "an end of at most 53");
        assert_eq!(
            told.look_at,
            "byte 16 of the file (shard index, entry of minishard 1: start, then end)"
        );
        let told = told_check(&damaged(&[(24, u64::MAX)]), 7, Some(1));
        assert!(told.found.contains("the end is byte 18446744073709551647"));
    }

    #[test]
    fn index_lengths() {
        let told = told_check(&damaged(&[(8, 52)]), 8, Some(0));
        assert_eq!(
            told.found,
            "a minishard index of 47 bytes, 23 more than a multiple of 24"
        );
        assert_eq!(
            told.look_at,
            "byte 0 of the file (shard index, entry of minishard 0: start 5, end 52)"
        );
    }

    #[test]
    fn ids_that_stand_twice() {
        let told = told_check(&damaged(&[(45, 0)]), 9, Some(0));
        assert_eq!(told.found, "entry 1 has id 4, which entry 0 has too");
        assert_eq!(
            told.look_at,
            "byte 45 of the file (id steps of minishard 0)"
        );
        assert_eq!(told.expected, "each id once in its minishard, in any order");
    }

    /// Ids 4, 10, 4 and then 10 again: the later of the first pair is told.
    #[test]
    fn ids_that_stand_twice_far_apart() {
        let back = 4u64.wrapping_sub(10);
        let mut file = Vec::new();
        for number in [0, 96, 0, 0, 4, 6, back, 6, 0, 0, 0, 0, 0, 0, 0, 0] {
            file.extend(u64::to_le_bytes(number));
        }
        let told = told_check(&file, 9, Some(0));
        assert_eq!(told.found, "entry 2 has id 4, which entry 0 has too");
        assert_eq!(
            told.look_at,
            "byte 48 of the file (id steps of minishard 0)"
        );
        assert_eq!(told.entry, Some((2, 4)));
    }

    #[test]
    fn places_of_ids() {
        let told = told_check(&damaged(&[(37, 3), (45, 7)]), 10, Some(0));
        assert_eq!(
            told.found,
            "entry 0 has id 3, which belongs to minishard 1 of shard 0 (0.shard)"
        );
        assert_eq!(told.expected, "ids of minishard 0 of shard 0");
        assert!(told
            .look_at
            .starts_with("byte 37 of the file (id steps of minishard 0)"));
        assert_eq!(told.entry, Some((0, 3)));
        // Minishard 1 lists the chunks of minishard 0.
        let told = told_check(&damaged(&[(16, 5), (24, 53)]), 10, Some(1));
        assert_eq!(
            told.found,
            "entry 0 has id 4, which belongs to minishard 0 of shard 0 (0.shard)"
        );
        assert!(told
            .look_at
            .starts_with("byte 37 of the file (id steps of minishard 1)"));
    }

    #[test]
    fn ends_of_chunks() {
        let told = told_check(&damaged(&[(77, 52)]), 11, Some(0));
        assert_eq!(
            told.found,
            "entry 1, id 10: its chunk starts at byte 34 and ends at byte 86, the file ends at byte 85"
        );
        assert_eq!(told.expected, "an end of at most 85");
        let second = "byte 61 of the file (start steps of minishard 0; the size is at byte 77)";
        assert_eq!((told.look_at.as_str(), told.entry), (second, Some((1, 10))));
        let told = told_check(&damaged(&[(61, 100)]), 11, Some(0));
        assert!(told
            .found
            .contains("starts at byte 134 and ends at byte 137"));
        assert_eq!(told.look_at, second);
        // One byte back from the first chunk's end, and past the file.
        let told = told_check(&damaged(&[(61, u64::MAX), (77, 53)]), 11, Some(0));
        assert!(told.found.contains("starts at byte 33 and ends at byte 86"));
        assert_eq!(told.look_at, second);
        let told = told_check(&damaged(&[(53, u64::MAX), (69, u64::MAX)]), 11, Some(0));
        assert!(told.found.contains(
            "entry 0, id 4: its chunk starts at byte 18446744073709551647 and ends at byte \
             36893488147419103262"
        ));
    }

    // Scope, cases: ids 6 and 7 give 12.
    #[test]
    fn ids_that_are_not_listed() {
        let file = sound();
        let found = |id| {
            let (number, told) = told_lookup(SHARDING, 0, &file, id);
            assert_eq!(number, 12);
            told.found
        };
        let lists = "minishard 0 of shard 0 lists 2 chunks, not this one;";
        assert_eq!(found(6), format!("{lists} the nearest ids are 4 and 10"));
        assert_eq!(found(2), format!("{lists} the least id is 4"));
        assert_eq!(found(12), format!("{lists} the greatest id is 10"));
        assert_eq!(found(7), "minishard 1 of shard 0 lists no chunks");
        // Ids 10 and 4, in order of arrival.
        let arrival = damaged(&[(37, 10), (45, 4u64.wrapping_sub(10))]);
        for (id, near) in [
            (6, "the nearest ids are 4 and 10"),
            (2, "the least id is 4"),
            (12, "the greatest id is 10"),
        ] {
            let (number, told) = told_lookup(SHARDING, 0, &arrival, id);
            assert_eq!((number, told.found), (12, format!("{lists} {near}")));
        }
        let (_, told) = told_lookup(SHARDING, 0, &file, 6);
        assert_eq!(told.look_at, "byte 37 of the file (index of minishard 0)");
    }

    #[test]
    fn ids_of_another_shard() {
        let sharding = Sharding {
            shard_bits: 5,
            ..SHARDING
        };
        // Id 21 is binary 10101: minishard 1, shard 1010 binary.
        let (number, told) = told_lookup(sharding, 3, &sound(), 21);
        assert_eq!(number, 5);
        assert_eq!(told.found, "id 21 belongs to shard 10 (0a.shard)");
        assert_eq!(told.expected, "an id of shard 3 (03.shard)");
        assert_eq!(told.look_at, "0a.shard, minishard 1");
        let (number, told) = told_lookup(sharding, 32, &sound(), 21);
        assert_eq!(number, 5);
        assert_eq!(told.found, "shard number 32");
    }

    #[test]
    fn a_lookup_explains_its_own_minishard() {
        // Both minishards are damaged; the lookup judges minishard 1 alone.
        let file = damaged(&[(45, 0), (24, 54)]);
        let (number, told) = told_lookup(SHARDING, 0, &file, 7);
        assert_eq!(number, 7);
        assert!(told.look_at.contains("minishard 1"));
        let shard = Shard::open(SHARDING, 0, &file);
        let refusal = shard.listed_count(1).unwrap_err();
        assert_eq!(of_listing(&SHARDING, 0, &file, 1, refusal), told);
    }

    #[test]
    fn minishards_that_are_not_there() {
        let file = sound();
        let refusal = Shard::open(SHARDING, 0, &file).listed_count(2).unwrap_err();
        assert_eq!(refusal.number, 33);
        let told = of_listing(&SHARDING, 0, &file, 2, refusal);
        assert_eq!(told.found, "minishard number 2");
        assert_eq!(told.expected, "a number below 2 (minishard bits: 1)");
    }

    /// 4,096 minishards, each with one chunk of the same 300,000 bytes, but for
    /// the last, which is empty and points beyond the file.
    #[test]
    fn settled_forms_that_are_too_long() {
        const MINISHARDS: u64 = 4096;
        const SIZE: u64 = 300_000;
        let sharding = Sharding {
            minishard_bits: 12,
            ..SHARDING
        };
        let mut file = Vec::new();
        for minishard in 0..MINISHARDS - 1 {
            let start = SIZE + 24 * minishard;
            file.extend(start.to_le_bytes());
            file.extend((start + 24).to_le_bytes());
        }
        file.extend([0xff; 16]);
        file.resize(file.len() + SIZE as usize, 0);
        for minishard in 0..MINISHARDS - 1 {
            for number in [minishard, 0, SIZE] {
                file.extend(number.to_le_bytes());
            }
        }
        let refusal = Shard::open(sharding, 0, &file)
            .settled_length(Unlisted::Drop)
            .unwrap_err();
        assert_eq!(refusal.number, 13);
        let told = of_shard(&sharding, 0, &file, refusal);
        // 4096 x 16 + 4095 x (24 + 300000)
        assert_eq!(told.found, "a settled form of 1228663816 bytes");
        assert_eq!(told.expected, "at most 1073741824 bytes");
    }
}
