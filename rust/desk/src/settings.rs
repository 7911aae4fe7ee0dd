//! The sharding and the volume, from a deposit card, from an info file or from
//! plain options.
//! Nothing is assumed: a deposit was once opened under an assumed hash. Two
//! settings may be left out, as in a card, where that says something: no offset
//! is 0,0,0, and no kind is a volume.

use std::ffi::OsStr;
use std::path::{Path, PathBuf};

use coronagamba::{Card, Cell, Extents, Offset, Refusal, Sharding, Volume};

use crate::args::{decimal, triple, Args, I32, U32, U8};
use crate::buffers::MOST_BYTES;
use crate::diagnosis::{self, labels_of_info};
use crate::fault::{Explain, Fault};
use crate::files::read_whole;
use crate::fragments::is_mesh;
use crate::labels::{layout, Layout};
use crate::options::{
    Opt, CARD, CHUNK, HASH, INFO, KIND, MINISHARD_BITS, OFFSET, PRESHIFT, SCALE, SHARD_BITS, SIZE,
};
use crate::text::shown;

/// The options that give settings. Each command on a deposit takes all of them, so that
/// one set of options serves many commands.
pub const OPTIONS: &[Opt] = &[
    CARD,
    INFO,
    SCALE,
    PRESHIFT,
    HASH,
    MINISHARD_BITS,
    SHARD_BITS,
    SIZE,
    CHUNK,
    OFFSET,
    KIND,
];

/// The same for commands on shards, whatever the volume is.
pub const OF_SHARDS: &[Opt] = &[
    CARD,
    INFO,
    SCALE,
    PRESHIFT,
    HASH,
    MINISHARD_BITS,
    SHARD_BITS,
    KIND,
    SIZE.idle(),
    CHUNK.idle(),
    OFFSET.idle(),
];

/// The same for commands on the chunks of cells, which a mesh does not have.
pub const OF_CELLS: &[Opt] = &[
    CARD,
    INFO,
    SCALE,
    PRESHIFT,
    HASH,
    MINISHARD_BITS,
    SHARD_BITS,
    SIZE,
    CHUNK,
    OFFSET,
    KIND.idle(),
];

/// The same for commands on cells, whatever the sharding is.
pub const OF_VOLUME: &[Opt] = &[
    CARD,
    INFO,
    SCALE,
    SIZE,
    CHUNK,
    OFFSET,
    PRESHIFT.idle(),
    HASH.idle(),
    MINISHARD_BITS.idle(),
    SHARD_BITS.idle(),
    KIND.idle(),
];

/// The options that give what a card should hold, as `card make` takes them.
pub const FOR_CARD: &[Opt] = OPTIONS.split_at(1).1;

/// The options that name an info file and one of its scales.
pub const INFO_OPTIONS: &[Opt] = FOR_CARD.split_at(2).0;

/// The options that give settings one by one, but for the kind: an info file
/// leaves it open, and beside a card it may stand where both say the same.
const PLAIN_OPTIONS: &[Opt] = OPTIONS.split_at(3).1.split_at(7).0;

const SHARDING: [Opt; 4] = [PRESHIFT, HASH, MINISHARD_BITS, SHARD_BITS];
const EXTENTS: [Opt; 2] = [SIZE, CHUNK];

/// What a command knows of a deposit.
#[derive(Clone, Copy, Debug, PartialEq, Eq)]
pub struct Settings {
    /// The sharding specification, allowed by the library.
    pub sharding: Sharding,
    /// The volume, where one is given. The library has not judged it unless it
    /// comes from a card or an info file.
    pub volume: Option<Volume>,
}

/// What the options give, before the library judges it.
struct Given {
    sharding: Option<Sharding>,
    volume: Option<Volume>,
    /// The info file that gives them.
    info: Option<Info>,
}

/// An info file that was read.
struct Info {
    path: PathBuf,
    scale: u64,
    text: Vec<u8>,
}

/// A setting that `read` was told is needed. It is never assumed.
fn there<T>(setting: Option<T>) -> T {
    setting.expect("a needed setting that is missing is complained of")
}

/// The sharding, which must be given, and the volume where it is given.
pub fn of_shards(args: &Args) -> Result<Settings, Fault> {
    let given = read(args, &SHARDING)?;
    Ok(Settings {
        sharding: allowed(there(given.sharding))?,
        volume: given.volume,
    })
}

/// The sharding and a volume whose cells have keys; both must be given. The
/// shards of a mesh list nets by their numbers, so that no cell leads to one.
pub fn of_cells(args: &Args) -> Result<(Sharding, Volume), Fault> {
    cells_in(&read(args, &[SHARDING.as_slice(), &EXTENTS].concat())?)
}

/// The same, and how the labels in its chunks are laid out.
pub fn of_labels(args: &Args) -> Result<(Sharding, Volume, Layout), Fault> {
    let given = read(args, &[SHARDING.as_slice(), &EXTENTS].concat())?;
    let (sharding, volume) = cells_in(&given)?;
    let said = given.info.map(|info| {
        labels_of_info(&info.text, info.scale)
            .map_err(|told| Fault::wrong_use(format!("{}: {told}", shown(&info.path))))
    });
    Ok((sharding, volume, layout(args, said.transpose()?)?))
}

/// The sharding and the volume of what is given.
fn cells_in(given: &Given) -> Result<(Sharding, Volume), Fault> {
    let sharding = allowed(there(given.sharding))?;
    if is_mesh(&sharding) {
        return Err(Fault::wrong_use(
            "these are the settings of a mesh: its shards list nets by their numbers, and no cell has a chunk in them",
        ));
    }
    Ok((sharding, with_keys(there(given.volume))?))
}

/// The name of an allowed sharding's kind.
pub fn kind_name(sharding: &Sharding) -> &'static str {
    if is_mesh(sharding) {
        "mesh"
    } else {
        "volume"
    }
}

/// The volume, which must be given. Only its extents are judged.
pub fn volume(args: &Args) -> Result<Volume, Fault> {
    let volume = there(read(args, &EXTENTS)?.volume);
    judged(volume, volume.grid())
}

/// What an info file or plain options say a card should hold. Writing the card
/// judges the latter.
pub fn for_card(args: &Args) -> Result<Card, Fault> {
    if let Some((path, scale)) = info_given(args)? {
        return of_info(args, path, scale).map(|(card, _)| card);
    }
    let hint = " (an info file gives them all: --info FILE --scale K)";
    let given = plain(args, &[SHARDING.as_slice(), &EXTENTS].concat(), hint)?;
    Ok(Card {
        sharding: there(given.sharding),
        volume: there(given.volume),
    })
}

/// A volume whose grid needs at most 64 key bits.
pub fn with_keys(volume: Volume) -> Result<Volume, Fault> {
    judged(volume, volume.key(Cell::default()))
}

/// A sharding that the library allows. It is asked for the place of an id,
/// which it refuses under any other sharding.
fn allowed(sharding: Sharding) -> Result<Sharding, Fault> {
    let place = sharding.place(0);
    place.explain("settings", |_| diagnosis::of_sharding(&sharding))?;
    Ok(sharding)
}

/// A volume over which the library gives an answer.
fn judged<T>(volume: Volume, answer: Result<T, Refusal>) -> Result<Volume, Fault> {
    answer.explain("settings", |refusal| diagnosis::of_volume(&volume, refusal))?;
    Ok(volume)
}

/// The files that give the settings: they are inputs, and never written over.
pub fn files(args: &Args) -> impl Iterator<Item = &Path> {
    let named = [CARD, INFO].into_iter();
    named.filter_map(|name| args.value(name).map(Path::new))
}

/// Reads the card, the info file, or the options that stand in their place.
fn read(args: &Args, needed: &[Opt]) -> Result<Given, Fault> {
    let (card, info) = match (card_given(args)?, info_given(args)?) {
        (Some(path), _) => (of_card(args, path)?, None),
        (None, Some((path, scale))) => {
            let (card, text) = of_info(args, path, scale)?;
            let path = path.to_path_buf();
            (card, Some(Info { path, scale, text }))
        }
        (None, None) => {
            let hint =
                " (a deposit card gives them all: --card FILE; so does an info file: --info FILE --scale K)";
            return plain(args, needed, hint);
        }
    };
    Ok(Given {
        sharding: Some(card.sharding),
        volume: Some(card.volume),
        info,
    })
}

/// Reads the options of each kind that is needed or begun. The hint stands
/// behind the names of missing ones.
fn plain(args: &Args, needed: &[Opt], hint: &str) -> Result<Given, Fault> {
    let begun = |option: &Opt| args.flag(*option) || needed.contains(option);
    let with_sharding = SHARDING.iter().any(begun) || args.flag(KIND);
    let with_volume = EXTENTS.iter().any(begun) || args.flag(OFFSET);
    let missing = missing(args, with_sharding, with_volume);
    if !missing.is_empty() {
        return Err(Fault::wrong_use(format!(
            "settings are never assumed; missing: {}{hint}",
            missing.join(", ")
        )));
    }
    Ok(Given {
        sharding: with_sharding.then(|| sharding(args)).transpose()?,
        volume: with_volume.then(|| extents(args)).transpose()?,
        info: None,
    })
}

/// All options of these kinds that are missing, so that one complaint names
/// them.
fn missing(args: &Args, with_sharding: bool, with_volume: bool) -> Vec<&'static str> {
    let sharding = SHARDING.iter().filter(|_| with_sharding);
    let volume = EXTENTS.iter().filter(|_| with_volume);
    let needed = sharding.chain(volume).filter(|option| !args.flag(**option));
    needed.map(|option| option.name()).collect()
}

/// The card that is named, with nothing beside it that says the same.
fn card_given(args: &Args) -> Result<Option<&Path>, Fault> {
    let given = args.value(CARD).map(Path::new);
    if given.is_some() {
        alone(args, INFO_OPTIONS, CARD, "a card")?;
        alone(args, PLAIN_OPTIONS, CARD, "a card")?;
    }
    Ok(given)
}

/// The info file that is named and its scale, with nothing beside them that
/// says the same.
pub fn info_given(args: &Args) -> Result<Option<(&Path, u64)>, Fault> {
    match (args.value(INFO), args.number(SCALE)?) {
        (None, None) => Ok(None),
        (None, Some(_)) => Err(Fault::wrong_use("--scale is given without --info")),
        (Some(_), None) => Err(Fault::wrong_use(
            "settings are never assumed; missing: --scale, the number of the info file's scale, from 0",
        )),
        (Some(path), Some(scale)) => {
            alone(args, PLAIN_OPTIONS, INFO, "an info file")?;
            Ok(Some((Path::new(path), scale)))
        }
    }
}

/// None of these options is given beside what already says it.
fn alone(args: &Args, options: &[Opt], given: Opt, what: &str) -> Result<(), Fault> {
    match options.iter().find(|option| args.flag(**option)) {
        None => Ok(()),
        Some(option) => Err(Fault::wrong_use(format!(
            "{given} and {option} are given together; {what} already says it"
        ))),
    }
}

/// What a card says. Its kind is the deposit's, and another one that is given
/// beside it is an error.
fn of_card(args: &Args, path: &Path) -> Result<Card, Fault> {
    let kind = kind(args)?;
    let card = read_card(path)?;
    match kind {
        Some(kind) if kind != card.sharding.kind => Err(Fault::wrong_use(format!(
            "--kind {} is given, but {} is the card of a {}",
            shown(Path::new(args.needed(KIND)?)),
            shown(path),
            kind_name(&card.sharding)
        ))),
        _ => Ok(card),
    }
}

/// What an info file says of a scale, of the kind that is given; it has none
/// itself, and without one it is a volume. And the file's text.
fn of_info(args: &Args, path: &Path, scale: u64) -> Result<(Card, Vec<u8>), Fault> {
    let kind = kind(args)?;
    let (mut card, text) = read_info(path, scale)?;
    card.sharding.kind = kind.unwrap_or(card.sharding.kind);
    Ok((card, text))
}

/// Reads the card of a deposit.
fn read_card(path: &Path) -> Result<Card, Fault> {
    read_whole(path)
        .and_then(|bytes| card_in(path, &bytes))
        .map_err(|fault| fault.of_settings("card"))
}

/// Reads the settings of a scale from an info file.
fn read_info(path: &Path, scale: u64) -> Result<(Card, Vec<u8>), Fault> {
    read_whole(path)
        .and_then(|text| Ok((info_in(path, &text, scale)?, text)))
        .map_err(|fault| fault.of_settings("info"))
}

/// The settings of a scale in the text of an info file.
pub fn info_in(path: &Path, text: &[u8], scale: u64) -> Result<Card, Fault> {
    if text.len() as u64 >= MOST_BYTES {
        // It was read only so far, and what was read may say something else.
        let message = format!("{}: longer than 1 GiB, and not read", shown(path));
        return Err(Fault::wrong_use(message));
    }
    let card = Card::read_info(text, scale);
    card.explain(path, |refusal| diagnosis::of_info(text, scale, refusal))
}

/// The card in a file's bytes.
pub fn card_in(path: &Path, bytes: &[u8]) -> Result<Card, Fault> {
    let card = Card::read(bytes);
    card.explain(path, |refusal| diagnosis::of_card(bytes, refusal))
}

/// The options of the sharding. Without a kind it is a volume, as in a card.
fn sharding(args: &Args) -> Result<Sharding, Fault> {
    let field = |option: Opt| decimal(args.needed(option)?, option.name(), U8);
    Ok(Sharding {
        preshift: field(PRESHIFT)?,
        hash: hash(args.needed(HASH)?)?,
        minishard_bits: field(MINISHARD_BITS)?,
        shard_bits: field(SHARD_BITS)?,
        kind: kind(args)?.unwrap_or(Sharding::VOLUME),
    })
}

/// The number of the kind that is given, by its name.
fn kind(args: &Args) -> Result<Option<u8>, Fault> {
    let Some(word) = args.value(KIND) else {
        return Ok(None);
    };
    match word.to_str() {
        Some("volume") => Ok(Some(Sharding::VOLUME)),
        Some("mesh") => Ok(Some(Sharding::MESH)),
        _ => Err(Fault::wrong_use(format!(
            "{KIND}: '{}' is neither volume nor mesh",
            shown(Path::new(word))
        ))),
    }
}

/// The number of a hash, by its name: the archive's or the published format's.
fn hash(word: &OsStr) -> Result<u8, Fault> {
    match word.to_str() {
        Some("identity") => Ok(0),
        Some("murmur" | "murmurhash3_x86_128") => Ok(1),
        _ => Err(Fault::wrong_use(format!(
            "{HASH}: '{}' is neither identity nor murmur (murmurhash3_x86_128)",
            shown(Path::new(word))
        ))),
    }
}

/// The options of the volume. Without an offset it is 0,0,0, as in a card.
fn extents(args: &Args) -> Result<Volume, Fault> {
    let three = |option: Opt| triple(args.needed(option)?, option.name(), U32);
    let extents = |[x, y, z]: [u32; 3]| Extents { x, y, z };
    let [x, y, z] = match args.value(OFFSET) {
        Some(word) => triple(word, OFFSET.name(), I32)?,
        None => [0; 3],
    };
    Ok(Volume {
        size: extents(three(SIZE)?),
        chunk: extents(three(CHUNK)?),
        offset: Offset { x, y, z },
    })
}

#[cfg(test)]
mod tests {
    use super::*;
    use std::ffi::OsString;

    const SHARDING: &str = "--preshift 1 --hash murmur --minishard-bits 2 --shard-bits 3";
    const VOLUME: &str = "--size 100,90,80 --chunk 64,32,16";

    fn args(line: &str) -> Args {
        let words: Vec<OsString> = line.split_whitespace().map(OsString::from).collect();
        Args::parse(&words, &[OPTIONS]).unwrap()
    }

    fn complaint<T: std::fmt::Debug>(read: Result<T, Fault>, status: u8) -> String {
        let fault = read.unwrap_err();
        assert_eq!(fault.status() as u8, status);
        fault.to_string()
    }

    const ALLOWED: Sharding = Sharding {
        preshift: 1,
        hash: 1,
        minishard_bits: 2,
        shard_bits: 3,
        kind: Sharding::VOLUME,
    };
    const MESH: Sharding = Sharding {
        kind: Sharding::MESH,
        ..ALLOWED
    };

    #[test]
    fn plain_options() {
        let settings = of_shards(&args(SHARDING)).unwrap();
        assert_eq!((settings.sharding, settings.volume), (ALLOWED, None));
        let all = args(&format!("{SHARDING} {VOLUME} --offset -64,0,7"));
        let (sharding, found) = of_cells(&all).unwrap();
        assert_eq!(sharding, ALLOWED);
        assert_eq!(found, Volume::new([100, 90, 80], [64, 32, 16], [-64, 0, 7]));
        assert_eq!(of_shards(&all).unwrap().volume, Some(found));
        assert_eq!(volume(&all).unwrap(), found);
        let published = args(&SHARDING.replace("murmur", "murmurhash3_x86_128"));
        assert_eq!(of_shards(&published).unwrap().sharding, ALLOWED);
        let of_kind = |kind: &str| of_shards(&args(&format!("{SHARDING} --kind {kind}")));
        assert_eq!(of_kind("volume").unwrap().sharding, ALLOWED);
        assert_eq!(of_kind("mesh").unwrap().sharding, MESH);
        assert_eq!(
            complaint(of_kind("net"), 2),
            "--kind: 'net' is neither volume nor mesh"
        );
        let without_offset = volume(&args(VOLUME)).unwrap();
        assert_eq!(without_offset.offset, Offset::default());
    }

    #[test]
    fn missing_settings_are_named_exactly() {
        let missing = |line: &str| complaint(of_cells(&args(line)), 2);
        let named = |names: &str| {
            format!(
                "settings are never assumed; missing: {names} (a deposit card gives them all: \
                 --card FILE; so does an info file: --info FILE --scale K)"
            )
        };
        assert_eq!(
            missing("--preshift 1 --shard-bits 3 --chunk 1,1,1"),
            named("--hash, --minishard-bits, --size")
        );
        assert_eq!(missing(SHARDING), named("--size, --chunk"));
        let begun = args(&format!("{SHARDING} --offset 0,0,0"));
        assert_eq!(complaint(of_shards(&begun), 2), named("--size, --chunk"));
        for line in ["", "--kind mesh"] {
            assert_eq!(
                complaint(of_shards(&args(line)), 2),
                named("--preshift, --hash, --minishard-bits, --shard-bits")
            );
        }
    }

    #[test]
    fn values_that_do_not_fit_are_wrong_use() {
        let told = |from, to| complaint(of_shards(&args(&SHARDING.replace(from, to))), 2);
        assert_eq!(
            told("--preshift 1", "--preshift 256"),
            "--preshift: '256' is not a number from 0 to 255"
        );
        assert_eq!(
            told("murmur", "md5"),
            "--hash: 'md5' is neither identity nor murmur (murmurhash3_x86_128)"
        );
        let volume = |from, to| complaint(volume(&args(&VOLUME.replace(from, to))), 2);
        assert!(volume("100,", "4294967296,").starts_with("--size: '4294967296' is not"));
        assert!(volume("64,32,16", "64,32").starts_with("--chunk: '64,32' is not three"));
    }

    #[test]
    fn values_that_fit_go_to_the_library() {
        let told = complaint(
            of_shards(&args(&SHARDING.replace("--preshift 1", "--preshift 64"))),
            1,
        );
        assert!(told.starts_with("settings: refused 1: "), "{told}");
        let told = complaint(volume(&args(&VOLUME.replace("100,", "0,"))), 1);
        assert!(told.starts_with("settings: refused 2: "), "{told}");
        let wide = args(&format!(
            "{SHARDING} --size 4294967295,4294967295,4294967295 --chunk 1,1,1"
        ));
        let told = complaint(of_cells(&wide), 1);
        assert!(told.starts_with("settings: refused 3: "), "{told}");
        assert!(volume(&wide).is_ok());
    }

    #[test]
    fn a_card_or_options_but_not_both() {
        let both = complaint(of_shards(&args("--card a --hash murmur")), 2);
        assert_eq!(
            both,
            "--card and --hash are given together; a card already says it"
        );
        let told = |line: &str| complaint(of_shards(&args(line)), 2);
        assert_eq!(
            told("--card a --info b --scale 0"),
            "--card and --info are given together; a card already says it"
        );
        assert_eq!(
            told("--info a --scale 0 --size 1,1,1"),
            "--info and --size are given together; an info file already says it"
        );
        assert_eq!(
            told("--info a"),
            "settings are never assumed; missing: --scale, the number of the info file's scale, from 0"
        );
        assert_eq!(told("--scale 0"), "--scale is given without --info");
        assert!(told("--info a --scale -1").starts_with("--scale: '-1' is not a number"));
        assert_eq!(
            complaint(for_card(&args("--scale 0")), 2),
            told("--scale 0")
        );
        assert!(!FOR_CARD.contains(&CARD));
        assert_eq!(INFO_OPTIONS, [INFO, SCALE]);
        assert_eq!(PLAIN_OPTIONS.len(), OPTIONS.len() - 4);
        assert!(!PLAIN_OPTIONS.contains(&KIND) && !PLAIN_OPTIONS.contains(&SCALE));
    }

    /// A cell's key is the id of its chunk in a volume, and of nothing in a mesh.
    #[test]
    fn a_mesh_has_no_cells() {
        let told = complaint(
            of_cells(&args(&format!("{SHARDING} {VOLUME} --kind mesh"))),
            2,
        );
        assert!(
            told.starts_with("these are the settings of a mesh: "),
            "{told}"
        );
        let given = args(&format!("{SHARDING} {VOLUME} --kind mesh"));
        assert!(volume(&given).is_ok() && of_shards(&given).is_ok());
    }

    #[test]
    fn an_info_file_gives_all() {
        let folder = crate::trial::Folder::new("settings-info");
        let text = r#"{"scales": [{"size": [9, 9, 9]},
            {"size": [100, 90, 80], "chunk_sizes": [[64, 32, 16]], "voxel_offset": [-64, 0, 7],
             "sharding": {"@type": "neuroglancer_uint64_sharded_v1", "preshift_bits": 1,
                "hash": "murmurhash3_x86_128", "minishard_bits": 2, "shard_bits": 3}}]}"#;
        let path = folder.write("info", text.as_bytes());
        let given = |scale: u64| args(&format!("--info {} --scale {scale}", path.display()));
        let volume = Volume::new([100, 90, 80], [64, 32, 16], [-64, 0, 7]);
        assert_eq!(of_cells(&given(1)).unwrap(), (ALLOWED, volume));
        assert_eq!(of_shards(&given(1)).unwrap().volume, Some(volume));
        let card = for_card(&given(1)).unwrap();
        assert_eq!((card.sharding, card.volume), (ALLOWED, volume));
        let of_kind = |kind: &str| {
            args(&format!(
                "--info {} --scale 1 --kind {kind}",
                path.display()
            ))
        };
        assert_eq!(of_shards(&of_kind("mesh")).unwrap().sharding, MESH);
        assert_eq!(for_card(&of_kind("mesh")).unwrap().sharding, MESH);
        assert_eq!(of_shards(&of_kind("volume")).unwrap().sharding, ALLOWED);
        let told = complaint(of_shards(&given(0)), 1);
        assert!(told.contains("info: refused 20: "), "{told}");
        assert!(
            told.contains("look at: line 1, column 13 (byte 12)"),
            "{told}"
        );
        let told = complaint(for_card(&given(2)), 1);
        assert!(told.contains("found: 2 scales, numbers 0 to 1"), "{told}");
        folder.write("info", b"{\"scales\": [\n}");
        let told = complaint(of_shards(&given(1)), 1);
        assert!(told.contains("info: refused 19: "), "{told}");
        assert!(
            told.contains("look at: line 2, column 1 (byte 13)"),
            "{told}"
        );
    }

    #[test]
    fn a_card_gives_all() {
        let card = Card {
            sharding: ALLOWED,
            volume: Volume::new([100, 90, 80], [64, 32, 16], [-64, 0, 7]),
        };
        let folder = crate::trial::Folder::new("settings-card");
        let path = folder.write("card", &card.to_bytes().unwrap());
        let given = args(&format!("--card {}", path.display()));
        assert_eq!(of_cells(&given).unwrap(), (card.sharding, card.volume));
        assert_eq!(of_shards(&given).unwrap().volume, Some(card.volume));
        let of_kind =
            |kind: &str| of_shards(&args(&format!("--card {0} --kind {kind}", path.display())));
        assert_eq!(of_kind("volume").unwrap().sharding, ALLOWED);
        let told = complaint(of_kind("mesh"), 2);
        let expected = format!(
            "--kind mesh is given, but {} is the card of a volume",
            path.display()
        );
        assert_eq!(told, expected);
        let mesh = Card {
            sharding: MESH,
            ..card
        };
        folder.write("card", &mesh.to_bytes().unwrap());
        assert_eq!(of_shards(&given).unwrap().sharding, MESH);
        assert_eq!(of_kind("mesh").unwrap().sharding, MESH);
        assert!(complaint(of_kind("volume"), 2).ends_with("is the card of a mesh"));
        folder.write("card", b"{\"size\": 1}");
        let told = complaint(of_shards(&given), 1);
        assert!(told.contains("card: refused 14: "), "{told}");
        assert!(told.contains("found: tag 123"), "{told}");
    }
}
