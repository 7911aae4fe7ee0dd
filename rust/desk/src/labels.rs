//! How the labels of a chunk are laid out, which no chunk says of itself: from
//! options, or from the info file of a deposit. As with all settings, nothing
//! is assumed.

use std::ffi::OsStr;
use std::path::Path;

use coronagamba::{Extents, LabelBits, LabelShape, Refusal};

use crate::args::{decimal, triple, Args, U32};
use crate::buffers::MOST_BYTES;
use crate::diagnosis::{self, InfoLabels};
use crate::fault::Fault;
use crate::files::read_whole;
use crate::options::{Opt, BITS, BLOCK, CHANNEL, CHANNELS, INFO, SIZE};
use crate::text::shown;

/// The options that give the layout of labels, whatever a chunk's extents are.
pub const OPTIONS: &[Opt] = &[BLOCK, CHANNELS, BITS];

/// The layout of labels in all chunks of a deposit.
#[derive(Clone, Copy, Debug, PartialEq, Eq)]
pub struct Layout {
    block: Extents,
    channels: u32,
    bits: LabelBits,
}

impl Layout {
    /// The shape of a chunk of these extents, which the library allows.
    pub fn over(self, size: impl Into<Extents>) -> Result<LabelShape, Fault> {
        allowed(LabelShape {
            size: size.into(),
            block: self.block,
            channels: self.channels,
            bits: self.bits,
        })
    }
}

/// The shape of a chunk's labels, all of it from options.
pub fn shape(args: &Args) -> Result<LabelShape, Fault> {
    complete(args, &[SIZE, BLOCK, CHANNELS, BITS], "")?;
    let size: [u32; 3] = triple(args.needed(SIZE)?, SIZE.name(), U32)?;
    from_options(args, InfoLabels::default())?.over(size)
}

/// The layout in a deposit, from options and from what its info file says,
/// where it has one.
pub fn layout(args: &Args, info: Option<InfoLabels>) -> Result<Layout, Fault> {
    let hint = match info {
        None => " (an info file of labels gives them all: --info FILE --scale K)",
        Some(_) => ", which the info file does not say",
    };
    let said = info.unwrap_or_default();
    let missing = [
        (BLOCK, said.block.is_none()),
        (CHANNELS, said.channels.is_none()),
        (BITS, said.bits.is_none()),
    ];
    for (option, open) in missing {
        if !open && args.flag(option) {
            return Err(Fault::wrong_use(format!(
                "{INFO} and {option} are given together; an info file already says it"
            )));
        }
    }
    let needed = missing.iter().filter(|(_, open)| *open);
    let needed: Vec<Opt> = needed.map(|(option, _)| *option).collect();
    complete(args, &needed, hint)?;
    from_options(args, said)
}

/// The channel that is asked for, the first where none is named.
pub fn channel(args: &Args) -> Result<u32, Fault> {
    match args.value(CHANNEL) {
        Some(word) => decimal(word, CHANNEL.name(), U32),
        None => Ok(0),
    }
}

/// The bytes of a chunk file. One that is longer than any shard is no chunk,
/// and it was read only so far.
pub fn read_chunk(path: &Path) -> Result<Vec<u8>, Fault> {
    let chunk = read_whole(path)?;
    if chunk.len() as u64 >= MOST_BYTES {
        let message = format!("{}: longer than 1 GiB, and not read", shown(path));
        return Err(Fault::wrong_use(message));
    }
    Ok(chunk)
}

/// All of these options are given. One complaint names those that are not.
fn complete(args: &Args, needed: &[Opt], hint: &str) -> Result<(), Fault> {
    let missing = needed.iter().filter(|option| !args.flag(**option));
    let missing: Vec<&str> = missing.map(|option| option.name()).collect();
    if missing.is_empty() {
        return Ok(());
    }
    Err(Fault::wrong_use(format!(
        "settings are never assumed; missing: {}{hint}",
        missing.join(", ")
    )))
}

/// What is not said yet, from options.
fn from_options(args: &Args, said: InfoLabels) -> Result<Layout, Fault> {
    Ok(Layout {
        block: match said.block {
            Some(block) => block.into(),
            None => Extents::from(triple::<u32>(args.needed(BLOCK)?, BLOCK.name(), U32)?),
        },
        channels: match said.channels {
            Some(channels) => channels,
            None => decimal(args.needed(CHANNELS)?, CHANNELS.name(), U32)?,
        },
        bits: match said.bits {
            Some(bits) => bits,
            None => bits(args.needed(BITS)?)?,
        },
    })
}

/// The width of a label.
fn bits(word: &OsStr) -> Result<LabelBits, Fault> {
    match word.to_str() {
        Some("32") => Ok(LabelBits::B32),
        Some("64") => Ok(LabelBits::B64),
        _ => Err(Fault::wrong_use(format!(
            "{BITS}: '{}' is neither 32 nor 64",
            shown(Path::new(word))
        ))),
    }
}

/// A shape that has voxels. It may have more than there is room for.
fn allowed(shape: LabelShape) -> Result<LabelShape, Fault> {
    match shape.unpacked_length() {
        Err(refusal) if refusal.number != Refusal::NO_ROOM => {
            let diagnosis = diagnosis::of_label_shape(&shape);
            Err(Fault::refused("settings", refusal, diagnosis))
        }
        _ => Ok(shape),
    }
}

#[cfg(test)]
mod tests {
    use super::*;
    use std::ffi::OsString;

    fn args(line: &str) -> Args {
        let words: Vec<OsString> = line.split_whitespace().map(OsString::from).collect();
        Args::parse(&words, &[OPTIONS, &[SIZE, CHANNEL]]).unwrap()
    }

    fn complaint<T: std::fmt::Debug>(read: Result<T, Fault>, status: u8) -> String {
        let fault = read.unwrap_err();
        assert_eq!(fault.status() as u8, status);
        fault.to_string()
    }

    const ALL: &str = "--size 9,8,7 --block 4,2,1 --channels 3 --bits 64";

    #[test]
    fn a_shape_from_options() {
        let expected = LabelShape::new([9, 8, 7], [4, 2, 1], 3, LabelBits::B64);
        assert_eq!(shape(&args(ALL)).unwrap(), expected);
        assert_eq!(channel(&args(ALL)).unwrap(), 0);
        assert_eq!(channel(&args("--channel 2")).unwrap(), 2);
        let told = complaint(shape(&args("--block 1,1,1 --bits 32")), 2);
        assert_eq!(
            told,
            "settings are never assumed; missing: --size, --channels"
        );
        let told = complaint(shape(&args(&ALL.replace("64", "16"))), 2);
        assert_eq!(told, "--bits: '16' is neither 32 nor 64");
    }

    #[test]
    fn a_shape_without_voxels_is_refused() {
        for (from, to, found) in [
            ("9,8,7", "9,0,7", "0 as size along y"),
            ("4,2,1", "0,2,0", "0 as block along x and block along z"),
            ("channels 3", "channels 0", "0 as channel count"),
        ] {
            let told = complaint(shape(&args(&ALL.replace(from, to))), 1);
            assert!(told.starts_with("settings: refused 2: "), "{told}");
            assert!(told.contains(&format!("  found: {found}\n")), "{told}");
        }
        let most = "--size 4294967295,4294967295,4294967295";
        assert!(shape(&args(&ALL.replace("--size 9,8,7", most))).is_ok());
    }

    #[test]
    fn an_info_file_or_options_but_not_both() {
        let said = InfoLabels {
            block: Some([4, 2, 1]),
            channels: Some(3),
            bits: Some(LabelBits::B64),
        };
        let options = args("--block 4,2,1 --channels 3 --bits 64");
        let expected = layout(&options, None).unwrap();
        assert_eq!(layout(&args(""), Some(said)).unwrap(), expected);
        let without = InfoLabels {
            block: None,
            ..said
        };
        let block = args("--block 4,2,1");
        assert_eq!(layout(&block, Some(without)).unwrap(), expected);
        assert_eq!(
            complaint(layout(&block, Some(said)), 2),
            "--info and --block are given together; an info file already says it"
        );
        assert_eq!(
            complaint(layout(&args(""), Some(without)), 2),
            "settings are never assumed; missing: --block, which the info file does not say"
        );
        assert_eq!(
            complaint(layout(&block, None), 2),
            "settings are never assumed; missing: --channels, --bits (an info file of labels gives \
             them all: --info FILE --scale K)"
        );
    }
}
