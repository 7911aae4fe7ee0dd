//! The sample deposit: a small volume, sharded two ways, in three copies of
//! different layout and one of the earlier edition, a damaged copy, a mesh manifest,
//! a few nets in two copies, and labels. Its bytes are the same every time.

mod damage;
mod info;
mod labels;
mod layout;
mod mesh;
mod volume;

use coronagamba::{Card, Cell, Refusal, Shard, Sharding, Unlisted};
use layout::{Order, Shards};

/// The deposit's sharding: 8 shards of 2 minishards.
const DEPOSIT: Sharding = Sharding {
    preshift: 1,
    hash: 0,
    minishard_bits: 1,
    shard_bits: 3,
    kind: Sharding::VOLUME,
};

/// The same but for the hash: what a deposit looks like that is opened under
/// an assumed one.
const MURMUR: Sharding = Sharding { hash: 1, ..DEPOSIT };

/// The nets' sharding: 2 shards of 2 minishards.
const MESH: Sharding = Sharding {
    preshift: 0,
    hash: 1,
    minishard_bits: 1,
    shard_bits: 1,
    kind: Sharding::MESH,
};

/// The scales of the info file: a folder of shards and its sharding.
const SCALES: [(&str, &Sharding); 2] = [("copy-a", &DEPOSIT), ("murmur", &MURMUR)];

/// Something that the sample holds.
pub struct Part {
    /// Its name in the sample's folder.
    pub name: &'static str,
    /// What it is, in a line.
    pub about: String,
    /// Its files: one without a name of its own, or the files of a folder.
    pub files: Files,
}

/// The files of a part.
pub enum Files {
    /// The part is one file.
    One(Vec<u8>),
    /// The part is a folder of files, by name.
    Folder(Vec<(String, Vec<u8>)>),
}

/// All parts, in the order in which they are told.
pub fn parts() -> Result<Vec<Part>, Refusal> {
    let chunks = volume::chunks()?;
    let copy_b = layout::scattered(&DEPOSIT, &chunks, Order::Rising)?;
    let copy_c = layout::scattered(&DEPOSIT, &chunks, Order::Arrival)?;
    let copy_a = settled(&DEPOSIT, &copy_b)?;
    let damaged = damaged(copy_b.clone());
    let murmur = layout::scattered(&MURMUR, &chunks, Order::Rising)?;
    let mesh_b = layout::scattered(&MESH, &mesh::nets(), Order::Arrival)?;
    let mesh_a = settled(&MESH, &mesh_b)?;
    let pairs = copy_c.clone();
    let labelled = layout::scattered(&labels::SHARDING, &labels::chunks()?, Order::Rising)?;
    let labelled = settled(&labels::SHARDING, &labelled)?;
    let same_chunks = "the same chunks in another layout";
    let arrival = "the same chunks, listed in order of arrival";
    Ok(vec![
        card(
            "deposit.card",
            &DEPOSIT,
            "sharding and volume of the deposit",
        )?,
        folder("copy-a", &DEPOSIT, copy_a, "settled forms")?,
        folder("copy-b", &DEPOSIT, copy_b, same_chunks)?,
        folder("copy-c", &DEPOSIT, copy_c, arrival)?,
        pairs_folder("pairs", &DEPOSIT, pairs, "copy-c in the earlier edition")?,
        folder("damaged", &DEPOSIT, damaged, "copy-b from a failing disk")?,
        card("murmur.card", &MURMUR, "the same volume, another hash")?,
        folder("murmur", &MURMUR, murmur, "the same chunks under that hash")?,
        Part {
            name: "info",
            about: "an info file; scale 0 is copy-a, scale 1 is murmur".to_string(),
            files: Files::One(info::text(&SCALES).into_bytes()),
        },
        Part {
            name: "mesh.manifest",
            about: "a mesh manifest of 3 levels".to_string(),
            files: Files::One(mesh::manifest()),
        },
        card("mesh.card", &MESH, "sharding of the nets' meshes")?,
        folder("mesh-a", &MESH, mesh_a, "settled forms of the nets' meshes")?,
        folder("mesh-b", &MESH, mesh_b, "the same nets in another layout")?,
        Part {
            name: "labels.info",
            about: "an info file of labels; scale 0 is labels".to_string(),
            files: Files::One(labels::info().into_bytes()),
        },
        folder(
            "labels",
            &labels::SHARDING,
            labelled,
            "net numbers of voxels",
        )?,
        Part {
            name: "labels.chunk",
            about: "the chunk of its cell 0,0,0, of 16,16,16 voxels".to_string(),
            files: Files::One(labels::chunk(Cell::default())?),
        },
    ])
}

/// A card file.
fn card(name: &'static str, sharding: &Sharding, about: &str) -> Result<Part, Refusal> {
    let card = Card {
        sharding: *sharding,
        volume: volume::VOLUME,
    };
    Ok(Part {
        name,
        about: about.to_string(),
        files: Files::One(card.to_bytes()?),
    })
}

/// A folder of shards under their format's names.
fn folder(
    name: &'static str,
    sharding: &Sharding,
    shards: Shards,
    about: &str,
) -> Result<Part, Refusal> {
    let about = format!("{} shards, {about}", shards.len());
    let named = |(number, file)| Ok((sharding.shard_name(number)?, file));
    let files = shards
        .into_iter()
        .map(named)
        .collect::<Result<_, Refusal>>()?;
    Ok(Part {
        name,
        about,
        files: Files::Folder(files),
    })
}

/// A folder of shards of the earlier edition, each cut behind its shard index into
/// two files.
fn pairs_folder(
    name: &'static str,
    sharding: &Sharding,
    shards: Shards,
    about: &str,
) -> Result<Part, Refusal> {
    let about = format!("{} shards of two files each, {about}", shards.len());
    let seam = 16 << sharding.minishard_bits;
    let mut files = Vec::new();
    for (number, mut index) in shards {
        let data = index.split_off(seam);
        files.push((sharding.index_name(number)?, index));
        files.push((sharding.data_name(number)?, data));
    }
    Ok(Part {
        name,
        about,
        files: Files::Folder(files),
    })
}

/// The settled form of each shard.
fn settled(sharding: &Sharding, shards: &Shards) -> Result<Shards, Refusal> {
    let form = |(number, file): (&u64, &Vec<u8>)| {
        Ok((
            *number,
            Shard::open(*sharding, *number, file).settled(Unlisted::Drop)?,
        ))
    };
    shards.iter().map(form).collect()
}

/// The shards with a fault of a kind each: 0 and 6 are left whole, 5 stays
/// sound with other content, 7 is lost.
fn damaged(mut shards: Shards) -> Shards {
    let bits = DEPOSIT.minishard_bits;
    shards.remove(&7);
    for (number, file) in &mut shards {
        match number {
            1 => damage::reverse_entry(file, 1),
            2 => damage::repeat_id(file, bits, 0),
            3 => damage::stretch_last(file, bits, 1),
            4 => damage::cut(file),
            5 => damage::change_chunk(file, bits, 0),
            _ => {}
        }
    }
    shards
}

#[cfg(test)]
mod tests {
    use super::*;

    #[test]
    fn the_info_file_says_what_the_cards_say() {
        let text = info::text(&SCALES);
        for (scale, sharding) in [&DEPOSIT, &MURMUR].into_iter().enumerate() {
            let card = Card {
                sharding: *sharding,
                volume: volume::VOLUME,
            };
            assert_eq!(Card::read_info(text.as_bytes(), scale as u64), Ok(card));
        }
    }
}
