//! Times the proved library, through its C archive, against plain Rust.
//!
//! Prints a table with a line for each measure: the median processor time of
//! one operation on each side, the ratio library / plain over alternating
//! runs, its median and its middle half, and, where memory or processor set one, the
//! limit. Both sides do the same work with the same tests, and must give the
//! same answers. Words on the command line choose the measures whose group has
//! one of them: key, cover, place, shard, pair, intake, mesh, card, info, manifest,
//! label, locate, desk.

mod cards;
mod desk;
mod infos;
mod intakes;
mod keys;
mod labels;
mod locating;
mod manifests;
mod meshes;
mod pairs;
mod places;
mod runner;
mod shards;

use bench::clock;

/// The groups of measures, by the word that chooses them.
const GROUPS: [(&str, fn()); 13] = [
    ("key", keys::run_all),
    ("cover", places::run_covers),
    ("place", places::run_places),
    ("shard", shards::run),
    ("pair", pairs::run),
    ("intake", intakes::run),
    ("mesh", meshes::run),
    ("card", cards::run),
    ("info", infos::run),
    ("manifest", manifests::run),
    ("label", labels::run),
    ("locate", locating::run),
    ("desk", desk::run),
];

fn main() {
    let words: Vec<String> = std::env::args().skip(1).collect();
    let known = |word: &String| GROUPS.iter().any(|(name, _)| name == word);
    if let Some(word) = words.iter().find(|word| !known(word)) {
        let names = GROUPS.map(|(name, _)| name).join(" ");
        eprintln!("bench: no group of measures is named {word}; there are: {names}");
        std::process::exit(2);
    }
    runner::print_head();
    for (name, run) in GROUPS {
        if words.is_empty() || words.iter().any(|word| word == name) {
            run();
        }
    }
}
