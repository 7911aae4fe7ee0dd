//! Shards of the earlier edition, an index file and a data file each. Whatever is
//! told of a pair is what is told of the file that the two make, and that is held
//! to the independent program elsewhere; what a pair alone has is held to it here.

use crate::json::Json;
use crate::shards::{example, options, ONE};
use crate::support::{Folder, Run};
use reference::names::{data_name, index_name, shard_name};
use reference::pair::{Held, Pair};
use reference::settle::{content_of, form_of};
use reference::shard;
use reference::sharding::Sharding;
use std::collections::BTreeMap;
use std::fs;
use std::os::unix::fs::symlink;
use testkit::shards::Difference;
use testkit::{meshes, shards, Rng};

/// 16 shards of 4 minishards.
const SHARDING: Sharding = Sharding {
    preshift: 1,
    hash: 0,
    minishard_bits: 2,
    shard_bits: 4,
    kind: 0,
};

/// Joined files by shard number.
type Files = BTreeMap<u64, Vec<u8>>;

fn seam(sharding: &Sharding) -> usize {
    16 << sharding.minishard_bits
}

/// Writes the two files of a shard into a folder of this name.
fn store_pair(folder: &Folder, under: &str, sharding: &Sharding, number: u64, file: &[u8]) {
    let (index, data) = file.split_at(seam(sharding));
    let [index_name, data_name] =
        [index_name, data_name].map(|name| name(sharding, number).expect("a shard's name"));
    folder.write(format!("{under}/{index_name}"), index);
    folder.write(format!("{under}/{data_name}"), data);
}

/// Writes its one file.
fn store_file(folder: &Folder, under: &str, sharding: &Sharding, number: u64, file: &[u8]) {
    let name = shard_name(sharding, number).expect("a shard's name");
    folder.write(format!("{under}/{name}"), file);
}

/// A shard for each number, some of them damaged behind the shard index.
fn files(rng: &mut Rng) -> Files {
    let file = |number| {
        let content = shards::content(rng, &SHARDING, number, 12);
        let mut file = shards::lay_out(rng, &SHARDING, &content);
        if rng.once_in(3) {
            let length = file.len();
            shards::damage(rng, &SHARDING, &mut file);
            file.resize(length.max(seam(&SHARDING)), 0);
        }
        (number, file)
    };
    (0..16).map(file).collect()
}

/// The settled form of a sound shard.
fn form(number: u64, file: &[u8]) -> Option<Vec<u8>> {
    let content = content_of(&SHARDING, number, file).ok()?;
    Some(form_of(&SHARDING, &content))
}

/// A folder with the shards in one file each, in `files`, and in two, in `pairs`.
fn both(files: &Files) -> Folder {
    let folder = Folder::new();
    for (number, file) in files {
        store_file(&folder, "files", &SHARDING, *number, file);
        store_pair(&folder, "pairs", &SHARDING, *number, file);
    }
    folder
}

/// The lines of an answer, pairs under the names of files. What a pair's refusal
/// says about the joined file is said as of a file.
fn as_of_files(run: &Run) -> Vec<String> {
    let mut lines = Vec::new();
    for line in run.lines() {
        let mut line = line.replace("pairs/", "files/").replace(".index", ".shard");
        line = line.replace("the joined file", "the file");
        line = line.replace("of the index file (", "of the file (");
        if let Some((front, rest)) = line.split_once(", byte ") {
            if let Some((_, behind)) = rest.split_once(" of the data file (") {
                line = format!("{front} ({behind}");
            }
        }
        lines.push(line);
    }
    lines
}

#[test]
fn pairs_are_checked_as_the_joined_files() {
    let (mut sound, mut refused) = (0, 0);
    for seed in 0..6 {
        let files = files(&mut Rng::new(10_100 + seed));
        let folder = both(&files);
        for more in ["", " --unlisted"] {
            let line = |what| format!("check {what}{more} {}", options(&SHARDING));
            let (pairs, joined) = (
                folder.run_line(&line("pairs")),
                folder.run_line(&line("files")),
            );
            assert_eq!(as_of_files(&pairs), joined.lines(), "{pairs}\n{joined}");
            assert_eq!(pairs.status, joined.status);
        }
        let verdicts = files
            .iter()
            .map(|(n, file)| shard::check(&SHARDING, *n, file));
        let (good, bad): (Vec<_>, Vec<_>) = verdicts.partition(|verdict| verdict.is_ok());
        sound += good.len();
        refused += bad.len();
    }
    assert!(sound > 20 && refused > 10, "{sound} {refused}");
}

/// In a pair's refusal the byte is told in the joined file and in its own.
#[test]
fn a_refusal_tells_the_byte_in_its_own_file() {
    let folder = Folder::new();
    let mut file = example();
    // The second id step, 13 bytes behind the shard index, and the start of the
    // second entry of the shard index.
    file[45..53].fill(0);
    store_pair(&folder, "ids", &ONE, 0, &file);
    let run = folder.run_line(&format!("check ids {}", options(&ONE)));
    run.expect_status(1).expect_line(
        "  look at: byte 45 of the joined file, byte 13 of the data file (id steps of minishard 0)",
    );
    file[16] = 1;
    file[0..16].fill(0);
    store_pair(&folder, "entry", &ONE, 0, &file);
    let run = folder.run_line(&format!("check entry {}", options(&ONE)));
    run.expect_status(1).expect_line(
        "  look at: byte 16 of the index file (shard index, entry of minishard 1: start, then end)",
    );
    let run = folder.run_line(&format!("check entry --json {}", options(&ONE)));
    let object = Json::read(run.lines()[0]).expect("JSON");
    assert_eq!(object.text("path"), Some("entry/0.index"));
    assert_eq!(object.number("byte"), Some("16"));
}

#[test]
fn a_pair_is_settled_into_one_file() {
    let files = files(&mut Rng::new(10_110));
    let folder = both(&files);
    let words = options(&SHARDING);
    for (what, out) in [("pairs", "from-pairs"), ("files", "from-files")] {
        let line = format!("settle {what} --out {out} --drop-unlisted {words}");
        folder.run_line(&line).expect_status(1);
    }
    assert_eq!(folder.names("from-pairs"), folder.names("from-files"));
    let mut settled = 0;
    for (number, file) in &files {
        let name = shard_name(&SHARDING, *number).expect("a name");
        if let Some(form) = form(*number, file) {
            assert_eq!(folder.read(format!("from-pairs/{name}")), form);
            settled += 1;
        }
    }
    assert_eq!(folder.names("from-pairs").len(), settled);
    assert!(settled > 3 && settled < 16);
    // One pair by either of its files.
    let sound = |(number, file): (&u64, &Vec<u8>)| Some((*number, form(*number, file)?));
    let (number, form) = files.iter().find_map(sound).expect("a sound shard");
    for ending in ["index", "data"] {
        let line =
            format!("settle pairs/{number:x}.{ending} --out {ending} --drop-unlisted {words}");
        folder.run_line(&line).expect_status(0);
        assert_eq!(folder.read(ending), form);
    }
    // A run goes on where it was stopped.
    fs::remove_file(folder.at(format!("from-pairs/{number:x}.shard"))).expect("removed");
    let run = folder.run_line(&format!(
        "settle pairs --out from-pairs --drop-unlisted {words}"
    ));
    let again = settled - 1;
    let last = run.lines().pop().expect("a summary").to_string();
    let begins = format!("16 shards: 1 settled, {again} already there, ");
    assert!(last.starts_with(&begins), "{run}");
}

/// Neither file of a pair is ever an output.
#[test]
fn the_files_of_a_pair_are_spared() {
    let folder = Folder::new();
    store_pair(&folder, "pairs", &ONE, 0, &example());
    let words = options(&ONE);
    for line in [
        "settle pairs/0.index --out pairs/0.data --force",
        "settle pairs/0.index --out pairs/0.index --force",
        "settle pairs/0.data --out pairs/0.index --force",
        "settle pairs --out pairs --force",
        "get pairs 4 --out pairs/0.data --force",
        "get pairs/0.data 4 --out pairs/0.index --force",
        "range pairs/0.data 0 4 --out pairs/0.index --force",
        "range pairs/0.index 0 4 --out pairs/0.data --force",
    ] {
        folder.run_line(&format!("{line} {words}")).expect_status(2);
    }
    assert_eq!(folder.read("pairs/0.index"), example()[..32]);
    assert_eq!(folder.read("pairs/0.data"), example()[32..]);
    assert_eq!(folder.names("pairs"), ["0.data", "0.index"]);
}

#[test]
fn editions_are_compared() {
    let rng = &mut Rng::new(10_120);
    let folder = Folder::new();
    let (mut files, mut differing) = (Files::new(), 0);
    for number in 0..16 {
        let content = shards::content(rng, &SHARDING, number, 12);
        store_pair(
            &folder,
            "pairs",
            &SHARDING,
            number,
            &shards::lay_out(rng, &SHARDING, &content),
        );
        let change = rng.once_in(4);
        let other = shards::differing(rng, &SHARDING, number, &content, Difference::Added);
        let other = match other {
            Some(other) if change => {
                differing += 1;
                other
            }
            _ => content,
        };
        files.insert(number, shards::lay_out(rng, &SHARDING, &other));
    }
    for (number, file) in &files {
        store_file(&folder, "files", &SHARDING, *number, file);
        store_pair(&folder, "others", &SHARDING, *number, file);
    }
    let words = options(&SHARDING);
    let told = |run: &Run| {
        let name = |line: &str| line.replace(".index", ".shard");
        run.lines().into_iter().map(name).collect::<Vec<String>>()
    };
    let mixed = folder.run_line(&format!("same pairs files {words}"));
    let pairs = folder.run_line(&format!("same pairs others {words}"));
    assert_eq!(told(&mixed), told(&pairs));
    assert!(mixed.lines()[0].starts_with("0.shard: "), "{mixed}");
    assert!(pairs.lines()[0].starts_with("0.index: "), "{pairs}");
    let found = mixed
        .lines()
        .iter()
        .filter(|line| line.contains(": different: "))
        .count();
    assert!(found > 1 && found == differing, "{mixed}");
    folder
        .run_line(&format!("same files others {words}"))
        .expect_status(0);
    folder
        .run_line(&format!("same files/3.shard others/3.data {words}"))
        .expect_status(0)
        .expect_line("3.shard: same");
    let one = folder.run_line(&format!("same others/3.index others/3.data {words}"));
    assert!(
        one.expect_status(0).stderr.contains("one and the same"),
        "{one}"
    );
}

#[test]
fn chunks_and_lists() {
    let (mut got, mut refused) = (0, 0);
    for seed in 0..3 {
        let files = files(&mut Rng::new(10_130 + seed));
        let folder = both(&files);
        let words = options(&SHARDING);
        for number in files.keys() {
            let listed = |path: &str| folder.run_line(&format!("list {path} {words}"));
            let joined = listed(&format!("files/{number:x}.shard"));
            let pair = listed(&format!("pairs/{number:x}.data"));
            assert_eq!(pair.lines(), joined.lines());
            assert_eq!(pair.status, joined.status);
            for line in joined.lines().iter().skip(1).take(3) {
                let id = line.split(' ').next().expect("an id");
                let get = |under: &str| folder.run_line(&format!("get {under} {id} {words}"));
                let (pair, joined) = (get("pairs"), get("files"));
                assert_eq!((pair.stdout, pair.status), (joined.stdout, joined.status));
                got += 1;
            }
            refused += usize::from(joined.status == Some(1));
        }
    }
    assert!(got > 60 && refused > 3, "{got} {refused}");
}

#[test]
fn meshes_in_two_files() {
    let rng = &mut Rng::new(10_140);
    let mut fragments = 0;
    for _ in 0..8 {
        let sample = meshes::sound(rng, 6);
        let (sharding, number) = (sample.sharding, sample.number);
        let (folder, words) = (Folder::new(), options(&sample.sharding));
        store_file(&folder, "files", &sharding, number, &sample.file);
        store_pair(&folder, "pairs", &sharding, number, &sample.file);
        let path = |name: Result<String, u8>| name.expect("a name");
        let index = path(index_name(&sharding, number));
        let file = path(shard_name(&sharding, number));
        for more in ["", " --fragments"] {
            let pair = folder.run_line(&format!("list pairs/{index}{more} {words}"));
            let joined = folder.run_line(&format!("list files/{file}{more} {words}"));
            assert_eq!(
                pair.expect_status(0).lines(),
                joined.expect_status(0).lines()
            );
            fragments += if more.is_empty() {
                0
            } else {
                pair.lines().len() - 1
            };
            for line in pair
                .lines()
                .iter()
                .skip(1)
                .take(3)
                .filter(|_| !more.is_empty())
            {
                let words_of: Vec<&str> = line.split(' ').collect();
                let [id, _, level, node, start, length] = words_of[..] else {
                    panic!("{line}");
                };
                let line = format!("get pairs {id} --fragment {level},{node} {words}");
                let run = folder.run_line(&line);
                let [start, length] =
                    [start, length].map(|n| n.parse::<usize>().expect("a number"));
                assert_eq!(run.expect_status(0).stdout, sample.file[start..][..length]);
            }
        }
        folder
            .run_line(&format!("same pairs files {words}"))
            .expect_status(0);
    }
    assert!(fragments > 20, "{fragments}");
}

#[test]
fn ranges() {
    let folder = Folder::new();
    let file: Vec<u8> = example();
    store_pair(&folder, "pairs", &ONE, 0, &file);
    let pair = Pair::cut(&file, 32);
    let words = options(&ONE);
    let ends = [0, 1, 16, 31, 32, 33, 60, 84, 85, 86, u64::MAX];
    for start in ends {
        for end in ends {
            let expected = pair.range(&ONE, start, end);
            let either = if start % 2 == 0 { "index" } else { "data" };
            let line = format!("range pairs/0.{either} {start} {end} {words}");
            let run = folder.run_line(&line);
            let placed = folder.run_line(&format!("{line} --place"));
            let (name, held) = match expected {
                Err(number) => {
                    assert_eq!(number, 24);
                    run.expect_status(1);
                    placed.expect_status(1);
                    assert!(run.stdout.is_empty(), "{run}");
                    let told = "pairs/0.index: refused 24: The range crosses the seam";
                    assert!(run.stderr.starts_with(told), "{run}");
                    assert_eq!(run.stderr, placed.stderr);
                    continue;
                }
                Ok(Held::Index(held)) => ("index", held),
                Ok(Held::Data(held)) => ("data", held),
            };
            assert_eq!(
                run.expect_status(0).stdout,
                file[start as usize..end as usize]
            );
            let length = held.end - held.start;
            let bytes = if length == 1 { "byte" } else { "bytes" };
            let told = format!("pairs/0.{name}: byte {}, {length} {bytes}", held.start);
            assert_eq!(placed.expect_status(0).lines(), [told]);
        }
    }
    // A range is asked without a shard's name or number.
    for (name, bytes) in [("any.index", &file[..32]), ("any.data", &file[32..])] {
        folder.write(name, bytes);
    }
    let run = folder.run_line(&format!("range any.data 34 37 --out chunk {words}"));
    assert!(run.expect_status(0).stdout.is_empty());
    assert_eq!(folder.read("chunk"), b"cde");
    let run = folder.run_line(&format!("range any.data 34 37 --place --json {words}"));
    let object = Json::read(run.expect_status(0).lines()[0]).expect("JSON");
    assert_eq!(object.text("path"), Some("any.data"));
    assert_eq!(object.text("result"), Some("held"));
    assert_eq!(object.text("file"), Some("data"));
    let numbers = ["start", "length"].map(|name| object.number(name).map(str::to_string));
    assert_eq!(numbers, [Some("2".to_string()), Some("3".to_string())]);
}

#[test]
fn what_a_refused_range_says() {
    let folder = Folder::new();
    store_pair(&folder, "pairs", &ONE, 0, &example());
    let words = options(&ONE);
    let look_at =
        "  look at: the index file is bytes 0 to 32 of the joined file and the data file \
                   bytes 32 to 85, each end excluded";
    for (range, found, expected) in [
        (
            "31 33",
            "bytes 31 to 33 cross the seam at byte 32",
            "bytes 31 to 32 and bytes 32 to 33, one after the other",
        ),
        (
            "9 8",
            "start 9 is after end 8",
            "a start that is at most the end",
        ),
        (
            "80 86",
            "end 86, the joined file ends at byte 85",
            "an end of at most 85",
        ),
    ] {
        let run = folder.run_line(&format!("range pairs/0.index {range} {words}"));
        let lines: Vec<&str> = run.expect_status(1).stderr.lines().collect();
        assert_eq!(lines[1], format!("  found: {found}"));
        assert_eq!(lines[2], format!("  expected: {expected}"));
        assert_eq!(lines[3], look_at);
    }
}

/// 23 is told by all commands, with the lengths.
#[test]
fn an_index_file_of_another_length() {
    let folder = Folder::new();
    let file = example();
    folder.write("short/0.index", &file[..31]);
    folder.write("short/0.data", &file[31..]);
    folder.write("long/0.index", vec![0; 3 << 20]);
    folder.write("long/0.data", b"");
    folder.write("swapped/0.index", &file[32..]);
    folder.write("swapped/0.data", &file[..32]);
    let words = options(&ONE);
    let line = "refused 23: The index file of a pair is not exactly as long as the shard index.";
    for (under, found) in [
        ("short", "an index file of 31 bytes"),
        ("long", "an index file of at least 1048577 bytes"),
        ("swapped", "an index file of 53 bytes"),
    ] {
        let run = folder.run_line(&format!("check {under} {words}"));
        run.expect_status(1)
            .expect_line(&format!("{under}/0.index: {line}"))
            .expect_line(&format!("  found: {found}"))
            .expect_line("  expected: exactly 32 bytes: 16 for each of 2 minishards");
        let told: Vec<&str> = run.lines()[..4].to_vec();
        assert_eq!(told[3].contains("exchanged?"), under == "swapped", "{run}");
        for asked in ["get PAIR 4", "list PAIR", "range PAIR 9 3"] {
            let asked = asked.replace("PAIR", &format!("{under}/0.data"));
            let run = folder.run_line(&format!("{asked} {words}"));
            let lines: Vec<&str> = run.expect_status(1).stderr.lines().collect();
            assert_eq!(lines, told, "{run}");
        }
        let run = folder.run_line(&format!("settle {under} --out out {words}"));
        assert_eq!(run.expect_status(1).lines()[..4], told);
        assert!(folder.names("out").is_empty());
    }
    let run = folder.run_line(&format!("same short swapped {words}"));
    assert_eq!(
        run.expect_status(1).text().matches("refused 23").count(),
        2,
        "{run}"
    );
}

#[test]
fn too_long_together() {
    let folder = Folder::for_holes();
    folder.write("pairs/0.index", [0; 32]);
    let data = folder.write("pairs/0.data", b"");
    let long = fs::File::options().write(true).open(data).expect("opened");
    long.set_len((1 << 30) - 31).expect("a sparse file");
    let words = options(&ONE);
    for line in ["check pairs", "range pairs/0.index 0 4"] {
        let run = folder.run_line(&format!("{line} {words}"));
        run.expect_status(1);
        let told = format!("{}{}", run.text(), run.stderr);
        assert!(told.starts_with("pairs/0.index: refused 6: "), "{run}");
        assert!(
            told.contains("two files of more than 1073741824 bytes together"),
            "{run}"
        );
    }
    long.set_len((1 << 30) - 32).expect("a sparse file");
    folder
        .run_line(&format!("check pairs {words}"))
        .expect_status(0);
}

/// Half a pair, and a shard in both editions: told, and nothing is guessed.
#[test]
fn unclear_files() {
    let folder = Folder::new();
    let sharding = Sharding {
        shard_bits: 2,
        ..ONE
    };
    let words = options(&sharding);
    let file = vec![0; 32];
    store_pair(&folder, "mixed", &sharding, 0, &file);
    folder.write("mixed/1.index", &file);
    folder.write("mixed/2.data", b"");
    store_pair(&folder, "mixed", &sharding, 3, &file);
    store_file(&folder, "mixed", &sharding, 3, &file);
    let told = [
        "mixed/1.index: half a pair, 1.data is missing",
        "mixed/2.data: half a pair, 2.index is missing",
        "mixed/3.shard: there in both editions, 3.shard and 3.index with 3.data; neither is read",
    ];
    let check = folder.run_line(&format!("check mixed {words}"));
    let mut lines = vec!["mixed/0.index: sound, 0 chunks, 32 bytes"];
    lines.extend(told);
    lines.push("4 shards: 1 sound, 0 refused, 2 with half a pair, 1 in both editions");
    assert_eq!(check.expect_status(1).lines(), lines);
    let settle = folder.run_line(&format!("settle mixed --out out {words}"));
    assert_eq!(settle.expect_status(1).lines()[1..4], told);
    assert_eq!(folder.names("out"), ["0.shard"]);

    for (number, id) in [(1, 2), (2, 4), (3, 6)] {
        // Ids 2, 4 and 6 belong to minishard 0 of shards 1, 2 and 3.
        let run = folder.run_line(&format!("get mixed {id} {words}"));
        assert!(run.expect_status(1).stdout.is_empty());
        assert_eq!(run.stderr, format!("{}\n", told[number - 1]));
    }
    for line in ["list mixed/1.index", "range mixed/1.index 0 1"] {
        let run = folder.run_line(&format!("{line} {words}"));
        assert_eq!(run.expect_status(1).stderr, format!("{}\n", told[0]));
    }
    // By its own name each edition is read.
    for path in ["mixed/3.shard", "mixed/3.index", "mixed/3.data"] {
        folder
            .run_line(&format!("check {path} {words}"))
            .expect_status(0);
    }
    let run = folder.run_line(&format!("check mixed --json {words}"));
    let objects: Vec<Json> = run
        .lines()
        .iter()
        .map(|line| Json::read(line).expect("JSON"))
        .collect();
    let results: Vec<Option<&str>> = objects.iter().map(|object| object.text("result")).collect();
    let expected = [
        "sound",
        "half a pair",
        "half a pair",
        "both editions",
        "folder",
        "summary",
    ];
    assert_eq!(results, expected.map(Some));
    assert_eq!(objects[5].number("half_pairs"), Some("2"));
    assert_eq!(objects[5].number("both_editions"), Some("1"));

    store_pair(&folder, "whole", &sharding, 0, &file);
    for number in 1..4 {
        store_file(&folder, "whole", &sharding, number, &file);
    }
    let same = folder.run_line(&format!("same mixed whole {words}"));
    assert_eq!(same.expect_status(1).lines()[1..4], told);
    let last = same.lines().pop().expect("a sentence").to_string();
    let begins = "It is not known whether the two hold the same chunks: 1 shard same, 0 different,";
    assert!(
        last.starts_with(begins) && last.ends_with("3 unclear by their files."),
        "{same}"
    );
}

#[test]
fn names_of_pairs_in_folders() {
    let folder = Folder::new();
    let words = options(&SHARDING);
    let file = vec![0; seam(&SHARDING)];
    store_pair(&folder, "deposit", &SHARDING, 3, &file);
    // Of another deposit, and no shard's at all.
    store_pair(
        &folder,
        "deposit",
        &Sharding {
            shard_bits: 8,
            ..SHARDING
        },
        4,
        &file,
    );
    folder.write("deposit/notes.data", b"notes");
    folder.write("deposit/book.index", b"book");
    let run = folder.run_line(&format!("check deposit {words}"));
    let lines = run.expect_status(1).lines();
    assert_eq!(
        lines[0],
        "deposit/04.index: not the name of a shard under this sharding (expected for example a.index)"
    );
    assert_eq!(lines[1], "deposit/3.index: sound, 0 chunks, 64 bytes");
    assert_eq!(
        lines[2],
        "deposit: 1 of 16 possible shards; not there: 0.shard, 1.shard, 2.shard, 4.shard, 5.shard \
         and 10 more"
            .replace(".shard,", ".index,")
            .replace(".shard and", ".index and")
    );
    assert_eq!(
        lines[3],
        "2 shards: 1 sound, 0 refused, 1 misnamed, 2 other files passed over"
    );
    // Both files of a pair on the command line are one shard.
    let run = folder.run_line(&format!("check deposit/3.data deposit/3.index {words}"));
    assert_eq!(
        run.expect_status(0).lines(),
        ["deposit/3.index: sound, 0 chunks, 64 bytes"]
    );
    let run = folder.run_line(&format!("list deposit/3.data deposit/3.index {words}"));
    assert_eq!(
        run.expect_status(0).lines(),
        ["deposit/3.index:", "ID MINISHARD START LENGTH"]
    );
    // Another name needs the number.
    folder.write("here.index", &file);
    folder.write("here.data", b"");
    folder
        .run_line(&format!("check here.data {words}"))
        .expect_status(2);
    let run = folder.run_line(&format!("check here.data --shard 9 {words}"));
    assert_eq!(
        run.expect_status(0).lines(),
        ["here.index: sound, 0 chunks, 64 bytes"]
    );
    for (more, lines) in [
        ("", vec!["a.shard"]),
        (" --pair", vec!["a.index", "a.data"]),
    ] {
        let run = folder.run_line(&format!("name --shard 10{more} {words}"));
        assert_eq!(run.expect_status(0).lines(), lines);
    }
}

/// Links are followed; a folder or a link that leads nowhere is told.
#[test]
fn odd_halves() {
    let folder = Folder::new();
    store_pair(&folder, "pairs", &ONE, 0, &example());
    folder.make("links");
    for name in ["0.index", "0.data"] {
        symlink(
            folder.at(format!("pairs/{name}")),
            folder.at(format!("links/{name}")),
        )
        .expect("a link");
    }
    let words = options(&ONE);
    folder
        .run_line(&format!("check links {words}"))
        .expect_status(0);
    fs::remove_file(folder.at("links/0.data")).expect("removed");
    symlink("nowhere", folder.at("links/0.data")).expect("a link");
    let run = folder.run_line(&format!("check links {words}"));
    assert!(
        run.expect_status(3)
            .stderr
            .contains("links/0.data: cannot be read"),
        "{run}"
    );
    let run = folder.run_line(&format!("check links --json {words}"));
    let object = Json::read(run.expect_status(3).lines()[0]).expect("JSON");
    assert_eq!(object.text("path"), Some("links/0.index"));
    assert_eq!(object.text("data"), Some("links/0.data"));
    fs::remove_file(folder.at("links/0.data")).expect("removed");
    folder.make("links/0.data");
    for line in ["check links", "get links 4", "check links/0.index"] {
        let run = folder.run_line(&format!("{line} {words}"));
        assert!(
            run.expect_status(3)
                .stderr
                .contains("links/0.data: cannot be read"),
            "{run}"
        );
    }
}

/// Chunks of a box come from pairs as from files.
#[test]
fn copies_from_pairs() {
    let folder = Folder::with_sample();
    for (deposit, out) in [("copy-c", "one"), ("pairs", "two")] {
        let line = format!(
            "cover 0,0,0 100,100,100 --deposit demo/{deposit} --out {out} --card demo/deposit.card"
        );
        folder.run_line(&line).expect_status(0);
    }
    let names = folder.names("one");
    assert!(names.len() > 5);
    assert_eq!(names, folder.names("two"));
    for name in names {
        assert_eq!(
            folder.read(format!("one/{name}")),
            folder.read(format!("two/{name}"))
        );
    }
    fs::remove_file(folder.at("demo/pairs/0.data")).expect("removed");
    let line = "cover 0,0,0 100,100,100 --deposit demo/pairs --out three --card demo/deposit.card";
    let run = folder.run_line(line);
    run.expect_status(1);
    assert!(
        run.stderr
            .contains("0.index: half a pair, 0.data is missing"),
        "{run}"
    );
    assert!(run.text().contains(" not read"), "{run}");
}
