//! The yearly holdings sheet. What it should say is added up here over the
//! independent program's answers, in numbers that cannot overflow.

use crate::json::Json;
use crate::shards::{example, options, ONE};
use crate::support::{Folder, Run};
use reference::names::{data_name, index_name, shard_name};
use reference::pair::Pair;
use reference::sharding::{Sharding, MESH, VOLUME};
use reference::{shard, unlisted, Refusal};
use std::collections::BTreeMap;
use std::fs;
use testkit::shards::Sample;
use testkit::{meshes, shards, Rng};

/// 256 shards of 4 minishards.
const SHARDING: Sharding = Sharding {
    preshift: 1,
    hash: 0,
    minishard_bits: 2,
    shard_bits: 8,
    kind: VOLUME,
};
const NETS: Sharding = Sharding {
    kind: MESH,
    ..SHARDING
};

/// The numbers of the table of refusals that the check gives, and order 10's.
const NUMBERS: [u8; 13] = [1, 5, 6, 7, 8, 9, 10, 11, 15, 16, 17, 21, 23];

/// A sheet by the names of its rows.
#[derive(Clone, Debug, Default, PartialEq, Eq)]
struct Sheet {
    sound: u128,
    refused: BTreeMap<u8, u128>,
    chunks: u128,
    bytes: u128,
    unlisted: u128,
}

impl Sheet {
    /// Adds what the independent program says of a shard or of the file that a
    /// pair makes.
    fn add(&mut self, sharding: &Sharding, number: u64, file: &[u8], checked: Result<(), Refusal>) {
        if let Err(refusal) = checked {
            *self.refused.entry(refusal.number).or_default() += 1;
            return;
        }
        let listed = shard::list(sharding, number, file).expect("it is sound");
        let unlisted = unlisted::unlisted(sharding, number, file).expect("it is sound");
        self.sound += 1;
        self.chunks += listed.len() as u128;
        self.bytes += listed
            .iter()
            .map(|entry| u128::from(entry.length))
            .sum::<u128>();
        self.unlisted += u128::from(unlisted);
    }

    fn lines(&self) -> String {
        let count = |number: u8| self.refused.get(&number).copied().unwrap_or(0);
        let refused = NUMBERS.map(|number| format!("shards refused {number} {}\n", count(number)));
        format!(
            "shards sound {}\n{}chunks {}\nchunk bytes {}\nunlisted bytes {}\n",
            self.sound,
            refused.concat(),
            self.chunks,
            self.bytes,
            self.unlisted
        )
    }

    fn object(&self) -> String {
        let lines = self.lines();
        let member = |line: &str| {
            let (name, count) = line.rsplit_once(' ').expect("a number");
            format!("\"{}\":{count},", name.replace(' ', "_"))
        };
        let members: String = lines.lines().map(member).collect();
        format!("{{\"result\":\"holdings\",{members}\"left_out\":0}}\n")
    }
}

/// Names and bytes of a shard's one or two files.
type Files = Vec<(String, Vec<u8>)>;

/// A small shard of this number, often damaged, now and then as a pair; what the
/// independent program says of it goes to the sheet.
fn some_shard(rng: &mut Rng, sharding: &Sharding, number: u64, sheet: &mut Sheet) -> Files {
    let mut sample = Sample {
        sharding: *sharding,
        number,
        file: if sharding.kind == MESH {
            let nets = meshes::content(rng, sharding, number, 5);
            meshes::lay_out(rng, sharding, &nets)
        } else {
            let content = shards::content(rng, sharding, number, 9);
            shards::lay_out(rng, sharding, &content)
        },
    };
    if rng.once_in(2) && sharding.kind == MESH {
        meshes::damage(rng, &mut sample);
    } else if rng.once_in(2) {
        shards::damage(rng, sharding, &mut sample.file);
    }
    let file = sample.file;
    if !rng.once_in(3) {
        sheet.add(
            sharding,
            number,
            &file,
            shard::check(sharding, number, &file),
        );
        return vec![(shard_name(sharding, number).expect("a name"), file)];
    }
    let seam = (16 << sharding.minishard_bits) - usize::from(rng.once_in(5));
    let pair = Pair::cut(&file, seam.min(file.len()));
    sheet.add(sharding, number, &file, pair.check(sharding, number));
    let [index, data] = [index_name, data_name].map(|name| name(sharding, number).expect("a name"));
    vec![(index, pair.index.to_vec()), (data, pair.data.to_vec())]
}

/// Four folders of volumes, `a0` to `a3`, and four of meshes, `b0` to `b3`, each of
/// 256 shards; and the sheet of each folder.
struct Deposits {
    folder: Folder,
    sheets: BTreeMap<String, Sheet>,
}

impl Deposits {
    fn new(seed: u64) -> Self {
        let (mut rng, folder) = (Rng::new(seed), Folder::new());
        let mut sheets = BTreeMap::new();
        for (kind, sharding) in [("a", SHARDING), ("b", NETS)] {
            for part in 0..4 {
                let name = format!("{kind}{part}");
                let mut sheet = Sheet::default();
                for number in 0..256 {
                    for (file, bytes) in some_shard(&mut rng, &sharding, number, &mut sheet) {
                        folder.write(format!("{name}/{file}"), bytes);
                    }
                }
                sheets.insert(name, sheet);
            }
        }
        Deposits { folder, sheets }
    }

    /// The sheet of the folders of one kind, or of both.
    fn sheet(&self, kind: &str) -> Sheet {
        let mut sum = Sheet::default();
        let parts = self
            .sheets
            .iter()
            .filter(|(name, _)| name.starts_with(kind));
        for (_, part) in parts {
            sum.sound += part.sound;
            sum.chunks += part.chunks;
            sum.bytes += part.bytes;
            sum.unlisted += part.unlisted;
            for (number, count) in &part.refused {
                *sum.refused.entry(*number).or_default() += count;
            }
        }
        sum
    }

    /// Runs `holdings` on folders or files of a kind.
    fn run(&self, kind: &str, paths: &[String], more: &str) -> Run {
        let sharding = if kind == "a" { SHARDING } else { NETS };
        let paths = paths.join(" ");
        let line = format!("holdings {paths} {more} {}", options(&sharding));
        self.folder.run_line(&line)
    }
}

fn folders(kind: &str) -> Vec<String> {
    (0..4).map(|part| format!("{kind}{part}")).collect()
}

#[test]
fn a_thousand_shards_in_any_order_give_the_same_bytes() {
    let deposits = Deposits::new(13_001);
    let mut rng = Rng::new(13_002);
    for kind in ["a", "b"] {
        let expected = deposits.sheet(kind);
        assert!(
            expected.sound > 100 && expected.refused.len() > 5,
            "{expected:?}"
        );
        assert!(expected.refused.contains_key(&23) && expected.unlisted > 0);
        let mut paths = folders(kind);
        for more in ["", "--jobs 1", "--jobs 2", "--jobs 7", "--jobs 64"] {
            let run = deposits.run(kind, &paths, more);
            assert_eq!(run.expect_status(0).text(), expected.lines());
            assert_eq!(run.stderr, "");
            let json = deposits.run(kind, &paths, &format!("{more} --json"));
            assert_eq!(json.expect_status(0).text(), expected.object());
            rng.shuffle(&mut paths);
        }
        // File by file; of a pair either file, or both.
        let mut files: Vec<String> = folders(kind)
            .iter()
            .flat_map(|folder| {
                let names = deposits.folder.names(folder).into_iter();
                names.map(move |name| format!("{folder}/{name}"))
            })
            .collect();
        files.retain(|file| !file.ends_with(".data") || rng.once_in(2));
        for _ in 0..3 {
            rng.shuffle(&mut files);
            let run = deposits.run(kind, &files, "");
            assert_eq!(run.expect_status(0).text(), expected.lines());
        }
        // By two ways at once they are counted once.
        let twice = [&paths[..], &files[..9], &[format!("{kind}0/../{kind}0")]].concat();
        let run = deposits.run(kind, &twice, "");
        assert_eq!(run.expect_status(0).text(), expected.lines());
    }
}

#[test]
fn the_sheets_of_parts_add_up_to_that_of_the_whole() {
    let deposits = Deposits::new(13_003);
    let folder = &deposits.folder;
    let mut sheets = Vec::new();
    for (place, path) in folders("a").iter().chain(&folders("b")).enumerate() {
        let more = ["", "--json"][place % 2];
        let run = deposits.run(&path[..1], std::slice::from_ref(path), more);
        let expected = &deposits.sheets[path];
        let expected = [expected.lines(), expected.object()][place % 2].clone();
        assert_eq!(run.expect_status(0).text(), expected);
        let name = format!("{path}.sheet");
        folder.write(&name, &run.stdout);
        sheets.push(name);
    }
    let whole = deposits.sheet("");
    assert!(whole.refused.keys().any(|number| *number > 11));
    let mut rng = Rng::new(13_004);
    for _ in 0..5 {
        rng.shuffle(&mut sheets);
        let run = folder.run_line(&format!("holdings --add {}", sheets.join(" ")));
        assert_eq!(run.expect_status(0).text(), whole.lines());
        assert_eq!(run.stderr, "");
    }
    // A sum is a sheet again, in either form.
    let (front, behind) = sheets.split_at(3);
    let line = |sheets: &[String]| format!("holdings --add {}", sheets.join(" "));
    let half = folder.run_line(&line(front));
    folder.write("front.sheet", &half.expect_status(0).stdout);
    let half = folder.run_line(&(line(behind) + " --json"));
    folder.write("behind.sheet", &half.expect_status(0).stdout);
    let run = folder.run_line("holdings --json --add behind.sheet front.sheet");
    assert_eq!(run.expect_status(0).text(), whole.object());
    // One sheet alone is itself.
    let run = folder.run_line("holdings --add front.sheet");
    assert_eq!(run.expect_status(0).stdout, folder.read("front.sheet"));
}

/// The lines of a sheet with these rows.
fn forged(rows: [u64; 17]) -> String {
    let refused = NUMBERS.map(|number| format!("shards refused {number}"));
    let last = ["chunks", "chunk bytes", "unlisted bytes"].map(String::from);
    let names = [&["shards sound".to_string()][..], &refused, &last].concat();
    let rows = names.iter().zip(rows);
    rows.map(|(name, row)| format!("{name} {row}\n")).collect()
}

#[test]
fn totals_at_the_edge() {
    let folder = Folder::new();
    for row in 0..17 {
        let (mut full, mut one, mut sum) = ([3; 17], [0; 17], [3; 17]);
        full[row] = u64::MAX - 1;
        one[row] = 1;
        sum[row] = u64::MAX;
        folder.write("full", forged(full));
        folder.write("one", forged(one));
        folder.write("other", forged(one));
        for line in ["holdings --add full one", "holdings --add one full"] {
            let run = folder.run_line(line);
            assert_eq!(run.expect_status(0).text(), forged(sum));
        }
        for line in ["full one other", "one full other", "one other full"] {
            let run = folder.run_line(&format!("holdings --add {line}"));
            assert_eq!(run.expect_status(1).text(), "refused 27\n");
            let lines: Vec<&str> = run.stderr.lines().collect();
            let name = forged(full).lines().nth(row).unwrap().to_string();
            let (name, _) = name.rsplit_once(' ').unwrap();
            assert_eq!(
                lines,
                [
                    "the holdings sheet: refused 27: A total would pass 2^64 - 1.",
                    &format!("  found: {name} 18446744073709551616"),
                    "  expected: at most 18446744073709551615 in each row",
                    "  look at: that row in each of the sheets",
                ]
            );
            let run = folder.run_line(&format!("holdings --json --add {line}"));
            let object = Json::read(run.expect_status(1).text()).expect("JSON");
            assert_eq!(object.number("refusal"), Some("27"));
            assert_eq!(run.lines().len(), 1);
        }
    }
    // What was refused is no sheet.
    folder.write("refused", "refused 27\n");
    let run = folder.run_line("holdings --add one refused");
    assert!(run.expect_status(2).stdout.is_empty(), "{run}");
}

#[test]
fn other_text_is_no_sheet() {
    let folder = Folder::new();
    let text = forged([7; 17]);
    folder.write("sheet", &text);
    let others = [
        (
            "empty",
            String::new(),
            "it ends before the line 'shards sound N'",
        ),
        (
            "cut",
            format!("{text}cut\n"),
            "line 18 is 'cut', expected the end of the sheet",
        ),
        (
            "short",
            text.replace("unlisted bytes 7\n", ""),
            "it ends before the line 'unlisted bytes N'",
        ),
        (
            "large",
            text.replace("chunks 7", "chunks 18446744073709551616"),
            "line 15 is 'chunks 18446744073709551616', \
             expected 'chunks N', N from 0 to 18446744073709551615",
        ),
        (
            "object",
            "{\"result\":\"summary\",\"shards\":3}\n".into(),
            "a sheet has no member 'shards'",
        ),
        (
            "long",
            "shards sound 1\n".repeat(5000),
            "it is longer than one",
        ),
    ];
    for (name, other, why) in others {
        folder.write(name, other);
        // Neither the sheets before it nor those behind it are added up.
        for more in ["", " --json"] {
            let run = folder.run_line(&format!("holdings --add {name} sheet{more}"));
            run.expect_status(2);
            assert!(run.stdout.is_empty(), "{run}");
            let told = format!("{name}: is no holdings sheet: {why}\n");
            assert!(run.stderr.starts_with(&told), "{run}");
        }
    }
    let run = folder.run_line("holdings --add sheet nothing");
    assert!(run.expect_status(3).stdout.is_empty(), "{run}");
    let run = folder.run_line("holdings --add sheet ./sheet");
    assert!(run
        .expect_status(2)
        .stderr
        .starts_with("./sheet: is given twice\n"));
    for option in ["--jobs 2", "--shard 1", "--verbose", "--hash identity"] {
        let run = folder.run_line(&format!("holdings --add sheet {option}"));
        assert!(run.expect_status(2).stderr.contains("takes sheets alone"));
    }
}

/// What cannot be counted is named, and the sheet says that it lacks something.
#[test]
fn what_is_left_out_is_told() {
    let folder = Folder::new();
    let sharding = Sharding {
        shard_bits: 4,
        minishard_bits: 0,
        ..ONE
    };
    let empty = [0; 16];
    folder.write("d/0.shard", empty);
    let mut sheet = Sheet {
        sound: 1,
        ..Sheet::default()
    };
    let run = |more: &str| folder.run_line(&format!("holdings d {more} {}", options(&sharding)));
    assert_eq!(run("").expect_status(0).text(), sheet.lines());
    // A refused shard is in its row.
    folder.write("d/1.shard", b"");
    sheet.refused.insert(6, 1);
    assert_eq!(run("").expect_status(0).text(), sheet.lines());
    assert_eq!(run("").stderr, "");
    let verbose = run("--verbose");
    assert_eq!(verbose.expect_status(0).text(), sheet.lines());
    assert!(
        verbose.stderr.starts_with("d/1.shard: refused 6: "),
        "{verbose}"
    );
    assert_eq!(verbose.stderr.lines().count(), 4);
    // An index file that is too short.
    folder.write("d/a.index", b"");
    folder.write("d/a.data", b"");
    sheet.refused.insert(23, 1);
    assert_eq!(run("").expect_status(0).text(), sheet.lines());
    // Half a pair, both editions, another name, and no file.
    folder.write("d/2.index", empty);
    folder.write("d/3.shard", empty);
    folder.write("d/3.data", b"");
    folder.write("d/x.shard", empty);
    folder.write("d/notes", b"");
    let left_out = run("");
    let expected = format!("{}left out 3\n", sheet.lines());
    assert_eq!(left_out.expect_status(1).text(), expected);
    assert_eq!(
        left_out.stderr,
        "d/2.index: half a pair, 2.data is missing\n\
         d/3.shard: there in both editions, 3.shard and 3.data; neither is read\n\
         d/x.shard: not the name of a shard under this sharding (expected for example a.shard)\n"
    );
    fs::create_dir(folder.at("d/4.shard")).expect("a folder is made");
    let unread = run("");
    let expected = format!("{}left out 4\n", sheet.lines());
    assert_eq!(unread.expect_status(3).text(), expected);
    assert!(
        unread.stderr.contains("d/4.shard: cannot be read"),
        "{unread}"
    );
    let json = run("--json");
    let object = Json::read(json.expect_status(3).text()).expect("one object");
    assert_eq!(object.number("left_out"), Some("4"));
    assert_eq!(json.stderr, unread.stderr);
    // A file that is named is read, before its folder or behind it.
    for line in ["d d/3.shard", "d/3.shard d"] {
        let run = folder.run_line(&format!("holdings {line} {}", options(&sharding)));
        run.expect_status(3).expect_line("left out 3");
        run.expect_line("shards sound 2");
    }
    // The sum says so too.
    folder.write("lines", &unread.stdout);
    folder.write("object", &json.stdout);
    folder.write("whole", sheet.lines());
    let sum = folder.run_line("holdings --add lines whole object");
    sum.expect_status(1).expect_line("left out 8");
    assert_eq!(sum.stderr, "lines: 4 left out\nobject: 4 left out\n");
    sum.expect_line("shards sound 3");
    // A folder of no shards, one that is not there, and a number that is too large.
    folder.make("none");
    let none = folder.run_line(&format!("holdings none {}", options(&sharding)));
    assert_eq!(none.expect_status(1).text(), Sheet::default().lines());
    assert!(none.stderr.starts_with("none: no shards, "), "{none}");
    let nothing = folder.run_line(&format!("holdings nothing {}", options(&sharding)));
    nothing.expect_status(3).expect_line("left out 1");
    let line = format!("holdings d/0.shard --shard 16 {}", options(&sharding));
    folder
        .run_line(&line)
        .expect_status(0)
        .expect_line("shards refused 5 1");
}

/// A named file needs its number, and a sheet has one specification.
#[test]
fn one_file() {
    let folder = Folder::new();
    folder.write("0.shard", example());
    folder.write("other", example());
    let line = |more: &str| format!("holdings {more} {}", options(&ONE));
    let mut sheet = Sheet::default();
    sheet.add(&ONE, 0, &example(), Ok(()));
    assert_eq!((sheet.chunks, sheet.bytes, sheet.unlisted), (2, 5, 0));
    for more in ["0.shard", "other --shard 0", "0.shard ./0.shard"] {
        let run = folder.run_line(&line(more));
        assert_eq!(run.expect_status(0).text(), sheet.lines());
    }
    let run = folder.run_line(&line("other 0.shard"));
    run.expect_status(2).expect_line("left out 1");
    assert!(run
        .stderr
        .contains("give the shard's number with --shard N"));
    folder
        .run_line(&line("0.shard other --shard 0"))
        .expect_status(2);
    folder.run_line("holdings 0.shard").expect_status(2);
}
