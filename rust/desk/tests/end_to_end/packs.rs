//! Loose chunk files packed into shards: held to the independent program.

use crate::json::Json;
use crate::shards::options;
use crate::support::{Folder, Run, PROGRAM};
use reference::grid::{cell_of, grid_size, key_of, Volume};
use reference::names::{chunk_name, shard_name};
use reference::settle::{settled_form, Listed};
use reference::sharding::Sharding;
use std::collections::BTreeMap;
use std::fs::{self, File};
use std::io::Write;
use std::os::unix::fs::symlink;
use std::process::Stdio;
use testkit::shards::{self, Content};
use testkit::Rng;

const CARD: &str = "--card demo/deposit.card";

/// A volume of 5 times 4 times 3 cells, some of them cut short.
const VOLUME: Volume = Volume {
    size: [300, 250, 130],
    chunk: [64, 64, 64],
    offset: [-64, 0, 7],
};

/// The volume as options.
fn volume_options() -> String {
    let words = |numbers: [i64; 3]| numbers.map(|number| number.to_string()).join(",");
    format!(
        "--size {} --chunk {} --offset {}",
        words(VOLUME.size.map(i64::from)),
        words(VOLUME.chunk.map(i64::from)),
        words(VOLUME.offset.map(i64::from))
    )
}

/// The name of a key's chunk.
fn name_of(key: u64) -> String {
    let cell = cell_of(&VOLUME, key).expect("a cell");
    chunk_name(&VOLUME, cell).expect("a name")
}

/// All keys of the volume.
fn keys() -> Vec<u64> {
    let [x, y, z] = grid_size(&VOLUME).expect("a grid");
    let cells = (0..z).flat_map(move |z| (0..y).flat_map(move |y| (0..x).map(move |x| [x, y, z])));
    cells
        .map(|cell| key_of(&VOLUME, cell).expect("a key"))
        .collect()
}

/// Random chunks of some cells.
fn chunks(rng: &mut Rng) -> Content {
    let mut content = Content::new();
    for key in keys() {
        if !rng.once_in(4) {
            let length = *rng.pick(&[0, 1, 5, 300, 70_000]);
            content.insert(key, rng.bytes(length));
        }
    }
    content
}

/// A specification under which the volume has some shards.
fn sharding(rng: &mut Rng) -> Sharding {
    Sharding {
        preshift: rng.below(3) as u8,
        hash: rng.below(2) as u8,
        minishard_bits: rng.below(4) as u8,
        shard_bits: rng.below(4) as u8,
        kind: 0,
    }
}

/// The settled forms of these chunks by shard name, as the independent program
/// writes them.
fn forms(sharding: &Sharding, content: &Content) -> BTreeMap<String, Vec<u8>> {
    let mut shards: BTreeMap<u64, Vec<Listed>> = BTreeMap::new();
    for (id, bytes) in content {
        let number = sharding.place(*id).shard;
        shards.entry(number).or_default().push((*id, bytes));
    }
    let form = |(number, listed): (u64, Vec<Listed>)| {
        let name = shard_name(sharding, number).expect("a name");
        (name, settled_form(sharding, &listed))
    };
    shards.into_iter().map(form).collect()
}

/// What a folder holds.
fn held(folder: &Folder, name: &str) -> BTreeMap<String, Vec<u8>> {
    let names = folder.names(name).into_iter();
    names
        .map(|file| (file.clone(), folder.read(format!("{name}/{file}"))))
        .collect()
}

/// Runs a line with this on standard input, which the line reads to its end.
fn run_with_input(folder: &Folder, line: &str, input: &[u8]) -> Run {
    let mut command = folder.program();
    command.args(line.split_whitespace());
    let piped = command.stdin(Stdio::piped()).stdout(Stdio::piped());
    let mut child = piped.stderr(Stdio::piped()).spawn().expect(PROGRAM);
    let mut pipe = child.stdin.take().expect("a pipe");
    pipe.write_all(input).expect("the input is written");
    drop(pipe);
    let output = child.wait_with_output().expect("the program ends");
    Run::told(line.into(), output)
}

/// The sample's chunks, each in a file of its own in `chunks`.
fn with_chunks() -> Folder {
    let folder = Folder::with_sample();
    let line = format!("cover -64,0,0 236,260,200 --deposit demo/copy-b --out chunks {CARD}");
    folder.run_line(&line).expect_status(0);
    folder
}

#[test]
fn folders_of_chunks() {
    let rng = &mut Rng::new(11);
    for round in 0..8 {
        let folder = Folder::new();
        let (sharding, content) = (sharding(rng), chunks(rng));
        for (key, bytes) in &content {
            folder.write(format!("chunks/{}", name_of(*key)), bytes);
        }
        folder.write("chunks/info", "{}");
        folder.write("chunks/.0-64_0-64_7-71.77.part", "half");
        folder.make("chunks/0-64_0-64_7-71.old");
        let settings = format!("{} {}", options(&sharding), volume_options());
        let jobs = ["", "--jobs 1", "--jobs 7"][round % 3];
        let run = folder.run_line(&format!("pack chunks --out packed {jobs} {settings}"));
        let expected = forms(&sharding, &content);
        assert!(held(&folder, "packed") == expected, "{run}");
        let without = 60 - content.len();
        let summary = format!(
            "{} shard{}: {} packed, 0 refused; {} chunks, {without} cells have none, \
             2 other files passed over",
            expected.len(),
            if expected.len() == 1 { "" } else { "s" },
            expected.len(),
            content.len(),
        );
        run.expect_status(0).expect_line(&summary);
        folder
            .run_line(&format!("check packed {settings}"))
            .expect_status(0);
        for (key, bytes) in content.iter().take(5) {
            let get = folder.run_line(&format!("get packed {key} {settings}"));
            assert!(get.expect_status(0).stdout == *bytes, "{get}");
        }
    }
}

/// The sample's settled forms, from files that came from another layout.
#[test]
fn the_sample_is_packed_as_it_was() {
    let folder = with_chunks();
    let run = folder.run_line(&format!("pack chunks --out packed {CARD}"));
    let summary = "8 shards: 8 packed, 0 refused; 96 chunks, 4 cells have none";
    run.expect_status(0)
        .expect_line("packed/5.shard: packed, 12 chunks, 1004 bytes")
        .expect_line(summary);
    assert_eq!(held(&folder, "packed"), held(&folder, "demo/copy-a"));
    for copy in ["copy-a", "copy-b", "copy-c"] {
        folder
            .run_line(&format!("same packed demo/{copy} {CARD}"))
            .expect_status(0);
    }
    let list = folder.run_line(&format!("list packed/5.shard {CARD}"));
    let other = folder.run_line(&format!("list demo/copy-a/5.shard {CARD}"));
    assert_eq!(list.expect_status(0).text(), other.text());
    // A run that is started again leaves what is there.
    let again = folder.run_line(&format!("pack chunks --out packed {CARD}"));
    let summary = "8 shards: 0 packed, 8 already there, 0 refused; 96 chunks, 4 cells have none";
    again.expect_status(0).expect_line(summary);
    // The settings of an info file.
    let by_info = folder.run_line("pack chunks --out by-info --info demo/info --scale 0");
    by_info.expect_status(0);
    assert_eq!(held(&folder, "by-info"), held(&folder, "packed"));
}

/// Lists in any order, by ids or names, from a file or from standard input.
#[test]
fn lists_in_random_orders() {
    let rng = &mut Rng::new(12);
    let folder = Folder::new();
    for (key, bytes) in &chunks(&mut Rng::new(1)) {
        folder.write(format!("loose chunks/{}.bin", name_of(*key)), bytes);
    }
    let content = chunks(&mut Rng::new(1));
    for round in 0..12 {
        let sharding = sharding(rng);
        let settings = format!("{} {}", options(&sharding), volume_options());
        let forms = forms(&sharding, &content);
        let names: Vec<&String> = forms.keys().collect();
        let name = *rng.pick(&names);
        let number = u64::from_str_radix(name.trim_end_matches(".shard"), 16).expect("hex");
        let mut lines: Vec<String> = Vec::new();
        for key in content.keys() {
            if sharding.place(*key).shard == number {
                let word = match rng.below(3) {
                    0 => key.to_string(),
                    1 => format!("{key:#x}"),
                    _ => name_of(*key),
                };
                let blanks = rng.pick(&[" ", "\t", "   "]);
                lines.push(format!("{word}{blanks}loose chunks/{}.bin", name_of(*key)));
            }
        }
        let chunks = lines.len();
        lines.push(String::new());
        rng.shuffle(&mut lines);
        let ending = *rng.pick(&["\n", "\r\n"]);
        let last = *rng.pick(&["", ending]);
        let text = lines.join(ending) + last;
        folder.write("list", &text);
        let out = format!("{round}.out");
        let pack = |source: &str, out: &str, more: &str| {
            let line = format!("pack {source} --out {out} {more} {settings}");
            match source {
                "list" => folder.run_line(&line),
                _ => run_with_input(&folder, &line, text.as_bytes()),
            }
        };
        let run = match rng.below(3) {
            0 => pack("list", &out, &format!("--shard {number}")),
            1 => pack("-", &out, &format!("--shard {number:#x}")),
            _ => pack("", &out, &format!("--shard {number}")),
        };
        let form = &forms[name];
        let s = if chunks == 1 { "" } else { "s" };
        let told = format!("{out}: packed, {chunks} chunk{s}, {} bytes", form.len());
        assert_eq!(run.expect_status(0).lines(), [told]);
        assert!(folder.read(&out) == *form, "{run}");
        // The name says the number.
        let _ = fs::remove_file(folder.at(name));
        pack("list", name, "").expect_status(0);
        assert!(folder.read(name) == *form);
        // A shard of the same chunks in another layout.
        let part = |(id, _): &(&u64, &Vec<u8>)| sharding.place(**id).shard == number;
        let listed: Content = content
            .iter()
            .filter(part)
            .map(|(id, bytes)| (*id, bytes.clone()))
            .collect();
        folder.write("other", shards::lay_out(rng, &sharding, &listed));
        let same = format!("same {out} other --shard {number} {settings}");
        folder.run_line(&same).expect_status(0);
        let check = format!("check {out} --shard {number} {settings}");
        folder.run_line(&check).expect_status(0);
    }
}

/// Where no volume is given, any ids of the shard will do.
#[test]
fn ids_without_a_volume() {
    let rng = &mut Rng::new(13);
    let mut packed = 0;
    for _ in 0..30 {
        let folder = Folder::new();
        let sharding = shards::sharding(rng);
        let number = shards::number(rng, &sharding);
        let content = shards::content(rng, &sharding, number, 12);
        let mut lines = Vec::new();
        for (id, bytes) in &content {
            folder.write(format!("{id}.chunk"), bytes);
            lines.push(format!("{id} {id}.chunk\n"));
        }
        rng.shuffle(&mut lines);
        let line = format!("pack --out out --shard {number} {}", options(&sharding));
        let run = run_with_input(&folder, &line, lines.concat().as_bytes());
        run.expect_status(0);
        let listed: Vec<Listed> = content
            .iter()
            .map(|(id, bytes)| (*id, &bytes[..]))
            .collect();
        assert!(
            folder.read("out") == settled_form(&sharding, &listed),
            "{run}"
        );
        packed += content.len();
    }
    assert!(packed > 80, "{packed}");
    let folder = Folder::new();
    let line = "pack --out 0.shard --preshift 0 --hash identity --minishard-bits 0 --shard-bits 0";
    let run = run_with_input(&folder, line, b"0-64_0-64_0-64 file\n");
    run.expect_status(2);
    assert!(
        run.stderr.contains("names of chunks need the volume"),
        "{run}"
    );
}

/// Each wrong line is told with its number, and nothing is packed.
#[test]
fn wrong_lists() {
    let folder = with_chunks();
    let good = "21 chunks/0-64_128-192_64-128\n";
    for (line, told) in [
        (
            "0-64_128-192_64-128 a",
            "line 2: id 21 is given twice, first in line 1",
        ),
        ("0x15 a", "line 2: id 21 is given twice, first in line 1"),
        ("20", "line 2: '20' stands alone, and its path is missing"),
        ("20   ", "line 2: '20' stands alone"),
        (
            "0-64_128-192_64-129 a",
            "line 2: '0-64_128-192_64-129' is no id, and not the name of a chunk of this \
             volume (expected for example -64-0_0-64_0-64)",
        ),
        ("-1 a", "line 2: '-1' is no id"),
        ("18446744073709551616 a", "is no id"),
        (
            "511 a",
            "line 2: id 511 is the key of no cell of the volume",
        ),
    ] {
        let text = format!("{good}{line}\n");
        let pack = format!("pack --out 5.shard {CARD}");
        let run = run_with_input(&folder, &pack, text.as_bytes());
        run.expect_status(2);
        assert!(run.stdout.is_empty() && run.stderr.contains(told), "{run}");
        assert!(run.stderr.contains("standard input: nothing is packed"));
    }
    // Of many wrong lines ten are told.
    let many = "x\n".repeat(14);
    let run = run_with_input(
        &folder,
        &format!("pack --out 5.shard {CARD}"),
        many.as_bytes(),
    );
    run.expect_status(2);
    assert_eq!(run.stderr.matches("'x' is no id").count(), 10, "{run}");
    assert!(run
        .stderr
        .contains("4 more are wrong, and nothing is packed"));
    // A line that does not end, of bytes that are no text.
    let odd = [&[0xff; 1000][..], b" \x1b"].concat();
    let run = run_with_input(&folder, &format!("pack --out 5.shard {CARD}"), &odd);
    run.expect_status(2);
    assert!(
        run.stderr.len() < 1000 && !run.stderr.contains('\x1b'),
        "{run}"
    );

    // The chunk of another shard.
    let text = format!("{good}0 chunks/-64-0_0-64_0-64\n");
    let run = run_with_input(
        &folder,
        &format!("pack --out 5.shard {CARD}"),
        text.as_bytes(),
    );
    run.expect_status(1);
    let told = "5.shard: refused 10: A listed id belongs to another shard or minishard.\n  \
                found: id 0, chunks/-64-0_0-64_0-64, which belongs to shard 0\n  \
                expected: chunks of shard 5\n  \
                look at: line 2 of the list; the shard's number; the settings\n";
    assert_eq!(run.text(), told);
    let more = format!("{text}1 chunks/0-64_0-64_0-64\n");
    let run = run_with_input(
        &folder,
        &format!("pack --out 5.shard {CARD}"),
        more.as_bytes(),
    );
    let found = "  found: id 0, chunks/-64-0_0-64_0-64, which belongs to shard 0, and 1 more of \
                 other shards";
    run.expect_status(1).expect_line(found);
    assert_eq!(folder.names("."), ["chunks", "demo"]);
}

/// Names that no cell has: they may be chunks of another volume.
#[test]
fn names_of_other_volumes() {
    let folder = with_chunks();
    for name in ["0-64_0-64_0-65", "0-64_0-64_0-64.gz", "-128--64_0-64_0-64"] {
        let path = folder.write(format!("chunks/{name}"), "x");
        for json in ["", "--json"] {
            let run = folder.run_line(&format!("pack chunks --out packed {json} {CARD}"));
            run.expect_status(1);
            let told = "not the name of a chunk of this volume";
            assert!(
                run.text().contains(told) && run.text().contains(name),
                "{run}"
            );
            assert!(run.stderr.contains("nothing is packed"), "{run}");
            assert_eq!(run.lines().len(), 1);
        }
        fs::remove_file(path).expect("removed");
    }
    let run = folder.run_line(&format!("pack demo --out packed {CARD}"));
    run.expect_status(1);
    let told = "demo: no chunks, no file has the name of one, as -64-0_0-64_0-64 is, \
                7 other files passed over";
    assert_eq!(run.lines(), [told]);
    assert_eq!(folder.names("."), ["chunks", "demo"]);
}

/// Of files that cannot be read, or that change, the shards are not written; the
/// others are.
#[test]
fn chunk_files_that_cannot_be_packed() {
    let folder = with_chunks();
    let whole = held(&folder, "demo/copy-a");
    let chunk = folder.at("chunks/0-64_128-192_64-128");
    type Spoil<'a> = (&'a dyn Fn(), &'a str);
    let spoils: [Spoil; 4] = [
        (
            &|| fs::create_dir(&chunk).expect("a folder"),
            "it is no regular file",
        ),
        (
            &|| symlink("nowhere", &chunk).expect("a link"),
            "No such file",
        ),
        (
            &|| symlink("/dev/zero", &chunk).expect("a link"),
            "it is no regular file",
        ),
        // It tells no length, and has bytes.
        (
            &|| symlink("/proc/self/status", &chunk).expect("a link"),
            "cannot be packed: it changed while it was read",
        ),
    ];
    fs::remove_file(&chunk).expect("removed");
    for (round, (spoil, told)) in spoils.iter().enumerate() {
        spoil();
        let out = format!("packed-{round}");
        let run = folder.run_line(&format!("pack chunks --out {out} {CARD}"));
        run.expect_status(3);
        assert!(run.stderr.contains("chunks/0-64_128-192_64-128: cannot be"));
        assert!(run.stderr.contains(told), "{run}");
        let summary = "8 shards: 7 packed, 0 refused, 1 not read or not written; 96 chunks, \
                       4 cells have none";
        run.expect_line(summary);
        let mut expected = whole.clone();
        expected.remove("5.shard");
        assert_eq!(held(&folder, &out), expected);
        let json = folder.run_line(&format!("pack chunks --out {out} --json {CARD}"));
        let line = json.expect_status(3).lines()[5].to_string();
        let object = Json::read(&line).expect("JSON");
        assert_eq!(object.text("result"), Some("error"), "{line}");
        assert_eq!(object.text("path"), Some(&format!("{out}/5.shard")[..]));
        assert_eq!(object.text("chunk"), Some("chunks/0-64_128-192_64-128"));
        let listed = run_with_input(
            &folder,
            &format!("pack --out 5.shard {CARD}"),
            b"21 chunks/0-64_128-192_64-128",
        );
        listed.expect_status(3);
        assert!(listed.stderr.contains(told), "{listed}");
        let _ = fs::remove_dir(&chunk).or_else(|_| fs::remove_file(&chunk));
    }
    assert!(!folder.names(".").contains(&"5.shard".into()));
    // Links to files are followed.
    symlink(folder.write("elsewhere", "bytes"), &chunk).expect("a link");
    folder
        .run_line(&format!("pack chunks --out linked {CARD}"))
        .expect_status(0);
    let get = folder.run_line(&format!("get linked 21 {CARD}"));
    assert_eq!(get.expect_status(0).text(), "bytes");
}

/// A form that would pass 1 GiB is refused before anything is read, without
/// memory for it.
#[test]
fn a_shard_that_would_be_too_long() {
    let folder = Folder::new();
    let length = (1 << 30) - 16 - 24;
    let settings = "--preshift 0 --hash identity --minishard-bits 0 --shard-bits 0 --shard 0";
    for more in [1, 1 << 40] {
        let file = File::create(folder.at("large")).expect("a file");
        file.set_len(length + more).expect("a file with a hole");
        let line = format!("pack --out out {settings}");
        let mut command = std::process::Command::new("sh");
        let script = "ulimit -d 65536; echo 7 large | \"$0\" \"$@\"";
        command.args(["-c", script, PROGRAM]);
        command.args(line.split_whitespace());
        let run = Run::of(command.current_dir(folder.path()));
        run.expect_status(1);
        let told = format!(
            "  found: a settled form of {} bytes, with 1 chunk",
            (1u64 << 30) + more
        );
        assert!(run.text().starts_with("out: refused 13: "), "{run}");
        run.expect_line(&told);
    }
    assert_eq!(folder.names("."), ["large"]);
}

#[test]
fn nothing_is_overwritten_or_left_half() {
    let folder = with_chunks();
    let chunk = folder.read("chunks/0-64_128-192_64-128");
    folder.write("packed/0.shard", "mine");
    folder.write("packed/1.shard", folder.read("demo/copy-a/1.shard"));
    folder.write("packed/.2.shard.4194305.part", "half");
    folder.write("packed/.note.4194305.part", "mine");
    symlink(folder.at("demo/deposit.card"), folder.at("packed/3.shard")).expect("a link");
    let card = folder.read("demo/deposit.card");
    let run = folder.run_line(&format!("pack chunks --out packed {CARD}"));
    let summary = "8 shards: 5 packed, 1 already there, 1 there with other bytes, 0 refused, \
                   1 not read or not written; 96 chunks, 4 cells have none";
    run.expect_status(2)
        .expect_line("packed/0.shard: exists with other bytes (--force overwrites)")
        .expect_line(summary);
    assert_eq!(folder.read("packed/0.shard"), b"mine");
    assert_eq!(folder.read("demo/deposit.card"), card);
    assert_eq!(folder.names("packed").len(), 9, "{run}");
    fs::remove_file(folder.at("packed/3.shard")).expect("removed");
    fs::remove_file(folder.at("packed/.note.4194305.part")).expect("removed");
    let forced = folder.run_line(&format!("pack chunks --out packed --force {CARD}"));
    forced.expect_status(0);
    assert_eq!(held(&folder, "packed"), held(&folder, "demo/copy-a"));

    // An input is no output: the card, the list, a chunk, by whatever name.
    let list = "21 chunks/0-64_128-192_64-128\n";
    folder.write("list", list);
    let inputs = ["demo/deposit.card", "list", "chunks/0-64_128-192_64-128"];
    for input in inputs {
        fs::hard_link(folder.at(input), folder.at("5.shard")).expect("a link");
        for out in [input, "5.shard"] {
            let line = format!("pack list --out {out} --shard 5 --force {CARD}");
            let run = folder.run_line(&line);
            run.expect_status(2);
            assert!(
                run.stderr.contains("inputs are never written over"),
                "{run}"
            );
        }
        fs::remove_file(folder.at("5.shard")).expect("removed");
    }
    // What a link in the folder leads to.
    fs::remove_file(folder.at("chunks/0-64_128-192_64-128")).expect("removed");
    symlink(
        folder.at("packed/5.shard"),
        folder.at("chunks/0-64_128-192_64-128"),
    )
    .expect("a link");
    let run = folder.run_line(&format!("pack chunks --out packed --force {CARD}"));
    run.expect_status(2);
    assert!(
        run.stderr.contains("inputs are never written over"),
        "{run}"
    );
    assert_eq!(folder.read("demo/deposit.card"), card);
    assert_eq!(folder.read("list"), list.as_bytes());
    assert_eq!(
        folder.read("packed/5.shard"),
        folder.read("demo/copy-a/5.shard")
    );
    assert_ne!(chunk, b"");
}

#[test]
fn json() {
    let folder = with_chunks();
    let line = format!("pack chunks --out packed --json {CARD}");
    let run = folder.run_line(&line);
    let lines = run.expect_status(0).lines();
    assert_eq!(lines.len(), 9, "{run}");
    let fifth = "{\"path\":\"packed/5.shard\",\"result\":\"packed\",\"shard\":5,\"chunks\":12,\
                 \"bytes\":1004}";
    assert_eq!(lines[5], fifth);
    let summary = "{\"result\":\"summary\",\"shards\":8,\"packed\":8,\"already_there\":0,\
                   \"other_bytes\":0,\"refused\":0,\"not_packed\":0,\"chunks\":96,\
                   \"cells_without\":4,\"other_files\":0}";
    assert_eq!(lines[8], summary);
    let text = b"0 chunks/-64-0_0-64_0-64";
    let run = run_with_input(&folder, &format!("pack --out 5.shard --json {CARD}"), text);
    let object = Json::read(run.expect_status(1).lines()[0]).expect("JSON");
    assert_eq!(object.text("result"), Some("refused"));
    assert_eq!(object.number("refusal"), Some("10"));
    assert!(run.stderr.is_empty(), "{run}");
}

#[test]
fn wrong_use() {
    let folder = with_chunks();
    for (line, status, told) in [
        ("pack chunks", 2, "--out is missing"),
        ("pack chunks list --out x", 2, "one argument too many"),
        (
            "pack chunks --out chunks",
            2,
            "shards are packed into another",
        ),
        (
            "pack chunks --out demo/../chunks",
            2,
            "shards are packed into another",
        ),
        ("pack chunks --out demo/deposit.card", 2, "is no folder"),
        (
            "pack chunks --out x --shard 5",
            2,
            "--shard is for a single file",
        ),
        ("pack chunks --out x --jobs 0", 2, "--jobs"),
        ("pack chunks --out no/where", 3, "no/where: cannot be made"),
        ("pack nothing --out 5.shard", 3, "nothing: cannot be read"),
        (
            "pack nothing --out x",
            2,
            "give the shard's number with --shard N",
        ),
    ] {
        let run = folder.run_line(&format!("{line} {CARD}"));
        run.expect_status(status);
        assert!(run.text().is_empty() && run.stderr.contains(told), "{run}");
    }
    let run = run_with_input(&folder, &format!("pack --out x --shard 8 {CARD}"), b"");
    run.expect_status(1);
    assert!(
        run.text().contains("a number below 8 (shard bits: 3)"),
        "{run}"
    );
    for line in ["pack chunks --out x", "pack --out 0.shard"] {
        let run = folder.run_line(&format!("{line} --card demo/mesh.card"));
        run.expect_status(2);
        assert!(run.stderr.contains("settings of a mesh"), "{run}");
    }
    assert_eq!(folder.names("."), ["chunks", "demo"]);
    // A shard of no chunks is one, too.
    let run = run_with_input(&folder, &format!("pack --out 5.shard {CARD}"), b"\n\n");
    run.expect_status(0)
        .expect_line("5.shard: packed, 0 chunks, 32 bytes");
    assert_eq!(folder.read("5.shard"), [0; 32]);
}
