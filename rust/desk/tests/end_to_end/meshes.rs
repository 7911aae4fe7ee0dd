//! Mesh shards (change requests, order 7): answers about random nets held to the
//! independent program, and what is told of each fault.

use crate::json::Json;
use crate::shards::{options, row, ONE};
use crate::support::{Folder, Run};
use reference::card::{to_bytes, Card};
use reference::grid::Volume;
use reference::manifest;
use reference::names::shard_name;
use reference::settle::{content_of, form_of};
use reference::shard::{self, Entry};
use reference::sharding::{Sharding, MESH};
use reference::Refusal;
use testkit::manifests::Parts;
use testkit::meshes::{self, Difference};
use testkit::shards::Sample;
use testkit::Rng;

/// What a listing says of a manifest.
fn line(sharding: &Sharding, entry: &Entry) -> String {
    let Entry {
        id,
        start,
        length,
        fragments,
    } = entry;
    let minishard = sharding.place(*id).minishard;
    let first = start - fragments;
    format!("{id} {minishard} {start} {length} {first} {fragments}")
}

/// The fragments of a listed manifest: level, node, and where they are.
fn fragments(entry: &Entry, file: &[u8]) -> Vec<[u64; 4]> {
    let manifest = entry.bytes(file);
    let mut found = Vec::new();
    for level in 0..manifest::level_count(manifest).expect("it is sound").into() {
        let nodes = manifest::nodes(manifest, level).expect("the level is there");
        for (number, node) in nodes.iter().enumerate() {
            let start = entry.start - entry.fragments + node.start;
            found.push([level, number as u64, start, node.size.into()]);
        }
    }
    found
}

#[test]
fn listings_manifests_and_fragments() {
    let rng = &mut Rng::new(71);
    let folder = Folder::new();
    let (mut manifests, mut asked) = (0, 0);
    for _ in 0..30 {
        let Sample {
            sharding,
            number,
            file,
        } = meshes::sound(rng, 6);
        let name = shard_name(&sharding, number).expect("a shard");
        folder.write(format!("deposit/{name}"), &file);
        let words = options(&sharding);
        let entries = shard::list(&sharding, number, &file).expect("it is sound");
        let header = "ID MINISHARD START LENGTH FRAGMENTS_START FRAGMENTS_LENGTH".to_string();
        let lines = entries.iter().map(|entry| line(&sharding, entry));
        let expected: Vec<String> = [header].into_iter().chain(lines).collect();
        let run = folder.run_line(&format!("list deposit/{name} {words}"));
        assert_eq!(run.expect_status(0).lines(), expected, "{run}");
        let mut expected = vec!["ID MINISHARD LEVEL NODE START LENGTH".to_string()];
        for entry in &entries {
            let minishard = sharding.place(entry.id).minishard;
            let front = format!("{} {minishard}", entry.id);
            for [level, node, start, length] in fragments(entry, &file) {
                expected.push(format!("{front} {level} {node} {start} {length}"));
            }
        }
        let run = folder.run_line(&format!("list deposit/{name} --fragments {words}"));
        assert_eq!(run.expect_status(0).lines(), expected, "{run}");
        for entry in &entries {
            let get = format!("get deposit {} {words}", entry.id);
            let run = folder.run_line(&get);
            assert!(run.expect_status(0).stdout == entry.bytes(&file), "{run}");
            manifests += 1;
            for [level, node, start, length] in fragments(entry, &file).into_iter().take(3) {
                let run = folder.run_line(&format!("{get} --fragment {level},{node}"));
                let bytes = &file[start as usize..][..length as usize];
                assert!(run.expect_status(0).stdout == bytes, "{run}");
                asked += 1;
            }
        }
    }
    assert!(manifests > 60 && asked > 60, "{manifests} {asked}");
}

/// The refusal that a run with --json told. With the faults of a minishard the
/// byte is the position.
fn told(run: &Run) -> Option<Refusal> {
    let object = run.lines().into_iter().find_map(|line| {
        let object = Json::read(line).unwrap_or_else(|why| panic!("{why}\n{run}"));
        object.get("refusal").is_some().then_some(object)
    })?;
    assert!(!run.text().contains("second reading"), "{run}");
    let whole = |name| {
        let number = object.number(name);
        number.map(|n| n.parse::<u64>().expect("a whole number"))
    };
    let number = whole("refusal")? as u8;
    let is_fault = matches!(number, 7..=11 | 15..=17 | 21);
    Some(Refusal {
        number,
        minishard: whole("minishard"),
        position: whole("byte").filter(|_| is_fault),
    })
}

#[test]
fn faults_are_told_with_their_places() {
    let rng = &mut Rng::new(72);
    let folder = Folder::new();
    let mut met = Vec::new();
    for _ in 0..150 {
        let Sample {
            sharding,
            number,
            file,
        } = meshes::damaged(rng, 6);
        let words = format!("--json --shard {number} {}", options(&sharding));
        folder.write("s", &file);
        let Err(expected) = shard::check(&sharding, number, &file) else {
            continue;
        };
        met.push(expected.number);
        let checked = folder.run_line(&format!("check s {words}"));
        assert_eq!(told(checked.expect_status(1)), Some(expected), "{checked}");
        let settled = folder.run_line(&format!("settle --drop-unlisted s --out o {words}"));
        let passed_on = Some(expected.passed_on());
        assert_eq!(told(settled.expect_status(1)), passed_on, "{settled}");
        if let Some(minishard) = expected.minishard {
            let listed = folder.run_line(&format!("list s --minishard {minishard} {words}"));
            assert_eq!(told(listed.expect_status(1)), passed_on, "{listed}");
        }
        assert_eq!(folder.names("."), ["s"]);
    }
    for number in [15, 16, 17, 21] {
        assert!(met.contains(&number), "{number} {met:?}");
    }
}

#[test]
fn copies_settle_alike_and_differ_where_a_net_does() {
    let rng = &mut Rng::new(73);
    let folder = Folder::new();
    let mut differed = 0;
    for turn in 0..40 {
        let sharding = meshes::sharding(rng);
        let number = rng.below(sharding.shard_count());
        let nets = meshes::content(rng, &sharding, number, 6);
        let name = shard_name(&sharding, number).expect("a shard");
        let words = options(&sharding);
        for copy in ["one", "other"] {
            let file = meshes::lay_out(rng, &sharding, &nets);
            folder.write(format!("{copy}/{name}"), file);
        }
        let same = folder.run_line(&format!("same one/{name} other/{name} {words}"));
        let sentence =
            "The two hold the same chunks and fragments: 1 shard compared, all the same.";
        same.expect_status(0).expect_line(sentence);
        let settle = format!("settle --drop-unlisted one/{name} --out form --force {words}");
        folder.run_line(&settle).expect_status(0);
        let form = form_of(&sharding, &meshes::triples(&nets));
        assert!(folder.read("form") == form);
        let difference = Difference::ALL[turn % Difference::ALL.len()];
        let Some(changed) = meshes::differing(rng, &sharding, number, &nets, difference) else {
            continue;
        };
        folder.write(
            format!("other/{name}"),
            meshes::lay_out(rng, &sharding, &changed),
        );
        let other = folder.run_line(&format!("same one/{name} other/{name} {words}"));
        let told = other.expect_status(1).lines()[0].to_string();
        let expected = match difference {
            Difference::Fragment => " has another fragment: first difference at byte ",
            Difference::Real | Difference::Size | Difference::Split => " has other bytes: ",
            Difference::Added => " is only in the second",
            Difference::Removed => " is only in the first",
            Difference::Id => " is only in the ",
        };
        assert!(told.contains(expected), "{difference:?}\n{other}");
        differed += 1;
    }
    assert!(differed > 15, "{differed}");
}

/// A mesh of two minishards; even nets are in the first.
const NETS: Sharding = Sharding { kind: MESH, ..ONE };

/// A manifest of one level with nodes at these x positions, each with a fragment
/// of 5 bytes.
fn parts(positions: [u32; 2]) -> Parts {
    let nodes = positions.map(|x| ([x, 0, 0], 5));
    Parts::new([1.0; 3], [0.0; 3], vec![nodes.to_vec()])
}

/// A mesh shard whose first minishard lists nets 4 and 10: the first with a sound
/// manifest of 80 bytes, the second with this one, each behind so many bytes.
fn pair(second: &[u8], lead: u64) -> Vec<u8> {
    let first = parts([0, 1]).bytes();
    assert_eq!(first.len(), 80);
    let before = vec![b'-'; lead as usize];
    let data = [&before[..], &first, &before, second].concat();
    let end = data.len() as u64;
    let rows = row(&[4, 6, lead, lead, 80, second.len() as u64]);
    [row(&[end, end + 48, 0, 0]), data, rows].concat()
}

/// The four lines of a check.
fn checked(second: &[u8], lead: u64) -> String {
    let folder = Folder::new();
    folder.write("0.shard", pair(second, lead));
    let run = folder.run_line(&format!("check 0.shard {}", options(&NETS)));
    run.expect_status(1).text().to_string()
}

/// The manifests begin at bytes 42 and 132, their start steps stand behind the
/// second one, after two ids.
#[test]
fn manifests_in_a_shard_are_explained() {
    let sound = parts([0, 1]).bytes();
    assert_eq!(
        checked(&sound[..79], 10),
        "0.shard: refused 15 in minishard 0: The manifest has a wrong length or level count.
  found: entry 1, id 10: a manifest of 79 bytes
  expected: 28 + 20 x 1 levels + 16 x 2 nodes = 80 bytes
  look at: byte 235 of the file (start steps of minishard 0; the size is at byte 251); byte 176 of the file is byte 44 of the manifest (node counts) and the manifest's length
"
    );
    assert!(checked(&[], 10).contains(
        "look at: byte 156 of the file (start steps of minishard 0; the size is at byte 172); \
         the manifest begins at byte 132; the manifest's length: was it cut short, or is it \
         another kind of file?\n"
    ));
    let mut flat = parts([0, 1]);
    flat.shape[1] = 0.0;
    assert_eq!(
        checked(&flat.bytes(), 10),
        "0.shard: refused 16 in minishard 0: A real in the manifest is not finite, or a chunk shape is not above zero.
  found: entry 1, id 10: 0 as chunk shape along y
  expected: a finite number above 0
  look at: byte 236 of the file (start steps of minishard 0; the size is at byte 252); byte 136 of the file is byte 4 of the manifest (chunk shape along y)
"
    );
    assert_eq!(
        checked(&parts([1, 1]).bytes(), 10),
        "0.shard: refused 17 in minishard 0: The nodes of a level are not in strictly rising Z-curve order.
  found: entry 1, id 10: node 1 of level 0 at 1,0,0 does not come after node 0 at 1,0,0
  expected: nodes in strictly rising Z-curve order
  look at: byte 236 of the file (start steps of minishard 0; the size is at byte 252); byte 184 of the file is byte 52 of the manifest (x position of node 1 of level 0)
"
    );
    assert_eq!(
        checked(&sound, 9),
        "0.shard: refused 21 in minishard 0: The fragments of a manifest would start before the end of the shard index.
  found: entry 0, id 4: its manifest starts at byte 41, 9 bytes behind the shard index, and its fragments, right before it, have 10 bytes together
  expected: fragments of at most 9 bytes
  look at: byte 226 of the file (start steps of minishard 0; the size is at byte 242); and the fragment sizes in the manifest
"
    );
}

#[test]
fn a_level_or_node_that_is_not_there() {
    let folder = Folder::new();
    folder.write("0.shard", pair(&parts([2, 3]).bytes(), 10));
    let get = format!("get 0.shard 10 {}", options(&NETS));
    let node = folder.run_line(&format!("{get} --fragment 0,2"));
    assert_eq!(
        node.expect_status(1).stderr,
        "0.shard: refused 18: There is no such level, node or field, or the node has no corners.
  found: id 10: node 2 of 2 nodes of level 0
  expected: a node from 0 to 1
  look at: byte 132 of the file (the manifest); byte 176 of the file is byte 44 of the manifest (node count of level 0)
"
    );
    for wide in ["1,0", "4294967296,0", "0,18446744073709551615"] {
        let run = folder.run_line(&format!("{get} --fragment {wide}"));
        run.expect_status(1);
        assert!(run.stderr.contains("refused 18:"), "{run}");
    }
    let absent = get.replace("0.shard 10", "0.shard 6");
    let absent = folder.run_line(&format!("{absent} --fragment 9,9"));
    absent.expect_status(1);
    assert!(absent.stderr.contains("refused 12:"), "{absent}");
    // An output file is written only where there is a fragment.
    let none = folder.run_line(&format!("{get} --fragment 0,2 --out f"));
    none.expect_status(1);
    folder
        .run_line(&format!("{get} --fragment 0,1 --out f"))
        .expect_status(0);
    assert_eq!(folder.read("f"), b"-----");
}

/// The kind decides what a shard holds: as a volume it has manifests and no
/// fragments, and settling stops, or loses them where that is asked for.
#[test]
fn the_kind_is_the_deposits() {
    let folder = Folder::new();
    let file = pair(&parts([2, 3]).bytes(), 10);
    folder.write("0.shard", &file);
    let (mesh, volume) = (options(&NETS), options(&ONE));
    assert_eq!(mesh, format!("{volume} --kind mesh"));
    for words in [&mesh, &volume] {
        let check = folder.run_line(&format!("check 0.shard {words}"));
        let line = format!("0.shard: sound, 2 chunks, {} bytes", file.len());
        check.expect_status(0).expect_line(&line);
    }
    folder
        .run_line(&format!("settle 0.shard --out kept {mesh}"))
        .expect_status(0);
    assert!(folder.read("kept") == file);
    let stopped = folder.run_line(&format!("settle 0.shard --out lost {volume}"));
    stopped.expect_status(1);
    stopped.expect_line("  found: 20 unlisted bytes in 2 gaps");
    folder
        .run_line(&format!(
            "settle --drop-unlisted 0.shard --out lost {volume}"
        ))
        .expect_status(0);
    assert_eq!(folder.read("lost").len(), file.len() - 20);
    let fragment = folder.run_line(&format!("get 0.shard 4 --fragment 0,0 {volume}"));
    fragment.expect_status(1);
    assert!(fragment.stderr.contains("refused 18:"), "{fragment}");
    assert!(fragment.stderr.contains("--kind mesh"), "{fragment}");
    let list = folder.run_line(&format!("list 0.shard --fragments {volume}"));
    list.expect_status(2);
    let list = folder.run_line(&format!("list 0.shard {volume}"));
    assert_eq!(list.lines()[0], "ID MINISHARD START LENGTH");
}

#[test]
fn cards_of_meshes() {
    let folder = Folder::new();
    let volume = Volume {
        size: [300, 260, 200],
        chunk: [64; 3],
        offset: [-64, 0, 0],
    };
    let words = format!(
        "{} --size 300,260,200 --chunk 64,64,64 --offset -64,0,0",
        options(&NETS)
    );
    let made = folder.run_line(&format!("card make --out mesh.card {words}"));
    made.expect_status(0)
        .expect_line("mesh.card: card written, 65 bytes");
    let card = Card {
        sharding: NETS,
        volume,
    };
    assert_eq!(Ok(folder.read("mesh.card")), to_bytes(&card));
    let shown = folder.run_line("card show mesh.card");
    shown.expect_status(0).expect_line("  kind: mesh");
    let as_options = shown.lines().pop().expect("a last line").to_string();
    assert!(as_options.ends_with(" --kind mesh"), "{shown}");
    let again = as_options
        .strip_prefix("  as options: ")
        .expect("the options");
    folder
        .run_line(&format!("card make --out again.card {again}"))
        .expect_status(0);
    assert_eq!(folder.read("again.card"), folder.read("mesh.card"));
    let json = folder.run_line("card show mesh.card --json");
    assert!(json.text().contains("\"kind\":\"mesh\""), "{json}");
    // What the card says may be said again, and nothing else.
    folder.write("0.shard", pair(&parts([2, 3]).bytes(), 10));
    let check = "check 0.shard --card mesh.card";
    folder.run_line(check).expect_status(0);
    folder
        .run_line(&format!("{check} --kind mesh"))
        .expect_status(0);
    let run = folder.run_line(&format!("{check} --kind volume"));
    let told = "--kind volume is given, but mesh.card is the card of a mesh\n";
    assert!(run.expect_status(2).stderr.starts_with(told), "{run}");
    // No cell leads to a net.
    for line in [
        "locate 0,0,0",
        "cover 0,0,0 9,9,9",
        "get 0.shard --cell 0,0,0",
    ] {
        let run = folder.run_line(&format!("{line} --card mesh.card"));
        run.expect_status(2);
        assert!(run.stderr.contains("the settings of a mesh"), "{run}");
    }
    let cell = folder.run_line("cell 21 --card mesh.card");
    cell.expect_status(0);
}

#[test]
fn json_members() {
    let folder = Folder::new();
    let file = pair(&parts([2, 3]).bytes(), 10);
    folder.write("0.shard", &file);
    let words = options(&NETS);
    let run = folder.run_line(&format!("list 0.shard --json {words}"));
    assert_eq!(
        run.expect_status(0).lines()[1],
        "{\"path\":\"0.shard\",\"result\":\"chunk\",\"id\":10,\"minishard\":0,\"start\":132,\
         \"length\":80,\"fragments_start\":122,\"fragments_length\":10}"
    );
    let run = folder.run_line(&format!("list 0.shard --fragments --json {words}"));
    assert_eq!(
        run.expect_status(0).lines()[3],
        "{\"path\":\"0.shard\",\"result\":\"fragment\",\"id\":10,\"minishard\":0,\"level\":0,\
         \"node\":1,\"start\":127,\"length\":5}"
    );
    let mut changed = file.clone();
    changed[129] = b'x';
    folder.write("other", &changed);
    let run = folder.run_line(&format!("same 0.shard other --shard 0 --json {words}"));
    assert_eq!(
        run.expect_status(1).lines()[0],
        "{\"path\":\"0.shard\",\"result\":\"different\",\"id\":10,\"level\":0,\"node\":1,\
         \"first_difference\":2}"
    );
    assert!(content_of(&NETS, 0, &changed).is_ok());
}
