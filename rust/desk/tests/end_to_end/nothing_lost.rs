//! Nothing is ever lost: no half file under a final name, no file overwritten
//! unasked, no input changed, whatever ends the run.

use crate::shards::options;
use crate::support::{Folder, Run, PROGRAM};
use reference::names::shard_name;
use reference::settle::settled_form;
use reference::shard::list;
use reference::sharding::Sharding;
use std::collections::BTreeMap;
use std::fs;
use std::os::unix::fs::symlink;
use std::process::{Command, Stdio};
use std::thread::sleep;
use std::time::Duration;
use testkit::shards::{lay_out, Content};
use testkit::Rng;

const SHARDING: Sharding = Sharding {
    preshift: 0,
    hash: 0,
    minishard_bits: 1,
    shard_bits: 6,
    kind: 0,
};

/// A folder of shards, `deposit`, and the settled forms that they must get.
struct Deposit {
    folder: Folder,
    forms: BTreeMap<String, Vec<u8>>,
}

impl Deposit {
    /// A deposit of this many shards; `size` gives the length of a chunk in
    /// the shard of that number.
    fn new(count: u64, size: impl Fn(u64) -> usize) -> Self {
        let rng = &mut Rng::new(count);
        let folder = Folder::new();
        let mut forms = BTreeMap::new();
        for number in 0..count {
            let ids = (0..6).map(|i| (i % 2) + 2 * number + 128 * i);
            let content: Content = ids.map(|id| (id, rng.bytes(size(number)))).collect();
            let name = shard_name(&SHARDING, number).expect("a shard");
            let listed: Vec<_> = content.iter().map(|(id, b)| (*id, b.as_slice())).collect();
            let file = lay_out(rng, &SHARDING, &content);
            folder.write(format!("deposit/{name}"), file);
            forms.insert(name, settled_form(&SHARDING, &listed));
        }
        Deposit { folder, forms }
    }

    /// Writes each chunk to a file of its own, named as in a row of chunks of one
    /// voxel, in which a cell's key is its place.
    fn loosen(&self, under: &str) {
        for (name, form) in &self.forms {
            let number = u64::from_str_radix(name.trim_end_matches(".shard"), 16);
            let number = number.expect("the name of a shard");
            for entry in list(&SHARDING, number, form).expect("a sound shard") {
                let name = format!("{}-{}_0-1_0-1", entry.id, entry.id + 1);
                self.folder
                    .write(format!("{under}/{name}"), entry.bytes(form));
            }
        }
    }

    /// The words of a run that settles all of it.
    fn line(&self) -> String {
        format!(
            "settle --drop-unlisted deposit --out settled {}",
            options(&SHARDING)
        )
    }

    /// How many final names there are. Panics where one is not whole.
    fn whole(&self, under: &str) -> usize {
        if !self.folder.at(under).exists() {
            return 0;
        }
        let names = self.folder.names(under);
        let finals = names.iter().filter(|name| !name.starts_with('.'));
        finals
            .inspect(|name| {
                let file = self.folder.read(format!("{under}/{name}"));
                let form = self.forms.get(*name).expect("the name of a shard");
                assert!(
                    file == *form,
                    "{name} has {} of {} bytes",
                    file.len(),
                    form.len()
                );
            })
            .count()
    }

    /// Panics unless all settled forms are there and nothing else.
    fn finished(&self, under: &str) {
        let names: Vec<&String> = self.forms.keys().collect();
        assert_eq!(self.folder.names(under).iter().collect::<Vec<_>>(), names);
        assert_eq!(self.whole(under), self.forms.len());
    }

    /// How many entries the output folder has, without looking at them.
    fn entries(&self) -> usize {
        fs::read_dir(self.folder.at("settled")).map_or(0, |entries| entries.count())
    }
}

/// Kills the run of a line, which makes the forms, so many times, and then lets it
/// end.
fn killed_at_random_moments(deposit: &Deposit, line: &str, rounds: u64) {
    let rng = &mut Rng::new(9);
    let (mut midway, mut parts) = (0, 0);
    for round in 0..rounds {
        if round % 3 == 0 {
            // Starts anew; the other rounds go on where the last was killed.
            let _ = fs::remove_dir_all(deposit.folder.at("settled"));
        }
        let mut child = deposit
            .folder
            .program()
            .args(line.split_whitespace())
            .stdout(Stdio::null())
            .stderr(Stdio::null())
            .spawn()
            .expect("the program starts");
        // The moment: some number of outputs, then a few microseconds.
        let outputs = rng.index(64);
        while deposit.entries() < outputs && child.try_wait().expect("a child").is_none() {
            sleep(Duration::from_micros(50));
        }
        sleep(Duration::from_micros(rng.below(3_000)));
        child.kill().expect("killed");
        child.wait().expect("ended");
        let whole = deposit.whole("settled");
        midway += u64::from(0 < whole && whole < 64);
        parts += u64::from(deposit.entries() > whole);
    }
    // Otherwise nothing was tried.
    let least = rounds / 8;
    assert!(midway > least && parts > least, "{midway} {parts}");
    deposit.folder.run_line(line).expect_status(0);
    deposit.finished("settled");
}

#[test]
fn killed_at_random_moments_while_settling() {
    let deposit = Deposit::new(64, |_| 40_000);
    killed_at_random_moments(&deposit, &deposit.line(), 40);
}

#[test]
fn killed_at_random_moments_while_packing() {
    let deposit = Deposit::new(64, |_| 40_000);
    deposit.loosen("chunks");
    let volume = "--size 1024,1,1 --chunk 1,1,1";
    let line = format!("pack chunks --out settled {volume} {}", options(&SHARDING));
    killed_at_random_moments(&deposit, &line, 20);
}

#[test]
fn several_runs_into_one_folder() {
    let deposit = Deposit::new(64, |_| 2_000);
    let line = deposit.line();
    let start = |_| {
        let mut program = deposit.folder.program();
        program.args(line.split_whitespace()).stdout(Stdio::piped());
        program
            .stderr(Stdio::piped())
            .spawn()
            .expect("the program starts")
    };
    let runs: Vec<_> = (0..3).map(start).collect();
    for run in runs {
        let output = run.wait_with_output().expect("ended");
        Run::told(line.clone(), output).expect_status(0);
    }
    deposit.finished("settled");
}

/// Runs a script in a mount namespace of its own, where that is allowed: as
/// root, or as root of a user namespace.
fn with_mounts(folder: &Folder, script: &str, arguments: &[&str]) -> Option<Run> {
    let allowed = |options: &[&str]| {
        let mut probe = Command::new("unshare");
        probe
            .args(options)
            .args(["sh", "-c", "mount -t tmpfs none ."]);
        let probe = probe.current_dir(folder.make("probe")).output();
        probe.is_ok_and(|output| output.status.success())
    };
    let options = [&["--mount"][..], &["--map-root-user", "--mount"]]
        .into_iter()
        .find(|options| allowed(options))?;
    let mut command = Command::new("unshare");
    command.args(options).args(["sh", "-c", script, PROGRAM]);
    Some(Run::of(command.args(arguments).current_dir(folder.path())))
}

#[test]
fn a_full_disk() {
    // Small shards fit, large ones do not.
    let deposit = Deposit::new(24, |number| if number % 3 == 0 { 60_000 } else { 300 });
    deposit.folder.make("disk");
    let script = r#"
        mount -t tmpfs -o size=8m none disk || exit 99
        head -c 7200k /dev/zero >disk/filler || exit 99
        "$0" "$@" >first.out 2>first.err
        echo $? >first.status
        cp -R disk/settled first
        rm disk/filler
        "$0" "$@" >second.out 2>second.err
        echo $? >second.status
        cp -R disk/settled second"#;
    let line = deposit
        .line()
        .replace("--out settled", "--out disk/settled");
    let words: Vec<&str> = line.split_whitespace().collect();
    let Some(run) = with_mounts(&deposit.folder, script, &words) else {
        eprintln!("no mount is allowed here; the file-size limit is tried alone");
        return;
    };
    run.expect_status(0);
    let folder = &deposit.folder;
    assert_eq!(
        folder.read("first.status"),
        b"3\n",
        "{}",
        String::from_utf8_lossy(&folder.read("first.err"))
    );
    let first = deposit.whole("first");
    assert!(
        first < 24 && first == folder.names("first").len(),
        "{first}"
    );
    assert_eq!(folder.read("second.status"), b"0\n");
    deposit.finished("second");
}

#[test]
fn a_file_size_limit() {
    let deposit = Deposit::new(24, |number| if number % 3 == 0 { 60_000 } else { 300 });
    let (folder, line) = (&deposit.folder, deposit.line());
    // The signal ends the run where the first large file is written.
    let signalled = folder.run_after("ulimit -c 0; ulimit -f 100", &line);
    assert_eq!(signalled.status, None, "{signalled}");
    assert!(deposit.whole("settled") <= 16);
    // Without the signal the write fails, and the run goes on.
    let failed = folder.run_after("trap '' XFSZ; ulimit -f 100", &line);
    failed.expect_status(3);
    assert_eq!(deposit.whole("settled"), 16, "{failed}");
    assert_eq!(folder.names("settled").len(), 16, "no part file stays");
    folder.run_line(&line).expect_status(0);
    deposit.finished("settled");
}

#[test]
fn a_failed_write_keeps_the_old_file() {
    let deposit = Deposit::new(1, |_| 60_000);
    let folder = &deposit.folder;
    let options = options(&SHARDING);
    folder.write("settled/00.shard", "old");
    folder.write("chunk", "old");
    let no_room = "trap '' XFSZ; ulimit -f 10";
    let settle = format!("settle --drop-unlisted deposit --out settled --force {options}");
    folder.run_after(no_room, &settle).expect_status(3);
    let get = format!("get deposit/00.shard 0 --out chunk --force {options}");
    folder.run_after(no_room, &get).expect_status(3);
    assert!(folder.read("settled/00.shard") == b"old");
    assert!(folder.read("chunk") == b"old");
    assert_eq!(folder.names("settled"), ["00.shard"]);
    assert_eq!(folder.names("."), ["chunk", "deposit", "settled"]);
}

#[test]
fn existing_outputs_are_kept_without_force() {
    let deposit = Deposit::new(4, |_| 100);
    let (folder, line) = (&deposit.folder, deposit.line());
    folder.write("settled/02.shard", "another file");
    folder.write("settled/01.shard", &deposit.forms["01.shard"]);
    let run = folder.run_line(&line);
    run.expect_status(2);
    assert!(
        run.text()
            .contains("02.shard: exists with other bytes (--force overwrites)"),
        "{run}"
    );
    assert!(run.text().contains("01.shard: already there"), "{run}");
    assert_eq!(folder.read("settled/02.shard"), b"another file");
    for name in ["00.shard", "01.shard", "03.shard"] {
        assert_eq!(folder.read(format!("settled/{name}")), deposit.forms[name]);
    }
    folder.run_line(&format!("{line} --force")).expect_status(0);
    deposit.finished("settled");
}

#[test]
fn single_outputs_are_kept_without_force() {
    let folder = Folder::with_sample();
    let card = "--card demo/deposit.card";
    let fields = "--preshift 1 --hash identity --minishard-bits 1 --shard-bits 3 --size 300,260,200 --chunk 64,64,64 --offset -64,0,0";
    let lines = [
        format!("get demo/copy-a/0.shard 0 --out out {card}"),
        format!("settle --drop-unlisted demo/copy-b/0.shard --out out {card}"),
        format!("card make --out out {fields}"),
    ];
    let expected = [
        b"cell 0,0,0 of the sample deposit\n".to_vec(),
        folder.read("demo/copy-a/0.shard"),
        folder.read("demo/deposit.card"),
    ];
    for (line, expected) in lines.iter().zip(expected) {
        folder.run_line(line).expect_status(0);
        assert_eq!(folder.read("out"), expected);
        folder.write("out", "mine");
        folder.run_line(line).expect_status(2);
        assert_eq!(folder.read("out"), b"mine");
        folder.run_line(&format!("{line} --force")).expect_status(0);
        assert_eq!(folder.read("out"), expected);
        fs::remove_file(folder.at("out")).expect("removed");
    }
    assert_eq!(folder.names("."), ["demo"]);
}

#[test]
fn an_input_is_never_its_own_output() {
    let deposit = Deposit::new(2, |_| 100);
    let folder = &deposit.folder;
    symlink("deposit", folder.at("link")).expect("a link");
    symlink("deposit/00.shard", folder.at("00.shard")).expect("a link");
    fs::hard_link(folder.at("deposit/00.shard"), folder.at("hard")).expect("a link");
    let before = [
        folder.read("deposit/00.shard"),
        folder.read("deposit/01.shard"),
    ];
    let options = options(&SHARDING);
    for paths in [
        "deposit --out deposit",
        "deposit --out deposit/",
        "deposit --out ./deposit/../deposit",
        "deposit --out link",
        "link --out deposit",
        "deposit/00.shard --out deposit/00.shard",
        "00.shard --out deposit/00.shard",
        "deposit/00.shard --out link/00.shard",
        "deposit/00.shard --out hard",
    ] {
        for force in ["", "--force"] {
            let run = folder.run_line(&format!("settle --drop-unlisted {paths} {force} {options}"));
            run.expect_status(2);
        }
        let after = [
            folder.read("deposit/00.shard"),
            folder.read("deposit/01.shard"),
        ];
        assert!(before == after, "{paths}");
    }
    assert_eq!(folder.names("deposit"), ["00.shard", "01.shard"]);
    assert_eq!(folder.names("."), ["00.shard", "deposit", "hard", "link"]);
    folder.run_line(&deposit.line()).expect_status(0);
}

#[test]
fn a_final_name_that_is_no_plain_file() {
    let deposit = Deposit::new(2, |_| 100);
    let (folder, line) = (&deposit.folder, deposit.line());
    folder.write("elsewhere", "mine");
    folder.make("settled");
    for force in ["", "--force"] {
        for target in ["../elsewhere", "../nothing"] {
            symlink(target, folder.at("settled/00.shard")).expect("a link");
            let run = folder.run_line(&format!("{line} {force}"));
            assert!(matches!(run.status, Some(2 | 3)), "{run}");
            let link = fs::read_link(folder.at("settled/00.shard")).expect("still a link");
            assert_eq!(link.to_str(), Some(target));
            fs::remove_file(folder.at("settled/00.shard")).expect("removed");
        }
        folder.make("settled/00.shard");
        let run = folder.run_line(&format!("{line} {force}"));
        assert!(matches!(run.status, Some(2 | 3)), "{run}");
        fs::remove_dir(folder.at("settled/00.shard")).expect("still an empty folder");
    }
    assert_eq!(folder.read("elsewhere"), b"mine");
    assert!(!folder.at("nothing").exists());
    // The other shard was settled all the same.
    assert_eq!(folder.names("settled"), ["01.shard"]);
    assert_eq!(deposit.whole("settled"), 1);
}

#[test]
fn an_output_folder_behind_a_link() {
    let deposit = Deposit::new(2, |_| 100);
    let folder = &deposit.folder;
    folder.make("real");
    symlink("real", folder.at("settled")).expect("a link");
    folder.run_line(&deposit.line()).expect_status(0);
    deposit.finished("real");
}

#[test]
fn part_files_of_killed_runs_go_away_and_others_stay() {
    let deposit = Deposit::new(2, |_| 100);
    let folder = &deposit.folder;
    // No process has this number.
    folder.write("settled/.00.shard.4194305.part", "half");
    folder.write("settled/.note", "mine");
    folder.write("settled/draft.part", "mine");
    folder.run_line(&deposit.line()).expect_status(0);
    assert_eq!(
        folder.names("settled"),
        [".note", "00.shard", "01.shard", "draft.part"]
    );
}

#[test]
fn inputs_are_never_changed() {
    let folder = Folder::with_sample();
    let stamp = |name: &str| {
        let path = folder.at(format!("demo/damaged/{name}"));
        let modified = fs::metadata(&path).and_then(|data| data.modified());
        (fs::read(path).expect("bytes"), modified.expect("a time"))
    };
    let names = folder.names("demo/damaged");
    let before: Vec<_> = names.iter().map(|name| stamp(name)).collect();
    for line in [
        "check demo/damaged",
        "settle --drop-unlisted demo/damaged --out settled",
        "settle --drop-unlisted demo/damaged --out settled --force",
        "same demo/damaged demo/copy-a",
        "list demo/damaged/0.shard",
        "get demo/damaged 0",
    ] {
        folder.run_line(&format!("{line} --card demo/deposit.card"));
    }
    assert_eq!(folder.names("demo/damaged"), names);
    let after: Vec<_> = names.iter().map(|name| stamp(name)).collect();
    assert!(before == after);
}

#[test]
fn the_card_is_never_an_output() {
    let folder = Folder::with_sample();
    let card = folder.read("demo/deposit.card");
    folder.write("my.card", &card);
    fs::hard_link(folder.at("my.card"), folder.at("hard")).expect("a link");
    for out in ["my.card", "./demo/../my.card", "hard"] {
        for force in ["", "--force"] {
            let line = format!(
                "settle --drop-unlisted demo/copy-b/5.shard --out {out} {force} --card my.card"
            );
            folder.run_line(&line).expect_status(2);
            assert!(folder.read("my.card") == card, "{line}");
        }
    }
    assert_eq!(folder.names("."), ["demo", "hard", "my.card"]);
}

#[test]
fn the_info_file_is_never_an_output() {
    let folder = Folder::with_sample();
    let info = folder.read("demo/info");
    fs::hard_link(folder.at("demo/info"), folder.at("hard")).expect("a link");
    for out in ["demo/info", "./demo/../demo/info", "hard"] {
        for command in [
            "settle demo/copy-b/5.shard",
            "get demo/copy-b 21",
            "card make",
        ] {
            let line = format!("{command} --out {out} --force --info demo/info --scale 0");
            folder.run_line(&line).expect_status(2);
            assert!(folder.read("demo/info") == info, "{line}");
        }
    }
    assert_eq!(folder.names("."), ["demo", "hard"]);
}

#[test]
fn an_output_is_none_of_all_inputs() {
    let folder = Folder::with_sample();
    let seventh = folder.read("demo/copy-b/7.shard");
    for jobs in ["1", "4"] {
        for force in ["", "--force"] {
            folder.write("in/0.shard", folder.read("demo/copy-b/0.shard"));
            folder.write("in/1.shard", folder.read("demo/copy-b/1.shard"));
            folder.write("out/0.shard", &seventh);
            symlink("../out/0.shard", folder.at("in/7.shard")).expect("a link");
            let run = folder.run_line(&format!(
                "settle --drop-unlisted in --out out --jobs {jobs} {force} --card demo/deposit.card"
            ));
            run.expect_status(2);
            assert!(run.stderr.contains("in/7.shard"), "{run}");
            assert!(folder.read("out/0.shard") == seventh, "{run}");
            // The others are settled all the same.
            for name in ["1.shard", "7.shard"] {
                let form = folder.read(format!("demo/copy-a/{name}"));
                assert!(folder.read(format!("out/{name}")) == form, "{name}");
            }
            fs::remove_dir_all(folder.at("in")).expect("removed");
            fs::remove_dir_all(folder.at("out")).expect("removed");
        }
    }
}

#[test]
fn part_files_of_an_output_go_away_whoever_writes_it() {
    let folder = Folder::with_sample();
    let card = "--card demo/deposit.card";
    let fields = "--preshift 1 --hash identity --minishard-bits 1 --shard-bits 3 --size 300,260,200 --chunk 64,64,64";
    for line in [
        format!("get demo/copy-a/0.shard 0 --out out {card}"),
        format!("card make --out out {fields}"),
        format!("settle --drop-unlisted demo/copy-b/0.shard --out out {card}"),
    ] {
        // No process has these numbers.
        folder.write(".out.4194305.part", "half");
        folder.write(".other.4194305.part", "mine");
        folder.run_line(&line).expect_status(0);
        assert_eq!(folder.names("."), [".other.4194305.part", "demo", "out"]);
        fs::remove_file(folder.at("out")).expect("removed");
    }
}

#[test]
fn an_input_that_looks_like_a_part_file_stays() {
    let folder = Folder::with_sample();
    let shard = folder.read("demo/copy-b/0.shard");
    folder.write(".out.4194305.part", &shard);
    let card = "--card demo/deposit.card";
    for line in [
        format!("settle --drop-unlisted .out.4194305.part --shard 0 --out out {card}"),
        format!("get .out.4194305.part 0 --shard 0 --out out {card}"),
    ] {
        folder.run_line(&line).expect_status(0);
        assert!(folder.read(".out.4194305.part") == shard, "{line}");
        fs::remove_file(folder.at("out")).expect("removed");
    }
}
