//! The program `locate`, run on random inputs, against the reference.

use reference::card::{self, Card};
use std::env;
use std::fs::File;
use std::io::Write;
use std::os::fd::OwnedFd;
use std::os::unix::net::UnixStream;
use std::path::PathBuf;
use std::process::{Command, Stdio};
use testkit::{places, Rng};

const SAMPLES: usize = 1_500;

/// The program: in the folder that the variable names, else where the
/// repository's build leaves it.
fn program() -> PathBuf {
    let folder = env::var_os("CORONAGAMBA_BIN_DIR").map_or_else(
        || PathBuf::from(env!("CARGO_MANIFEST_DIR")).join("../../target/bin"),
        PathBuf::from,
    );
    folder.join("locate")
}

/// What the program prints for this input.
fn run(input: &[u8]) -> Vec<u8> {
    let path = program();
    let mut child = Command::new(&path)
        .stdin(Stdio::piped())
        .stdout(Stdio::piped())
        .spawn()
        .unwrap_or_else(|error| panic!("{} can't be run: {error}", path.display()));
    let mut stdin = child.stdin.take().expect("a piped input");
    std::thread::scope(|scope| {
        // A program that has seen enough may close its input early.
        scope.spawn(move || stdin.write_all(input).ok());
        child.wait_with_output().expect("the program ends").stdout
    })
}

/// A card and cells of its volume, with an end that may be cut.
fn input(rng: &mut Rng) -> Vec<u8> {
    let (card, bytes) = loop {
        let mut volume = places::volume(rng);
        if rng.once_in(2) {
            volume.offset = [0; 3];
        }
        let mut sharding = places::wild_sharding(rng);
        sharding.kind = rng.below(2) as u8;
        let card = Card { sharding, volume };
        if let Ok(bytes) = card::to_bytes(&card) {
            break (card, bytes);
        }
    };
    let mut input = (bytes.len() as u16).to_le_bytes().to_vec();
    input.extend(bytes);
    for _ in 0..rng.index(30) {
        let cell = places::cell(rng, &card.volume);
        input.extend(cell.into_iter().flat_map(u32::to_le_bytes));
    }
    if rng.once_in(3) {
        input.truncate(rng.index(input.len() + 1));
    }
    if rng.once_in(4) && !input.is_empty() {
        let at = rng.index(input.len().min(63));
        input[at] = rng.edge(8) as u8;
    }
    input
}

#[test]
fn random_inputs() {
    let mut rng = Rng::new(1);
    let mut seen = String::new();
    for _ in 0..SAMPLES {
        let input = input(&mut rng);
        let output = run(&input);
        assert_eq!(output, reference::locate::locate(&input), "{input:?}");
        seen += &String::from_utf8_lossy(&output);
    }
    for line in ["refused 1", "refused 2", "refused 3", "refused 14", "cut"] {
        assert!(seen.lines().any(|seen| seen == line), "{line} is printed");
    }
    assert!(seen.lines().any(|line| line.contains(".shard ")));
}

#[test]
fn a_long_input() {
    let mut rng = Rng::new(2);
    let mut long = loop {
        let start = input(&mut rng);
        let bytes = start.get(2..48).unwrap_or_default();
        if start.starts_with(&[46, 0]) && card::read(bytes).is_ok() {
            break start[..48].to_vec();
        }
    };
    let card = card::read(&long[2..48]).expect("the card was read before");
    for _ in 0..50_000 {
        let cell = places::cell(&mut rng, &card.volume);
        long.extend(cell.into_iter().flat_map(u32::to_le_bytes));
    }
    long.push(0);
    assert!(run(&long) == reference::locate::locate(&long));
}

/// An input of a kind with an offset and three cells, one of them outside the
/// grid.
fn small_input(kind: u8, offset: [i32; 3]) -> Vec<u8> {
    let card = Card {
        sharding: reference::sharding::Sharding {
            preshift: 1,
            hash: 1,
            minishard_bits: 3,
            shard_bits: 9,
            kind,
        },
        volume: reference::grid::Volume {
            size: [1000, 70, 65],
            chunk: [64, 64, 64],
            offset,
        },
    };
    let bytes = card::to_bytes(&card).expect("an allowed card");
    let mut input = (bytes.len() as u16).to_le_bytes().to_vec();
    input.extend(bytes);
    for number in [15, 1, 1, 16, 0, 0, 3, 1, 0u32] {
        input.extend(number.to_le_bytes());
    }
    input
}

/// Every beginning of four inputs, the empty one among them.
#[test]
fn cut_inputs_at_every_length() {
    let (none, some) = ([0; 3], [-64, 7, i32::MIN]);
    for (kind, offset) in [(0, none), (0, some), (1, none), (1, some)] {
        let whole = small_input(kind, offset);
        for length in 0..=whole.len() {
            let input = &whole[..length];
            assert_eq!(run(input), reference::locate::locate(input), "{length}");
        }
    }
}

/// Every card length with enough bytes behind it: only 46, 50, 61 and 65 are a
/// card's, and these bytes are one of the first.
#[test]
fn other_card_lengths() {
    for length in (0..200).chain([255, 256, 257, 1000, u16::MAX]) {
        let mut input = length.to_le_bytes().to_vec();
        input.extend(&small_input(0, [0; 3])[2..]);
        input.resize(2 + usize::from(length) + 24, 0);
        let expected = reference::locate::locate(&input);
        assert_eq!(run(&input), expected, "{length}");
        if length != 46 {
            assert_eq!(expected, b"refused 14\n");
        }
    }
}

/// No card and no cell is told of what can't be read.
#[test]
fn what_it_can_not_read() {
    let folder = File::open(env!("CARGO_MANIFEST_DIR")).expect("a folder");
    let write_only = File::options().write(true).open("/dev/null");
    for input in [folder, write_only.expect("a file that takes all")] {
        let output = Command::new(program())
            .stdin(input)
            .output()
            .expect("the program runs");
        assert_eq!(String::from_utf8_lossy(&output.stdout), "unreadable\n");
    }
}

/// A read that fails behind what came: the whole cells before it are told, and
/// neither `cut` nor a refused card.
#[test]
fn a_read_that_fails() {
    let whole = small_input(0, [0; 3]);
    let lines = run(&whole);
    for length in 0..=whole.len() {
        let (input, mut other) = UnixStream::pair().expect("two ends");
        input.set_nonblocking(true).expect("reads that do not wait");
        other
            .write_all(&whole[..length])
            .expect("room for the input");
        let output = Command::new(program())
            .stdin(OwnedFd::from(input))
            .output()
            .expect("the program runs");
        let cells = length.saturating_sub(48) / 12;
        let told = lines.split_inclusive(|&byte| byte == b'\n').take(cells);
        let expected = [told.flatten().copied().collect(), b"unreadable\n".to_vec()].concat();
        assert_eq!(output.stdout, expected, "{length}");
    }
}

/// A mesh's cells are where a volume's are.
#[test]
fn the_kind_is_not_printed() {
    let (volume, mesh) = (small_input(0, [0; 3]), small_input(1, [0; 3]));
    assert_eq!((volume[0], mesh[0]), (46, 50));
    assert_eq!(run(&mesh), run(&volume));
}

#[test]
fn the_case_of_the_paper() {
    let card = Card {
        sharding: reference::sharding::Sharding {
            preshift: 0,
            hash: 0,
            minishard_bits: 1,
            shard_bits: 2,
            kind: 0,
        },
        volume: reference::grid::Volume {
            size: [100; 3],
            chunk: [64; 3],
            offset: [0; 3],
        },
    };
    let mut input = vec![46, 0];
    input.extend(card::to_bytes(&card).expect("an allowed card"));
    for number in [1, 0, 1, 1, 1, 0, 2, 0, 0u32] {
        input.extend(number.to_le_bytes());
    }
    assert_eq!(
        String::from_utf8_lossy(&run(&input)),
        "5 2.shard 1\n3 1.shard 1\nrefused 2\n"
    );
}
