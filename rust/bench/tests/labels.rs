//! Plain Rust makes the tests of labels that the library makes, and unpacks to
//! the same bytes.

use bench::plain::labels::unpack;
use compare::sides;
use coronagamba::Labels;
use std::collections::BTreeSet;
use testkit::{labels, Rng};

#[test]
fn chunks_are_answered_alike() {
    let mut numbers = BTreeSet::new();
    for seed in 0..30_000 {
        let mut rng = Rng::new(seed);
        let (layout, chunk) = labels::any(&mut rng);
        // Plain Rust walks all blocks that a shape says.
        if layout.voxels() > 1 << 14 {
            continue;
        }
        let shape = sides::labels(&layout);
        let needed = shape.unpacked_length().unwrap_or(0) as usize;
        let room = needed.saturating_sub(rng.index(2));
        let (mut ours, mut theirs) = (vec![7; room], vec![7; room]);
        let library = Labels::open(shape, &chunk).unpack(&mut ours);
        let plain = unpack(&shape, &chunk, &mut theirs);
        assert_eq!(plain, library.map_err(|refusal| refusal.number), "{seed}");
        assert!(ours == theirs, "{seed}: the bytes");
        numbers.insert(plain.err().unwrap_or(0));
    }
    assert_eq!(Vec::from_iter(numbers), [0, 2, 13, 28, 29]);
}
