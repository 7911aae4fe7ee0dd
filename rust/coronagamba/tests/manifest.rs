//! Mesh manifests: the longest one, and the cases of the paper.

use coronagamba::manifest::Manifest;

#[test]
fn lengths_around_16_mib() {
    let levels = 1;
    let nodes = ((16_777_216 - 28 - 20 * levels) / 16) as u32;
    let mut items = vec![0u32; 7 + 5];
    items[..3].fill(1f32.to_bits());
    items[6] = levels as u32;
    items[11] = nodes;
    let mut bytes: Vec<u8> = items.into_iter().flat_map(u32::to_le_bytes).collect();
    for axis in 0..3 {
        let row = (0..nodes).map(|n| if axis == 2 { n } else { 0 });
        bytes.extend(row.flat_map(u32::to_le_bytes));
    }
    bytes.resize(bytes.len() + 4 * nodes as usize, 0xff);
    assert_eq!(bytes.len(), 16_777_216);
    let last = u64::from(nodes) - 1;
    let manifest = Manifest::open(&bytes);
    assert_eq!(manifest.check(), Ok(()));
    let node = manifest.node(0, last).expect("the last node");
    assert_eq!(node.position, [0, 0, nodes - 1]);
    assert_eq!(node.start, last * u64::from(u32::MAX));
    bytes.extend([0; 16]);
    bytes[44..48].copy_from_slice(&(nodes + 1).to_le_bytes());
    assert_eq!(Manifest::open(&bytes).check().unwrap_err().number, 15);
}

#[test]
fn the_lengths_of_the_paper() {
    let bytes = |items: &[u32]| -> Vec<u8> {
        let bytes = items.iter().flat_map(|item| item.to_le_bytes());
        bytes.collect()
    };
    let one = 1f32.to_bits();
    let none = bytes(&[one, one, one, 0, 0, 0, 0]);
    assert_eq!((none.len(), Manifest::open(&none).check()), (28, Ok(())));
    let mut single = bytes(&[one, one, one, 0, 0, 0, 1, 0, 0, 0, 0, 1, 0, 0, 0, 9]);
    assert_eq!(
        (single.len(), Manifest::open(&single).check()),
        (64, Ok(()))
    );
    single.push(0);
    assert_eq!(Manifest::open(&single).check().unwrap_err().number, 15);
}

#[test]
fn the_corners_of_the_paper() {
    let mut items = vec![8f32.to_bits(); 3];
    items.extend([10f32.to_bits(); 3]);
    items.push(3);
    items.extend([0; 12]);
    items.extend([0, 0, 1, 3, 3, 3, 0]);
    let bytes: Vec<u8> = items.into_iter().flat_map(u32::to_le_bytes).collect();
    let corners = Manifest::open(&bytes).corners(2, 0).expect("sound");
    assert_eq!((corners.near, corners.far), ([106.0; 3], [138.0; 3]));
}
