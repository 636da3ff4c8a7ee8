//! Case Z, whose root is a joint, through the safe interface.

use gazrieksne::{Group, Planned, Refusal};

/// The bytes of words.
fn bytes(words: &[u16]) -> Vec<u8> {
    words.iter().flat_map(|w| w.to_le_bytes()).collect()
}

/// Z with this root capacity: M with services 2, 2, 0 and streams of 3 from the last to the others.
fn z(root: u16) -> Vec<u8> {
    bytes(&[
        3, 3, 2, 16, 22, 64, 76, 0, // header
        2, 2, 0, // services
        65535, root, 5, 0, 0, 0, 0, // cabinets
        0, 3, 1, 6, 2, 6, 1, //
        0, 3, 2, 2, 1, 6, 1, //
        2, 0, 3, 2, 1, 3, // streams
    ])
}

/// The refusal of a service on a joint.
const ON_JOINT: Refusal = Refusal {
    number: 15,
    group: Group::PlanWriter,
    count: 0,
};

const OF_JOINT: Planned = Planned {
    cost: 15,
    count: 28,
};
const OF_BOX: Planned = Planned {
    cost: 12,
    count: 36,
};

#[test]
fn checks() {
    assert_eq!(gazrieksne::check(&z(0), &[1, 2, 1]), Ok(15));
    let refusal = gazrieksne::check(&z(0), &[1, 2, 0]).unwrap_err();
    assert_eq!(refusal, ON_JOINT);
    assert!(refusal.to_string().contains("joint"));
    assert_eq!(gazrieksne::check(&z(1), &[1, 2, 0]), Ok(12));
}

#[test]
fn plans() {
    for (root, right, plan) in [(0, OF_JOINT, [1, 2, 1]), (1, OF_BOX, [1, 2, 0])] {
        let (mut output, mut costs, mut choices) = ([9; 3], [9; 24], [9; 24]);
        let planned = gazrieksne::plan(&z(root), &mut output, &mut costs, &mut choices);
        assert_eq!((planned, output), (Ok(right), plan));
    }
}

/// The root gets a power box and is a joint again; each edit leaves what keeping its sheet does.
#[test]
fn edits() {
    let (mut output, mut costs, mut choices) = ([9; 3], [9; 24], [9; 24]);
    let kept = gazrieksne::keep(&z(0), &mut output, &mut costs, &mut choices);
    assert_eq!((kept, output), (Ok(OF_JOINT), [1, 2, 1]));
    for (root, right, plan) in [(1, OF_BOX, [1, 2, 0]), (0, OF_JOINT, [1, 2, 1])] {
        let edited = gazrieksne::edit(&z(root), 0, &mut output, &mut costs, &mut choices);
        assert_eq!((edited, output), (Ok(right), plan));
        let (mut other, mut all, mut chosen) = ([0; 3], [0; 24], [0; 24]);
        let kept = gazrieksne::keep(&z(root), &mut other, &mut all, &mut chosen);
        assert_eq!((kept, other), (Ok(right), plan));
        assert_eq!((costs, choices), (all, chosen));
    }
}

/// The only cabinet is a joint: the empty set alone has a cost.
#[test]
fn kept_row_of_a_joint() {
    const NONE: u64 = 1_000_000_000_000_001;
    let words = [1, 1, 0, 16, 18, 32, 32, 0, 0, 65535, 0, 7, 0, 0, 0, 0];
    let (mut output, mut costs, mut choices) = ([9], [9; 2], [9; 2]);
    let kept = gazrieksne::keep(&bytes(&words), &mut output, &mut costs, &mut choices);
    assert_eq!(kept.map_err(|refusal| refusal.number), Err(12));
    assert_eq!((output, costs, choices), ([9], [0, NONE], [0, 0]));
}
