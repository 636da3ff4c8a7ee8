//! Paths, parts and counts worked out by hand.

use second::limits::NO_PARENT;
use second::path::{Paths, Step, path};
use second::splits::{count, part_before};
use second::{Cabinet, Pair, Sheet, Stream};

/// Cabinets 1 and 2 under the root, and 3 under 1.
fn fork() -> Sheet {
    let cabinet = |parent| Cabinet {
        parent,
        ..Cabinet::default()
    };
    Sheet {
        services: vec![1],
        cabinets: [NO_PARENT, 0, 0, 1].map(cabinet).to_vec(),
        ..Sheet::default()
    }
}

#[test]
fn paths_turn_where_they_meet() {
    let fork = fork();
    assert_eq!(path(&fork, 3, 2), [Step::Up(3), Step::Up(1), Step::Down(2)]);
    assert_eq!(path(&fork, 1, 3), [Step::Down(3)]);
    assert_eq!(path(&fork, 3, 0), [Step::Up(3), Step::Up(1)]);
    assert_eq!(path(&fork, 2, 2), []);
}

#[test]
fn parts_hold_descendants_with_larger_numbers() {
    let fork = fork();
    assert_eq!(part_before(&fork, 1), [0]);
    assert_eq!(part_before(&fork, 2), [0, 1, 3]);
    assert_eq!(part_before(&fork, 3), [1]);
}

#[test]
fn a_service_that_fits_on_a_larger_number_only() {
    let mut fork = fork();
    fork.cabinets[3].capacity = 1;
    // Before 1 and before 3 only the empty set: 2 each. Before 2 also the service itself: 3.
    assert_eq!(count(&fork, &Paths::new(&fork)), 7);
}

#[test]
fn a_service_that_is_barred_where_it_fits() {
    let mut fork = fork();
    fork.cabinets[0].capacity = 1;
    fork.cabinets[3].capacity = 1;
    // Before 3 only the empty set: 2. Before 1 and before 2 also the service itself: 3 each.
    assert_eq!(count(&fork, &Paths::new(&fork)), 8);
    fork.barred = vec![Pair::from_words([0, 0])];
    assert_eq!(count(&fork, &Paths::new(&fork)), 7);
    fork.barred.push(Pair::from_words([0, 3]));
    assert_eq!(count(&fork, &Paths::new(&fork)), 6);
}

#[test]
fn streams_to_services_elsewhere_load_the_part() {
    let mut sheet = Sheet {
        services: vec![1, 1],
        cabinets: vec![
            Cabinet::from_words([NO_PARENT, 0, 0, 0, 0, 0, 0]),
            Cabinet::from_words([0, 2, 0, 6, 0, 7, 0]),
            Cabinet::from_words([0, 0, 0, 0, 0, 0, 0]),
        ],
        streams: vec![Stream::from_words([0, 1, 5])],
        barred: vec![],
    };
    // Before 1: the empty set, 4. Before 2: the empty set, 4; service 1 alone, whose stream comes
    // down, 2; both together, 1; but not service 0 alone, whose stream goes up.
    assert_eq!(count(&sheet, &Paths::new(&sheet)), 11);
    sheet.cabinets[1].up_capacity = 7;
    assert_eq!(count(&sheet, &Paths::new(&sheet)), 13);
}
