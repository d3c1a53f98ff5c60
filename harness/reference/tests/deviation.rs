//! The sharp bound of demand 3, held to its definition.

mod ample;
mod balanced;

use reference::wire::{demanded, deviation, Course, Frame, Slot};
use reference::Class;

#[test]
fn first_deviations() {
    let first: Vec<_> = (0..=10).map(deviation).collect();
    let by_hand = [0, 1, 3, 9, 23, 57, 135, 313, 711, 1_593, 3_527];
    assert_eq!(first, by_hand);
}

#[test]
fn no_more_than_demand_3_allows() {
    for k in 0..=10 {
        assert!(6 * deviation(k) <= demanded(k), "k = {k}");
        assert_eq!(6 * deviation(k) == demanded(k), k == 1, "k = {k}");
    }
}

/// How far the course strays from its beginning on.
fn furthest(course: &Course) -> i128 {
    course.lead(course.furthest_from_a_frame()).abs()
}

#[test]
fn the_furthest_of_all_balanced_frames() {
    for k in 0..=4 {
        let slots = 1 << k;
        let every = (0..=slots).flat_map(|m| balanced::frames(k, m));
        let furthest = every.map(|cells| {
            let load = cells.iter().sum();
            let given = cells.into_iter().map(|cells| Slot { load, cells });
            let given = given.collect();
            furthest(&Course { slots, given })
        });
        assert_eq!(furthest.max(), Some(deviation(k)), "k = {k}");
    }
}

#[test]
fn the_furthest_of_all_loads_of_one_input() {
    for k in 0..=6 {
        let slots = 1_u16 << k;
        let loads = (0..=slots).flat_map(|one| (0..=slots - one).map(move |other| [one, other]));
        let furthest = loads.map(|[one, other]| {
            let list = vec![1, 1, one, 1, 1, 2, other, 1];
            let mut entries = vec![0; 2 * usize::from(slots)];
            let slots = u64::from(slots);
            ample::build(2, slots, &list, &mut entries).unwrap();
            let class = Class::Flow { number: 2 };
            let ports = 2;
            let frame = Frame {
                ports,
                slots,
                list,
                entries,
            };
            furthest(&Course::of(&[frame], class))
        });
        assert_eq!(furthest.max(), Some(deviation(k)), "k = {k}");
    }
}
