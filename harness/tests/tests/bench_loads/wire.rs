//! Loads on the wire: the cells of a run, its share and the bound of the accuracy rule.

use calls::Calls;
use reference::wire::{demanded, is_chain, Course, Frame, Run};
use tests::Face;

use crate::asked::{built, flow};
use crate::lists::{SEAM, TABLE_7};
use crate::Builders;

/// What the frames of two lists, one after the other, give a flow.
fn course(calls: &dyn Calls, ports: u64, slots: u64, lists: [&[u16]; 2], number: u64) -> Course {
    let chain = lists.map(|list| Frame {
        ports,
        slots,
        list: list.to_vec(),
        entries: built(calls, ports, slots, list).expect("the load fits"),
    });
    assert!(is_chain(&chain));
    Course::of(&chain, flow(number))
}

/// Slots 4 and 1 have two cells of flow 5. Their share is 1 cell, and the bound for k = 2 is 5/3.
#[test]
fn flow_5_of_the_sheet() {
    let run = Run {
        start: 3,
        length: 2,
    };
    let builders = Builders::default();
    for Face { name, calls } in builders.faces() {
        let course = course(calls, 4, 4, [&TABLE_7; 2], 5);
        assert_eq!(course.cells(run), 2, "through {name}");
        assert_eq!(course.share(run), 4, "through {name}");
        assert_eq!(course.lead(run), 4, "through {name}");
        assert!(course.has_its_share(run), "through {name}");
    }
    assert_eq!(demanded(2), 5 * 4);
}

/// The last slot of the one frame and the first of the other have no cell of flow 2. Their share is 1 cell, which is the bound for k = 1.
#[test]
fn flow_2_at_the_seam() {
    let run = Run {
        start: 1,
        length: 2,
    };
    // Each frame's share, a half, rounded down would hide the whole difference.
    let rounded: u128 = SEAM.iter().map(|list| u128::from(list[6]) / 2).sum();
    let builders = Builders::default();
    for Face { name, calls } in builders.faces() {
        let course = course(calls, 2, 2, [&SEAM[0], &SEAM[1]], 2);
        assert_eq!(course.cells(run), 0, "through {name}");
        assert_eq!(course.cells(run), rounded, "through {name}");
        assert_eq!(course.share(run), 2, "through {name}");
        assert_eq!(3 * course.lead(run), -6, "through {name}");
        assert!(course.has_its_share(run), "through {name}");
        assert_eq!(course.furthest_run(), run, "through {name}");
    }
    assert_eq!(demanded(1), 6);
}
