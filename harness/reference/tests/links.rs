//! What the accuracy rule says of links.

mod ample;

use loads::{Seam, SEAMS};
use reference::wire::{deviation, Course, Frame, Whose};

/// What each slot of a chain has of a link, its load and its cells.
fn given(chain: &[Frame], output: u64, link: u64) -> Vec<(u64, u64)> {
    let course = Course::of(chain, Whose::Link { output, link });
    let slots = course.given.iter();
    slots.map(|slot| (slot.load, slot.cells)).collect()
}

/// Flows 1 and 2 are on link 2 of output 1, flow 3 on link 1 of it, flow 4 on link 2 of output 2. An entry counts for its flow's link
/// wherever it stands, and one that is no flow for none. The second list has flow 1 only, on link 1.
#[test]
fn a_link_has_the_cells_of_its_flows() {
    let frame = |list: &[u16]| Frame {
        ports: 2,
        slots: 2,
        list: list.to_vec(),
        entries: vec![2, 1, 4, 9],
    };
    let lists = [
        vec![1, 1, 5, 2, 1, 1, 7, 2, 2, 1, 11, 1, 2, 2, 13, 2],
        vec![1, 1, 5, 1],
    ];
    let chain = lists.map(|list| frame(&list));
    assert_eq!(given(&chain, 1, 2), [(12, 2), (12, 0), (0, 0), (0, 0)]);
    assert_eq!(given(&chain, 1, 1), [(11, 0), (11, 0), (5, 1), (5, 0)]);
    assert_eq!(given(&chain, 2, 2), [(13, 0), (13, 1), (0, 0), (0, 0)]);
    assert_eq!(given(&chain, 2, 1), [(0, 0); 4]);
}

/// The frame of a list of the seam, both flows put on link 3 of their outputs.
fn on_link_3(seam: Seam, list: [u16; 8]) -> Frame {
    let mut list = list.to_vec();
    for link in list.iter_mut().skip(3).step_by(4) {
        *link = 3;
    }
    let mut entries = vec![0xa5a5; 2 * seam.slots as usize];
    ample::build(2, seam.slots, &list, &mut entries).expect("the load fits");
    Frame {
        ports: 2,
        slots: seam.slots,
        list,
        entries,
    }
}

/// The flow of a seam is the only one of its link, which strays with it as far as any load can.
#[test]
fn a_link_strays_as_far_as_a_flow_can() {
    for seam in SEAMS {
        let chain = [seam.alone(), seam.beside()].map(|list| on_link_3(seam, list));
        let course = Course::of(&chain, Whose::Link { output: 2, link: 3 });
        let run = course.furthest_run();
        assert_eq!(course.lead(run), -2 * deviation(seam.k), "{seam:?}");
        assert!(course.has_its_share(run), "{seam:?}");
        let idle = Course::of(&chain, Whose::Link { output: 2, link: 1 });
        assert!(idle.given.iter().all(|slot| slot.load + slot.cells == 0));
    }
}
