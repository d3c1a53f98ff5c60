//! The depth of every load there is, through C and through Rust.

use calls::{Calls, Class, Depth, InC, Library};

const HEADER: &str = include_str!("../../../include/frame_builder.h");

/// A flow of so many cells, the only one with cells at input 3 and at output 2.
fn list_of(cells: u16) -> [u16; 12] {
    [1, 1, 1, 4, 3, 2, cells, 2, 3, 1, 0, 1]
}

/// The depths of a flow, an input and an output, all of one load, which must be the same.
fn depth_of_load(calls: &dyn Calls, slots: u64, cells: u16) -> Depth {
    let depth = |class| calls.depth(3, slots, &list_of(cells), class).unwrap();
    let of_flow = depth(Class::Flow { number: 2 });
    assert_eq!(depth(Class::Input { port: 3 }), of_flow, "{cells}");
    assert_eq!(depth(Class::Output { port: 2 }), of_flow, "{cells}");
    of_flow
}

/// Compares every load of every size with the reference, and the largest answers with what the header says.
fn has_every_depth(calls: &dyn Calls) {
    let (mut parts, mut cells) = (0, 0);
    for slots in (0..=10).map(|k| 1 << k) {
        for load in 0..=slots as u16 {
            let given = depth_of_load(calls, slots, load);
            let right = depth_of_load(&calls::Reference, slots, load);
            assert_eq!(given, right, "{load} cells in {slots} slots");
            (parts, cells) = (parts.max(given.parts), cells.max(given.cells));
        }
    }
    assert_eq!((parts, cells), (7_054, 8));
    let values = "the bound, 0 to 7,054    the cells to order, 0 to 8";
    assert!(HEADER.contains(values));
}

#[test]
fn every_load_through_rust() {
    has_every_depth(&Library::default());
}

#[test]
fn every_load_through_c() {
    has_every_depth(&InC::default());
}
