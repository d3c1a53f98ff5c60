//! Build, where the limit of each link is the slots, and the printed sheet.

use calls::{Library, Reference, SheetProgram};
use tests::Face;

use crate::asked::{build, built};
use crate::lists::{with, zeros, SEAM, TABLE_7, TABLE_7_FRAME};
use crate::Builders;

/// The answer to a load that fits: 0 and the entries of its frame.
fn framed(frame: &[u16]) -> Vec<i64> {
    let entries = frame.iter().copied().map(i64::from);
    [0].into_iter().chain(entries).collect()
}

/// Loads that fit, among them two flows of one pair in either order.
#[test]
fn frames() {
    let every_pair = [1, 1, 1, 1, 1, 2, 1, 1, 2, 1, 1, 1, 2, 2, 1, 1];
    let own_numbers = [1, 1, 1, 1, 2, 2, 1, 1, 3, 3, 1, 1, 4, 4, 1, 1];
    let one_in_each_slot = [1, 0, 0, 0, 0, 0, 3, 0, 0, 2, 0, 0, 0, 0, 0, 4];
    cases! {
        "1 cell in 1 slot": build(1, 1, &[1, 1, 1, 1]) => [0, 1];
        "3 cells in 4 slots": build(1, 4, &[1, 1, 3, 1]) => [0, 1, 1, 1, 0];
        "1 cell of every pair": build(2, 2, &every_pair) => [0, 1, 4, 2, 3];
        "each port to its own number": build(4, 4, &own_numbers) => framed(&one_in_each_slot);
        "the sheet": build(4, 4, &TABLE_7) => framed(&TABLE_7_FRAME);
        "a full input": build(2, 4, &[1, 1, 2, 1, 1, 2, 2, 1]) => [0, 1, 0, 2, 0, 1, 0, 2, 0];
        "3 and 1 cells of a pair": build(1, 4, &[1, 1, 3, 1, 1, 1, 1, 1]) => [0, 1, 1, 1, 2];
        "1 and 3 cells of a pair": build(1, 4, &[1, 1, 1, 1, 1, 1, 3, 1]) => [0, 1, 2, 2, 2];
        "the frame before the seam": build(2, 2, &SEAM[0]) => [0, 2, 0, 0, 0];
        "the frame behind the seam": build(2, 2, &SEAM[1]) => [0, 1, 0, 2, 0];
    }
}

/// A cell too many.
#[test]
fn overloads() {
    cases! {
        "an input": build(2, 4, &[1, 1, 3, 1, 1, 2, 2, 1]) => [5, 1, 5];
        "an output": build(2, 4, &[1, 1, 3, 1, 2, 1, 2, 1]) => [6, 1, 5];
        "both, by one flow": build(2, 4, &[1, 1, 5, 1]) => [5, 1, 5];
        "both, by two flows": build(2, 4, &[1, 1, 2, 1, 1, 1, 3, 1]) => [5, 1, 5];
    }
}

/// 1 and 2 on either side of their bounds.
#[test]
fn sizes() {
    let last_input = with(zeros(16), [(15, 1)]);
    cases! {
        "0 ports": build(0, 1, &[]) => [1];
        "16 ports": build(16, 1, &[16, 16, 1, 1]) => framed(&last_input);
        "17 ports": build(17, 1, &[]) => [1];
        "3 slots": build(1, 3, &[]) => [2];
        "1,024 slots": build(1, 1_024, &[1, 1, 1_024, 1]) => framed(&[1; 1_024]);
        "2,048 slots": build(1, 2_048, &[]) => [2];
    }
}

/// All loads zero: every entry is 0, for all ports and slots, without a flow, with one and with two.
#[test]
fn idle_loads() {
    let builders = Builders::default();
    for Face { name, calls } in builders.faces() {
        for (ports, k) in (1..=16).flat_map(|ports| (0..=10).map(move |k| (ports, k))) {
            let last = ports as u16;
            for list in [&[][..], &[1, last, 0, 1], &[last, 1, 0, 1, last, 1, 0, 1]] {
                let frame = built(calls, ports, 1 << k, list);
                let idle = frame.is_ok_and(|frame| frame.iter().all(|&entry| entry == 0));
                assert!(idle, "{list:?} at {ports} ports, k = {k}, through {name}");
            }
        }
    }
}

/// What the sheet program prints for document 01's sheet.
#[test]
fn printed_sheet() {
    let sheet = include_bytes!("../../../../examples/table7.sheet");
    let printed = include_bytes!("../../../../examples/table7.answer");
    assert_eq!(Reference.respond(sheet), printed, "by the reference");
    let by_library = Library::default().respond(sheet);
    assert_eq!(by_library, printed, "by the proved program");
}
