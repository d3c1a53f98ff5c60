//! Odd counts settled, worked by hand.

mod ample;

use loads::{flows_of_matrix, list_of};
use reference::work::{bound, bound_by_size, odd_counts, settled};
use reference::MOST_FLOWS;

const HEADER: &str = include_str!("../../../include/frame_builder.h");

/// Flows 3 and 4 of the whole frame, and in each half the four flows that it has.
const TABLE_7_FRAME: [u16; 16] = [1, 0, 0, 5, 2, 0, 0, 3, 1, 0, 0, 4, 2, 0, 0, 5];

#[test]
fn counted_in_frames() {
    let cases: [(u64, &[u16], u64); 9] = [
        (1, &[1], 0),
        (2, &[2, 3], 0),
        (2, &[1, 4, 2, 3], 4),
        // Two flows of one pair, each odd in the whole frame and in the half that has its cell.
        (1, &[1, 0, 512, 0], 4),
        // Three cells in all, two in the first half, one in the second.
        (1, &[1, 1, 1, 0], 2),
        (1, &[1, 0, 1, 0], 2),
        // No load has this frame: its halves have two cells and none.
        (1, &[1, 1, 0, 0], 0),
        (4, &TABLE_7_FRAME, 2 + 4 + 4),
        (16, &[0; 16_384], 0),
    ];
    for (ports, frame, number) in cases {
        assert_eq!(settled(ports, frame), number, "{frame:?}");
    }
}

#[test]
fn counted_in_one_block() {
    assert_eq!(odd_counts(&TABLE_7_FRAME), 2);
    assert_eq!(odd_counts(&TABLE_7_FRAME[..8]), 4);
    assert_eq!(odd_counts(&TABLE_7_FRAME[..4]), 2);
}

#[test]
fn answered_by_build() {
    let table_7 = [1, 1, 2, 1, 1, 2, 2, 1, 4, 1, 1, 1, 4, 2, 1, 1, 4, 4, 2, 1];
    let own_numbers = [1, 1, 1, 1, 2, 2, 1, 1, 3, 3, 1, 1, 4, 4, 1, 1];
    let every_pair = list_of(&flows_of_matrix(16, &[1; 256]));
    let cases: [(u64, u64, &[u16], u64); 9] = [
        (1, 1, &[1, 1, 1, 1], 0),
        (2, 2, &list_of(&flows_of_matrix(2, &[1; 4])), 4),
        (1, 4, &[1, 1, 3, 1], 2),
        // Sound and picture: the odd counts of each.
        (1, 4, &[1, 1, 3, 1, 1, 1, 1, 1], 4),
        (4, 4, &table_7, 10),
        // Each cell in a block of four slots and in one of two.
        (4, 4, &own_numbers, 8),
        (16, 1_024, &[], 0),
        (16, 1, &every_pair[..4], 0),
        // Each cell in a block of 16 slots, of eight, of four and of two.
        (16, 16, &every_pair, 1_024),
    ];
    for (ports, slots, list, number) in cases {
        let mut frame = vec![0xa5a5; (ports * slots) as usize];
        let answer = ample::build(ports, slots, list, &mut frame);
        assert_eq!(answer, Ok(number), "{ports} x {slots}");
    }
}

/// The numbers that the header has for the largest switch and for one flow for each pair of it.
#[test]
fn the_most_in_the_header() {
    let says = |words: &str| HEADER.replace("\n *", "").contains(words);
    assert_eq!(bound_by_size(16, MOST_FLOWS as u64, 10), 97_792);
    assert!(says("97,792 at most for 16 x 1,024"));
    assert_eq!(bound(16, 4), 1_024);
    assert!(says("1,024 for 16 x 16"));
}
