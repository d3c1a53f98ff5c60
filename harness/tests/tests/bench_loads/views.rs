//! Slot view: the parts of frames, and 1, 2, 4 and 11.

use crate::asked::view;
use crate::lists::{zeros, TABLE_7_FRAME};

/// Every slot of a frame of any entries, and a frame of one slot and of one port.
#[test]
fn slots() {
    let frame = [1, 2, 0, 0, 512, 256, 65_535, 513];
    cases! {
        "slot 1 of 4": view(2, 4, &frame, 1) => [0, 1, 2];
        "slot 2 of 4": view(2, 4, &frame, 2) => [0, 0, 0];
        "slot 3 of 4": view(2, 4, &frame, 3) => [0, 512, 256];
        "slot 4 of 4": view(2, 4, &frame, 4) => [0, 65_535, 513];
        "the only slot": view(8, 1, &frame, 1) => [0, 1, 2, 0, 0, 512, 256, 65_535, 513];
        "slot 8 of one port": view(1, 8, &frame, 8) => [0, 513];
    }
}

/// Every slot of the frame of document 01's sheet.
#[test]
fn sheet_slots() {
    cases! {
        "slot 1": view(4, 4, &TABLE_7_FRAME, 1) => [0, 1, 0, 0, 5];
        "slot 2": view(4, 4, &TABLE_7_FRAME, 2) => [0, 2, 0, 0, 3];
        "slot 3": view(4, 4, &TABLE_7_FRAME, 3) => [0, 1, 0, 0, 4];
        "slot 4": view(4, 4, &TABLE_7_FRAME, 4) => [0, 2, 0, 0, 5];
    }
}

/// 1, 2, 4 and 11 on either side of their bounds.
#[test]
fn sizes() {
    cases! {
        "0 ports": view(0, 4, &zeros(0), 1) => [1];
        "16 ports": view(16, 1, &zeros(16), 1) => [0; 17];
        "17 ports": view(17, 1, &zeros(17), 1) => [1];
        "0 slots": view(1, 0, &zeros(0), 1) => [2];
        "1 slot": view(1, 1, &zeros(1), 1) => [0, 0];
        "3 slots": view(1, 3, &zeros(3), 1) => [2];
        "1,024 slots": view(1, 1_024, &zeros(1_024), 1_024) => [0, 0];
        "2,048 slots": view(1, 2_048, &zeros(2_048), 1) => [2];
        "an entry too few": view(2, 4, &zeros(7), 1) => [4];
        "an entry too many": view(2, 4, &zeros(9), 1) => [4];
        "slot 0 of 4": view(2, 4, &zeros(8), 0) => [11];
        "slot 5 of 4": view(2, 4, &zeros(8), 5) => [11];
    }
}

#[test]
fn two_at_once() {
    cases! {
        "1 before 2": view(0, 3, &zeros(0), 1) => [1];
        "1 before 4": view(0, 4, &zeros(16), 1) => [1];
        "1 before 11": view(0, 4, &zeros(0), 0) => [1];
        "2 before 4": view(2, 3, &zeros(16), 1) => [2];
        "2 before 11": view(2, 3, &zeros(6), 0) => [2];
        "4 before 11": view(2, 4, &zeros(16), 5) => [4];
    }
}
