//! Depths that are answered.

use calls::Class;

use crate::asked::{depth, flow, input, output, Asked};
use crate::lists::{idle, repeated, TABLE_7};

/// The depth of a flow of so many cells, alone on one port.
fn alone(slots: u64, cells: u16) -> Asked {
    depth(1, slots, &[1, 1, cells, 1], flow(1))
}

/// All loads of one slot, two and four, and some of eight and sixteen, by hand.
#[test]
fn few_slots() {
    cases! {
        "0 cells in 1 slot": alone(1, 0) => [0, 0, 0];
        "1 cell in 1 slot": alone(1, 1) => [0, 0, 1];
        "0 cells in 2 slots": alone(2, 0) => [0, 0, 0];
        "1 cell in 2 slots": alone(2, 1) => [0, 2, 2];
        "2 cells in 2 slots": alone(2, 2) => [0, 0, 1];
        "0 cells in 4 slots": alone(4, 0) => [0, 0, 0];
        "1 cell in 4 slots": alone(4, 1) => [0, 6, 2];
        "2 cells in 4 slots": alone(4, 2) => [0, 4, 2];
        "3 cells in 4 slots": alone(4, 3) => [0, 6, 3];
        "4 cells in 4 slots": alone(4, 4) => [0, 0, 1];
        "3 cells in 8 slots": alone(8, 3) => [0, 18, 3];
        "5 cells in 8 slots": alone(8, 5) => [0, 18, 3];
        "5 cells in 16 slots": alone(16, 5) => [0, 46, 4];
    }
}

/// Powers of two and their neighbours, and the loads that stray furthest of all.
#[test]
fn most_slots() {
    cases! {
        "0 cells": alone(1_024, 0) => [0, 0, 0];
        "1 cell": alone(1_024, 1) => [0, 2_046, 2];
        "2 cells": alone(1_024, 2) => [0, 2_044, 2];
        "63 cells": alone(1_024, 63) => [0, 3_906, 4];
        "64 cells": alone(1_024, 64) => [0, 1_920, 2];
        "65 cells": alone(1_024, 65) => [0, 3_934, 4];
        "100 cells": alone(1_024, 100) => [0, 4_536, 5];
        "341 cells": alone(1_024, 341) => [0, 7_054, 8];
        "342 cells": alone(1_024, 342) => [0, 6_372, 7];
        "511 cells": alone(1_024, 511) => [0, 3_066, 4];
        "512 cells": alone(1_024, 512) => [0, 1_024, 2];
        "513 cells": alone(1_024, 513) => [0, 3_066, 4];
        "683 cells": alone(1_024, 683) => [0, 7_054, 8];
        "1,023 cells": alone(1_024, 1_023) => [0, 2_046, 3];
        "1,024 cells": alone(1_024, 1_024) => [0, 0, 1];
    }
}

/// A depth of document 01's sheet.
fn sheet(class: Class) -> Asked {
    depth(4, 4, &TABLE_7, class)
}

/// Every flow, input and output by its own load.
#[test]
fn classes() {
    cases! {
        "flow 1, two cells": sheet(flow(1)) => [0, 4, 2];
        "flow 3, one cell": sheet(flow(3)) => [0, 6, 2];
        "flow 5, two cells": sheet(flow(5)) => [0, 4, 2];
        "input 1, four cells": sheet(input(1)) => [0, 0, 1];
        "input 2, no cell": sheet(input(2)) => [0, 0, 0];
        "input 4, four cells": sheet(input(4)) => [0, 0, 1];
        "output 1, three cells": sheet(output(1)) => [0, 6, 3];
        "output 2, three cells": sheet(output(2)) => [0, 6, 3];
        "output 3, no cell": sheet(output(3)) => [0, 0, 0];
        "output 4, two cells": sheet(output(4)) => [0, 4, 2];
    }
}

/// A depth of two flows on one pair and a third from the same input, none of them on link 1, in 8 slots: ports are not slots.
fn eight_slots(ports: u64, class: Class) -> Asked {
    depth(ports, 8, &[2, 3, 2, 4, 2, 3, 1, 2, 2, 1, 2, 3], class)
}

/// A flow by itself, a port by all its flows on whatever links; the ports do not matter.
#[test]
fn several_flows() {
    cases! {
        "flow 1, two cells": eight_slots(3, flow(1)) => [0, 12, 2];
        "flow 2, one cell": eight_slots(3, flow(2)) => [0, 14, 2];
        "input 2, five cells": eight_slots(3, input(2)) => [0, 18, 3];
        "input 3, no cell": eight_slots(3, input(3)) => [0, 0, 0];
        "output 3, three cells": eight_slots(3, output(3)) => [0, 18, 3];
        "output 1, two cells": eight_slots(3, output(1)) => [0, 12, 2];
        "input 2 of 16 ports": eight_slots(16, input(2)) => [0, 18, 3];
        "output 16 of 16 ports": eight_slots(16, output(16)) => [0, 0, 0];
    }
}

/// No flow, and 512.
#[test]
fn lists() {
    let ones = repeated([1, 1, 1, 1], 2_048);
    cases! {
        "no flow, input 1": depth(1, 1_024, &[], input(1)) => [0, 0, 0];
        "512 flows of 0 cells, flow 512": depth(1, 4, &idle(2_048), flow(512)) => [0, 0, 0];
        "512 flows of 1 cell, flow 512": depth(1, 1_024, &ones, flow(512)) => [0, 2_046, 2];
        "512 flows of 1 cell, output 1": depth(1, 1_024, &ones, output(1)) => [0, 1_024, 2];
        "512 flows of 1 cell in 512 slots": depth(1, 512, &ones, input(1)) => [0, 0, 1];
    }
}
