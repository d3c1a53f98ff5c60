//! Admit: 1, 2, 3, 21, 22, 5 and 6, where all flows are on link 1.

use std::array::from_fn;

use crate::asked::admit;
use crate::lists::{idle, repeated, with};

/// All loads zero, with flows and without, and 1 and 2 on either side of their bounds.
#[test]
fn sizes() {
    cases! {
        "16 flows of 0 cells": admit(4, 4, &idle(64)) => [0];
        "no flow": admit(4, 4, &idle(0)) => [0];
        "0 ports": admit(0, 4, &idle(0)) => [1];
        "1 port": admit(1, 4, &idle(4)) => [0];
        "16 ports": admit(16, 4, &idle(64)) => [0];
        "17 ports": admit(17, 4, &idle(64)) => [1];
        "0 slots": admit(1, 0, &idle(4)) => [2];
        "1 slot": admit(1, 1, &idle(4)) => [0];
        "3 slots": admit(1, 3, &idle(4)) => [2];
        "1,024 slots": admit(1, 1_024, &idle(4)) => [0];
        "2,048 slots": admit(1, 2_048, &idle(4)) => [2];
    }
}

/// 3 and 21 on either side of their bounds.
#[test]
fn lengths() {
    cases! {
        "1 number": admit(2, 4, &idle(1)) => [3];
        "2 numbers": admit(2, 4, &idle(2)) => [3];
        "3 numbers": admit(2, 4, &idle(3)) => [3];
        "4 numbers": admit(2, 4, &idle(4)) => [0];
        "5 numbers": admit(2, 4, &idle(5)) => [3];
        "a number short of 512 flows": admit(16, 4, &idle(2_047)) => [3];
        "512 flows": admit(16, 4, &idle(2_048)) => [0];
        "513 flows": admit(16, 4, &idle(2_052)) => [21];
    }
}

/// 22 on either side of its bounds at a flow's input and at its output, of 2 ports and of 16.
#[test]
fn flow_ports() {
    cases! {
        "ports 1 and 2 of 2": admit(2, 4, &[1, 2, 1, 1, 2, 1, 1, 1]) => [0];
        "input 0 of 2": admit(2, 4, &[0, 1, 1, 1]) => [22];
        "input 3 of 2": admit(2, 4, &[3, 1, 1, 1]) => [22];
        "output 0 of 2": admit(2, 4, &[1, 0, 1, 1]) => [22];
        "output 3 of 2": admit(2, 4, &[1, 3, 1, 1]) => [22];
        "ports 1 and 16 of 16": admit(16, 4, &[16, 1, 1, 1, 1, 16, 1, 1]) => [0];
        "input 17 of 16": admit(16, 4, &[17, 1, 1, 1]) => [22];
        "output 17 of 16": admit(16, 4, &[1, 17, 1, 1]) => [22];
        "input 65,535 of 16": admit(16, 4, &[65_535, 1, 1, 1]) => [22];
        "output 65,535 of 16": admit(16, 4, &[1, 65_535, 1, 1]) => [22];
    }
}

/// 22 at a later flow, at one of 0 cells, and at the last of 512.
#[test]
fn later_flow_ports() {
    cases! {
        "output 3 of flow 2": admit(2, 4, &[1, 1, 1, 1, 2, 3, 1, 1]) => [22];
        "input 0 of flow 2 of 0 cells": admit(2, 4, &[1, 1, 1, 1, 0, 1, 0, 1]) => [22];
        "output 2 of flow 512": admit(2, 4, &with(idle(2_048), [(2_045, 2)])) => [0];
        "output 3 of flow 512": admit(2, 4, &with(idle(2_048), [(2_045, 3)])) => [22];
    }
}

/// 5 on either side of its bound, and the lowest input of two, whichever comes first in the list.
#[test]
fn input_loads() {
    cases! {
        "1 cell in 1 slot": admit(1, 1, &[1, 1, 1, 1]) => [0];
        "2 cells in 1 slot": admit(1, 1, &[1, 1, 2, 1]) => [5, 1, 2];
        "1,024 cells in 1,024 slots": admit(1, 1_024, &[1, 1, 1_024, 1]) => [0];
        "65,535 cells in 1,024 slots": admit(1, 1_024, &[1, 1, 65_535, 1]) => [5, 1, 65_535];
        "two inputs, the lower first": admit(2, 4, &[1, 1, 5, 1, 2, 2, 6, 1]) => [5, 1, 5];
        "two inputs, the lower last": admit(2, 4, &[2, 2, 6, 1, 1, 1, 5, 1]) => [5, 1, 5];
        "4 cells of two flows": admit(3, 4, &[3, 1, 2, 1, 3, 2, 2, 1]) => [0];
        "5 cells of two flows": admit(3, 4, &[3, 1, 2, 1, 3, 2, 3, 1]) => [5, 3, 5];
    }
}

/// Several flows on one pair: their cells add up, past 16 bits too, to the most that a list can have.
#[test]
fn one_pair() {
    let ones = repeated([1, 1, 1, 1], 2_048);
    let most = repeated([16, 16, 65_535, 1], 2_048);
    cases! {
        "4 cells of three flows": admit(1, 4, &[1, 1, 2, 1, 1, 1, 0, 1, 1, 1, 2, 1]) => [0];
        "5 cells of three flows": admit(1, 4, &[1, 1, 2, 1, 1, 1, 0, 1, 1, 1, 3, 1]) => [5, 1, 5];
        "65,536 cells": admit(2, 4, &[2, 1, 32_768, 1, 2, 1, 32_768, 1]) => [5, 2, 65_536];
        "512 cells in 512 slots": admit(1, 512, &ones) => [0];
        "512 cells in 256 slots": admit(1, 256, &ones) => [5, 1, 512];
        "512 flows of 65,535 cells": admit(16, 1_024, &most) => [5, 16, 33_553_920];
    }
}

/// 6 alone on either side of its bound, and the lowest output of two, whichever comes first in the list.
#[test]
fn output_loads() {
    let lower_first = [1, 1, 4, 1, 2, 1, 1, 1, 2, 2, 3, 1, 3, 2, 2, 1];
    let lower_last = [1, 2, 3, 1, 2, 2, 2, 1, 3, 1, 3, 1, 4, 1, 2, 1];
    let four_cells = [1, 1, 1, 1, 1, 2, 3, 1, 2, 1, 1, 1, 2, 2, 1, 1];
    let five_cells = [1, 1, 1, 1, 1, 2, 3, 1, 2, 1, 1, 1, 2, 2, 2, 1];
    cases! {
        "two outputs, the lower first": admit(3, 4, &lower_first) => [6, 1, 5];
        "two outputs, the lower last": admit(4, 4, &lower_last) => [6, 1, 5];
        "4 cells of two flows": admit(2, 4, &four_cells) => [0];
        "5 cells of two flows": admit(2, 4, &five_cells) => [6, 2, 5];
    }
}

/// The most cells of an input with one flow to each output, and of an output whose inputs have no more than slots.
#[test]
fn sixteen_flows() {
    let from_one: [[u16; 4]; 16] = from_fn(|place| [16, place as u16 + 1, 65_535, 1]);
    let to_one: [[u16; 4]; 16] = from_fn(|place| [place as u16 + 1, 16, 1_024, 1]);
    cases! {
        "from one input": admit(16, 1_024, from_one.as_flattened()) => [5, 16, 1_048_560];
        "to one output": admit(16, 1_024, to_one.as_flattened()) => [6, 16, 16_384];
    }
}

/// 1 with each that follows it.
#[test]
fn ports_and_others() {
    cases! {
        "1 before 2": admit(0, 3, &idle(0)) => [1];
        "1 before 3": admit(17, 4, &idle(1)) => [1];
        "1 before 21": admit(17, 4, &idle(2_052)) => [1];
        "1 before 22": admit(17, 4, &[18, 1, 0, 1]) => [1];
        "1 before 5": admit(17, 4, &[1, 1, 3, 1, 1, 2, 2, 1]) => [1];
        "1 before 6": admit(17, 4, &[1, 1, 3, 1, 2, 1, 2, 1]) => [1];
    }
}

/// 2 with each that follows it.
#[test]
fn slots_and_others() {
    cases! {
        "2 before 3": admit(2, 3, &idle(1)) => [2];
        "2 before 21": admit(2, 3, &idle(2_052)) => [2];
        "2 before 22": admit(2, 3, &[3, 1, 0, 1]) => [2];
        "2 before 5": admit(2, 3, &[1, 1, 2, 1, 1, 2, 2, 1]) => [2];
        "2 before 6": admit(2, 3, &[1, 1, 2, 1, 2, 1, 2, 1]) => [2];
    }
}

/// 3 with each that follows it, and with 512 whole flows.
#[test]
fn length_and_others() {
    cases! {
        "512 flows and a number": admit(2, 4, &idle(2_049)) => [3];
        "3 before 21": admit(2, 4, &idle(2_053)) => [3];
        "3 before 22": admit(2, 4, &[3, 1, 0, 1, 1]) => [3];
        "3 before 5": admit(2, 4, &[1, 1, 3, 1, 1, 2, 2, 1, 1]) => [3];
        "3 before 6": admit(2, 4, &[1, 1, 3, 1, 2, 1, 2, 1, 1]) => [3];
    }
}

/// 21 with each that follows it: 22 at the first flow and at the last, 5, 6.
#[test]
fn flows_and_others() {
    let input = with(idle(2_052), [(2, 3), (2_049, 2), (2_050, 2)]);
    let output = with(idle(2_052), [(2, 3), (2_048, 2), (2_050, 2)]);
    cases! {
        "21 before 22 of flow 1": admit(2, 4, &with(idle(2_052), [(0, 3)])) => [21];
        "21 before 22 of flow 513": admit(2, 4, &with(idle(2_052), [(2_049, 0)])) => [21];
        "21 before 5": admit(2, 4, &input) => [21];
        "21 before 6": admit(2, 4, &output) => [21];
    }
}

/// 22 with 5, 22 with 6, and 5 with 6 twice: at one flow, and at ports of other numbers.
#[test]
fn two_with_loads() {
    let other_ports = [1, 1, 2, 1, 2, 1, 3, 1, 2, 2, 2, 1];
    cases! {
        "22 before 5": admit(2, 4, &[1, 1, 3, 1, 1, 2, 2, 1, 2, 3, 0, 1]) => [22];
        "22 before 6": admit(2, 4, &[1, 1, 3, 1, 2, 1, 2, 1, 0, 1, 0, 1]) => [22];
        "5 before 6 at one flow": admit(2, 4, &[1, 1, 5, 1]) => [5, 1, 5];
        "5 of input 2 before 6 of output 1": admit(2, 4, &other_ports) => [5, 2, 5];
    }
}
