//! Depth's refusals: 1, 2, 3, 21, 22, 23, 5, 6 and 12.

use crate::asked::{depth, flow, input, output};
use crate::lists::{idle, repeated, with};

/// 1 and 2 on either side of their bounds.
#[test]
fn sizes() {
    cases! {
        "0 ports": depth(0, 4, &idle(0), input(1)) => [1];
        "1 port": depth(1, 4, &idle(4), input(1)) => [0, 0, 0];
        "16 ports": depth(16, 1, &idle(4), input(16)) => [0, 0, 0];
        "17 ports": depth(17, 1, &idle(4), input(1)) => [1];
        "0 slots": depth(1, 0, &idle(4), input(1)) => [2];
        "1 slot": depth(1, 1, &idle(4), input(1)) => [0, 0, 0];
        "3 slots": depth(1, 3, &idle(4), input(1)) => [2];
        "1,024 slots": depth(1, 1_024, &idle(4), input(1)) => [0, 0, 0];
        "2,048 slots": depth(1, 2_048, &idle(4), input(1)) => [2];
    }
}

/// 3 and 21 on either side of their bounds.
#[test]
fn lengths() {
    cases! {
        "1 number": depth(2, 4, &idle(1), input(1)) => [3];
        "2 numbers": depth(2, 4, &idle(2), input(1)) => [3];
        "3 numbers": depth(2, 4, &idle(3), input(1)) => [3];
        "5 numbers": depth(2, 4, &idle(5), input(1)) => [3];
        "a number short of 512 flows": depth(2, 4, &idle(2_047), input(1)) => [3];
        "512 flows": depth(2, 4, &idle(2_048), input(1)) => [0, 0, 0];
        "513 flows": depth(2, 4, &idle(2_052), input(1)) => [21];
    }
}

/// 22 and 23 on either side of their bounds, though another flow or a port is asked about.
#[test]
fn ports_and_links_of_flows() {
    cases! {
        "input 0": depth(2, 4, &[0, 1, 1, 1], flow(1)) => [22];
        "input 3": depth(2, 4, &[3, 1, 1, 1], flow(1)) => [22];
        "output 0": depth(2, 4, &[1, 0, 1, 1], flow(1)) => [22];
        "output 3": depth(2, 4, &[1, 3, 1, 1], flow(1)) => [22];
        "output 3 of flow 2 of 0 cells": depth(2, 4, &[1, 1, 1, 1, 2, 3, 0, 1], flow(1)) => [22];
        "link 0": depth(2, 4, &[1, 1, 1, 0], flow(1)) => [23];
        "link 4": depth(2, 4, &[1, 1, 1, 4], flow(1)) => [0, 6, 2];
        "link 5": depth(2, 4, &[1, 1, 1, 5], flow(1)) => [23];
        "link 5 of flow 2 of 0 cells": depth(2, 4, &[1, 1, 1, 1, 2, 2, 0, 5], input(1)) => [23];
    }
}

/// 5 and 6 on either side of their bounds, with the lowest such port, though another port or an idle flow is asked about.
#[test]
fn loads() {
    let two_inputs = [2, 2, 6, 1, 1, 1, 5, 1];
    let two_outputs = [1, 2, 3, 1, 2, 2, 2, 1, 3, 1, 3, 1, 4, 1, 2, 1];
    let most = repeated([16, 16, 65_535, 1], 2_048);
    cases! {
        "4 cells of two flows": depth(3, 4, &[3, 1, 2, 1, 3, 2, 2, 1], flow(1)) => [0, 4, 2];
        "5 cells of two flows": depth(3, 4, &[3, 1, 2, 1, 3, 2, 3, 1], flow(1)) => [5, 3, 5];
        "an input that is not asked about": depth(2, 4, &[1, 1, 5, 1], output(2)) => [5, 1, 5];
        "two inputs, the lower last": depth(2, 4, &two_inputs, flow(1)) => [5, 1, 5];
        "512 flows of 65,535 cells": depth(16, 1_024, &most, input(1)) => [5, 16, 33_553_920];
        "output, 4 cells of two flows": depth(2, 4, &[1, 2, 3, 1, 2, 2, 1, 2], flow(2)) => [0, 6, 2];
        "output, 5 cells of two flows": depth(2, 4, &[1, 2, 3, 1, 2, 2, 2, 2], flow(2)) => [6, 2, 5];
        "two outputs, the lower last": depth(4, 4, &two_outputs, flow(1)) => [6, 1, 5];
    }
}

/// 12 on either side of its bounds; ports do not bound it for a flow.
#[test]
fn questions() {
    cases! {
        "flow 0 of none": depth(2, 4, &idle(0), flow(0)) => [12];
        "flow 1 of none": depth(2, 4, &idle(0), flow(1)) => [12];
        "flow 0 of 3": depth(2, 4, &idle(12), flow(0)) => [12];
        "flow 3 of 3": depth(2, 4, &idle(12), flow(3)) => [0, 0, 0];
        "flow 4 of 3": depth(2, 4, &idle(12), flow(4)) => [12];
        "flow 512 of 512": depth(2, 4, &idle(2_048), flow(512)) => [0, 0, 0];
        "flow 513 of 512": depth(2, 4, &idle(2_048), flow(513)) => [12];
        "input 0 of 2": depth(2, 4, &idle(12), input(0)) => [12];
        "input 2 of 2": depth(2, 4, &idle(12), input(2)) => [0, 0, 0];
        "input 3 of 2": depth(2, 4, &idle(12), input(3)) => [12];
        "output 0 of 2": depth(2, 4, &idle(12), output(0)) => [12];
        "output 2 of 2": depth(2, 4, &idle(12), output(2)) => [0, 0, 0];
        "output 3 of 2": depth(2, 4, &idle(12), output(3)) => [12];
    }
}

/// Input 1 has five cells.
const INPUT: [u16; 8] = [1, 1, 3, 1, 1, 2, 2, 1];

/// Output 1 has.
const OUTPUT: [u16; 8] = [1, 1, 3, 1, 2, 1, 2, 1];

/// 1 and 2 with each that follows them.
#[test]
fn sizes_and_others() {
    cases! {
        "1 before 2": depth(17, 3, &idle(4), input(1)) => [1];
        "1 before 3": depth(17, 4, &idle(5), input(1)) => [1];
        "1 before 21": depth(17, 4, &idle(2_052), input(1)) => [1];
        "1 before 22": depth(17, 4, &[18, 1, 0, 1], input(1)) => [1];
        "1 before 23": depth(17, 4, &[1, 1, 0, 5], input(1)) => [1];
        "1 before 5": depth(17, 4, &INPUT, input(1)) => [1];
        "1 before 6": depth(17, 4, &OUTPUT, input(1)) => [1];
        "1 before 12": depth(17, 4, &idle(4), input(0)) => [1];
        "2 before 3": depth(2, 3, &idle(5), input(1)) => [2];
        "2 before 21": depth(2, 3, &idle(2_052), input(1)) => [2];
        "2 before 22": depth(2, 3, &[3, 1, 0, 1], input(1)) => [2];
        "2 before 23": depth(2, 3, &[1, 1, 0, 5], input(1)) => [2];
        "2 before 5": depth(2, 3, &INPUT, input(1)) => [2];
        "2 before 6": depth(2, 3, &OUTPUT, input(1)) => [2];
        "2 before 12": depth(2, 3, &idle(4), flow(0)) => [2];
    }
}

/// 3 and 21 with each that follows them.
#[test]
fn lengths_and_others() {
    let input_over = with(idle(2_052), [(2, 3), (2_049, 2), (2_050, 2)]);
    let output_over = with(idle(2_052), [(2, 3), (2_048, 2), (2_050, 2)]);
    let and_one = |list: [u16; 8]| [&list[..], &[1]].concat();
    cases! {
        "3 before 21": depth(2, 4, &idle(2_053), flow(1)) => [3];
        "3 before 22": depth(2, 4, &[3, 1, 0, 1, 1], flow(1)) => [3];
        "3 before 23": depth(2, 4, &[1, 1, 0, 5, 1], flow(1)) => [3];
        "3 before 5": depth(2, 4, &and_one(INPUT), flow(1)) => [3];
        "3 before 6": depth(2, 4, &and_one(OUTPUT), flow(1)) => [3];
        "3 before 12": depth(2, 4, &idle(5), flow(2)) => [3];
        "21 before 22": depth(2, 4, &with(idle(2_052), [(2_049, 3)]), flow(1)) => [21];
        "21 before 23": depth(2, 4, &with(idle(2_052), [(3, 0)]), flow(1)) => [21];
        "21 before 5": depth(2, 4, &input_over, flow(1)) => [21];
        "21 before 6": depth(2, 4, &output_over, flow(1)) => [21];
        "21 before 12": depth(2, 4, &idle(2_052), flow(514)) => [21];
    }
}

/// 22 and 23 with each that follows them, 22 at a later flow than 23.
#[test]
fn flows_and_others() {
    let at = |place, number, list: [u16; 8]| with(list.to_vec(), [(place, number)]);
    cases! {
        "22 before 23": depth(2, 4, &[1, 1, 0, 5, 1, 3, 0, 1], flow(1)) => [22];
        "22 before 5": depth(2, 4, &at(5, 3, INPUT), flow(1)) => [22];
        "22 before 6": depth(2, 4, &at(4, 3, OUTPUT), flow(1)) => [22];
        "22 before 12": depth(2, 4, &[1, 0, 0, 1], flow(2)) => [22];
        "23 before 5": depth(2, 4, &at(7, 5, INPUT), flow(1)) => [23];
        "23 before 6": depth(2, 4, &at(3, 0, OUTPUT), flow(1)) => [23];
        "23 before 12": depth(2, 4, &[1, 1, 0, 5], output(0)) => [23];
    }
}

/// 5 with 6 at one flow and at ports of other numbers; both with 12 for a flow, an input and an output.
#[test]
fn loads_and_others() {
    let other_ports = [1, 1, 2, 1, 2, 1, 3, 1, 2, 2, 2, 1];
    cases! {
        "5 before 6 at one flow": depth(2, 4, &[1, 1, 5, 1], flow(1)) => [5, 1, 5];
        "5 of input 2 before 6 of output 1": depth(2, 4, &other_ports, output(1)) => [5, 2, 5];
        "5 before 12 of a flow": depth(2, 4, &INPUT, flow(3)) => [5, 1, 5];
        "5 before 12 of an input": depth(2, 4, &INPUT, input(3)) => [5, 1, 5];
        "5 before 12 of an output": depth(2, 4, &INPUT, output(0)) => [5, 1, 5];
        "6 before 12 of a flow": depth(2, 4, &OUTPUT, flow(0)) => [6, 1, 5];
        "6 before 12 of an input": depth(2, 4, &OUTPUT, input(0)) => [6, 1, 5];
        "6 before 12 of an output": depth(2, 4, &OUTPUT, output(3)) => [6, 1, 5];
    }
}
