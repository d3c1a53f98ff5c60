//! Inspect told the output side: each of its faults, and its refusals.

use calls::{INPUT_SIDE, OUTPUT_SIDE};

use crate::asked::{inspect, Asked};
use crate::lists::{idle, with, zeros, TABLE_7, TABLE_7_BY_OUTPUTS, TABLE_7_FRAME};

/// The frame of document 01's sheet by outputs, with other entries at some places, which are numbered from 0.
fn sheet<const PLACES: usize>(changes: [(usize, u16); PLACES]) -> Asked {
    let frame = with(TABLE_7_BY_OUTPUTS.to_vec(), changes);
    inspect(OUTPUT_SIDE, 4, 4, &TABLE_7, &frame)
}

/// A clean frame on its own side, and on the other.
#[test]
fn sides() {
    let (by_inputs, by_outputs) = (&TABLE_7_FRAME, &TABLE_7_BY_OUTPUTS);
    cases! {
        "by inputs": inspect(INPUT_SIDE, 4, 4, &TABLE_7, by_inputs) => [0];
        "by outputs": inspect(OUTPUT_SIDE, 4, 4, &TABLE_7, by_outputs) => [0];
        "by outputs, told by 2": inspect(2, 4, 4, &TABLE_7, by_outputs) => [0];
        "by outputs, told by 2^64 - 1": inspect(u64::MAX, 4, 4, &TABLE_7, by_outputs) => [0];
        "by inputs, told outputs": inspect(OUTPUT_SIDE, 4, 4, &TABLE_7, by_inputs) => [101, 2, 1];
        "by outputs, told inputs": inspect(INPUT_SIDE, 4, 4, &TABLE_7, by_outputs) => [101, 2, 1];
    }
}

/// The lowest slot, then the lowest output of it; before any input that is used twice.
#[test]
fn wrong_entries() {
    cases! {
        "flow 6 of 5": sheet([(2, 6)]) => [101, 1, 3];
        "entry 65,535": sheet([(15, 65_535)]) => [101, 4, 4];
        "flow 2 at output 1": sheet([(0, 2)]) => [101, 1, 1];
        "flow 3 at output 4, whose input is right": sheet([(3, 3)]) => [101, 1, 4];
        "two in a slot": sheet([(7, 3), (5, 5)]) => [101, 2, 2];
        "two slots": sheet([(12, 5), (11, 1)]) => [101, 3, 4];
        "after an input twice": sheet([(0, 3), (15, 1)]) => [101, 4, 4];
    }
}

/// The lowest slot, then the lowest input of it; before any flow's cells.
#[test]
fn inputs_twice() {
    let two = [2, 1, 1, 1, 2, 2, 1, 1, 1, 3, 1, 1, 1, 4, 1, 1];
    let later = [2, 1, 1, 1, 1, 2, 1, 1, 1, 3, 1, 1, 2, 4, 1, 1];
    let slot = |list: &[u16]| inspect(OUTPUT_SIDE, 4, 1, list, &[1, 2, 3, 4]);
    cases! {
        "input 4": sheet([(0, 3)]) => [102, 1, 4];
        "input 1": sheet([(4, 1)]) => [102, 2, 1];
        "input 4 three times": sheet([(5, 4), (7, 5)]) => [102, 2, 4];
        "two slots": sheet([(12, 3), (4, 1)]) => [102, 2, 1];
        "two inputs, the lower one last": slot(&two) => [102, 1, 1];
        "two inputs, one around the other": slot(&later) => [102, 1, 1];
    }
}

/// Flows in the wrong number of slots, and blocks unbalanced in a flow, an input, an output, a link and the total.
#[test]
fn cells_and_blocks() {
    let block = |list: &[u16], frame: &[u16]| inspect(OUTPUT_SIDE, 2, 4, list, frame);
    let inputs = [1, 1, 1, 1, 1, 2, 1, 1, 2, 1, 1, 1];
    let outputs = [1, 1, 1, 1, 2, 1, 1, 1, 1, 2, 1, 1];
    let links = [1, 1, 1, 1, 2, 1, 1, 1, 1, 1, 1, 2];
    cases! {
        "flow 1 once": sheet([(0, 0)]) => [103, 1];
        "flows 4 and 5": sheet([(15, 0), (9, 0)]) => [103, 4];
        "flow 3 twice": sheet([(12, 3), (15, 0)]) => [103, 3];
        "a flow": block(&[1, 2, 2, 1], &[0, 1, 0, 1, 0, 0, 0, 0]) => [104, 1, 4];
        "an input": block(&inputs, &[1, 0, 0, 2, 3, 0, 0, 0]) => [104, 1, 4];
        "an output": block(&outputs, &[1, 0, 2, 0, 0, 3, 0, 0]) => [104, 1, 4];
        "a link": block(&links, &[1, 0, 2, 0, 3, 0, 0, 0]) => [104, 1, 4];
        "the total": block(&[1, 1, 1, 1, 2, 2, 1, 1], &[0, 0, 0, 0, 1, 2, 0, 0]) => [104, 1, 4];
        "the total of 2 slots": block(&[1, 1, 2, 1, 2, 2, 2, 1], &[1, 2, 0, 0, 1, 2, 0, 0]) => [104, 1, 2];
    }
}

/// 1, 2, 3, 21, 22, 23 and 4, each with all that follow it.
#[test]
fn refusals() {
    let asked = |ports, slots, list: &[u16], entries: usize| {
        inspect(
            OUTPUT_SIDE,
            ports,
            slots,
            list,
            &[vec![9], zeros(entries - 1)].concat(),
        )
    };
    let not_whole = with(idle(2_053), [(0, 17), (3, 5)]);
    let too_many = with(idle(2_052), [(0, 17), (3, 5)]);
    cases! {
        "1": asked(17, 3, &not_whole, 3) => [1];
        "2": asked(2, 3, &not_whole, 3) => [2];
        "3": asked(2, 2, &not_whole, 3) => [3];
        "21": asked(2, 2, &too_many, 3) => [21];
        "22": asked(2, 2, &[1, 3, 0, 5], 3) => [22];
        "23": asked(2, 2, &[1, 2, 0, 5], 3) => [23];
        "4": asked(2, 2, &idle(4), 3) => [4];
        "a wrong entry": asked(2, 2, &idle(4), 4) => [101, 1, 1];
    }
}
