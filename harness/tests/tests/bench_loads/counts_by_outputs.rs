//! Service count told the output side.

use calls::{Class, INPUT_SIDE, OUTPUT_SIDE};

use crate::asked::{count_on, flow, input, output, Asked};
use crate::lists::{idle, with, zeros, TABLE_7, TABLE_7_BY_OUTPUTS};

/// A count in the frame of document 01's sheet by outputs.
fn sheet(class: Class, start: u64, length: u64) -> Asked {
    let question = (class, (start, length));
    count_on(OUTPUT_SIDE, 4, 4, &TABLE_7, &TABLE_7_BY_OUTPUTS, question)
}

/// The same cells and leads as by inputs: length 0, runs over the frame's end, the longest runs, those furthest ahead and behind.
#[test]
fn runs() {
    cases! {
        "flow 5, no slot": sheet(flow(5), 4, 0) => [0, 0, 0];
        "flow 5, the last slot": sheet(flow(5), 4, 1) => [0, 1, 2];
        "flow 5 over the end": sheet(flow(5), 3, 3) => [0, 2, 2];
        "flow 5 furthest behind": sheet(flow(5), 2, 2) => [0, 0, -4];
        "flow 5, the longest run": sheet(flow(5), 1, 1_000_000) => [0, 500_000, 0];
        "flow 3 after ten turns": sheet(flow(3), 3, 43) => [0, 10, -3];
        "input 1, which is full": sheet(input(1), 2, 999_999) => [0, 999_999, 0];
        "input 2, which is idle": sheet(input(2), 2, 1_000_000) => [0, 0, 0];
        "input 4, which is full": sheet(input(4), 2, 3) => [0, 3, 0];
        "output 1 over the end": sheet(output(1), 4, 6) => [0, 4, -2];
        "output 1 furthest ahead": sheet(output(1), 1, 3) => [0, 3, 3];
        "output 1 furthest behind": sheet(output(1), 4, 1) => [0, 0, -3];
        "output 3, the longest run": sheet(output(3), 4, 1_000_000) => [0, 0, 0];
    }
}

/// A count in a frame whose entries are flows of other outputs, flows above the list and a flow of 0 cells.
fn any_frame(side: u64, class: Class, start: u64, length: u64) -> Asked {
    let list = [2, 1, 1, 1, 1, 2, 1, 1, 2, 1, 0, 1];
    let frame = [2, 1, 4, 0, 65_535, 3, 512, 1];
    count_on(side, 2, 4, &list, &frame, (class, (start, length)))
}

/// A flow and an input wherever the entries stand, an output by what stands there.
#[test]
fn any_entries() {
    let by_outputs = |class, start, length| any_frame(OUTPUT_SIDE, class, start, length);
    cases! {
        "flow 1 in one turn": by_outputs(flow(1), 1, 4) => [0, 2, 0];
        "flow 1 where it has no entry": by_outputs(flow(1), 2, 2) => [0, 0, -4];
        "flow 2 at another output": by_outputs(flow(2), 1, 1) => [0, 1, 3];
        "flow 3 of 0 cells": by_outputs(flow(3), 3, 1) => [0, 1, 3];
        "output 1 with flows above the list": by_outputs(output(1), 2, 3) => [0, 3, 0];
        "output 2 with flows of output 1": by_outputs(output(2), 2, 2) => [0, 1, -2];
        "input 1 by flow 2": by_outputs(input(1), 1, 2) => [0, 1, 2];
        "input 2 by flows 1 and 3": by_outputs(input(2), 4, 3) => [0, 2, -1];
        "input 2 told the input side": any_frame(INPUT_SIDE, input(2), 2, 2) => [0, 1, -2];
        "output 1 told the input side": any_frame(INPUT_SIDE, output(1), 4, 3) => [0, 2, -1];
        "input 1, told by 2": any_frame(2, input(1), 1, 2) => [0, 1, 2];
        "input 1, told by 2^64 - 1": any_frame(u64::MAX, input(1), 1, 2) => [0, 1, 2];
    }
}

/// The most cells that a run can have, of a flow and of an input, and no more than one in a slot of an output.
#[test]
fn most() {
    let full = |class, length| {
        let question = (class, (2, length));
        count_on(
            OUTPUT_SIDE,
            16,
            1_024,
            &[1, 1, 1, 1],
            &[1; 16_384],
            question,
        )
    };
    cases! {
        "16 cells of a flow in a slot": full(flow(1), 1_000_000) => [0, 16_000_000, 0];
        "16 cells of an input in a slot": full(input(1), 999_999) => [0, 15_999_984, 0];
        "1 cell of an output in a slot": full(output(1), 999_999) => [0, 999_999, 0];
        "1 cell of an output that no flow has": full(output(2), 999_999) => [0, 999_999, 0];
    }
}

/// No flow, and 512: an entry up to the number of flows is a flow, one above it counts for its output only.
#[test]
fn lists() {
    let no_flow = |class| count_on(OUTPUT_SIDE, 2, 1, &[], &[1, 0], (class, (1, 3)));
    let most = |class, start| {
        let question = (class, (start, 1));
        count_on(OUTPUT_SIDE, 1, 2, &idle(2_048), &[512, 513], question)
    };
    cases! {
        "no flow, output 1": no_flow(output(1)) => [0, 3, 0];
        "no flow, input 1": no_flow(input(1)) => [0, 0, 0];
        "entry 512, flow 512": most(flow(512), 1) => [0, 1, 1];
        "entry 512, input 1": most(input(1), 1) => [0, 1, 1];
        "entry 513, input 1": most(input(1), 2) => [0, 0, -1];
        "entry 513, output 1": most(output(1), 2) => [0, 1, 0];
    }
}

/// 1, 2, 3, 21, 22, 23, 4, 11, 12 and 13, each with all that follow it.
#[test]
fn refusals() {
    let asked = |ports, slots, list: &[u16], entries, class, start| {
        let question = (class, (start, 1_000_001));
        count_on(OUTPUT_SIDE, ports, slots, list, &zeros(entries), question)
    };
    let not_whole = with(idle(2_053), [(0, 17), (3, 5)]);
    let too_many = with(idle(2_052), [(0, 17), (3, 5)]);
    cases! {
        "1": asked(17, 3, &not_whole, 3, input(3), 5) => [1];
        "2": asked(2, 3, &not_whole, 3, input(3), 5) => [2];
        "3": asked(2, 2, &not_whole, 3, input(3), 5) => [3];
        "21": asked(2, 2, &too_many, 3, input(3), 5) => [21];
        "22": asked(2, 2, &[1, 3, 0, 5], 3, input(3), 5) => [22];
        "23": asked(2, 2, &[1, 2, 0, 5], 3, input(3), 5) => [23];
        "4": asked(2, 2, &idle(4), 3, input(3), 5) => [4];
        "11": asked(2, 2, &idle(4), 4, input(3), 3) => [11];
        "12 of an input": asked(2, 2, &idle(4), 4, input(3), 2) => [12];
        "12 of an output": asked(2, 2, &idle(4), 4, output(0), 2) => [12];
        "12 of a flow": asked(2, 2, &idle(4), 4, flow(2), 2) => [12];
        "13": asked(2, 2, &idle(4), 4, input(2), 2) => [13];
    }
}
