//! Frames that turn.

use calls::{INPUT_SIDE, OUTPUT_SIDE};
use tests::Face;

use crate::asked::{built, turn, Asked};
use crate::lists::{idle, zeros, TABLE_7, TABLE_7_BY_OUTPUTS, TABLE_7_FRAME};
use crate::Builders;

/// The answer to a frame that turns: 0 and the entries of the second buffer.
fn written(entries: &[u16]) -> Vec<i64> {
    let entries = entries.iter().copied().map(i64::from);
    [0].into_iter().chain(entries).collect()
}

/// The frame of document 01's sheet, and its slots one by one.
#[test]
fn the_sheet() {
    let by_inputs = |slot: usize| turn(INPUT_SIDE, 4, 1, &TABLE_7, &TABLE_7_FRAME[4 * slot..][..4]);
    let back = &TABLE_7_BY_OUTPUTS;
    cases! {
        "by inputs": turn(INPUT_SIDE, 4, 4, &TABLE_7, &TABLE_7_FRAME) => written(back);
        "by outputs": turn(OUTPUT_SIDE, 4, 4, &TABLE_7, back) => written(&TABLE_7_FRAME);
        "by outputs, told by 2": turn(2, 4, 4, &TABLE_7, back) => written(&TABLE_7_FRAME);
        "by outputs, told by 2^32": turn(1 << 32, 4, 4, &TABLE_7, back) => written(&TABLE_7_FRAME);
        "by outputs, told by 2^64 - 1": turn(u64::MAX, 4, 4, &TABLE_7, back) => written(&TABLE_7_FRAME);
        "slot 1": by_inputs(0) => [0, 1, 0, 0, 5];
        "slot 2": by_inputs(1) => [0, 3, 2, 0, 0];
        "slot 3": by_inputs(2) => [0, 1, 4, 0, 0];
        "slot 4": by_inputs(3) => [0, 0, 2, 0, 5];
    }
}

/// Three flows of one pair and one back, on several links; a slot of two ports by either side.
fn slot(side: u64, entries: [u16; 2]) -> Asked {
    let list = [1, 2, 1, 1, 1, 2, 1, 4, 2, 1, 1, 1, 1, 2, 0, 3];
    turn(side, 2, 1, &list, &entries)
}

/// Each flow by its own number, wherever its ports are.
#[test]
fn several_flows_of_a_pair() {
    cases! {
        "idle": slot(INPUT_SIDE, [0, 0]) => [0, 0, 0];
        "flow 1": slot(INPUT_SIDE, [1, 0]) => [0, 0, 1];
        "flow 2": slot(INPUT_SIDE, [2, 0]) => [0, 0, 2];
        "flow 3": slot(INPUT_SIDE, [0, 3]) => [0, 3, 0];
        "flow 4, of 0 cells": slot(INPUT_SIDE, [4, 0]) => [0, 0, 4];
        "flows 2 and 3": slot(INPUT_SIDE, [2, 3]) => [0, 3, 2];
        "flow 2 by outputs": slot(OUTPUT_SIDE, [0, 2]) => [0, 2, 0];
        "flows 3 and 4 by outputs": slot(OUTPUT_SIDE, [3, 4]) => [0, 4, 3];
    }
}

/// The most and the fewest ports, slots and flows.
#[test]
fn sizes() {
    let last = [zeros(15), vec![1]].concat();
    let most = |entry| turn(INPUT_SIDE, 2, 2, &idle(2_048), &[entry, 0, 0, 0]);
    let long = turn(INPUT_SIDE, 1, 1_024, &idle(4), &[1; 1_024]);
    cases! {
        "1 port, 1 slot": turn(INPUT_SIDE, 1, 1, &idle(4), &[1]) => [0, 1];
        "16 ports": turn(INPUT_SIDE, 16, 1, &[16, 16, 1, 4], &last) => written(&last);
        "16 ports, the first and the last": turn(INPUT_SIDE, 16, 1, &[16, 1, 1, 1], &last)
            => written(&[vec![1], zeros(15)].concat());
        "1,024 slots": long => written(&[1; 1_024]);
        "no flow": turn(OUTPUT_SIDE, 2, 2, &[], &[0; 4]) => [0; 5];
        "flow 1 of 512": most(1) => [0, 1, 0, 0, 0];
        "flow 512 of 512": most(512) => [0, 512, 0, 0, 0];
    }
}

/// What is not clean still turns: other cells than those of the list, which is overloaded, and an unbalanced frame.
#[test]
fn frames_that_are_not_clean() {
    let list = [1, 2, 9, 1, 2, 1, 0, 1];
    cases! {
        "too few cells": turn(INPUT_SIDE, 2, 2, &list, &[1, 0, 0, 0]) => [0, 0, 1, 0, 0];
        "too many cells": turn(INPUT_SIDE, 2, 2, &list, &[1, 2, 1, 2]) => [0, 2, 1, 2, 1];
        "cells of a flow of 0": turn(OUTPUT_SIDE, 2, 2, &list, &[2, 0, 2, 1]) => [0, 0, 2, 1, 2];
        "unbalanced": turn(INPUT_SIDE, 1, 4, &[1, 1, 2, 1], &[1, 1, 0, 0]) => [0, 1, 1, 0, 0];
    }
}

/// Full frames of all ports and slots: each is built and turned, and each slot by outputs has the inputs that its slot by inputs names.
#[test]
fn all_sizes() {
    let builders = Builders::default();
    for Face { name, calls } in builders.faces() {
        for (ports, k) in (1..=16).flat_map(|ports| (0..=10).map(move |k| (ports, k))) {
            let (list, slots) = (rotations(ports, 1 << k), 1 << k);
            let frame = built(calls, ports.into(), slots, &list).expect("the load fits");
            let mut second = zeros(frame.len());
            let answer = calls.turn(INPUT_SIDE, ports.into(), slots, &list, &frame, &mut second);
            assert_eq!(answer, Ok(()), "{ports} ports, k = {k}, through {name}");
            expect_inputs(ports, &list, &frame, &second);
        }
    }
}

/// One flow for each pair, in matrix order, with cells in all slots at every port; with few slots some flows have 0 cells.
fn rotations(ports: u16, slots: u16) -> Vec<u16> {
    let cells = |input: u16, output: u16| {
        let turn = (output + ports - input) % ports;
        slots / ports + u16::from(turn < slots % ports)
    };
    let pairs = (1..=ports).flat_map(|input| (1..=ports).map(move |output| (input, output)));
    let flows = pairs.flat_map(|(input, output)| [input, output, cells(input, output), 1]);
    flows.collect()
}

/// Every entry by outputs is the entry of its flow's input, and no cell is left out.
fn expect_inputs(ports: u16, list: &[u16], frame: &[u16], second: &[u16]) {
    let ports = usize::from(ports);
    let cells = |frame: &[u16]| frame.iter().filter(|&&entry| entry > 0).count();
    assert_eq!(cells(frame), cells(second));
    for (place, &entry) in second.iter().enumerate().filter(|(_, &entry)| entry > 0) {
        let flow = &list[4 * (usize::from(entry) - 1)..][..4];
        assert_eq!(usize::from(flow[1]), place % ports + 1);
        let of_input = place / ports * ports + usize::from(flow[0]) - 1;
        assert_eq!(frame[of_input], entry);
    }
}
