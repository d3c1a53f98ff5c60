//! Service counts that are answered.

use calls::Class;

use crate::asked::{count, flow, input, output, Asked};
use crate::lists::{idle, SEAM, TABLE_7, TABLE_7_FRAME};

/// A count in the frame of document 01's sheet.
fn sheet(class: Class, start: u64, length: u64) -> Asked {
    count(4, 4, &TABLE_7, &TABLE_7_FRAME, class, start, length)
}

/// Length 0, runs over the frame's end, and the longest runs.
#[test]
fn runs() {
    cases! {
        "flow 5, no slot": sheet(flow(5), 4, 0) => [0, 0, 0];
        "input 1, no slot": sheet(input(1), 3, 0) => [0, 0, 0];
        "output 4, no slot": sheet(output(4), 3, 0) => [0, 0, 0];
        "flow 5, the last slot": sheet(flow(5), 4, 1) => [0, 1, 2];
        "flow 5 over the end": sheet(flow(5), 3, 3) => [0, 2, 2];
        "flow 5, the longest run": sheet(flow(5), 1, 1_000_000) => [0, 500_000, 0];
        "flow 3, one turn": sheet(flow(3), 3, 4) => [0, 1, 0];
        "input 1, a slot less than the longest": sheet(input(1), 2, 999_999) => [0, 999_999, 0];
        "input 2, the longest run": sheet(input(2), 2, 1_000_000) => [0, 0, 0];
        "output 1 over the end": sheet(output(1), 4, 6) => [0, 4, -2];
        "output 1, the longest run": sheet(output(1), 4, 1_000_000) => [0, 750_000, 0];
        "output 3, the longest run": sheet(output(3), 4, 1_000_000) => [0, 0, 0];
    }
}

/// Runs as far ahead and as far behind as any of their flow or output, and some of them after many turns.
#[test]
fn leads() {
    cases! {
        "flow 5 furthest ahead": sheet(flow(5), 4, 2) => [0, 2, 4];
        "flow 5 furthest behind": sheet(flow(5), 2, 2) => [0, 0, -4];
        "flow 3 furthest ahead": sheet(flow(3), 2, 1) => [0, 1, 3];
        "flow 3 ahead": sheet(flow(3), 1, 2) => [0, 1, 2];
        "flow 3 behind": sheet(flow(3), 1, 1) => [0, 0, -1];
        "flow 3 furthest behind": sheet(flow(3), 3, 3) => [0, 0, -3];
        "flow 3 after ten turns": sheet(flow(3), 3, 43) => [0, 10, -3];
        "input 3, which is idle": sheet(input(3), 2, 3) => [0, 0, 0];
        "input 4, which is full": sheet(input(4), 2, 3) => [0, 3, 0];
        "output 1 furthest ahead": sheet(output(1), 1, 3) => [0, 3, 3];
        "output 1 behind": sheet(output(1), 3, 3) => [0, 2, -1];
        "output 1 furthest behind": sheet(output(1), 4, 1) => [0, 0, -3];
        "output 1 after many turns": sheet(output(1), 4, 999_997) => [0, 749_997, -3];
    }
}

/// The two slots at the seam: a half of a cell behind in each.
#[test]
fn seam() {
    let [before, behind] = SEAM;
    cases! {
        "the last slot before": count(2, 2, &before, &[2, 0, 0, 0], flow(2), 2, 1) => [0, 0, -1];
        "the first slot behind": count(2, 2, &behind, &[1, 0, 2, 0], flow(2), 1, 1) => [0, 0, -1];
    }
}

/// All loads zero, and the most cells that a run can have.
#[test]
fn least_and_most() {
    let full = |class, length| count(16, 1_024, &[1, 1, 1, 1], &[1; 16_384], class, 2, length);
    cases! {
        "no cell": count(2, 1, &[2, 1, 0, 1], &[0, 0], flow(1), 1, 1_000_000) => [0, 0, 0];
        "16 cells of a flow in a slot": full(flow(1), 1_000_000) => [0, 16_000_000, 0];
        "16 cells of an output in a slot": full(output(1), 999_999) => [0, 15_999_984, 0];
    }
}

/// A count in a frame whose entries are flows of other inputs, flows above the list and a flow of 0 cells.
fn any_frame(class: Class, start: u64, length: u64) -> Asked {
    let list = [1, 2, 1, 1, 2, 1, 1, 1, 1, 2, 0, 1];
    let frame = [2, 1, 4, 0, 65_535, 3, 512, 1];
    count(2, 4, &list, &frame, class, start, length)
}

/// A flow and an output wherever the entries stand, an input by what stands there.
#[test]
fn any_entries() {
    cases! {
        "flow 1 in one turn": any_frame(flow(1), 1, 4) => [0, 2, 0];
        "flow 1 where it has no entry": any_frame(flow(1), 2, 2) => [0, 0, -4];
        "flow 2 at another input": any_frame(flow(2), 1, 1) => [0, 1, 3];
        "flow 3 of 0 cells": any_frame(flow(3), 3, 1) => [0, 1, 3];
        "input 1 with flows above the list": any_frame(input(1), 2, 3) => [0, 3, 0];
        "input 2 with flows of input 1": any_frame(input(2), 2, 2) => [0, 1, -2];
        "output 1 by flow 2": any_frame(output(1), 1, 2) => [0, 1, 2];
        "output 2 by flow 1": any_frame(output(2), 4, 3) => [0, 2, -1];
    }
}

/// Entries of one flow twice in a slot, and entries of two flows of one output.
#[test]
fn twice_in_a_slot() {
    let in_slot = |frame, class| count(4, 1, &[3, 3, 1, 1, 2, 3, 1, 1], frame, class, 1, 4);
    let (one_flow, two_flows) = (&[1, 1, 65_535, 0], &[0, 2, 1, 0]);
    cases! {
        "one flow, the flow": in_slot(one_flow, flow(1)) => [0, 8, 0];
        "one flow, its output": in_slot(one_flow, output(3)) => [0, 8, 0];
        "two flows, their output": in_slot(two_flows, output(3)) => [0, 8, 0];
        "two flows, flow 2": in_slot(two_flows, flow(2)) => [0, 4, 0];
    }
}

/// A count in a frame with three flows on one pair, the last of 0 cells.
fn one_pair(class: Class, start: u64, length: u64) -> Asked {
    let list = [1, 1, 2, 1, 1, 1, 1, 1, 1, 1, 0, 1];
    count(1, 4, &list, &[1, 2, 1, 0], class, start, length)
}

/// Several flows on one pair: each by itself, and its ports with all of them.
#[test]
fn pairs() {
    cases! {
        "flow 1 in slot 1": one_pair(flow(1), 1, 1) => [0, 1, 2];
        "flow 2 in slot 1": one_pair(flow(2), 1, 1) => [0, 0, -1];
        "flow 2 in slot 2": one_pair(flow(2), 2, 1) => [0, 1, 3];
        "flow 3 in the longest run": one_pair(flow(3), 1, 1_000_000) => [0, 0, 0];
        "the input in slot 4": one_pair(input(1), 4, 1) => [0, 0, -3];
        "the output in slots 1 to 3": one_pair(output(1), 1, 3) => [0, 3, 3];
    }
}

/// Flows of one output on two links count for it alike, and each by itself.
#[test]
fn links() {
    let on_links = |class| count(2, 2, &[1, 1, 1, 2, 2, 1, 1, 4], &[1, 0, 0, 2], class, 1, 1);
    cases! {
        "the output": on_links(output(1)) => [0, 1, 0];
        "flow 2 on link 4": on_links(flow(2)) => [0, 0, -1];
    }
}

/// No flow, and 512: an entry up to the number of flows is a flow, one above it counts for its input only.
#[test]
fn lists() {
    let no_flow = |class| count(2, 1, &[], &[1, 0], class, 1, 3);
    let most = |class, start| count(1, 2, &idle(2_048), &[512, 513], class, start, 1);
    cases! {
        "no flow, input 1": no_flow(input(1)) => [0, 3, 0];
        "no flow, output 1": no_flow(output(1)) => [0, 0, 0];
        "entry 512, flow 512": most(flow(512), 1) => [0, 1, 1];
        "entry 512, output 1": most(output(1), 1) => [0, 1, 1];
        "entry 513, output 1": most(output(1), 2) => [0, 0, -1];
        "entry 513, input 1": most(input(1), 2) => [0, 1, 0];
    }
}
