//! Admit's refusals for links: 23, and 24 with limits that are not those of a sheet.

use crate::asked::{admit, admit_within, Asked};
use crate::lists::{idle, repeated, with};

/// 23 on either side of its bounds, at a later flow, at one of 0 cells, and at the last of 512.
#[test]
fn flow_links() {
    cases! {
        "link 0": admit(2, 4, &[1, 1, 1, 0]) => [23];
        "link 4": admit(2, 4, &[1, 1, 1, 4]) => [0];
        "link 5": admit(2, 4, &[1, 1, 1, 5]) => [23];
        "link 65,535": admit(16, 4, &[16, 16, 1, 65_535]) => [23];
        "link 5 of flow 2": admit(2, 4, &[1, 1, 1, 4, 2, 2, 1, 5]) => [23];
        "link 0 of flow 2 of 0 cells": admit(2, 4, &[1, 1, 1, 1, 2, 2, 0, 0]) => [23];
        "link 4 of flow 512": admit(2, 4, &with(idle(2_048), [(2_047, 4)])) => [0];
        "link 5 of flow 512": admit(2, 4, &with(idle(2_048), [(2_047, 5)])) => [23];
    }
}

/// 23 with each before it, with 22 at one flow and at a later one; and with 5 and 6.
#[test]
fn flow_links_and_others() {
    cases! {
        "1 before 23": admit(17, 4, &[1, 1, 0, 5]) => [1];
        "2 before 23": admit(2, 3, &[1, 1, 0, 5]) => [2];
        "3 before 23": admit(2, 4, &[1, 1, 0, 5, 1]) => [3];
        "21 before 23": admit(2, 4, &with(idle(2_052), [(3, 0)])) => [21];
        "22 before 23 at one flow": admit(2, 4, &[3, 1, 0, 5]) => [22];
        "22 of flow 2 before 23 of flow 1": admit(2, 4, &[1, 1, 0, 5, 1, 3, 0, 1]) => [22];
        "23 before 5": admit(2, 4, &[1, 1, 5, 5]) => [23];
        "23 before 6": admit(2, 4, &[1, 1, 3, 0, 2, 1, 2, 1]) => [23];
    }
}

/// Admit in 4 slots with a limit of 4 cells for each link but one, which is named by its output and its number there.
fn but_one(ports: u64, list: &[u16], (output, link): (usize, usize), limit: u16) -> Asked {
    let mut limits = [4; 64];
    limits[4 * (output - 1) + link - 1] = limit;
    admit_within(ports, 4, list, limits)
}

/// 24 on either side of its bound: for one flow, for two on one link, and at the last link of 16 outputs.
#[test]
fn link_loads() {
    let list = [1, 1, 3, 2, 2, 2, 2, 1];
    let shared = [1, 2, 1, 4, 2, 2, 2, 4];
    let last = [16, 16, 1, 4];
    cases! {
        "3 cells, limit 3": but_one(2, &list, (1, 2), 3) => [0];
        "3 cells, limit 2": but_one(2, &list, (1, 2), 2) => [24, 1, 2, 3];
        "3 cells, limit 0": but_one(2, &list, (1, 2), 0) => [24, 1, 2, 3];
        "2 cells, limit 2": but_one(2, &list, (2, 1), 2) => [0];
        "2 cells, limit 1": but_one(2, &list, (2, 1), 1) => [24, 2, 1, 2];
        "3 cells of two flows, limit 3": but_one(2, &shared, (2, 4), 3) => [0];
        "3 cells of two flows, limit 2": but_one(2, &shared, (2, 4), 2) => [24, 2, 4, 3];
        "1 cell of the last link, limit 1": but_one(16, &last, (16, 4), 1) => [0];
        "1 cell of the last link, limit 0": but_one(16, &last, (16, 4), 0) => [24, 16, 4, 1];
    }
}

/// A limit of 0 refuses no link without cells, of an output of the switch or above its ports.
#[test]
fn idle_links() {
    cases! {
        "another link of the output": but_one(2, &[1, 1, 3, 2], (1, 1), 0) => [0];
        "a link of another output": but_one(2, &[1, 1, 3, 2], (2, 2), 0) => [0];
        "a link of an output above the ports": but_one(2, &[1, 1, 3, 2], (3, 2), 0) => [0];
        "a link whose flow has 0 cells": but_one(2, &[1, 1, 0, 2], (1, 2), 0) => [0];
    }
}

/// The lowest output and its lowest link, wherever they come in the list; four links of an output; limits on either side of slots.
#[test]
fn lowest_links() {
    let ones = [1; 64];
    let later_output = [1, 2, 2, 3, 2, 2, 2, 1, 1, 1, 1, 1];
    let four = [1, 1, 1, 1, 1, 1, 1, 2, 1, 1, 1, 3, 1, 1, 1, 4];
    let full = [1, 1, 1_024, 1];
    cases! {
        "lower output last": admit_within(2, 4, &[1, 2, 2, 1, 2, 1, 2, 4], ones) => [24, 1, 4, 2];
        "lower link last": admit_within(2, 4, &[1, 1, 2, 3, 2, 1, 2, 2], ones) => [24, 1, 2, 2];
        "two links of output 2": admit_within(2, 4, &later_output, ones) => [24, 2, 1, 2];
        "1 cell of each link": admit_within(1, 4, &four, ones) => [0];
        "1,024 cells, limit 1,023": admit_within(1, 1_024, &full, [1_023; 64]) => [24, 1, 1, 1_024];
        "1,024 cells, limit 65,535": admit_within(1, 1_024, &full, [65_535; 64]) => [0];
    }
}

/// Admit with limits of 0.
fn closed(ports: u64, slots: u64, list: &[u16]) -> Asked {
    admit_within(ports, slots, list, [0; 64])
}

/// 24 with each before it, with 6 at its own output and at a higher one.
#[test]
fn limits_and_others() {
    let higher = [1, 1, 1, 1, 1, 2, 3, 1, 2, 2, 2, 2];
    cases! {
        "1 before 24": closed(17, 4, &[1, 1, 1, 1]) => [1];
        "2 before 24": closed(2, 3, &[1, 1, 1, 1]) => [2];
        "3 before 24": closed(2, 4, &[1, 1, 1, 1, 1]) => [3];
        "21 before 24": closed(2, 4, &repeated([1, 1, 1, 1], 2_052)) => [21];
        "22 before 24": closed(2, 4, &[1, 1, 1, 1, 1, 3, 0, 1]) => [22];
        "23 before 24": closed(2, 4, &[1, 1, 1, 1, 1, 1, 0, 5]) => [23];
        "5 before 24": closed(2, 4, &[1, 1, 5, 1]) => [5, 1, 5];
        "6 before 24 of the output": closed(2, 4, &[1, 1, 3, 1, 2, 1, 2, 2]) => [6, 1, 5];
        "6 of output 2 before 24 of output 1": closed(2, 4, &higher) => [6, 2, 5];
    }
}
