//! Turn's refusals: 1, 2, 3, 21, 22, 23, 4, 15 and 14. Each case is asked of both sides, whose answers must be the same.

use calls::{INPUT_SIDE, OUTPUT_SIDE};

use crate::asked::{turn, turn_into, Asked};
use crate::lists::{idle, repeated, with, zeros};

/// Turn into a second buffer of so many entries, told the one side and then the other.
fn turned(ports: u64, slots: u64, list: &[u16], frame: &[u16], length: usize) -> Asked {
    let sides = [INPUT_SIDE, OUTPUT_SIDE];
    let asked = sides.map(|side| turn_into(length, side, ports, slots, list, frame));
    Box::new(move |calls| {
        let [by_inputs, by_outputs] = [0, 1].map(|side: usize| asked[side](calls));
        assert_eq!(by_inputs, by_outputs);
        by_inputs
    })
}

/// The same with so many entries that are 0, in both.
fn of_zeros(ports: u64, slots: u64, list: &[u16], entries: usize) -> Asked {
    turned(ports, slots, list, &zeros(entries), entries)
}

/// 1 and 2 on either side of their bounds.
#[test]
fn sizes() {
    cases! {
        "0 ports": of_zeros(0, 4, &idle(0), 0) => [1];
        "1 port": of_zeros(1, 4, &idle(4), 4) => [0; 5];
        "16 ports": of_zeros(16, 1, &idle(4), 16) => [0; 17];
        "17 ports": of_zeros(17, 1, &idle(4), 17) => [1];
        "0 slots": of_zeros(1, 0, &idle(4), 0) => [2];
        "1 slot": of_zeros(1, 1, &idle(4), 1) => [0; 2];
        "3 slots": of_zeros(1, 3, &idle(4), 3) => [2];
        "1,024 slots": of_zeros(1, 1_024, &idle(4), 1_024) => [0; 1_025];
        "2,048 slots": of_zeros(1, 2_048, &idle(4), 2_048) => [2];
    }
}

/// 3, 21, 4 and 15 on either side of their bounds.
#[test]
fn lengths() {
    cases! {
        "no flow": of_zeros(2, 2, &idle(0), 4) => [0; 5];
        "1 number": of_zeros(2, 2, &idle(1), 4) => [3];
        "2 numbers": of_zeros(2, 2, &idle(2), 4) => [3];
        "3 numbers": of_zeros(2, 2, &idle(3), 4) => [3];
        "5 numbers": of_zeros(2, 2, &idle(5), 4) => [3];
        "a number short of 512 flows": of_zeros(2, 2, &idle(2_047), 4) => [3];
        "512 flows": of_zeros(2, 2, &idle(2_048), 4) => [0; 5];
        "513 flows": of_zeros(2, 2, &idle(2_052), 4) => [21];
        "an entry too few": of_zeros(2, 2, &idle(4), 3) => [4];
        "an entry too many": of_zeros(2, 2, &idle(4), 5) => [4];
        "no second buffer": turned(2, 2, &idle(4), &zeros(4), 0) => [15];
        "a second buffer one short": turned(2, 2, &idle(4), &zeros(4), 3) => [15];
        "a second buffer one over": turned(2, 2, &idle(4), &zeros(4), 5) => [15];
        "a second buffer twice as long": turned(2, 2, &idle(4), &zeros(4), 8) => [15];
    }
}

/// 22 and 23 on either side of their bounds, though no entry is the flow.
#[test]
fn flow_ports_and_links() {
    cases! {
        "ports 1 and 2": of_zeros(2, 2, &[1, 2, 0, 1, 2, 1, 0, 1], 4) => [0; 5];
        "input 0": of_zeros(2, 2, &[0, 1, 0, 1], 4) => [22];
        "input 3": of_zeros(2, 2, &[3, 1, 0, 1], 4) => [22];
        "output 0": of_zeros(2, 2, &[1, 0, 0, 1], 4) => [22];
        "output 3": of_zeros(2, 2, &[1, 3, 0, 1], 4) => [22];
        "output 3 of flow 2": of_zeros(2, 2, &[1, 1, 0, 1, 1, 3, 0, 1], 4) => [22];
        "link 0": of_zeros(2, 2, &[1, 1, 0, 0], 4) => [23];
        "link 4": of_zeros(2, 2, &[1, 1, 0, 4], 4) => [0; 5];
        "link 5": of_zeros(2, 2, &[1, 1, 0, 5], 4) => [23];
        "link 5 of flow 2": of_zeros(2, 2, &[1, 1, 0, 1, 2, 2, 0, 5], 4) => [23];
    }
}

/// Flow 1 goes from input 1 to output 1, flow 2 from input 2 to output 2, flows 3 and 4 from one of the two to the other.
const EVERY_PAIR: [u16; 16] = [1, 1, 1, 1, 2, 2, 1, 1, 1, 2, 1, 1, 2, 1, 1, 1];

fn by_inputs(frame: [u16; 4]) -> Asked {
    turn(INPUT_SIDE, 2, 2, &EVERY_PAIR, &frame)
}

fn by_outputs(frame: [u16; 4]) -> Asked {
    turn(OUTPUT_SIDE, 2, 2, &EVERY_PAIR, &frame)
}

/// 14 for a wrong entry: above the flows, or of another port of the frame's side, in the first slot and in the last.
#[test]
fn wrong_entries() {
    cases! {
        "flow 4 by inputs": by_inputs([0, 4, 0, 0]) => [0, 4, 0, 0, 0];
        "flow 5 of 4 by inputs": by_inputs([0, 5, 0, 0]) => [14];
        "flow 5 of 4 by outputs": by_outputs([0, 5, 0, 0]) => [14];
        "entry 65,535": by_inputs([0, 0, 65_535, 0]) => [14];
        "flow 2 at input 1": by_inputs([2, 0, 0, 0]) => [14];
        "flow 4 at input 1, whose output is right": by_inputs([4, 0, 0, 0]) => [14];
        "flow 4 at output 1": by_outputs([4, 0, 0, 0]) => [0, 0, 4, 0, 0];
        "flow 3 at output 1, whose input is right": by_outputs([3, 0, 0, 0]) => [14];
        "flow 1 at input 2 of the last slot": by_inputs([1, 2, 0, 1]) => [14];
        "flow 1 at output 2 of the last slot": by_outputs([1, 2, 0, 1]) => [14];
        "no flow at all": turn(INPUT_SIDE, 1, 1, &[], &[1]) => [14];
        "entry 513 of 512": turn(INPUT_SIDE, 1, 1, &idle(2_048), &[513]) => [14];
    }
}

/// 14 for a port of the other side that is used twice, in the first slot and in the last, by two flows and by one pair.
#[test]
fn ports_twice() {
    let pair = [1, 1, 1, 1, 2, 1, 1, 2, 3, 1, 1, 1, 3, 3, 1, 1];
    let slot = |entries: [u16; 3]| turn(INPUT_SIDE, 3, 1, &pair, &entries);
    cases! {
        "outputs 1 and 2": by_inputs([1, 2, 3, 4]) => [0, 1, 2, 4, 3];
        "output 1 twice": by_inputs([1, 4, 0, 0]) => [14];
        "output 2 twice": by_inputs([3, 2, 0, 0]) => [14];
        "output 1 twice in the last slot": by_inputs([1, 2, 1, 4]) => [14];
        "input 1 twice": by_outputs([1, 3, 0, 0]) => [14];
        "input 2 twice": by_outputs([4, 2, 0, 0]) => [14];
        "input 2 twice in the last slot": by_outputs([1, 2, 4, 2]) => [14];
        "an output on two links": slot([1, 2, 0]) => [14];
        "the first input and the last": slot([1, 0, 3]) => [14];
        "an output three times": slot([1, 2, 3]) => [14];
        "two outputs": slot([1, 0, 4]) => [0, 1, 0, 4];
    }
}

/// 1 with each that follows it.
#[test]
fn ports_and_others() {
    let long = with(zeros(68), [(0, 2)]);
    cases! {
        "1 before 2": of_zeros(17, 3, &idle(4), 51) => [1];
        "1 before 3": of_zeros(17, 4, &idle(5), 68) => [1];
        "1 before 21": of_zeros(17, 4, &idle(2_052), 68) => [1];
        "1 before 22": of_zeros(17, 4, &[18, 1, 0, 1], 68) => [1];
        "1 before 23": of_zeros(17, 4, &[1, 1, 0, 5], 68) => [1];
        "1 before 4": of_zeros(17, 4, &idle(4), 67) => [1];
        "1 before 15": turned(17, 4, &idle(4), &zeros(68), 67) => [1];
        "1 before 14": turned(17, 4, &idle(4), &long, 68) => [1];
    }
}

/// 2 with each that follows it.
#[test]
fn slots_and_others() {
    cases! {
        "2 before 3": of_zeros(2, 3, &idle(5), 6) => [2];
        "2 before 21": of_zeros(2, 3, &idle(2_052), 6) => [2];
        "2 before 22": of_zeros(2, 3, &[3, 1, 0, 1], 6) => [2];
        "2 before 23": of_zeros(2, 3, &[1, 1, 0, 5], 6) => [2];
        "2 before 4": of_zeros(2, 3, &idle(4), 7) => [2];
        "2 before 15": turned(2, 3, &idle(4), &zeros(6), 5) => [2];
        "2 before 14": turned(2, 3, &idle(4), &[2, 0, 0, 0, 0, 0], 6) => [2];
    }
}

/// 3 with each that follows it.
#[test]
fn list_and_others() {
    cases! {
        "3 before 21": of_zeros(2, 2, &idle(2_053), 4) => [3];
        "3 before 22": of_zeros(2, 2, &[3, 1, 0, 1, 1], 4) => [3];
        "3 before 23": of_zeros(2, 2, &[1, 1, 0, 5, 1], 4) => [3];
        "3 before 4": of_zeros(2, 2, &idle(5), 3) => [3];
        "3 before 15": turned(2, 2, &idle(5), &zeros(4), 5) => [3];
        "3 before 14": turned(2, 2, &idle(5), &[2, 0, 0, 0], 4) => [3];
    }
}

/// 21 with each that follows it.
#[test]
fn flows_and_others() {
    let port = with(repeated([1, 1, 1, 1], 2_052), [(2_048, 3)]);
    let link = with(repeated([1, 1, 1, 1], 2_052), [(3, 5)]);
    cases! {
        "21 before 22": of_zeros(2, 2, &port, 4) => [21];
        "21 before 23": of_zeros(2, 2, &link, 4) => [21];
        "21 before 4": of_zeros(2, 2, &idle(2_052), 5) => [21];
        "21 before 15": turned(2, 2, &idle(2_052), &zeros(4), 3) => [21];
        "21 before 14": turned(2, 2, &idle(2_052), &[514, 0, 0, 0], 4) => [21];
    }
}

/// 22 and 23 with each other and with each that follows them.
#[test]
fn flow_ports_links_and_others() {
    let port = [1, 1, 0, 1, 1, 0, 0, 1];
    let link = [1, 1, 0, 1, 1, 1, 0, 5];
    cases! {
        "22 before 23 at one flow": of_zeros(2, 2, &[1, 3, 0, 5], 4) => [22];
        "22 of flow 2 before 23 of flow 1": of_zeros(2, 2, &[1, 1, 0, 5, 1, 3, 0, 1], 4) => [22];
        "22 before 4": of_zeros(2, 2, &port, 3) => [22];
        "22 before 15": turned(2, 2, &port, &zeros(4), 5) => [22];
        "22 before 14": turned(2, 2, &port, &[3, 0, 0, 0], 4) => [22];
        "23 before 4": of_zeros(2, 2, &link, 3) => [23];
        "23 before 15": turned(2, 2, &link, &zeros(4), 5) => [23];
        "23 before 14": turned(2, 2, &link, &[3, 0, 0, 0], 4) => [23];
    }
}

/// 4 with 15 and with 14, and 15 with 14 for each of its reasons.
#[test]
fn lengths_and_entries() {
    let pairs = |frame: [u16; 4]| turned(2, 2, &EVERY_PAIR, &frame, 3);
    cases! {
        "4 before 15, the second one right": turned(2, 2, &idle(4), &zeros(3), 4) => [4];
        "4 before 15, both wrong": turned(2, 2, &idle(4), &zeros(3), 5) => [4];
        "4 before 14": turned(2, 2, &idle(4), &[2, 0, 0], 3) => [4];
        "15 before 14 above the flows": pairs([5, 0, 0, 0]) => [15];
        "15 before 14 of another port": pairs([2, 0, 0, 0]) => [15];
        "15 before 14 of a port twice": pairs([1, 2, 1, 4]) => [15];
    }
}
