//! Service count's refusals: 1, 2, 3, 21, 22, 23, 4, 11, 12 and 13.

use calls::Class;

use crate::asked::{count, flow, input, output, Asked};
use crate::lists::{idle, repeated, with, zeros};

/// A count in so many entries that are 0.
fn listed(
    ports: u64,
    slots: u64,
    list: &[u16],
    entries: usize,
    class: Class,
    start: u64,
    length: u64,
) -> Asked {
    count(ports, slots, list, &zeros(entries), class, start, length)
}

/// 1 and 2 on either side of their bounds.
#[test]
fn sizes() {
    cases! {
        "0 ports": listed(0, 4, &idle(0), 0, input(1), 1, 1) => [1];
        "1 port": listed(1, 4, &idle(4), 4, input(1), 1, 1) => [0, 0, 0];
        "16 ports": listed(16, 1, &idle(4), 16, input(1), 1, 1) => [0, 0, 0];
        "17 ports": listed(17, 1, &idle(4), 17, input(1), 1, 1) => [1];
        "0 slots": listed(1, 0, &idle(4), 0, input(1), 1, 1) => [2];
        "1 slot": listed(1, 1, &idle(4), 1, input(1), 1, 1) => [0, 0, 0];
        "3 slots": listed(1, 3, &idle(4), 3, input(1), 1, 1) => [2];
        "1,024 slots": listed(1, 1_024, &idle(4), 1_024, input(1), 1_024, 1) => [0, 0, 0];
        "2,048 slots": listed(1, 2_048, &idle(4), 2_048, input(1), 1, 1) => [2];
    }
}

/// 3, 21, 4 and 11 on either side of their bounds.
#[test]
fn lengths() {
    cases! {
        "no flow": listed(2, 4, &idle(0), 8, input(1), 1, 1) => [0, 0, 0];
        "1 number": listed(2, 4, &idle(1), 8, input(1), 1, 1) => [3];
        "2 numbers": listed(2, 4, &idle(2), 8, input(1), 1, 1) => [3];
        "3 numbers": listed(2, 4, &idle(3), 8, input(1), 1, 1) => [3];
        "5 numbers": listed(2, 4, &idle(5), 8, input(1), 1, 1) => [3];
        "a number short of 512 flows": listed(2, 4, &idle(2_047), 8, input(1), 1, 1) => [3];
        "512 flows": listed(2, 4, &idle(2_048), 8, input(1), 1, 1) => [0, 0, 0];
        "513 flows": listed(2, 4, &idle(2_052), 8, input(1), 1, 1) => [21];
        "an entry too few": listed(2, 4, &idle(4), 7, input(1), 1, 1) => [4];
        "an entry too many": listed(2, 4, &idle(4), 9, input(1), 1, 1) => [4];
        "start 0 of 4": listed(2, 4, &idle(4), 8, input(1), 0, 1) => [11];
        "start 4 of 4": listed(2, 4, &idle(4), 8, input(1), 4, 1) => [0, 0, 0];
        "start 5 of 4": listed(2, 4, &idle(4), 8, input(1), 5, 1) => [11];
    }
}

/// 22 on either side of its bounds at a flow's input and at its output, though another flow or a port is asked for.
#[test]
fn flow_ports() {
    cases! {
        "ports 1 and 2": listed(2, 4, &[1, 2, 0, 1, 2, 1, 0, 1], 8, flow(1), 1, 1) => [0, 0, 0];
        "input 0": listed(2, 4, &[0, 1, 0, 1], 8, flow(1), 1, 1) => [22];
        "input 3": listed(2, 4, &[3, 1, 0, 1], 8, flow(1), 1, 1) => [22];
        "output 0": listed(2, 4, &[1, 0, 0, 1], 8, flow(1), 1, 1) => [22];
        "output 3": listed(2, 4, &[1, 3, 0, 1], 8, flow(1), 1, 1) => [22];
        "output 3 of flow 2": listed(2, 4, &[1, 1, 0, 1, 1, 3, 0, 1], 8, flow(1), 1, 1) => [22];
        "input 3 of flow 2": listed(2, 4, &[1, 1, 0, 1, 3, 1, 0, 1], 8, input(1), 1, 1) => [22];
    }
}

/// 23 on either side of its bounds, though another flow or a port is asked for.
#[test]
fn flow_links() {
    cases! {
        "link 0": listed(2, 4, &[1, 1, 0, 0], 8, flow(1), 1, 1) => [23];
        "link 4": listed(2, 4, &[1, 1, 0, 4], 8, flow(1), 1, 1) => [0, 0, 0];
        "link 5": listed(2, 4, &[1, 1, 0, 5], 8, flow(1), 1, 1) => [23];
        "link 5 of flow 2": listed(2, 4, &[1, 1, 0, 1, 2, 2, 0, 5], 8, flow(1), 1, 1) => [23];
        "link 0 of flow 2": listed(2, 4, &[1, 1, 0, 1, 2, 2, 0, 0], 8, output(1), 1, 1) => [23];
    }
}

/// 12 and 13 on either side of their bounds.
#[test]
fn questions() {
    cases! {
        "input 0 of 2": listed(2, 4, &idle(4), 8, input(0), 1, 1) => [12];
        "input 2 of 2": listed(2, 4, &idle(4), 8, input(2), 1, 1) => [0, 0, 0];
        "input 3 of 2": listed(2, 4, &idle(4), 8, input(3), 1, 1) => [12];
        "output 0 of 2": listed(2, 4, &idle(4), 8, output(0), 1, 1) => [12];
        "output 2 of 2": listed(2, 4, &idle(4), 8, output(2), 1, 1) => [0, 0, 0];
        "output 3 of 2": listed(2, 4, &idle(4), 8, output(3), 1, 1) => [12];
        "1,000,000 slots": listed(2, 4, &idle(4), 8, input(1), 1, 1_000_000) => [0, 0, 0];
        "1,000,001 slots": listed(2, 4, &idle(4), 8, input(1), 1, 1_000_001) => [13];
    }
}

/// 12 on either side of its bounds for a flow, in no flow, in three and in 512; ports do not bound it.
#[test]
fn flow_numbers() {
    cases! {
        "flow 0 of none": listed(2, 4, &idle(0), 8, flow(0), 1, 1) => [12];
        "flow 1 of none": listed(2, 4, &idle(0), 8, flow(1), 1, 1) => [12];
        "flow 0 of 3": listed(2, 4, &idle(12), 8, flow(0), 1, 1) => [12];
        "flow 1 of 3": listed(2, 4, &idle(12), 8, flow(1), 1, 1) => [0, 0, 0];
        "flow 3 of 3": listed(2, 4, &idle(12), 8, flow(3), 1, 1) => [0, 0, 0];
        "flow 4 of 3": listed(2, 4, &idle(12), 8, flow(4), 1, 1) => [12];
        "flow 512 of 512": listed(2, 4, &idle(2_048), 8, flow(512), 1, 1) => [0, 0, 0];
        "flow 513 of 512": listed(2, 4, &idle(2_048), 8, flow(513), 1, 1) => [12];
    }
}

/// 1 with each that follows it.
#[test]
fn ports_and_others() {
    cases! {
        "1 before 2": listed(17, 3, &idle(4), 51, input(1), 1, 1) => [1];
        "1 before 3": listed(17, 4, &idle(5), 68, input(1), 1, 1) => [1];
        "1 before 21": listed(17, 4, &idle(2_052), 68, input(1), 1, 1) => [1];
        "1 before 22": listed(17, 4, &[18, 1, 0, 1], 68, input(1), 1, 1) => [1];
        "1 before 4": listed(17, 4, &idle(4), 67, input(1), 1, 1) => [1];
        "1 before 11": listed(17, 4, &idle(4), 68, input(1), 0, 1) => [1];
        "1 before 12": listed(17, 4, &idle(4), 68, input(0), 1, 1) => [1];
        "1 before 13": listed(17, 4, &idle(4), 68, input(1), 1, 1_000_001) => [1];
    }
}

/// 2 with each that follows it.
#[test]
fn slots_and_others() {
    cases! {
        "2 before 3": listed(2, 3, &idle(5), 6, input(1), 1, 1) => [2];
        "2 before 21": listed(2, 3, &idle(2_052), 6, input(1), 1, 1) => [2];
        "2 before 22": listed(2, 3, &[3, 1, 0, 1], 6, input(1), 1, 1) => [2];
        "2 before 4": listed(2, 3, &idle(4), 7, input(1), 1, 1) => [2];
        "2 before 11": listed(2, 3, &idle(4), 6, input(1), 0, 1) => [2];
        "2 before 12": listed(2, 3, &idle(4), 6, flow(0), 1, 1) => [2];
        "2 before 13": listed(2, 3, &idle(4), 6, input(1), 1, 1_000_001) => [2];
    }
}

/// 3 with each that follows it, and with 512 whole flows.
#[test]
fn list_and_others() {
    cases! {
        "512 flows and a number": listed(2, 4, &idle(2_049), 8, flow(1), 1, 1) => [3];
        "3 before 21": listed(2, 4, &idle(2_053), 8, flow(1), 1, 1) => [3];
        "3 before 22": listed(2, 4, &[3, 1, 0, 1, 1], 8, flow(1), 1, 1) => [3];
        "3 before 4": listed(2, 4, &idle(5), 7, flow(1), 1, 1) => [3];
        "3 before 11": listed(2, 4, &idle(5), 8, flow(1), 5, 1) => [3];
        "3 before 12": listed(2, 4, &idle(5), 8, flow(2), 1, 1) => [3];
        "3 before 13": listed(2, 4, &idle(5), 8, flow(1), 1, 1_000_001) => [3];
    }
}

/// 21 with each that follows it.
#[test]
fn flows_and_others() {
    let outside = with(repeated([1, 1, 1, 1], 2_052), [(2_048, 3)]);
    cases! {
        "21 before 22": listed(2, 4, &outside, 8, flow(1), 1, 1) => [21];
        "21 before 4": listed(2, 4, &idle(2_052), 9, flow(1), 1, 1) => [21];
        "21 before 11": listed(2, 4, &idle(2_052), 8, flow(1), 0, 1) => [21];
        "21 before 12": listed(2, 4, &idle(2_052), 8, flow(514), 1, 1) => [21];
        "21 before 13": listed(2, 4, &idle(2_052), 8, flow(1), 1, 1_000_001) => [21];
    }
}

/// 22 with each that follows it.
#[test]
fn flow_port_and_others() {
    let list = [1, 1, 0, 1, 1, 0, 0, 1];
    cases! {
        "22 before 4": listed(2, 4, &list, 7, flow(1), 1, 1) => [22];
        "22 before 11": listed(2, 4, &list, 8, flow(1), 5, 1) => [22];
        "22 before 12 of a flow": listed(2, 4, &list, 8, flow(3), 1, 1) => [22];
        "22 before 12 of an output": listed(2, 4, &list, 8, output(0), 1, 1) => [22];
        "22 before 13": listed(2, 4, &list, 8, flow(1), 1, 1_000_001) => [22];
    }
}

/// 23 with each before it, with 22 at one flow and at a later one.
#[test]
fn others_and_flow_link() {
    let too_many = with(repeated([1, 1, 1, 1], 2_052), [(3, 5)]);
    let two_flows = [1, 1, 0, 5, 1, 3, 0, 1];
    cases! {
        "1 before 23": listed(17, 4, &[1, 1, 0, 5], 68, flow(1), 1, 1) => [1];
        "2 before 23": listed(2, 3, &[1, 1, 0, 5], 6, flow(1), 1, 1) => [2];
        "3 before 23": listed(2, 4, &[1, 1, 0, 5, 1], 8, flow(1), 1, 1) => [3];
        "21 before 23": listed(2, 4, &too_many, 8, flow(1), 1, 1) => [21];
        "22 before 23 at one flow": listed(2, 4, &[1, 3, 0, 5], 8, flow(1), 1, 1) => [22];
        "22 of flow 2 before 23 of flow 1": listed(2, 4, &two_flows, 8, flow(1), 1, 1) => [22];
    }
}

/// 23 with each that follows it.
#[test]
fn flow_link_and_others() {
    let list = [1, 1, 0, 1, 1, 1, 0, 5];
    cases! {
        "23 before 4": listed(2, 4, &list, 7, flow(1), 1, 1) => [23];
        "23 before 11": listed(2, 4, &list, 8, flow(1), 5, 1) => [23];
        "23 before 12 of a flow": listed(2, 4, &list, 8, flow(3), 1, 1) => [23];
        "23 before 12 of an output": listed(2, 4, &list, 8, output(0), 1, 1) => [23];
        "23 before 13": listed(2, 4, &list, 8, flow(1), 1, 1_000_001) => [23];
    }
}

/// 4 with each that follows it, 11 with 12, 11 with 13, 12 with 13 for a flow, an input and an output.
#[test]
fn two_with_questions() {
    cases! {
        "4 before 11": listed(2, 4, &idle(4), 16, flow(1), 5, 1) => [4];
        "4 before 12": listed(2, 4, &idle(4), 16, flow(2), 1, 1) => [4];
        "4 before 13": listed(2, 4, &idle(4), 16, flow(1), 1, 1_000_001) => [4];
        "11 before 12": listed(2, 4, &idle(4), 8, flow(2), 0, 1) => [11];
        "11 before 13": listed(2, 4, &idle(4), 8, flow(1), 5, 1_000_001) => [11];
        "12 of a flow before 13": listed(2, 4, &idle(4), 8, flow(2), 1, 1_000_001) => [12];
        "12 of an input before 13": listed(2, 4, &idle(4), 8, input(3), 1, 1_000_001) => [12];
        "12 of an output before 13": listed(2, 4, &idle(4), 8, output(3), 1, 1_000_001) => [12];
    }
}
