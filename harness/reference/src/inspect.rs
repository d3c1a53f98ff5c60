//! Inspect: legality and balance looked up in the frame's entries, without the splitting.

use crate::admission::{check_frame, check_list};
use crate::flow::{numbered, Flow, LINKS};
use crate::refusal::Refusal;
use crate::side::Side;

/// The answer of Inspect; slots, ports and flows are numbered from 1. The port of a wrong entry is one of the frame's side, the port that
/// is used twice one of the other side.
#[derive(Clone, Copy, Debug, PartialEq, Eq)]
pub enum Inspection {
    Clean,
    WrongEntry { slot: u64, port: u64 },
    PortTwice { slot: u64, port: u64 },
    FlowCount { flow: u64 },
    UnbalancedBlock { slot: u64, size: u64 },
    Refused(Refusal),
}

/// Clean, the first fault in the paper's order, or the first refusal of 1, 2, 3, 21, 22, 23, 4.
pub fn inspect(side: Side, ports: u64, slots: u64, list: &[u16], frame: &[u16]) -> Inspection {
    let checked = check_list(ports, slots, list)
        .and_then(|flows| check_frame(ports, slots, frame).map(|()| flows));
    let flows = match checked {
        Ok(flows) => flows,
        Err(refusal) => return Inspection::Refused(refusal),
    };
    let ports = ports as usize;
    wrong_entry(side, ports, &flows, frame)
        .or_else(|| port_twice(side.other(), ports, &flows, frame))
        .or_else(|| flow_count(ports, &flows, frame))
        .or_else(|| unbalanced_block(ports, &flows, frame))
        .unwrap_or(Inspection::Clean)
}

/// The earliest entry that is neither 0 nor a flow of the port at whose place it stands; frame order is slot order, then port order.
fn wrong_entry(side: Side, ports: usize, flows: &[Flow], frame: &[u16]) -> Option<Inspection> {
    let is_right = |place: usize, entry: u16| {
        let flow = numbered(flows, entry.into());
        entry == 0 || flow.is_some_and(|flow| side.port_of(flow) == (place % ports + 1) as u64)
    };
    let mut entries = frame.iter().enumerate();
    let place = entries.position(|(place, &entry)| !is_right(place, entry))?;
    Some(Inspection::WrongEntry {
        slot: (place / ports + 1) as u64,
        port: (place % ports + 1) as u64,
    })
}

/// The earliest slot that uses a port of this side twice, and its lowest such port.
fn port_twice(side: Side, ports: usize, flows: &[Flow], frame: &[u16]) -> Option<Inspection> {
    for (slot, entries) in (1..).zip(frame.chunks(ports)) {
        let sent = entries.iter().map(|&entry| numbered(flows, entry.into()));
        let used: Vec<u64> = sent.flatten().map(|flow| side.port_of(flow)).collect();
        let uses = |port: u64| used.iter().filter(|&&other| other == port).count();
        let twice = (1..=ports as u64).find(|&port| uses(port) > 1);
        if let Some(port) = twice {
            return Some(Inspection::PortTwice { slot, port });
        }
    }
    None
}

/// The first flow of the list that is not in its cells of slots.
fn flow_count(ports: usize, flows: &[Flow], frame: &[u16]) -> Option<Inspection> {
    let carried = cells_by_class(ports, flows, frame);
    let mut reserved = flows.iter().zip(&carried);
    let place = reserved.position(|(flow, &cells)| flow.cells != cells)?;
    let flow = (place + 1) as u64;
    Some(Inspection::FlowCount { flow })
}

/// The earliest of the largest blocks whose halves differ by more than a cell.
fn unbalanced_block(ports: usize, flows: &[Flow], frame: &[u16]) -> Option<Inspection> {
    let mut size = frame.len() / ports;
    while size >= 2 {
        let mut blocks = frame.chunks(size * ports);
        if let Some(place) = blocks.position(|block| !is_balanced(ports, flows, block)) {
            return Some(Inspection::UnbalancedBlock {
                slot: (place * size + 1) as u64,
                size: size as u64,
            });
        }
        size /= 2;
    }
    None
}

/// Whether the halves of a block differ by at most 1 in every flow, input, output and link, and in the total.
fn is_balanced(ports: usize, flows: &[Flow], block: &[u16]) -> bool {
    let (front, back) = block.split_at(block.len() / 2);
    let front = cells_by_class(ports, flows, front);
    let back = cells_by_class(ports, flows, back);
    front.iter().zip(&back).all(|(a, b)| a.abs_diff(*b) <= 1)
}

/// The cells of every flow, then of every input, of every output, of every link, and all of them, where no entry is wrong.
fn cells_by_class(ports: usize, flows: &[Flow], block: &[u16]) -> Vec<u64> {
    let inputs = flows.len();
    let outputs = inputs + ports;
    let links = outputs + ports;
    let total = links + ports * LINKS as usize;
    let mut cells = vec![0; total + 1];
    for &entry in block {
        if let Some(flow) = numbered(flows, entry.into()) {
            cells[usize::from(entry) - 1] += 1;
            cells[inputs + flow.input as usize - 1] += 1;
            cells[outputs + flow.output as usize - 1] += 1;
            let links_before = (flow.output - 1) * LINKS + flow.link - 1;
            cells[links + links_before as usize] += 1;
            cells[total] += 1;
        }
    }
    cells
}
