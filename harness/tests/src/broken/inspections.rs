//! Inspectors that do not see some fault.

use calls::{Inspection, Side};
use loads::{flows_of, Flow, FLOW_NUMBERS, LINKS};

use crate::broken::{cut, port_of, AskedFrame};

/// Says clean without looking.
pub fn always_clean(asked: AskedFrame) -> Inspection {
    match asked.inspect() {
        Inspection::Refused(refusal) => Inspection::Refused(refusal),
        _ => Inspection::Clean,
    }
}

/// Passes any legal frame, balanced or not.
pub fn legal_is_clean(asked: AskedFrame) -> Inspection {
    match asked.inspect() {
        Inspection::UnbalancedBlock { .. } => Inspection::Clean,
        other => other,
    }
}

/// Passes an unbalanced block of two slots.
pub fn two_slots_are_balanced(asked: AskedFrame) -> Inspection {
    match asked.inspect() {
        Inspection::UnbalancedBlock { size: 2, .. } => Inspection::Clean,
        other => other,
    }
}

/// Lets entries through that are of another input's flow, and looks for the faults that follow.
pub fn other_inputs_let_through(asked: AskedFrame) -> Inspection {
    let right = asked.inspect();
    let flows = asked.list.len() / FLOW_NUMBERS;
    let mut entries = asked.frame.iter();
    let above = entries.position(|&entry| usize::from(entry) > flows);
    match (right, above) {
        (Inspection::WrongEntry { .. }, None) => Inspection::Clean,
        (Inspection::WrongEntry { .. }, Some(place)) => Inspection::WrongEntry {
            slot: place as u64 / asked.ports + 1,
            port: place as u64 % asked.ports + 1,
        },
        (other, _) => other,
    }
}

/// The entries of a frame, with 0 in the place of those above the number of flows.
pub(super) fn known_entries(asked: AskedFrame) -> Vec<u16> {
    let flows = asked.list.len() / FLOW_NUMBERS;
    let known = |&entry: &u16| if usize::from(entry) > flows { 0 } else { entry };
    asked.frame.iter().map(known).collect()
}

/// Takes entries above the number of flows for idle ones.
pub fn above_is_idle(asked: AskedFrame) -> Inspection {
    let frame: &[u16] = &known_entries(asked);
    AskedFrame { frame, ..asked }.inspect()
}

/// Adds up the cells of all flows of a pair before it compares them with those reserved.
pub fn flows_of_pair_added(asked: AskedFrame) -> Inspection {
    let right = asked.inspect();
    let Inspection::FlowCount { .. } = right else {
        return right;
    };
    let flows = flows_of(asked.list);
    let cells = |of: &Flow, counted: &dyn Fn(usize) -> usize| {
        let same = |flow: &Flow| (flow.input, flow.output) == (of.input, of.output);
        let places = (0..flows.len()).filter(|&place| same(&flows[place]));
        places.map(counted).sum::<usize>()
    };
    let carried = |place: usize| {
        let entries = asked.frame.iter();
        entries
            .filter(|&&entry| usize::from(entry) == place + 1)
            .count()
    };
    let reserved = |place: usize| usize::from(flows[place].cells);
    let wrong = flows
        .iter()
        .position(|flow| cells(flow, &carried) != cells(flow, &reserved));
    wrong.map_or(Inspection::Clean, |place| Inspection::FlowCount {
        flow: place as u64 + 1,
    })
}

/// The classes whose cells an inspector halves.
#[derive(Clone, Copy)]
struct Looked {
    flows: bool,
    inputs: bool,
    outputs: bool,
    links: bool,
    total: bool,
}

const ALL: Looked = Looked {
    flows: true,
    inputs: true,
    outputs: true,
    links: true,
    total: true,
};

/// Leaves out the flows.
pub fn no_flows(asked: AskedFrame) -> Inspection {
    let looked = Looked {
        flows: false,
        ..ALL
    };
    inspect_by(looked, asked)
}

/// Leaves out the inputs.
pub fn no_inputs(asked: AskedFrame) -> Inspection {
    let looked = Looked {
        inputs: false,
        ..ALL
    };
    inspect_by(looked, asked)
}

/// Leaves out the outputs.
pub fn no_outputs(asked: AskedFrame) -> Inspection {
    let looked = Looked {
        outputs: false,
        ..ALL
    };
    inspect_by(looked, asked)
}

/// Leaves out the links.
pub fn no_links(asked: AskedFrame) -> Inspection {
    let looked = Looked {
        links: false,
        ..ALL
    };
    inspect_by(looked, asked)
}

/// Leaves out the total.
pub fn no_total(asked: AskedFrame) -> Inspection {
    let looked = Looked {
        total: false,
        ..ALL
    };
    inspect_by(looked, asked)
}

/// The rules as they are, by the same halves as the inspectors that leave out a class.
pub fn right_halves(asked: AskedFrame) -> Inspection {
    inspect_by(ALL, asked)
}

/// Finds what the reference finds, but for the blocks, in which it looks at some classes only.
fn inspect_by(looked: Looked, asked: AskedFrame) -> Inspection {
    let right = asked.inspect();
    if !matches!(right, Inspection::UnbalancedBlock { .. }) {
        return right;
    }
    let flows = flows_of(asked.list);
    let ports = asked.ports as usize;
    let sizes = (1..=asked.slots.trailing_zeros()).rev().map(|k| 1 << k);
    for size in sizes {
        let mut blocks = asked.frame.chunks(size * ports);
        let unbalanced = blocks.position(|block| !has_even_halves(looked, ports, &flows, block));
        if let Some(place) = unbalanced {
            return Inspection::UnbalancedBlock {
                slot: (place * size + 1) as u64,
                size: size as u64,
            };
        }
    }
    Inspection::Clean
}

/// Whether the halves of a block differ by at most 1 in every class that is looked at.
fn has_even_halves(looked: Looked, ports: usize, flows: &[Flow], block: &[u16]) -> bool {
    let mut by_flow = vec![0_i32; flows.len()];
    let [mut by_input, mut by_output] = [vec![0; ports], vec![0; ports]];
    let mut by_link = vec![0; ports * LINKS];
    let mut total = [0];
    for (place, &entry) in block.iter().enumerate().filter(|(_, &entry)| entry > 0) {
        let number = usize::from(entry) - 1;
        let one = if place < block.len() / 2 { 1 } else { -1 };
        let flow = &flows[number];
        by_flow[number] += one;
        by_input[flow.input] += one;
        by_output[flow.output] += one;
        by_link[flow.output * LINKS + flow.link] += one;
        total[0] += one;
    }
    let is_even = |looked: bool, more: &[i32]| !looked || more.iter().all(|more| more.abs() <= 1);
    is_even(looked.flows, &by_flow)
        && is_even(looked.inputs, &by_input)
        && is_even(looked.outputs, &by_output)
        && is_even(looked.links, &by_link)
        && is_even(looked.total, &total)
}

/// Takes 2^32 + 1 slots for 1.
pub fn cut_slots(asked: AskedFrame) -> Inspection {
    let slots = cut(asked.slots);
    AskedFrame { slots, ..asked }.inspect()
}

/// Takes either side for the other.
pub fn inspect_of_other_side(asked: AskedFrame) -> Inspection {
    let side = Side::told(asked.side).other().number();
    AskedFrame { side, ..asked }.inspect()
}

/// Looks at every frame by its inputs.
pub fn inspect_by_inputs(asked: AskedFrame) -> Inspection {
    let side = Side::Input.number();
    AskedFrame { side, ..asked }.inspect()
}

/// Takes only 1 for the output side.
pub fn inspect_by_1_alone(asked: AskedFrame) -> Inspection {
    let side = u64::from(asked.side == 1);
    AskedFrame { side, ..asked }.inspect()
}

/// Names, of a port that is used twice, the port of the frame's side at whose place it is used again.
pub fn port_twice_by_place(asked: AskedFrame) -> Inspection {
    let right = asked.inspect();
    let Inspection::PortTwice { slot, port } = right else {
        return right;
    };
    let (flows, ports) = (flows_of(asked.list), asked.ports as usize);
    let other = Side::told(asked.side).other();
    let entries = &asked.frame[(slot as usize - 1) * ports..][..ports];
    let uses_port = |entry: u16| {
        let flow = flows.get(usize::from(entry).wrapping_sub(1));
        flow.is_some_and(|flow| port_of(other, flow) == port as usize - 1)
    };
    let mut places = (1..).zip(entries).filter(|(_, &entry)| uses_port(entry));
    let again = places.nth(1).map_or(port, |(place, _)| place);
    Inspection::PortTwice { slot, port: again }
}
