//! Slot view and Service count.

use std::ops::Range;

use crate::admission::{check_frame, check_list, check_ports, check_slots};
use crate::flow::{cells_of, numbered, sent_in, Flow};
use crate::refusal::{require, Refusal};
use crate::side::Side;

/// The longest run Service count takes.
pub const LONGEST_RUN: u64 = 1_000_000;

/// Whose cells Service count counts, and whose bound Depth has; flows and ports are numbered from 1.
#[derive(Clone, Copy, Debug, PartialEq, Eq)]
pub enum Class {
    Flow { number: u64 },
    Input { port: u64 },
    Output { port: u64 },
}

impl Class {
    /// Whether it is a flow of the list, or a port of the switch.
    pub(crate) fn is_within(self, ports: u64, flows: &[Flow]) -> bool {
        match self {
            Class::Flow { number } => numbered(flows, number).is_some(),
            Class::Input { port } | Class::Output { port } => (1..=ports).contains(&port),
        }
    }

    /// The cells of the class among the entries of one slot of a frame of this side, whatever those are; a flow that is not in the list
    /// has none.
    pub(crate) fn cells_in_slot(self, side: Side, flows: &[Flow], slot: &[u16]) -> u64 {
        match self {
            Class::Flow { number } => match numbered(flows, number) {
                Some(_) => slot
                    .iter()
                    .filter(|&&entry| u64::from(entry) == number)
                    .count() as u64,
                None => 0,
            },
            Class::Input { port } if side == Side::Input => standing_at(port, slot),
            Class::Input { port } => sent_in(slot, flows, |flow| flow.input == port),
            Class::Output { port } if side == Side::Output => standing_at(port, slot),
            Class::Output { port } => sent_in(slot, flows, |flow| flow.output == port),
        }
    }

    /// The load of the class; that of a flow that is not in the list is 0.
    pub(crate) fn load_in(self, flows: &[Flow]) -> u64 {
        match self {
            Class::Flow { number } => numbered(flows, number).map_or(0, |flow| flow.cells),
            Class::Input { port } => cells_of(flows, |flow| flow.input == port),
            Class::Output { port } => cells_of(flows, |flow| flow.output == port),
        }
    }
}

/// 1 where the entry at a port's place is not 0, whatever it is.
fn standing_at(port: u64, slot: &[u16]) -> u64 {
    u64::from(slot[(port - 1) as usize] != 0)
}

/// The entries of the frame that are this slot, or the first refusal of 1, 2, 4, 11.
pub fn slot_view(
    ports: u64,
    slots: u64,
    frame: &[u16],
    slot: u64,
) -> Result<Range<usize>, Refusal> {
    check_ports(ports)?;
    check_slots(slots)?;
    check_frame(ports, slots, frame)?;
    require((1..=slots).contains(&slot), Refusal::SlotNumber)?;
    let end = (slot * ports) as usize;
    Ok(end - ports as usize..end)
}

/// What Service count answers.
#[derive(Clone, Copy, Debug, PartialEq, Eq)]
pub struct Count {
    /// The cells of the run.
    pub cells: u64,
    /// How far they are ahead of the run's share, in parts of 1/slots of a cell; below 0 is behind.
    pub lead: i64,
}

/// The cells of a run of the repeating frame, given by its start and its length, and their lead, or the first refusal of 1, 2, 3, 21, 22,
/// 23, 4, 11, 12, 13.
pub fn service_count(
    side: Side,
    ports: u64,
    slots: u64,
    list: &[u16],
    frame: &[u16],
    class: Class,
    (start, length): (u64, u64),
) -> Result<Count, Refusal> {
    let flows = check_list(ports, slots, list)?;
    slot_view(ports, slots, frame, start)?;
    require(class.is_within(ports, &flows), Refusal::FlowOrPort)?;
    require(length <= LONGEST_RUN, Refusal::RunLength)?;
    let slot_cells = |slot: &[u16]| class.cells_in_slot(side, &flows, slot);
    let each: Vec<u64> = frame.chunks(ports as usize).map(slot_cells).collect();
    let cells = cells_of_run(&each, start, length);
    let of_frame = cells_of_run(&each, 1, slots);
    let [slots, length] = [slots, length].map(i128::from);
    let lead = slots * i128::from(cells) - length * i128::from(of_frame);
    let lead = i64::try_from(lead).expect("no run is 2^63 parts from its share");
    Ok(Count { cells, lead })
}

/// The cells of so many slots of a frame that repeats for ever, added up one after the other.
fn cells_of_run(each: &[u64], start: u64, length: u64) -> u64 {
    let slots = each.iter().cycle();
    slots.skip(start as usize - 1).take(length as usize).sum()
}
