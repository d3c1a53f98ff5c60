//! Turn: for each place of the new slot it is asked which entries of the old one belong there.

use crate::admission::{check_frame, check_list};
use crate::flow::{numbered, Flow};
use crate::refusal::{require, Refusal};
use crate::side::Side;

/// Writes the frame by the other side to the second buffer, or gives the first refusal of 1, 2, 3, 21, 22, 23, 4, 15, 14 and leaves
/// that buffer alone. The side told is that of the frame.
pub fn turn(
    side: Side,
    ports: u64,
    slots: u64,
    list: &[u16],
    frame: &[u16],
    second: &mut [u16],
) -> Result<(), Refusal> {
    let flows = check_list(ports, slots, list)?;
    check_frame(ports, slots, frame)?;
    require(second.len() == frame.len(), Refusal::SecondLength)?;
    let slots = frame.chunks(ports as usize);
    let turned: Option<Vec<_>> = slots.map(|slot| turned_slot(side, &flows, slot)).collect();
    let turned = turned.ok_or(Refusal::Entries)?;
    second.copy_from_slice(&turned.concat());
    Ok(())
}

/// The slot by the other side; none where an entry is wrong, or where a port of the other side is used twice.
fn turned_slot(side: Side, flows: &[Flow], slot: &[u16]) -> Option<Vec<u16>> {
    let is_of = |side: Side, port: u64, entry: u16| {
        numbered(flows, entry.into()).is_some_and(|flow| side.port_of(flow) == port)
    };
    let mut old = (1..).zip(slot);
    if !old.all(|(port, &entry)| entry == 0 || is_of(side, port, entry)) {
        return None;
    }
    let ports = 1..=slot.len() as u64;
    let new = ports.map(|port| only(slot, |entry| is_of(side.other(), port, entry)));
    new.collect()
}

/// The one entry of a slot that is asked for, or 0 where there is none; nothing where there are several.
fn only(slot: &[u16], asked: impl Fn(u16) -> bool) -> Option<u16> {
    let mut entries = slot.iter().copied().filter(|&entry| asked(entry));
    let entry = entries.next().unwrap_or_default();
    entries.next().is_none().then_some(entry)
}
