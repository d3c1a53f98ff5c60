//! Turns to something else.

use calls::{Answer, Inspection, Refusal, Side};
use loads::{flows_of, Flow};

use crate::broken::{cut, known_entries, port_of, AskedFrame};

/// Looks at the entries before the length of the second buffer.
pub fn entries_before_length(asked: AskedFrame, second: &mut [u16]) -> Answer {
    let answer = asked.turn(second);
    if answer == Err(Refusal::SecondLength) {
        asked.turn(&mut asked.frame.to_vec())?;
    }
    answer
}

/// Looks at the length of the second buffer before that of the frame.
pub fn second_before_first(asked: AskedFrame, second: &mut [u16]) -> Answer {
    match asked.turn(second) {
        Err(Refusal::FrameLength) if second.len() != asked.frame.len() => {
            Err(Refusal::SecondLength)
        }
        answer => answer,
    }
}

/// Takes a second buffer that is longer than the frame, and writes its first entries.
pub fn longer_second(asked: AskedFrame, second: &mut [u16]) -> Answer {
    let length = second.len().min(asked.frame.len());
    asked.turn(&mut second[..length])
}

/// Puts every entry that is a flow at the place of its port, wherever it stood; the places that nothing is put at are idle.
fn put_by_flow(asked: AskedFrame, second: &mut [u16]) {
    let (flows, ports) = (flows_of(asked.list), asked.ports as usize);
    let other = Side::told(asked.side).other();
    second.fill(0);
    let slots = asked.frame.chunks(ports).zip(second.chunks_mut(ports));
    for (old, new) in slots {
        for &entry in old {
            if let Some(flow) = flows.get(usize::from(entry).wrapping_sub(1)) {
                new[port_of(other, flow)] = entry;
            }
        }
    }
}

/// The answer, but for 14 where this holds of the frame: then every flow is put at its place.
fn let_through(
    asked: AskedFrame,
    second: &mut [u16],
    is_let: impl Fn(AskedFrame) -> bool,
) -> Answer {
    match asked.turn(second) {
        Err(Refusal::Entries) if is_let(asked) => {
            put_by_flow(asked, second);
            Ok(())
        }
        answer => answer,
    }
}

/// How many entries that are flows of it a slot has for each port of a side, slot by slot.
fn uses(side: Side, asked: AskedFrame) -> Vec<usize> {
    let (flows, ports) = (flows_of(asked.list), asked.ports as usize);
    let mut uses = vec![0; asked.frame.len()];
    for (place, &entry) in asked.frame.iter().enumerate() {
        if let Some(flow) = flows.get(usize::from(entry).wrapping_sub(1)) {
            uses[place / ports * ports + port_of(side, flow)] += 1;
        }
    }
    uses
}

/// Whether every entry is 0 or a flow of the list.
fn has_known_entries(asked: AskedFrame) -> bool {
    known_entries(asked) == asked.frame
}

/// Whether every entry that is a flow stands at the place of its port.
fn stands_right(asked: AskedFrame) -> bool {
    let (flows, ports) = (flows_of(asked.list), asked.ports as usize);
    let side = Side::told(asked.side);
    let mut entries = asked.frame.iter().enumerate();
    entries.all(|(place, &entry)| {
        let flow = flows.get(usize::from(entry).wrapping_sub(1));
        flow.is_none_or(|flow| port_of(side, flow) == place % ports)
    })
}

/// Lets an entry through that stands at the place of another port than its flow's.
pub fn other_places_let_through(asked: AskedFrame, second: &mut [u16]) -> Answer {
    let_through(asked, second, |asked| {
        let other = Side::told(asked.side).other();
        has_known_entries(asked) && uses(other, asked).iter().all(|&uses| uses < 2)
    })
}

/// Turns a slot that uses a port of the other side twice, with the later entry at its place.
pub fn later_entry_wins(asked: AskedFrame, second: &mut [u16]) -> Answer {
    let_through(asked, second, |asked| {
        has_known_entries(asked) && stands_right(asked)
    })
}

/// Takes entries above the number of flows for idle ones.
pub fn above_turned_to_idle(asked: AskedFrame, second: &mut [u16]) -> Answer {
    let frame: &[u16] = &known_entries(asked);
    AskedFrame { frame, ..asked }.turn(second)
}

/// Writes the slots before the first wrong one, and then refuses.
pub fn turned_up_to_the_fault(asked: AskedFrame, second: &mut [u16]) -> Answer {
    let answer = asked.turn(second);
    if answer == Err(Refusal::Entries) {
        let ports = asked.ports as usize;
        let slots = asked.frame.chunks(ports).zip(second.chunks_mut(ports));
        for (frame, new) in slots {
            let slot = AskedFrame {
                slots: 1,
                frame,
                ..asked
            };
            slot.turn(new)?;
        }
    }
    answer
}

/// Clears the second buffer before it looks at the frame.
pub fn second_cleared(asked: AskedFrame, second: &mut [u16]) -> Answer {
    if second.len() == asked.frame.len() && asked.refusal().is_none() {
        second.fill(0);
    }
    asked.turn(second)
}

/// Leaves the places of the second buffer as they were that no entry comes to.
pub fn idle_places_left(asked: AskedFrame, second: &mut [u16]) -> Answer {
    let before = second.to_vec();
    asked.turn(second)?;
    for (entry, before) in second.iter_mut().zip(before) {
        if *entry == 0 {
            *entry = before;
        }
    }
    Ok(())
}

/// Takes either side for the other.
pub fn turn_of_other_side(asked: AskedFrame, second: &mut [u16]) -> Answer {
    let side = Side::told(asked.side).other().number();
    AskedFrame { side, ..asked }.turn(second)
}

/// Takes only 1 for the output side.
pub fn turn_by_1_alone(asked: AskedFrame, second: &mut [u16]) -> Answer {
    let side = u64::from(asked.side == 1);
    AskedFrame { side, ..asked }.turn(second)
}

/// Takes side 2^32 for 0.
pub fn cut_side(asked: AskedFrame, second: &mut [u16]) -> Answer {
    let side = cut(asked.side);
    AskedFrame { side, ..asked }.turn(second)
}

/// Turns clean frames only.
pub fn only_clean_turned(asked: AskedFrame, second: &mut [u16]) -> Answer {
    let mut turned = second.to_vec();
    asked.turn(&mut turned)?;
    if asked.inspect() != Inspection::Clean {
        return Err(Refusal::Entries);
    }
    second.copy_from_slice(&turned);
    Ok(())
}

/// Writes the first flow of a pair in the place of any other of it.
pub fn first_flow_of_the_pair(asked: AskedFrame, second: &mut [u16]) -> Answer {
    asked.turn(second)?;
    let flows = flows_of(asked.list);
    let pair = |flow: &Flow| (flow.input, flow.output);
    for entry in second.iter_mut().filter(|entry| **entry > 0) {
        let of_entry = pair(&flows[usize::from(*entry) - 1]);
        let first = flows.iter().position(|flow| pair(flow) == of_entry);
        *entry = first.map_or(0, |place| place as u16 + 1);
    }
    Ok(())
}

/// Writes the entries as they stood.
pub fn copied_as_it_stood(asked: AskedFrame, second: &mut [u16]) -> Answer {
    asked.turn(second)?;
    second.copy_from_slice(asked.frame);
    Ok(())
}
