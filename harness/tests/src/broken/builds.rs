//! Builders that leave another frame, or say another number.

use std::collections::BTreeSet;

use calls::{Built, Refusal};
use loads::{flows_of, list_of, FLOW_NUMBERS, MOST_FLOWS};
use reference::work::odd_counts;

use crate::broken::{cut, Asked};

/// The reference's build as a plain function.
pub fn right_build(asked: Asked, frame: &mut [u16]) -> Built {
    asked.build(frame)
}

/// Every group settled the other way round, which gives the right frame read backwards.
pub fn other_tie(asked: Asked, frame: &mut [u16]) -> Built {
    let settled = asked.build(frame)?;
    let mut reversed: Vec<&[u16]> = frame.chunks(asked.ports as usize).collect();
    reversed.reverse();
    let reversed = reversed.concat();
    frame.copy_from_slice(&reversed);
    Ok(settled)
}

/// Counts taken by rising pair, and by rising flow number only where several flows are on one.
pub fn pairs_before_numbers(asked: Asked, frame: &mut [u16]) -> Built {
    asked.build(frame)?;
    let flows = flows_of(asked.list);
    let mut order: Vec<usize> = (0..flows.len()).collect();
    order.sort_by_key(|&place| (flows[place].input, flows[place].output));
    let sorted: Vec<_> = order.iter().map(|&place| flows[place]).collect();
    let settled = Asked {
        list: &list_of(&sorted),
        ..asked
    }
    .build(frame)?;
    for entry in frame.iter_mut().filter(|entry| **entry > 0) {
        *entry = order[usize::from(*entry) - 1] as u16 + 1;
    }
    Ok(settled)
}

/// Exchanges two flows of one pair, with as many cells each where there are such.
pub fn flows_of_pair_swapped(asked: Asked, frame: &mut [u16]) -> Built {
    let settled = asked.build(frame)?;
    let flows = flows_of(asked.list);
    let later = |one: usize| (one + 1..flows.len()).find(|&other| flows[other] == flows[one]);
    let couple = (0..flows.len()).find_map(|one| later(one).map(|other| [one, other]));
    let Some([one, other]) = couple.map(|couple| couple.map(|place| place as u16 + 1)) else {
        return Ok(settled);
    };
    for entry in frame {
        *entry = match *entry {
            entry if entry == one => other,
            entry if entry == other => one,
            entry => entry,
        };
    }
    Ok(settled)
}

/// Writes the output that each input sends to in the place of the flow's number.
pub fn outputs_for_flows(asked: Asked, frame: &mut [u16]) -> Built {
    let settled = asked.build(frame)?;
    let flows = flows_of(asked.list);
    for entry in frame.iter_mut().filter(|entry| **entry > 0) {
        *entry = flows[usize::from(*entry) - 1].output as u16 + 1;
    }
    Ok(settled)
}

/// Keeps the low byte of a flow's number.
pub fn eight_bit_entries(asked: Asked, frame: &mut [u16]) -> Built {
    let settled = asked.build(frame)?;
    for entry in frame {
        *entry &= 0xff;
    }
    Ok(settled)
}

/// Builds the first 512 flows of a longer list.
pub fn first_flows_built(asked: Asked, frame: &mut [u16]) -> Built {
    let answer = asked.build(frame);
    if answer == Err(Refusal::TooManyFlows) {
        let list = &asked.list[..MOST_FLOWS * FLOW_NUMBERS];
        return Asked { list, ..asked }.build(frame);
    }
    answer
}

/// Builds whatever the limits are.
pub fn no_limits(asked: Asked, frame: &mut [u16]) -> Built {
    let limits = &[u16::MAX; 64];
    Asked { limits, ..asked }.build(frame)
}

/// An idle frame for every load.
pub fn idle_frame(asked: Asked, frame: &mut [u16]) -> Built {
    let settled = asked.build(frame)?;
    frame.fill(0);
    Ok(settled)
}

/// The same frame for every load.
pub fn fixed_frame(asked: Asked, frame: &mut [u16]) -> Built {
    let settled = asked.build(frame)?;
    for (slot, entries) in frame.chunks_mut(asked.ports as usize).enumerate() {
        for (input, entry) in entries.iter_mut().enumerate() {
            *entry = ((slot + input) % asked.ports as usize) as u16 + 1;
        }
    }
    Ok(settled)
}

/// Accepts and leaves the buffer as found.
pub fn as_found(asked: Asked, frame: &mut [u16]) -> Built {
    asked.build(&mut frame.to_vec())
}

/// Turns all loads away as overloaded.
pub fn refuse_all(asked: Asked, frame: &mut [u16]) -> Built {
    asked.build(&mut frame.to_vec())?;
    Err(Refusal::InputLoad {
        port: 1,
        cells: asked.slots + 1,
    })
}

/// Fills the first half of the slots and copies them on.
pub fn copied_on(asked: Asked, frame: &mut [u16]) -> Built {
    let settled = asked.build(frame)?;
    let (front, back) = frame.split_at_mut(frame.len() / 2);
    if front.len() == back.len() {
        back.copy_from_slice(front);
    }
    Ok(settled)
}

/// A legal frame with its cells bunched.
pub fn bunched(asked: Asked, frame: &mut [u16]) -> Built {
    let settled = asked.build(frame)?;
    let mut sorted: Vec<&[u16]> = frame.chunks(asked.ports as usize).collect();
    sorted.sort();
    sorted.reverse();
    let sorted = sorted.concat();
    frame.copy_from_slice(&sorted);
    Ok(settled)
}

/// Exchanges the second and the third slot of every four: what has every other slot then has two at a time.
pub fn slots_exchanged(asked: Asked, frame: &mut [u16]) -> Built {
    let settled = asked.build(frame)?;
    let ports = asked.ports as usize;
    for four in frame.chunks_exact_mut(4 * ports) {
        let (front, back) = four.split_at_mut(2 * ports);
        front[ports..].swap_with_slice(&mut back[..ports]);
    }
    Ok(settled)
}

/// Counts blocks of one slot as well.
pub fn one_slot_counted(asked: Asked, frame: &mut [u16]) -> Built {
    let settled = asked.build(frame)?;
    let of_one = frame
        .chunks(asked.ports as usize)
        .map(odd_counts)
        .sum::<u64>();
    Ok(settled + of_one)
}

/// Leaves the second half of every block out of the count.
pub fn second_halves_left_out(asked: Asked, frame: &mut [u16]) -> Built {
    asked.build(frame)?;
    let sizes = (1..=asked.slots.trailing_zeros()).map(|k| 1 << k);
    let counted = sizes.map(|size: usize| odd_counts(&frame[..size * asked.ports as usize]));
    Ok(counted.sum())
}

/// Counts every flow that has cells in a block, an even number too.
pub fn even_counts_counted(asked: Asked, frame: &mut [u16]) -> Built {
    asked.build(frame)?;
    let sizes = (1..=asked.slots.trailing_zeros()).map(|k| 1 << k);
    let blocks = sizes.flat_map(|size: usize| frame.chunks(size * asked.ports as usize));
    Ok(blocks.map(flows_in).sum())
}

/// The flows that have cells in a block.
fn flows_in(block: &[u16]) -> u64 {
    let cells = block.iter().filter(|&&entry| entry > 0);
    cells.collect::<BTreeSet<_>>().len() as u64
}

/// Says that nothing was settled.
pub fn none_settled(asked: Asked, frame: &mut [u16]) -> Built {
    asked.build(frame).map(|_| 0)
}

/// Clears the buffer before it looks at the load.
pub fn clears_before_refusing(asked: Asked, frame: &mut [u16]) -> Built {
    frame.fill(0);
    asked.build(frame)
}

/// Writes one entry of a frame that it refuses to fill.
pub fn marks_refused_frame(asked: Asked, frame: &mut [u16]) -> Built {
    let answer = asked.build(frame);
    if let (Err(_), Some(last)) = (answer, frame.last_mut()) {
        *last = last.wrapping_add(1);
    }
    answer
}

/// Takes 2^32 + 1 ports for 1.
pub fn cut_ports(asked: Asked, frame: &mut [u16]) -> Built {
    let ports = cut(asked.ports);
    Asked { ports, ..asked }.build(frame)
}
