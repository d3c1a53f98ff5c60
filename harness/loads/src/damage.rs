//! Frames that are not what the builder made.

use crate::list::{flows_of, Flow, FLOW_NUMBERS, LINKS};
use crate::load::{junk_of_shape, load_of_shape, Call, LoadKind, Shape};
use crate::random::Random;

kinds! {
    /// What happened to a frame, or to its list, since it was built.
    Damage {
        Whole = "whole",
        EntryChanged = "entry-changed",
        SlotsSwapped = "slots-swapped",
        HalvesCrossed = "halves-crossed",
        HalvesExchanged = "halves-exchanged",
        FlowsSwapped = "flows-swapped",
        CellToOtherSlot = "cell-to-other-slot",
        CellToOtherFlow = "cell-to-other-flow",
        InputsExchanged = "inputs-exchanged",
        EntryAboveFlows = "entry-above-flows",
        OtherInputsFlow = "other-inputs-flow",
        OutputDoubled = "output-doubled",
        RandomEntries = "random-entries",
        RandomFlows = "random-flows",
        Bunched = "bunched",
        BlockBunched = "block-bunched",
        CellsWrongByOne = "cells-wrong-by-one",
        OtherPort = "other-port",
        OtherLink = "other-link",
        ListCut = "list-cut",
        Several = "several",
        Junk = "junk",
    }
}

/// Damages a frame of this shape, or the list that goes with it.
pub fn damage(
    kind: Damage,
    shape: Shape,
    call: &mut Call,
    frame: &mut Vec<u16>,
    random: &mut Random,
) {
    match kind {
        Damage::Whole => {}
        Damage::CellsWrongByOne => change_cells(call, random),
        Damage::OtherPort => {
            let side = random.place(2);
            change_to(shape.ports, side, call, random);
        }
        Damage::OtherLink => change_to(LINKS, 3, call, random),
        Damage::ListCut => {
            let kept = random.place(call.flows().max(1));
            call.list.truncate(kept * FLOW_NUMBERS);
        }
        Damage::RandomEntries => *frame = random.entries(frame.len()),
        Damage::Several => {
            for _ in 0..random.between(2, 4) {
                let one = random.pick(&Damage::ALL[..Damage::ALL.len() - 2]);
                damage(one, shape, call, frame, random);
            }
        }
        Damage::Junk => {
            *call = junk_of_shape(shape, random);
            frame.resize(call.frame_length, 0);
        }
        _ => damage_frame(kind, shape, &flows_of(&call.list), frame, random),
    }
}

/// The same of a frame by outputs. With the input and the output of every flow exchanged it is a frame by inputs, and its outputs are
/// the inputs of the damage.
pub fn damage_by_outputs(
    kind: Damage,
    shape: Shape,
    call: &mut Call,
    frame: &mut Vec<u16>,
    random: &mut Random,
) {
    exchange_ports(call);
    damage(kind, shape, call, frame, random);
    exchange_ports(call);
}

/// Exchanges the input and the output of every flow of a list.
fn exchange_ports(call: &mut Call) {
    for flow in call.list.chunks_exact_mut(FLOW_NUMBERS) {
        flow.swap(0, 1);
    }
}

/// Damages that fall on the entries of a frame, by the flows of its list.
fn damage_frame(
    kind: Damage,
    shape: Shape,
    flows: &[Flow],
    frame: &mut [u16],
    random: &mut Random,
) {
    let ports = shape.ports;
    let last = flows.len() as u64;
    let any_entry = random.place(frame.len());
    match kind {
        Damage::SlotsSwapped => swap_slots(frame, ports, shape.slots, shape.slots, random),
        Damage::HalvesCrossed => cross_halves(shape, frame, random),
        Damage::HalvesExchanged => {
            let block = random_block(1, shape, frame, random);
            exchange_uneven(ports, block, random);
        }
        Damage::FlowsSwapped => swap_flows(flows, random_block(0, shape, frame, random), random),
        Damage::CellToOtherSlot => move_cell(shape, flows, frame, random),
        Damage::CellToOtherFlow => redirect_cell(flows, frame, random),
        Damage::InputsExchanged => {
            let slot = any_entry / ports * ports;
            frame.swap(any_entry, slot + random.place(ports));
        }
        Damage::EntryAboveFlows => frame[any_entry] = above(last, random),
        Damage::OtherInputsFlow => {
            let is_other = |flow: &Flow| flow.input != any_entry % ports;
            put_flow(flows, any_entry, is_other, frame, random);
        }
        Damage::OutputDoubled => double_output(shape, flows, frame, random),
        Damage::RandomFlows => frame.fill_with(|| random.between(0, last) as u16),
        Damage::Bunched => bunch_block(frame, ports),
        Damage::BlockBunched => bunch_block(random_block(2, shape, frame, random), ports),
        _ => frame[any_entry] = random.between(0, last) as u16,
    }
}

/// A block: its first slot, numbered from 1, and its size in slots.
#[derive(Clone, Copy, Debug, PartialEq, Eq)]
pub struct Block {
    pub slot: usize,
    pub size: usize,
}

impl Block {
    /// A random block of 2^least slots or more, or the whole of a shorter frame.
    pub fn random(least: u64, slots: usize, random: &mut Random) -> Block {
        let longest = u64::from(slots.trailing_zeros());
        let size = 1 << random.between(longest.min(least), longest);
        Block::of_size(size, slots, random)
    }

    /// A random one of the blocks of this size.
    pub fn of_size(size: usize, slots: usize, random: &mut Random) -> Block {
        Block {
            slot: size * random.place(slots / size) + 1,
            size,
        }
    }

    /// The entries of the block.
    fn of(self, ports: usize, frame: &mut [u16]) -> &mut [u16] {
        &mut frame[(self.slot - 1) * ports..][..self.size * ports]
    }
}

/// A frame whose first fault is that the halves of this block differ by more than one cell in all, with its list.
///
/// No two pairs share a port, and `build` makes their frame. In the block, some of the inputs with an odd number of cells
/// exchange what they send in its first half with what they send in its second. Every flow, input, output and link stays balanced in
/// every block, and so does the total in blocks that are larger or do not overlap this one; only the total of smaller blocks
/// within it may be unbalanced besides. The shape has two ports or more and the block two slots or more; loads are tried until
/// the block has two inputs with an odd number of cells.
pub fn unbalance_total(
    shape: Shape,
    block: Block,
    build: impl Fn(&Call) -> Vec<u16>,
    random: &mut Random,
) -> (Call, Vec<u16>) {
    loop {
        let call = load_of_shape(LoadKind::Apart, shape, random);
        let mut frame = build(&call);
        if exchange_uneven(shape.ports, block.of(shape.ports, &mut frame), random) {
            return (call, frame);
        }
    }
}

/// Of the inputs that send one cell more in one half of a block, lets so many exchange their halves that the totals of the
/// halves differ by more than one cell; false, and nothing done, where there are not enough such inputs, or no two halves.
fn exchange_uneven(ports: usize, block: &mut [u16], random: &mut Random) -> bool {
    if block.len() < 2 * ports {
        return false;
    }
    let more: Vec<i64> = (0..ports).map(|input| more(ports, block, input)).collect();
    let total: i64 = more.iter().sum();
    let one = random.pick(&[1, -1]);
    for uneven in [one, -one] {
        let mut inputs: Vec<usize> = (0..ports).filter(|&port| more[port] == uneven).collect();
        let most = inputs.len() as i64;
        let enough = (1..=most).find(|exchanged| (total - 2 * uneven * exchanged).abs() > 1);
        if let Some(enough) = enough {
            random.shuffle(&mut inputs);
            inputs.truncate(random.between(enough as u64, most as u64) as usize);
            exchange_halves(ports, block, &inputs);
            return true;
        }
    }
    false
}

/// The cells that an input sends in the first half of a block, less those in its second half.
fn more(ports: usize, block: &[u16], input: usize) -> i64 {
    let (front, back) = block.split_at(block.len() / 2);
    let cells = |half: &[u16]| {
        let sent = half.iter().skip(input).step_by(ports);
        sent.filter(|&&entry| entry != 0).count() as i64
    };
    cells(front) - cells(back)
}

/// Exchanges what these inputs send in the first half of a block with what they send in its second.
fn exchange_halves(ports: usize, block: &mut [u16], inputs: &[usize]) {
    let (front, back) = block.split_at_mut(block.len() / 2);
    for (one, other) in front.chunks_mut(ports).zip(back.chunks_mut(ports)) {
        for &input in inputs {
            std::mem::swap(&mut one[input], &mut other[input]);
        }
    }
}

/// The entries of a random block of 2^least slots or more, or of the whole of a shorter frame.
fn random_block<'f>(
    least: u64,
    shape: Shape,
    frame: &'f mut [u16],
    random: &mut Random,
) -> &'f mut [u16] {
    let block = Block::random(least, shape.slots, random);
    block.of(shape.ports, frame)
}

/// Swaps a random one of the first slots with a random one of the last.
fn swap_slots(block: &mut [u16], ports: usize, first: usize, last: usize, random: &mut Random) {
    let slots = block.len() / ports;
    let front = random.place(first);
    let back = slots - last + random.place(last);
    for input in 0..ports {
        block.swap(front * ports + input, back * ports + input);
    }
}

/// Swaps slots between the halves of one block, which leaves larger blocks balanced.
fn cross_halves(shape: Shape, frame: &mut [u16], random: &mut Random) {
    let block = random_block(2, shape, frame, random);
    let half = (block.len() / shape.ports / 2).max(1);
    for _ in 0..random.between(1, 3) {
        swap_slots(block, shape.ports, half, half, random);
    }
}

/// Two flows of one pair, or else of one input, where the list has such, exchange their cells in a block: all of them, or as many of
/// the one as of the other.
fn swap_flows(flows: &[Flow], block: &mut [u16], random: &mut Random) {
    let Some([one, other]) = two_flows(flows, random) else {
        return;
    };
    let mut places = [one, other].map(|flow| {
        let places = (0..block.len()).filter(|&place| block[place] == flow);
        places.collect::<Vec<usize>>()
    });
    if random.one_in(2) {
        let fewer = places[0].len().min(places[1].len()) as u64;
        let kept = random.between(0, fewer) as usize;
        for cells in &mut places {
            random.shuffle(cells);
            cells.truncate(kept);
        }
    }
    for (cells, flow) in places.iter().zip([other, one]) {
        for &place in cells {
            block[place] = flow;
        }
    }
}

/// The numbers of two flows with cells of one pair, or of one input where no pair has two.
fn two_flows(flows: &[Flow], random: &mut Random) -> Option<[u16; 2]> {
    let mut order = random.permutation(flows.len());
    order.retain(|&place| flows[place].cells > 0);
    let pair = |flow: &Flow| (flow.input, flow.output);
    let two_with = |same: &dyn Fn(&Flow, &Flow) -> bool| {
        let mut couples = order.iter().enumerate().flat_map(|(place, one)| {
            let others = order[place + 1..].iter();
            others.map(move |other| [*one, *other])
        });
        couples.find(|&[one, other]| same(&flows[one], &flows[other]))
    };
    let of_pair = two_with(&|one, other| pair(one) == pair(other));
    let two = of_pair.or_else(|| two_with(&|one, other| one.input == other.input));
    two.map(|two| two.map(|place| place as u16 + 1))
}

/// Moves a cell to another slot, to one where its ports are free if that is found soon.
fn move_cell(shape: Shape, flows: &[Flow], frame: &mut [u16], random: &mut Random) {
    let ports = shape.ports;
    let output_of = |entry: u16| {
        flows
            .get(usize::from(entry).wrapping_sub(1))
            .map(|flow| flow.output)
    };
    let from = random.place(frame.len());
    let mut to = from;
    for _ in 0..20 {
        to = random.place(shape.slots) * ports + from % ports;
        let mut slot = frame[to / ports * ports..][..ports].iter();
        let is_used = slot.any(|&entry| entry > 0 && output_of(entry) == output_of(frame[from]));
        if frame[to] == 0 && !is_used {
            break;
        }
    }
    frame[to] = frame[from];
    if to != from {
        frame[from] = 0;
    }
}

/// A number above the flows of a list: the next one, or any.
fn above(flows: u64, random: &mut Random) -> u16 {
    let any = random.between(flows + 1, u16::MAX.into());
    random.pick(&[flows + 1, any]) as u16
}

/// Puts a flow of some sort in the place of an entry, where the list has one.
fn put_flow(
    flows: &[Flow],
    place: usize,
    is_asked: impl Fn(&Flow) -> bool,
    frame: &mut [u16],
    random: &mut Random,
) {
    let order = random.permutation(flows.len());
    if let Some(flow) = order.into_iter().find(|&flow| is_asked(&flows[flow])) {
        frame[place] = flow as u16 + 1;
    }
}

/// The place of a cell, or any place of a frame that has none.
fn cell_of(frame: &[u16], random: &mut Random) -> usize {
    let tries = random.permutation(frame.len());
    let sent = tries.iter().find(|&&place| frame[place] != 0);
    sent.copied().unwrap_or(tries[0])
}

/// Puts another flow of the same input, if there is one, in the place of a cell.
fn redirect_cell(flows: &[Flow], frame: &mut [u16], random: &mut Random) {
    let place = cell_of(frame, random);
    let of_cell = flows
        .get(usize::from(frame[place]).wrapping_sub(1))
        .copied();
    let is_asked = |flow: &Flow| of_cell.is_some_and(|of_cell| flow.input == of_cell.input);
    put_flow(flows, place, is_asked, frame, random);
}

/// Lets another input of a slot send to an output that a cell of the slot goes to, by a flow of its own.
fn double_output(shape: Shape, flows: &[Flow], frame: &mut [u16], random: &mut Random) {
    let cell = cell_of(frame, random);
    let Some(sent) = flows.get(usize::from(frame[cell]).wrapping_sub(1)).copied() else {
        return;
    };
    let input = random.place(shape.ports);
    let place = cell / shape.ports * shape.ports + input;
    let is_asked = |flow: &Flow| flow.input == input && flow.output == sent.output;
    put_flow(flows, place, is_asked, frame, random);
}

/// Sorts the slots of a block, so that cells of the same flows stand together.
fn bunch_block(block: &mut [u16], ports: usize) {
    let mut slots: Vec<Vec<u16>> = block.chunks(ports).map(<[u16]>::to_vec).collect();
    slots.sort();
    slots.reverse();
    block.copy_from_slice(&slots.concat());
}

/// The place in its list of one of a flow's numbers, where the list has flows.
fn place_in_list(call: &Call, number: usize, random: &mut Random) -> Option<usize> {
    let flows = call.flows();
    (flows > 0).then(|| random.place(flows) * FLOW_NUMBERS + number)
}

/// Makes the cells of one flow more or fewer by 1.
fn change_cells(call: &mut Call, random: &mut Random) {
    let Some(place) = place_in_list(call, 2, random) else {
        return;
    };
    let cells = &mut call.list[place];
    *cells = if random.one_in(2) {
        cells.saturating_add(1)
    } else {
        cells.saturating_sub(1)
    };
}

/// Puts one flow of the list at another input or another output, or on another link, by the place of that number and the most that
/// it can be.
fn change_to(most: usize, number: usize, call: &mut Call, random: &mut Random) {
    if let Some(place) = place_in_list(call, number, random) {
        call.list[place] = random.between(1, most as u64) as u16;
    }
}
