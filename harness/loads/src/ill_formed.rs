//! Lists that are turned away before their loads are added up, and calls with anything wrong.

use crate::list::{list_of, Flow, FLOW_NUMBERS, MOST_FLOWS};
use crate::load::{load_of_shape, Call, LoadKind, Shape};
use crate::random::Random;

/// A number that is often just past a limit or loses its high bits when cut short.
pub fn junk_number(good: u64, random: &mut Random) -> u64 {
    let power = 1 << random.pick(&[8, 16, 32, 63]);
    match random.below(6) {
        0 => random.pick(&[0, 3, 17, 2_048, 1 << 16, 1 << 32, u64::MAX]),
        1 => power,
        2 => good.wrapping_add(power),
        3 => good.wrapping_add(1),
        4 => random.draw() >> random.below(64),
        _ => random.between(0, 32),
    }
}

/// Any flows, of a load that fits or not.
fn any_flows(shape: Shape, random: &mut Random) -> Call {
    let kinds = [
        LoadKind::SpreadLinks,
        LoadKind::OddLinks,
        LoadKind::Scattered,
        LoadKind::MostFlows,
        LoadKind::InputOverByMuch,
        LoadKind::Full,
    ];
    load_of_shape(random.pick(&kinds), shape, random)
}

/// A list with one to three numbers more than whole flows, some with a port or a link outside or too many flows besides.
pub(crate) fn not_whole(shape: Shape, random: &mut Random) -> Call {
    let mut call = match random.below(4) {
        0 => too_many_flows(shape, random),
        1 => port_outside(shape, random),
        2 => link_outside(shape, random),
        _ => any_flows(shape, random),
    };
    for _ in 0..random.between(1, FLOW_NUMBERS as u64 - 1) {
        call.list.push(random.between(0, shape.ports as u64) as u16);
    }
    call
}

/// A list with a flow more than there may be, or many more, some with a port or a link outside besides.
pub(crate) fn too_many_flows(shape: Shape, random: &mut Random) -> Call {
    let mut call = any_flows(shape, random);
    let more = random.pick(&[1, 1, 1, 2, 200, 3 * MOST_FLOWS]);
    while call.flows() < MOST_FLOWS + more {
        call.list
            .extend(list_of(&[Flow::without_cells(shape.ports, random)]));
    }
    match random.below(6) {
        0 | 1 => put_port_outside(&mut call, random),
        2 => put_link_outside(&mut call, random),
        _ => {}
    }
    call
}

/// A list with a flow at a port that the switch has not, some with a link outside besides.
pub(crate) fn port_outside(shape: Shape, random: &mut Random) -> Call {
    let mut call = some_flows(shape, random);
    put_port_outside(&mut call, random);
    if random.one_in(3) {
        put_link_outside(&mut call, random);
    }
    call
}

/// A list with a flow on a link that no output has.
pub(crate) fn link_outside(shape: Shape, random: &mut Random) -> Call {
    let mut call = some_flows(shape, random);
    put_link_outside(&mut call, random);
    call
}

/// Any flows, at least one.
fn some_flows(shape: Shape, random: &mut Random) -> Call {
    let call = any_flows(shape, random);
    if call.list.is_empty() {
        return shape.call(&[Flow::without_cells(shape.ports, random)]);
    }
    call
}

/// Puts the input or the output of some flow outside the switch.
fn put_port_outside(call: &mut Call, random: &mut Random) {
    let next = call.ports as u16 + 1;
    let outside = random.pick(&[0, next, 17, 256, 257, u16::MAX]);
    let side = random.place(2);
    *number_of_some_flow(side, call, random) = outside;
}

/// Puts some flow on a link outside 1 to 4.
fn put_link_outside(call: &mut Call, random: &mut Random) {
    let outside = random.pick(&[0, 0, 5, 5, 6, 255, 256, 257, 260, u16::MAX]);
    *number_of_some_flow(3, call, random) = outside;
}

/// One of the numbers of some flow, often of the first or of the last.
fn number_of_some_flow<'c>(number: usize, call: &'c mut Call, random: &mut Random) -> &'c mut u16 {
    let last = call.flows() - 1;
    let any = random.place(last + 1);
    let flow = random.pick(&[0, last, any]);
    &mut call.list[flow * FLOW_NUMBERS + number]
}

/// A call whose ports, slots, lengths, numbers and limits may each be wrong.
pub(crate) fn junk(shape: Shape, random: &mut Random) -> Call {
    let mut call = any_flows(shape, random);
    if random.one_in(4) {
        call.ports = junk_number(call.ports, random);
    }
    if random.one_in(4) {
        call.slots = junk_number(call.slots, random);
    }
    if random.one_in(4) {
        let most = (MOST_FLOWS * FLOW_NUMBERS) as u64 + 4;
        let length = junk_length(call.list.len(), most, random);
        let largest = random.pick(&[shape.ports as u64, u64::from(u16::MAX)]);
        let number = || random.between(0, largest) as u16;
        call.list.resize_with(length, number);
    }
    if random.one_in(4) {
        call.limit_at_random(random);
    }
    if random.one_in(3) {
        call.frame_length = junk_length(call.frame_length, 16_385, random);
    }
    call
}

/// A length near the good one, nothing, or any up to the most given.
fn junk_length(good: usize, most: u64, random: &mut Random) -> usize {
    match random.below(4) {
        0 => good + 1,
        1 => good.saturating_sub(1),
        2 => 0,
        _ => random.between(0, most) as usize,
    }
}
