//! The functions of the static library, made safe to call: a slice goes over as its own pointer and its own length.

use std::mem::size_of;

use crate::numbers::Numbers;
use crate::{Flow, Limits, Side, Who};

/// The numbers of a list that a flow is.
const FLOW_NUMBERS: usize = size_of::<Flow>() / size_of::<u16>();

/// A call of Service count.
type CountCall = unsafe extern "C" fn(
    side: usize,
    ports: usize,
    slots: usize,
    list: *const u16,
    list_length: usize,
    frame: *const u16,
    frame_length: usize,
    which: usize,
    start: usize,
    length: usize,
    cells: &mut usize,
    lead: &mut i64,
) -> usize;

/// A call of Depth.
type DepthCall = unsafe extern "C" fn(
    ports: usize,
    slots: usize,
    list: *const u16,
    list_length: usize,
    which: usize,
    first: &mut usize,
    second: &mut usize,
) -> usize;

extern "C" {
    fn frame_builder_admit(
        ports: usize,
        slots: usize,
        list: *const u16,
        list_length: usize,
        limits: &Limits,
        first: &mut usize,
        second: &mut usize,
        third: &mut usize,
    ) -> usize;
    fn frame_builder_build(
        ports: usize,
        slots: usize,
        list: *const u16,
        list_length: usize,
        limits: &Limits,
        frame: *mut u16,
        frame_length: usize,
        first: &mut usize,
        second: &mut usize,
        third: &mut usize,
    ) -> usize;
    fn frame_builder_inspect(
        side: usize,
        ports: usize,
        slots: usize,
        list: *const u16,
        list_length: usize,
        frame: *const u16,
        frame_length: usize,
        first: &mut usize,
        second: &mut usize,
    ) -> usize;
    fn frame_builder_turn(
        side: usize,
        ports: usize,
        slots: usize,
        list: *const u16,
        list_length: usize,
        frame: *const u16,
        frame_length: usize,
        second: *mut u16,
        second_length: usize,
    ) -> usize;
    fn frame_builder_slot_view(
        ports: usize,
        slots: usize,
        frame: *const u16,
        frame_length: usize,
        slot: usize,
        start: &mut usize,
        size: &mut usize,
    ) -> usize;
    fn frame_builder_count_flow(
        side: usize,
        ports: usize,
        slots: usize,
        list: *const u16,
        list_length: usize,
        frame: *const u16,
        frame_length: usize,
        flow: usize,
        start: usize,
        length: usize,
        cells: &mut usize,
        lead: &mut i64,
    ) -> usize;
    fn frame_builder_count_input(
        side: usize,
        ports: usize,
        slots: usize,
        list: *const u16,
        list_length: usize,
        frame: *const u16,
        frame_length: usize,
        input: usize,
        start: usize,
        length: usize,
        cells: &mut usize,
        lead: &mut i64,
    ) -> usize;
    fn frame_builder_count_output(
        side: usize,
        ports: usize,
        slots: usize,
        list: *const u16,
        list_length: usize,
        frame: *const u16,
        frame_length: usize,
        output: usize,
        start: usize,
        length: usize,
        cells: &mut usize,
        lead: &mut i64,
    ) -> usize;
    fn frame_builder_depth_flow(
        ports: usize,
        slots: usize,
        list: *const u16,
        list_length: usize,
        flow: usize,
        first: &mut usize,
        second: &mut usize,
    ) -> usize;
    fn frame_builder_depth_input(
        ports: usize,
        slots: usize,
        list: *const u16,
        list_length: usize,
        input: usize,
        first: &mut usize,
        second: &mut usize,
    ) -> usize;
    fn frame_builder_depth_output(
        ports: usize,
        slots: usize,
        list: *const u16,
        list_length: usize,
        output: usize,
        first: &mut usize,
        second: &mut usize,
    ) -> usize;
}

/// A list as the library takes it, its numbers end to end; a flow is four of them and nothing else.
fn numbers_of(list: &[Flow]) -> (*const u16, usize) {
    (list.as_ptr().cast(), list.len() * FLOW_NUMBERS)
}

pub fn admit(ports: usize, slots: usize, list: &[Flow], limits: &Limits) -> Numbers {
    let (data, length) = numbers_of(list);
    let mut given = Numbers::default();
    let (first, second, third) = (&mut given.first, &mut given.second, &mut given.third);
    // SAFETY: the slice is readable for its length.
    given.number =
        unsafe { frame_builder_admit(ports, slots, data, length, limits, first, second, third) };
    given
}

pub fn build(
    ports: usize,
    slots: usize,
    list: &[Flow],
    limits: &Limits,
    frame: &mut [u16],
) -> Numbers {
    let (data, length) = numbers_of(list);
    let (entries, size) = (frame.as_mut_ptr(), frame.len());
    let mut given = Numbers::default();
    let (first, second, third) = (&mut given.first, &mut given.second, &mut given.third);
    // SAFETY: both slices are readable for their lengths, and the frame is writable and nobody else's.
    given.number = unsafe {
        frame_builder_build(
            ports, slots, data, length, limits, entries, size, first, second, third,
        )
    };
    given
}

pub fn inspect(side: Side, ports: usize, slots: usize, list: &[Flow], frame: &[u16]) -> Numbers {
    let (data, length) = numbers_of(list);
    let (side, entries, size) = (side.number(), frame.as_ptr(), frame.len());
    let mut given = Numbers::default();
    let (first, second) = (&mut given.first, &mut given.second);
    // SAFETY: both slices are readable for their lengths.
    given.number = unsafe {
        frame_builder_inspect(
            side, ports, slots, data, length, entries, size, first, second,
        )
    };
    given
}

pub fn turn(
    side: Side,
    ports: usize,
    slots: usize,
    list: &[Flow],
    frame: &[u16],
    second: &mut [u16],
) -> Numbers {
    let (data, length) = numbers_of(list);
    let (side, entries, size) = (side.number(), frame.as_ptr(), frame.len());
    let (turned, room) = (second.as_mut_ptr(), second.len());
    // SAFETY: all slices are readable for their lengths, and the second buffer is writable and nobody else's.
    let number = unsafe {
        frame_builder_turn(
            side, ports, slots, data, length, entries, size, turned, room,
        )
    };
    Numbers {
        number,
        ..Numbers::default()
    }
}

/// Where the slot's part of the frame begins, and its size.
pub fn slot_view(ports: usize, slots: usize, frame: &[u16], slot: usize) -> Numbers {
    let (entries, size) = (frame.as_ptr(), frame.len());
    let mut given = Numbers::default();
    let (first, second) = (&mut given.first, &mut given.second);
    // SAFETY: the slice is readable for its length.
    given.number =
        unsafe { frame_builder_slot_view(ports, slots, entries, size, slot, first, second) };
    given
}

/// The cells are the first value. A run is its start and its length.
pub fn service_count(
    side: Side,
    ports: usize,
    slots: usize,
    list: &[Flow],
    frame: &[u16],
    who: Who,
    (start, length): (usize, usize),
) -> Numbers {
    let (call, which): (CountCall, usize) = match who {
        Who::Flow(flow) => (frame_builder_count_flow, flow),
        Who::Input(port) => (frame_builder_count_input, port),
        Who::Output(port) => (frame_builder_count_output, port),
    };
    let (data, numbers) = numbers_of(list);
    let (side, entries, size) = (side.number(), frame.as_ptr(), frame.len());
    let mut given = Numbers::default();
    let (cells, lead) = (&mut given.first, &mut given.lead);
    // SAFETY: both slices are readable for their lengths.
    given.number = unsafe {
        call(
            side, ports, slots, data, numbers, entries, size, which, start, length, cells, lead,
        )
    };
    given
}

/// The bound is the first value, the cells to order the second.
pub fn depth(ports: usize, slots: usize, list: &[Flow], who: Who) -> Numbers {
    let (call, which): (DepthCall, usize) = match who {
        Who::Flow(flow) => (frame_builder_depth_flow, flow),
        Who::Input(port) => (frame_builder_depth_input, port),
        Who::Output(port) => (frame_builder_depth_output, port),
    };
    let (data, length) = numbers_of(list);
    let mut given = Numbers::default();
    let (first, second) = (&mut given.first, &mut given.second);
    // SAFETY: the slice is readable for its length.
    given.number = unsafe { call(ports, slots, data, length, which, first, second) };
    given
}
