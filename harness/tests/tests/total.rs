//! Blocks of every size that are unbalanced in one class alone, or in their total alone, on either side, and the spread of all cells,
//! through C and through Rust.

use calls::{Calls, InC, Inspection, Library, Reference, INPUT_SIDE, OUTPUT_SIDE};
use loads::{load_of_shape, unbalance_total, uneven, Block, Call, LoadKind, Random, Shape, Uneven};
use tests::broken::{self, AskedFrame, InspectCall};

/// The frame that a builder makes of a load that fits.
fn built(calls: &dyn Calls, call: &Call) -> Vec<u16> {
    let mut frame = vec![0xa5a5; call.frame_length];
    let (list, limits) = (&call.list, &call.limits);
    let answer = calls.build(call.ports, call.slots, list, limits, &mut frame);
    answer.expect("the load fits");
    frame
}

/// The first, the last and some other blocks of the size.
fn blocks(size: usize, slots: usize, random: &mut Random) -> Vec<Block> {
    let ends = [1, slots - size + 1].map(|slot| Block { slot, size });
    let others = [(); 3].map(|()| Block::of_size(size, slots, random));
    [ends.as_slice(), &others].concat()
}

/// Has a frame inspected by inputs and, turned by the same builder, by outputs; what is found on both sides.
fn found_on_both(calls: &dyn Calls, call: &Call, frame: &[u16]) -> Inspection {
    let (ports, slots, list) = (call.ports, call.slots, &call.list);
    let found = calls.inspect(INPUT_SIDE, ports, slots, list, frame);
    let mut turned = vec![0xa5a5; frame.len()];
    let answer = calls.turn(INPUT_SIDE, ports, slots, list, frame, &mut turned);
    answer.expect("no entry is wrong, and no output used twice");
    let by_outputs = calls.inspect(OUTPUT_SIDE, ports, slots, list, &turned);
    assert_eq!(by_outputs, found, "by outputs");
    found
}

/// What a broken inspector finds by inputs.
fn found_by(inspect: InspectCall, call: &Call, frame: &[u16]) -> Inspection {
    inspect(AskedFrame {
        side: INPUT_SIDE,
        ports: call.ports,
        slots: call.slots,
        list: &call.list,
        frame,
    })
}

/// Has frames inspected that the builder itself made, and of which the total of one block was unbalanced.
fn finds_the_block(calls: &dyn Calls) {
    let mut random = Random::new(2_028);
    for slots in [2_usize, 32, 1_024] {
        for size in (1..=slots.trailing_zeros()).map(|k| 1 << k) {
            for block in blocks(size, slots, &mut random) {
                let ports = random.pick(&[2, 3, 7, 16]);
                let shape = Shape { ports, slots };
                let own = |call: &Call| built(calls, call);
                let (call, frame) = unbalance_total(shape, block, own, &mut random);
                let found = found_on_both(calls, &call, &frame);
                assert_eq!(found, unbalanced(block), "{shape:?}");
                let found = found_by(broken::no_total, &call, &frame);
                assert_eq!(found, Inspection::Clean, "nothing else is wrong");
            }
        }
    }
}

fn unbalanced(block: Block) -> Inspection {
    Inspection::UnbalancedBlock {
        slot: block.slot as u64,
        size: block.size as u64,
    }
}

/// Has frames inspected of which one block is unbalanced in some flows, in an input, in an output or in a link alone.
fn finds_the_class(calls: &dyn Calls) {
    let mut random = Random::new(2_029);
    let without = [
        (Uneven::Flow, broken::no_flows as InspectCall),
        (Uneven::Input, broken::no_inputs),
        (Uneven::Output, broken::no_outputs),
        (Uneven::Link, broken::no_links),
    ];
    for (by, without) in without {
        for size in (2..=10).map(|k| 1 << k) {
            for block in blocks(size, 1_024, &mut random) {
                let ports = random.pick(&[2, 3, 7, 16]);
                let shape = Shape {
                    ports,
                    slots: 1_024,
                };
                let (call, frame) = uneven(by, shape, block, &mut random);
                let found = found_on_both(calls, &call, &frame);
                assert_eq!(found, unbalanced(block), "{by:?} {shape:?}");
                let found = found_by(without, &call, &frame);
                assert_ne!(
                    found,
                    unbalanced(block),
                    "nothing else is wrong in the block"
                );
                let found = found_by(broken::right_halves, &call, &frame);
                assert_eq!(found, unbalanced(block));
            }
        }
    }
}

#[test]
fn through_the_reference() {
    finds_the_block(&Reference);
    finds_the_class(&Reference);
}

#[test]
fn through_c() {
    finds_the_block(&InC::default());
    finds_the_class(&InC::default());
}

#[test]
fn through_rust() {
    finds_the_block(&Library::default());
    finds_the_class(&Library::default());
}

/// Sixteen flows of one cell, each at two ports of its own: one cell in each slot.
#[test]
fn sixteen_flows_of_one_cell() {
    let shape = Shape {
        ports: 16,
        slots: 16,
    };
    let call = load_of_shape(LoadKind::OwnNumber, shape, &mut Random::new(1));
    let (in_c, library) = (InC::default(), Library::default());
    for calls in [&Reference as &dyn Calls, &library, &in_c] {
        let frame = built(calls, &call);
        for slot in frame.chunks(16) {
            let cells = slot.iter().filter(|&&entry| entry != 0).count();
            assert_eq!(cells, 1, "{slot:?}");
        }
    }
}
