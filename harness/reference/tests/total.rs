//! All cells of a block together: spread to within one cell, and found where they are not.

mod ample;

use loads::{
    load, load_of_shape, unbalance_total, uneven, Block, Call, Flow, LoadKind, Random, Shape,
    Uneven,
};
use reference::wire::{deviation, Course, Frame, Whose};
use reference::{turn, Inspection, Side};

/// What Inspect finds in a frame by inputs, and in the same frame by outputs.
fn inspect(ports: u64, slots: u64, list: &[u16], frame: &[u16]) -> Inspection {
    let found = reference::inspect(Side::Input, ports, slots, list, frame);
    let mut turned = vec![0xa5a5; frame.len()];
    let answer = turn(Side::Input, ports, slots, list, frame, &mut turned);
    answer.expect("no entry is wrong, and no output used twice");
    let by_outputs = reference::inspect(Side::Output, ports, slots, list, &turned);
    assert_eq!(by_outputs, found);
    found
}

fn built(call: &Call) -> Vec<u16> {
    let mut frame = vec![0xa5a5; call.frame_length];
    let answer = reference::build(call.ports, call.slots, &call.list, &call.limits, &mut frame);
    answer.expect("the load fits");
    frame
}

/// The cells of each slot.
fn cells_by_slot(ports: u64, frame: &[u16]) -> Vec<usize> {
    let cells = |slot: &[u16]| slot.iter().filter(|&&entry| entry != 0).count();
    frame.chunks(ports as usize).map(cells).collect()
}

/// Where a block has an odd number of cells, its first half has one more than its second; else they have as many.
fn is_halved(cells: &[usize]) -> bool {
    let (front, back) = cells.split_at(cells.len() / 2);
    let [first, second] = [front, back].map(|half| half.iter().sum::<usize>());
    let odd = (first + second) % 2;
    front.is_empty() || first == second + odd && is_halved(front) && is_halved(back)
}

#[test]
fn sixteen_flows_of_one_cell_in_sixteen_slots() {
    let shape = Shape {
        ports: 16,
        slots: 16,
    };
    let call = load_of_shape(LoadKind::OwnNumber, shape, &mut Random::new(1));
    assert_eq!(cells_by_slot(16, &built(&call)), [1; 16]);
}

#[test]
fn diagonal_loads_in_1024_slots() {
    let mut random = Random::new(2);
    for ports in 1..=16 {
        for _ in 0..10 {
            let flows = (0..ports).map(|port| Flow {
                input: port,
                output: port,
                cells: random.between(0, 1_024) as u16,
                link: 0,
            });
            let flows: Vec<Flow> = flows.collect();
            let slots = 1_024;
            let call = Shape { ports, slots }.call(&flows);
            let cells = cells_by_slot(call.ports, &built(&call));
            assert!(is_halved(&cells), "{call:?}");
        }
    }
}

/// The total is split as if one flow had all the cells: the extra cell of an odd number goes to the first half.
#[test]
fn any_load_that_fits() {
    let mut random = Random::new(3);
    for kind in LoadKind::FITTING {
        for _ in 0..60 {
            let call = load(kind, &mut random);
            assert!(
                is_halved(&cells_by_slot(call.ports, &built(&call))),
                "{call:?}"
            );
        }
    }
}

/// Since the extra cell always goes to the first half, the total is never behind after the first slots of a frame: a run is ahead by
/// the stray of the frame that it ends in at most, and behind by that of the frame that it begins in, so that none strays further than
/// half the sharp bound; and so far some do.
#[test]
fn the_total_strays_half_as_far_as_a_flow_can() {
    for k in 0..=6 {
        let slots = 1 << k;
        let frame = |cells: u16| {
            let list = vec![1, 1, cells, 1];
            let mut entries = vec![0; slots as usize];
            ample::build(1, slots, &list, &mut entries).unwrap();
            let ports = 1;
            Frame {
                ports,
                slots,
                list,
                entries,
            }
        };
        let loads = 0..=slots as u16;
        let couples = loads
            .clone()
            .flat_map(|one| loads.clone().map(move |other| [one, other]));
        let furthest = couples.map(|couple| {
            let course = Course::of(&couple.map(frame), Whose::Total);
            let nearest = course.nearest_of_total();
            assert!(course.total_has_its_share(nearest), "{couple:?}");
            course.lead(course.furthest_run()).abs()
        });
        assert_eq!(furthest.max(), Some(deviation(k)), "k = {k}");
    }
}

#[test]
fn every_block_size_unbalanced_in_its_total_alone() {
    let mut random = Random::new(4);
    for k in 1..=10 {
        for turn in 0..12 {
            let size = 1 << k;
            let shape = Shape {
                ports: [2, 3, 16, 5][turn % 4],
                slots: if turn < 8 { 1_024 } else { size },
            };
            let block = Block::of_size(size, shape.slots, &mut random);
            let (call, frame) = unbalance_total(shape, block, built, &mut random);
            let fault = Inspection::UnbalancedBlock {
                slot: block.slot as u64,
                size: size as u64,
            };
            let found = inspect(call.ports, call.slots, &call.list, &frame);
            assert_eq!(found, fault, "{shape:?}");
        }
    }
}

/// The same by some flows, by an input, by an output or by a link alone.
#[test]
fn every_block_size_unbalanced_in_one_class_alone() {
    let mut random = Random::new(5);
    for (by, k) in Uneven::ALL
        .iter()
        .flat_map(|&by| (2..=10).map(move |k| (by, k)))
    {
        for turn in 0..12 {
            let size = 1 << k;
            let shape = Shape {
                ports: [2, 3, 16, 5][turn % 4],
                slots: if turn < 8 { 1_024 } else { size },
            };
            let block = Block::of_size(size, shape.slots, &mut random);
            let (call, frame) = uneven(by, shape, block, &mut random);
            let fault = Inspection::UnbalancedBlock {
                slot: block.slot as u64,
                size: size as u64,
            };
            let found = inspect(call.ports, call.slots, &call.list, &frame);
            assert_eq!(found, fault, "{by:?} {shape:?}");
        }
    }
}

/// Four cells in one slot and none in the other.
#[test]
fn a_block_of_two_slots() {
    let list = [1, 1, 1, 1, 2, 2, 1, 1, 3, 3, 1, 1, 4, 4, 1, 1];
    let fault = Inspection::UnbalancedBlock { slot: 1, size: 2 };
    assert_eq!(inspect(4, 2, &list, &[1, 2, 3, 4, 0, 0, 0, 0]), fault);
    assert_eq!(inspect(4, 2, &list, &[0, 0, 0, 0, 1, 2, 3, 4]), fault);
    assert_eq!(inspect(4, 2, &list, &[1, 2, 0, 4, 0, 0, 3, 0]), fault);
    assert_eq!(
        inspect(4, 2, &list, &[1, 0, 0, 4, 0, 2, 3, 0]),
        Inspection::Clean
    );
}
