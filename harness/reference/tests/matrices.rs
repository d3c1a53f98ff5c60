//! The law on matrices: a list with one flow for each pair in matrix order, all on link 1, puts the same pairs in the same slots as the
//! frame by pairs, which has in the place of a flow the output that an input sends to, and is held to the rules as they are stated for
//! a matrix of counts.

mod ample;
mod held;

use held::{couples, Rules};
use loads::{flows_of, load, load_of_shape, random_shape, Flow, LoadKind, Random, Shape};

/// The counts of a list with one flow for each pair in matrix order.
fn matrix_of(flows: &[Flow]) -> Vec<u16> {
    flows.iter().map(|flow| flow.cells).collect()
}

/// The frame with each flow's output in its place, as a frame by pairs has it.
fn outputs_of(flows: &[Flow], frame: &[u16]) -> Vec<u16> {
    let output = |&entry: &u16| match entry {
        0 => 0,
        flow => flows[usize::from(flow) - 1].output as u16 + 1,
    };
    frame.iter().map(output).collect()
}

/// Rule 3 for the places of a matrix: along each row by rising output, along each column by rising input.
fn partnerships(ports: usize, odd: &[usize]) -> Vec<[usize; 2]> {
    let odd_along = |places: &mut dyn Iterator<Item = usize>| -> Vec<usize> {
        places.filter(|place| odd.contains(place)).collect()
    };
    let lines = (0..ports).flat_map(|port| {
        let row = odd_along(&mut (port * ports..(port + 1) * ports));
        let column = odd_along(&mut (port..ports * ports).step_by(ports));
        [row, column]
    });
    lines
        .flat_map(|line| couples(&line).collect::<Vec<_>>())
        .collect()
}

/// Builds a load with one flow for each pair in matrix order and holds its frame by pairs to the rules.
fn hold(shape: Shape, flows: &[Flow]) {
    let call = shape.call(flows);
    let mut frame = vec![0xa5a5; call.frame_length];
    ample::build(call.ports, call.slots, &call.list, &mut frame).expect("the load fits");
    let (ports, frame) = (shape.ports, outputs_of(flows, &frame));
    let rules = Rules {
        ports,
        counts: ports * ports,
        place_of: &|input, output| input * ports + usize::from(output) - 1,
        partnerships: &|odd| partnerships(ports, odd),
    };
    assert_eq!(rules.counts(&frame), matrix_of(flows), "{call:?}");
    rules.hold_blocks(&frame, &mut [0; 2]);
}

#[test]
fn random_matrices() {
    let mut random = Random::new(8);
    for _ in 0..2_000 {
        let shape = random_shape(&mut random);
        let call = load_of_shape(LoadKind::MatrixOrder, shape, &mut random);
        hold(shape, &flows_of(&call.list));
    }
}

#[test]
fn matrices_of_odd_counts() {
    let mut random = Random::new(9);
    for _ in 0..500 {
        let call = load(LoadKind::AllOdd, &mut random);
        let shape = Shape {
            ports: call.ports as usize,
            slots: call.slots as usize,
        };
        let mut flows = flows_of(&call.list);
        flows.sort_by_key(|flow| (flow.input, flow.output));
        hold(shape, &flows);
    }
}

/// Every matrix of two ports that fits four slots.
#[test]
fn all_small_matrices() {
    let shape = Shape { ports: 2, slots: 4 };
    let mut held = 0;
    for number in 0..5_u16.pow(4) {
        let matrix = [1, 5, 25, 125].map(|power| number / power % 5);
        let [one, two, three, four] = matrix;
        let loads = [one + two, three + four, one + three, two + four];
        if loads.iter().all(|&load| load <= 4) {
            hold(shape, &loads::flows_of_matrix(2, &matrix));
            held += 1;
        }
    }
    assert!(held > 50, "{held} matrices fit");
}
