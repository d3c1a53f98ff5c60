//! Lists that are made flow by flow.

use crate::grid::Grid;
use crate::list::{share_out, Flow, Listing, MOST_FLOWS};
use crate::load::{Call, Shape};
use crate::random::{random_odd, Random};

/// Flows with odd numbers of cells at any two ports, one after the other until there is no room at those that are tried, or as many
/// as a list may have.
pub(crate) fn many_odd(shape: Shape, random: &mut Random) -> Vec<Flow> {
    odd_to(shape.ports, shape, random)
}

/// The same over several links, all to the first outputs, so that a link has many; half of them with limits that are exact.
pub(crate) fn odd_links(shape: Shape, random: &mut Random) -> Call {
    let outputs = random.between(1, shape.ports as u64) as usize;
    let mut call = shape.call(&odd_to(outputs, shape, random));
    call.spread(random);
    if random.one_in(2) {
        call.limit_exactly();
    }
    call
}

/// Such flows on link 1, to so many outputs.
fn odd_to(outputs: usize, shape: Shape, random: &mut Random) -> Vec<Flow> {
    let mut rooms = [0; 2].map(|_| vec![shape.slots; shape.ports]);
    let largest = random.pick(&[1, 5, shape.slots as u64]);
    let tries = random.between(1, 2 * MOST_FLOWS as u64);
    let mut flows = Vec::new();
    for _ in 0..tries {
        let [input, output] = [shape.ports, outputs].map(|ports| random.place(ports));
        let room = rooms[0][input].min(rooms[1][output]) as u64;
        if room == 0 || flows.len() == MOST_FLOWS {
            continue;
        }
        let cells = random_odd(room.min(largest), random);
        rooms[0][input] -= usize::from(cells);
        rooms[1][output] -= usize::from(cells);
        flows.push(Flow {
            input,
            output,
            cells,
            link: 0,
        });
    }
    flows
}

/// Several flows on one pair that have all its cells between them, among flows of other pairs.
pub(crate) fn on_one_pair(shape: Shape, random: &mut Random) -> Vec<Flow> {
    let pair = Flow {
        cells: random.between(1, shape.slots as u64) as u16,
        ..Flow::without_cells(shape.ports, random)
    };
    let mut flows = vec![pair];
    let number = random.between(2, 40) as usize;
    share_out(&mut flows, number, shape.ports, random);
    let left = shape.slots - usize::from(pair.cells);
    let mut rooms = [0; 2].map(|_| vec![shape.slots; shape.ports]);
    rooms[0][pair.input] = left;
    rooms[1][pair.output] = left;
    let mut grid = Grid::new(shape);
    grid.scatter_in(random.pick(&[0, shape.ports]), rooms, random);
    flows.extend(grid.into_flows(Listing::Reserved, random));
    random.shuffle(&mut flows);
    flows
}

/// Flows with as many cells as there can be, at any ports, or all of them at one input or at one output.
pub(crate) fn largest(shape: Shape, random: &mut Random) -> Vec<Flow> {
    let number = random.pick(&[1, 2, 17, MOST_FLOWS - 1, MOST_FLOWS]);
    let first = Flow::without_cells(shape.ports, random);
    let [same_input, same_output] = [0; 2].map(|_| random.one_in(2));
    let flows = (0..number).map(|_| {
        let mut flow = Flow::without_cells(shape.ports, random);
        if same_input {
            flow.input = first.input;
        }
        if same_output {
            flow.output = first.output;
        }
        flow.cells = u16::MAX;
        flow
    });
    flows.collect()
}
