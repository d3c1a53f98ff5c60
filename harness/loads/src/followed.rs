//! Loads in which one flow has so many cells.

use crate::grid::Grid;
use crate::list::{Flow, Listing, MOST_FLOWS};
use crate::load::{Call, Shape};
use crate::random::Random;

/// A flow that keeps its number and its cells from list to list, but not its ports; it has one cell or more.
#[derive(Clone, Copy, Debug, PartialEq, Eq)]
pub struct Followed {
    /// Its place in every list, from 1.
    pub number: usize,
    pub cells: u16,
}

kinds! {
    /// Who else has cells at the flow's two ports.
    Company {
        Nobody = "nobody",
        Partner = "partner",
        Anybody = "anybody",
    }
}

impl Followed {
    /// A flow of so many cells that does not come first in its lists, and now and then far from the first.
    pub fn random(cells: u16, random: &mut Random) -> Followed {
        let most = MOST_FLOWS as u64;
        let [near, far] = [20, most].map(|last| random.between(2, last));
        let number = random.pick(&[2, 2, near, near, near, near, far, most]) as usize;
        Followed { number, cells }
    }

    /// A load of this shape that fits, with the flow at any two ports; other ports than the flow's and its partner's have any. A flow
    /// with nobody at its ports is the first with cells of the whole list in half of the cases, so that its extra cells all go to
    /// first halves.
    pub fn load(self, company: Company, shape: Shape, random: &mut Random) -> Call {
        let flow = Flow {
            cells: self.cells,
            ..Flow::without_cells(shape.ports, random)
        };
        let left = shape.slots - usize::from(self.cells);
        let mut rooms = [0; 2].map(|_| vec![shape.slots; shape.ports]);
        let of_flow = if company == Company::Anybody { left } else { 0 };
        rooms[0][flow.input] = of_flow;
        rooms[1][flow.output] = of_flow;
        let mut earlier = Vec::new();
        if company == Company::Partner {
            let partner = partner_of(flow, left as u16, shape, random);
            rooms[0][partner.input] = 0;
            rooms[1][partner.output] = 0;
            earlier.push(partner);
        }
        let mut grid = Grid::new(shape);
        let pairs = random.pick(&[0, shape.ports, shape.ports * shape.ports]);
        grid.scatter_in(pairs, rooms, random);
        let others = grid.into_flows(random.pick(Listing::ALL), random);
        let comes_first = company == Company::Nobody && random.one_in(2);
        self.place(flow, earlier, others, comes_first, shape, random)
    }

    /// The list with the flow in its place: before it those that have to be earlier and others, or flows without cells.
    fn place(
        self,
        flow: Flow,
        earlier: Vec<Flow>,
        mut others: Vec<Flow>,
        comes_first: bool,
        shape: Shape,
        random: &mut Random,
    ) -> Call {
        let mut flows = earlier;
        while flows.len() < self.number - 1 {
            let other = others.pop().filter(|_| !comes_first);
            flows.push(other.unwrap_or_else(|| Flow::without_cells(shape.ports, random)));
        }
        random.shuffle(&mut flows);
        flows.push(flow);
        flows.extend(others);
        flows.truncate(MOST_FLOWS);
        shape.call(&flows)
    }
}

/// A flow with so many cells at the input of another, or at its output, or at both.
fn partner_of(flow: Flow, cells: u16, shape: Shape, random: &mut Random) -> Flow {
    let mut partner = Flow { cells, ..flow };
    match random.below(3) {
        0 => partner.input = random.place(shape.ports),
        1 => partner.output = random.place(shape.ports),
        _ => {}
    }
    partner
}
