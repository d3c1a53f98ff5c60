//! Lists of flows, lent as numbers, four to a flow.

use crate::random::Random;

/// The most flows of a list.
pub const MOST_FLOWS: usize = 512;

/// The numbers of a flow in a list: its input, its output, its cells, its link.
pub const FLOW_NUMBERS: usize = 4;

/// The links of an output.
pub const LINKS: usize = 4;

/// A reservation; ports are counted from 0, and so are the links of its output.
#[derive(Clone, Copy, Debug, PartialEq, Eq)]
pub struct Flow {
    pub input: usize,
    pub output: usize,
    pub cells: u16,
    pub link: usize,
}

impl Flow {
    /// A flow without cells at any two ports, on link 1.
    pub(crate) fn without_cells(ports: usize, random: &mut Random) -> Flow {
        Flow {
            input: random.place(ports),
            output: random.place(ports),
            cells: 0,
            link: 0,
        }
    }

    /// Gives some of its cells, none or all of them too, to a new flow of the same pair and link.
    fn give(&mut self, random: &mut Random) -> Flow {
        let cells = random.between(0, self.cells.into()) as u16;
        self.cells -= cells;
        Flow { cells, ..*self }
    }
}

/// The numbers that a list of flows is lent as.
pub fn list_of(flows: &[Flow]) -> Vec<u16> {
    let numbers = |flow: &Flow| {
        let [input, output, link] = [flow.input, flow.output, flow.link].map(|n| n as u16 + 1);
        [input, output, flow.cells, link]
    };
    flows.iter().flat_map(numbers).collect()
}

/// The flows of a list of whole flows, all of them at ports and on links from 1 on.
pub fn flows_of(list: &[u16]) -> Vec<Flow> {
    let flows = list.chunks_exact(FLOW_NUMBERS).map(|numbers| Flow {
        input: usize::from(numbers[0]) - 1,
        output: usize::from(numbers[1]) - 1,
        cells: numbers[2],
        link: usize::from(numbers[3]) - 1,
    });
    flows.collect()
}

/// One flow for each pair of a matrix of this many ports, in matrix order, all on link 1.
pub fn flows_of_matrix(ports: usize, matrix: &[u16]) -> Vec<Flow> {
    let flows = matrix.iter().enumerate().map(|(place, &cells)| Flow {
        input: place / ports,
        output: place % ports,
        cells,
        link: 0,
    });
    flows.collect()
}

kinds! {
    /// How the counts of a matrix become a list.
    Listing {
        MatrixOrder = "matrix-order",
        Reserved = "reserved",
        Shared = "shared",
        MostFlows = "most-flows",
    }
}

impl Listing {
    /// The listings that leave every count whole.
    pub const WHOLE: [Listing; 2] = [Listing::MatrixOrder, Listing::Reserved];

    /// One flow for each pair in matrix order; or one for each pair that has cells, in any order; or several for such a pair, in
    /// any order and some without cells, as many as may be in a list or fewer.
    pub(crate) fn list(self, ports: usize, matrix: &[u16], random: &mut Random) -> Vec<Flow> {
        let mut flows = flows_of_matrix(ports, matrix);
        if self == Listing::MatrixOrder {
            return flows;
        }
        flows.retain(|flow| flow.cells > 0);
        let most = (4 * flows.len() + 4).min(MOST_FLOWS) as u64;
        match self {
            Listing::Shared => {
                let number = random.between(flows.len() as u64, most) as usize;
                share_out(&mut flows, number, ports, random);
            }
            Listing::MostFlows => share_out(&mut flows, MOST_FLOWS, ports, random),
            _ => {}
        }
        random.shuffle(&mut flows);
        flows
    }
}

/// Shares out the cells of flows until there are so many, pairs and all ports keeping theirs.
pub(crate) fn share_out(flows: &mut Vec<Flow>, number: usize, ports: usize, random: &mut Random) {
    while flows.len() < number {
        let new = match flows.len() {
            0 => Flow::without_cells(ports, random),
            several => flows[random.place(several)].give(random),
        };
        flows.push(new);
    }
}
