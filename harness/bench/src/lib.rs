//! The loads of the benchmark.

#![forbid(unsafe_code)]

use frame_builder::{slots_each, Flow, Limits, Who};
use loads::{full_load, full_load_of_flows, Call, Random, Shape};
use loads::{FLOW_NUMBERS, LINKS, MOST_FLOWS};

/// Different loads taken in turn, so that no builder learns one by heart.
pub const LOADS: usize = 16;

/// The flows of a benchmark's lists.
#[derive(Clone, Copy, Debug, PartialEq, Eq)]
pub enum Flows {
    /// One for each pair, in matrix order, on link 1.
    EachPair,
    /// As many as a list may have, in any order, on link 1.
    Most,
    /// Those of `EachPair`, each put on any of the four links.
    FourLinks,
    /// The same, but those to other outputs than the last on link 1.
    LastOutput,
}

/// A load that fits, with its list as the crate takes it.
#[derive(Clone, Debug)]
pub struct Load {
    pub shape: Shape,
    /// The list as numbers, four to a flow.
    pub numbers: Vec<u16>,
    pub list: Vec<Flow>,
    /// Those of links that may each have as many cells as there are slots.
    pub limits: Limits,
}

impl Load {
    fn of(shape: Shape, call: Call) -> Load {
        Load {
            shape,
            list: flows_of(&call.list),
            numbers: call.list,
            limits: slots_each(shape.slots),
        }
    }

    /// The last flow, the last input and the last output.
    pub fn last_of_each(&self) -> [Who; 3] {
        let ports = self.shape.ports;
        [
            Who::Flow(self.list.len()),
            Who::Input(ports),
            Who::Output(ports),
        ]
    }
}

/// The flows of a list as the crate takes them.
pub fn flows_of(list: &[u16]) -> Vec<Flow> {
    let flows = list.chunks_exact(FLOW_NUMBERS);
    let flows = flows.map(|flow| Flow::new(flow[0], flow[1], flow[2]).on_link(flow[3]));
    flows.collect()
}

/// Puts each flow to one of the last outputs on any link.
fn over_links(outputs: usize, mut call: Call, random: &mut Random) -> Call {
    let before = call.ports as usize - outputs;
    for flow in call.list.chunks_exact_mut(FLOW_NUMBERS) {
        if usize::from(flow[1]) > before {
            flow[3] = random.between(1, LINKS as u64) as u16;
        }
    }
    call
}

/// Random loads that give every port so many cells.
pub fn loads_of(shape: Shape, cells: usize, flows: Flows) -> Vec<Load> {
    let [mut random, mut links] = [2_026, 2_027].map(Random::new);
    let mut load = || match flows {
        Flows::EachPair => full_load(shape, cells, &mut random),
        Flows::Most => full_load_of_flows(shape, cells, MOST_FLOWS, &mut random),
        Flows::FourLinks => {
            let call = full_load(shape, cells, &mut random);
            over_links(shape.ports, call, &mut links)
        }
        Flows::LastOutput => over_links(1, full_load(shape, cells, &mut random), &mut links),
    };
    (0..LOADS).map(|_| Load::of(shape, load())).collect()
}
