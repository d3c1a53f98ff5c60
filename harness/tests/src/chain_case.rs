//! Cases of demand 3: lists of Build calls on one buffer and the chain the wire carries.

use calls::Calls;
use loads::{
    flows_of, load_of_shape, random_shape, Call, Company, Followed, LoadKind, Random, Seam, Shape,
    FLOW_NUMBERS,
};
use reference::wire::{Course, Frame, Whose};

use crate::build_case::{build_and_compare, has_several_links, lend, over_links, wire_frame};
use crate::hits::{Hits, CHAIN_CHANGED, CHAIN_OVER_LINKS};
use crate::queue_case::{check_card, check_queue};
use crate::share_case::{
    check_fewest_and_most, check_share, class_of, every_class, every_link, expect_chain,
    expect_every_run, note_bound, random_whose,
};
use crate::verdict::Verdict;
use crate::wait_case::{check_first_waits, check_waits};

/// The flows, inputs, outputs and links whose queues and other runs are looked at on a chain, besides those of the total.
const CLASSES: usize = 8;

loads::kinds! {
    /// What a list of calls is like.
    ChainKind {
        Mixed = "mixed",
        ShortFrames = "short-frames",
        Adversarial = "adversarial",
    }
}

/// Makes a list of calls on one buffer, then counts runs of the chain.
pub fn check_chain(
    candidate: &dyn Calls,
    kind: ChainKind,
    random: &mut Random,
    hits: &mut Hits,
) -> Verdict {
    let shape = chain_shape(kind, random);
    let flow = flow_on_chain(shape, random);
    let chain = carry(candidate, kind, shape, flow, random, hits)?;
    expect_chain(&chain)?;
    let mut lists = chain.iter().map(|frame| flows_of(&frame.list));
    if lists.any(|flows| has_several_links(&flows)) {
        hits.add(CHAIN_OVER_LINKS);
    }
    let flows = most_flows(&chain);
    check_every_class(&chain, shape.ports as u64, flows, hits)?;
    for whose in counted_on_chain(shape, flows, flow, random) {
        let course = Course::of(&chain, whose);
        check_share(&course, whose, random, hits)?;
        note_bound(&course, hits);
        check_fewest_and_most(&course, whose)?;
        check_queue(&course, whose, random, hits)?;
        check_waits(&course, whose, 1, random, hits)?;
    }
    let Some(flow) = flow else { return Ok(()) };
    let class = class_of(flow);
    let course = Course::of(&chain, class);
    check_waits(&course, class.into(), flow.cells.into(), random, hits)
}

/// The flows of the longest list of a chain: a number above is in no list.
fn most_flows(chain: &[Frame]) -> usize {
    let flows = chain.iter().map(|frame| frame.list.len() / FLOW_NUMBERS);
    flows.max().unwrap_or_default()
}

/// The frames that the wire carries during a list of calls, each of which has another list of flows than the one before.
fn carry(
    candidate: &dyn Calls,
    kind: ChainKind,
    shape: Shape,
    flow: Option<Followed>,
    random: &mut Random,
    hits: &mut Hits,
) -> Result<Vec<Frame>, String> {
    let mut buffer = lend(&random.entries(shape.frame_length()), random);
    let mut chain: Vec<Frame> = Vec::new();
    let mut accepted: Option<Call> = None;
    let mut before = Vec::new();
    for later in (0..random.between(1, 12)).rev() {
        let mut call = call_on_chain(kind, shape, flow, later, random);
        while call.list == before {
            // Where a flow has the same place, there may be no other list with it.
            call = next_call(kind, shape, None, random);
        }
        before.clone_from(&call.list);
        let refused = build_and_compare(candidate, &call, &mut buffer, random, hits)?.is_err();
        hits.add(event_of(refused, accepted.is_some()));
        if !refused {
            accepted = Some(call);
        }
        let Some(last) = &accepted else { continue };
        let times = times_carried(last, shape, refused, random, hits);
        let frame = wire_frame(last, buffer.part());
        if chain.last().is_some_and(|last| last.list != frame.list) {
            hits.add(CHAIN_CHANGED);
        }
        chain.extend(std::iter::repeat_n(frame, times));
    }
    Ok(chain)
}

/// A call with so many to come after it.
fn call_on_chain(
    kind: ChainKind,
    shape: Shape,
    flow: Option<Followed>,
    later: u64,
    random: &mut Random,
) -> Call {
    let call = match flow {
        Some(flow) if later < 2 => last_load(flow, later, shape, random),
        _ => next_call(kind, shape, flow, random),
    };
    over_links(call, random)
}

/// Holds every run of every flow, input, output and link of a chain to its bounds, the first in its queue to the longest wait, and every
/// link to what its card needs.
fn check_every_class(chain: &[Frame], ports: u64, flows: usize, hits: &mut Hits) -> Verdict {
    let classes = every_class(ports, flows).map(Whose::Class);
    let mut all = classes.chain(every_link(ports));
    all.try_for_each(|whose| {
        let course = Course::of(chain, whose);
        expect_every_run(&course, whose)?;
        if let Whose::Link { .. } = whose {
            check_card(&course, whose)?;
        }
        check_first_waits(&course, whose, hits)
    })
}

/// In one chain of three a flow that has the cells of a seam, and in another one with other cells.
fn flow_on_chain(shape: Shape, random: &mut Random) -> Option<Followed> {
    let seam = Seam::of_slots(shape.slots)?;
    let cells = match random.below(3) {
        0 => seam.cells,
        1 => seam.other_cells(random),
        _ => return None,
    };
    Some(Followed::random(cells, random))
}

/// A load of the seam: the flow alone at its ports, or beside a partner.
pub fn straying_load(flow: Followed, shape: Shape, random: &mut Random) -> Call {
    let company = random.pick(&[Company::Nobody, Company::Partner]);
    flow.load(company, shape, random)
}

/// The last two loads of a chain with such a flow, by how many calls come after: the two of the seam, one after the other.
fn last_load(flow: Followed, later: u64, shape: Shape, random: &mut Random) -> Call {
    let company = match later {
        0 => Company::Partner,
        _ => Company::Nobody,
    };
    flow.load(company, shape, random)
}

/// The total, and any classes and links, with the flow of the seam where there is one.
fn counted_on_chain(
    shape: Shape,
    flows: usize,
    flow: Option<Followed>,
    random: &mut Random,
) -> Vec<Whose> {
    let straying = flow.map(class_of).map(Whose::Class);
    let any = std::iter::repeat_with(|| random_whose(shape.ports as u64, flows, random));
    let counted = straying.into_iter().chain(any).take(CLASSES);
    [Whose::Total].into_iter().chain(counted).collect()
}

/// The one shape of all the frames a chain carries.
fn chain_shape(kind: ChainKind, random: &mut Random) -> Shape {
    let mut shape = random_shape(random);
    if kind == ChainKind::ShortFrames {
        shape.slots = 1 << random.between(0, 3);
    }
    shape
}

/// A call that fits, is overloaded, is junk, or asks for another shape of the same length.
fn next_call(kind: ChainKind, shape: Shape, flow: Option<Followed>, random: &mut Random) -> Call {
    if let Some(flow) = flow.filter(|_| random.one_in(2)) {
        return straying_load(flow, shape, random);
    }
    match random.below(10) {
        0 if random.one_in(3) => load_of_shape(LoadKind::LinkOverByOne, shape, random),
        0 => load_of_shape(random.pick(&LoadKind::OVERLOADED), shape, random),
        1 => load_of_shape(random.pick(&LoadKind::ILL_FORMED), shape, random),
        2 => load_of_shape(LoadKind::Junk, shape, random),
        3 => load_of_shape(LoadKind::Scattered, other_shape(shape), random),
        _ if kind == ChainKind::Adversarial => {
            load_of_shape(random.pick(&LoadKind::CHAINED), shape, random)
        }
        _ => load_of_shape(random.pick(&LoadKind::FITTING), shape, random),
    }
}

/// A shape whose frames are as long but have other slots, or the same one if there is none.
fn other_shape(shape: Shape) -> Shape {
    let wider = Shape {
        ports: shape.ports * 2,
        slots: shape.slots / 2,
    };
    let narrower = Shape {
        ports: shape.ports / 2,
        slots: shape.slots * 2,
    };
    if wider.ports <= 16 && wider.slots >= 1 {
        wider
    } else if shape.ports.is_multiple_of(2) && narrower.slots <= 1_024 {
        narrower
    } else {
        shape
    }
}

/// How often the wire carries the buffer after a call; never in a shape that is not the chain's.
fn times_carried(
    last: &Call,
    shape: Shape,
    refused: bool,
    random: &mut Random,
    hits: &mut Hits,
) -> usize {
    if (last.ports, last.slots) != (shape.ports as u64, shape.slots as u64) {
        hits.add("chain other shape accepted and not carried");
        return 0;
    }
    let times = random.pick(&[0, 1, 1, 2, 3]);
    if times == 0 {
        hits.add("chain frame carried no time");
    } else if refused {
        hits.add("chain frame carried again after a refusal");
    }
    times
}

/// The name a call goes by in the counts of what was hit.
fn event_of(refused: bool, accepted_before: bool) -> &'static str {
    match (refused, accepted_before) {
        (false, _) => "chain call accepted",
        (true, true) => "chain call refused",
        (true, false) => "chain call refused before any accepted",
    }
}
