//! Cases of Admit and Build.

use std::collections::{BTreeMap, BTreeSet};

use calls::{Built, Calls, Inspection, INPUT_SIDE};
use loads::{flows_of, load, Call, Flow, LoadKind, Random, LINKS, MOST_FLOWS};
use reference::wire::{Course, Frame, Whose};
use reference::work::bound_by_size;

use crate::hits::{
    Hits, AT_LIMIT, FOUR_SINGLES, IN_MATRIX_ORDER, MOST, NONE_SETTLED, NO_FLOWS, ODD_SETTLED,
    SAME_FRAME, SAME_OVER_FOUR, SAME_OVER_LINKS, SEVERAL_LINKS, SEVERAL_ON_A_PAIR, SINGLES,
    THREE_SINGLES, WITHOUT_CELLS,
};
use crate::lent::Lent;
use crate::share_case::{check_share, expect_chain, random_link, random_whose};
use crate::verdict::{expect, expect_equal, outcome, Verdict};

/// Holds Admit's answer against the reference's.
pub fn check_admit(
    candidate: &dyn Calls,
    kind: LoadKind,
    random: &mut Random,
    hits: &mut Hits,
) -> Verdict {
    admit_and_compare(candidate, &load(kind, random), random, hits)
}

/// Admits with the candidate and the reference and compares.
pub fn admit_and_compare(
    candidate: &dyn Calls,
    call: &Call,
    random: &mut Random,
    hits: &mut Hits,
) -> Verdict {
    let list = lend(&call.list, random);
    let before = list.clone();
    let Call {
        ports,
        slots,
        limits,
        ..
    } = call;
    let answer = candidate.admit(*ports, *slots, list.part(), limits);
    let right = reference::admit(*ports, *slots, &call.list, limits);
    hits.add(outcome("admit", &right));
    expect_equal("admit", &answer, &right)?;
    list.expect_same("list after admit", &before)
}

/// Holds Build's answer and buffer against the reference's, and an accepted frame to the rules.
pub fn check_build(
    candidate: &dyn Calls,
    kind: LoadKind,
    random: &mut Random,
    hits: &mut Hits,
) -> Verdict {
    let call = load(kind, random);
    let mut buffer = lend(&random.entries(call.frame_length), random);
    let answer = build_and_compare(candidate, &call, &mut buffer, random, hits)?;
    hits.add(outcome("build", &answer));
    if answer.is_err() {
        return Ok(());
    }
    hits.add(format!("build with {} ports", call.ports));
    hits.add(format!("build with {} slots", call.slots));
    for sort in sorts_of_list(&call) {
        hits.add(sort);
    }
    let Call { ports, slots, .. } = call;
    let inspection = candidate.inspect(INPUT_SIDE, ports, slots, &call.list, buffer.part());
    expect_equal("inspect after build", &inspection, &Inspection::Clean)?;
    let chain = vec![wire_frame(&call, buffer.part()); 2];
    expect_chain(&chain)?;
    let any = [(); 3].map(|()| random_whose(call.ports, call.flows(), random));
    let link = random_link(call.ports, random);
    for whose in any.into_iter().chain([link, Whose::Total]) {
        check_share(&Course::of(&chain, whose), whose, random, hits)?;
    }
    Ok(())
}

/// The names of what a list is like, in the counts of what was hit.
fn sorts_of_list(call: &Call) -> Vec<&'static str> {
    let flows = flows_of(&call.list);
    let pairs = flows.iter().map(|flow| (flow.input, flow.output));
    let pairs: Vec<_> = pairs.collect();
    let different: BTreeSet<_> = pairs.iter().collect();
    let every_pair = different.len() as u64 == call.ports * call.ports;
    let singles = if call.slots > 1 {
        most_singles(&flows)
    } else {
        0
    };
    let sorts = [
        (flows.is_empty(), NO_FLOWS),
        (flows.len() == MOST_FLOWS, MOST),
        (different.len() < pairs.len(), SEVERAL_ON_A_PAIR),
        (flows.iter().any(|flow| flow.cells == 0), WITHOUT_CELLS),
        (
            every_pair && pairs.is_sorted_by(|one, other| one < other),
            IN_MATRIX_ORDER,
        ),
        (has_several_links(&flows), SEVERAL_LINKS),
        (singles >= 2, SINGLES),
        (singles == 3, THREE_SINGLES),
        (singles == 4, FOUR_SINGLES),
        (has_link_at_limit(call, &flows), AT_LIMIT),
    ];
    let held = sorts.into_iter().filter(|(holds, _)| *holds);
    held.map(|(_, name)| name).collect()
}

/// The cells of each link that has flows with cells, by output and link.
fn loads_of_links(flows: &[Flow]) -> BTreeMap<(usize, usize), u16> {
    let mut loads = BTreeMap::new();
    for flow in flows.iter().filter(|flow| flow.cells > 0) {
        *loads.entry((flow.output, flow.link)).or_default() += flow.cells;
    }
    loads
}

/// Whether some output has cells on several links.
pub fn has_several_links(flows: &[Flow]) -> bool {
    let loads = loads_of_links(flows);
    let outputs: BTreeSet<_> = loads.keys().map(|(output, _)| output).collect();
    outputs.len() < loads.len()
}

/// Whether there are cells on all four links, of one output or of several.
fn has_four_links(flows: &[Flow]) -> bool {
    let links = loads_of_links(flows).into_keys().map(|(_, link)| link);
    links.collect::<BTreeSet<_>>().len() == LINKS
}

/// The most single ones that the links of an output leave in the block that is the whole frame.
fn most_singles(flows: &[Flow]) -> usize {
    let mut odd = [[false; LINKS]; 16];
    for flow in flows.iter().filter(|flow| flow.cells % 2 == 1) {
        odd[flow.output][flow.link] ^= true;
    }
    let singles = odd.map(|links| links.into_iter().filter(|&odd| odd).count());
    singles.into_iter().max().unwrap_or_default()
}

/// Whether some link has as many cells as its limit, and that is below the slots.
fn has_link_at_limit(call: &Call, flows: &[Flow]) -> bool {
    let loads = loads_of_links(flows).into_iter();
    let mut limits = loads.map(|((output, link), load)| (load, call.limits[output * LINKS + link]));
    limits.any(|(load, limit)| load == limit && u64::from(limit) < call.slots)
}

/// The call with its flows over several links, five times in six where all are on link 1, and then now and then with limits that are
/// exact.
pub fn over_links(mut call: Call, random: &mut Random) -> Call {
    if call.is_on_link_1() && !random.one_in(6) {
        call.spread(random);
        if random.one_in(3) {
            call.limit_exactly();
        }
    }
    call
}

/// Builds with the candidate and the reference from the same entries and compares all of them, and the odd counts settled.
pub fn build_and_compare(
    candidate: &dyn Calls,
    call: &Call,
    buffer: &mut Lent,
    random: &mut Random,
    hits: &mut Hits,
) -> Result<Built, String> {
    let list = lend(&call.list, random);
    let before = list.clone();
    let mut expected = buffer.clone();
    let Call {
        ports,
        slots,
        limits,
        ..
    } = call;
    let right = reference::build(*ports, *slots, &call.list, limits, expected.part_mut());
    let answer = candidate.build(*ports, *slots, list.part(), limits, buffer.part_mut());
    expect_equal("build", &answer, &right)?;
    buffer.expect_same("buffer after build", &expected)?;
    list.expect_same("list after build", &before)?;
    if let Ok(settled) = answer {
        hits.add(SAME_FRAME);
        let flows = flows_of(&call.list);
        if has_several_links(&flows) {
            hits.add(SAME_OVER_LINKS);
        }
        if has_four_links(&flows) {
            hits.add(SAME_OVER_FOUR);
        }
        check_settled(call, settled, hits)?;
    }
    Ok(answer)
}

/// Holds the odd counts settled to the sharper of their bounds.
fn check_settled(call: &Call, settled: u64, hits: &mut Hits) -> Verdict {
    let k = call.slots.trailing_zeros();
    let most = bound_by_size(call.ports, call.flows() as u64, k);
    expect(settled <= most, || {
        format!("{settled} odd counts settled, and {most} are the most")
    })?;
    if call.ports == 16 {
        hits.settle(k, settled);
    }
    hits.add(match settled {
        0 => NONE_SETTLED,
        _ => ODD_SETTLED,
    });
    Ok(())
}

/// The frame the wire carries after this accepted call.
pub fn wire_frame(call: &Call, entries: &[u16]) -> Frame {
    Frame {
        ports: call.ports,
        slots: call.slots,
        list: call.list.clone(),
        entries: entries.to_vec(),
    }
}

/// A list or a frame in random surroundings.
pub fn lend(numbers: &[u16], random: &mut Random) -> Lent {
    Lent::new(numbers, || random.draw() as u16)
}
