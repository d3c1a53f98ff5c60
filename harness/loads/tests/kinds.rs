//! The loads are of the kinds their names promise.

use std::collections::BTreeSet;

use loads::{
    damage, damage_by_outputs, flows_of, full_load, full_load_of_flows, legal_frame, load,
    load_of_shape, random_shape, sheet, uneven, Block, Call, Damage, Flow, LoadKind, Random, Shape,
    SheetKind, Uneven, FLOW_NUMBERS, LINKS, MOST_FLOWS,
};
use reference::{Inspection, Side};

/// The numbers of Admit's refusals over many loads of one kind, 0 for accepted.
fn answers(kind: LoadKind) -> Vec<u64> {
    let mut random = Random::new(11);
    let number = |call: Call| {
        let answer = reference::admit(call.ports, call.slots, &call.list, &call.limits);
        answer.map_or_else(|refusal| refusal.number(), |()| 0)
    };
    (0..300).map(|_| number(load(kind, &mut random))).collect()
}

#[test]
fn fitting_kinds_fit() {
    for kind in LoadKind::FITTING {
        assert!(answers(kind).iter().all(|&number| number == 0), "{kind:?}");
    }
}

#[test]
fn refused_kinds_are_refused_for_what_they_say() {
    let cases = [
        (LoadKind::InputOverByOne, 5),
        (LoadKind::OutputOverByOne, 6),
        (LoadKind::SixteenBitWrap, 5),
        (LoadKind::Largest, 5),
        (LoadKind::LinkOverByOne, 24),
        (LoadKind::NotWhole, 3),
        (LoadKind::TooManyFlows, 21),
        (LoadKind::PortOutside, 22),
        (LoadKind::LinkOutside, 23),
    ];
    for (kind, refusal) in cases {
        assert!(
            answers(kind).iter().all(|&number| number == refusal),
            "{kind:?}"
        );
    }
    assert!(answers(LoadKind::InputOverByMuch).contains(&5));
    assert!(answers(LoadKind::OutputOverByMuch).contains(&6));
    let at_random: BTreeSet<u64> = answers(LoadKind::RandomLimits).into_iter().collect();
    assert_eq!(at_random, [0, 24].into());
}

/// The kinds over several links.
const OVER_LINKS: [LoadKind; 5] = [
    LoadKind::SpreadLinks,
    LoadKind::OddLinks,
    LoadKind::ExactLimits,
    LoadKind::LinkOverByOne,
    LoadKind::RandomLimits,
];

#[test]
fn lists_are_on_link_1_but_for_those_over_links() {
    let mut random = Random::new(21);
    let fitting = LoadKind::FITTING.into_iter().chain(LoadKind::OVERLOADED);
    for kind in fitting.filter(|kind| !OVER_LINKS.contains(kind)) {
        for _ in 0..100 {
            let call = load(kind, &mut random);
            let on_link_1 = flows_of(&call.list).iter().all(|flow| flow.link == 0);
            assert!(on_link_1, "{kind:?}");
            assert_eq!(call.limits, [call.slots as u16; 64], "{kind:?}");
        }
    }
}

#[test]
fn lists_over_links_use_all_of_them() {
    let mut random = Random::new(22);
    for kind in OVER_LINKS {
        let mut used = [0; LINKS];
        for _ in 0..100 {
            for flow in flows_of(&load(kind, &mut random).list) {
                used[flow.link] += 1;
            }
        }
        assert!(used.iter().all(|&flows| flows > 100), "{kind:?} {used:?}");
    }
}

/// The load of each link, output by output.
fn link_loads(call: &Call) -> [u16; 64] {
    let mut loads = [0; 64];
    for flow in flows_of(&call.list) {
        loads[flow.output * LINKS + flow.link] += flow.cells;
    }
    loads
}

#[test]
fn limits_are_exact_or_a_cell_short() {
    let mut random = Random::new(24);
    let [mut by_one, mut several] = [0; 2];
    for _ in 0..300 {
        let call = load(LoadKind::ExactLimits, &mut random);
        assert_eq!(call.limits, link_loads(&call));
        let call = load(LoadKind::LinkOverByOne, &mut random);
        let links = link_loads(&call).into_iter().zip(call.limits);
        let short: Vec<u16> = links.map(|(load, limit)| load - limit).collect();
        by_one += usize::from(short.iter().sum::<u16>() == 1);
        several += usize::from(short.iter().filter(|&&cells| cells > 0).count() > 1);
    }
    assert!(by_one > 50 && several > 50, "{by_one} {several}");
}

/// How many links of each output have an odd number of odd counts, and so leave one single: the most of a list.
fn most_singles(flows: &[Flow]) -> usize {
    let mut odd = [[0; LINKS]; 16];
    for flow in flows {
        odd[flow.output][flow.link] += flow.cells % 2;
    }
    let singles = odd
        .iter()
        .map(|links| links.iter().filter(|&&odd| odd % 2 == 1).count());
    singles.max().unwrap_or_default()
}

#[test]
fn links_leave_single_ones() {
    let mut random = Random::new(25);
    for kind in [LoadKind::SpreadLinks, LoadKind::OddLinks] {
        let mut lists = [0; LINKS + 1];
        for _ in 0..300 {
            lists[most_singles(&flows_of(&load(kind, &mut random).list))] += 1;
        }
        assert!(
            lists[1..].iter().all(|&lists| lists > 10),
            "{kind:?} {lists:?}"
        );
    }
}

#[test]
fn links_outside_are_0_and_5_and_others() {
    let mut random = Random::new(26);
    let mut outside = BTreeSet::new();
    for _ in 0..300 {
        let call = load(LoadKind::LinkOutside, &mut random);
        let links = call.list.iter().skip(3).step_by(FLOW_NUMBERS);
        let links: BTreeSet<u16> = links
            .copied()
            .filter(|link| !(1..=4).contains(link))
            .collect();
        assert_eq!(links.len(), 1);
        outside.extend(links);
    }
    assert!(
        [0, 5, 257, u16::MAX]
            .iter()
            .all(|link| outside.contains(link)),
        "{outside:?}"
    );
}

#[test]
fn all_odd_loads_are_all_odd() {
    let mut random = Random::new(3);
    for _ in 0..300 {
        let call = load(LoadKind::AllOdd, &mut random);
        assert!(flows_of(&call.list).iter().all(|flow| flow.cells % 2 == 1));
    }
}

#[test]
fn lists_are_as_long_as_they_say() {
    let mut random = Random::new(4);
    for _ in 0..300 {
        let call = load(LoadKind::MostFlows, &mut random);
        assert_eq!(call.flows(), MOST_FLOWS);
        assert_eq!(load(LoadKind::NoFlows, &mut random).flows(), 0);
        let call = load(LoadKind::MatrixOrder, &mut random);
        assert_eq!(call.flows() as u64, call.ports * call.ports);
        assert!(load(LoadKind::TooManyFlows, &mut random).flows() > MOST_FLOWS);
    }
}

/// Several flows on a pair, flows without cells, and lists in any order.
#[test]
fn lists_are_of_every_sort() {
    let mut random = Random::new(12);
    let [mut shared, mut without_cells, mut unordered] = [0; 3];
    for _ in 0..300 {
        let flows = flows_of(&load(LoadKind::Scattered, &mut random).list);
        let pair = |flow: &Flow| (flow.input, flow.output);
        let pairs: BTreeSet<_> = flows.iter().map(pair).collect();
        shared += usize::from(pairs.len() < flows.len());
        without_cells += usize::from(flows.iter().any(|flow| flow.cells == 0));
        unordered += usize::from(!flows.is_sorted_by_key(pair));
    }
    let sorts = [shared, without_cells, unordered];
    assert!(sorts.iter().all(|&number| number > 50), "{sorts:?}");
}

/// The frame of a load that fits.
fn built(call: &Call) -> Vec<u16> {
    let mut frame = vec![0; call.frame_length];
    let Call { ports, slots, .. } = *call;
    let answer = reference::build(ports, slots, &call.list, &call.limits, &mut frame);
    answer.expect("the load fits");
    frame
}

/// The number of what Inspect finds.
fn fault_of(side: Side, call: &Call, frame: &[u16]) -> u64 {
    match reference::inspect(side, call.ports, call.slots, &call.list, frame) {
        Inspection::Clean => 0,
        Inspection::WrongEntry { .. } => 101,
        Inspection::PortTwice { .. } => 102,
        Inspection::FlowCount { .. } => 103,
        Inspection::UnbalancedBlock { .. } => 104,
        Inspection::Refused(refusal) => refusal.number(),
    }
}

/// The faults that each damage of the list or the frame leads to, and no other than these.
#[test]
fn damages_are_of_the_kinds_they_say() {
    let mut random = Random::new(13);
    let mut found_in = |load: LoadKind, kind: Damage| {
        let inspected = (0..300).map(|_| {
            let shape = random_shape(&mut random);
            let mut call = load_of_shape(load, shape, &mut random);
            let mut frame = built(&call);
            damage(kind, shape, &mut call, &mut frame, &mut random);
            fault_of(Side::Input, &call, &frame)
        });
        inspected.collect::<BTreeSet<u64>>()
    };
    let over_links = found_in(LoadKind::SpreadLinks, Damage::OtherLink);
    assert_eq!(over_links, [0, 104].into());
    let mut found = |kind: Damage| found_in(LoadKind::Full, kind);
    assert_eq!(found(Damage::Whole), [0].into());
    assert_eq!(found(Damage::EntryAboveFlows), [101].into());
    assert_eq!(found(Damage::OtherInputsFlow), [0, 101].into());
    assert_eq!(found(Damage::FlowsSwapped), [0, 102, 103, 104].into());
    assert_eq!(found(Damage::OutputDoubled), [0, 102, 103].into());
    assert_eq!(found(Damage::CellsWrongByOne), [0, 103].into());
    assert_eq!(found(Damage::Bunched), [0, 104].into());
    assert!(found(Damage::ListCut).contains(&101));
    assert!(found(Damage::OtherPort).contains(&102));
}

/// The same of frames by outputs.
#[test]
fn damages_by_outputs_are_of_the_kinds_they_say() {
    let mut random = Random::new(16);
    let mut found = |kind: Damage| {
        let inspected = (0..300).map(|_| {
            let shape = random_shape(&mut random);
            let mut call = load_of_shape(LoadKind::Full, shape, &mut random);
            let frame = built(&call);
            let mut second = frame.clone();
            let Call { ports, slots, .. } = call;
            let list = &call.list;
            let turned = reference::turn(Side::Input, ports, slots, list, &frame, &mut second);
            turned.expect("a built frame turns");
            damage_by_outputs(kind, shape, &mut call, &mut second, &mut random);
            fault_of(Side::Output, &call, &second)
        });
        inspected.collect::<BTreeSet<u64>>()
    };
    assert_eq!(found(Damage::Whole), [0].into());
    assert_eq!(found(Damage::EntryAboveFlows), [101].into());
    assert_eq!(found(Damage::OtherInputsFlow), [0, 101].into());
    assert_eq!(found(Damage::FlowsSwapped), [0, 102, 103, 104].into());
    assert_eq!(found(Damage::OutputDoubled), [0, 102, 103].into());
    assert_eq!(found(Damage::CellsWrongByOne), [0, 103].into());
    assert_eq!(found(Damage::Bunched), [0, 104].into());
    assert!(found(Damage::ListCut).contains(&101));
    assert!(found(Damage::OtherPort).contains(&102));
}

/// No entry of theirs is wrong and no output is used twice, but some have other cells than the list.
#[test]
fn legal_frames_are_legal() {
    let mut random = Random::new(17);
    let inspected = (0..600).map(|_| {
        let shape = random_shape(&mut random);
        let call = load_of_shape(LoadKind::Scattered, shape, &mut random);
        let frame = legal_frame(shape, &call, &mut random);
        fault_of(Side::Input, &call, &frame)
    });
    let found: BTreeSet<u64> = inspected.collect();
    assert!(found.contains(&103));
    assert!(!found.contains(&101) && !found.contains(&102), "{found:?}");
}

#[test]
fn uneven_blocks_are_of_two_cells() {
    let mut random = Random::new(14);
    let shape = Shape { ports: 2, slots: 4 };
    let block = Block { slot: 1, size: 4 };
    for &by in Uneven::ALL {
        let (call, frame) = uneven(by, shape, block, &mut random);
        let cells = frame.iter().filter(|&&entry| entry > 0).count();
        let reserved = flows_of(&call.list);
        let reserved = reserved.iter().map(|flow| usize::from(flow.cells));
        assert_eq!(reserved.sum::<usize>(), cells, "{by:?}");
    }
}

#[test]
fn full_loads_are_full() {
    let shape = Shape {
        ports: 16,
        slots: 1_024,
    };
    let random = &mut Random::new(5);
    let calls = [
        full_load(shape, 102, random),
        full_load_of_flows(shape, 102, MOST_FLOWS, random),
    ];
    for (call, flows) in calls.iter().zip([256, MOST_FLOWS]) {
        assert_eq!(call.flows(), flows);
        let mut loads = [[0; 16]; 2];
        for flow in flows_of(&call.list) {
            loads[0][flow.input] += flow.cells;
            loads[1][flow.output] += flow.cells;
        }
        assert_eq!(loads, [[102; 16]; 2]);
    }
}

/// The number of lines that begin as flow lines do.
fn flow_lines(sheet: &[u8]) -> usize {
    let lines = sheet.split(|&byte| byte == b'\n');
    lines.filter(|line| line.starts_with(b"(pair ")).count()
}

#[test]
fn sheets_have_as_many_flow_lines_as_they_say() {
    let mut random = Random::new(15);
    for _ in 0..100 {
        let lines = [
            SheetKind::NoFlows,
            SheetKind::MostFlows,
            SheetKind::TooManyFlows,
        ];
        let lines = lines.map(|kind| flow_lines(&sheet(kind, &mut random)));
        assert_eq!(lines[..2], [0, MOST_FLOWS]);
        assert!(lines[2] > MOST_FLOWS);
    }
}

#[test]
fn same_seed_same_sheets() {
    for &kind in SheetKind::ALL {
        let first = sheet(kind, &mut Random::new(9));
        assert_eq!(first, sheet(kind, &mut Random::new(9)));
    }
}
