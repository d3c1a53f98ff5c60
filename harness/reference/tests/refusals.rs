//! The order of each call's refusals, with every later condition holding too.

mod ample;

use ample::build;
use reference::{
    service_count, slot_view, slots_each, turn, Class, Count, Depth, Inspection, Limits, Refusal,
    Side, LONGEST_RUN, MOST_FLOWS,
};

const HEADER: &str = include_str!("../../../include/frame_builder.h");

/// Flow 1 is on a link that no output has and flow 2 at an input that no switch has, with 9 cells each.
const OUTSIDE: [u16; 8] = [1, 1, 9, 0, 17, 1, 9, 1];

/// Flow 1 has 9 cells, flow 2 is on a link that no output has.
const LINK_OUTSIDE: [u16; 8] = [1, 1, 9, 1, 1, 1, 9, 5];

/// Both inputs and output 2 are above 8 slots.
const OVERLOADED: [u16; 12] = [1, 2, 9, 1, 2, 1, 9, 1, 2, 2, 9, 1];

/// One flow more than there may be, the last of them at input 0 and on link 0.
fn too_many() -> Vec<u16> {
    let mut list = [1, 1, 9, 1].repeat(MOST_FLOWS);
    list.extend([0, 1, 9, 0]);
    list
}

/// The same and a number more.
fn not_whole() -> Vec<u16> {
    let mut list = too_many();
    list.push(1);
    list
}

/// Admit with limits that no link of an output exceeds which is not overloaded itself.
fn admit(ports: u64, slots: u64, list: &[u16]) -> Result<(), Refusal> {
    reference::admit(ports, slots, list, &slots_each(slots))
}

/// Inspect on the input side.
fn inspect(ports: u64, slots: u64, list: &[u16], frame: &[u16]) -> Inspection {
    reference::inspect(Side::Input, ports, slots, list, frame)
}

/// Every condition before 24, with a limit of 0 for every link.
#[test]
fn admit_order() {
    let admit = |ports, slots, list: &[u16]| reference::admit(ports, slots, list, &[0; 64]);
    assert_eq!(admit(17, 3, &not_whole()), Err(Refusal::Ports));
    assert_eq!(admit(2, 3, &not_whole()), Err(Refusal::Slots));
    assert_eq!(admit(2, 8, &not_whole()), Err(Refusal::ListLength));
    assert_eq!(admit(2, 8, &too_many()), Err(Refusal::TooManyFlows));
    assert_eq!(admit(2, 8, &OUTSIDE), Err(Refusal::FlowPort));
    assert_eq!(admit(2, 8, &LINK_OUTSIDE), Err(Refusal::FlowLink));
    let input = Refusal::InputLoad { port: 1, cells: 9 };
    assert_eq!(admit(2, 8, &OVERLOADED), Err(input));
    let output = Refusal::OutputLoad { port: 2, cells: 9 };
    assert_eq!(admit(2, 8, &[1, 2, 8, 1, 2, 2, 1, 2]), Err(output));
    let link = Refusal::LinkLoad {
        output: 1,
        link: 1,
        cells: 8,
    };
    assert_eq!(admit(2, 8, &[1, 1, 8, 1, 2, 2, 8, 1]), Err(link));
    assert_eq!(admit(2, 8, &[]), Ok(()));
}

/// 3 is for one number too many, for two and for three, however many whole flows there are besides.
#[test]
fn lists_of_whole_flows() {
    let list = [1; 4 * 513 + 3];
    for length in 0..list.len() {
        let refusal = match length {
            _ if length % 4 > 0 => Some(Refusal::ListLength),
            _ if length / 4 > 512 => Some(Refusal::TooManyFlows),
            _ => None,
        };
        let load = (length / 4) as u64;
        let overload = Refusal::InputLoad {
            port: 1,
            cells: load,
        };
        let refusal = refusal.or((load > 256).then_some(overload));
        assert_eq!(admit(1, 256, &list[..length]).err(), refusal, "{length}");
    }
}

/// 22 is for either port of any flow, whatever its cells.
#[test]
fn ports_of_flows() {
    for place in [0, 1, 4, 5, 8, 9] {
        for port in [0, 3, 16, 17, 256, 257, 258, 65_535] {
            let mut list = [1, 2, 0, 1, 2, 1, 1, 1, 2, 2, 0, 1];
            assert_eq!(admit(2, 8, &list), Ok(()));
            list[place] = port;
            assert_eq!(admit(2, 8, &list), Err(Refusal::FlowPort));
        }
    }
}

/// 23 is for the link of any flow, whatever its cells; 22 comes first, wherever the flow with the port is.
#[test]
fn links_of_flows() {
    for place in [3, 7, 11] {
        for link in [1, 2, 3, 4] {
            let mut list = [1, 2, 0, 4, 2, 1, 1, 3, 2, 2, 0, 2];
            list[place] = link;
            assert_eq!(admit(2, 8, &list), Ok(()));
        }
        for link in [0, 5, 6, 255, 256, 257, 65_535] {
            let mut list = [1, 2, 0, 1, 2, 1, 1, 1, 2, 2, 0, 1];
            list[place] = link;
            assert_eq!(admit(2, 8, &list), Err(Refusal::FlowLink));
            for port in [0, 1, 4, 5, 8, 9] {
                let mut list = list;
                list[port] = 3;
                assert_eq!(admit(2, 8, &list), Err(Refusal::FlowPort));
            }
        }
    }
    assert_eq!(Refusal::FlowLink.numbers(), [23]);
}

/// Output 1 has 2 cells on link 2, of two flows, and 1 on link 4; output 2 has 3 on link 1 and 4 on link 3, of two flows.
const OVER_LINKS: [u16; 24] = [
    1, 1, 1, 2, //
    2, 1, 1, 2, //
    1, 1, 1, 4, //
    2, 2, 3, 1, //
    1, 2, 2, 3, //
    2, 2, 2, 3, //
];

/// Its load for a limit of each link.
fn exact() -> Limits {
    let mut limits = [0; 64];
    limits[..8].copy_from_slice(&[0, 2, 0, 1, 3, 0, 4, 0]);
    limits
}

/// 24 is for the lowest output with a link above its limit, and for its lowest such link, with that link's load.
#[test]
fn links_above_their_limits() {
    let admit = |limits: &Limits| reference::admit(2, 8, &OVER_LINKS, limits);
    assert_eq!(admit(&exact()), Ok(()), "every limit is reached");
    let over = |output, link, cells| {
        Err(Refusal::LinkLoad {
            output,
            link,
            cells,
        })
    };
    for (place, answer) in [
        (1, over(1, 2, 2)),
        (3, over(1, 4, 1)),
        (4, over(2, 1, 3)),
        (6, over(2, 3, 4)),
    ] {
        let mut limits = exact();
        limits[place] -= 1;
        assert_eq!(admit(&limits), answer, "short by one");
        limits[place] = 0;
        assert_eq!(admit(&limits), answer, "none at all");
        limits[place + 1..].fill(0);
        assert_eq!(admit(&limits), answer, "and all later links");
    }
    assert_eq!(over(2, 3, 4).unwrap_err().numbers(), [24, 2, 3, 4]);
}

/// The limits of outputs 3 to 16 are not looked at; one that is larger than the slots is a limit like any other.
#[test]
fn limits_above_ports() {
    for other in [0, 1, 8, 65_535] {
        let mut limits = exact();
        limits[8..].fill(other);
        assert_eq!(reference::admit(2, 8, &OVER_LINKS, &limits), Ok(()));
        limits[..8].fill(65_535);
        assert_eq!(reference::admit(2, 8, &OVER_LINKS, &limits), Ok(()));
        limits[6] = 3;
        let refusal = Refusal::LinkLoad {
            output: 2,
            link: 3,
            cells: 4,
        };
        assert_eq!(reference::admit(2, 8, &OVER_LINKS, &limits), Err(refusal));
    }
    let limits = [65_535; 64];
    let refusal = Refusal::OutputLoad { port: 1, cells: 9 };
    let answer = reference::admit(2, 8, &[1, 1, 8, 1, 2, 1, 1, 2], &limits);
    assert_eq!(answer, Err(refusal), "every link is below its limit");
}

/// The last link of the last output has the last limit.
#[test]
fn the_last_limit() {
    let mut limits = [0; 64];
    limits[63] = 1_024;
    let list = [16, 16, 1_024, 4];
    assert_eq!(reference::admit(16, 1_024, &list, &limits), Ok(()));
    limits[63] = 1_023;
    let refusal = Refusal::LinkLoad {
        output: 16,
        link: 4,
        cells: 1_024,
    };
    assert_eq!(reference::admit(16, 1_024, &list, &limits), Err(refusal));
}

#[test]
fn build_order() {
    let mut frame = [7; 15];
    let list = not_whole();
    assert_eq!(build(0, 0, &list, &mut frame), Err(Refusal::Ports));
    assert_eq!(build(2, 0, &list, &mut frame), Err(Refusal::Slots));
    assert_eq!(build(2, 8, &list, &mut frame), Err(Refusal::ListLength));
    let answer = build(2, 8, &too_many(), &mut frame);
    assert_eq!(answer, Err(Refusal::TooManyFlows));
    assert_eq!(build(2, 8, &OUTSIDE, &mut frame), Err(Refusal::FlowPort));
    let answer = build(2, 8, &LINK_OUTSIDE, &mut frame);
    assert_eq!(answer, Err(Refusal::FlowLink));
    let answer = build(2, 8, &OVERLOADED, &mut frame);
    assert_eq!(answer, Err(Refusal::FrameLength));
    assert_eq!(frame, [7; 15]);
}

/// After 4 the loads, of which 24 is the last.
#[test]
fn build_order_of_loads() {
    let mut limits = exact();
    limits[6] = 3;
    let build = |list: &[u16], frame: &mut [u16]| reference::build(2, 8, list, &limits, frame);
    let answer = build(&OVER_LINKS, &mut [7; 15]);
    assert_eq!(answer, Err(Refusal::FrameLength));
    let mut frame = [7; 16];
    let number = |answer: Result<u64, Refusal>| answer.map_err(Refusal::number);
    assert_eq!(number(build(&OVERLOADED, &mut frame)), Err(5));
    let answer = build(&[1, 2, 8, 3, 2, 2, 1, 3], &mut frame);
    assert_eq!(number(answer), Err(6));
    assert_eq!(number(build(&OVER_LINKS, &mut frame)), Err(24));
    assert_eq!(frame, [7; 16]);
    let built = reference::build(2, 8, &OVER_LINKS, &exact(), &mut frame);
    assert!(built.is_ok());
}

#[test]
fn inspect_order() {
    for side in Side::BOTH {
        let refused = |ports, slots, list: &[u16], frame: &[u16]| match reference::inspect(
            side, ports, slots, list, frame,
        ) {
            Inspection::Refused(refusal) => refusal.number(),
            _ => 0,
        };
        assert_eq!(refused(17, 5, &not_whole(), &[99]), 1);
        assert_eq!(refused(1, 5, &not_whole(), &[99]), 2);
        assert_eq!(refused(1, 2, &not_whole(), &[99]), 3);
        assert_eq!(refused(1, 2, &too_many(), &[99]), 21);
        assert_eq!(refused(1, 2, &OUTSIDE, &[99]), 22);
        assert_eq!(refused(1, 2, &LINK_OUTSIDE, &[99]), 23);
        assert_eq!(refused(1, 2, &[1, 1, 9, 1], &[99]), 4);
        assert_eq!(refused(1, 2, &[1, 1, 9, 1], &[99, 99]), 0);
    }
}

/// Every condition with 14 and 15 besides: the frame has an entry too few, and the second buffer has another length.
#[test]
fn turn_order() {
    for side in Side::BOTH {
        let mut second = [7; 2];
        let mut refused = |ports, slots, list: &[u16], frame: &[u16], length: usize| {
            let second = &mut second[..length];
            let answer = turn(side, ports, slots, list, frame, second);
            answer.map_err(Refusal::numbers).err()
        };
        assert_eq!(refused(17, 5, &not_whole(), &[99], 0), Some(vec![1]));
        assert_eq!(refused(1, 5, &not_whole(), &[99], 0), Some(vec![2]));
        assert_eq!(refused(1, 2, &not_whole(), &[99], 0), Some(vec![3]));
        assert_eq!(refused(1, 2, &too_many(), &[99], 0), Some(vec![21]));
        assert_eq!(refused(1, 2, &OUTSIDE, &[99], 0), Some(vec![22]));
        assert_eq!(refused(1, 2, &LINK_OUTSIDE, &[99], 0), Some(vec![23]));
        let list = [1, 1, 9, 1];
        assert_eq!(refused(1, 2, &list, &[99], 0), Some(vec![4]));
        assert_eq!(refused(1, 2, &list, &[99], 1), Some(vec![4]));
        assert_eq!(refused(1, 2, &list, &[99, 99], 1), Some(vec![15]));
        assert_eq!(refused(1, 2, &list, &[99, 99], 2), Some(vec![14]));
        assert_eq!(refused(1, 2, &list, &[0, 1], 2), None);
        assert_eq!(second, [0, 1]);
    }
}

/// One flow for each pair of two ports, with two cells each.
const EVERY_PAIR: [u16; 16] = [1, 1, 2, 1, 1, 2, 2, 1, 2, 1, 2, 1, 2, 2, 2, 1];

#[test]
fn inspect_fault_order() {
    let cases = [
        ([1, 4, 2, 3, 1, 4, 2, 3], Inspection::Clean),
        (
            [1, 3, 2, 9, 5, 4, 2, 3],
            Inspection::WrongEntry { slot: 2, port: 2 },
        ),
        (
            [1, 3, 2, 4, 3, 4, 2, 5],
            Inspection::WrongEntry { slot: 3, port: 1 },
        ),
        (
            [1, 0, 2, 4, 1, 3, 2, 3],
            Inspection::PortTwice { slot: 2, port: 2 },
        ),
        ([1, 4, 2, 3, 2, 3, 0, 0], Inspection::FlowCount { flow: 1 }),
        ([1, 4, 2, 3, 1, 0, 2, 3], Inspection::FlowCount { flow: 4 }),
        (
            [1, 4, 1, 4, 2, 3, 2, 3],
            Inspection::UnbalancedBlock { slot: 1, size: 4 },
        ),
    ];
    for (frame, inspection) in cases {
        assert_eq!(inspect(2, 4, &EVERY_PAIR, &frame), inspection);
    }
}

/// The flow of another input is wrong even where its output is right, and so is one above the list; 0 and its own are not.
#[test]
fn wrong_entries() {
    let list = [1, 1, 0, 1, 2, 1, 1, 1, 1, 1, 0, 1];
    for entry in 0..=u16::MAX {
        let fault = match entry {
            0 => Inspection::FlowCount { flow: 2 },
            1 | 3 => Inspection::FlowCount {
                flow: entry.min(2).into(),
            },
            _ => Inspection::WrongEntry { slot: 1, port: 1 },
        };
        assert_eq!(inspect(2, 1, &list, &[entry, 0]), fault, "{entry}");
    }
}

/// Two flows of one pair that have changed places: each has its cells, and so has every port in every block.
#[test]
fn flows_of_one_pair_are_told_apart() {
    let list = [1, 1, 2, 1, 1, 1, 2, 1];
    assert_eq!(inspect(1, 4, &list, &[1, 2, 1, 2]), Inspection::Clean);
    assert_eq!(inspect(1, 4, &list, &[2, 1, 1, 2]), Inspection::Clean);
    let fault = Inspection::UnbalancedBlock { slot: 1, size: 4 };
    assert_eq!(inspect(1, 4, &list, &[1, 1, 2, 2]), fault);
    let fault = Inspection::FlowCount { flow: 1 };
    assert_eq!(inspect(1, 4, &list, &[1, 2, 2, 2]), fault);
}

/// Flows 1 and 2 are on link 1 of one output and flow 3 on link 2: each of them, the input, the output and all cells stay balanced where
/// flows 1 and 2 are both in the first half, but link 1 has two cells there and none in the second.
#[test]
fn a_link_is_balanced_too() {
    let on_links = |links: [u16; 3]| links.map(|link| [1, 1, 1, link]).concat();
    let frames = [[1, 2, 3, 0], [1, 0, 2, 3], [1, 3, 2, 0]];
    let inspected = |links| frames.map(|frame| inspect(1, 4, &on_links(links), &frame));
    let fault = Inspection::UnbalancedBlock { slot: 1, size: 4 };
    let clean = Inspection::Clean;
    assert_eq!(inspected([1, 1, 2]), [fault, clean, clean]);
    assert_eq!(inspected([4, 3, 4]), [clean, clean, fault]);
    assert_eq!(inspected([1, 2, 3]), [clean; 3]);
    assert_eq!(inspected([1, 1, 1]), [clean; 3]);
}

#[test]
fn inspect_takes_the_largest_unbalanced_block_first() {
    let bunched = |runs: &[(usize, u16)]| {
        let run = |&(slots, entry): &(usize, u16)| vec![entry; slots];
        runs.iter().flat_map(run).collect::<Vec<u16>>()
    };
    let early_small = bunched(&[(2, 1), (2, 0), (3, 1), (9, 0)]);
    let whole = Inspection::UnbalancedBlock { slot: 1, size: 16 };
    assert_eq!(inspect(1, 16, &[1, 1, 5, 1], &early_small), whole);
    let late_small = bunched(&[(1, 1), (1, 0), (1, 1), (1, 0), (2, 1), (2, 0)]);
    let second_four = Inspection::UnbalancedBlock { slot: 5, size: 4 };
    assert_eq!(inspect(1, 8, &[1, 1, 4, 1], &late_small), second_four);
}

#[test]
fn view_order() {
    assert_eq!(slot_view(0, 5, &[0], 9), Err(Refusal::Ports));
    assert_eq!(slot_view(1, 5, &[0], 9), Err(Refusal::Slots));
    assert_eq!(slot_view(1, 4, &[0], 9), Err(Refusal::FrameLength));
    assert_eq!(slot_view(1, 4, &[0; 4], 5), Err(Refusal::SlotNumber));
    assert_eq!(slot_view(1, 4, &[0; 4], 0), Err(Refusal::SlotNumber));
    assert_eq!(slot_view(1, 4, &[0; 4], 4), Ok(3..4));
}

#[test]
fn count_order() {
    let frame = [1, 255, 0, 3];
    let port = |port| Class::Input { port };
    let long = LONGEST_RUN + 1;
    let count = |ports, slots, list: &[u16], length: usize, class, start, run| {
        let frame = &frame[..length];
        let counts = Side::BOTH
            .map(|side| service_count(side, ports, slots, list, frame, class, (start, run)));
        if counts[0].is_err() {
            assert_eq!(counts[0], counts[1], "the refusals are the same");
        }
        counts[0]
    };
    let refused = |ports, slots, list: &[u16], length, class, start| {
        count(ports, slots, list, length, class, start, long).unwrap_err()
    };
    assert_eq!(refused(0, 5, &not_whole(), 3, port(9), 9), Refusal::Ports);
    assert_eq!(refused(2, 5, &not_whole(), 3, port(9), 9), Refusal::Slots);
    assert_eq!(
        refused(2, 2, &not_whole(), 3, port(9), 9),
        Refusal::ListLength
    );
    assert_eq!(
        refused(2, 2, &too_many(), 3, port(9), 9),
        Refusal::TooManyFlows
    );
    assert_eq!(refused(2, 2, &OUTSIDE, 3, port(9), 9), Refusal::FlowPort);
    assert_eq!(
        refused(2, 2, &LINK_OUTSIDE, 3, port(9), 9),
        Refusal::FlowLink
    );
    assert_eq!(refused(2, 2, &[], 3, port(9), 9), Refusal::FrameLength);
    assert_eq!(refused(2, 2, &[], 4, port(9), 9), Refusal::SlotNumber);
    assert_eq!(refused(2, 2, &[], 4, port(9), 2), Refusal::FlowOrPort);
    assert_eq!(refused(2, 2, &[], 4, port(2), 2), Refusal::RunLength);
    let longest = Count {
        cells: LONGEST_RUN,
        lead: 0,
    };
    assert_eq!(count(2, 2, &[], 4, port(2), 2, LONGEST_RUN), Ok(longest));
    let behind = Count { cells: 2, lead: -1 };
    assert_eq!(count(2, 2, &[], 4, port(1), 2, 5), Ok(behind));
}

/// Every condition with 12 besides, and no limit is asked for.
#[test]
fn depth_order() {
    let port = |port| Class::Input { port };
    let depth = |ports, slots, list: &[u16], class| {
        let answer = reference::depth(ports, slots, list, class);
        answer.map_err(Refusal::numbers)
    };
    let refused = |ports, slots, list: &[u16]| depth(ports, slots, list, port(17)).unwrap_err();
    assert_eq!(refused(17, 3, &not_whole()), [1]);
    assert_eq!(refused(2, 3, &not_whole()), [2]);
    assert_eq!(refused(2, 8, &not_whole()), [3]);
    assert_eq!(refused(2, 8, &too_many()), [21]);
    assert_eq!(refused(2, 8, &OUTSIDE), [22]);
    assert_eq!(refused(2, 8, &LINK_OUTSIDE), [23]);
    assert_eq!(refused(2, 8, &OVERLOADED), [5, 1, 9]);
    assert_eq!(refused(2, 8, &[1, 2, 8, 1, 2, 2, 1, 2]), [6, 2, 9]);
    assert_eq!(refused(2, 8, &OVER_LINKS), [12]);
    let fourth = Class::Flow { number: 4 };
    let three_of_eight = Depth {
        parts: 18,
        cells: 3,
    };
    assert_eq!(depth(2, 8, &OVER_LINKS, fourth), Ok(three_of_eight));
}

/// 12 is for a flow that is not in the list, however few flows it has, and for a port outside the switch.
#[test]
fn flows_that_are_not_in_the_list() {
    let count =
        |list: &[u16], class| service_count(Side::Input, 2, 2, list, &[1, 2, 3, 4], class, (1, 2));
    for flows in 0..=4 {
        let list = [1, 2, 9, 1].repeat(flows);
        for number in [0, 1, 2, 3, 4, 5, 513, 65_536, 65_537, u64::MAX] {
            let cells = (1..=flows as u64).contains(&number).then_some(1);
            let answer = count(&list, Class::Flow { number });
            assert_eq!(answer.map(|count| count.cells).ok(), cells, "{number}");
            if cells.is_none() {
                assert_eq!(answer, Err(Refusal::FlowOrPort));
            }
        }
    }
    for port in [0, 3, u64::MAX] {
        for class in [Class::Input { port }, Class::Output { port }] {
            assert_eq!(count(&[], class), Err(Refusal::FlowOrPort));
        }
    }
}

/// Flow 1 goes from input 1 to output 2, flow 2 from input 2 to output 1. Entries of both stand at both inputs, and one that is no
/// flow counts for its input only.
#[test]
fn entries_count_wherever_they_stand() {
    let list = [1, 2, 3, 1, 2, 1, 0, 2];
    let frame = [2, 1, 1, 1, 9, 0, 0, 65_535];
    let cases = [
        (Class::Flow { number: 1 }, 3),
        (Class::Flow { number: 2 }, 1),
        (Class::Input { port: 1 }, 3),
        (Class::Input { port: 2 }, 3),
        (Class::Output { port: 1 }, 1),
        (Class::Output { port: 2 }, 3),
    ];
    for (class, cells) in cases {
        let count = service_count(Side::Input, 2, 4, &list, &frame, class, (1, 4));
        assert_eq!(count, Ok(Count { cells, lead: 0 }), "{class:?}");
    }
}

#[test]
fn loads_of_the_most_flows_are_summed_whole() {
    let list = [16, 1, 65_535, 1].repeat(MOST_FLOWS);
    let refusal = Refusal::InputLoad {
        port: 16,
        cells: 33_553_920,
    };
    assert_eq!(admit(16, 1_024, &list), Err(refusal));
    assert!(HEADER.contains("its load, slots + 1 to 33,553,920"));
}

#[test]
fn numbers_of_any_size_end_in_a_refusal() {
    let large = [0, 17, 1 << 16, 1 << 32, 1 << 63, u64::MAX];
    for number in large {
        assert_eq!(build(number, number, &[], &mut []), Err(Refusal::Ports));
        assert_eq!(build(1, number, &[], &mut []), Err(Refusal::Slots));
        assert_eq!(slot_view(1, 1, &[0], number), Err(Refusal::SlotNumber));
        let class = Class::Output { port: number };
        let side = Side::told(number);
        let count = service_count(side, 1, 1, &[], &[0], class, (1, u64::MAX));
        assert_eq!(count, Err(Refusal::FlowOrPort));
        let turned = turn(side, number, number, &[], &[], &mut []);
        assert_eq!(turned, Err(Refusal::Ports));
        assert_eq!(
            turn(side, 1, number, &[], &[], &mut []),
            Err(Refusal::Slots)
        );
    }
}
