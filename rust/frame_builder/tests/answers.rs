//! Answers come from the library as they are documented, and read as sentences that fit together with `?`.

use std::error::Error;

use frame_builder::{admit, build, depth, in_matrix_order, inspect};
use frame_builder::{service_count, slot_view, slots_each, turn};
use frame_builder::{Count, Depth, Fault, Flow, Inspection, Limits, Refusal, Side, Who};
use frame_builder::{MAX_LINKS, MAX_PORTS};

/// The flows of source document 000's Table 7.
const TABLE7: [Flow; 5] = [
    Flow::new(1, 1, 2),
    Flow::new(1, 2, 2),
    Flow::new(4, 1, 1),
    Flow::new(4, 2, 1),
    Flow::new(4, 4, 2),
];

/// One cell from each of two ports to its own number.
const OWN: [Flow; 2] = [Flow::new(1, 1, 1), Flow::new(2, 2, 1)];

/// Every refusal, by rising number, from a call that is refused so.
fn refusals() -> [Refusal; 14] {
    let refused = |refusal: Result<(), Refusal>| refusal.expect_err("the call is refused");
    let admitted = |ports, slots, list: &[Flow]| refused(admit(ports, slots, list, slots_each(4)));
    let counted = |who, length| {
        let count = service_count(Side::Input, 2, 2, &OWN, &[0; 4], who, 1, length);
        refused(count.map(|_| ()))
    };
    let turned = |frame: &[u16], length| {
        let mut second = vec![0; length];
        refused(turn(Side::Input, 2, 2, &OWN, frame, &mut second))
    };
    [
        admitted(17, 2, &[]),
        admitted(2, 3, &[]),
        refused(build(2, 2, &[], slots_each(4), &mut [0; 3]).map(|_| ())),
        admitted(2, 4, &[Flow::new(1, 1, 3), Flow::new(1, 2, 2)]),
        admitted(2, 4, &[Flow::new(1, 1, 3), Flow::new(2, 1, 2)]),
        refused(slot_view(2, 2, &[0; 4], 3).map(|_| ())),
        counted(Who::Output(3), 1),
        counted(Who::Input(1), 1_000_001),
        turned(&[2, 0, 0, 0], 4),
        turned(&[0; 4], 5),
        admitted(2, 2, &[Flow::new(1, 1, 0); 513]),
        admitted(2, 2, &[Flow::new(1, 3, 0)]),
        admitted(2, 2, &[Flow::new(1, 2, 0).on_link(5)]),
        admitted(2, 8, &[Flow::new(1, 2, 5).on_link(3)]),
    ]
}

const SENTENCES: [(usize, &str); 14] = [
    (1, "the number of ports is not 1 to 16"),
    (
        2,
        "the number of slots is not a power of two from 1 to 1,024",
    ),
    (4, "the frame's length is not slots × ports"),
    (
        5,
        "input 1 is asked for 5 cells, more than the frame has slots",
    ),
    (
        6,
        "output 1 is asked for 5 cells, more than the frame has slots",
    ),
    (11, "the slot or start is outside 1 to slots"),
    (
        12,
        "the flow is not in the list, or the port is outside 1 to ports",
    ),
    (13, "the run is longer than 1,000,000 slots"),
    (
        14,
        "an entry of the frame is wrong, or a port is used twice in a slot",
    ),
    (15, "the second buffer's length differs from the frame's"),
    (21, "there are more than 512 flows"),
    (22, "a flow's input or output is outside 1 to ports"),
    (23, "a flow's link is outside 1 to 4"),
    (
        24,
        "link 3 of output 2 is asked for 5 cells, more than its limit",
    ),
];

#[test]
fn refusals_read_as_sentences() {
    for (refusal, (number, sentence)) in refusals().into_iter().zip(SENTENCES) {
        assert_eq!(refusal.number(), number);
        assert_eq!(refusal.to_string(), sentence);
    }
}

#[test]
fn refusals_come_in_the_order_of_the_call() {
    // All that can be wrong with a build, and then one thing after the other put right.
    let wrong = [Flow::new(17, 1, 65_535).on_link(0); 513];
    let in_link = [Flow::new(1, 1, 65_535).on_link(5); 512];
    let in_input = [Flow::new(1, 1, 65_535).on_link(4); 512];
    let in_output = [Flow::new(1, 1, 1), Flow::new(2, 1, 1)];
    let past_limit = [Flow::new(1, 2, 1).on_link(2)];
    let input = Refusal::InputLoad {
        port: 1,
        cells: 33_553_920,
    };
    let output = Refusal::OutputLoad { port: 1, cells: 2 };
    let limit = Refusal::LinkLoad {
        output: 2,
        link: 2,
        cells: 1,
    };
    for (ports, slots, list, length, refusal) in [
        (0, 3, &wrong[..], 1, Refusal::Ports),
        (2, 3, &wrong, 1, Refusal::Slots),
        (2, 1, &wrong, 1, Refusal::TooManyFlows),
        (2, 1, &wrong[..512], 1, Refusal::FlowPort),
        (2, 1, &in_link, 1, Refusal::FlowLink),
        (2, 1, &in_input, 1, Refusal::FrameLength),
        (2, 1, &in_input, 2, input),
        (2, 1, &in_output, 2, output),
        (2, 1, &past_limit, 2, limit),
    ] {
        let mut frame = vec![7; length];
        let answer = build(ports, slots, list, [0; 64], &mut frame);
        assert_eq!(answer, Err(refusal));
        assert!(frame.iter().all(|&entry| entry == 7));
    }
}

#[test]
fn flows_that_are_not_in_the_list() {
    let count = |list: &[Flow], flow| {
        let count = service_count(Side::Input, 2, 1, list, &[1, 2], Who::Flow(flow), 1, 1);
        count.map(|count| count.cells)
    };
    assert_eq!(count(&OWN, 1), Ok(1));
    assert_eq!(count(&OWN, 2), Ok(1));
    for flow in [0, 3, usize::MAX] {
        assert_eq!(count(&OWN, flow), Err(Refusal::FlowOrPort));
    }
    assert_eq!(count(&[], 1), Err(Refusal::FlowOrPort));
}

#[test]
fn a_list_without_flows_has_an_idle_frame() {
    let mut frame = [7; 8];
    assert_eq!(admit(4, 2, &[], [0; 64]), Ok(()));
    assert_eq!(build(4, 2, &[], [0; 64], &mut frame), Ok(0));
    assert_eq!(frame, [0; 8]);
    assert_eq!(
        inspect(Side::Input, 4, 2, &[], &frame),
        Ok(Inspection::Clean)
    );
}

/// What is found in a frame of two ports with a list of one cell from each port to its own number.
fn found(slots: usize, frame: &[u16]) -> Inspection {
    inspect(Side::Input, 2, slots, &OWN, frame).expect("the sizes are right")
}

#[test]
fn faults_read_as_sentences() {
    let sentence = |slots, frame: &[u16]| found(slots, frame).to_string();
    assert_eq!(sentence(2, &[1, 0, 0, 2]), "the frame is clean");
    let wrong = "in slot 2 the entry of port 2 is no flow of that port";
    assert_eq!(sentence(2, &[1, 2, 0, 3]), wrong, "above the flows");
    assert_eq!(sentence(2, &[1, 2, 0, 1]), wrong, "of another input");
    let twice = [Flow::new(1, 1, 1), Flow::new(2, 1, 1)];
    let twice = inspect(Side::Input, 2, 2, &twice, &[0, 0, 1, 2]).expect("the sizes are right");
    assert_eq!(
        twice.to_string(),
        "in slot 2 port 1 of the other side is used twice"
    );
    assert_eq!(
        sentence(2, &[1, 0, 0, 0]),
        "flow 2 is in the wrong number of slots"
    );
    let bunched = inspect(Side::Input, 1, 4, &[Flow::new(1, 1, 2)], &[1, 1, 0, 0]);
    assert_eq!(
        bunched.expect("the sizes are right").to_string(),
        "the block of 4 slots from slot 1 on is unbalanced"
    );
    assert_eq!(
        sentence(2, &[1, 2, 0, 0]),
        "the block of 2 slots from slot 1 on is unbalanced"
    );
}

#[test]
fn flows_of_one_pair_are_told_apart() {
    // The pair has three cells in four slots whichever of its flows they are of, but each flow has its own.
    let list = [Flow::new(1, 1, 2), Flow::new(1, 1, 1)];
    let found = |frame: &[u16]| inspect(Side::Input, 1, 4, &list, frame);
    assert_eq!(found(&[1, 2, 1, 0]), Ok(Inspection::Clean));
    let swapped = Fault::FlowCount { flow: 1 };
    assert_eq!(found(&[2, 1, 2, 0]), Ok(Inspection::Faulty(swapped)));
    let bunched = Fault::UnbalancedBlock { slot: 1, size: 4 };
    assert_eq!(found(&[1, 1, 2, 0]), Ok(Inspection::Faulty(bunched)));
}

/// One cell from each of four ports to output 1, over these links.
fn to_one_output(links: [u16; 4]) -> [Flow; 4] {
    let [first, second, third, fourth] = links;
    [
        Flow::new(1, 1, 1).on_link(first),
        Flow::new(2, 1, 1).on_link(second),
        Flow::new(3, 1, 1).on_link(third),
        Flow::new(4, 1, 1).on_link(fourth),
    ]
}

#[test]
fn links_are_partnered_for_themselves() {
    // The flow of each slot: all on one link, two links with two flows each, and links that rise otherwise than the flows.
    for (links, slots) in [
        ([1, 1, 1, 1], [1, 3, 2, 4]),
        ([1, 2, 1, 2], [1, 2, 3, 4]),
        ([3, 2, 1, 4], [1, 2, 3, 4]),
    ] {
        let list = to_one_output(links);
        let mut frame = [0; 16];
        assert_eq!(build(4, 4, &list, slots_each(4), &mut frame), Ok(8));
        let flows = frame.iter().filter(|&&entry| entry > 0);
        assert!(flows.eq(&slots), "{links:?}: {frame:?}");
        assert_eq!(
            inspect(Side::Input, 4, 4, &list, &frame),
            Ok(Inspection::Clean)
        );
    }
}

#[test]
fn links_are_balanced() {
    // Flows 1 and 3 in the first half, flows 2 and 4 in the second.
    let frame = [1, 0, 0, 0, 0, 0, 3, 0, 0, 2, 0, 0, 0, 0, 0, 4];
    let found = |links| inspect(Side::Input, 4, 4, &to_one_output(links), &frame);
    assert_eq!(found([1, 1, 1, 1]), Ok(Inspection::Clean));
    assert_eq!(found([4, 4, 2, 2]), Ok(Inspection::Clean));
    let apart = Fault::UnbalancedBlock { slot: 1, size: 4 };
    assert_eq!(found([4, 2, 4, 2]), Ok(Inspection::Faulty(apart)));
    assert_eq!(found([1, 3, 2, 3]), Ok(Inspection::Faulty(apart)));
}

/// Limits with which the flows of a list come to their limit at each link, and no link without cells has any.
fn exact_limits(list: &[Flow]) -> Limits {
    let mut limits = [0; 64];
    for flow in list {
        limits[place_of(usize::from(flow.output), usize::from(flow.link))] += flow.cells;
    }
    limits
}

/// The place of a link's limit.
fn place_of(output: usize, link: usize) -> usize {
    (output - 1) * MAX_LINKS + link - 1
}

#[test]
fn limits_are_held() {
    // Output 2 has one cell on link 1 and two on link 3, output 3 two on link 2 and one on link 4.
    let list = [
        Flow::new(1, 2, 1),
        Flow::new(2, 2, 1).on_link(3),
        Flow::new(3, 2, 1).on_link(3),
        Flow::new(3, 3, 2).on_link(2),
        Flow::new(1, 3, 1).on_link(4),
    ];
    let exact = exact_limits(&list);
    let mut above = exact;
    above[place_of(4, 1)..].fill(9);
    for limits in [exact, above, slots_each(4)] {
        assert_eq!(admit(3, 4, &list, limits), Ok(()));
    }
    for (lowered, output, link, cells) in [
        (&[(2, 3)][..], 2, 3, 2),
        (&[(3, 4)], 3, 4, 1),
        (&[(3, 4), (3, 2)], 3, 2, 2),
        (&[(3, 2), (2, 3)], 2, 3, 2),
        (&[(3, 2), (2, 3), (2, 1)], 2, 1, 1),
    ] {
        let mut limits = exact;
        for &(output, link) in lowered {
            limits[place_of(output, link)] -= 1;
        }
        let refusal = Refusal::LinkLoad {
            output,
            link,
            cells,
        };
        assert_eq!(admit(3, 4, &list, limits), Err(refusal), "{lowered:?}");
    }
}

#[test]
fn refusals_and_faults_are_errors() {
    fn whole(frame: &[u16]) -> Result<(), Box<dyn Error + Send + Sync>> {
        inspect(Side::Input, 2, 2, &OWN, frame)?.clean()?;
        Ok(())
    }
    assert!(whole(&[1, 0, 0, 2]).is_ok());
    let error = whole(&[1, 0, 0]).expect_err("a short frame");
    assert_eq!(error.downcast_ref(), Some(&Refusal::FrameLength));
    let error = whole(&[1, 0, 0, 0]).expect_err("a cell is missing");
    let fault = Fault::FlowCount { flow: 2 };
    assert_eq!(error.downcast_ref(), Some(&fault));
}

#[test]
fn a_refused_build_leaves_every_entry() {
    let mut frame = [7; 4];
    let (input, output) = (Flow::new(1, 2, 3), Flow::new(2, 2, 2));
    for (ports, slots, list) in [
        (0, 2, &OWN[..]),
        (2, 0, &OWN),
        (2, 2, &[OWN[0]; 513]),
        (2, 2, &[Flow::new(0, 1, 0)]),
        (2, 2, &[Flow::new(1, 1, 0).on_link(0)]),
        (2, 4, &OWN),
        (2, 2, &[input]),
        (2, 2, &[output, Flow::new(1, 2, 1)]),
        (usize::MAX, usize::MAX, &[]),
    ] {
        assert!(build(ports, slots, list, slots_each(2), &mut frame).is_err());
        assert_eq!(frame, [7; 4]);
    }
    assert!(build(2, 2, &OWN, [0; 64], &mut frame).is_err());
    assert_eq!(frame, [7; 4]);
}

/// A list with the same number of cells for each pair.
fn even(ports: usize, cells: u16) -> Vec<Flow> {
    let matrix = vec![cells; ports * ports];
    in_matrix_order(ports, &matrix).expect("a matrix of so many ports")
}

#[test]
fn builds_say_how_many_odd_counts_they_settled() {
    for (ports, slots, list, settled) in [
        (1, 1, &[Flow::new(1, 1, 1)][..], 0),
        (1, 4, &[Flow::new(1, 1, 3)], 2),
        (2, 2, &even(2, 1), 4),
        // Flows 3 and 4 in the frame, and four flows in each half.
        (4, 4, &TABLE7, 10),
        (16, 16, &even(16, 1), 1_024),
        (16, 1_024, &even(16, 0), 0),
        (16, 1_024, &even(16, 64), 65_536),
        // A flow for each cell of the frame, which is as many as a list has.
        (16, 32, &even(16, 1).repeat(2), 16 * 32 * 5),
    ] {
        let mut frame = vec![0; ports * slots];
        let answer = build(ports, slots, list, slots_each(slots), &mut frame);
        assert_eq!(answer, Ok(settled), "{ports} x {slots}");
    }
}

#[test]
fn a_matrix_has_one_flow_for_each_pair() {
    let matrix = [2, 2, 0, 0, 0, 0, 0, 0, 0, 0, 0, 0, 1, 1, 0, 2];
    let list = in_matrix_order(4, &matrix).expect("a matrix of four ports");
    assert_eq!(list.len(), 16);
    let mut frames = [[0; 16]; 2];
    build(4, 4, &list, slots_each(4), &mut frames[0]).expect("the list fits");
    build(4, 4, &TABLE7, slots_each(4), &mut frames[1]).expect("the list fits");
    // The flows without cells change the numbers and nothing else.
    let [by_matrix, by_list] = frames;
    for (one, other) in by_matrix.into_iter().zip(by_list) {
        let of = |list: &[Flow], entry: u16| list.get(usize::from(entry).wrapping_sub(1)).copied();
        assert_eq!(of(&list, one), of(&TABLE7, other));
    }
    for (ports, length) in [(0, 0), (2, 3), (2, 5), (17, 289), (usize::MAX, 1)] {
        assert_eq!(in_matrix_order(ports, &vec![0; length]), None);
    }
}

#[test]
fn counts_have_a_lead() {
    // In a frame of four slots input 1 sends to output 1 in slots 1 and 3, and input 4 in slot 2.
    let mut frame = [0; 16];
    build(4, 4, &TABLE7, slots_each(4), &mut frame).expect("the list fits");
    for (who, start, length, cells, lead) in [
        (Who::Flow(3), 2, 1, 1, 3),
        (Who::Flow(3), 3, 3, 0, -3),
        (Who::Output(1), 1, 3, 3, 3),
        (Who::Output(1), 4, 1, 0, -3),
        (Who::Input(1), 2, 3, 3, 0),
        (Who::Input(2), 2, 3, 0, 0),
        (Who::Output(1), 4, 0, 0, 0),
        (Who::Output(1), 4, 1_000_000, 750_000, 0),
        (Who::Output(1), 4, 999_997, 749_997, -3),
    ] {
        let count = service_count(Side::Input, 4, 4, &TABLE7, &frame, who, start, length);
        assert_eq!(count, Ok(Count { cells, lead }), "{who}, {start}, {length}");
    }
}

#[test]
fn a_depth_goes_by_the_load() {
    let list = [
        Flow::new(1, 1, 512),
        Flow::new(2, 2, 100),
        Flow::new(2, 1, 241).on_link(4),
        Flow::new(3, 3, 0),
    ];
    for (who, parts, cells) in [
        (Who::Flow(1), 1_024, 2),
        (Who::Flow(2), 4_536, 5),
        // 341 cells, which stray furthest.
        (Who::Input(2), 7_054, 8),
        // 753 cells, as far as 271.
        (Who::Output(1), 5_226, 6),
        (Who::Flow(4), 0, 0),
        (Who::Output(4), 0, 0),
    ] {
        let deep = depth(4, 1_024, &list, who);
        assert_eq!(deep, Ok(Depth { parts, cells }), "{who}");
    }
    // In one slot there is nothing to stray, and a full load has a cell in every slot.
    let full = [Flow::new(1, 1, 1)];
    let deep = depth(1, 1, &full, Who::Flow(1));
    assert_eq!(deep, Ok(Depth { parts: 0, cells: 1 }));
}

#[test]
fn a_depth_is_refused_in_its_order() {
    let wrong = [Flow::new(17, 1, 65_535).on_link(0); 513];
    let in_link = [Flow::new(1, 1, 3).on_link(5)];
    let in_input = [Flow::new(1, 1, 3), Flow::new(2, 1, 3)];
    let in_output = [Flow::new(1, 1, 1), Flow::new(2, 1, 2)];
    for (ports, slots, list, refusal) in [
        (0, 3, &wrong[..], Refusal::Ports),
        (2, 3, &wrong, Refusal::Slots),
        (2, 2, &wrong, Refusal::TooManyFlows),
        (2, 2, &wrong[..512], Refusal::FlowPort),
        (2, 2, &in_link, Refusal::FlowLink),
        (2, 2, &in_input, Refusal::InputLoad { port: 1, cells: 3 }),
        (2, 2, &in_output, Refusal::OutputLoad { port: 1, cells: 3 }),
        (2, 4, &in_output, Refusal::FlowOrPort),
    ] {
        for who in [Who::Flow(0), Who::Flow(usize::MAX), Who::Input(17)] {
            assert_eq!(depth(ports, slots, list, who), Err(refusal), "{who}");
        }
    }
    assert_eq!(depth(2, 4, &[], Who::Flow(1)), Err(Refusal::FlowOrPort));
}

#[test]
fn entries_count_by_flow_and_not_by_place() {
    // Flow 1, of input 1, stands at input 2 as well, and 9 is no flow.
    let frame = [1, 1, 9, 0];
    let cells = |side, who| {
        let count = service_count(side, 2, 2, &OWN, &frame, who, 1, 2);
        count.map(|count| count.cells)
    };
    for side in [Side::Input, Side::Output] {
        assert_eq!(cells(side, Who::Flow(1)), Ok(2));
        assert_eq!(cells(side, Who::Flow(2)), Ok(0));
    }
    for (side, who, counted) in [
        (Side::Input, Who::Output(1), 2),
        (Side::Input, Who::Output(2), 0),
        (Side::Input, Who::Input(1), 2),
        (Side::Input, Who::Input(2), 1),
        (Side::Output, Who::Input(1), 2),
        (Side::Output, Who::Input(2), 0),
        (Side::Output, Who::Output(1), 2),
        (Side::Output, Who::Output(2), 1),
    ] {
        assert_eq!(cells(side, who), Ok(counted), "{who}, {side}");
    }
}

#[test]
fn the_farthest_leads_of_any_entries() {
    // All ports have the flow in the first half of the frame, and nothing in the second.
    let list = [Flow::new(16, 16, 0)];
    let frame = [[1; 8_192], [0; 8_192]].concat();
    for (side, near, far) in [
        (Side::Input, Who::Input(16), Who::Output(16)),
        (Side::Output, Who::Output(16), Who::Input(16)),
    ] {
        let count = |who, start| {
            let count = service_count(side, 16, 1_024, &list, &frame, who, start, 512);
            count.map(|count| count.lead)
        };
        for who in [Who::Flow(1), far] {
            assert_eq!(count(who, 1), Ok(4_194_304), "{who}, {side}");
            assert_eq!(count(who, 513), Ok(-4_194_304), "{who}, {side}");
        }
        assert_eq!(count(near, 1), Ok(262_144), "{near}, {side}");
        assert_eq!(count(near, 513), Ok(-262_144), "{near}, {side}");
    }
}

/// The frame of Table 7 by its inputs and by its outputs.
const BY_INPUT: [u16; 16] = [1, 0, 0, 5, 2, 0, 0, 3, 1, 0, 0, 4, 2, 0, 0, 5];
const BY_OUTPUT: [u16; 16] = [1, 0, 0, 5, 3, 2, 0, 0, 1, 4, 0, 0, 0, 2, 0, 5];

#[test]
fn a_frame_is_turned_to_either_side() {
    for (side, frame, turned) in [
        (Side::Input, BY_INPUT, BY_OUTPUT),
        (Side::Output, BY_OUTPUT, BY_INPUT),
    ] {
        let mut second = [9; 16];
        assert_eq!(turn(side, 4, 4, &TABLE7, &frame, &mut second), Ok(()));
        assert_eq!(second, turned, "{side}");
        // A frame of the other side has wrong entries.
        let mut second = [9; 16];
        let answer = turn(side.other(), 4, 4, &TABLE7, &frame, &mut second);
        assert_eq!(answer, Err(Refusal::Entries), "{side}");
        assert_eq!(second, [9; 16], "{side}");
    }
}

#[test]
fn turns_are_refused_in_their_order() {
    // All that can be wrong with a turn, and then one thing after the other put right.
    let wrong = [Flow::new(17, 1, 0).on_link(0); 513];
    let in_link = [Flow::new(1, 1, 0).on_link(5)];
    for (ports, slots, list, length, second_length, refusal) in [
        (0, 3, &wrong[..], 7, 5, Refusal::Ports),
        (2, 3, &wrong, 7, 5, Refusal::Slots),
        (2, 4, &wrong, 7, 5, Refusal::TooManyFlows),
        (2, 4, &wrong[..512], 7, 5, Refusal::FlowPort),
        (2, 4, &in_link, 7, 5, Refusal::FlowLink),
        (2, 4, &OWN, 7, 5, Refusal::FrameLength),
        (2, 4, &OWN, 7, 7, Refusal::FrameLength),
        (2, 4, &OWN, 8, 5, Refusal::SecondLength),
        (2, 4, &OWN, 8, 9, Refusal::SecondLength),
        (2, 4, &OWN, 8, 0, Refusal::SecondLength),
        (2, 4, &OWN, 8, 8, Refusal::Entries),
    ] {
        for side in [Side::Input, Side::Output] {
            let (frame, mut second) = (vec![9; length], vec![7; second_length]);
            let answer = turn(side, ports, slots, list, &frame, &mut second);
            assert_eq!(answer, Err(refusal), "{side}");
            assert!(second.iter().all(|&entry| entry == 7));
        }
    }
}

/// What Inspect finds in a frame that Turn refuses, and in one that it turns.
#[test]
fn inspect_says_what_cannot_be_turned() {
    // Two flows from input 1, and two to output 2.
    let list = [Flow::new(1, 1, 1), Flow::new(1, 2, 1), Flow::new(2, 2, 1)];
    let wrong = |slot, port| Some(Fault::WrongEntry { slot, port });
    let twice = |slot, port| Some(Fault::PortTwice { slot, port });
    for (side, frame, fault) in [
        (Side::Input, [1, 4, 2, 3], wrong(1, 2)),
        (Side::Input, [1, 3, 2, 2], wrong(2, 2)),
        (Side::Input, [1, 3, 2, 3], twice(2, 2)),
        (Side::Input, [1, 3, 2, 0], None),
        (Side::Output, [1, 3, 4, 2], wrong(2, 1)),
        (Side::Output, [1, 3, 3, 2], wrong(2, 1)),
        (Side::Output, [1, 3, 1, 2], twice(2, 1)),
        (Side::Output, [1, 3, 0, 2], None),
    ] {
        let mut second = [9; 4];
        let found = inspect(side, 2, 2, &list, &frame);
        let answer = turn(side, 2, 2, &list, &frame, &mut second);
        match fault {
            None => assert_eq!((found, answer), (Ok(Inspection::Clean), Ok(()))),
            Some(fault) => {
                assert_eq!(found, Ok(Inspection::Faulty(fault)), "{side}");
                assert_eq!((answer, second), (Err(Refusal::Entries), [9; 4]), "{side}");
            }
        }
    }
}

/// Frames that turn, clean ones and others: the sides answer the same.
#[test]
fn the_sides_agree() {
    let miscounted = [1, 0, 0, 5, 2, 0, 0, 3, 1, 0, 0, 4, 2, 0, 0, 0];
    let bunched = [1, 0, 0, 5, 1, 0, 0, 4, 2, 0, 0, 3, 2, 0, 0, 5];
    for (frame, number) in [(BY_INPUT, 0), (miscounted, 103), (bunched, 104)] {
        let mut turned = [9; 16];
        turn(Side::Input, 4, 4, &TABLE7, &frame, &mut turned).expect("the entries are right");
        let found = inspect(Side::Input, 4, 4, &TABLE7, &frame);
        assert_eq!(found.expect("the sizes are right").number(), number);
        assert_eq!(inspect(Side::Output, 4, 4, &TABLE7, &turned), found);
        let flows = (0..=6).map(Who::Flow);
        let ports = (0..=5).flat_map(|port| [Who::Input(port), Who::Output(port)]);
        for who in flows.chain(ports) {
            for (start, length) in (1..=4).flat_map(|start| (0..10).map(move |n| (start, n))) {
                let count = |side, frame: &[u16]| {
                    service_count(side, 4, 4, &TABLE7, frame, who, start, length)
                };
                assert_eq!(count(Side::Output, &turned), count(Side::Input, &frame));
            }
        }
        let mut back = [9; 16];
        turn(Side::Output, 4, 4, &TABLE7, &turned, &mut back).expect("a turned frame turns");
        assert_eq!(back, frame);
    }
}

#[test]
fn built_frames_of_every_size_are_clean_on_both_sides() {
    for ports in 1..=MAX_PORTS {
        for slots in (0..=10).map(|k| 1 << k) {
            // A full load where the slots divide by the ports, and one with room otherwise.
            let list = even(ports, (slots / ports) as u16);
            let mut frames = [(); 3].map(|()| vec![9; ports * slots]);
            let [frame, turned, back] = &mut frames;
            build(ports, slots, &list, slots_each(slots), frame).expect("the list fits");
            assert_eq!(
                turn(Side::Input, ports, slots, &list, frame, turned),
                Ok(())
            );
            let found = inspect(Side::Output, ports, slots, &list, turned);
            assert_eq!(found, Ok(Inspection::Clean), "{ports} x {slots}");
            assert_eq!(
                turn(Side::Output, ports, slots, &list, turned, back),
                Ok(())
            );
            assert!(frame == back, "{ports} x {slots}");
        }
    }
}
