//! Frames by their outputs, worked by hand: Turn, and Inspect and Service count told the side.

use reference::{inspect, service_count, turn, Class, Count, Inspection, Refusal, Side};

/// The flows of document 01's sheet.
const TABLE_7: [u16; 20] = [1, 1, 2, 1, 1, 2, 2, 1, 4, 1, 1, 1, 4, 2, 1, 1, 4, 4, 2, 1];

/// Their frame, by inputs.
const BY_INPUTS: [u16; 16] = [
    1, 0, 0, 5, //
    2, 0, 0, 3, //
    1, 0, 0, 4, //
    2, 0, 0, 5, //
];

/// The same by outputs: flows 1 and 3 go to output 1, flows 2 and 4 to output 2, flow 5 to output 4.
const BY_OUTPUTS: [u16; 16] = [
    1, 0, 0, 5, //
    3, 2, 0, 0, //
    1, 4, 0, 0, //
    0, 2, 0, 5, //
];

/// Turn into a buffer whose entries are no flows.
fn turned(
    side: Side,
    ports: u64,
    slots: u64,
    list: &[u16],
    frame: &[u16],
) -> Result<Vec<u16>, Refusal> {
    let mut second = vec![0xa5a5; frame.len()];
    let answer = turn(side, ports, slots, list, frame, &mut second);
    if answer.is_err() {
        assert!(second.iter().all(|&entry| entry == 0xa5a5), "written");
    }
    answer.map(|()| second)
}

#[test]
fn sides_by_their_numbers() {
    assert_eq!(Side::told(0), Side::Input);
    for number in [1, 2, 17, 1 << 32, u64::MAX] {
        assert_eq!(Side::told(number), Side::Output, "{number}");
    }
    for side in Side::BOTH {
        assert_eq!(Side::told(side.number()), side);
        assert_ne!(side.other(), side);
        assert_eq!(side.other().other(), side);
    }
}

#[test]
fn the_sheet_turned() {
    let there = turned(Side::Input, 4, 4, &TABLE_7, &BY_INPUTS);
    assert_eq!(there, Ok(BY_OUTPUTS.to_vec()));
    let back = turned(Side::Output, 4, 4, &TABLE_7, &BY_OUTPUTS);
    assert_eq!(back, Ok(BY_INPUTS.to_vec()));
}

/// Flows 1 and 2 go from input 1 to output 2, flow 3 from input 2 to output 1: they change places, and an idle slot stays idle.
#[test]
fn several_flows_of_a_pair() {
    let list = [1, 2, 1, 1, 1, 2, 1, 3, 2, 1, 2, 1];
    let by_inputs = [1, 3, 2, 0, 0, 0, 0, 3];
    let by_outputs = [3, 1, 0, 2, 0, 0, 3, 0];
    let there = turned(Side::Input, 2, 4, &list, &by_inputs);
    assert_eq!(there, Ok(by_outputs.to_vec()));
    let back = turned(Side::Output, 2, 4, &list, &by_outputs);
    assert_eq!(back, Ok(by_inputs.to_vec()));
}

/// Turn asks neither for the right number of cells nor for balance, and a list may be overloaded.
#[test]
fn faulty_frames_that_turn() {
    let list = [1, 2, 9, 1, 2, 1, 65_535, 4];
    let there = turned(Side::Input, 2, 2, &list, &[1, 2, 1, 0]);
    assert_eq!(there, Ok(vec![2, 1, 0, 1]));
    assert_eq!(
        turned(Side::Input, 1, 2, &[], &[0, 0]),
        Ok(vec![0, 0]),
        "no flow"
    );
}

/// Flow 1 goes from input 1 to output 2, flow 2 from input 2 to output 2, flow 3 from input 2 to output 1. A wrong entry, then a port
/// of the other side that is used twice, in either slot.
#[test]
fn frames_that_do_not_turn() {
    let list = [1, 2, 1, 1, 2, 2, 1, 1, 2, 1, 1, 1];
    let refused = Err(Refusal::Entries);
    for frame in [
        [4, 0, 0, 0],
        [65_535, 0, 0, 0],
        [0, 1, 0, 0],
        [2, 0, 0, 0],
        [1, 3, 0, 4],
        [1, 2, 0, 0],
        [1, 3, 1, 2],
    ] {
        assert_eq!(turned(Side::Input, 2, 2, &list, &frame), refused);
    }
    for frame in [
        [4, 0, 0, 0],
        [1, 0, 0, 0],
        [2, 0, 0, 0],
        [0, 3, 0, 0],
        [3, 1, 0, 4],
        [3, 2, 0, 0],
        [3, 1, 3, 2],
    ] {
        assert_eq!(turned(Side::Output, 2, 2, &list, &frame), refused);
    }
    let there = turned(Side::Input, 2, 2, &list, &[1, 3, 0, 2]);
    assert_eq!(there, Ok(vec![3, 1, 0, 2]));
}

#[test]
fn second_buffers_of_another_length() {
    for length in [0, 1, 15, 17, 32] {
        let mut second = vec![7; length];
        let answer = turn(Side::Input, 4, 4, &TABLE_7, &BY_INPUTS, &mut second);
        assert_eq!(answer, Err(Refusal::SecondLength), "{length}");
        assert!(second.iter().all(|&entry| entry == 7));
    }
    assert_eq!(Refusal::SecondLength.numbers(), [15]);
    assert_eq!(Refusal::Entries.numbers(), [14]);
}

/// All frames of two ports and two slots whose entries are 0 to 5, the last of them no flow: one that turns is turned back, and its
/// inspections and counts are those of the turned one; one that does not turn has a wrong entry or a port twice, and no other has.
#[test]
fn every_small_frame() {
    let list = [1, 2, 1, 1, 2, 1, 1, 2, 1, 1, 1, 1, 2, 1, 0, 4];
    let mut number_turned = 0;
    for side in Side::BOTH {
        for code in 0..6_u16.pow(4) {
            let frame = [0, 1, 2, 3].map(|place| code / 6_u16.pow(place) % 6);
            let found = inspect(side, 2, 2, &list, &frame);
            let is_illegal = matches!(
                found,
                Inspection::WrongEntry { .. } | Inspection::PortTwice { .. }
            );
            let second = turned(side, 2, 2, &list, &frame);
            assert_eq!(second.is_err(), is_illegal, "{frame:?}");
            if let Ok(second) = second {
                number_turned += 1;
                expect_agreement(side, &list, &frame, &second);
            }
        }
    }
    assert_eq!(number_turned, 2 * SMALL_FRAMES);
}

/// A slot may be idle, have one of the four flows, or two that share no port, which are flows 1 and 2 or 1 and 4.
const SMALL_FRAMES: u64 = (1 + 4 + 2) * (1 + 4 + 2);

/// The two sides of one frame say the same.
fn expect_agreement(side: Side, list: &[u16], frame: &[u16], second: &[u16]) {
    let other = side.other();
    let back = turned(other, 2, 2, list, second);
    assert_eq!(back.as_deref(), Ok(frame));
    let found = inspect(side, 2, 2, list, frame);
    assert_eq!(inspect(other, 2, 2, list, second), found, "{frame:?}");
    let flows = (1..=4).map(|number| Class::Flow { number });
    let inputs = (1..=2).map(|port| Class::Input { port });
    let outputs = (1..=2).map(|port| Class::Output { port });
    for class in flows.chain(inputs).chain(outputs) {
        for run in [(1, 1), (2, 1), (1, 2), (2, 5)] {
            let count = service_count(side, 2, 2, list, frame, class, run);
            let of_other = service_count(other, 2, 2, list, second, class, run);
            assert_eq!(of_other, count, "{frame:?} {class:?} {run:?}");
        }
    }
}

/// Each fault of a frame by outputs, in the order in which they are looked for.
#[test]
fn faults_by_outputs() {
    let found = |frame: [u16; 16]| inspect(Side::Output, 4, 4, &TABLE_7, &frame);
    assert_eq!(found(BY_OUTPUTS), Inspection::Clean);
    let with = |changes: &[(usize, u16)]| {
        let mut frame = BY_OUTPUTS;
        for &(place, entry) in changes {
            frame[place] = entry;
        }
        found(frame)
    };
    let wrong = |slot, port| Inspection::WrongEntry { slot, port };
    assert_eq!(with(&[(2, 6)]), wrong(1, 3), "no flow");
    assert_eq!(with(&[(0, 2)]), wrong(1, 1), "flow 2 is to output 2");
    assert_eq!(with(&[(7, 3), (4, 5)]), wrong(2, 1), "the lower output");
    assert_eq!(with(&[(0, 3), (15, 1)]), wrong(4, 4), "before any input");
    let twice = |slot, port| Inspection::PortTwice { slot, port };
    assert_eq!(with(&[(0, 3)]), twice(1, 4), "flows 3 and 5 of input 4");
    assert_eq!(with(&[(4, 1), (12, 3)]), twice(2, 1), "the lower slot");
    assert_eq!(with(&[(5, 4), (7, 5)]), twice(2, 4), "three times");
    let count = |flow| Inspection::FlowCount { flow };
    assert_eq!(with(&[(0, 0)]), count(1));
    assert_eq!(with(&[(15, 0), (9, 0)]), count(4));
}

/// Of two inputs that are used twice in one slot the lower is named, wherever their entries stand.
#[test]
fn the_lower_input_twice() {
    let list = [2, 1, 1, 1, 2, 2, 1, 1, 1, 3, 1, 1, 1, 4, 1, 1];
    let found = inspect(Side::Output, 4, 1, &list, &[1, 2, 3, 4]);
    assert_eq!(found, Inspection::PortTwice { slot: 1, port: 1 });
}

/// The slots of the sheet by outputs, sorted so that its flows bunch.
#[test]
fn unbalanced_by_outputs() {
    let slots: Vec<&[u16]> = BY_OUTPUTS.chunks(4).collect();
    let bunched = [slots[0], slots[3], slots[1], slots[2]].concat();
    let found = inspect(Side::Output, 4, 4, &TABLE_7, &bunched);
    assert_eq!(found, Inspection::UnbalancedBlock { slot: 1, size: 4 });
}

/// By outputs, an output's cells are what stands at its place, and an input's are the entries that are flows of it: flow 1 goes from
/// input 1 to output 2, flow 2 from input 2 to output 1. An entry that is no flow counts for the port of the frame's side only.
#[test]
fn entries_count_wherever_they_stand() {
    let list = [1, 2, 3, 1, 2, 1, 0, 2];
    let frame = [2, 1, 1, 1, 9, 0, 0, 65_535];
    let cases = [
        (Class::Flow { number: 1 }, [3, 3]),
        (Class::Flow { number: 2 }, [1, 1]),
        (Class::Input { port: 1 }, [3, 3]),
        (Class::Input { port: 2 }, [3, 1]),
        (Class::Output { port: 1 }, [1, 3]),
        (Class::Output { port: 2 }, [3, 3]),
    ];
    for (class, cells) in cases {
        let counts = Side::BOTH.map(|side| service_count(side, 2, 4, &list, &frame, class, (1, 4)));
        let rights = cells.map(|cells| Ok(Count { cells, lead: 0 }));
        assert_eq!(counts, rights, "{class:?}");
    }
}

/// A part of the same frame, so that leads are not 0: slots 2 and 3.
#[test]
fn leads_by_outputs() {
    let list = [1, 2, 3, 1, 2, 1, 0, 2];
    let frame = [2, 1, 1, 1, 9, 0, 0, 65_535];
    let counted = |class| {
        let count = service_count(Side::Output, 2, 4, &list, &frame, class, (2, 2));
        let count = count.expect("a run of the frame");
        (count.cells, count.lead)
    };
    assert_eq!(counted(Class::Flow { number: 1 }), (2, 2));
    assert_eq!(counted(Class::Input { port: 1 }), (2, 2));
    assert_eq!(counted(Class::Input { port: 2 }), (0, -2));
    assert_eq!(counted(Class::Output { port: 1 }), (2, 2));
    assert_eq!(counted(Class::Output { port: 2 }), (1, -2));
}
