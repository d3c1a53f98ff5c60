//! The crate and the C header of the library that it is linked with name the same numbers.

use frame_builder::{Fault, Flow, Inspection, Limits, Refusal, Side};

const HEADER: &str = include_str!(env!("FRAME_BUILDER_HEADER"));

/// What the header defines for a name.
fn text(name: &str) -> Option<&'static str> {
    let mut lines = HEADER.lines().map(str::split_whitespace);
    lines.find_map(|mut words| {
        let named = words.next() == Some("#define")
            && words.next()?.strip_prefix("FRAME_BUILDER_") == Some(name);
        words.next().filter(|_| named)
    })
}

fn number(name: &str) -> Option<usize> {
    text(name)?.parse().ok()
}

#[test]
fn version() {
    let quoted = format!("\"{}\"", frame_builder::VERSION);
    assert_eq!(text("VERSION"), Some(quoted.as_str()));
}

#[test]
fn sizes() {
    assert_eq!(number("MAX_PORTS"), Some(frame_builder::MAX_PORTS));
    assert_eq!(number("MAX_LINKS"), Some(frame_builder::MAX_LINKS));
    assert_eq!(number("MAX_SLOTS"), Some(frame_builder::MAX_SLOTS));
    assert_eq!(number("MAX_FLOWS"), Some(frame_builder::MAX_FLOWS));
    assert_eq!(
        number("MAX_FLOW_CELLS"),
        Some(frame_builder::MAX_FLOW_CELLS)
    );
    assert_eq!(
        number("MAX_FRAME_ENTRIES"),
        Some(frame_builder::MAX_FRAME_ENTRIES)
    );
    assert_eq!(number("MAX_RUN_SLOTS"), Some(frame_builder::MAX_RUN_SLOTS));
}

/// A flow is so many numbers of a list, and nothing else.
#[test]
fn numbers_of_a_flow() {
    let numbers = size_of::<Flow>() / size_of::<u16>();
    assert_eq!(number("FLOW_NUMBERS"), Some(numbers));
    assert_eq!(align_of::<Flow>(), align_of::<u16>());
}

/// The limits go over as a pointer without a length.
#[test]
fn number_of_limits() {
    let limits = size_of::<Limits>() / size_of::<u16>();
    assert_eq!(number("LIMITS"), Some(limits));
}

#[test]
fn sides() {
    assert_eq!(number("INPUT_SIDE"), Some(Side::Input.number()));
    assert_eq!(number("OUTPUT_SIDE"), Some(Side::Output.number()));
}

#[test]
fn refusals() {
    let (port, output, link, cells) = (1, 2, 3, 4);
    let refusals = [
        ("PORTS", Refusal::Ports),
        ("SLOTS", Refusal::Slots),
        ("FRAME_LENGTH", Refusal::FrameLength),
        ("INPUT_LOAD", Refusal::InputLoad { port, cells }),
        ("OUTPUT_LOAD", Refusal::OutputLoad { port, cells }),
        ("SLOT_NUMBER", Refusal::SlotNumber),
        ("FLOW_OR_PORT", Refusal::FlowOrPort),
        ("RUN_LENGTH", Refusal::RunLength),
        ("ENTRIES", Refusal::Entries),
        ("SECOND_LENGTH", Refusal::SecondLength),
        ("TOO_MANY_FLOWS", Refusal::TooManyFlows),
        ("FLOW_PORT", Refusal::FlowPort),
        ("FLOW_LINK", Refusal::FlowLink),
        (
            "LINK_LOAD",
            Refusal::LinkLoad {
                output,
                link,
                cells,
            },
        ),
    ];
    for (name, refusal) in refusals {
        let defined = number(&format!("REFUSED_{name}"));
        assert_eq!(defined, Some(refusal.number()), "{name}");
    }
}

/// The sheet program's, and that of a list that is not of whole flows, which no slice of flows is.
#[test]
fn refusals_that_the_crate_does_not_have() {
    assert_eq!(number("REFUSED_LIST_LENGTH"), Some(3));
    assert_eq!(number("REFUSED_LINE_FORM"), Some(7));
    assert_eq!(number("REFUSED_LINE_PORT"), Some(8));
    assert_eq!(number("REFUSED_SHEET_LENGTH"), Some(10));
    let names = HEADER.matches("#define FRAME_BUILDER_REFUSED_").count();
    assert_eq!(names, 4 + 14);
}

#[test]
fn faults() {
    let (slot, size, port, flow) = (1, 2, 3, 4);
    let faults = [
        ("WRONG_ENTRY", Fault::WrongEntry { slot, port }),
        ("PORT_TWICE", Fault::PortTwice { slot, port }),
        ("FLOW_COUNT", Fault::FlowCount { flow }),
        ("UNBALANCED_BLOCK", Fault::UnbalancedBlock { slot, size }),
    ];
    for (name, fault) in faults {
        let defined = number(&format!("FAULT_{name}"));
        assert_eq!(defined, Some(fault.number()), "{name}");
        assert_eq!(Inspection::Faulty(fault).number(), fault.number());
    }
    assert_eq!(number("CLEAN"), Some(Inspection::Clean.number()));
}
