//! The proved calls, through crate `frame_builder`, and the program of crate `frame`.

use frame_builder::{Fault, Flow, Side, Who};

use crate::{
    program, Answer, Bounded, Built, Calls, Class, Count, Depth, InC, Inspection, Limits, Question,
    Refusal, Service, SheetProgram, INPUT_SIDE,
};

/// The numbers of a flow in a list.
const FLOW_NUMBERS: usize = 4;

/// Flows kept on either side of a list that is lent.
const MARGIN: usize = 8;

/// What the margins have, which no list has at its ends.
const MARK: Flow = Flow::new(0xa5a5, 0x5a5a, 0xa5a5).on_link(0x5a5a);

/// The proved frame builder. A list that is not of whole flows is no slice of flows, so that a call with one goes through C.
#[derive(Debug, Default)]
pub struct Library {
    in_c: InC,
}

/// The flows of a list, lent between margins that show writes beside them.
struct Lent {
    whole: Vec<Flow>,
}

impl Lent {
    /// Nothing where the list is not of whole flows.
    fn of(list: &[u16]) -> Option<Lent> {
        let numbers = list.chunks_exact(FLOW_NUMBERS);
        if !numbers.remainder().is_empty() {
            return None;
        }
        let flows = numbers.map(|flow| Flow::new(flow[0], flow[1], flow[2]).on_link(flow[3]));
        let margin = || std::iter::repeat_n(MARK, MARGIN);
        let whole = margin().chain(flows).chain(margin()).collect();
        Some(Lent { whole })
    }

    fn flows(&self) -> &[Flow] {
        &self.whole[MARGIN..self.whole.len() - MARGIN]
    }

    /// Fails where somebody has written to the list or beside it.
    fn give_back(self, list: &[u16]) {
        let unwritten = Lent::of(list).is_some_and(|lent| lent.whole == self.whole);
        assert!(unwritten, "wrote to the list");
    }
}

fn refusal_of(refusal: frame_builder::Refusal) -> Refusal {
    match refusal {
        frame_builder::Refusal::Ports => Refusal::Ports,
        frame_builder::Refusal::Slots => Refusal::Slots,
        frame_builder::Refusal::FrameLength => Refusal::FrameLength,
        frame_builder::Refusal::InputLoad { port, cells } => Refusal::InputLoad {
            port: port as u64,
            cells: cells as u64,
        },
        frame_builder::Refusal::OutputLoad { port, cells } => Refusal::OutputLoad {
            port: port as u64,
            cells: cells as u64,
        },
        frame_builder::Refusal::SlotNumber => Refusal::SlotNumber,
        frame_builder::Refusal::FlowOrPort => Refusal::FlowOrPort,
        frame_builder::Refusal::RunLength => Refusal::RunLength,
        frame_builder::Refusal::Entries => Refusal::Entries,
        frame_builder::Refusal::SecondLength => Refusal::SecondLength,
        frame_builder::Refusal::TooManyFlows => Refusal::TooManyFlows,
        frame_builder::Refusal::FlowPort => Refusal::FlowPort,
        frame_builder::Refusal::FlowLink => Refusal::FlowLink,
        frame_builder::Refusal::LinkLoad {
            output,
            link,
            cells,
        } => Refusal::LinkLoad {
            output: output as u64,
            link: link as u64,
            cells: cells as u64,
        },
    }
}

fn inspection_of(fault: Fault) -> Inspection {
    match fault {
        Fault::WrongEntry { slot, port } => Inspection::WrongEntry {
            slot: slot as u64,
            port: port as u64,
        },
        Fault::PortTwice { slot, port } => Inspection::PortTwice {
            slot: slot as u64,
            port: port as u64,
        },
        Fault::FlowCount { flow } => Inspection::FlowCount { flow: flow as u64 },
        Fault::UnbalancedBlock { slot, size } => Inspection::UnbalancedBlock {
            slot: slot as u64,
            size: size as u64,
        },
    }
}

/// The side that a number tells.
fn side_of(number: u64) -> Side {
    match number {
        INPUT_SIDE => Side::Input,
        _ => Side::Output,
    }
}

fn who_of(class: Class) -> Who {
    match class {
        Class::Flow { number } => Who::Flow(number as usize),
        Class::Input { port } => Who::Input(port as usize),
        Class::Output { port } => Who::Output(port as usize),
    }
}

fn count_of(count: frame_builder::Count) -> Count {
    Count {
        cells: count.cells as u64,
        lead: count.lead,
    }
}

fn depth_of(depth: frame_builder::Depth) -> Depth {
    Depth {
        parts: depth.parts as u64,
        cells: depth.cells as u64,
    }
}

impl Calls for Library {
    fn admit(&self, ports: u64, slots: u64, list: &[u16], limits: &Limits) -> Answer {
        let Some(lent) = Lent::of(list) else {
            return self.in_c.admit(ports, slots, list, limits);
        };
        let answer = frame_builder::admit(ports as usize, slots as usize, lent.flows(), *limits);
        lent.give_back(list);
        answer.map_err(refusal_of)
    }

    fn build(
        &self,
        ports: u64,
        slots: u64,
        list: &[u16],
        limits: &Limits,
        frame: &mut [u16],
    ) -> Built {
        let Some(lent) = Lent::of(list) else {
            return self.in_c.build(ports, slots, list, limits, frame);
        };
        let (flows, limits) = (lent.flows(), *limits);
        let answer = frame_builder::build(ports as usize, slots as usize, flows, limits, frame);
        lent.give_back(list);
        answer.map(|settled| settled as u64).map_err(refusal_of)
    }

    fn inspect(
        &self,
        side: u64,
        ports: u64,
        slots: u64,
        list: &[u16],
        frame: &[u16],
    ) -> Inspection {
        let Some(lent) = Lent::of(list) else {
            return self.in_c.inspect(side, ports, slots, list, frame);
        };
        let (side, flows) = (side_of(side), lent.flows());
        let answer = frame_builder::inspect(side, ports as usize, slots as usize, flows, frame);
        lent.give_back(list);
        match answer {
            Ok(frame_builder::Inspection::Clean) => Inspection::Clean,
            Ok(frame_builder::Inspection::Faulty(fault)) => inspection_of(fault),
            Err(refusal) => Inspection::Refused(refusal_of(refusal)),
        }
    }

    fn turn(
        &self,
        side: u64,
        ports: u64,
        slots: u64,
        list: &[u16],
        frame: &[u16],
        second: &mut [u16],
    ) -> Answer {
        let Some(lent) = Lent::of(list) else {
            return self.in_c.turn(side, ports, slots, list, frame, second);
        };
        let (side, flows) = (side_of(side), lent.flows());
        let [ports, slots] = [ports, slots].map(|n| n as usize);
        let answer = frame_builder::turn(side, ports, slots, flows, frame, second);
        lent.give_back(list);
        answer.map_err(refusal_of)
    }

    fn slot_view<'f>(
        &self,
        ports: u64,
        slots: u64,
        frame: &'f [u16],
        slot: u64,
        number: &mut u64,
    ) -> &'f [u16] {
        let view = frame_builder::slot_view(ports as usize, slots as usize, frame, slot as usize);
        *number = view.map_or_else(|refusal| refusal.number() as u64, |_| 0);
        view.unwrap_or_default()
    }

    fn service_count(
        &self,
        side: u64,
        ports: u64,
        slots: u64,
        list: &[u16],
        frame: &[u16],
        question: Question,
    ) -> Service {
        let Some(lent) = Lent::of(list) else {
            return self
                .in_c
                .service_count(side, ports, slots, list, frame, question);
        };
        let (class, (start, length)) = question;
        let (side, flows, who) = (side_of(side), lent.flows(), who_of(class));
        let [ports, slots, start, length] = [ports, slots, start, length].map(|n| n as usize);
        let answer =
            frame_builder::service_count(side, ports, slots, flows, frame, who, start, length);
        lent.give_back(list);
        answer.map(count_of).map_err(refusal_of)
    }

    fn depth(&self, ports: u64, slots: u64, list: &[u16], class: Class) -> Bounded {
        let Some(lent) = Lent::of(list) else {
            return self.in_c.depth(ports, slots, list, class);
        };
        let (flows, who) = (lent.flows(), who_of(class));
        let answer = frame_builder::depth(ports as usize, slots as usize, flows, who);
        lent.give_back(list);
        answer.map(depth_of).map_err(refusal_of)
    }
}

impl SheetProgram for Library {
    fn respond(&self, sheet: &[u8]) -> Vec<u8> {
        program::respond(sheet)
    }
}
