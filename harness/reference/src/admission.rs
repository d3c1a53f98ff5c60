//! The conditions every call is held to, and Admit.

use crate::flow::{cells_of, flows_of, links_of, Flow, Limits, FLOW_NUMBERS, LINKS, MOST_FLOWS};
use crate::refusal::{require, Refusal};

/// Refusal 1.
pub(crate) fn check_ports(ports: u64) -> Result<(), Refusal> {
    require((1..=16).contains(&ports), Refusal::Ports)
}

/// Refusal 2.
pub(crate) fn check_slots(slots: u64) -> Result<(), Refusal> {
    let allowed = (0..=10).any(|k| slots == 1 << k);
    require(allowed, Refusal::Slots)
}

/// Refusals 1, 2, 3, 21, 22 and 23; the flows of a list that none of them turns away.
pub(crate) fn check_list(ports: u64, slots: u64, list: &[u16]) -> Result<Vec<Flow>, Refusal> {
    check_ports(ports)?;
    check_slots(slots)?;
    require(list.len().is_multiple_of(FLOW_NUMBERS), Refusal::ListLength)?;
    let flows = flows_of(list);
    require(flows.len() <= MOST_FLOWS, Refusal::TooManyFlows)?;
    let known = 1..=ports;
    let mut ends = flows.iter().flat_map(|flow| [flow.input, flow.output]);
    require(ends.all(|port| known.contains(&port)), Refusal::FlowPort)?;
    let mut links = flows.iter().map(|flow| flow.link);
    require(
        links.all(|link| (1..=LINKS).contains(&link)),
        Refusal::FlowLink,
    )?;
    Ok(flows)
}

/// Refusal 4; ports and slots have been checked, so the product is small.
pub(crate) fn check_frame(ports: u64, slots: u64, frame: &[u16]) -> Result<(), Refusal> {
    let length = frame.len() as u64;
    require(length == slots * ports, Refusal::FrameLength)
}

/// Refusals 5 and 6: all inputs are looked at before any output.
pub(crate) fn check_port_loads(ports: u64, slots: u64, flows: &[Flow]) -> Result<(), Refusal> {
    for port in 1..=ports {
        let cells = cells_of(flows, |flow| flow.input == port);
        require(cells <= slots, Refusal::InputLoad { port, cells })?;
    }
    for port in 1..=ports {
        let cells = cells_of(flows, |flow| flow.output == port);
        require(cells <= slots, Refusal::OutputLoad { port, cells })?;
    }
    Ok(())
}

/// Refusals 5, 6 and 24: all ports are looked at before any link.
pub(crate) fn check_loads(
    ports: u64,
    slots: u64,
    flows: &[Flow],
    limits: &Limits,
) -> Result<(), Refusal> {
    check_port_loads(ports, slots, flows)?;
    for ((output, link), &limit) in links_of(ports).zip(limits) {
        let cells = cells_of(flows, |flow| flow.is_on(output, link));
        let refusal = Refusal::LinkLoad {
            output,
            link,
            cells,
        };
        require(cells <= limit.into(), refusal)?;
    }
    Ok(())
}

/// Accepts a load that fits the frame and the limits, or gives the first refusal of 1, 2, 3, 21, 22, 23, 5, 6, 24.
pub fn admit(ports: u64, slots: u64, list: &[u16], limits: &Limits) -> Result<(), Refusal> {
    let flows = check_list(ports, slots, list)?;
    check_loads(ports, slots, &flows, limits)
}
