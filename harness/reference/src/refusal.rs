//! The numbered refusals.

/// Why a call was turned away; ports, links, lines and cells are the paper's own numbers.
#[derive(Clone, Copy, Debug, PartialEq, Eq)]
pub enum Refusal {
    Ports,
    Slots,
    ListLength,
    FrameLength,
    InputLoad { port: u64, cells: u64 },
    OutputLoad { port: u64, cells: u64 },
    LineForm { line: u64 },
    LinePort { line: u64 },
    SheetLength,
    SlotNumber,
    FlowOrPort,
    RunLength,
    Entries,
    SecondLength,
    TooManyFlows,
    FlowPort,
    FlowLink,
    LinkLoad { output: u64, link: u64, cells: u64 },
}

impl Refusal {
    /// The number the paper gives this refusal.
    pub fn number(self) -> u64 {
        match self {
            Refusal::Ports => 1,
            Refusal::Slots => 2,
            Refusal::ListLength => 3,
            Refusal::FrameLength => 4,
            Refusal::InputLoad { .. } => 5,
            Refusal::OutputLoad { .. } => 6,
            Refusal::LineForm { .. } => 7,
            Refusal::LinePort { .. } => 8,
            Refusal::SheetLength => 10,
            Refusal::SlotNumber => 11,
            Refusal::FlowOrPort => 12,
            Refusal::RunLength => 13,
            Refusal::Entries => 14,
            Refusal::SecondLength => 15,
            Refusal::TooManyFlows => 21,
            Refusal::FlowPort => 22,
            Refusal::FlowLink => 23,
            Refusal::LinkLoad { .. } => 24,
        }
    }

    /// The refusal's number, then the values it carries in the paper's order.
    pub fn numbers(self) -> Vec<u64> {
        let mut numbers = vec![self.number()];
        match self {
            Refusal::InputLoad { port, cells } | Refusal::OutputLoad { port, cells } => {
                numbers.extend([port, cells]);
            }
            Refusal::LinkLoad {
                output,
                link,
                cells,
            } => numbers.extend([output, link, cells]),
            Refusal::LineForm { line } | Refusal::LinePort { line } => numbers.push(line),
            _ => {}
        }
        numbers
    }
}

/// Refuses unless the condition for going on holds.
pub(crate) fn require(holds: bool, refusal: Refusal) -> Result<(), Refusal> {
    if holds {
        Ok(())
    } else {
        Err(refusal)
    }
}
