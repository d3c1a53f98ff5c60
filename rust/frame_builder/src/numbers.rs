//! Answers as numbers, the form in which they cross from the library.

use crate::{Count, Depth, Fault, Refusal};

/// An answer's number, and up to three values; a count has its cells and its lead.
#[derive(Default)]
pub struct Numbers {
    pub number: usize,
    pub first: usize,
    pub second: usize,
    pub third: usize,
    pub lead: i64,
}

impl Numbers {
    pub fn answer(&self) -> Result<(), Refusal> {
        match self.number {
            0 => Ok(()),
            _ => Err(self.refusal()),
        }
    }

    /// What Build answers.
    pub fn settled(&self) -> Result<usize, Refusal> {
        self.answer().map(|()| self.first)
    }

    pub fn count(&self) -> Result<Count, Refusal> {
        let (cells, lead) = (self.first, self.lead);
        self.answer().map(|()| Count { cells, lead })
    }

    pub fn depth(&self) -> Result<Depth, Refusal> {
        let (parts, cells) = (self.first, self.second);
        self.answer().map(|()| Depth { parts, cells })
    }

    fn refusal(&self) -> Refusal {
        let (port, cells) = (self.first, self.second);
        match self.number {
            1 => Refusal::Ports,
            2 => Refusal::Slots,
            4 => Refusal::FrameLength,
            5 => Refusal::InputLoad { port, cells },
            6 => Refusal::OutputLoad { port, cells },
            11 => Refusal::SlotNumber,
            12 => Refusal::FlowOrPort,
            13 => Refusal::RunLength,
            14 => Refusal::Entries,
            15 => Refusal::SecondLength,
            21 => Refusal::TooManyFlows,
            22 => Refusal::FlowPort,
            23 => Refusal::FlowLink,
            // By the library's contract this is 24: a slice of flows is never 3, and no call refuses with another number.
            _ => Refusal::LinkLoad {
                output: self.first,
                link: self.second,
                cells: self.third,
            },
        }
    }

    pub fn fault(&self) -> Option<Fault> {
        match (self.number, self.first, self.second) {
            (101, slot, port) => Some(Fault::WrongEntry { slot, port }),
            (102, slot, port) => Some(Fault::PortTwice { slot, port }),
            (103, flow, _) => Some(Fault::FlowCount { flow }),
            (104, slot, size) => Some(Fault::UnbalancedBlock { slot, size }),
            _ => None,
        }
    }
}
