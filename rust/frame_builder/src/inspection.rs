//! What Inspect finds.

use std::error::Error;
use std::fmt;

/// What [`inspect`](crate::inspect) finds in a frame.
#[derive(Clone, Copy, Debug, PartialEq, Eq, Hash)]
pub enum Inspection {
    /// The frame carries its load, each cell in a slot of its own, and is balanced.
    Clean,
    /// The frame has a fault; this is the first.
    Faulty(Fault),
}

impl Inspection {
    /// 0 for clean, or the [fault's number](Fault::number).
    ///
    /// ```
    /// assert_eq!(frame_builder::Inspection::Clean.number(), 0);
    /// ```
    pub const fn number(self) -> usize {
        match self {
            Inspection::Clean => 0,
            Inspection::Faulty(fault) => fault.number(),
        }
    }

    /// The fault as an error, for callers that go on with a clean frame only.
    ///
    /// ```
    /// use frame_builder::{inspect, Flow, Side};
    ///
    /// fn put_on_the_wire(list: &[Flow], frame: &[u16]) -> Result<(), Box<dyn std::error::Error>> {
    ///     inspect(Side::Input, 2, 2, list, frame)?.clean()?;
    ///     // ..
    ///     Ok(())
    /// }
    ///
    /// // One cell from each input, both to output 2.
    /// let list = [Flow::new(1, 2, 1), Flow::new(2, 2, 1)];
    /// assert!(put_on_the_wire(&list, &[1, 0, 0, 2]).is_ok());
    /// let error = put_on_the_wire(&list, &[1, 2, 0, 0]).unwrap_err();
    /// assert_eq!(error.to_string(), "in slot 1 port 2 of the other side is used twice");
    /// ```
    ///
    /// # Errors
    ///
    /// The fault, where there is one.
    pub const fn clean(self) -> Result<(), Fault> {
        match self {
            Inspection::Clean => Ok(()),
            Inspection::Faulty(fault) => Err(fault),
        }
    }
}

impl fmt::Display for Inspection {
    fn fmt(&self, to: &mut fmt::Formatter<'_>) -> fmt::Result {
        match self {
            Inspection::Clean => write!(to, "the frame is clean"),
            Inspection::Faulty(fault) => fault.fmt(to),
        }
    }
}

/// What is wrong with a frame.
///
/// Faults are looked for in the order of these cases; within a case the earliest is given. Which ports they name goes by the
/// [side](crate::Side) of the frame. As text a fault is a sentence:
///
/// ```
/// let fault = frame_builder::Fault::FlowCount { flow: 5 };
/// assert_eq!(fault.to_string(), "flow 5 is in the wrong number of slots");
/// ```
#[derive(Clone, Copy, Debug, PartialEq, Eq, Hash)]
pub enum Fault {
    /// 101: an entry is wrong: above the number of flows, or the number of a flow of another port of the frame's side than the one at whose
    /// place it stands. The lowest slot, then port.
    WrongEntry {
        /// The slot that the entry is in.
        slot: usize,
        /// The port of the frame's side at whose place the entry stands: an input on the input side, an output on the output side.
        port: usize,
    },
    /// 102: two or more entries of a slot are flows of the same port of the other side. The lowest slot, then port.
    PortTwice {
        /// The slot.
        slot: usize,
        /// The port of the other side: an output on the input side, an input on the output side.
        port: usize,
    },
    /// 103: a flow is in more slots or in fewer than it has cells. The first flow in the list.
    FlowCount {
        /// The flow's number.
        flow: usize,
    },
    /// 104: the halves of a block differ by more than one cell in some flow, input, output or link, or in all cells. The largest block,
    /// then the earliest.
    UnbalancedBlock {
        /// The first slot of the block.
        slot: usize,
        /// The slots of the block.
        size: usize,
    },
}

impl Fault {
    /// The number that the fault goes by in every interface of the frame builder.
    ///
    /// ```
    /// let fault = frame_builder::Fault::PortTwice { slot: 3, port: 1 };
    /// assert_eq!(fault.number(), 102);
    /// ```
    pub const fn number(self) -> usize {
        match self {
            Fault::WrongEntry { .. } => 101,
            Fault::PortTwice { .. } => 102,
            Fault::FlowCount { .. } => 103,
            Fault::UnbalancedBlock { .. } => 104,
        }
    }
}

impl fmt::Display for Fault {
    fn fmt(&self, to: &mut fmt::Formatter<'_>) -> fmt::Result {
        match self {
            Fault::WrongEntry { slot, port } => {
                write!(
                    to,
                    "in slot {slot} the entry of port {port} is no flow of that port"
                )
            }
            Fault::PortTwice { slot, port } => {
                write!(
                    to,
                    "in slot {slot} port {port} of the other side is used twice"
                )
            }
            Fault::FlowCount { flow } => {
                write!(to, "flow {flow} is in the wrong number of slots")
            }
            Fault::UnbalancedBlock { slot, size } => {
                write!(
                    to,
                    "the block of {size} slots from slot {slot} on is unbalanced"
                )
            }
        }
    }
}

impl Error for Fault {}
