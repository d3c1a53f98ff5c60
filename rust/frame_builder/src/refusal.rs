//! Why a call is turned away.

use std::error::Error;
use std::fmt;

/// Why a call was turned away.
///
/// Where several reasons hold, the first in the order of the call is given, as the [table of calls](crate#calls) has it. As text it is a
/// sentence for whoever caused it:
///
/// ```
/// let refusal = frame_builder::Refusal::InputLoad { port: 3, cells: 70 };
/// assert_eq!(refusal.to_string(), "input 3 is asked for 70 cells, more than the frame has slots");
/// ```
#[derive(Clone, Copy, Debug, PartialEq, Eq, Hash)]
pub enum Refusal {
    /// 1, caused by whoever sets up the rack: ports are not 1 to [`MAX_PORTS`](crate::MAX_PORTS).
    Ports,
    /// 2, caused by whoever sets up the rack: slots are not a power of two from 1 to [`MAX_SLOTS`](crate::MAX_SLOTS).
    Slots,
    /// 4, caused by the calling program: the frame does not have slots × ports entries.
    FrameLength,
    /// 5, caused by the house that reserves: an input is asked for more cells than the frame has slots.
    InputLoad {
        /// The lowest such input.
        port: usize,
        /// All the cells that it is asked for.
        cells: usize,
    },
    /// 6, caused by the house that reserves: no input, but an output is asked for more cells than the frame has slots.
    OutputLoad {
        /// The lowest such output.
        port: usize,
        /// All the cells that it is asked for.
        cells: usize,
    },
    /// 11, caused by whoever asks about a frame: a slot, or the start of a run, is not 1 to slots.
    SlotNumber,
    /// 12, caused by whoever asks about a frame: a flow is not in the list, or a port is not 1 to ports.
    FlowOrPort,
    /// 13, caused by whoever asks about a frame: a run is longer than [`MAX_RUN_SLOTS`](crate::MAX_RUN_SLOTS) slots.
    RunLength,
    /// 14, caused by whoever made the frame: it cannot be turned, since an entry is wrong or a port of the other side is used twice in a
    /// slot. [`inspect`](crate::inspect) says which.
    Entries,
    /// 15, caused by the calling program: the second buffer does not have as many entries as the frame.
    SecondLength,
    /// 21, caused by the house that reserves: the list has more than [`MAX_FLOWS`](crate::MAX_FLOWS) flows.
    TooManyFlows,
    /// 22, caused by the house that reserves: a flow's input or output is not 1 to ports.
    FlowPort,
    /// 23, caused by the house that reserves: a flow's link is not 1 to [`MAX_LINKS`](crate::MAX_LINKS).
    FlowLink,
    /// 24, caused by the house that reserves: no input and no output, but a link is asked for more cells than its
    /// [limit](crate::Limits).
    LinkLoad {
        /// The lowest output that has such a link.
        output: usize,
        /// Its lowest such link.
        link: usize,
        /// All the cells that the link is asked for.
        cells: usize,
    },
}

impl Refusal {
    /// The number that the refusal goes by in every interface of the frame builder.
    ///
    /// ```
    /// assert_eq!(frame_builder::Refusal::FrameLength.number(), 4);
    /// ```
    pub const fn number(self) -> usize {
        match self {
            Refusal::Ports => 1,
            Refusal::Slots => 2,
            Refusal::FrameLength => 4,
            Refusal::InputLoad { .. } => 5,
            Refusal::OutputLoad { .. } => 6,
            Refusal::SlotNumber => 11,
            Refusal::FlowOrPort => 12,
            Refusal::RunLength => 13,
            Refusal::Entries => 14,
            Refusal::SecondLength => 15,
            Refusal::TooManyFlows => 21,
            Refusal::FlowPort => 22,
            Refusal::FlowLink => 23,
            Refusal::LinkLoad { .. } => 24,
        }
    }
}

impl fmt::Display for Refusal {
    fn fmt(&self, to: &mut fmt::Formatter<'_>) -> fmt::Result {
        let above = "more than the frame has slots";
        to.write_str(match self {
            Refusal::Ports => "the number of ports is not 1 to 16",
            Refusal::Slots => "the number of slots is not a power of two from 1 to 1,024",
            Refusal::FrameLength => "the frame's length is not slots × ports",
            Refusal::InputLoad { port, cells } => {
                return write!(to, "input {port} is asked for {cells} cells, {above}");
            }
            Refusal::OutputLoad { port, cells } => {
                return write!(to, "output {port} is asked for {cells} cells, {above}");
            }
            Refusal::SlotNumber => "the slot or start is outside 1 to slots",
            Refusal::FlowOrPort => "the flow is not in the list, or the port is outside 1 to ports",
            Refusal::RunLength => "the run is longer than 1,000,000 slots",
            Refusal::Entries => "an entry of the frame is wrong, or a port is used twice in a slot",
            Refusal::SecondLength => "the second buffer's length differs from the frame's",
            Refusal::TooManyFlows => "there are more than 512 flows",
            Refusal::FlowPort => "a flow's input or output is outside 1 to ports",
            Refusal::FlowLink => "a flow's link is outside 1 to 4",
            Refusal::LinkLoad {
                output,
                link,
                cells,
            } => {
                return write!(
                    to,
                    "link {link} of output {output} is asked for {cells} cells, more than its limit"
                );
            }
        })
    }
}

impl Error for Refusal {}
