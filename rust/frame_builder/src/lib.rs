//! The proved frame builder of a sixteen-port cell switch.
//!
//! Sound and picture houses reserve so many cells per frame from an input to an output of a cell switch. The frame builder lays the
//! reserved cells into a frame of slots, so evenly that a line card's few cells of buffer never overrun. It is written in Rattle and
//! every answer of it is proved; this crate has its calls on slices, and needs no other crate.
//!
//! # Words, units, numbers
//!
//! A switch has 1 to 16 **ports**. Each port is an *input*, where cells come in, and an *output*, where they leave; both are
//! numbered from 1. Time is cut into **slots**, also numbered from 1: in one slot an input sends at most one cell, and an output
//! takes at most one.
//!
//! A [**flow**](Flow) is so many cells per frame that are reserved from an input to an output. A **list** is all of them, up to 512, and
//! a flow's number is its place there, from 1. Several flows may have the same input and output, such as sound and picture between the
//! same two ports: each has its own slots, so that each can have a buffer of its own. [`in_matrix_order`] makes the list of a load matrix.
//!
//! An output drives up to four **links**, numbered from 1, and each flow goes over one of them. A link may be slower than its output: its
//! [**limit**](Limits) is how many cells per frame it takes. [`slots_each`] has the limits of links that are as fast as their outputs. A
//! list fits if no input and no output is asked for more cells than the frame has slots, and no link for more than its limit; every list
//! that fits can be built.
//!
//! A **frame** says what the switch does in 1, 2, 4, .. or 1,024 slots, after which it begins again. It is slots × ports entries, slot
//! 1 first. A frame has a [**side**](Side). On the input side a slot has one entry per input: the number of the flow that the input sends a
//! cell of, or 0 where it is idle. On the output side a slot has one entry per output: the number of the flow that the output takes a cell
//! of, or 0 where it is idle. [`build`] makes frames on the input side, and [`turn`] writes a frame by the other side. The ports that a
//! slot has entries of are those of the frame's side; the others are the ports of the other side.
//!
//! A frame is **balanced** if the cells of every flow, input, output and link, and all cells together, are spread evenly: a frame of two
//! or more slots has two halves, which differ by at most one cell, each half is split again, and so on down to the slots. The frame, its
//! halves, their halves and so on are its **blocks**.
//!
//! A **run** is some consecutive slots of the repeating frame. Its **share** is the part of a whole frame's cells that falls to so
//! many slots, and its **lead** is how far its cells are above that share, in parts of 1/slots of a cell; below 0 it is behind. How far any
//! run can be from its share goes by the load alone, and so does the [**depth**](Depth) of the buffer to order.
//!
//! # Calls
//!
//! | call | what it does | refusals, in their order |
//! |---|---|---|
//! | [`admit`] | says whether a list would be built | 1, 2, 21, 22, 23, 5, 6, 24 |
//! | [`build`] | fills a frame, and says how much work that was | 1, 2, 21, 22, 23, 4, 5, 6, 24 |
//! | [`inspect`] | looks over a frame that came from anywhere, on either side | 1, 2, 21, 22, 23, 4 |
//! | [`turn`] | writes a frame by the other side | 1, 2, 21, 22, 23, 4, 15, 14 |
//! | [`slot_view`] | shows a slot's part of a frame | 1, 2, 4, 11 |
//! | [`service_count`] | counts the cells of a flow, an input or an output in a run, with their lead | 1, 2, 21, 22, 23, 4, 11, 12, 13 |
//! | [`depth`] | says how far from its share a flow, an input or an output can get, and how deep a buffer to order | 1, 2, 21, 22, 23, 5, 6, 12 |
//!
//! Every call takes any numbers and slices of any length, and none panics. One that cannot be answered is turned away with a
//! [`Refusal`], the first in the table's order that holds. **A refusal leaves everything as it was**: above all, a refused [`build`]
//! leaves every entry of the frame, so that the switch can go on with it, and a refused [`turn`] every entry of the second buffer.
//!
//! | size | |
//! |---|---|
//! | ports | 1 to 16, [`MAX_PORTS`] |
//! | links of an output | 1 to 4, [`MAX_LINKS`] |
//! | slots of a frame | a power of two from 1 to 1,024, [`MAX_SLOTS`] |
//! | flows of a list | 0 to 512, [`MAX_FLOWS`] |
//! | cells of a flow | 0 to 65,535, [`MAX_FLOW_CELLS`] |
//! | entries of a frame | slots × ports, up to 16,384, [`MAX_FRAME_ENTRIES`] |
//! | slots of a run | 0 to 1,000,000, [`MAX_RUN_SLOTS`] |
//!
//! # Example
//!
//! Four ports and four slots. Input 1 sends two cells to output 1 and two to output 2, input 4 one each to 1 and 2 and two to 4.
//!
//! ```
//! use frame_builder::{build, inspect, service_count, slot_view, slots_each, turn};
//! use frame_builder::{Count, Flow, Inspection, Refusal, Side, Who};
//!
//! # fn main() -> Result<(), Refusal> {
//! let (ports, slots) = (4, 4);
//! // Input, output, cells; flow 1 comes first, and all are on link 1.
//! let list = [
//!     Flow::new(1, 1, 2),
//!     Flow::new(1, 2, 2),
//!     Flow::new(4, 1, 1),
//!     Flow::new(4, 2, 1),
//!     Flow::new(4, 4, 2),
//! ];
//! let mut frame = [0; 16];
//! // No link is slower than its output.
//! let limits = slots_each(slots);
//! build(ports, slots, &list, limits, &mut frame)?;
//! assert_eq!(
//!     frame,
//!     [
//!         1, 0, 0, 5, //
//!         2, 0, 0, 3, //
//!         1, 0, 0, 4, //
//!         2, 0, 0, 5, //
//!     ]
//! );
//! assert_eq!(inspect(Side::Input, ports, slots, &list, &frame)?, Inspection::Clean);
//!
//! // In slot 2 input 1 sends a cell of flow 2, to output 2, and input 4 one of flow 3, to output 1.
//! assert_eq!(slot_view(ports, slots, &frame, 2)?, [2, 0, 0, 3]);
//!
//! // Two slots from slot 4 on are slot 4 and, as the frame repeats, slot 1. Both have a cell of flow 5, and the share is one: the
//! // flow is a cell ahead, four quarters.
//! let count = service_count(Side::Input, ports, slots, &list, &frame, Who::Flow(5), 4, 2)?;
//! assert_eq!(count, Count { cells: 2, lead: 4 });
//!
//! // The same frame by its outputs: in slot 2 output 1 takes a cell of flow 3, and output 2 one of flow 2.
//! let mut by_output = [0; 16];
//! turn(Side::Input, ports, slots, &list, &frame, &mut by_output)?;
//! assert_eq!(
//!     by_output,
//!     [
//!         1, 0, 0, 5, //
//!         3, 2, 0, 0, //
//!         1, 4, 0, 0, //
//!         0, 2, 0, 5, //
//!     ]
//! );
//! // It is as clean as the other, and has the same counts.
//! assert_eq!(inspect(Side::Output, ports, slots, &list, &by_output)?, Inspection::Clean);
//! assert_eq!(service_count(Side::Output, ports, slots, &list, &by_output, Who::Flow(5), 4, 2)?, count);
//!
//! // Five cells from input 3 do not fit four slots, and the frame stays as it is.
//! let before = frame;
//! let mut overloaded = list;
//! overloaded[0] = Flow::new(3, 1, 5);
//! let refusal = Refusal::InputLoad { port: 3, cells: 5 };
//! assert_eq!(build(ports, slots, &overloaded, limits, &mut frame), Err(refusal));
//! assert_eq!(refusal.number(), 5);
//! assert_eq!(refusal.to_string(), "input 3 is asked for 5 cells, more than the frame has slots");
//! assert_eq!(frame, before);
//! # Ok(())
//! # }
//! ```
//!
//! # Where the library comes from
//!
//! The calls are in a static library for x86-64 Linux, which the crate's build script looks for in this order:
//!
//! 1. The folder that the environment variable `FRAME_BUILDER_PREFIX` names, where `./install --prefix DIR` in a checkout of the
//!    frame builder has put it: `DIR/lib/libframe_builder.a` and `DIR/include/frame_builder.h`.
//! 2. pkg-config, for the package `frame_builder`. `PKG_CONFIG` names another command; where that is not installed, or
//!    `FRAME_BUILDER_NO_PKG_CONFIG` or `FRAME_BUILDER_SOURCE` is set, this way is skipped.
//! 3. `rt lib` in `crates/exports`, which proves it and writes it, in the checkout that `FRAME_BUILDER_SOURCE` names, or in the one
//!    that the crate stands in. It needs the Rattle kit.
//!
//! A variable that is set and leads to no library is an error, as is an installed one that is not whole, and one that is not of version 6.0
//! or a later 6.x, whose calls are other ones: nothing else is taken in its place. An empty variable is as one that is not set. Where no
//! way leads to a library, the error says why each of them did not.
//!
//! A crate that depends on this one directly has in its own build script `DEP_FRAME_BUILDER_ARCHIVE`, the archive,
//! `DEP_FRAME_BUILDER_INCLUDE`, the folder of the C header, and `DEP_FRAME_BUILDER_VERSION`.

#![deny(unsafe_code)]
#![warn(missing_docs)]

mod count;
mod depth;
#[allow(unsafe_code)]
mod exported;
mod flow;
mod inspection;
mod limits;
mod numbers;
mod refusal;
mod side;
mod who;

pub use count::Count;
pub use depth::Depth;
pub use flow::{in_matrix_order, Flow};
pub use inspection::{Fault, Inspection};
pub use limits::{slots_each, Limits};
pub use refusal::Refusal;
pub use side::Side;
pub use who::Who;

/// The version of the library that is linked, as its header or pkg-config has it.
///
/// ```
/// println!("frame builder {}", frame_builder::VERSION);
/// # assert!(!frame_builder::VERSION.is_empty());
/// ```
pub const VERSION: &str = env!("FRAME_BUILDER_VERSION");

/// The most ports of a switch.
pub const MAX_PORTS: usize = 16;

/// The most links of an output.
pub const MAX_LINKS: usize = 4;

/// The most slots of a frame.
pub const MAX_SLOTS: usize = 1_024;

/// The most flows of a list.
pub const MAX_FLOWS: usize = 512;

/// The most cells that a flow can ask for.
pub const MAX_FLOW_CELLS: usize = 65_535;

/// The most entries of a frame.
pub const MAX_FRAME_ENTRIES: usize = MAX_SLOTS * MAX_PORTS;

/// The most slots of a run that [`service_count`] counts.
pub const MAX_RUN_SLOTS: usize = 1_000_000;

/// Says whether a list would be built with these limits.
///
/// # Errors
///
/// Refusals 1, 2, 21, 22, 23, 5, 6 and 24, the first of them that holds.
///
/// ```
/// use frame_builder::{admit, slots_each, Flow, Refusal};
///
/// let limits = slots_each(4);
/// assert_eq!(admit(2, 4, &[Flow::new(1, 1, 3), Flow::new(1, 2, 1), Flow::new(2, 2, 3)], limits), Ok(()));
/// let refusal = Refusal::OutputLoad { port: 2, cells: 5 };
/// assert_eq!(admit(2, 4, &[Flow::new(1, 2, 1), Flow::new(2, 2, 4)], limits), Err(refusal));
/// assert_eq!(admit(2, 4, &[Flow::new(3, 1, 1)], limits), Err(Refusal::FlowPort));
/// assert_eq!(admit(2, 4, &[Flow::new(1, 1, 1).on_link(5)], limits), Err(Refusal::FlowLink));
/// let refusal = Refusal::LinkLoad { output: 1, link: 3, cells: 2 };
/// assert_eq!(admit(2, 4, &[Flow::new(1, 1, 2).on_link(3)], slots_each(1)), Err(refusal));
/// assert_eq!(admit(2, 4, &[], limits), Ok(()));
/// ```
pub fn admit(ports: usize, slots: usize, list: &[Flow], limits: Limits) -> Result<(), Refusal> {
    exported::admit(ports, slots, list, &limits).answer()
}

/// Fills the frame with the one schedule of the list, on the [input side](Side::Input), and says how many odd counts were settled for it.
///
/// Those are, over all blocks of two or more slots, the flows with an odd number of cells in that block of the frame: the halves of
/// the block cannot have as many cells each, so that it has to be found which gets one more. They say how much work the build was:
/// its instructions grow with them. There are 0 to ports × slots × k of them, where slots are 2^k. A flow of one cell for each pair, in
/// as many slots as ports, comes to that. No block has more of them than the list has flows, so that there are 97,792 at most for 16
/// ports and 1,024 slots.
///
/// # Errors
///
/// Refusals 1, 2, 21, 22, 23, 4, 5, 6 and 24, the first of them that holds; the frame then keeps every entry.
///
/// ```
/// use frame_builder::{build, slots_each, Flow, Refusal};
///
/// let list = [Flow::new(1, 1, 2), Flow::new(2, 2, 1)];
/// let limits = slots_each(4);
/// let mut frame = [9; 8];
/// assert_eq!(build(2, 3, &list, limits, &mut frame), Err(Refusal::Slots));
/// assert_eq!(frame, [9; 8]);
/// // Flow 2 has one cell in the frame and in its first half, flow 1 one in each half.
/// assert_eq!(build(2, 4, &list, limits, &mut frame), Ok(4));
/// assert_eq!(frame, [1, 0, 0, 2, 1, 0, 0, 0]);
/// ```
pub fn build(
    ports: usize,
    slots: usize,
    list: &[Flow],
    limits: Limits,
    frame: &mut [u16],
) -> Result<usize, Refusal> {
    exported::build(ports, slots, list, &limits, frame).settled()
}

/// Looks over a frame from anywhere, on the side that is told: whether it carries the flows of the list, and evenly.
///
/// # Errors
///
/// Refusals 1, 2, 21, 22, 23 and 4, the first of them that holds. A list that overloads a port is not refused: no frame carries it. The
/// limits of links are not asked for.
///
/// ```
/// use frame_builder::{inspect, Fault, Flow, Inspection, Side};
///
/// let list = [Flow::new(1, 2, 1), Flow::new(2, 2, 1)];
/// let by_input = |frame: &[u16]| inspect(Side::Input, 2, 2, &list, frame);
/// assert_eq!(by_input(&[1, 0, 0, 2]), Ok(Inspection::Clean));
/// // The entry of input 2 in slot 2 is a flow of input 1.
/// let fault = Fault::WrongEntry { slot: 2, port: 2 };
/// assert_eq!(by_input(&[1, 0, 0, 1]), Ok(Inspection::Faulty(fault)));
/// // Both inputs send to output 2.
/// let fault = Fault::PortTwice { slot: 1, port: 2 };
/// assert_eq!(by_input(&[1, 2, 0, 0]), Ok(Inspection::Faulty(fault)));
///
/// let by_output = |frame: &[u16]| inspect(Side::Output, 2, 2, &list, frame);
/// assert_eq!(by_output(&[0, 1, 0, 2]), Ok(Inspection::Clean));
/// // The entry of output 1 in slot 1 is a flow to output 2.
/// let fault = Fault::WrongEntry { slot: 1, port: 1 };
/// assert_eq!(by_output(&[1, 0, 0, 2]), Ok(Inspection::Faulty(fault)));
/// ```
pub fn inspect(
    side: Side,
    ports: usize,
    slots: usize,
    list: &[Flow],
    frame: &[u16],
) -> Result<Inspection, Refusal> {
    let given = exported::inspect(side, ports, slots, list, frame);
    match given.fault() {
        Some(fault) => Ok(Inspection::Faulty(fault)),
        None => given.answer().map(|()| Inspection::Clean),
    }
}

/// Writes the frame by the other side to the second buffer, every entry of it.
///
/// The side that is told is the frame's own. So whoever turns a frame back tells the other side. Each flow stands in the same slots as
/// before, now at its port of the other side, and every place without a flow is 0.
///
/// A frame that has a [wrong entry](Fault::WrongEntry), or a [port of the other side twice](Fault::PortTwice) in a slot, cannot be turned.
/// Any other frame is, also one that has a flow in the wrong number of slots or an unbalanced block. Turned back, it has its first entries
/// again.
///
/// Where a frame turns, the sides agree: [`inspect`] and [`service_count`], told the other side, answer of the turned frame what they
/// answer of the frame. All this is proved.
///
/// # Errors
///
/// Refusals 1, 2, 21, 22, 23, 4, 15 and 14, the first of them that holds; the second buffer then keeps every entry.
///
/// ```
/// use frame_builder::{build, inspect, slots_each, turn, Flow, Inspection, Refusal, Side};
///
/// let list = [Flow::new(1, 2, 2), Flow::new(2, 1, 1), Flow::new(2, 2, 1)];
/// let mut frame = [0; 8];
/// build(2, 4, &list, slots_each(4), &mut frame)?;
/// // Input 1 sends flow 1 in slots 1 and 3, input 2 flow 2 in slot 2 and flow 3 in slot 4.
/// assert_eq!(frame, [1, 0, 0, 2, 1, 0, 0, 3]);
/// let mut second = [9; 8];
/// turn(Side::Input, 2, 4, &list, &frame, &mut second)?;
/// // Output 1 takes flow 2 in slot 2, output 2 flow 1 in slots 1 and 3 and flow 3 in slot 4.
/// assert_eq!(second, [0, 1, 2, 0, 0, 1, 0, 3]);
/// assert_eq!(inspect(Side::Output, 2, 4, &list, &second)?, Inspection::Clean);
///
/// // Turned back, it is the first frame again.
/// let mut back = [9; 8];
/// turn(Side::Output, 2, 4, &list, &second, &mut back)?;
/// assert_eq!(back, frame);
///
/// // Where both inputs send to output 2 it cannot be turned, and the second buffer stays as it is.
/// let twice = [1, 3, 0, 0, 0, 0, 0, 0];
/// assert_eq!(turn(Side::Input, 2, 4, &list, &twice, &mut back), Err(Refusal::Entries));
/// assert_eq!(turn(Side::Input, 2, 4, &list, &frame, &mut back[1..]), Err(Refusal::SecondLength));
/// assert_eq!(back, frame);
/// # Ok::<(), Refusal>(())
/// ```
pub fn turn(
    side: Side,
    ports: usize,
    slots: usize,
    list: &[Flow],
    frame: &[u16],
    second: &mut [u16],
) -> Result<(), Refusal> {
    exported::turn(side, ports, slots, list, frame, second).answer()
}

/// The slot's part of the frame, one entry per port of the frame's side: the entries themselves, not a copy. It is the same part on either
/// side.
///
/// # Errors
///
/// Refusals 1, 2, 4 and 11, the first of them that holds.
///
/// ```
/// use frame_builder::{slot_view, Refusal};
///
/// let frame = [1, 2, 0, 0];
/// let slot = slot_view(2, 2, &frame, 1)?;
/// assert!(std::ptr::eq(slot, &frame[..2]));
/// assert_eq!(slot_view(2, 2, &frame, 3), Err(Refusal::SlotNumber));
/// # Ok::<(), Refusal>(())
/// ```
pub fn slot_view(
    ports: usize,
    slots: usize,
    frame: &[u16],
    slot: usize,
) -> Result<&[u16], Refusal> {
    let given = exported::slot_view(ports, slots, frame, slot);
    given.answer()?;
    let rest = frame.get(given.first..).unwrap_or_default();
    // By the library's contract the part is within the frame.
    Ok(rest.get(..given.second).unwrap_or_default())
}

/// Counts the cells of a flow, an input or an output in a run of the repeating frame, `length` slots from slot `start` on, and says
/// how far they are ahead of the run's share, or behind: its [lead](Count).
///
/// The frame is on the side that is told, and may have any entries. For a flow, those that are its number are counted, at whatever port
/// they stand. For a port of the frame's side, its entries that are not 0 are counted. For a port of the other side, those that are the
/// number of one of its flows are counted, at whatever port they stand. So an entry above the number of flows counts for its input only on
/// the input side, and for its output only on the output side. After the last slot comes slot 1 again.
///
/// # Errors
///
/// Refusals 1, 2, 21, 22, 23, 4, 11, 12 and 13, the first of them that holds.
///
/// ```
/// use frame_builder::{service_count, Count, Flow, Refusal, Side, Who};
///
/// let list = [Flow::new(1, 1, 1), Flow::new(2, 2, 1), Flow::new(2, 1, 1)];
/// // In slot 1 input 1 sends to output 1 and input 2 to output 2, in slot 2 input 2 to output 1.
/// let frame = [1, 2, 0, 3];
/// // Slots 2, 1, 2.
/// let count = |who| service_count(Side::Input, 2, 2, &list, &frame, who, 2, 3);
/// // One cell a frame: a cell and a half is the share of three slots.
/// assert_eq!(count(Who::Flow(3)), Ok(Count { cells: 2, lead: 1 }));
/// assert_eq!(count(Who::Input(1)), Ok(Count { cells: 1, lead: -1 }));
/// // A cell in every slot.
/// assert_eq!(count(Who::Output(1)), Ok(Count { cells: 3, lead: 0 }));
/// assert_eq!(count(Who::Flow(4)), Err(Refusal::FlowOrPort));
/// let too_long = service_count(Side::Input, 2, 2, &list, &frame, Who::Flow(3), 1, 1_000_001);
/// assert_eq!(too_long, Err(Refusal::RunLength));
/// // The same frame by its outputs.
/// let turned = [1, 2, 3, 0];
/// let counted = service_count(Side::Output, 2, 2, &list, &turned, Who::Output(1), 2, 3);
/// assert_eq!(counted, Ok(Count { cells: 3, lead: 0 }));
/// ```
#[allow(clippy::too_many_arguments)]
pub fn service_count(
    side: Side,
    ports: usize,
    slots: usize,
    list: &[Flow],
    frame: &[u16],
    who: Who,
    start: usize,
    length: usize,
) -> Result<Count, Refusal> {
    exported::service_count(side, ports, slots, list, frame, who, (start, length)).count()
}

/// Says how far from its share a flow, an input or an output can get on the wire, and how many cells a buffer for it has to hold: its
/// [depth](Depth). Both go by its load in the list.
///
/// # Errors
///
/// Refusals 1, 2, 21, 22, 23, 5, 6 and 12, the first of them that holds.
///
/// ```
/// use frame_builder::{depth, Depth, Flow, Refusal, Who};
///
/// let list = [Flow::new(1, 1, 64), Flow::new(2, 2, 63), Flow::new(2, 3, 1)];
/// let depth = |who| depth(3, 1_024, &list, who);
/// // A cell in each sixteen slots: a buffer of two cells does.
/// assert_eq!(depth(Who::Flow(1)), Ok(Depth { parts: 1_920, cells: 2 }));
/// // One cell less is spread less evenly.
/// assert_eq!(depth(Who::Flow(2)), Ok(Depth { parts: 3_906, cells: 4 }));
/// // All cells of input 2 together.
/// assert_eq!(depth(Who::Input(2)), Ok(Depth { parts: 1_920, cells: 2 }));
/// assert_eq!(depth(Who::Output(4)), Err(Refusal::FlowOrPort));
/// ```
pub fn depth(ports: usize, slots: usize, list: &[Flow], who: Who) -> Result<Depth, Refusal> {
    exported::depth(ports, slots, list, who).depth()
}

/// The example of the README is run too.
#[cfg(doctest)]
#[doc = include_str!("../README.md")]
struct Readme;
