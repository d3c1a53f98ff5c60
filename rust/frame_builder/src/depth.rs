//! What Depth answers.

/// How far from its share a flow, an input or an output can get, and how deep a buffer to order for it: what [`depth`](crate::depth)
/// answers.
///
/// Let [`build`](crate::build) make frames, of any lists, in all of which the load is the same. Then in no run of slots, from one frame
/// into the next too, are the cells more than `parts` above their share, or more than `parts` below it. For every load there are frames and
/// runs that come to it.
///
/// The `cells` are for an even source, from which in no run of slots do more cells arrive than the run's share, rounded up. For another
/// source its own allowance stands in the place of slots − 1. A source has the allowance a if in no run do more cells arrive than the run's
/// share and a/slots of a cell. All this is proved.
///
/// ```
/// use frame_builder::{depth, Flow, Refusal, Who};
///
/// let (slots, load) = (1_024, 100);
/// let list = [Flow::new(1, 1, load)];
/// let deep = depth(1, slots, &list, Who::Flow(1))?;
/// assert_eq!((deep.parts, deep.cells), (4_536, 5));
/// let cells_for = |allowance: usize| (allowance + deep.parts + usize::from(load)) / slots;
/// assert_eq!(cells_for(slots - 1), deep.cells);
/// // A source that sends four cells at once, and evenly otherwise.
/// assert_eq!(cells_for(4 * slots - 1), 8);
/// // Behind another such switch with as many slots.
/// assert_eq!(cells_for(deep.parts), 8);
/// # Ok::<(), Refusal>(())
/// ```
#[derive(Clone, Copy, Debug, PartialEq, Eq, Hash)]
pub struct Depth {
    /// How far from its share a run can get, in parts of 1/slots of a cell, 0 to 7,054.
    pub parts: usize,
    /// The cells to order for an even source, (slots − 1 + parts + load)/slots, rounded down, 0 to 8.
    pub cells: usize,
}
