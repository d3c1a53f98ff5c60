//! What Service count answers.

/// The cells of a run, and how far they are ahead of its share: what [`service_count`](crate::service_count) answers.
///
/// The **lead** is slots × the cells of the run − length × the cells of the same flow, input or output in one whole frame, as
/// counted in that frame. Its unit is 1/slots of a cell: divided by slots, it is how many cells the run has had above its share, and
/// it is negative where the run is behind. Length 0 and whole turns of the frame have lead 0, so that a whole turn more or less
/// leaves the lead as it is.
///
/// For a frame that [`build`](crate::build) made, counted with the same ports, slots and list, 3 × |lead| is at most (2k + 1) ×
/// slots, where slots are 2^k: no run is farther from its share than (2k + 1)/3 cells. Nor is |lead| above what
/// [`depth`](crate::depth) answers for the same flow, input or output. Both are proved, and hold of such a frame [turned](crate::turn) too,
/// since its counts are the same.
///
/// ```
/// use frame_builder::{build, service_count, slots_each, Count, Flow, Refusal, Side, Who};
///
/// // Three cells in four slots, the last of which is idle.
/// let list = [Flow::new(1, 1, 3)];
/// let mut frame = [0; 4];
/// build(1, 4, &list, slots_each(4), &mut frame)?;
/// assert_eq!(frame, [1, 1, 1, 0]);
/// let count = |start, length| service_count(Side::Input, 1, 4, &list, &frame, Who::Flow(1), start, length);
/// // The share of two slots is one cell and a half; the run has half a cell more, or half a cell less.
/// assert_eq!(count(1, 2)?, Count { cells: 2, lead: 2 });
/// assert_eq!(count(4, 2)?, Count { cells: 1, lead: -2 });
/// // The same after ten whole turns.
/// assert_eq!(count(4, 42)?, Count { cells: 31, lead: -2 });
/// assert_eq!(count(4, 40)?, Count { cells: 30, lead: 0 });
/// # Ok::<(), Refusal>(())
/// ```
#[derive(Clone, Copy, Debug, PartialEq, Eq, Hash)]
pub struct Count {
    /// The cells of the run, 0 to 16,000,000.
    pub cells: usize,
    /// How far they are ahead of the run's share, in parts of 1/slots of a cell, −4,194,304 to 4,194,304; below 0 is behind.
    pub lead: i64,
}
