//! How many cells per frame each link takes.

use crate::{MAX_LINKS, MAX_PORTS};

/// The limits of all links, output by output: those of output 1's links 1 to 4, then those of output 2's, and so on to output 16.
///
/// A link's limit is how many cells per frame it takes. The limits of outputs above ports are not looked at, so that all 64 are there
/// whatever ports are. The limit of link l of output o is number (o − 1) × [`MAX_LINKS`] + l − 1 of the array:
///
/// ```
/// use frame_builder::{admit, slots_each, Flow, Refusal, MAX_LINKS};
///
/// // Link 2 of output 3 is half as fast as the output.
/// let mut limits = slots_each(8);
/// limits[2 * MAX_LINKS + 1] = 4;
/// let flow = Flow::new(1, 3, 5);
/// assert_eq!(admit(4, 8, &[flow], limits), Ok(()));
/// let refusal = Refusal::LinkLoad { output: 3, link: 2, cells: 5 };
/// assert_eq!(admit(4, 8, &[flow.on_link(2)], limits), Err(refusal));
/// ```
pub type Limits = [u16; MAX_PORTS * MAX_LINKS];

/// The limits where no link is slower than its output: each may have as many cells as the frame has slots, at most 65,535.
///
/// ```
/// use frame_builder::slots_each;
///
/// assert_eq!(slots_each(1_024), [1_024; 64]);
/// assert_eq!(slots_each(65_536), [65_535; 64]);
/// ```
pub const fn slots_each(slots: usize) -> Limits {
    let most = u16::MAX as usize;
    let cells = if slots < most { slots } else { most };
    [cells as u16; MAX_PORTS * MAX_LINKS]
}
