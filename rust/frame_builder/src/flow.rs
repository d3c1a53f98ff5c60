//! A reserved flow, and the list of a matrix.

use crate::MAX_PORTS;

/// A flow that is reserved: so many cells per frame from an input to an output, over one of the output's links.
///
/// A list of reservations is a slice of these. A flow's number is its place in the list, from 1, and the entries of a frame are such
/// numbers. A pair of ports may have several flows, and each is spread over the frame for itself:
///
/// ```
/// use frame_builder::{build, slots_each, Flow, Refusal};
///
/// // Picture and sound from input 1 to output 2.
/// let list = [Flow::new(1, 2, 3), Flow::new(1, 2, 1)];
/// let mut frame = [0; 8];
/// build(2, 4, &list, slots_each(4), &mut frame)?;
/// // Input 1 sends the picture in slots 1, 2 and 3, and the sound in slot 4.
/// assert_eq!(frame, [1, 0, 1, 0, 1, 0, 2, 0]);
/// # Ok::<(), Refusal>(())
/// ```
#[derive(Clone, Copy, Debug, Default, PartialEq, Eq, Hash)]
#[repr(C)]
pub struct Flow {
    /// The input that its cells come from, 1 to ports.
    pub input: u16,
    /// The output that they go to, 1 to ports.
    pub output: u16,
    /// How many there are in a frame, 0 to [`MAX_FLOW_CELLS`](crate::MAX_FLOW_CELLS).
    pub cells: u16,
    /// The link of the output that they go over, 1 to [`MAX_LINKS`](crate::MAX_LINKS).
    pub link: u16,
}

impl Flow {
    /// A flow of so many cells from an input to an output, over its link 1.
    ///
    /// ```
    /// use frame_builder::Flow;
    ///
    /// assert_eq!(Flow::new(4, 2, 7), Flow { input: 4, output: 2, cells: 7, link: 1 });
    /// ```
    pub const fn new(input: u16, output: u16, cells: u16) -> Flow {
        Flow {
            input,
            output,
            cells,
            link: 1,
        }
    }

    /// The same flow over another link.
    ///
    /// ```
    /// use frame_builder::Flow;
    ///
    /// assert_eq!(Flow::new(4, 2, 7).on_link(3), Flow { input: 4, output: 2, cells: 7, link: 3 });
    /// ```
    #[must_use]
    pub const fn on_link(self, link: u16) -> Flow {
        Flow { link, ..self }
    }
}

/// The list of a load matrix: one flow for each pair in matrix order, row by row: all outputs of input 1, then of input 2, and so on. All
/// of them are on link 1.
///
/// The matrix has ports × ports cell counts, so that the flow from input i to output o is number (i − 1) × ports + o; one without cells
/// is in the list too. `None` where ports are not 1 to [`MAX_PORTS`] or the matrix has another length.
///
/// ```
/// use frame_builder::{build, in_matrix_order, slots_each, Flow, Refusal};
///
/// let list = in_matrix_order(2, &[2, 1, 0, 1]).expect("a matrix of two ports");
/// assert_eq!(list, [Flow::new(1, 1, 2), Flow::new(1, 2, 1), Flow::new(2, 1, 0), Flow::new(2, 2, 1)]);
/// assert_eq!(in_matrix_order(2, &[2, 1, 0]), None);
///
/// // The output that each input sends to in each slot.
/// let mut frame = [0; 8];
/// build(2, 4, &list, slots_each(4), &mut frame)?;
/// let outputs = frame.map(|entry| match entry {
///     0 => 0,
///     flow => list[usize::from(flow) - 1].output,
/// });
/// assert_eq!(outputs, [1, 0, 2, 0, 1, 0, 0, 2]);
/// # Ok::<(), Refusal>(())
/// ```
pub fn in_matrix_order(ports: usize, matrix: &[u16]) -> Option<Vec<Flow>> {
    if !(1..=MAX_PORTS).contains(&ports) || matrix.len() != ports * ports {
        return None;
    }
    let inputs = (1..).zip(matrix.chunks(ports));
    let flows = inputs.flat_map(|(input, row)| {
        let outputs = (1..).zip(row);
        outputs.map(move |(output, &cells)| Flow::new(input, output, cells))
    });
    Some(flows.collect())
}
