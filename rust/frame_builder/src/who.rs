//! Whom a count or a depth is asked for.

use std::fmt;

/// Whose cells [`service_count`](crate::service_count) counts, and whose load [`depth`](crate::depth) goes by. Flows and ports are numbered
/// from 1.
///
/// ```
/// use frame_builder::Who;
///
/// assert_eq!(Who::Flow(5).to_string(), "flow 5");
/// assert_eq!(Who::Input(4).to_string(), "input 4");
/// assert_eq!(Who::Output(2).to_string(), "output 2");
/// ```
#[derive(Clone, Copy, Debug, PartialEq, Eq, Hash)]
pub enum Who {
    /// The cells of the flow with this number in the list.
    Flow(usize),
    /// All cells from this input.
    Input(usize),
    /// All cells to this output.
    Output(usize),
}

impl fmt::Display for Who {
    fn fmt(&self, to: &mut fmt::Formatter<'_>) -> fmt::Result {
        match self {
            Who::Flow(flow) => write!(to, "flow {flow}"),
            Who::Input(port) => write!(to, "input {port}"),
            Who::Output(port) => write!(to, "output {port}"),
        }
    }
}
