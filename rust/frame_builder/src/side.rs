//! The side of a frame.

use std::fmt;

/// The side that a frame is on: whose entries a slot has.
///
/// [`build`](crate::build) makes frames on the input side, and [`turn`](crate::turn) writes a frame by the other side. Whoever hands a
/// frame to [`inspect`](crate::inspect), [`service_count`](crate::service_count) or [`turn`](crate::turn) says which side it is on.
///
/// ```
/// use frame_builder::Side;
///
/// assert_eq!(Side::Input.other(), Side::Output);
/// assert_eq!(Side::Output.other(), Side::Input);
/// assert_eq!(Side::Input.to_string(), "input side");
/// assert_eq!(Side::Output.to_string(), "output side");
/// ```
#[derive(Clone, Copy, Debug, PartialEq, Eq, Hash)]
pub enum Side {
    /// 0: a slot has one entry per input, the flow that the input sends a cell of.
    Input,
    /// 1: a slot has one entry per output, the flow that the output takes a cell of.
    Output,
}

impl Side {
    /// The side that a frame of this side is on once it is turned.
    #[must_use]
    pub const fn other(self) -> Side {
        match self {
            Side::Input => Side::Output,
            Side::Output => Side::Input,
        }
    }

    /// The number that the side goes by in the C interface, where every other number than 0 is the output side.
    ///
    /// ```
    /// assert_eq!(frame_builder::Side::Output.number(), 1);
    /// ```
    pub const fn number(self) -> usize {
        match self {
            Side::Input => 0,
            Side::Output => 1,
        }
    }
}

impl fmt::Display for Side {
    fn fmt(&self, to: &mut fmt::Formatter<'_>) -> fmt::Result {
        to.write_str(match self {
            Side::Input => "input side",
            Side::Output => "output side",
        })
    }
}
