//! The two sides by which a frame can be written down.

use crate::flow::Flow;

/// What a slot has an entry for: on the input side each input, on the output side each output.
#[derive(Clone, Copy, Debug, PartialEq, Eq)]
pub enum Side {
    Input,
    Output,
}

impl Side {
    pub const BOTH: [Side; 2] = [Side::Input, Side::Output];

    /// The side that a number tells: 0 the input side, any other the output side.
    pub fn told(number: u64) -> Side {
        match number {
            0 => Side::Input,
            _ => Side::Output,
        }
    }

    /// A number that tells it.
    pub fn number(self) -> u64 {
        match self {
            Side::Input => 0,
            Side::Output => 1,
        }
    }

    pub fn other(self) -> Side {
        match self {
            Side::Input => Side::Output,
            Side::Output => Side::Input,
        }
    }

    /// The port of this side that a flow uses.
    pub(crate) fn port_of(self, flow: &Flow) -> u64 {
        match self {
            Side::Input => flow.input,
            Side::Output => flow.output,
        }
    }
}
