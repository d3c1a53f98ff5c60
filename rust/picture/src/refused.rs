//! Why a sheet has no frame.

use std::fmt;

use frame_builder::Refusal;

/// The refusal of a sheet. As text it is what the sheet program prints.
#[derive(Debug, Clone, Copy, PartialEq, Eq)]
pub enum Refused {
    /// 10: the sheet is longer than 32,768 bytes.
    TooLong,
    /// 7: a line breaks the form, or line 1 or 2 is missing.
    Form { line: usize },
    /// 8: a pair line names a port outside.
    Port { line: usize },
    /// The library turns the numbers away.
    Call(Refusal),
}

impl fmt::Display for Refused {
    fn fmt(&self, to: &mut fmt::Formatter) -> fmt::Result {
        match self {
            Refused::TooLong => write!(to, "(refused 10)"),
            Refused::Form { line } => write!(to, "(refused 7 (line {line}))"),
            Refused::Port { line } => write!(to, "(refused 8 (line {line}))"),
            Refused::Call(refusal) => call(*refusal, to),
        }
    }
}

fn call(refusal: Refusal, to: &mut fmt::Formatter) -> fmt::Result {
    let number = refusal.number();
    match refusal {
        Refusal::InputLoad { port, cells } | Refusal::OutputLoad { port, cells } => {
            write!(to, "(refused {number} (port {port}) (cells {cells}))")
        }
        _ => write!(to, "(refused {number})"),
    }
}
