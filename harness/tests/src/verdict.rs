//! What a case comes to.

use std::fmt::Debug;

use calls::{Refusal, Side};

/// Nothing to report, or what went wrong.
pub type Verdict = Result<(), String>;

/// Fails unless the condition holds.
pub fn expect(holds: bool, complaint: impl FnOnce() -> String) -> Verdict {
    if holds {
        Ok(())
    } else {
        Err(complaint())
    }
}

/// Fails unless the candidate's answer is the reference's.
pub fn expect_equal<T: PartialEq + Debug>(what: &str, given: &T, right: &T) -> Verdict {
    expect(given == right, || {
        format!("{what}: {given:?} given, {right:?} right")
    })
}

/// The name of a call that is told the side of a frame.
pub fn told(call: &str, side: u64) -> String {
    match Side::told(side) {
        Side::Input => call.into(),
        Side::Output => format!("{call} {BY_OUTPUTS}"),
    }
}

/// What follows the name of a call that was told the output side.
pub const BY_OUTPUTS: &str = "by outputs";

/// The name an answer goes by in the counts of what was hit.
pub fn outcome<T>(call: &str, answer: &Result<T, Refusal>) -> String {
    match answer {
        Ok(_) => format!("{call} accepted"),
        Err(refusal) => format!("{call} refusal {}", refusal.number()),
    }
}
