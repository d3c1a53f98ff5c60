//! Build with limits that no link of an output exceeds which is not overloaded itself.

use reference::{slots_each, Refusal};

pub fn build(ports: u64, slots: u64, list: &[u16], frame: &mut [u16]) -> Result<u64, Refusal> {
    reference::build(ports, slots, list, &slots_each(slots), frame)
}
