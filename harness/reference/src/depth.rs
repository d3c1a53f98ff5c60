//! Depth.

use crate::admission::{check_list, check_port_loads};
use crate::order::{at_once, to_order};
use crate::query::Class;
use crate::refusal::{require, Refusal};
use crate::stray::stray;

/// What Depth answers.
#[derive(Clone, Copy, Debug, PartialEq, Eq)]
pub struct Depth {
    /// How far from its share a run can get, in parts of 1/slots of a cell.
    pub parts: u64,
    /// The cells to order, the source being even.
    pub cells: u64,
}

/// The bound of a class and the cells to order for it, by its load, or the first refusal of 1, 2, 3, 21, 22, 23, 5, 6, 12.
pub fn depth(ports: u64, slots: u64, list: &[u16], class: Class) -> Result<Depth, Refusal> {
    let flows = check_list(ports, slots, list)?;
    check_port_loads(ports, slots, &flows)?;
    require(class.is_within(ports, &flows), Refusal::FlowOrPort)?;
    let load = class.load_in(&flows);
    let k = slots.trailing_zeros();
    let parts = 2 * stray(k, load);
    let cells = to_order(k, load, at_once(k, 1));
    Ok(Depth { parts, cells })
}
