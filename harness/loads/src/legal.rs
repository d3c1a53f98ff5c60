//! Legal frames that nobody built.

use crate::list::flows_of;
use crate::load::{Call, Shape};
use crate::random::Random;

/// A frame by inputs in which no slot uses a port twice, with flows of the list put at random wherever both their ports are free. Its
/// flows have any number of cells, and its blocks are as uneven as chance has them.
pub fn legal_frame(shape: Shape, call: &Call, random: &mut Random) -> Vec<u16> {
    let flows = flows_of(&call.list);
    let mut frame = vec![0; shape.frame_length()];
    if flows.is_empty() {
        return frame;
    }
    for slot in frame.chunks_mut(shape.ports) {
        let mut is_taken = vec![false; shape.ports];
        for _ in 0..random.place(2 * shape.ports + 1) {
            let place = random.place(flows.len());
            let flow = flows[place];
            if slot[flow.input] == 0 && !is_taken[flow.output] {
                slot[flow.input] = place as u16 + 1;
                is_taken[flow.output] = true;
            }
        }
    }
    frame
}
