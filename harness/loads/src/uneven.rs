//! Frames with one block whose halves differ by two cells in one class alone.

use crate::damage::Block;
use crate::list::{Flow, LINKS, MOST_FLOWS};
use crate::load::{Call, Shape};
use crate::random::Random;

kinds! {
    /// The class whose cells are halved unevenly.
    Uneven {
        Flow = "flow",
        Input = "input",
        Output = "output",
        Link = "link",
    }
}

/// The half of a block that a cell is in.
#[derive(Clone, Copy)]
enum Half {
    Front,
    Back,
}

use Half::{Back, Front};

/// A flow with its cells in a block of each sort; the two have as many. Ports and links are counted from 0.
struct Laid {
    input: usize,
    output: usize,
    link: usize,
    evenly: &'static [Half],
    unevenly: &'static [Half],
}

const fn laid(
    [input, output, link]: [usize; 3],
    evenly: &'static [Half],
    unevenly: &'static [Half],
) -> Laid {
    Laid {
        input,
        output,
        link,
        evenly,
        unevenly,
    }
}

/// Two flows of one pair change places.
const BY_FLOW: [Laid; 2] = [
    laid([0, 0, 0], &[Front, Back], &[Front, Front]),
    laid([0, 0, 0], &[Front, Back], &[Back, Back]),
];

/// Two flows of an input are in the first half, and a third of another input in the second half.
const BY_INPUT: [Laid; 3] = [
    laid([0, 0, 0], &[Front], &[Front]),
    laid([0, 1, 0], &[Back], &[Front]),
    laid([1, 0, 0], &[Back], &[Back]),
];

/// The same with inputs and outputs exchanged, the two flows of the output on links of their own, which so stay balanced.
const BY_OUTPUT: [Laid; 3] = [
    laid([0, 0, 0], &[Front], &[Front]),
    laid([1, 0, 1], &[Back], &[Front]),
    laid([0, 1, 0], &[Back], &[Back]),
];

/// Two flows of a link are in the first half, and a third of another link of the same output in the second half.
const BY_LINK: [Laid; 3] = [
    laid([0, 0, 0], &[Front], &[Front]),
    laid([0, 0, 0], &[Back], &[Front]),
    laid([0, 0, 1], &[Back], &[Back]),
];

impl Uneven {
    fn flows(self) -> &'static [Laid] {
        match self {
            Uneven::Flow => &BY_FLOW,
            Uneven::Input => &BY_INPUT,
            Uneven::Output => &BY_OUTPUT,
            Uneven::Link => &BY_LINK,
        }
    }
}

/// A frame whose first fault is that the halves of this block differ by two cells of some flows, of an input, of an output or of a
/// link, and in nothing else, with its list. Every block of the same size has the same cells, the others of them halved evenly. The
/// shape has two ports or more and the block four slots or more: in a block of two an output, and so a link, has one cell a half.
pub fn uneven(by: Uneven, shape: Shape, block: Block, random: &mut Random) -> (Call, Vec<u16>) {
    let number = random.between(3, MOST_FLOWS as u64) as usize;
    let places = random.permutation(number);
    let mut flows: Vec<Flow> = places
        .iter()
        .map(|_| Flow::without_cells(shape.ports, random))
        .collect();
    let [inputs, outputs] = [0; 2].map(|_| random.permutation(shape.ports));
    let links = random.permutation(LINKS);
    let blocks = shape.slots / block.size;
    let mut frame = vec![0; shape.frame_length()];
    for (laid, &place) in by.flows().iter().zip(&places) {
        flows[place] = Flow {
            input: inputs[laid.input],
            output: outputs[laid.output],
            cells: (blocks * laid.evenly.len()) as u16,
            link: links[laid.link],
        };
    }
    for first in (0..shape.slots).step_by(block.size) {
        let is_uneven = first + 1 == block.slot;
        let slots = HalfSlots::of(first, block.size, random);
        lay(by, is_uneven, slots, |laid, place, slot| {
            frame[slot * shape.ports + inputs[laid.input]] = places[place] as u16 + 1;
        });
    }
    (shape.call(&flows), frame)
}

/// The slots of the two halves of a block, in any order.
struct HalfSlots {
    front: Vec<usize>,
    back: Vec<usize>,
}

impl HalfSlots {
    fn of(first: usize, size: usize, random: &mut Random) -> HalfSlots {
        let [front, back] = [first, first + size / 2].map(|begin| {
            let order = random.permutation(size / 2).into_iter();
            order.map(|slot| begin + slot).collect()
        });
        HalfSlots { front, back }
    }

    /// A slot of the half that was not taken before.
    fn take(&mut self, half: Half) -> usize {
        let slots = match half {
            Front => &mut self.front,
            Back => &mut self.back,
        };
        slots.pop().expect("a half has two slots or more")
    }
}

/// Lays the cells of one block, each in a slot of its own.
fn lay(
    by: Uneven,
    is_uneven: bool,
    mut slots: HalfSlots,
    mut put: impl FnMut(&Laid, usize, usize),
) {
    for (place, laid) in by.flows().iter().enumerate() {
        let halves = if is_uneven {
            laid.unevenly
        } else {
            laid.evenly
        };
        for &half in halves {
            put(laid, place, slots.take(half));
        }
    }
}
