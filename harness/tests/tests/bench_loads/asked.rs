//! Calls with all that they are given, which any builder can be asked; an answer is its numbers.

use calls::{Calls, Class, Inspection, Limits, Question, Refusal, Side, INPUT_SIDE};
use reference::slots_each;

/// What no entry of these frames is, so that an entry which is not written shows.
const UNWRITTEN: u16 = 0xa5a5;

/// A call to make; the refusal's number or 0 comes back first, then the values of the answer.
pub type Asked = Box<dyn Fn(&dyn Calls) -> Vec<i64>>;

fn accepted(values: impl IntoIterator<Item = i64>) -> Vec<i64> {
    [0].into_iter().chain(values).collect()
}

fn refused(refusal: Refusal) -> Vec<i64> {
    let numbers = refusal.numbers().into_iter();
    numbers.map(|number| number as i64).collect()
}

pub fn admit_within(ports: u64, slots: u64, list: &[u16], limits: Limits) -> Asked {
    let list = list.to_vec();
    Box::new(move |calls| {
        let answer = calls.admit(ports, slots, &list, &limits);
        answer.map_or_else(refused, |()| accepted([]))
    })
}

/// Admit where the limit of each link is the slots.
pub fn admit(ports: u64, slots: u64, list: &[u16]) -> Asked {
    admit_within(ports, slots, list, slots_each(slots))
}

/// The frame of a load. Admit must answer as Build does, a built frame must be clean, and a refused one as it was.
pub fn built(calls: &dyn Calls, ports: u64, slots: u64, list: &[u16]) -> Result<Vec<u16>, Refusal> {
    let limits = slots_each(slots);
    let mut frame = vec![UNWRITTEN; (ports * slots) as usize];
    let answer = calls.build(ports, slots, list, &limits, &mut frame);
    let answer = answer.map(|_| ());
    assert_eq!(calls.admit(ports, slots, list, &limits), answer);
    match answer {
        Ok(()) => {
            let found = calls.inspect(INPUT_SIDE, ports, slots, list, &frame);
            assert_eq!(found, Inspection::Clean);
        }
        Err(_) => assert!(frame.iter().all(|&entry| entry == UNWRITTEN)),
    }
    answer.map(|()| frame)
}

/// Build where the limit of each link is the slots; the values are the entries of the frame.
pub fn build(ports: u64, slots: u64, list: &[u16]) -> Asked {
    let list = list.to_vec();
    Box::new(move |calls| {
        let frame = built(calls, ports, slots, &list);
        frame.map_or_else(refused, |frame| accepted(frame.into_iter().map(i64::from)))
    })
}

/// Slot view; the values are the entries of the part, which is empty on refusal.
pub fn view(ports: u64, slots: u64, frame: &[u16], slot: u64) -> Asked {
    let frame = frame.to_vec();
    Box::new(move |calls| {
        let mut number = u64::MAX;
        let part = calls.slot_view(ports, slots, &frame, slot, &mut number);
        let part = part.iter().copied().map(i64::from);
        [number as i64].into_iter().chain(part).collect()
    })
}

/// Inspect; the number of the fault comes first, then its values.
pub fn inspect(side: u64, ports: u64, slots: u64, list: &[u16], frame: &[u16]) -> Asked {
    let (list, frame) = (list.to_vec(), frame.to_vec());
    Box::new(move |calls| {
        let numbers = match calls.inspect(side, ports, slots, &list, &frame) {
            Inspection::Clean => vec![0],
            Inspection::WrongEntry { slot, port } => vec![101, slot, port],
            Inspection::PortTwice { slot, port } => vec![102, slot, port],
            Inspection::FlowCount { flow } => vec![103, flow],
            Inspection::UnbalancedBlock { slot, size } => vec![104, slot, size],
            Inspection::Refused(refusal) => return refused(refusal),
        };
        numbers.into_iter().map(|number| number as i64).collect()
    })
}

/// Turn into a second buffer of so many entries; the values are what it then has. A refused one must be as it was, and what turns must
/// turn back to the same entries.
pub fn turn_into(
    length: usize,
    side: u64,
    ports: u64,
    slots: u64,
    list: &[u16],
    frame: &[u16],
) -> Asked {
    let (list, frame) = (list.to_vec(), frame.to_vec());
    Box::new(move |calls| {
        let mut second = vec![UNWRITTEN; length];
        let answer = calls.turn(side, ports, slots, &list, &frame, &mut second);
        let Err(refusal) = answer else {
            let other = Side::told(side).other().number();
            let mut back = vec![UNWRITTEN; length];
            let answer = calls.turn(other, ports, slots, &list, &second, &mut back);
            assert_eq!((answer, &back), (Ok(()), &frame), "turned back");
            return accepted(second.into_iter().map(i64::from));
        };
        assert!(second.iter().all(|&entry| entry == UNWRITTEN));
        refused(refusal)
    })
}

/// Turn into a second buffer of the frame's length.
pub fn turn(side: u64, ports: u64, slots: u64, list: &[u16], frame: &[u16]) -> Asked {
    turn_into(frame.len(), side, ports, slots, list, frame)
}

/// Service count in a frame of this side; the values are the cells and their lead.
pub fn count_on(
    side: u64,
    ports: u64,
    slots: u64,
    list: &[u16],
    frame: &[u16],
    question: Question,
) -> Asked {
    let (list, frame) = (list.to_vec(), frame.to_vec());
    Box::new(move |calls| {
        let answer = calls.service_count(side, ports, slots, &list, &frame, question);
        answer.map_or_else(refused, |count| accepted([count.cells as i64, count.lead]))
    })
}

/// The same in one of the input side.
pub fn count(
    ports: u64,
    slots: u64,
    list: &[u16],
    frame: &[u16],
    class: Class,
    start: u64,
    length: u64,
) -> Asked {
    let question = (class, (start, length));
    count_on(INPUT_SIDE, ports, slots, list, frame, question)
}

/// Depth; the values are the bound in parts and the cells to order.
pub fn depth(ports: u64, slots: u64, list: &[u16], class: Class) -> Asked {
    let list = list.to_vec();
    Box::new(move |calls| {
        let answer = calls.depth(ports, slots, &list, class);
        answer.map_or_else(refused, |depth| {
            accepted([depth.parts, depth.cells].map(|value| value as i64))
        })
    })
}

pub fn flow(number: u64) -> Class {
    Class::Flow { number }
}

pub fn input(port: u64) -> Class {
    Class::Input { port }
}

pub fn output(port: u64) -> Class {
    Class::Output { port }
}
