//! Cases of Slot view and Service count.

use calls::{Calls, Class, Count, Question, Service, Side};
use loads::{junk_number, junk_of_shape, load_of_shape, random_shape, Call, LoadKind, Random};
use reference::LONGEST_RUN;

use crate::build_case::lend;
use crate::hits::Hits;
use crate::lent::Lent;
use crate::share_case::random_class;
use crate::turn_case::on_side;
use crate::verdict::{expect, expect_equal, outcome, told, Verdict};

loads::kinds! {
    /// Which slot is asked for, of what.
    ViewKind {
        Good = "good",
        SlotOutside = "slot-outside",
        Junk = "junk",
    }
}

loads::kinds! {
    /// Which run is asked for, of what.
    RunKind {
        None = "none",
        Short = "short",
        WholeFrames = "whole-frames",
        Longest = "longest",
        Junk = "junk",
    }
}

/// Holds views against the entries of the frame itself, by place.
pub fn check_view(
    candidate: &dyn Calls,
    kind: ViewKind,
    random: &mut Random,
    hits: &mut Hits,
) -> Verdict {
    let (call, frame) = any_frame(Side::Input, kind == ViewKind::Junk, random);
    for _ in 0..4 {
        let good = random.between(1, call.slots.clamp(1, 1_024));
        let slot = match kind {
            ViewKind::Good => random.pick(&[1, good, call.slots]),
            ViewKind::SlotOutside => random.pick(&[0, call.slots + 1, good + (1 << 32), u64::MAX]),
            ViewKind::Junk => random_number(good, random),
        };
        view_and_compare(candidate, &call, &frame, slot, random, hits)?;
    }
    Ok(())
}

/// The view must be the frame's own entries, and the lent number must be written.
pub fn view_and_compare(
    candidate: &dyn Calls,
    call: &Call,
    frame: &Lent,
    slot: u64,
    random: &mut Random,
    hits: &mut Hits,
) -> Verdict {
    let before = frame.clone();
    let mut number = random.draw();
    let part = candidate.slot_view(call.ports, call.slots, frame.part(), slot, &mut number);
    let right = reference::slot_view(call.ports, call.slots, frame.part(), slot);
    hits.add(outcome("view", &right));
    match right {
        Ok(range) => {
            expect_equal("number of a shown slot", &number, &0)?;
            let own = &frame.part()[range];
            expect(std::ptr::eq(part, own), || {
                format!("slot {slot}: not the frame's own part")
            })?;
        }
        Err(refusal) => {
            expect_equal("number of a refused view", &number, &refusal.number())?;
            expect_equal("length of a refused view", &part.len(), &0)?;
        }
    }
    frame.expect_same("frame after view", &before)
}

/// Holds Service count against a count slot by slot.
pub fn check_count(
    candidate: &dyn Calls,
    side: Side,
    kind: RunKind,
    random: &mut Random,
    hits: &mut Hits,
) -> Verdict {
    let (call, frame) = any_frame(side, kind == RunKind::Junk, random);
    let run = start_and_length(kind, call.slots, random);
    let mut class = counted_class(&call, &frame, random);
    if kind == RunKind::Junk && random.one_in(3) {
        class = junk_class(&call, random);
    }
    let (side, question) = (side.number(), (class, run));
    count_and_compare(candidate, side, &call, &frame, question, random, hits).map(|_| ())
}

/// A class of the switch; a flow is one that is in the frame, where an entry at random is one.
pub fn counted_class(call: &Call, frame: &Lent, random: &mut Random) -> Class {
    let entries = frame.part();
    let entry = entries.get(random.place(entries.len().max(1)));
    let number = u64::from(entry.copied().unwrap_or_default());
    let is_flow = (1..=call.flows() as u64).contains(&number);
    match random_class(call.ports.clamp(1, 16), call.flows(), random) {
        Class::Flow { .. } if is_flow => Class::Flow { number },
        any => any,
    }
}

/// Counts with the candidate and the reference and compares; what both answered.
pub fn count_and_compare(
    candidate: &dyn Calls,
    side: u64,
    call: &Call,
    frame: &Lent,
    question: Question,
    random: &mut Random,
    hits: &mut Hits,
) -> Result<Service, String> {
    let list = lend(&call.list, random);
    let (list_before, frame_before) = (list.clone(), frame.clone());
    let Call { ports, slots, .. } = *call;
    let entries = frame.part();
    let given = candidate.service_count(side, ports, slots, list.part(), entries, question);
    let ((class, run), of) = (question, Side::told(side));
    let right = reference::service_count(of, ports, slots, &call.list, entries, class, run);
    let name = told("count", side);
    hits.add(outcome(&name, &right));
    if let Ok(Count { lead, .. }) = right {
        hits.add(format!("{name} of {}", class_name(class)));
        hits.add(format!("{name} with lead {}", lead_name(lead)));
    }
    expect_equal("count", &given, &right)?;
    list.expect_same("list after count", &list_before)?;
    frame.expect_same("frame after count", &frame_before)?;
    Ok(given)
}

/// A list, and a frame of random entries or its own on this side, in a shape that may be wrong.
fn any_frame(side: Side, junk: bool, random: &mut Random) -> (Call, Lent) {
    let shape = random_shape(random);
    let kinds = [
        LoadKind::Scattered,
        LoadKind::SpreadLinks,
        LoadKind::Sparse,
        LoadKind::MostFlows,
        LoadKind::NoFlows,
    ];
    let mut call = load_of_shape(random.pick(&kinds), shape, random);
    let mut entries = on_side(side, &call, any_entries(&call, random));
    if junk {
        call = junk_of_shape(shape, random);
        entries.resize(call.frame_length, 1);
    }
    let frame = lend(&entries, random);
    (call, frame)
}

/// Entries for a frame: any, or any flows and some that are none, or those that Build leaves, or one flow for all inputs and then
/// nothing.
pub fn any_entries(call: &Call, random: &mut Random) -> Vec<u16> {
    let mut entries = random.entries(call.frame_length);
    let flows = call.flows() as u64;
    match random.below(4) {
        0 => entries.fill_with(|| random.between(0, flows + 1) as u16),
        1 => drop(reference::build(
            call.ports,
            call.slots,
            &call.list,
            &call.limits,
            &mut entries,
        )),
        2 => {
            let (busy, idle) = entries.split_at_mut(random.place(call.frame_length + 1));
            busy.fill(random.between(1, flows.max(1)) as u16);
            idle.fill(0);
        }
        _ => {}
    }
    entries
}

/// A start slot and a length of the kind.
fn start_and_length(kind: RunKind, slots: u64, random: &mut Random) -> (u64, u64) {
    let start = random.between(1, slots.clamp(1, 1_024));
    match kind {
        RunKind::None => (start, 0),
        RunKind::Short => (start, random.between(0, 3 * slots)),
        RunKind::WholeFrames => (start, slots * random.between(1, 8)),
        RunKind::Longest => (start, long_length(slots, random)),
        RunKind::Junk => {
            let length = random_number(random.between(0, 100), random);
            let over = random.pick(&[LONGEST_RUN + 1, 1 << 32, u64::MAX]);
            let too_long = random.one_in(3);
            let length = if too_long { over } else { length };
            (random_number(start, random), length)
        }
    }
}

/// The longest run now and then, most times one of many frames.
fn long_length(slots: u64, random: &mut Random) -> u64 {
    match random.below(64) {
        0 => LONGEST_RUN,
        1 => LONGEST_RUN - random.below(1_000),
        _ => random.between(0, 40 * slots),
    }
}

/// The number itself three times in four, else a junk one.
fn random_number(good: u64, random: &mut Random) -> u64 {
    if random.one_in(4) {
        junk_number(good, random)
    } else {
        good
    }
}

/// A class that names a port outside the switch or a flow that is not in the list, one that may still fit a byte or 16 bits.
pub fn junk_class(call: &Call, random: &mut Random) -> Class {
    let far = random.pick(&[0, 17, 255, 256, u64::MAX, (1 << 32) + 1]);
    let outside = |last: u64, random: &mut Random| random.pick(&[last.wrapping_add(1), far]);
    match random.below(4) {
        0 => Class::Input {
            port: outside(call.ports, random),
        },
        1 => Class::Output {
            port: outside(call.ports, random),
        },
        _ => Class::Flow {
            number: random.pick(&[call.flows() as u64 + 1, 513, 1 << 16, (1 << 16) + 1, far]),
        },
    }
}

fn lead_name(lead: i64) -> &'static str {
    match lead {
        1.. => "above 0",
        0 => "0",
        _ => "below 0",
    }
}

pub fn class_name(class: Class) -> &'static str {
    match class {
        Class::Flow { .. } => "flow",
        Class::Input { .. } => "input",
        Class::Output { .. } => "output",
    }
}
