//! Cases of Turn.

use calls::{Answer, Calls, Inspection, Refusal, Side};
use loads::{flows_of, junk_of_shape, legal_frame, load_of_shape, random_shape};
use loads::{Call, Damage, LoadKind, Random, Shape};

use crate::build_case::{has_several_links, lend, over_links};
use crate::hits::{Hits, TURNED_BACK, TURN_OF_A_PAIR, TURN_OVER_LINKS};
use crate::inspect_case::{built_on, damaged_on, inspect_and_compare};
use crate::lent::Lent;
use crate::query_case::{any_entries, count_and_compare, counted_class};
use crate::verdict::{expect, expect_equal, outcome, told, Verdict};

loads::kinds! {
    /// Which frame is turned, and into what.
    TurnKind {
        Built = "built",
        Legal = "legal",
        Damaged = "damaged",
        AnyEntries = "any-entries",
        OtherLength = "other-length",
        Junk = "junk",
    }
}

/// Turns a frame of either side, and holds all that was written to the reference. What turns must turn back, and both sides of it must
/// have one inspection and the same counts.
pub fn check_turn(
    candidate: &dyn Calls,
    kind: TurnKind,
    random: &mut Random,
    hits: &mut Hits,
) -> Verdict {
    let side = random.pick(&Side::BOTH);
    let shape = random_shape(random);
    let call = load_of_shape(random.pick(&LoadKind::FITTING), shape, random);
    let mut call = over_links(call, random);
    let frame = frame_of(kind, side, shape, &mut call, random);
    let length = match kind {
        TurnKind::OtherLength => other_length(frame.len(), random),
        TurnKind::Junk if random.one_in(4) => other_length(frame.len(), random),
        _ => frame.len(),
    };
    let frame = lend(&frame, random);
    let mut second = lend(&random.entries(length), random);
    let side = side.number();
    let answer = turn_and_compare(candidate, side, &call, &frame, &mut second, random, hits)?;
    if answer.is_ok() {
        note_turned(&call, hits);
        expect_agreement(candidate, side, &call, [&frame, &second], random, hits)?;
    }
    Ok(())
}

/// The entries of a frame of the kind, on this side or meant for it; the call may be made another.
fn frame_of(
    kind: TurnKind,
    side: Side,
    shape: Shape,
    call: &mut Call,
    random: &mut Random,
) -> Vec<u16> {
    match kind {
        TurnKind::Built => built_on(side, call),
        TurnKind::Legal => on_side(side, call, legal_frame(shape, call, random)),
        TurnKind::OtherLength if random.one_in(2) => built_on(side, call),
        TurnKind::Damaged | TurnKind::OtherLength => {
            damaged_on(side, random.pick(Damage::ALL), shape, call, random)
        }
        TurnKind::AnyEntries => on_side(side, call, any_entries(call, random)),
        TurnKind::Junk => {
            let mut frame = built_on(side, call);
            *call = junk_of_shape(shape, random);
            frame.resize(call.frame_length, 1);
            frame
        }
    }
}

/// A length that is not this one: none, next to it, twice as long, or any.
fn other_length(length: usize, random: &mut Random) -> usize {
    let any = random.place(2 * length + 2);
    let other = [0, length.saturating_sub(1), length + 1, 2 * length, any];
    match random.pick(&other) {
        same if same == length => length + 1,
        other => other,
    }
}

/// A frame by inputs on this side, by the reference, or as it is where it does not turn.
pub fn on_side(side: Side, call: &Call, frame: Vec<u16>) -> Vec<u16> {
    let mut second = frame.clone();
    if side == Side::Output {
        let Call { ports, slots, .. } = *call;
        // Where it is refused, the copy is left as it was.
        let _ = reference::turn(Side::Input, ports, slots, &call.list, &frame, &mut second);
    }
    second
}

/// Turns with the candidate and the reference into the same entries and compares all of them; what both answered.
pub fn turn_and_compare(
    candidate: &dyn Calls,
    side: u64,
    call: &Call,
    frame: &Lent,
    second: &mut Lent,
    random: &mut Random,
    hits: &mut Hits,
) -> Result<Answer, String> {
    let list = lend(&call.list, random);
    let (list_before, frame_before) = (list.clone(), frame.clone());
    let mut expected = second.clone();
    let Call { ports, slots, .. } = *call;
    let (entries, written) = (frame_before.part(), expected.part_mut());
    let right = reference::turn(Side::told(side), ports, slots, &call.list, entries, written);
    let (entries, written) = (frame.part(), second.part_mut());
    let answer = candidate.turn(side, ports, slots, list.part(), entries, written);
    note_answer(side, call, frame, right, hits);
    expect_equal("turn", &answer, &right)?;
    second.expect_same("second buffer after turn", &expected)?;
    frame.expect_same("frame after turn", &frame_before)?;
    list.expect_same("list after turn", &list_before)?;
    Ok(answer)
}

/// Notes the answer, and of 14 what it was for.
fn note_answer(side: u64, call: &Call, frame: &Lent, answer: Answer, hits: &mut Hits) {
    let name = outcome(&told("turn", side), &answer);
    if answer == Err(Refusal::Entries) {
        let Call { ports, slots, .. } = *call;
        let (side, entries) = (Side::told(side), frame.part());
        let why = match reference::inspect(side, ports, slots, &call.list, entries) {
            Inspection::WrongEntry { .. } => "a wrong entry",
            Inspection::PortTwice { .. } => "a port twice",
            other => panic!("{other:?} is no reason for 14"),
        };
        hits.add(format!("{name} by {why}"));
    }
    hits.add(name);
}

/// Notes what a frame that turned was like.
fn note_turned(call: &Call, hits: &mut Hits) {
    hits.add(format!("turn with {} ports", call.ports));
    hits.add(format!("turn with {} slots", call.slots));
    let flows = flows_of(&call.list);
    if has_several_links(&flows) {
        hits.add(TURN_OVER_LINKS);
    }
    let mut pairs: Vec<_> = flows.iter().map(|flow| (flow.input, flow.output)).collect();
    pairs.sort();
    if pairs.is_sorted_by(|one, other| one < other) {
        return;
    }
    hits.add(TURN_OF_A_PAIR);
}

/// Holds the two sides of one frame to each other: turned back it has its entries again, and what Inspect finds and what Service count
/// counts is the same of both.
fn expect_agreement(
    candidate: &dyn Calls,
    side: u64,
    call: &Call,
    [frame, second]: [&Lent; 2],
    random: &mut Random,
    hits: &mut Hits,
) -> Verdict {
    let other = Side::told(side).other().number();
    let mut back = lend(&random.entries(frame.part().len()), random);
    let answer = turn_and_compare(candidate, other, call, second, &mut back, random, hits)?;
    expect_equal("turn back", &answer, &Ok(()))?;
    expect(back.part() == frame.part(), || {
        "turned back it has other entries".into()
    })?;
    let found = inspect_and_compare(candidate, side, call, frame, random, hits)?;
    let of_other = inspect_and_compare(candidate, other, call, second, random, hits)?;
    expect_equal("inspect of the turned frame", &of_other, &found)?;
    for _ in 0..4 {
        let class = counted_class(call, frame, random);
        let run = (
            random.between(1, call.slots),
            random.between(0, 3 * call.slots),
        );
        let question = (class, run);
        let count = count_and_compare(candidate, side, call, frame, question, random, hits)?;
        let of_other = count_and_compare(candidate, other, call, second, question, random, hits)?;
        expect_equal("count in the turned frame", &of_other, &count)?;
    }
    hits.add(TURNED_BACK);
    Ok(())
}
