//! The calls of a frame builder, so that one builder can stand in for another.

#![forbid(unsafe_code)]

mod in_c;
mod library;
mod program;

pub use in_c::InC;
pub use library::Library;
pub use reference::{Class, Count, Depth, Inspection, Limits, Refusal, Side};

/// What Admit and Turn answer.
pub type Answer = Result<(), Refusal>;

/// What Build answers: the odd counts settled.
pub type Built = Result<u64, Refusal>;

/// What Service count answers.
pub type Service = Result<Count, Refusal>;

/// Whose cells Service count counts, and the start and the length of the run.
pub type Question = (Class, (u64, u64));

/// What Depth answers.
pub type Bounded = Result<Depth, Refusal>;

/// What tells a call the input side of a frame.
pub const INPUT_SIDE: u64 = 0;

/// What tells it the output side, as does any number but 0.
pub const OUTPUT_SIDE: u64 = 1;

/// The calls a program makes on a frame builder; a list is its numbers, four to a flow, however many there are, and a side is a number as C
/// tells it.
pub trait Calls {
    /// Says whether the load would be built.
    fn admit(&self, ports: u64, slots: u64, list: &[u16], limits: &Limits) -> Answer;

    /// Fills the frame and says how many odd counts were settled, or refuses and leaves it as it was.
    fn build(
        &self,
        ports: u64,
        slots: u64,
        list: &[u16],
        limits: &Limits,
        frame: &mut [u16],
    ) -> Built;

    /// Looks a frame of this side, from anywhere, over against its list.
    fn inspect(&self, side: u64, ports: u64, slots: u64, list: &[u16], frame: &[u16])
        -> Inspection;

    /// Writes a frame of this side by the other side to the second buffer, or refuses and leaves that as it was.
    fn turn(
        &self,
        side: u64,
        ports: u64,
        slots: u64,
        list: &[u16],
        frame: &[u16],
        second: &mut [u16],
    ) -> Answer;

    /// The slot's own part of the frame, empty on refusal; the refusal's number goes to `number`.
    fn slot_view<'f>(
        &self,
        ports: u64,
        slots: u64,
        frame: &'f [u16],
        slot: u64,
        number: &mut u64,
    ) -> &'f [u16];

    /// Counts the cells of a class in a run of the repeating frame of this side, given by its start and its length, with their lead.
    fn service_count(
        &self,
        side: u64,
        ports: u64,
        slots: u64,
        list: &[u16],
        frame: &[u16],
        question: Question,
    ) -> Service;

    /// Says how far from its share a class can get, and how many cells to order for it.
    fn depth(&self, ports: u64, slots: u64, list: &[u16], class: Class) -> Bounded;
}

/// The sheet program: standard input in, standard output back.
pub trait SheetProgram {
    /// Everything printed for the sheet.
    fn respond(&self, sheet: &[u8]) -> Vec<u8>;
}

/// The reference builder behind the same calls.
#[derive(Clone, Copy, Debug, Default)]
pub struct Reference;

impl Calls for Reference {
    fn admit(&self, ports: u64, slots: u64, list: &[u16], limits: &Limits) -> Answer {
        reference::admit(ports, slots, list, limits)
    }

    fn build(
        &self,
        ports: u64,
        slots: u64,
        list: &[u16],
        limits: &Limits,
        frame: &mut [u16],
    ) -> Built {
        reference::build(ports, slots, list, limits, frame)
    }

    fn inspect(
        &self,
        side: u64,
        ports: u64,
        slots: u64,
        list: &[u16],
        frame: &[u16],
    ) -> Inspection {
        reference::inspect(Side::told(side), ports, slots, list, frame)
    }

    fn turn(
        &self,
        side: u64,
        ports: u64,
        slots: u64,
        list: &[u16],
        frame: &[u16],
        second: &mut [u16],
    ) -> Answer {
        reference::turn(Side::told(side), ports, slots, list, frame, second)
    }

    fn slot_view<'f>(
        &self,
        ports: u64,
        slots: u64,
        frame: &'f [u16],
        slot: u64,
        number: &mut u64,
    ) -> &'f [u16] {
        let view = reference::slot_view(ports, slots, frame, slot);
        *number = view.as_ref().map_or_else(|refusal| refusal.number(), |_| 0);
        view.map_or(&[], |range| &frame[range])
    }

    fn service_count(
        &self,
        side: u64,
        ports: u64,
        slots: u64,
        list: &[u16],
        frame: &[u16],
        (class, run): Question,
    ) -> Service {
        reference::service_count(Side::told(side), ports, slots, list, frame, class, run)
    }

    fn depth(&self, ports: u64, slots: u64, list: &[u16], class: Class) -> Bounded {
        reference::depth(ports, slots, list, class)
    }
}

impl SheetProgram for Reference {
    fn respond(&self, sheet: &[u8]) -> Vec<u8> {
        reference::respond(sheet)
    }
}
