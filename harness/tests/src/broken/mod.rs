//! Builders that must be sent back, each the reference with one call replaced.

mod admissions;
mod builds;
mod counts;
mod depths;
mod inspections;
mod sheets;
mod splits;
mod turns;
mod views;

pub use admissions::*;
pub use builds::*;
pub use counts::*;
pub use depths::*;
pub use inspections::*;
pub use sheets::*;
pub use splits::*;
pub use turns::*;
pub use views::*;

use calls::{Answer, Bounded, Built, Calls, Class, Inspection, Limits, Question, Refusal};
use calls::{Service, SheetProgram, Side};
use loads::Flow;

/// What Admit and Build are asked for.
#[derive(Clone, Copy)]
pub struct Asked<'a> {
    pub ports: u64,
    pub slots: u64,
    pub list: &'a [u16],
    pub limits: &'a Limits,
}

impl Asked<'_> {
    /// What the reference's Admit answers.
    fn admit(self) -> Answer {
        reference::admit(self.ports, self.slots, self.list, self.limits)
    }

    /// What the reference's Build does.
    fn build(self, frame: &mut [u16]) -> Built {
        reference::build(self.ports, self.slots, self.list, self.limits, frame)
    }
}

/// A frame that Inspect is to look over or Turn to turn.
#[derive(Clone, Copy)]
pub struct AskedFrame<'a> {
    pub side: u64,
    pub ports: u64,
    pub slots: u64,
    pub list: &'a [u16],
    pub frame: &'a [u16],
}

impl AskedFrame<'_> {
    /// What the reference finds.
    fn inspect(self) -> Inspection {
        let AskedFrame {
            side,
            ports,
            slots,
            list,
            frame,
        } = self;
        reference::inspect(Side::told(side), ports, slots, list, frame)
    }

    /// What the reference's Turn does.
    fn turn(self, second: &mut [u16]) -> Answer {
        let AskedFrame {
            side,
            ports,
            slots,
            list,
            frame,
        } = self;
        reference::turn(Side::told(side), ports, slots, list, frame, second)
    }

    /// The first refusal that Turn has before it looks at the second buffer.
    fn refusal(self) -> Option<Refusal> {
        match self.inspect() {
            Inspection::Refused(refusal) => Some(refusal),
            _ => None,
        }
    }
}

/// What Service count is asked for.
#[derive(Clone, Copy)]
pub struct AskedCount<'a> {
    pub side: u64,
    pub ports: u64,
    pub slots: u64,
    pub list: &'a [u16],
    pub frame: &'a [u16],
    pub class: Class,
    pub start: u64,
    pub length: u64,
}

impl AskedCount<'_> {
    /// What the reference answers.
    fn count(self) -> Service {
        let AskedCount {
            ports,
            slots,
            list,
            frame,
            class,
            ..
        } = self;
        let (side, run) = (Side::told(self.side), (self.start, self.length));
        reference::service_count(side, ports, slots, list, frame, class, run)
    }
}

/// What Depth is asked for.
#[derive(Clone, Copy)]
pub struct AskedDepth<'a> {
    pub ports: u64,
    pub slots: u64,
    pub list: &'a [u16],
    pub class: Class,
}

impl AskedDepth<'_> {
    /// What the reference answers.
    fn depth(self) -> Bounded {
        reference::depth(self.ports, self.slots, self.list, self.class)
    }
}

type AdmitCall = fn(Asked) -> Answer;
pub type BuildCall = fn(Asked, &mut [u16]) -> Built;
pub type InspectCall = fn(AskedFrame) -> Inspection;
type TurnCall = fn(AskedFrame, &mut [u16]) -> Answer;
type ViewCall = for<'f> fn(u64, u64, &'f [u16], u64, &mut u64) -> &'f [u16];
type CountCall = fn(AskedCount) -> Service;
type DepthCall = fn(AskedDepth) -> Bounded;

/// A builder made up of calls from different hands.
pub struct Broken {
    pub admit: AdmitCall,
    pub build: BuildCall,
    pub inspect: InspectCall,
    pub turn: TurnCall,
    pub slot_view: ViewCall,
    pub service_count: CountCall,
    pub depth: DepthCall,
    pub respond: fn(&[u8]) -> Vec<u8>,
}

impl Default for Broken {
    /// The reference's own calls, to replace some of.
    fn default() -> Broken {
        Broken {
            admit: |asked| asked.admit(),
            build: right_build,
            inspect: |asked| asked.inspect(),
            turn: |asked, second| asked.turn(second),
            slot_view: right_view,
            service_count: |asked| asked.count(),
            depth: |asked| asked.depth(),
            respond: reference::respond,
        }
    }
}

impl Calls for Broken {
    fn admit(&self, ports: u64, slots: u64, list: &[u16], limits: &Limits) -> Answer {
        (self.admit)(Asked {
            ports,
            slots,
            list,
            limits,
        })
    }

    fn build(
        &self,
        ports: u64,
        slots: u64,
        list: &[u16],
        limits: &Limits,
        frame: &mut [u16],
    ) -> Built {
        let asked = Asked {
            ports,
            slots,
            list,
            limits,
        };
        (self.build)(asked, frame)
    }

    fn inspect(
        &self,
        side: u64,
        ports: u64,
        slots: u64,
        list: &[u16],
        frame: &[u16],
    ) -> Inspection {
        (self.inspect)(AskedFrame {
            side,
            ports,
            slots,
            list,
            frame,
        })
    }

    fn turn(
        &self,
        side: u64,
        ports: u64,
        slots: u64,
        list: &[u16],
        frame: &[u16],
        second: &mut [u16],
    ) -> Answer {
        let asked = AskedFrame {
            side,
            ports,
            slots,
            list,
            frame,
        };
        (self.turn)(asked, second)
    }

    fn slot_view<'f>(
        &self,
        ports: u64,
        slots: u64,
        frame: &'f [u16],
        slot: u64,
        number: &mut u64,
    ) -> &'f [u16] {
        (self.slot_view)(ports, slots, frame, slot, number)
    }

    fn service_count(
        &self,
        side: u64,
        ports: u64,
        slots: u64,
        list: &[u16],
        frame: &[u16],
        (class, (start, length)): Question,
    ) -> Service {
        (self.service_count)(AskedCount {
            side,
            ports,
            slots,
            list,
            frame,
            class,
            start,
            length,
        })
    }

    fn depth(&self, ports: u64, slots: u64, list: &[u16], class: Class) -> Bounded {
        (self.depth)(AskedDepth {
            ports,
            slots,
            list,
            class,
        })
    }
}

impl SheetProgram for Broken {
    fn respond(&self, sheet: &[u8]) -> Vec<u8> {
        (self.respond)(sheet)
    }
}

/// The port of a side that a flow uses, counted from 0.
fn port_of(side: Side, flow: &Flow) -> usize {
    match side {
        Side::Input => flow.input,
        Side::Output => flow.output,
    }
}

/// A number as a 32-bit word keeps it.
fn cut(number: u64) -> u64 {
    number & 0xffff_ffff
}
