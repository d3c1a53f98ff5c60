//! Hostile calls: any number in any place, sides too, slices of any length, any limits.

use std::fmt::{self, Display, Formatter};

use calls::{Class, Side};
use loads::{
    hostile_length, hostile_limit, hostile_link, hostile_number, hostile_port, load_of_shape,
    random_shape, unbalance_total, Call, Damage, LengthKind, LimitKind, Limits, LoadKind, Random,
    Shape, FLOW_NUMBERS, HOSTILE, LINKS, MOST_FLOWS,
};

use crate::build_case::over_links;
use crate::hits::Hits;
use crate::inspect_case::{block_of_frame, built, damage_on};
use crate::query_case::any_entries;
use crate::share_case::random_class;
use crate::turn_case::on_side;

/// The most numbers of an overlong list, those of four of the longest.
const MOST_NUMBERS: usize = 4 * MOST_FLOWS * FLOW_NUMBERS;

/// The most entries of an overlong frame, two of the longest.
const MOST_ENTRIES: usize = 2 * 16_384;

loads::kinds! {
    /// The call that is made.
    HostileKind {
        Admit = "admit",
        Build = "build",
        Inspect = "inspect",
        View = "view",
        Count = "count",
        Depth = "depth",
        Turn = "turn",
    }
}

/// Numbers that all tell the output side.
const OUTPUT_SIDES: [u64; 8] = [1, 2, 3, 17, 256, 1 << 16, 1 << 32, u64::MAX];

impl HostileKind {
    /// The places for a number.
    pub fn numbers(self) -> &'static [&'static str] {
        match self {
            HostileKind::Admit | HostileKind::Build => &["ports", "slots"],
            HostileKind::Inspect | HostileKind::Turn => &["side", "ports", "slots"],
            HostileKind::View => &["ports", "slots", "slot"],
            HostileKind::Count => &[
                "side", "ports", "slots", "start", "length", "flow", "input", "output",
            ],
            HostileKind::Depth => &["ports", "slots", "flow", "input", "output"],
        }
    }

    /// Whether the call is told the side of its frame.
    fn is_told_side(self) -> bool {
        self.numbers().contains(&"side")
    }

    /// Whether the call takes limits.
    pub fn has_limits(self) -> bool {
        matches!(self, HostileKind::Admit | HostileKind::Build)
    }

    /// The places for a slice.
    pub fn slices(self) -> &'static [&'static str] {
        match self {
            HostileKind::Admit | HostileKind::Depth => &["list"],
            HostileKind::Build | HostileKind::Inspect | HostileKind::Count => &["list", "frame"],
            HostileKind::View => &["frame"],
            HostileKind::Turn => &["list", "frame", "second"],
        }
    }
}

/// The name that something given goes by in the counts of what was hit.
pub fn name_of(kind: HostileKind, place: &str, given: impl Display) -> String {
    format!("given {} {place} {given}", kind.name())
}

/// What a call is given; not every call takes all of it.
pub struct Given {
    pub side: u64,
    pub call: Call,
    pub frame: Vec<u16>,
    pub second: Vec<u16>,
    pub class: Class,
    pub slot: u64,
    pub length: u64,
}

impl Display for Given {
    fn fmt(&self, to: &mut Formatter<'_>) -> fmt::Result {
        let Call { ports, slots, .. } = self.call;
        let (numbers, entries) = (self.call.list.len(), self.frame.len());
        let (side, second) = (self.side, self.second.len());
        write!(
            to,
            "side {side}, {ports} ports, {slots} slots, {numbers} numbers, {entries} entries, {second} in the second buffer, "
        )?;
        write!(
            to,
            "{:?} from {} for {}",
            self.class, self.slot, self.length
        )
    }
}

/// What a call of the kind is given, good at first and then spoiled.
pub fn hostile_call(kind: HostileKind, random: &mut Random, hits: &mut Hits) -> Given {
    let mut given = good_call(kind, random);
    let mut spoiler = Spoiler {
        kind,
        hostile: random.below(5),
        random,
        hits,
    };
    spoiler.spoil(&mut given);
    given
}

/// A call within the limits.
fn good_call(kind: HostileKind, random: &mut Random) -> Given {
    let side = good_side(kind, random);
    let (call, frame) = match kind {
        HostileKind::Inspect if random.one_in(4) => unbalanced(Side::told(side), random),
        _ => load_and_frame(kind, Side::told(side), random),
    };
    let second = match kind {
        HostileKind::Turn => random.entries(frame.len()),
        _ => Vec::new(),
    };
    Given {
        class: random_class(call.ports, call.flows(), random),
        slot: random.between(1, call.slots),
        length: random.between(0, 3 * call.slots),
        side,
        call,
        frame,
        second,
    }
}

/// A frame of this side with an uneven block of any size, which damage seldom leads to.
fn unbalanced(side: Side, random: &mut Random) -> (Call, Vec<u16>) {
    let (shape, block) = block_of_frame(1, random);
    let (call, frame) = unbalance_total(shape, block, built, random);
    let frame = on_side(side, &call, frame);
    (call, frame)
}

/// A load, and a frame of this side where the call is lent one.
fn load_and_frame(kind: HostileKind, side: Side, random: &mut Random) -> (Call, Vec<u16>) {
    let shape = random_shape(random);
    let loads = match kind {
        HostileKind::Inspect => &LoadKind::FITTING,
        _ => &LoadKind::ALL[..LoadKind::ALL.len() - LoadKind::ILL_FORMED.len() - 1],
    };
    let call = load_of_shape(random.pick(loads), shape, random);
    let mut call = over_links(call, random);
    let frame = match kind {
        HostileKind::Admit | HostileKind::Depth => Vec::new(),
        HostileKind::Build => random.entries(call.frame_length),
        _ => any_frame(side, shape, &mut call, random),
    };
    (call, frame)
}

/// Either side, the output side by any number that tells it; the input side for a call that is told none.
fn good_side(kind: HostileKind, random: &mut Random) -> u64 {
    if kind.is_told_side() && random.one_in(2) {
        random.pick(&OUTPUT_SIDES)
    } else {
        Side::Input.number()
    }
}

/// A frame of any entries, often built and damaged, on this side where it turns.
fn any_frame(side: Side, shape: Shape, call: &mut Call, random: &mut Random) -> Vec<u16> {
    let mut frame = on_side(side, call, any_entries(call, random));
    let kind = random.pick(&Damage::ALL[..Damage::ALL.len() - 1]);
    damage_on(side, kind, shape, call, &mut frame, random);
    frame
}

/// Puts hostile numbers and lengths in the place of good ones.
struct Spoiler<'s> {
    kind: HostileKind,
    /// So many in four are hostile.
    hostile: u64,
    random: &'s mut Random,
    hits: &'s mut Hits,
}

impl Spoiler<'_> {
    fn spoil(&mut self, given: &mut Given) {
        if self.kind.is_told_side() {
            given.side = self.side(given.side);
        }
        given.call.ports = self.number("ports", given.call.ports);
        given.call.slots = self.number("slots", given.call.slots);
        self.spoil_slices(given);
        if self.kind.has_limits() {
            self.spoil_limits(given.call.slots, &mut given.call.limits);
        }
        if self.kind == HostileKind::View {
            given.slot = self.number("slot", given.slot);
        }
        if self.kind == HostileKind::Count {
            given.slot = self.number("start", given.slot);
            given.length = self.number("length", given.length);
        }
        if matches!(self.kind, HostileKind::Count | HostileKind::Depth) {
            given.class = self.class(given.class);
        }
    }

    fn spoil_slices(&mut self, given: &mut Given) {
        let Call { ports, slots, .. } = given.call;
        if self.kind.slices().contains(&"list") {
            self.spoil_list(&mut given.call.list, ports);
        }
        if self.kind.slices().contains(&"frame") {
            let frame = &mut given.frame;
            let product = slots.wrapping_mul(ports);
            let length = self.length("frame", product, frame.len(), MOST_ENTRIES);
            frame.resize_with(length, || self.random.draw() as u16);
        }
        if self.kind.slices().contains(&"second") {
            let entries = given.frame.len();
            let length = self.length("second", entries as u64, entries, MOST_ENTRIES);
            let second = &mut given.second;
            second.resize_with(length, || self.random.draw() as u16);
        }
    }

    /// The side, or now and then another: most frames have a wrong entry there.
    fn side(&mut self, good: u64) -> u64 {
        let side = if self.is_hostile() && self.random.one_in(2) {
            hostile_number(good, self.random)
        } else {
            good
        };
        self.note("side", side);
        side
    }

    /// A list of another length, whose further numbers are ports of the switch, ports that are links too, or any, and now and then a
    /// flow with another port or another link.
    fn spoil_list(&mut self, list: &mut Vec<u16>, ports: u64) {
        let good = list.len();
        let length = self.length("list", good as u64, good, MOST_NUMBERS);
        let ports = ports.clamp(1, 16);
        let most = [ports, ports.min(LINKS as u64), u16::MAX.into()];
        let most = self.random.pick(&most);
        list.resize_with(length, || self.random.between(1, most) as u16);
        if list.len() >= FLOW_NUMBERS && self.is_hostile() && self.random.one_in(2) {
            let flow = self.random.place(list.len() / FLOW_NUMBERS);
            let place = self.random.pick(&[0, 1, 3]);
            let hostile = if place == 3 {
                hostile_link
            } else {
                hostile_port
            };
            let number = &mut list[flow * FLOW_NUMBERS + place];
            *number = hostile(*number, self.random);
        }
    }

    /// One limit in the place of all, or of some.
    fn spoil_limits(&mut self, slots: u64, limits: &mut Limits) {
        let kind = if self.is_hostile() {
            self.random.pick(LimitKind::ALL)
        } else {
            LimitKind::Good
        };
        self.hits.add(name_of(self.kind, "limit", kind.name()));
        let all = self.random.one_in(2);
        for limit in limits {
            if all || self.random.one_in(16) {
                *limit = hostile_limit(kind, *limit, slots);
            }
        }
    }

    fn class(&mut self, class: Class) -> Class {
        match class {
            Class::Flow { number } => Class::Flow {
                number: self.number("flow", number),
            },
            Class::Input { port } => Class::Input {
                port: self.number("input", port),
            },
            Class::Output { port } => Class::Output {
                port: self.number("output", port),
            },
        }
    }

    fn is_hostile(&mut self) -> bool {
        self.random.below(4) < self.hostile
    }

    fn number(&mut self, place: &str, good: u64) -> u64 {
        if !self.is_hostile() {
            return good;
        }
        let number = hostile_number(good, self.random);
        self.note(place, number);
        number
    }

    /// Notes one of the numbers that must have stood in every place.
    fn note(&mut self, place: &str, number: u64) {
        if HOSTILE.contains(&number) {
            self.hits.add(name_of(self.kind, place, number));
        }
    }

    /// A length next to the one that the call asks for in 64 bits, or to the good one where that is too long to lend.
    fn length(&mut self, place: &str, asked: u64, good: usize, longest: usize) -> usize {
        let exact = match asked as usize {
            lent if lent <= longest => lent,
            _ => good,
        };
        let kind = if self.is_hostile() {
            self.random.pick(LengthKind::ALL)
        } else {
            LengthKind::Exact
        };
        self.hits.add(name_of(self.kind, place, kind.name()));
        hostile_length(kind, exact, longest, self.random)
    }
}
