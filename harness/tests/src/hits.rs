//! Counts of what the random cases came upon.

use std::cmp::Ordering;
use std::collections::BTreeMap;

use calls::{INPUT_SIDE, OUTPUT_SIDE};

use crate::kind::Kind;
use crate::verdict::told;

/// A load that fits was built, and its odd counts settled were as many as the reference's, its frame the same in every entry.
pub const SAME_FRAME: &str =
    "frame compared with the reference's, entry by entry and in its odd counts settled";

/// The same of a list that has cells on several links of some output.
pub const SAME_OVER_LINKS: &str = "frame of a list over several links compared in the same way";
/// The same of a list that has cells on all four links, of one output or of several.
pub const SAME_OVER_FOUR: &str = "frame of a list over all four links compared in the same way";

/// A frame that was built was damaged, or its list was, and then inspected.
pub const DAMAGED: &str = "frame built, damaged and inspected";
/// The same of one that was turned before it was damaged.
pub const DAMAGED_BY_OUTPUTS: &str = "frame built, turned, damaged and inspected by outputs";

/// A frame turned, of either side, was turned back to its own entries, and both had one inspection and the same counts.
pub const TURNED_BACK: &str = "frame turned and turned back, inspected and counted on both sides";
/// The list of a frame that turned had cells on several links of some output.
pub const TURN_OVER_LINKS: &str = "turn of a frame of a list over several links";
/// It had several flows on some pair.
pub const TURN_OF_A_PAIR: &str = "turn of a frame of several flows on a pair";

/// A list without flows was built.
pub const NO_FLOWS: &str = "build of no flows";
/// A list with as many flows as there may be was built.
pub const MOST: &str = "build of 512 flows";
/// A list with several flows on some pair was built.
pub const SEVERAL_ON_A_PAIR: &str = "build of several flows on a pair";
/// A list with a flow without cells was built.
pub const WITHOUT_CELLS: &str = "build of a flow without cells";
/// A list with one flow for each pair in matrix order was built.
pub const IN_MATRIX_ORDER: &str = "build of one flow for each pair in matrix order";

/// A list with cells on several links of some output was built.
pub const SEVERAL_LINKS: &str = "build of a list over several links";
/// Two links or more of some output each left one of the whole frame's odd counts single, to be partnered by link.
pub const SINGLES: &str = "build in which single ones of links are partnered";
/// Three links of some output did so.
pub const THREE_SINGLES: &str = "build with three single ones at an output";
/// All four did.
pub const FOUR_SINGLES: &str = "build with four single ones at an output";
/// A link had as many cells as its limit, which was below the slots.
pub const AT_LIMIT: &str = "build of a link with as many cells as its limit";

/// Two frames followed on each other that were built from different lists.
pub const CHAIN_CHANGED: &str = "chain frame of another list than the one before";

/// Some frame of a chain was of a list that has cells on several links of some output.
pub const CHAIN_OVER_LINKS: &str = "chain with frames of lists over several links";

/// Some block of a built frame had an odd count.
pub const ODD_SETTLED: &str = "build with odd counts settled";
/// No block of a built frame had one.
pub const NONE_SETTLED: &str = "build with none settled";

/// A run of a chain that may be off at both ends was held to the bound of its loads, the one nearest to it.
pub const BOUND_COMPARED: &str = "bound of the load compared";
/// It strayed from its share by the whole of it.
pub const BOUND_REACHED: &str = "bound of the load reached";
/// A run strayed from its share by the whole of the sharp bound, which no load exceeds.
pub const RUN_REACHED: &str = "sharp bound reached";
/// As many cells waited after a slot as the loads allow, some of which stray.
pub const QUEUE_REACHED_AFTER: &str = "queue bound reached after a slot";
/// The same before a slot's cell left.
pub const QUEUE_REACHED_BEFORE: &str = "queue bound reached before a cell leaves";

/// A run of one repeating frame had a lead of p(k) cells or more, ahead or behind.
pub const LEAD_REACHED: &str = "lead of half the sharp bound reached in one frame";

/// All cells of a built frame together strayed from their share by p(k) cells: further than that no built frame lets them.
pub const TOTAL_REACHED: &str = "half the sharp bound reached by the total";

/// A block of 2^k slots had halves that differed by more than one cell in all, and the frame had no other fault before it.
pub const TOTAL_UNBALANCED: &str = "block of 2^k slots unbalanced in its total alone";

/// The same in the cells of some flows alone.
pub const FLOW_UNBALANCED: &str = "block of 2^k slots unbalanced in some flows alone";
/// The same in the cells of an input alone.
pub const INPUT_UNBALANCED: &str = "block of 2^k slots unbalanced in an input alone";
/// The same in the cells of an output alone.
pub const OUTPUT_UNBALANCED: &str = "block of 2^k slots unbalanced in an output alone";
/// The same in the cells of a link alone.
pub const LINK_UNBALANCED: &str = "block of 2^k slots unbalanced in a link alone";

/// The longest run of a chain with fewer than so many cells was held to both bounds.
pub const WAIT_COMPARED: &str = "longest wait compared";
/// A queue was run cell by cell, and each held to the bound of the load.
pub const QUEUE_BY_CELLS: &str = "queue run cell by cell";
/// A wait was as long as the load allows.
pub const WAIT_REACHED: &str = "longest wait as long as the load allows";
/// The same of the first in the queue.
pub const FIRST_WAIT_REACHED: &str = "longest wait of the first as long as the load allows";

/// The cells of a queue that was fed as fast as it may be were held to what its source may be ahead by and the strays.
pub const PACED_COMPARED: &str = "longest wait of a paced queue compared";
/// One of them waited as long as that.
pub const PACED_REACHED: &str = "longest wait of a paced queue as long as is allowed";

/// What is counted for each k from 1 to 10; with k = 0 nothing strays.
pub const FOR_EACH_K: [&str; 18] = [
    FLOW_UNBALANCED,
    INPUT_UNBALANCED,
    OUTPUT_UNBALANCED,
    LINK_UNBALANCED,
    TOTAL_UNBALANCED,
    BOUND_COMPARED,
    BOUND_REACHED,
    RUN_REACHED,
    TOTAL_REACHED,
    LEAD_REACHED,
    QUEUE_REACHED_AFTER,
    QUEUE_REACHED_BEFORE,
    WAIT_COMPARED,
    QUEUE_BY_CELLS,
    WAIT_REACHED,
    FIRST_WAIT_REACHED,
    PACED_COMPARED,
    PACED_REACHED,
];

/// Whose wait it is: that of the first in a queue, of one further back, or of any cell of a queue that is fed as fast as it may be.
#[derive(Clone, Copy, Debug, PartialEq, Eq, PartialOrd, Ord)]
pub enum Queued {
    First,
    Further,
    Paced,
}

/// The longest wait, in slots, of a cell that is w-th in its queue, where every frame has m cells or more, beside the longest
/// that the load allows. In a paced queue w stands for what its source may be ahead by, in parts of 1/2^k of a cell.
#[derive(Clone, Copy, Debug)]
pub struct Waited {
    pub slots: u64,
    pub allowed: u128,
    pub m: u64,
    pub w: u64,
}

impl Waited {
    /// Greater is nearer to what is allowed; of those that are as near, that of fewer cells, then of the lower place.
    fn nearness(&self, other: &Waited) -> Ordering {
        let part = |one: &Waited, of: &Waited| u128::from(one.slots) * of.allowed;
        let nearer = part(self, other).cmp(&part(other, self));
        let fewer = other.m.cmp(&self.m);
        nearer.then(fewer).then(other.w.cmp(&self.w))
    }
}

/// What used a part of the bound of its load: a run of a chain that may be off at both ends, or a lead of one frame.
#[derive(Clone, Copy, Debug, PartialEq, Eq, PartialOrd, Ord)]
pub enum Used {
    Run,
    Lead,
}

/// How far a run was from its share, and how far it might have been, in parts of 1/2^k of a cell.
#[derive(Clone, Copy, Debug)]
pub struct Part {
    pub seen: i128,
    pub bound: i128,
}

impl Part {
    /// Greater is a larger part; of those that are as large, that of the larger bound.
    fn largeness(&self, other: &Part) -> Ordering {
        let larger = (self.seen * other.bound).cmp(&(other.seen * self.bound));
        larger.then(self.bound.cmp(&other.bound))
    }
}

/// How many times each named thing happened, how deep queues stood, how far leads were from 0, how long cells waited, and how many
/// odd counts were settled.
#[derive(Clone, Debug, Default)]
pub struct Hits {
    counts: BTreeMap<String, u64>,
    counts_at: BTreeMap<(&'static str, u32), u64>,
    /// By k and the switch's place in its row, in parts of 1/2^k of a cell.
    depths: BTreeMap<(u32, usize), i128>,
    /// By k, the furthest from 0 of the leads of built frames.
    leads: BTreeMap<u32, i128>,
    /// By k, the largest parts of the bounds of loads.
    parts: BTreeMap<(u32, Used), Part>,
    /// By k, the waits that came nearest to what is allowed.
    waits: BTreeMap<(u32, Queued), Waited>,
    /// By k, the most odd counts that a build of 16 ports settled.
    settled: BTreeMap<u32, u64>,
}

impl Hits {
    pub fn add(&mut self, name: impl Into<String>) {
        *self.counts.entry(name.into()).or_default() += 1;
    }

    /// Counts something for frames of 2^k slots.
    pub fn add_at(&mut self, name: &'static str, k: u32) {
        *self.counts_at.entry((name, k)).or_default() += 1;
    }

    /// A queue stood so deep in a switch at this place of a row, counted from 1, in parts of 1/2^k of a cell.
    pub fn deepen(&mut self, k: u32, place: usize, parts: i128) {
        let depth = self.depths.entry((k, place)).or_insert(parts);
        *depth = parts.max(*depth);
    }

    /// A built frame of 2^k slots had a run whose lead was so far from 0.
    pub fn stray(&mut self, k: u32, parts: i128) {
        let furthest = self.leads.entry(k).or_insert(parts);
        *furthest = parts.max(*furthest);
    }

    /// Something was so far from its share on frames of 2^k slots, and so far its load might be; where that is 0 nothing is noted.
    pub fn part(&mut self, k: u32, used: Used, seen: i128, bound: i128) {
        let part = Part { seen, bound };
        if bound == 0 {
            return;
        }
        let largest = self.parts.entry((k, used)).or_insert(part);
        if part.largeness(largest).is_gt() {
            *largest = part;
        }
    }

    /// A cell waited so long on frames of 2^k slots.
    pub fn wait(&mut self, k: u32, queued: Queued, waited: Waited) {
        let nearest = self.waits.entry((k, queued)).or_insert(waited);
        if waited.nearness(nearest).is_gt() {
            *nearest = waited;
        }
    }

    /// A build of 16 ports and 2^k slots settled so many odd counts.
    pub fn settle(&mut self, k: u32, settled: u64) {
        let most = self.settled.entry(k).or_insert(settled);
        *most = settled.max(*most);
    }

    pub fn merge(&mut self, other: Hits) {
        for (name, count) in other.counts {
            *self.counts.entry(name).or_default() += count;
        }
        for (name, count) in other.counts_at {
            *self.counts_at.entry(name).or_default() += count;
        }
        for ((k, place), parts) in other.depths {
            self.deepen(k, place, parts);
        }
        for (k, parts) in other.leads {
            self.stray(k, parts);
        }
        for ((k, used), Part { seen, bound }) in other.parts {
            self.part(k, used, seen, bound);
        }
        for ((k, queued), waited) in other.waits {
            self.wait(k, queued, waited);
        }
        for (k, settled) in other.settled {
            self.settle(k, settled);
        }
    }

    pub fn count_at(&self, name: &'static str, k: u32) -> u64 {
        self.counts_at.get(&(name, k)).copied().unwrap_or_default()
    }

    /// The deepest queue, where one was run.
    pub fn deepest(&self, k: u32, place: usize) -> Option<i128> {
        self.depths.get(&(k, place)).copied()
    }

    /// The lead that was furthest from 0, where a built frame was counted.
    pub fn furthest_lead(&self, k: u32) -> Option<i128> {
        self.leads.get(&k).copied()
    }

    /// The largest part of the bound of its load that something used, where one was noted.
    pub fn largest_part(&self, k: u32, used: Used) -> Option<Part> {
        self.parts.get(&(k, used)).copied()
    }

    /// The wait that came nearest to what is allowed, where one was noted.
    pub fn nearest_wait(&self, k: u32, queued: Queued) -> Option<Waited> {
        self.waits.get(&(k, queued)).copied()
    }

    /// The most odd counts that were settled, where a load of 16 ports was built.
    pub fn most_settled(&self, k: u32) -> Option<u64> {
        self.settled.get(&k).copied()
    }

    /// How often something happened, by its name or by that of `name_at`.
    pub fn count(&self, name: &str) -> u64 {
        let mut at = self.counts_at.iter();
        let at = at.find(|((thing, k), _)| name_at(thing, *k) == name);
        let count = self.counts.get(name).or(at.map(|(_, count)| count));
        count.copied().unwrap_or_default()
    }

    pub fn iter(&self) -> impl Iterator<Item = (&str, u64)> {
        let counts = self.counts.iter();
        counts.map(|(name, &count)| (name.as_str(), count))
    }

    /// Adds what another came upon, each name after a word.
    pub fn merge_under(&mut self, word: &str, other: Hits) {
        for (name, count) in other.counts {
            *self.counts.entry(format!("{word} {name}")).or_default() += count;
        }
    }

    /// Everything a whole run must have come upon at least once.
    pub fn required() -> Vec<String> {
        let mut names = outcomes();
        names.push("sheet frame".into());
        names.extend(refusal_names("sheet", &[1, 2, 5, 6, 7, 8, 10, 21]));
        names.extend(FLOW_LINES.map(str::to_string));
        names.extend(SORTS_OF_LIST.map(str::to_string));
        names.extend([DAMAGED, DAMAGED_BY_OUTPUTS].map(str::to_string));
        names.extend([TURNED_BACK, TURN_OVER_LINKS, TURN_OF_A_PAIR].map(str::to_string));
        for call in ["build", "turn"] {
            names.extend((1..=16).map(|ports| format!("{call} with {ports} ports")));
            names.extend((0..=10).map(|k| format!("{call} with {} slots", 1 << k)));
        }
        names.extend(CHAIN_EVENTS.map(str::to_string));
        names.extend((0..=10).map(|k| format!("leads of a frame of {} slots", 1 << k)));
        names.extend((0..=10).map(|k| format!("depth in {} slots", 1 << k)));
        names.extend((0..=8).map(|cells| format!("depth with {cells} to order")));
        for name in CLASSES_UNBALANCED {
            names.extend((2..=10).map(|k| name_at(name, k)));
        }
        names.extend((1..=10).map(|k| name_at(TOTAL_UNBALANCED, k)));
        names.extend((1..=10).map(|k| name_at(BOUND_REACHED, k)));
        names.extend((1..=10).map(|k| name_at(RUN_REACHED, k)));
        names.extend((1..=10).map(|k| name_at(TOTAL_REACHED, k)));
        names.extend((1..=10).map(|k| name_at(LEAD_REACHED, k)));
        names.extend((0..=10).map(|k| name_at(WAIT_COMPARED, k)));
        names.extend((0..=10).map(|k| name_at(QUEUE_BY_CELLS, k)));
        names.extend((1..=10).map(|k| name_at(WAIT_REACHED, k)));
        names.extend((1..=10).map(|k| name_at(FIRST_WAIT_REACHED, k)));
        names.extend((0..=10).map(|k| name_at(PACED_COMPARED, k)));
        names.extend((1..=10).map(|k| name_at(PACED_REACHED, k)));
        names.extend((1..=10).map(|k| name_at(QUEUE_REACHED_AFTER, k)));
        names.extend((1..=10).map(|k| name_at(QUEUE_REACHED_BEFORE, k)));
        names.extend((2..=5).map(|switches| format!("row of {switches} switches")));
        names.push("row of all cells together".into());
        let kinds = Kind::all().into_iter();
        names.extend(kinds.map(|kind| format!("case {}", kind.name())));
        names
    }
}

/// The name of something that is counted for frames of 2^k slots.
fn name_at(name: &str, k: u32) -> String {
    format!("{name}, k = {k}")
}

/// Refusals of every call that is given a list.
const OF_LIST: [u64; 6] = [1, 2, 3, 21, 22, 23];

/// Each answer of each call, and on each side of a call that is told it.
pub fn outcomes() -> Vec<String> {
    let calls = ["admit", "build", "view", "depth"];
    let mut names: Vec<String> = calls.map(|call| format!("{call} accepted")).into();
    names.extend([ODD_SETTLED, NONE_SETTLED].map(str::to_string));
    for (call, others) in [
        ("admit", &[5, 6, 24][..]),
        ("build", &[4, 5, 6, 24]),
        ("depth", &[5, 6, 12]),
    ] {
        names.extend(refusal_names(call, &OF_LIST));
        names.extend(refusal_names(call, others));
    }
    names.extend(refusal_names("view", &[1, 2, 4, 11]));
    names.extend(class_names("depth"));
    for (side, twice) in [(INPUT_SIDE, "output twice"), (OUTPUT_SIDE, "input twice")] {
        names.extend(inspections(&told("inspect", side), twice));
        names.extend(counts(&told("count", side)));
        names.extend(turns(&told("turn", side)));
    }
    names
}

/// Each answer of Inspect on a side, where a port of the other is used twice by this name.
fn inspections(call: &str, twice: &str) -> Vec<String> {
    let found = ["clean", "wrong entry", twice, "flow count"];
    let mut names: Vec<String> = found.map(|found| format!("{call} {found}")).into();
    names.extend((1..=10).map(|k| format!("{call} unbalanced block of {}", 1 << k)));
    names.extend(refusal_names(call, &OF_LIST));
    names.extend(refusal_names(call, &[4]));
    names
}

/// Each answer of Service count on a side.
fn counts(call: &str) -> Vec<String> {
    let mut names = vec![format!("{call} accepted")];
    names.extend(refusal_names(call, &OF_LIST));
    names.extend(refusal_names(call, &[4, 11, 12, 13]));
    names.extend(class_names(call));
    names.extend(["above 0", "0", "below 0"].map(|lead| format!("{call} with lead {lead}")));
    names
}

/// Each answer of Turn on a side, 14 for either of its reasons.
fn turns(call: &str) -> Vec<String> {
    let mut names = vec![format!("{call} accepted")];
    names.extend(refusal_names(call, &OF_LIST));
    names.extend(refusal_names(call, &[4, 15, 14]));
    names
        .extend(["a wrong entry", "a port twice"].map(|why| format!("{call} refusal 14 by {why}")));
    names
}

/// A call that was answered about each class.
fn class_names(call: &str) -> [String; 3] {
    ["flow", "input", "output"].map(|class| format!("{call} of {class}"))
}

/// A call's refusals, in its order.
fn refusal_names(call: &str, numbers: &[u64]) -> Vec<String> {
    let names = numbers.iter();
    names
        .map(|number| format!("{call} refusal {number}"))
        .collect()
}

/// The names of sheets by their flow lines.
pub const FLOW_LINES: [&str; 4] = [
    "sheet of 0 flow lines",
    "sheet of 1 to 511 flow lines",
    "sheet of 512 flow lines",
    "sheet of 513 flow lines or more",
];

/// What one class alone was unbalanced in, in blocks of four slots and more.
const CLASSES_UNBALANCED: [&str; 4] = [
    FLOW_UNBALANCED,
    INPUT_UNBALANCED,
    OUTPUT_UNBALANCED,
    LINK_UNBALANCED,
];

/// What the lists that are built must have been like.
const SORTS_OF_LIST: [&str; 11] = [
    NO_FLOWS,
    MOST,
    SEVERAL_ON_A_PAIR,
    WITHOUT_CELLS,
    IN_MATRIX_ORDER,
    SEVERAL_LINKS,
    SAME_OVER_FOUR,
    SINGLES,
    THREE_SINGLES,
    FOUR_SINGLES,
    AT_LIMIT,
];

/// What the chains of calls must have come upon.
const CHAIN_EVENTS: [&str; 8] = [
    CHAIN_CHANGED,
    CHAIN_OVER_LINKS,
    "chain call accepted",
    "chain call refused",
    "chain call refused before any accepted",
    "chain frame carried no time",
    "chain frame carried again after a refusal",
    "chain other shape accepted and not carried",
];
