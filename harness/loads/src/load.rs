//! Loads of every kind a switch may be handed.

use crate::by_flow::{largest, many_odd, odd_links, on_one_pair};
use crate::grid::Grid;
use crate::ill_formed::{junk, link_outside, not_whole, port_outside, too_many_flows};
use crate::links::{limited, Limits};
use crate::list::{list_of, share_out, Flow, Listing, FLOW_NUMBERS};
use crate::random::Random;

/// What a Build call is given, besides the entries in its buffer.
#[derive(Clone, Debug, PartialEq, Eq)]
pub struct Call {
    pub ports: u64,
    pub slots: u64,
    pub list: Vec<u16>,
    pub limits: Limits,
    pub frame_length: usize,
}

impl Call {
    /// The number of flows in the list.
    pub fn flows(&self) -> usize {
        self.list.len() / FLOW_NUMBERS
    }
}

/// Ports and slots within the switch's limits.
#[derive(Clone, Copy, Debug, PartialEq, Eq)]
pub struct Shape {
    pub ports: usize,
    pub slots: usize,
}

impl Shape {
    pub fn frame_length(self) -> usize {
        self.ports * self.slots
    }

    /// A call with these flows, limits of slots each and a frame of the shape's length.
    pub fn call(self, flows: &[Flow]) -> Call {
        Call {
            ports: self.ports as u64,
            slots: self.slots as u64,
            list: list_of(flows),
            limits: [self.slots as u16; 64],
            frame_length: self.frame_length(),
        }
    }
}

kinds! {
    /// How the counts of a load are laid out, in what list, and with what limits; all flows are on link 1 and all limits are the
    /// slots but for the kinds that are named after links or limits.
    LoadKind {
        Zero = "zero",
        NoFlows = "no-flows",
        Full = "full",
        Sparse = "sparse",
        Scattered = "scattered",
        MatrixOrder = "matrix-order",
        MostFlows = "most-flows",
        ManyOdd = "many-odd",
        OnePair = "one-pair",
        SingleFlow = "single-flow",
        OwnNumber = "own-number",
        Permutation = "permutation",
        Apart = "apart",
        Groups = "groups",
        Staircase = "staircase",
        CyclicBand = "cyclic-band",
        AllOdd = "all-odd",
        SpreadLinks = "spread-links",
        OddLinks = "odd-links",
        ExactLimits = "exact-limits",
        InputOverByOne = "input-over-by-one",
        OutputOverByOne = "output-over-by-one",
        InputOverByMuch = "input-over-by-much",
        OutputOverByMuch = "output-over-by-much",
        SixteenBitWrap = "sixteen-bit-wrap",
        Largest = "largest",
        LinkOverByOne = "link-over-by-one",
        RandomLimits = "random-limits",
        NotWhole = "not-whole",
        TooManyFlows = "too-many-flows",
        PortOutside = "port-outside",
        LinkOutside = "link-outside",
        Junk = "junk",
    }
}

impl LoadKind {
    /// Kinds that are never refused.
    pub const FITTING: [LoadKind; 20] = [
        LoadKind::Zero,
        LoadKind::NoFlows,
        LoadKind::Full,
        LoadKind::Sparse,
        LoadKind::Scattered,
        LoadKind::MatrixOrder,
        LoadKind::MostFlows,
        LoadKind::ManyOdd,
        LoadKind::OnePair,
        LoadKind::SingleFlow,
        LoadKind::OwnNumber,
        LoadKind::Permutation,
        LoadKind::Apart,
        LoadKind::Groups,
        LoadKind::Staircase,
        LoadKind::CyclicBand,
        LoadKind::AllOdd,
        LoadKind::SpreadLinks,
        LoadKind::OddLinks,
        LoadKind::ExactLimits,
    ];

    /// Fitting kinds with long chains of partners.
    pub const CHAINED: [LoadKind; 6] = [
        LoadKind::ManyOdd,
        LoadKind::OddLinks,
        LoadKind::OnePair,
        LoadKind::Staircase,
        LoadKind::CyclicBand,
        LoadKind::AllOdd,
    ];

    /// Kinds that ask a port for more cells than there are slots.
    pub const OVERLOADED: [LoadKind; 6] = [
        LoadKind::InputOverByOne,
        LoadKind::OutputOverByOne,
        LoadKind::InputOverByMuch,
        LoadKind::OutputOverByMuch,
        LoadKind::SixteenBitWrap,
        LoadKind::Largest,
    ];

    /// Kinds whose list is turned away before its loads are added up.
    pub const ILL_FORMED: [LoadKind; 4] = [
        LoadKind::NotWhole,
        LoadKind::TooManyFlows,
        LoadKind::PortOutside,
        LoadKind::LinkOutside,
    ];

    /// The lists that a matrix of the kind may become.
    fn listings(self) -> &'static [Listing] {
        match self {
            LoadKind::MatrixOrder => &[Listing::MatrixOrder],
            LoadKind::MostFlows => &[Listing::MostFlows],
            LoadKind::SingleFlow => &[Listing::Reserved],
            LoadKind::OwnNumber
            | LoadKind::Groups
            | LoadKind::Staircase
            | LoadKind::CyclicBand
            | LoadKind::AllOdd => &Listing::WHOLE,
            _ => Listing::ALL,
        }
    }
}

/// A shape with every number of ports and every power of two alike.
pub fn random_shape(random: &mut Random) -> Shape {
    Shape {
        ports: random.between(1, 16) as usize,
        slots: 1 << random.between(0, 10),
    }
}

/// A load of the kind, in a random shape on which the kind exists.
pub fn load(kind: LoadKind, random: &mut Random) -> Call {
    let mut shape = random_shape(random);
    match kind {
        LoadKind::OutputOverByOne | LoadKind::OutputOverByMuch | LoadKind::SixteenBitWrap => {
            shape.ports = shape.ports.max(2);
        }
        LoadKind::Staircase | LoadKind::CyclicBand => shape.slots = shape.slots.max(2),
        LoadKind::AllOdd => shape.slots = shape.slots.max(shape.ports.next_power_of_two()),
        _ => {}
    }
    load_of_shape(kind, shape, random)
}

/// A load of the kind in this shape, or the nearest to it that the shape allows.
pub fn load_of_shape(kind: LoadKind, shape: Shape, random: &mut Random) -> Call {
    let mut grid = Grid::new(shape);
    match kind {
        LoadKind::Zero => {}
        LoadKind::Full => grid.add_permutations(shape.slots, random),
        LoadKind::Sparse => grid.scatter(shape.ports, random),
        LoadKind::Scattered => grid.scatter(shape.ports * shape.ports, random),
        LoadKind::MatrixOrder | LoadKind::MostFlows => grid.add_any(random),
        LoadKind::SingleFlow => grid.scatter(1, random),
        LoadKind::OwnNumber => grid.add_band(0, 1),
        LoadKind::Permutation => {
            let count = random.between(1, shape.slots as u64) as u16;
            grid.add_band(0, count);
            grid.reorder(random);
        }
        LoadKind::Apart => grid.add_counts_apart(random),
        LoadKind::Groups => grid.add_groups(random),
        LoadKind::Staircase => grid.add_staircase(random),
        LoadKind::CyclicBand => grid.add_odd_bands(random),
        LoadKind::AllOdd => grid.add_all_odd(random),
        LoadKind::InputOverByOne => grid.overload_input_by_one(random),
        LoadKind::OutputOverByOne => grid.overload_output_by_one(random),
        LoadKind::InputOverByMuch => grid.overload_inputs(random),
        LoadKind::OutputOverByMuch => grid.overload_output(random),
        LoadKind::SixteenBitWrap => grid.wrap_sixteen_bits(random),
        _ => return other_list(kind, shape, random),
    }
    grid.into_call(random.pick(kind.listings()), random)
}

/// A call with anything wrong, or with a list that is turned away before its loads are added up.
pub fn junk_of_shape(shape: Shape, random: &mut Random) -> Call {
    let ill_formed = random.pick(&LoadKind::ILL_FORMED);
    let kind = random.pick(&[LoadKind::Junk, LoadKind::Junk, ill_formed]);
    load_of_shape(kind, shape, random)
}

/// A load of a kind that is no matrix with a listing.
fn other_list(kind: LoadKind, shape: Shape, random: &mut Random) -> Call {
    match kind {
        LoadKind::ManyOdd => shape.call(&many_odd(shape, random)),
        LoadKind::OddLinks => odd_links(shape, random),
        LoadKind::SpreadLinks
        | LoadKind::ExactLimits
        | LoadKind::LinkOverByOne
        | LoadKind::RandomLimits => limited(kind, shape, random),
        LoadKind::OnePair => shape.call(&on_one_pair(shape, random)),
        LoadKind::Largest => shape.call(&largest(shape, random)),
        LoadKind::NotWhole => not_whole(shape, random),
        LoadKind::TooManyFlows => too_many_flows(shape, random),
        LoadKind::PortOutside => port_outside(shape, random),
        LoadKind::LinkOutside => link_outside(shape, random),
        LoadKind::Junk => junk(shape, random),
        _ => shape.call(&[]),
    }
}

/// A load that gives every port exactly so many cells, with one flow for each pair in matrix order, on link 1.
pub fn full_load(shape: Shape, cells: usize, random: &mut Random) -> Call {
    let mut grid = Grid::new(shape);
    grid.add_permutations_of_weight(cells, 1, random);
    grid.into_call(Listing::MatrixOrder, random)
}

/// The same with so many flows, in any order.
pub fn full_load_of_flows(shape: Shape, cells: usize, number: usize, random: &mut Random) -> Call {
    let mut grid = Grid::new(shape);
    grid.add_permutations_of_weight(cells, 1, random);
    let mut flows = grid.into_flows(Listing::MatrixOrder, random);
    share_out(&mut flows, number, shape.ports, random);
    random.shuffle(&mut flows);
    shape.call(&flows)
}

/// A load with so many cells in all, which are no more than ports × slots.
pub fn load_of_total(shape: Shape, cells: usize, random: &mut Random) -> Call {
    let mut grid = Grid::new(shape);
    grid.add_cells(cells, random);
    grid.into_call(random.pick(Listing::ALL), random)
}
