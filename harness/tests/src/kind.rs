//! The kinds of random case.

use calls::{Calls, SheetProgram, Side};
use loads::{Damage, LoadKind, Random, SheetKind, Uneven};

use crate::build_case::{check_admit, check_build};
use crate::chain_case::{check_chain, ChainKind};
use crate::depth_case::check_depth;
use crate::hits::Hits;
use crate::inspect_case::{check_inspection, check_total, check_uneven};
use crate::lead_case::check_leads;
use crate::query_case::{check_count, check_view, RunKind, ViewKind};
use crate::row_case::check_row;
use crate::sheet_case::check_sheet;
use crate::turn_case::{check_turn, TurnKind};
use crate::verdict::Verdict;

/// Of the loads that fit, those that Admit is given: it looks at the loads of ports and links only, and not at how they are laid out.
const ADMITTED: [LoadKind; 5] = [
    LoadKind::NoFlows,
    LoadKind::Full,
    LoadKind::MostFlows,
    LoadKind::SpreadLinks,
    LoadKind::ExactLimits,
];

/// Of the loads that fit, those that Depth is given: it looks at the load of one flow or one port, and at no limit.
const BOUNDED: [LoadKind; 5] = [
    LoadKind::NoFlows,
    LoadKind::Full,
    LoadKind::Scattered,
    LoadKind::SingleFlow,
    LoadKind::SpreadLinks,
];

/// Loads that Build is given in chains, rows and leads only: `scattered` and `apart` show what they show.
const SHOWN_BY_OTHERS: [LoadKind; 3] =
    [LoadKind::Sparse, LoadKind::OwnNumber, LoadKind::Permutation];

/// A call and what it is given, on the side that it is told.
#[derive(Clone, Copy, Debug, PartialEq, Eq)]
pub enum Kind {
    Admit(LoadKind),
    Build(LoadKind),
    Inspect(Side, Damage),
    InspectUneven(Side, Uneven),
    InspectTotal(Side),
    View(ViewKind),
    Count(Side, RunKind),
    Sheet(SheetKind),
    Chain(ChainKind),
    Row,
    Lead,
    Depth(LoadKind),
    Turn(TurnKind),
}

impl Kind {
    pub fn all() -> Vec<Kind> {
        let mut kinds = Vec::new();
        let loads = LoadKind::ALL.iter().copied();
        let is_refused = |kind: &LoadKind| !LoadKind::FITTING.contains(kind);
        let is_admitted = |kind: &LoadKind| ADMITTED.contains(kind) || is_refused(kind);
        kinds.extend(loads.clone().filter(is_admitted).map(Kind::Admit));
        let is_built = |kind: &LoadKind| !SHOWN_BY_OTHERS.contains(kind);
        kinds.extend(loads.clone().filter(is_built).map(Kind::Build));
        kinds.extend(inspections(Side::Input));
        kinds.extend(ViewKind::ALL.iter().copied().map(Kind::View));
        kinds.extend(counts(Side::Input));
        kinds.extend(SheetKind::ALL.iter().copied().map(Kind::Sheet));
        kinds.extend(ChainKind::ALL.iter().copied().map(Kind::Chain));
        kinds.extend([Kind::Row, Kind::Lead]);
        let is_bounded = |kind: &LoadKind| BOUNDED.contains(kind) || is_refused(kind);
        kinds.extend(loads.filter(is_bounded).map(Kind::Depth));
        kinds.extend(inspections(Side::Output));
        kinds.extend(counts(Side::Output));
        kinds.extend(TurnKind::ALL.iter().copied().map(Kind::Turn));
        kinds
    }

    pub fn name(self) -> String {
        let (call, given) = match self {
            Kind::Admit(kind) => ("admit", kind.name()),
            Kind::Build(kind) => ("build", kind.name()),
            Kind::Inspect(side, kind) => (inspect_on(side), kind.name()),
            Kind::InspectUneven(side, by) => (inspect_on(side), by.name()),
            Kind::InspectTotal(side) => (inspect_on(side), "total"),
            Kind::View(kind) => ("view", kind.name()),
            Kind::Count(Side::Input, kind) => ("count", kind.name()),
            Kind::Count(Side::Output, kind) => ("count-by-outputs", kind.name()),
            Kind::Sheet(kind) => ("sheet", kind.name()),
            Kind::Chain(kind) => ("chain", kind.name()),
            Kind::Row => ("row", "random"),
            Kind::Lead => ("lead", "built"),
            Kind::Depth(kind) => ("depth", kind.name()),
            Kind::Turn(kind) => ("turn", kind.name()),
        };
        format!("{call}/{given}")
    }

    /// Runs one case of the kind against the candidate.
    pub fn check<B: Calls + SheetProgram>(
        self,
        candidate: &B,
        random: &mut Random,
        hits: &mut Hits,
    ) -> Verdict {
        match self {
            Kind::Admit(kind) => check_admit(candidate, kind, random, hits),
            Kind::Build(kind) => check_build(candidate, kind, random, hits),
            Kind::Inspect(side, kind) => check_inspection(candidate, side, kind, random, hits),
            Kind::InspectUneven(side, by) => check_uneven(candidate, side, by, random, hits),
            Kind::InspectTotal(side) => check_total(candidate, side, random, hits),
            Kind::View(kind) => check_view(candidate, kind, random, hits),
            Kind::Count(side, kind) => check_count(candidate, side, kind, random, hits),
            Kind::Sheet(kind) => check_sheet(candidate, kind, random, hits),
            Kind::Chain(kind) => check_chain(candidate, kind, random, hits),
            Kind::Row => check_row(candidate, random, hits),
            Kind::Lead => check_leads(candidate, random, hits),
            Kind::Depth(kind) => check_depth(candidate, kind, random, hits),
            Kind::Turn(kind) => check_turn(candidate, kind, random, hits),
        }
    }
}

/// The kinds of Inspect's cases on a side.
fn inspections(side: Side) -> Vec<Kind> {
    let damaged = Damage::ALL.iter().map(|&kind| Kind::Inspect(side, kind));
    let uneven = Uneven::ALL.iter().map(|&by| Kind::InspectUneven(side, by));
    let kinds = damaged.chain(uneven).chain([Kind::InspectTotal(side)]);
    kinds.collect()
}

/// The kinds of Service count's cases on a side.
fn counts(side: Side) -> impl Iterator<Item = Kind> {
    RunKind::ALL
        .iter()
        .map(move |&kind| Kind::Count(side, kind))
}

/// What the names of Inspect's kinds begin with.
fn inspect_on(side: Side) -> &'static str {
    match side {
        Side::Input => "inspect",
        Side::Output => "inspect-by-outputs",
    }
}
