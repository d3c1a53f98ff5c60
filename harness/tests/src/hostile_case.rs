//! Hostile cases: one call, made by each way there is to make it.

use calls::Calls;
use loads::{LengthKind, LimitKind, Random, HOSTILE};

use crate::build_case::{admit_and_compare, build_and_compare, lend};
use crate::depth_case::depth_and_compare;
use crate::hits::{outcomes, Hits};
use crate::hostile_call::{hostile_call, name_of, Given, HostileKind};
use crate::inspect_case::inspect_and_compare;
use crate::query_case::{count_and_compare, view_and_compare};
use crate::runner::{run_cases, Cases, Report, Settings};
use crate::turn_case::turn_and_compare;
use crate::verdict::{outcome, Verdict};

/// A way to call a builder.
#[derive(Clone, Copy)]
pub struct Face<'f> {
    pub name: &'f str,
    pub calls: &'f (dyn Calls + Sync),
}

/// Runs hostile cases, each through all the faces.
pub fn run_hostile(faces: &[Face], settings: &Settings) -> Report {
    let kinds = HostileKind::ALL.iter().map(|&kind| Cases {
        name: format!("hostile/{}", kind.name()),
        check: Box::new(move |random, hits| check_hostile(faces, kind, random, hits)),
    });
    run_cases(&kinds.collect::<Vec<_>>(), required(faces), settings)
}

/// Every answer by every face, every hostile number and every kind of length in every place for one, and every kind of limit.
fn required(faces: &[Face]) -> Vec<String> {
    let mut names = Vec::new();
    for face in faces {
        let met = outcomes().into_iter();
        names.extend(met.map(|outcome| format!("{} {outcome}", face.name)));
    }
    for &kind in HostileKind::ALL {
        for place in kind.numbers() {
            names.extend(HOSTILE.map(|number| name_of(kind, place, number)));
        }
        for place in kind.slices() {
            let lengths = LengthKind::ALL.iter();
            names.extend(lengths.map(|length| name_of(kind, place, length.name())));
        }
        if kind.has_limits() {
            let limits = LimitKind::ALL.iter();
            names.extend(limits.map(|limit| name_of(kind, "limit", limit.name())));
        }
    }
    names
}

/// Makes one call through all the faces.
fn check_hostile(
    faces: &[Face],
    kind: HostileKind,
    random: &mut Random,
    hits: &mut Hits,
) -> Verdict {
    let given = hostile_call(kind, random, hits);
    for face in faces {
        let mut met = Hits::default();
        let verdict = make_call(face.calls, kind, &given, random, &mut met);
        hits.merge_under(face.name, met);
        verdict.map_err(|complaint| format!("through {}, {given}: {complaint}", face.name))?;
    }
    Ok(())
}

/// Makes the call and compares it with the reference.
fn make_call(
    calls: &dyn Calls,
    kind: HostileKind,
    given: &Given,
    random: &mut Random,
    hits: &mut Hits,
) -> Verdict {
    let Given { side, call, .. } = given;
    let mut frame = lend(&given.frame, random);
    match kind {
        HostileKind::Admit => admit_and_compare(calls, call, random, hits),
        HostileKind::Build => {
            let answer = build_and_compare(calls, call, &mut frame, random, hits)?;
            hits.add(outcome("build", &answer));
            Ok(())
        }
        HostileKind::Inspect => {
            inspect_and_compare(calls, *side, call, &frame, random, hits)?;
            Ok(())
        }
        HostileKind::View => view_and_compare(calls, call, &frame, given.slot, random, hits),
        HostileKind::Count => {
            let question = (given.class, (given.slot, given.length));
            count_and_compare(calls, *side, call, &frame, question, random, hits).map(|_| ())
        }
        HostileKind::Depth => depth_and_compare(calls, call, given.class, random, hits),
        HostileKind::Turn => {
            let mut second = lend(&given.second, random);
            turn_and_compare(calls, *side, call, &frame, &mut second, random, hits).map(|_| ())
        }
    }
}
