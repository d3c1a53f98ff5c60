//! Cases of Depth.

use calls::{Calls, Class};
use loads::{load, Call, LoadKind, Random};

use crate::build_case::lend;
use crate::hits::Hits;
use crate::query_case::{class_name, junk_class};
use crate::share_case::random_class;
use crate::verdict::{expect_equal, outcome, Verdict};

/// Holds the depths of some classes of a list, now and then of one that is not in it, against the reference's.
pub fn check_depth(
    candidate: &dyn Calls,
    kind: LoadKind,
    random: &mut Random,
    hits: &mut Hits,
) -> Verdict {
    let call = load(kind, random);
    for _ in 0..4 {
        let class = if random.one_in(5) {
            junk_class(&call, random)
        } else {
            random_class(call.ports.clamp(1, 16), call.flows(), random)
        };
        depth_and_compare(candidate, &call, class, random, hits)?;
    }
    Ok(())
}

/// Asks the candidate and the reference for the depth of a class and compares.
pub fn depth_and_compare(
    candidate: &dyn Calls,
    call: &Call,
    class: Class,
    random: &mut Random,
    hits: &mut Hits,
) -> Verdict {
    let list = lend(&call.list, random);
    let before = list.clone();
    let given = candidate.depth(call.ports, call.slots, list.part(), class);
    let right = reference::depth(call.ports, call.slots, &call.list, class);
    hits.add(outcome("depth", &right));
    if let Ok(depth) = right {
        hits.add(format!("depth of {}", class_name(class)));
        hits.add(format!("depth in {} slots", call.slots));
        hits.add(format!("depth with {} to order", depth.cells));
    }
    expect_equal("depth", &given, &right)?;
    list.expect_same("list after depth", &before)
}
