//! The plain builder and the reference build the same frames and settle as many odd counts.

use loads::{load, load_of_shape, Call, LoadKind, Random, Shape};

/// Builds with both from the same entries.
fn agree(call: &Call, name: &str, random: &mut Random) {
    let Call {
        ports,
        slots,
        list,
        limits,
        ..
    } = call;
    let mut right = random.entries(call.frame_length);
    let mut frame = right.clone();
    let answer = reference::build(*ports, *slots, list, limits, &mut right);
    let built = plain::build(*ports as usize, *slots as usize, list, limits, &mut frame);
    let right_number = answer.ok().map(|settled| settled as usize);
    assert_eq!(built, right_number, "{name} {ports} {slots}");
    assert_eq!(frame, right, "{name} {ports} {slots}");
}

#[test]
fn same_frames_on_random_loads() {
    let mut random = Random::new(7);
    for &kind in LoadKind::ALL {
        for _ in 0..300 {
            let call = load(kind, &mut random);
            agree(&call, kind.name(), &mut random);
        }
    }
}

/// Small switches, so that every way to partner the flows of a few links comes often.
#[test]
fn same_frames_on_small_lists_over_links() {
    let kinds = [
        LoadKind::SpreadLinks,
        LoadKind::OddLinks,
        LoadKind::ExactLimits,
        LoadKind::LinkOverByOne,
        LoadKind::RandomLimits,
    ];
    let mut random = Random::new(8);
    for _ in 0..20_000 {
        for kind in kinds {
            let shape = Shape {
                ports: random.between(1, 5) as usize,
                slots: 1 << random.between(0, 5),
            };
            let call = load_of_shape(kind, shape, &mut random);
            agree(&call, kind.name(), &mut random);
        }
    }
}
