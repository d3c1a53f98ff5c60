//! Random counts of any entries, on either side, each through C and through Rust, held against the reference with their leads.

use calls::{Calls, Class, InC, Library, Reference, Service, INPUT_SIDE, OUTPUT_SIDE};
use loads::{load_of_shape, random_shape, LoadKind, Random};
use reference::LONGEST_RUN;
use tests::any_entries;

const COUNTS: usize = 25_000;

/// What a count is asked for.
struct Asked {
    side: u64,
    ports: u64,
    slots: u64,
    list: Vec<u16>,
    frame: Vec<u16>,
    class: Class,
    start: u64,
    length: u64,
}

impl Asked {
    fn random(random: &mut Random) -> Asked {
        let shape = random_shape(random);
        let call = load_of_shape(LoadKind::SpreadLinks, shape, random);
        let (ports, slots) = (call.ports, call.slots);
        let [input, output] = [ports; 2].map(|most| number_to(most, random));
        let flow = number_to((call.flows() as u64).max(1), random);
        Asked {
            ports,
            slots,
            frame: any_entries(&call, random),
            list: call.list,
            class: random.pick(&[
                Class::Flow { number: flow },
                Class::Input { port: input },
                Class::Output { port: output },
            ]),
            start: number_to(slots, random),
            length: random_length(slots, random),
            side: random.pick(&[INPUT_SIDE, OUTPUT_SIDE]),
        }
    }

    fn answer(&self, calls: &dyn Calls) -> Service {
        let (side, ports, slots) = (self.side, self.ports, self.slots);
        let question = (self.class, (self.start, self.length));
        calls.service_count(side, ports, slots, &self.list, &self.frame, question)
    }

    fn name(&self) -> String {
        let (side, ports, slots, class) = (self.side, self.ports, self.slots, self.class);
        let (start, length) = (self.start, self.length);
        format!("{class:?} on side {side} of {ports} x {slots}, {length} slots from {start}")
    }

    /// Whether the run goes on from the last slot to slot 1.
    fn wraps(&self) -> bool {
        self.start - 1 + self.length > self.slots
    }
}

/// A number from 1 to the most there may be; one in sixty is just outside.
fn number_to(most: u64, random: &mut Random) -> u64 {
    if random.one_in(60) {
        random.pick(&[0, most + 1])
    } else {
        random.between(1, most)
    }
}

/// Most runs are of up to three turns; some are as long as they may be, and some too long.
fn random_length(slots: u64, random: &mut Random) -> u64 {
    match random.below(180) {
        0 | 1 => random.between(900_001, LONGEST_RUN),
        2 => LONGEST_RUN,
        3 => LONGEST_RUN + 1,
        4 | 5 => random.between(0, 20_000),
        _ => random.between(0, 3 * slots),
    }
}

#[test]
fn leads_through_c_and_through_rust() {
    let (in_c, library) = (InC::default(), Library::default());
    let mut random = Random::new(2_027);
    let (mut accepted, mut very_long, mut wrapped) = ([0; 2], 0, 0);
    let (mut ahead, mut behind) = (0, 0);
    for _ in 0..COUNTS {
        let asked = Asked::random(&mut random);
        let right = asked.answer(&Reference);
        assert_eq!(asked.answer(&in_c), right, "through C: {}", asked.name());
        assert_eq!(
            asked.answer(&library),
            right,
            "through Rust: {}",
            asked.name()
        );
        let Ok(count) = right else { continue };
        accepted[asked.side as usize] += 1;
        very_long += usize::from(asked.length > 900_000);
        wrapped += usize::from(asked.wraps());
        ahead += usize::from(count.lead > 0);
        behind += usize::from(count.lead < 0);
    }
    assert!(
        accepted.iter().all(|&accepted| accepted >= 10_000),
        "{accepted:?} accepted on the two sides"
    );
    assert!(very_long >= 100, "{very_long} above 900,000 slots");
    assert!(wrapped >= 1_000, "{wrapped} across the end of the frame");
    assert!(
        ahead >= 1_000 && behind >= 1_000,
        "{ahead} ahead, {behind} behind"
    );
}
