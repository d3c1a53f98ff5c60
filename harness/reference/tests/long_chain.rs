//! A chain longer than any run Service count takes.

mod ample;

use reference::wire::{Course, Frame, Run, Whose};
use reference::{Class, LINKS, LONGEST_RUN};

#[test]
fn demand_3_over_more_than_a_million_slots() {
    let (ports, slots) = (2, 1_024);
    let list = vec![
        1, 1, 341, 1, 1, 2, 600, 1, 1, 2, 82, 2, 2, 1, 683, 3, 2, 2, 341, 1,
    ];
    let mut entries = vec![0; (ports * slots) as usize];
    ample::build(ports, slots, &list, &mut entries).unwrap();
    let frame = Frame {
        ports,
        slots,
        list,
        entries,
    };
    let chain = vec![frame; 1_000];
    let run = Run {
        start: 700,
        length: LONGEST_RUN as usize + 11,
    };
    for port in 1..=ports {
        for class in [Class::Input { port }, Class::Output { port }] {
            assert!(Course::of(&chain, class).has_its_share(run));
        }
        for link in 1..=LINKS {
            let link = Whose::Link { output: port, link };
            assert!(Course::of(&chain, link).has_its_share(run));
        }
    }
    for number in 1..=5 {
        assert!(Course::of(&chain, Class::Flow { number }).has_its_share(run));
    }
}
