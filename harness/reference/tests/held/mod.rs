//! Frames held to rules 2, 4 and 5 as they are stated, block by block, in their own entries. By these rules there is one frame only for
//! the counts of the whole.

/// The counts of a block, in their order: what an entry counts for, and who is partnered.
pub struct Rules<'r> {
    pub ports: usize,
    /// How many counts there are.
    pub counts: usize,
    /// The place of the count of an input's entry, which is not 0.
    pub place_of: &'r dyn Fn(usize, u16) -> usize,
    /// Rule 3: the partnerships of the odd counts at these places.
    pub partnerships: &'r dyn Fn(&[usize]) -> Vec<[usize; 2]>,
}

/// The numbers of groups with an even and with an odd number of counts.
pub type Groups = [usize; 2];

impl Rules<'_> {
    /// The counts of some slots.
    pub fn counts(&self, slots: &[u16]) -> Vec<u16> {
        let mut counts = vec![0; self.counts];
        let entries = slots.iter().enumerate().filter(|(_, &entry)| entry > 0);
        for (place, &entry) in entries {
            counts[(self.place_of)(place % self.ports, entry)] += 1;
        }
        counts
    }

    /// Holds a block and all blocks within it to the rules, and adds up their groups.
    pub fn hold_blocks(&self, block: &[u16], groups: &mut Groups) {
        if block.len() == self.ports {
            return;
        }
        let (front, back) = block.split_at(block.len() / 2);
        let split = Split {
            first: self.counts(front),
            second: self.counts(back),
        };
        let odd = split.odd_counts();
        let [even, odd] = split.hold_groups(&odd, &(self.partnerships)(&odd));
        groups[0] += even;
        groups[1] += odd;
        self.hold_blocks(front, groups);
        self.hold_blocks(back, groups);
    }
}

/// First with second, third with fourth, and so on.
pub fn couples(order: &[usize]) -> impl Iterator<Item = [usize; 2]> + '_ {
    let couples = order.chunks_exact(2);
    couples.map(|couple| [couple[0], couple[1]])
}

/// At each place the first place of its group: partners take the earlier of their two until nothing changes.
fn firsts(places: usize, partnerships: &[[usize; 2]]) -> Vec<usize> {
    let mut first: Vec<usize> = (0..places).collect();
    loop {
        let before = first.clone();
        for &[one, other] in partnerships {
            let earlier = first[one].min(first[other]);
            first[one] = earlier;
            first[other] = earlier;
        }
        if first == before {
            return first;
        }
    }
}

/// How a block is shared between its halves.
struct Split {
    first: Vec<u16>,
    second: Vec<u16>,
}

impl Split {
    fn favours_first(&self, place: usize) -> bool {
        self.first[place] > self.second[place]
    }

    /// The places of the odd counts, after rule 2 for every count.
    fn odd_counts(&self) -> Vec<usize> {
        let is_odd = |place: usize| (self.first[place] + self.second[place]) % 2 == 1;
        for place in 0..self.first.len() {
            let differ = self.first[place].abs_diff(self.second[place]);
            assert_eq!(differ, u16::from(is_odd(place)), "rule 2");
        }
        (0..self.first.len())
            .filter(|&place| is_odd(place))
            .collect()
    }

    /// Rule 4, then rule 5 for each group.
    fn hold_groups(&self, odd: &[usize], partnerships: &[[usize; 2]]) -> Groups {
        for &[one, other] in partnerships {
            let opposite = self.favours_first(one) != self.favours_first(other);
            assert!(opposite, "rule 4");
        }
        let firsts = firsts(self.first.len(), partnerships);
        let mut groups = [0; 2];
        for first in odd.iter().copied().filter(|&place| firsts[place] == place) {
            let members = odd.iter().copied().filter(|&place| firsts[place] == first);
            let members: Vec<usize> = members.collect();
            groups[members.len() % 2] += 1;
            self.hold_group(&members, groups[1]);
        }
        groups
    }

    /// Rule 5; a group with an odd number of counts has this number among such groups.
    fn hold_group(&self, members: &[usize], number: usize) {
        if members.len() % 2 == 1 {
            let favouring = members.iter().filter(|&&place| self.favours_first(place));
            let larger_first = 2 * favouring.count() > members.len();
            assert_eq!(larger_first, number % 2 == 1, "rule 5, an odd group");
        } else {
            assert!(self.favours_first(members[0]), "rule 5, an even group");
        }
    }
}
