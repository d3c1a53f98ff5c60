//! Counts of all pairs of a switch, laid out in every way there is.

use crate::list::{Flow, Listing};
use crate::load::{Call, Shape};
use crate::random::{random_odd, Random};

/// A matrix under construction, ports counted from 0.
pub(crate) struct Grid {
    shape: Shape,
    counts: Vec<u16>,
}

impl Grid {
    pub(crate) fn new(shape: Shape) -> Grid {
        Grid {
            shape,
            counts: vec![0; shape.ports * shape.ports],
        }
    }

    pub(crate) fn into_call(self, listing: Listing, random: &mut Random) -> Call {
        self.shape.call(&self.into_flows(listing, random))
    }

    pub(crate) fn into_flows(self, listing: Listing, random: &mut Random) -> Vec<Flow> {
        listing.list(self.shape.ports, &self.counts, random)
    }

    fn at(&mut self, input: usize, output: usize) -> &mut u16 {
        &mut self.counts[input * self.shape.ports + output]
    }

    /// Cells of any kind that fit: as many as can be, or some.
    pub(crate) fn add_any(&mut self, random: &mut Random) {
        let pairs = self.counts.len();
        if random.one_in(3) {
            self.add_permutations(self.shape.slots, random);
        } else {
            self.scatter(pairs, random);
        }
    }

    /// Adds so many cells to every port, in permutations of small, middling or great weight.
    pub(crate) fn add_permutations(&mut self, cells: usize, random: &mut Random) {
        let heaviest = random.pick(&[1, 5, cells.max(1)]);
        self.add_permutations_of_weight(cells, heaviest, random);
    }

    pub(crate) fn add_permutations_of_weight(
        &mut self,
        cells: usize,
        heaviest: usize,
        random: &mut Random,
    ) {
        let mut left = cells;
        while left > 0 {
            let weight = random.between(1, heaviest.min(left) as u64) as usize;
            for (input, output) in random.permutation(self.shape.ports).into_iter().enumerate() {
                *self.at(input, output) += weight as u16;
            }
            left -= weight;
        }
    }

    /// Gives random pairs a random part of the room their two ports have left.
    pub(crate) fn scatter(&mut self, pairs: usize, random: &mut Random) {
        let room = vec![self.shape.slots; self.shape.ports];
        self.scatter_in(pairs, [room.clone(), room], random);
    }

    /// The same where each input and each output has so much room.
    pub(crate) fn scatter_in(
        &mut self,
        pairs: usize,
        [mut input_room, mut output_room]: [Vec<usize>; 2],
        random: &mut Random,
    ) {
        let ports = self.shape.ports;
        for place in random.permutation(ports * ports).into_iter().take(pairs) {
            let (input, output) = (place / ports, place % ports);
            let room = input_room[input].min(output_room[output]);
            let count = random.between(0, room as u64) as usize;
            self.counts[place] = count as u16;
            input_room[input] -= count;
            output_room[output] -= count;
        }
    }

    /// Gives every input so many cells to the output this far along from its own number.
    pub(crate) fn add_band(&mut self, offset: usize, count: u16) {
        for input in 0..self.shape.ports {
            *self.at(input, (input + offset) % self.shape.ports) += count;
        }
    }

    /// Any count from each input to an output of its own, so that no two pairs share a port.
    pub(crate) fn add_counts_apart(&mut self, random: &mut Random) {
        for port in 0..self.shape.ports {
            *self.at(port, port) = random.between(0, self.shape.slots as u64) as u16;
        }
        if random.one_in(2) {
            self.reorder(random);
        }
    }

    /// Odd counts along the diagonal and beside it with gaps, so that many groups follow on each other, of any number of
    /// counts.
    pub(crate) fn add_groups(&mut self, random: &mut Random) {
        let most = (self.shape.slots as u64 / 2).max(1);
        for port in 0..self.shape.ports {
            if !random.one_in(4) {
                *self.at(port, port) = random_odd(most, random);
            }
            if self.shape.slots > 1 && port + 1 < self.shape.ports && !random.one_in(3) {
                *self.at(port, port + 1) = random_odd(most, random);
            }
        }
        if random.one_in(2) {
            self.reorder(random);
        }
    }

    /// Adds so many cells wherever an input and an output have room.
    pub(crate) fn add_cells(&mut self, cells: usize, random: &mut Random) {
        let mut rooms = [0; 2].map(|_| vec![self.shape.slots; self.shape.ports]);
        let mut left = cells;
        while left > 0 {
            let [input, output] = [0, 1].map(|side: usize| {
                let free = (0..self.shape.ports).filter(|&port| rooms[side][port] > 0);
                random.pick(&free.collect::<Vec<usize>>())
            });
            let room = left.min(rooms[0][input]).min(rooms[1][output]);
            let count = random.between(1, room as u64) as usize;
            *self.at(input, output) += count as u16;
            rooms[0][input] -= count;
            rooms[1][output] -= count;
            left -= count;
        }
    }

    /// Two odd counts at each port, in one chain through all of them.
    pub(crate) fn add_staircase(&mut self, random: &mut Random) {
        let most = (self.shape.slots as u64 / 2).max(1);
        let last = self.shape.ports - 1;
        for input in 0..self.shape.ports {
            *self.at(input, input) = random_odd(most, random);
            if input < last && self.shape.slots > 1 {
                *self.at(input, input + 1) = random_odd(most, random);
            }
        }
        if random.one_in(2) {
            self.reorder(random);
        }
    }

    /// Bands of odd counts around the matrix, each port in all of them.
    pub(crate) fn add_odd_bands(&mut self, random: &mut Random) {
        let most = self.shape.ports.min(self.shape.slots) as u64;
        let width = random.between(most.min(2), most) as usize;
        let mut room = self.shape.slots - width;
        for offset in 0..width {
            let extra = random.between(0, room as u64 / 2) as usize;
            self.add_band(offset, (1 + 2 * extra) as u16);
            room -= 2 * extra;
        }
        if random.one_in(2) {
            self.reorder(random);
        }
    }

    /// Every count odd, where the frame has a slot for each.
    pub(crate) fn add_all_odd(&mut self, random: &mut Random) {
        let Some(room) = self.shape.slots.checked_sub(self.shape.ports) else {
            return self.add_odd_bands(random);
        };
        let couples = random.between(0, room as u64 / 2) as usize;
        self.add_permutations(couples, random);
        for count in &mut self.counts {
            *count = 2 * *count + 1;
        }
    }

    /// Puts inputs and outputs in random order, so that chains begin anywhere.
    pub(crate) fn reorder(&mut self, random: &mut Random) {
        let ports = self.shape.ports;
        let (inputs, outputs) = (random.permutation(ports), random.permutation(ports));
        let before = self.counts.clone();
        for input in 0..ports {
            for output in 0..ports {
                *self.at(inputs[input], outputs[output]) = before[input * ports + output];
            }
        }
    }

    /// A full load with a cell moved along its column to another input.
    pub(crate) fn overload_input_by_one(&mut self, random: &mut Random) {
        self.add_permutations(self.shape.slots, random);
        let (from, to) = self.move_one_cell(random);
        let ports = self.shape.ports;
        self.counts[from] -= u16::from(ports > 1);
        *self.at(to / ports, from % ports) += 1;
    }

    /// A full load with a cell moved along its row to another output.
    pub(crate) fn overload_output_by_one(&mut self, random: &mut Random) {
        self.add_permutations(self.shape.slots, random);
        let (from, to) = self.move_one_cell(random);
        let ports = self.shape.ports;
        self.counts[from] -= u16::from(ports > 1);
        *self.at(from / ports, to % ports) += 1;
    }

    /// A place with a cell to give, and one in another row and another column.
    fn move_one_cell(&self, random: &mut Random) -> (usize, usize) {
        let ports = self.shape.ports;
        let holding = random.permutation(ports * ports);
        let from = holding.into_iter().find(|&place| self.counts[place] > 0);
        let from = from.unwrap_or(0);
        let further = |port: usize, random: &mut Random| {
            (port + random.between(1, (ports as u64 - 1).max(1)) as usize) % ports
        };
        let input = further(from / ports, random);
        (from, input * ports + further(from % ports, random))
    }

    /// Some inputs with counts of any size up to the largest there is.
    pub(crate) fn overload_inputs(&mut self, random: &mut Random) {
        let most = random.pick(&[65_535, 2_000, self.shape.slots as u64 + 1]);
        for _ in 0..random.between(1, 3) {
            let input = random.place(self.shape.ports);
            for output in 0..self.shape.ports {
                *self.at(input, output) = random.between(0, most) as u16;
            }
        }
    }

    /// One output with counts that each fit the frame but not together.
    pub(crate) fn overload_output(&mut self, random: &mut Random) {
        let output = random.place(self.shape.ports);
        let slots = self.shape.slots as u64;
        for input in 0..self.shape.ports {
            *self.at(input, output) = random.between(slots.div_ceil(2), slots) as u16;
        }
    }

    /// Four counts whose rows and columns come to 65,536 and a little.
    pub(crate) fn wrap_sixteen_bits(&mut self, random: &mut Random) {
        let ports = self.shape.ports as u64;
        if ports < 2 {
            return self.overload_inputs(random);
        }
        let input = random.between(0, ports - 2) as usize;
        let output = random.between(0, ports - 2) as usize;
        let little = random.between(0, self.shape.slots as u64 / 2);
        let large = random.between(little + 1, 65_535);
        let rest = 65_536 + little - large;
        for (down, along) in [(0, 0), (0, 1), (1, 0), (1, 1)] {
            let count = if down == along { large } else { rest };
            *self.at(input + down, output + along) = count as u16;
        }
    }
}
