//! Lists and frames that several cases are given.

/// The flows of document 01's sheet, in the order of its lines.
pub const TABLE_7: [u16; 20] = [1, 1, 2, 1, 1, 2, 2, 1, 4, 1, 1, 1, 4, 2, 1, 1, 4, 4, 2, 1];

/// Their frame.
pub const TABLE_7_FRAME: [u16; 16] = [1, 0, 0, 5, 2, 0, 0, 3, 1, 0, 0, 4, 2, 0, 0, 5];

/// The same frame by outputs, by hand: flows 1 and 3 go to output 1, flows 2 and 4 to output 2, flow 5 to output 4.
pub const TABLE_7_BY_OUTPUTS: [u16; 16] = [1, 0, 0, 5, 3, 2, 0, 0, 1, 4, 0, 0, 0, 2, 0, 5];

/// The lists of the two frames of document 01's seam, in both of which flow 2 is from input 1 to output 2.
pub const SEAM: [[u16; 8]; 2] = [[1, 1, 0, 1, 1, 2, 1, 1], [1, 1, 1, 1, 1, 2, 1, 1]];

/// The first numbers of a list that has the same flow again and again.
pub fn repeated(flow: [u16; 4], numbers: usize) -> Vec<u16> {
    flow.into_iter().cycle().take(numbers).collect()
}

/// The first numbers of a list whose flows all have 0 cells, from input 1 to output 1.
pub fn idle(numbers: usize) -> Vec<u16> {
    repeated([1, 1, 0, 1], numbers)
}

/// The list with other numbers at some places, which are numbered from 0.
pub fn with<const PLACES: usize>(mut list: Vec<u16>, changes: [(usize, u16); PLACES]) -> Vec<u16> {
    for (place, number) in changes {
        list[place] = number;
    }
    list
}

/// A frame of idle entries.
pub fn zeros(entries: usize) -> Vec<u16> {
    vec![0; entries]
}
