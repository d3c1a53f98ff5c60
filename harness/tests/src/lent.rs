//! Lists and frames lent to a builder.

use crate::verdict::{expect, Verdict};

/// Numbers kept on either side of the lent part.
const MARGIN: usize = 32;

/// A lent part inside a larger buffer, whose margins show writes outside the part.
#[derive(Clone)]
pub struct Lent {
    whole: Vec<u16>,
    length: usize,
}

impl Lent {
    /// Lends a copy of these numbers, the margins filled with others.
    pub fn new(part: &[u16], mut filler: impl FnMut() -> u16) -> Lent {
        let mut whole: Vec<u16> = (0..MARGIN).map(|_| filler()).collect();
        whole.extend_from_slice(part);
        whole.resize_with(part.len() + 2 * MARGIN, filler);
        Lent {
            whole,
            length: part.len(),
        }
    }

    pub fn part(&self) -> &[u16] {
        &self.whole[MARGIN..][..self.length]
    }

    pub fn part_mut(&mut self) -> &mut [u16] {
        &mut self.whole[MARGIN..][..self.length]
    }

    /// Fails unless every number, margins too, is as in the other buffer.
    pub fn expect_same(&self, what: &str, right: &Lent) -> Verdict {
        let mut numbers = self.whole.iter().zip(&right.whole);
        let place = numbers.position(|(given, right)| given != right);
        expect(self.length == right.length && place.is_none(), || {
            let place = place.unwrap_or_default();
            let (given, right) = (self.whole[place], right.whole[place]);
            let offset = place as i64 - MARGIN as i64;
            format!("{what}, offset {offset}: {given} found, {right} right")
        })
    }
}
