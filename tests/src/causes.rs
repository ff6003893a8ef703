//! The causes by which a call can be refused, in the order in which they are tested.

use crate::report::Count;

/// The numbers in their order, and a name for each two neighbours.
pub struct Causes {
    pub numbers: &'static [u32],
    pub pairs: &'static [&'static str],
}

impl Causes {
    /// The number of the first cause that applies, or 0. Notes it where its neighbour applies, too.
    pub fn first(&self, count: &mut Count, applies: &[bool]) -> u32 {
        assert_eq!(applies.len(), self.numbers.len());
        let Some(first) = applies.iter().position(|&yes| yes) else { return 0 };
        if applies.get(first + 1) == Some(&true) {
            count.event(self.pairs[first]);
        }
        self.numbers[first]
    }

    /// Fails if two neighbours were never met at once, the first of them before all that apply.
    pub fn met(&self, count: &Count) -> Result<(), String> {
        count.needs(self.pairs)
    }
}
