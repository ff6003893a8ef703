//! Document 02, request a: the ledger of leavings, lent beside the bench's table.

use super::node::{Node, State};
use super::refusal;

/// "how often it left, how often it joined, and the slot of its last leaving (0 if never)"
#[derive(Clone, Copy, PartialEq, Eq, Debug, Default)]
pub struct Figures {
    pub left: u64,
    pub joined: u64,
    pub last: u64,
}

/// "a ledger whose length is not n, or with a count above the slot count plus one"; the slot of the last
/// leaving is no count. The table is as it must be.
pub fn check(ledger: &[Figures], table: &[Node]) -> Result<(), u32> {
    let most = table[0].slots + 1;
    let fits = |figures: &Figures| figures.left <= most && figures.joined <= most;
    if ledger.len() == table.len() && ledger.iter().all(fits) {
        Ok(())
    } else {
        Err(refusal::LEDGER)
    }
}

/// What a call that took the first table to the second adds; a leaving has this date. "A node that only stops
/// following is not counted."
pub fn enter(ledger: &mut [Figures], before: &[Node], after: &[Node], date: u64) {
    for ((figures, before), after) in ledger.iter_mut().zip(before).zip(after) {
        match (before.state, after.state) {
            (State::Member, State::Member) => {}
            (State::Member, _) => {
                figures.left += 1;
                figures.last = date;
            }
            (_, State::Member) => figures.joined += 1,
            _ => {}
        }
    }
}
