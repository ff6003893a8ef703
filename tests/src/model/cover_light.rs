//! Document 02, request n: "Cover light".

use super::held::Record;
use super::node::{Node, State};
use super::refusal;
use super::ring;

/// "Each lamp i has a base level 0 to 254."; "at most 254"
pub const BRIGHTEST: u8 = 254;

/// "Base above 254 or a table not of n entries: 20"
fn check_bases(n: u32, bases: &[u8]) -> Result<(), u32> {
    if bases.len() == n as usize && bases.iter().all(|&base| base <= BRIGHTEST) {
        Ok(())
    } else {
        Err(refusal::BASES)
    }
}

/// "Lamps 1 and n have one neighbour."
fn neighbours(n: u32, lamp: u32) -> impl Iterator<Item = u32> {
    [lamp - 1, lamp + 1].into_iter().filter(move |&other| ring::is_node(n, other))
}

/// "A member works out lamp i as its base plus half the base of each neighbour i - 1 and i + 1 that is not listed, halves
/// rounded down one by one, and at most 254. .. A node in any other state gives 254 for each lamp." There is such a lamp,
/// and its table is right.
fn worked_out(node: &Node, bases: &[u8], lamp: u32) -> u8 {
    if node.state != State::Member {
        return BRIGHTEST;
    }
    let base = |i: u32| u32::from(bases[i as usize - 1]);
    let covered = neighbours(node.chosen.n, lamp).filter(|&other| !node.set.has(other));
    let level = base(lamp) + covered.map(|other| base(other) / 2).sum::<u32>();
    level.min(u32::from(BRIGHTEST)) as u8
}

/// "20, after 4 and 3": 4, "node number not 1 to n" of a lamp, 20.
pub fn level(record: &Record, bases: &[u8], lamp: u32) -> Result<u8, u32> {
    let node = record.as_set()?;
    ring::check_node(node.chosen.n, lamp)?;
    check_bases(node.chosen.n, bases)?;
    Ok(worked_out(&node, bases, lamp))
}

/// All of them, of lamp 1 first: 4, 20 and then 9. Lent bytes after them stay, and so do all where it is refused.
pub fn levels(record: &Record, bases: &[u8], out: &mut [u8]) -> Result<usize, u32> {
    let node = record.as_set()?;
    let n = node.chosen.n;
    check_bases(n, bases)?;
    let lent = out.get_mut(..n as usize).ok_or(refusal::OUTPUT)?;
    lent.iter_mut().zip(1..).for_each(|(byte, lamp)| *byte = worked_out(&node, bases, lamp));
    Ok(n as usize)
}
