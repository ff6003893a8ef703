//! Ledgers as they may be lent: ones that fit a table, ones that do not, and any small ones.

use super::protocol::ENTRIES;
use comparison::model::ledger::Figures;
use comparison::random::Random;

/// A count that fits, often one of the last two that do.
fn count(random: &mut Random, slots: u64) -> u64 {
    match random.below(4) {
        0 => slots + random.below(2),
        1 => random.below(slots + 2),
        _ => random.below(3).min(slots + 1),
    }
}

/// Any number: a date may be each.
fn any_number(random: &mut Random, slots: u64) -> u64 {
    [0, slots, slots + 2, u64::MAX, random.number()][random.below(5) as usize]
}

/// Any figures; most often they fit no table.
pub fn any(random: &mut Random) -> Figures {
    let slots = random.below(9);
    let mut number = || any_number(random, slots);
    Figures { left: number(), joined: number(), last: number() }
}

/// A ledger that fits a table of n nodes with this slot count.
pub fn fitting(random: &mut Random, n: usize, slots: u64) -> Vec<Figures> {
    let figures = |random: &mut Random| Figures {
        left: count(random, slots),
        joined: count(random, slots),
        last: any_number(random, slots),
    };
    (0..n).map(|_| figures(random)).collect()
}

/// A count past those that fit: just past them, far past them, or such that its low bytes are in range.
fn past(random: &mut Random, slots: u64) -> u64 {
    match random.below(4) {
        0 | 1 => slots + 2,
        2 => u64::MAX - random.below(2),
        _ => 1 << random.within(50, 63),
    }
}

/// A ledger that does not fit, in one way: its length, or one count.
pub fn unfit(random: &mut Random, n: usize, slots: u64) -> Vec<Figures> {
    let mut ledger = fitting(random, n, slots);
    let place = random.below(n as u64) as usize;
    match random.below(6) {
        0 => ledger.truncate(n - 1),
        1 => ledger.push(ledger[place]),
        2 => ledger.truncate(place),
        3 => ledger.resize(random.within(n as u64 + 1, ENTRIES as u64) as usize, Figures::default()),
        4 => ledger[place].left = past(random, slots),
        _ => ledger[place].joined = past(random, slots),
    }
    ledger
}

/// Any small figures; most often n entries or one fewer or more.
pub fn small(random: &mut Random, n: usize) -> Vec<Figures> {
    let length = match random.below(8) {
        0 => n.saturating_sub(1),
        1 => n + 1,
        2 => random.below(ENTRIES as u64 + 1) as usize,
        _ => n,
    };
    let most = random.within(1, 4);
    let mut number = || random.below(most);
    (0..length.min(ENTRIES)).map(|_| Figures { left: number(), joined: number(), last: number() }).collect()
}
