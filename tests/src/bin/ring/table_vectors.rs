//! Literal slot tables, typed from request k, with what they make of senders and walks; neither side makes an expected
//! answer.

use super::vectors::{self, Sender, Walk};
use comparison::model::slot_table::Order;
use comparison::report::Count;

/// A table and a slot of it.
#[rustfmt::skip]
const SENDERS: &[(&[u8], Sender)] = &[
    // "A slot table says which node speaks at each place".
    (&[3, 1, 4, 2], (4, 1, Ok(3))),
    (&[3, 1, 4, 2], (4, 2, Ok(1))),
    (&[3, 1, 4, 2], (4, 3, Ok(4))),
    (&[3, 1, 4, 2], (4, 4, Ok(2))),
    (&[3, 1, 4, 2], (4, 5, Ok(3))),
    (&[2, 3, 1], (3, 999_999_999_999_999, Ok(1))),
    (&[2, 3, 1], (3, 1_000_000_000_000_000, Ok(2))),
    // 10^15 is 5 * 200,000,000,000,000.
    (&[5, 4, 3, 2, 1], (5, 1_000_000_000_000_000, Ok(1))),
    (&[3, 2, 1], (2, 1, Err(1))),
];

/// A table and a walk on it.
#[rustfmt::skip]
const WALKS: &[(&[u8], Walk)] = &[
    // Before 1 stands 3, before it round the ring 2, before that 4.
    (&[3, 1, 4, 2], (4, 2, 0, 0b1111, 1, Ok(&[(3, 1), (2, 2)]))),
    (&[3, 1, 4, 2], (4, 3, 0, 0b1111, 1, Ok(&[(3, 1), (2, 2), (4, 3)]))),
    (&[3, 1, 4, 2], (4, 2, 0, 0b1111, 3, Ok(&[(2, 1), (4, 2)]))),
    (&[3, 1, 4, 2], (4, 2, 0, 0b1101, 1, Ok(&[(3, 1), (4, 3)]))),
    // "P: set {2,5}, k = 3: node 5 sponsors and decides 2", with other distances.
    (&[5, 3, 1, 4, 2], (5, 3, 0, 0b1_0010, 5, Ok(&[(2, 1)]))),
    (&[5, 3, 1, 4, 2], (5, 3, 0, 0b1_0010, 2, Ok(&[(5, 4)]))),
    // Turned round, the ring is the plain one.
    (&[4, 1, 2, 3], (4, 2, 0, 0b1101, 1, Ok(&[(4, 1), (3, 2)]))),
    (&[3, 4, 1, 2], (4, 2, 0, 0b1101, 1, Ok(&[(4, 1), (3, 2)]))),
    // Backwards.
    (&[5, 4, 3, 2, 1], (5, 3, 0, 0b1_1111, 1, Ok(&[(2, 1), (3, 2), (4, 3)]))),
    (&[5, 4, 3, 2, 1], (5, 3, 0, 0b1_1111, 5, Ok(&[(1, 1), (2, 2), (3, 3)]))),
    // A node outside the set.
    (&[2, 4, 6, 1, 3, 5], (6, 3, 0, 0b10_0101, 2, Ok(&[(3, 2), (1, 3)]))),
    // With lag 1 the nearest is passed over.
    (&[3, 1, 4, 2], (4, 2, 1, 0b1111, 1, Ok(&[(2, 2), (4, 3)]))),
    (&[3, 1, 4, 2], (4, 2, 1, 0b1101, 1, Ok(&[(4, 3)]))),
    (&[3, 1, 4, 2], (4, 2, 1, 0b0101, 1, Ok(&[]))),
    (&[2, 4, 6, 1, 3, 5], (6, 3, 1, 0b10_0101, 2, Ok(&[(1, 3)]))),
    // 1, 16, 2 and 3 as with the plain table.
    (&[3, 1, 4, 2], (2, 1, 2, 0b11, 9, Err(1))),
    (&[3, 1, 4, 2], (4, 1, 2, 0b11, 9, Err(16))),
    (&[3, 1, 4, 2], (4, 3, 1, 0b11, 9, Err(2))),
    (&[3, 1, 4, 2], (4, 2, 1, 0b11, 5, Err(3))),
    (&[3, 1, 4, 2], (4, 2, 1, 0b11, 0, Err(3))),
];

pub fn senders(count: &mut Count) -> Result<(), String> {
    SENDERS.iter().try_for_each(|&(table, row)| vectors::sender(count, Order::kept(table), row))
}

pub fn walks(count: &mut Count) -> Result<(), String> {
    WALKS.iter().try_for_each(|&(table, row)| vectors::walk(count, Order::kept(table), row))
}
