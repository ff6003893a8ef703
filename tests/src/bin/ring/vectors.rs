//! Literal inputs and answers, typed from document 01 and requests b and j; neither side makes an expected answer.

use super::answers::{found, Expected};
use comparison::library::{self, Found};
use comparison::model::choices::Choices;
use comparison::model::refusal;
use comparison::model::ring::{self, Met, Set};
use comparison::model::slot_table::Order;
use comparison::report::Count;

/// n, the slot, its sender or the number of the refusal.
pub type Sender = (u32, u64, Result<u32, u32>);

#[rustfmt::skip]
const SENDERS: &[Sender] = &[
    // "P: n = 4, slot 4 has sender 4; slot 5 has 1."
    (4, 4, Ok(4)),
    (4, 5, Ok(1)),
    // "the first slot is 1"
    (3, 1, Ok(1)),
    (32, 1, Ok(1)),
    // "remainder 0 means node n"
    (3, 999_999_999_999_999, Ok(3)),
    (32, 32, Ok(32)),
    // "the limit is 1,000,000,000,000,000"
    (32, 1_000_000_000_000_000, Ok(32)),
    (3, 1_000_000_000_000_000, Ok(1)),
    // "n not 3 to 32"
    (0, 1, Err(1)),
    (2, 1, Err(1)),
    (33, 1, Err(1)),
];

pub fn senders(count: &mut Count) -> Result<(), String> {
    SENDERS.iter().try_for_each(|&row| sender(count, Order::plain(row.0), row))
}

/// Both sides beside what is typed, with this slot table.
pub fn sender(count: &mut Count, order: Order, (n, slot, expected): Sender) -> Result<(), String> {
    count.expected(expected.err().unwrap_or(0));
    let chosen = Choices { order, ..Choices::plain(n, 2) };
    let by_model = if ring::is_size(n) { Ok(ring::sender(chosen, slot)) } else { Err(refusal::N) };
    let sides = [
        ("model", by_model.map(u64::from).map_err(u64::from)),
        ("library", library::sender(&chosen.into(), slot - 1)),
    ];
    for (who, got) in sides {
        count.check(got == expected.map(u64::from).map_err(u64::from), || {
            format!("sender {chosen:?}, slot {slot}: {who} {got:?}, expected {expected:?}")
        })?;
    }
    Ok(())
}

/// n, k, the lag, the set, the node; the members that it sponsors, the nearest first, each with the number of slots
/// back, of which it decides the last; or the number of the refusal.
pub type Walk = (u32, u32, u32, u32, u32, Result<&'static [(u32, u32)], u32>);

#[rustfmt::skip]
const WALKS: &[Walk] = &[
    // "P: set {1,3,4}, k = 2: node 1 sponsors 4, 3 and decides 3."
    (4, 2, 0, 0b1101, 1, Ok(&[(4, 1), (3, 2)])),
    // "P: set {2,5}, k = 3: node 5 sponsors and decides 2."
    (5, 3, 0, 0b1_0010, 5, Ok(&[(2, 3)])),
    (32, 3, 0, 0b1_0010, 5, Ok(&[(2, 3)])),
    // The other way, past node 1 to node n.
    (5, 3, 0, 0b1_0010, 2, Ok(&[(5, 2)])),
    (32, 3, 0, 0b1_0010, 2, Ok(&[(5, 29)])),
    // "P: set {2}: nobody."
    (5, 3, 0, 0b10, 2, Ok(&[])),
    (3, 2, 0, 0b10, 2, Ok(&[])),
    // "going back round the ring in slot order": not by number across gaps.
    (8, 3, 0, 0b1100_0110, 7, Ok(&[(3, 4), (2, 5), (8, 7)])),
    (32, 2, 0, 0x8000_0001, 1, Ok(&[(32, 1)])),
    // "from 1 to n - 1"
    (32, 2, 0, 0x8000_0001, 32, Ok(&[(1, 31)])),
    (3, 2, 0, 0b11, 1, Ok(&[(2, 2)])),
    (4, 3, 0, 0b1111, 2, Ok(&[(1, 1), (4, 2), (3, 3)])),
    // A node outside the set.
    (6, 3, 0, 0b10_0101, 2, Ok(&[(1, 1), (6, 2)])),
    (32, 31, 0, 0xFFFF_FFFF, 32, Ok(&[
        (31, 1), (30, 2), (29, 3), (28, 4), (27, 5), (26, 6), (25, 7), (24, 8), (23, 9), (22, 10), (21, 11),
        (20, 12), (19, 13), (18, 14), (17, 15), (16, 16), (15, 17), (14, 18), (13, 19), (12, 20), (11, 21),
        (10, 22), (9, 23), (8, 24), (7, 25), (6, 26), (5, 27), (4, 28), (3, 29), (2, 30), (1, 31),
    ])),
    // Request j: "With lag 1 and c members, ks is the smaller of k and c - 2, bit 1 concerns the second member back".
    // Of three members the one that node 1 sponsors is 3, and it decides 3.
    (4, 2, 1, 0b1101, 1, Ok(&[(3, 2)])),
    (5, 2, 1, 0b1101, 1, Ok(&[(3, 3)])),
    (4, 2, 1, 0b1111, 1, Ok(&[(3, 2), (2, 3)])),
    (4, 2, 1, 0b1111, 3, Ok(&[(1, 2), (4, 3)])),
    (5, 3, 1, 0b1_1111, 5, Ok(&[(3, 2), (2, 3), (1, 4)])),
    (5, 2, 1, 0b1_1111, 5, Ok(&[(3, 2), (2, 3)])),
    (5, 3, 1, 0b1_0111, 5, Ok(&[(2, 3), (1, 4)])),
    (8, 3, 1, 0b1100_0110, 7, Ok(&[(2, 5), (8, 7)])),
    (8, 2, 1, 0b1110_0111, 7, Ok(&[(3, 4), (2, 5)])),
    // "with two members or fewer nobody is decided"
    (5, 3, 1, 0b1_0010, 5, Ok(&[])),
    (5, 3, 1, 0b1_0010, 2, Ok(&[])),
    (32, 2, 1, 0x8000_0001, 32, Ok(&[])),
    (5, 3, 1, 0b10, 2, Ok(&[])),
    (5, 3, 1, 0, 2, Ok(&[])),
    // A node outside the set: of three members ks is 1, of two 0.
    (6, 3, 1, 0b10_0101, 2, Ok(&[(6, 2)])),
    (6, 3, 1, 0b10_0001, 2, Ok(&[])),
    // "from 1 to n - 1": node 1 is 31 slots back of 32, with the largest k.
    (32, 30, 1, 0xFFFF_FFFF, 32, Ok(&[
        (30, 2), (29, 3), (28, 4), (27, 5), (26, 6), (25, 7), (24, 8), (23, 9), (22, 10), (21, 11), (20, 12),
        (19, 13), (18, 14), (17, 15), (16, 16), (15, 17), (14, 18), (13, 19), (12, 20), (11, 21), (10, 22),
        (9, 23), (8, 24), (7, 25), (6, 26), (5, 27), (4, 28), (3, 29), (2, 30), (1, 31),
    ])),
    // "k is at most n - 1 less the lag"
    (4, 3, 0, 0b1111, 1, Ok(&[(4, 1), (3, 2), (2, 3)])),
    (4, 3, 1, 0b1111, 1, Err(2)),
    (3, 2, 0, 0b111, 1, Ok(&[(3, 1), (2, 2)])),
    (3, 2, 1, 0b111, 1, Err(2)),
    (32, 31, 1, 0xFFFF_FFFF, 32, Err(2)),
    // "Lag above 1: 16, after 1."
    (4, 2, 2, 0b1111, 1, Err(16)),
    (32, 2, 2, 0b1111, 1, Err(16)),
    (32, 2, 256, 0b1111, 1, Err(16)),
    (32, 2, 257, 0b1111, 1, Err(16)),
    (32, 2, u32::MAX, 0b1111, 1, Err(16)),
    (2, 2, 2, 0b11, 1, Err(1)),
    (33, 2, u32::MAX, 0b11, 1, Err(1)),
    (4, 1, 2, 0b11, 1, Err(16)),
    (4, 4, 2, 0b11, 9, Err(16)),
    (4, 2, 2, 0b11, 0, Err(16)),
    (2, 1, 2, 0b11, 9, Err(1)),
    (4, 3, 1, 0b11, 9, Err(2)),
    (4, 2, 1, 0b11, 0, Err(3)),
    (4, 2, 1, 0b11, 5, Err(3)),
    // "Checks run in table order".
    (2, 1, 0, 0b11, 9, Err(1)),
    (33, 2, 0, 0b11, 1, Err(1)),
    (4, 1, 0, 0b11, 9, Err(2)),
    (4, 4, 0, 0b11, 1, Err(2)),
    (4, 2, 0, 0b11, 0, Err(3)),
    (4, 2, 0, 0b11, 5, Err(3)),
];

fn met(&(member, back): &(u32, u32)) -> Met {
    Met { member, back }
}

/// What both sides answer beside what is typed.
fn same(
    count: &mut Count,
    typed: Expected,
    by_model: Expected,
    by_library: Found,
    call: impl Fn() -> String,
) -> Result<(), String> {
    for (who, got) in [("model", found(by_model)), ("library", by_library)] {
        count.check(got == found(typed), || format!("{}: {who} {got:?}, expected {typed:?}", call()))?;
    }
    Ok(())
}

pub fn walks(count: &mut Count) -> Result<(), String> {
    WALKS.iter().try_for_each(|&row| walk(count, Order::plain(row.0), row))
}

/// The members sponsored, from the 0th, which is nobody, to the 40th; those before the node, as far as they are
/// typed, the first of them the nearest or with lag 1 the second; and the one decided.
pub fn walk(count: &mut Count, order: Order, row: Walk) -> Result<(), String> {
    let (n, k, lag, set, x, expected) = row;
    count.expected(expected.err().unwrap_or(0));
    let chosen = Choices { n, k, m: 0, lag, order };
    let asked = chosen.into();
    let call = |name: String| format!("{name} {chosen:?}, set = {set:#X}, node {x}");
    let checked = chosen.check_ring().and_then(|()| ring::check_node(n, x));
    let sponsored = |j: u32| ring::sponsored(chosen, Set(set), x).nth(j.checked_sub(1)? as usize);
    for j in 0..=40u32 {
        let typed = expected.map(|members| members.get(j.checked_sub(1)? as usize).map(met));
        let by_library = library::sponsored(&asked, set, x, j);
        same(count, typed, checked.map(|()| sponsored(j)), by_library, || call(format!("{j}. sponsored")))?;
    }
    for (j, member) in (lag.saturating_add(1)..).zip(expected.into_iter().flatten()) {
        let by_model = ring::members_before(chosen, Set(set), x).nth(j as usize - 1);
        let by_library = library::before(&asked, set, x, j);
        same(count, Ok(Some(met(member))), Ok(by_model), by_library, || call(format!("{j}. before")))?;
    }
    let typed = expected.map(|members| members.last().map(met));
    let by_model = checked.map(|()| ring::decided(chosen, Set(set), x));
    same(count, typed, by_model, library::decided(&asked, set, x), || call("decided".to_string()))
}
