//! The sender of a slot, and the functions on numbers alone.

use super::inputs::{any_ring_of, ring_of};
use comparison::library;
use comparison::model::choices::{Asked, Choices};
use comparison::model::refusal;
use comparison::model::ring::{self, LIMIT};
use comparison::model::slot_table::Slots;
use comparison::numbers::{no_lags, small_and_large};
use comparison::random::Random;
use comparison::report::Count;
use comparison::slot_tables;

/// Compares the library's sender after `done` slots with x, and the model's where that slot has a
/// number. If n is out of range the refusal is expected, whatever x.
fn sender(count: &mut Count, chosen: Choices, done: u64, x: u32) -> Result<(), String> {
    let n = chosen.n;
    let expected = if ring::is_size(n) { Ok(x) } else { Err(refusal::N) };
    count.expected(expected.err().unwrap_or(0));
    let got = library::sender(&chosen.into(), done);
    count.check(got == expected.map(u64::from).map_err(u64::from), || {
        format!("sender {chosen:?}, after {done} slots: library {got:?}, expected {expected:?}")
    })?;
    match (expected, done.checked_add(1)) {
        (Ok(x), Some(slot)) => {
            let by_model = ring::sender(chosen, slot);
            count.check(by_model == x, || {
                format!("sender {chosen:?}, slot {slot}: model {by_model}, expected {x}")
            })
        }
        _ => Ok(()),
    }
}

/// The place of the slot after `done` slots by long division, decimal digit by digit.
fn divided(n: u32, done: u64) -> u32 {
    let rest = |rest, digit| (rest * 10 + u32::from(digit - b'0')) % n;
    done.to_string().bytes().fold(0, rest) + 1
}

/// The nodes as they take turns: one after the other as they stand in the table.
fn turns(chosen: Choices) -> Vec<u32> {
    let slots = chosen.order.slots(chosen.n.max(1));
    slots.bytes().iter().map(|&x| u32::from(x)).collect()
}

/// The first 400 slots: the nodes take turns.
fn first_slots(count: &mut Count, chosen: Choices) -> Result<(), String> {
    for (done, &x) in (0..400).zip(turns(chosen).iter().cycle()) {
        sender(count, chosen, done, x)?;
    }
    Ok(())
}

/// The slots around the limit, the ends of 32 and 63 bits, the last that a u64 counts, and random ones.
fn late_slots(count: &mut Count, chosen: Choices) -> Result<(), String> {
    let mut random = Random::new(6);
    let turns = turns(chosen);
    let around = [LIMIT, 1 << 31, 1 << 32, 1 << 63].into_iter().flat_map(|end| end - 50..end + 50);
    let last = u64::MAX - 50..=u64::MAX;
    let others = (0..200).map(|_| random.number() >> random.below(64));
    for done in around.chain(last).chain(others) {
        sender(count, chosen, done, turns[divided(turns.len() as u32, done) as usize - 1])?;
    }
    Ok(())
}

pub fn senders(count: &mut Count) -> Result<(), String> {
    for n in 0..=40 {
        first_slots(count, ring_of(n))?;
        late_slots(count, ring_of(n))?;
    }
    for n in small_and_large() {
        sender(count, ring_of(n), 0, 1)?;
    }
    Ok(())
}

/// The same with slot tables: four of each n.
pub fn senders_by_table(count: &mut Count) -> Result<(), String> {
    let mut random = Random::new(9);
    for n in (3..=32).flat_map(|n| [n; 4]) {
        let chosen = any_ring_of(&mut random, n);
        slot_tables::note(count, n, chosen.order);
        first_slots(count, chosen)?;
        late_slots(count, chosen)?;
    }
    count.needs(&slot_tables::KINDS)
}

/// Tables of every length to 40, and ones with a wrong place: who stands at the place of the slot speaks, and 0 where
/// the table has no such place.
pub fn senders_by_damaged_table(count: &mut Count) -> Result<(), String> {
    let mut random = Random::new(10);
    for n in 3..=32 {
        for places in 0..=40 {
            let mut slots = slot_tables::of_length(&mut random, n, places);
            if places == n as usize {
                slot_tables::make_wrong(&mut random, &mut slots, n as usize % 4);
            }
            let asked = Asked { slots: Slots::new(&slots), ..ring_of(n).into() };
            for done in 0..80 {
                let place = done as usize % n as usize;
                let expected = slots.get(place).map_or(0, |&x| u64::from(x));
                let got = library::sender(&asked, done);
                count.check(got == Ok(expected), || {
                    format!("sender n = {n}, table {slots:?}, after {done} slots: {got:?}, not {expected}")
                })?;
            }
        }
    }
    Ok(())
}

/// Two numbers and a lag: as n and k, as k and a count of members.
fn pair(count: &mut Count, a: u32, b: u32, lag: u32) -> Result<(), String> {
    let (got, expected) = (library::ring_is_sponsor_count(a, b, lag), ring::is_sponsor_count(a, b, lag));
    count.event(if expected { "sponsor count: yes" } else { "sponsor count: no" });
    count.check(got == expected, || {
        format!("is_sponsor_count {a}, {b}, lag {lag}: library {got}, model {expected}")
    })?;
    let expected = ring::ks(Choices::of(3, a, 0, lag), b);
    let got = library::ring_ks(3, a, lag, b);
    count.check(got == expected, || {
        format!("ks k = {a}, lag {lag}, {b} members: library {got}, model {expected}")
    })
}

/// Both lags, and numbers that are none: "the smaller of k and c - 1" less the lag, 0 where that would be negative.
fn lags() -> impl Iterator<Item = u32> {
    [0, 1].into_iter().chain(no_lags())
}

pub fn ranges(count: &mut Count) -> Result<(), String> {
    for a in small_and_large() {
        let (got, expected) = (library::ring_is_ring_size(a), ring::is_size(a));
        count.check(got == expected, || format!("is_ring_size {a}: library {got}, model {expected}"))?;
        for b in small_and_large() {
            let (got, expected) = (library::ring_is_node_number(a, b), ring::is_node(a, b));
            count.check(got == expected, || {
                format!("is_node_number {a}, {b}: library {got}, model {expected}")
            })?;
            for lag in lags() {
                pair(count, a, b, lag)?;
            }
        }
    }
    count.needs(&["sponsor count: yes", "sponsor count: no"])
}
