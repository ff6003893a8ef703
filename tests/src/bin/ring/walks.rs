//! The walk back: the members before a node, sponsored and decided, and how many slots back each speaks.

use super::answers::{found, Expected};
use super::inputs::{any_ring_of, chosen_sets, in_any_order, ring_of, small_sets};
use comparison::causes::Causes;
use comparison::library::{self, Found};
use comparison::model::choices::Choices;
use comparison::model::ring::{self, Met, Set};
use comparison::model::roll::Roll;
use comparison::model::slot_table::Order;
use comparison::numbers::small_and_large;
use comparison::random::Random;
use comparison::records::choices;
use comparison::report::Count;
use comparison::slot_tables;

/// A node x of a ring with this set, and a number of members.
#[derive(Clone, Copy)]
struct Walk {
    chosen: Choices,
    set: u32,
    x: u32,
    j: u32,
}

impl Walk {
    /// Counted by slots: the member is that of so many slots before a slot of x, 1 to n - 1, and just j members
    /// speak from there on, it the first.
    fn meets(self, met: Met) -> bool {
        let n = u64::from(self.chosen.n);
        let speaker_of = |slot| ring::sender(self.chosen, slot);
        let own = (n + 1..=2 * n).find(|&slot| speaker_of(slot) == self.x).expect("each node has a slot");
        let speaker = |back: u32| speaker_of(own - u64::from(back));
        let set = Roll::of(self.set);
        (1..self.chosen.n).contains(&met.back)
            && speaker(met.back) == met.member
            && set.has(met.member)
            && (1..=met.back).filter(|&back| set.has(speaker(back))).count() == self.j as usize
    }
}

fn note(count: &mut Count, n: u32, expected: Expected) {
    count.expected(expected.err().unwrap_or(0));
    match expected {
        Ok(Some(met)) => {
            count.event("found: a member");
            count.event(match met.back {
                1 => "slots back: 1",
                back if back == n - 1 => "slots back: n - 1",
                _ => "slots back: 2 to n - 2",
            });
        }
        Ok(None) => count.event("found: nobody"),
        Err(_) => {}
    }
}

/// The library beside the model, and what is found beside the slots that are walked. It gives the expected answer, 0 for
/// an accepted call.
fn same(
    count: &mut Count,
    walk: Walk,
    expected: Expected,
    got: Found,
    call: impl Fn() -> String,
) -> Result<u32, String> {
    note(count, walk.chosen.n, expected);
    count.check(got == found(expected), || format!("{}: library {got:?}, model {expected:?}", call()))?;
    if let Ok(Some(met)) = expected {
        count.check(walk.meets(met), || format!("{}: by slots not {met:?}", call()))?;
    }
    Ok(expected.err().unwrap_or(0))
}

/// The j-th of the members met; there is no 0th.
fn jth(mut members: impl Iterator<Item = Met>, j: u32) -> Option<Met> {
    members.nth(j.checked_sub(1)? as usize)
}

fn before(count: &mut Count, chosen: Choices, set: u32, x: u32, j: u32) -> Result<u32, String> {
    let checked = ring::check_size(chosen.n).and_then(|()| ring::check_node(chosen.n, x));
    let expected = checked.map(|()| jth(ring::members_before(chosen, Set(set), x), j));
    same(count, Walk { chosen, set, x, j }, expected, library::before(&chosen.into(), set, x, j), || {
        format!("before {chosen:?}, set = {set:#X}, node {x}, j = {j}")
    })
}

/// Numbers above n in the set are no members.
fn sponsored(count: &mut Count, chosen: Choices, set: u32, x: u32, j: u32) -> Result<u32, String> {
    let members = Set(set).up_to(chosen.n);
    let expected = checked(chosen, x).map(|()| jth(ring::sponsored(chosen, members, x), j));
    let walk = Walk { chosen, set, x, j: j.saturating_add(chosen.lag) };
    same(count, walk, expected, library::sponsored(&chosen.into(), set, x, j), || {
        format!("sponsored {chosen:?}, set = {set:#X}, node {x}, j = {j}")
    })
}

/// The (ks + lag)-th member before it.
fn decided(count: &mut Count, chosen: Choices, set: u32, x: u32) -> Result<u32, String> {
    let members = Set(set).up_to(chosen.n);
    let expected = checked(chosen, x).map(|()| ring::decided(chosen, members, x));
    let j = ring::ks(chosen, Roll::of(set).up_to(chosen.n).count()).saturating_add(chosen.lag);
    same(count, Walk { chosen, set, x, j }, expected, library::decided(&chosen.into(), set, x), || {
        format!("decided {chosen:?}, set = {set:#X}, node {x}")
    })
}

/// 1, 16, 2, 3, in this order.
fn checked(chosen: Choices, x: u32) -> Result<(), u32> {
    chosen.check_ring().and_then(|()| ring::check_node(chosen.n, x))
}

/// One node, with each lag, two that are none, and each k and j to n + 1.
fn node(count: &mut Count, ring: Choices, set: u32, x: u32) -> Result<(), String> {
    let n = ring.n;
    for j in 0..=n + 1 {
        before(count, ring, set, x, j)?;
    }
    for k in 0..=n + 1 {
        for lag in [0, 1, 2, u32::MAX] {
            let chosen = Choices { k, lag, ..ring };
            decided(count, chosen, set, x)?;
            // A lag that is none is refused whatever j.
            for j in 0..=if lag > 1 { 1 } else { n + 1 } {
                sponsored(count, chosen, set, x, j)?;
            }
        }
    }
    Ok(())
}

/// One set, with each node to n + 1.
fn every_node(count: &mut Count, ring: Choices, set: u32) -> Result<(), String> {
    for x in 0..=ring.n + 1 {
        node(count, ring, set, x)?;
    }
    Ok(())
}

/// What the inputs of each case must lead to.
fn all_found(count: &Count) -> Result<(), String> {
    count.needs(&["found: a member", "found: nobody"])?;
    count.needs(&["slots back: 1", "slots back: 2 to n - 2", "slots back: n - 1"])
}

pub fn small_rings(count: &mut Count) -> Result<(), String> {
    for n in 0..=8 {
        for set in small_sets() {
            every_node(count, ring_of(n), set)?;
        }
    }
    all_found(count)
}

/// The same nodes in every order.
fn orders(n: u8) -> Vec<Vec<u8>> {
    if n == 0 {
        return vec![Vec::new()];
    }
    let mut all = Vec::new();
    for shorter in orders(n - 1) {
        for at in 0..=shorter.len() {
            let mut order = shorter.clone();
            order.insert(at, n);
            all.push(order);
        }
    }
    all
}

/// Every slot table of so few nodes, and every set.
pub fn every_table(count: &mut Count) -> Result<(), String> {
    for n in 3..=5 {
        for order in orders(n).iter().map(|order| Order::kept(order)) {
            let ring = Choices { order, ..ring_of(u32::from(n)) };
            slot_tables::note(count, ring.n, order);
            for set in 0..1 << n {
                every_node(count, ring, set)?;
            }
        }
    }
    all_found(count)
}

/// The members before a node that stands in the table once, where another is missing: the places are walked as they
/// are, and a node that stands at two of them is met twice.
pub fn damaged_tables(count: &mut Count) -> Result<(), String> {
    let mut random = Random::new(19);
    for i in 0..200_000 {
        let chosen = choices(&mut random);
        let n = chosen.n as usize;
        let mut order = chosen.order;
        slot_tables::make_wrong(&mut random, &mut order.0[..n], i % 4);
        let x = random.within(1, n as u64) as u32;
        if order.0[..n].iter().filter(|&&speaker| u32::from(speaker) == x).count() != 1 {
            continue;
        }
        count.event(slot_tables::WRONG[i % 4]);
        let set = Set(random.number() as u32 | random.number() as u32);
        let j = random.below(n as u64 + 2) as u32;
        before(count, Choices { order, ..chosen }, set.up_to(chosen.n).0, x, j)?;
    }
    count.needs(&slot_tables::WRONG)?;
    all_found(count)
}

pub fn large_rings(count: &mut Count) -> Result<(), String> {
    for n in 31..=33 {
        for set in chosen_sets() {
            every_node(count, ring_of(n), set)?;
        }
    }
    all_found(count)
}

/// Random sets for each n: with numbers above n, without these, and with about half of the rest. Each with a slot table.
pub fn all_rings(count: &mut Count) -> Result<(), String> {
    let mut random = Random::new(7);
    for n in 3..=32 {
        for _ in 0..4 {
            let any = Set(random.number() as u32);
            let half = random.some_of(any.up_to(n));
            for set in [any, any.up_to(n), half] {
                let ring = any_ring_of(&mut random, n);
                slot_tables::note(count, n, ring.order);
                every_node(count, ring, set.0)?;
            }
        }
    }
    count.needs(&slot_tables::KINDS)?;
    all_found(count)
}

/// A number to n + 1 for most calls, else a small or a large one.
fn number(random: &mut Random, n: u32, numbers: &[u32]) -> u32 {
    if random.below(8) == 0 {
        numbers[random.below(numbers.len() as u64) as usize]
    } else {
        random.below(u64::from(n.min(32)) + 2) as u32
    }
}

const BEFORE: Causes = Causes { numbers: &[1, 3], pairs: &["before: 1 and 3"] };

const SPONSORED: Causes = Causes {
    numbers: &[1, 16, 2, 3],
    pairs: &["sponsored: 1 and 16", "sponsored: 16 and 2", "sponsored: 2 and 3"],
};

const DECIDED: Causes = Causes {
    numbers: &[1, 16, 2, 3],
    pairs: &["decided: 1 and 16", "decided: 16 and 2", "decided: 2 and 3"],
};

/// Whether 1, 16, 2 and 3 apply, each looked at by itself.
fn causes(Choices { n, k, lag, .. }: Choices, x: u32) -> [bool; 4] {
    let wide = i64::from;
    [!(3..=32).contains(&n), lag > 1, k < 2 || wide(k) > wide(n) - 1 - wide(lag), x < 1 || x > n]
}

/// Each call; of the causes that apply to it the first is told.
fn every_call(count: &mut Count, chosen: Choices, set: u32, x: u32, j: u32) -> Result<(), String> {
    let all = causes(chosen, x);
    let firsts =
        [BEFORE.first(count, &[all[0], all[3]]), SPONSORED.first(count, &all), DECIDED.first(count, &all)];
    let numbers = [
        before(count, chosen, set, x, j)?,
        sponsored(count, chosen, set, x, j)?,
        decided(count, chosen, set, x)?,
    ];
    count.check(numbers == firsts, || format!("{chosen:?}, node {x}: {numbers:?}, not {firsts:?}"))
}

pub fn random(count: &mut Count) -> Result<(), String> {
    let mut random = Random::new(8);
    let numbers: Vec<u32> = small_and_large().collect();
    for _ in 0..1_000_000 {
        let n = number(&mut random, 32, &numbers);
        let k = number(&mut random, n, &numbers);
        let lag =
            if random.below(8) == 0 { number(&mut random, n, &numbers) } else { random.below(2) as u32 };
        let chosen = in_any_order(&mut random, Choices::of(n, k, 0, lag));
        let x = number(&mut random, n, &numbers);
        let j = number(&mut random, n, &numbers);
        let any = random.number() as u32;
        let set = if random.bit() { any } else { any & random.number() as u32 };
        every_call(count, chosen, set, x, j)?;
    }
    for all in [BEFORE, SPONSORED, DECIDED] {
        all.met(count)?;
    }
    all_found(count)
}
