//! The sets and rings that are tried.

use comparison::model::choices::Choices;
use comparison::model::ring::is_size;
use comparison::random::Random;
use comparison::slot_tables;

/// A ring of n nodes in number order, where k and the lag do not matter.
pub fn ring_of(n: u32) -> Choices {
    Choices::plain(n, 2)
}

/// The same in any order.
pub fn any_ring_of(random: &mut Random, n: u32) -> Choices {
    in_any_order(random, Choices::plain(n, 2))
}

/// These choices with any slot table, where n is in range.
pub fn in_any_order(random: &mut Random, chosen: Choices) -> Choices {
    if is_size(chosen.n) {
        Choices { order: slot_tables::order(random, chosen.n), ..chosen }
    } else {
        chosen
    }
}

/// All 512 sets of the nodes 1 to 9.
pub fn small_sets() -> impl Iterator<Item = u32> {
    0..512
}

/// The 32 single nodes, the empty and the full set, alternating bits, and 64 random sets.
pub fn chosen_sets() -> Vec<u32> {
    let mut random = Random::new(4);
    let singles = (0..32).map(|i| 1 << i);
    let others = (0..64).map(|_| random.number() as u32);
    singles.chain([0, u32::MAX, 0x5555_5555, 0xAAAA_AAAA]).chain(others).collect()
}
