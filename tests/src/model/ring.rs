//! Document 01, "The ring", and document 02, requests b, j and k.

use super::choices::Choices;
use super::refusal;

/// "the limit is 1,000,000,000,000,000"
pub const LIMIT: u64 = 1_000_000_000_000_000;

/// "n from 3 to 32"
pub fn is_size(n: u32) -> bool {
    (3..=32).contains(&n)
}

/// "a lag of 0 or 1"
pub fn is_lag(lag: u32) -> bool {
    lag <= 1
}

/// "k is from 2 to n - 1."; "k is at most n - 1 less the lag"
pub fn is_sponsor_count(n: u32, k: u32, lag: u32) -> bool {
    2 <= k && u64::from(k) + 1 + u64::from(lag) <= u64::from(n)
}

/// "n nodes are numbered 1 to n"
pub fn is_node(n: u32, x: u32) -> bool {
    1 <= x && x <= n
}

/// "n not 3 to 32"
pub fn check_size(n: u32) -> Result<(), u32> {
    if is_size(n) {
        Ok(())
    } else {
        Err(refusal::N)
    }
}

/// "node number not 1 to n"
pub fn check_node(n: u32, x: u32) -> Result<(), u32> {
    if is_node(n, x) {
        Ok(())
    } else {
        Err(refusal::NODE)
    }
}

/// "The sender of slot s is ((s - 1) mod n) + 1.": that is its place, at which the slot table says who speaks.
pub fn sender(chosen: Choices, slot: u64) -> u32 {
    chosen.order.speaker(((slot - 1) % u64::from(chosen.n)) as u32 + 1)
}

/// Nodes of 1 to 32; node 1 is the lowest bit.
#[derive(Clone, Copy, PartialEq, Eq, Hash, Default)]
pub struct Set(pub u32);

impl Set {
    pub const EMPTY: Set = Set(0);

    /// The nodes 1 to n, of those that a set can hold.
    pub fn full(n: u32) -> Set {
        Set(if n < 32 { (1 << n) - 1 } else { u32::MAX })
    }

    fn only(x: u32) -> Set {
        Set(if is_node(32, x) { 1 << (x - 1) } else { 0 })
    }

    pub fn has(self, x: u32) -> bool {
        self.0 & Set::only(x).0 != 0
    }

    pub fn with(self, x: u32) -> Set {
        Set(self.0 | Set::only(x).0)
    }

    pub fn without(self, x: u32) -> Set {
        Set(self.0 & !Set::only(x).0)
    }

    /// Those of the nodes 1 to n.
    pub fn up_to(self, n: u32) -> Set {
        Set(self.0 & Set::full(n).0)
    }

    pub fn count(self) -> u32 {
        self.0.count_ones()
    }

    /// The numbers found in just one of the two.
    pub fn distance(self, other: Set) -> u32 {
        (self.0 ^ other.0).count_ones()
    }

    /// Each of these nodes is one of the others.
    pub fn within(self, others: Set) -> bool {
        self.0 & !others.0 == 0
    }

    /// The nodes in rising order.
    pub fn nodes(self) -> impl Iterator<Item = u32> {
        (1..=32).filter(move |&x| self.has(x))
    }
}

/// A member that the walk back meets, and "how many slots back round the ring that member speaks".
#[derive(Clone, Copy, PartialEq, Eq, Debug)]
pub struct Met {
    pub member: u32,
    pub back: u32,
}

/// The members before x, the nearest first, "going back round the ring in slot order"; "the number of slots,
/// from 1 to n - 1". "Slots, ring, sponsoring and joining follow the table".
pub fn members_before(chosen: Choices, set: Set, x: u32) -> impl Iterator<Item = Met> {
    let Choices { n, order, .. } = chosen;
    let own = order.place(n, x).into_iter();
    let round =
        own.flat_map(move |own| (1..n).map(move |back| (if back < own { own } else { own + n }, back)));
    round
        .map(move |(from, back)| Met { member: order.speaker(from - back), back })
        .filter(move |met| set.has(met.member))
}

/// "With c members, ks is the smaller of k and c - 1."; "With lag 1 .. the smaller of k and c - 2". Nobody is sponsored
/// where there are too few members.
pub fn ks(chosen: Choices, c: u32) -> u32 {
    chosen.k.min(c.saturating_sub(1).saturating_sub(chosen.lag))
}

/// "A member *sponsors* the ks members before it": the nearest first, as the acknowledgement bits. With lag 1
/// "sponsoring .. begin[s] two members back", "bit 1 concerns the second member back".
pub fn sponsored(chosen: Choices, set: Set, x: u32) -> impl Iterator<Item = Met> {
    members_before(chosen, set, x).skip(chosen.lag as usize).take(ks(chosen, set.count()) as usize)
}

/// "The one furthest back is the member it *decides*. With one member nobody is decided."; with lag 1 "with two
/// members or fewer nobody is decided"
pub fn decided(chosen: Choices, set: Set, x: u32) -> Option<Met> {
    sponsored(chosen, set, x).last()
}
