//! Calls of a bench in which nodes fall silent for good, in any number and at any time, and nothing else goes wrong.

use crate::adversary::those;
use crate::model::bench::{self, Call};
use crate::model::node::{Node, State};
use crate::model::ring::Set;
use crate::random::Random;

/// How the nodes go.
enum Way {
    /// All in a row, after so many slots.
    AtOnce(u64),
    /// One with every so many calls, whichever it is.
    Singly(u64),
    /// Most of them just before their slots, so that these are silent one after the other.
    InTurn,
}

pub struct PowerCut {
    random: Random,
    /// The nodes that are never switched off.
    stay: Set,
    way: Way,
}

impl PowerCut {
    /// Two nodes stay on, or any number from two on.
    pub fn new(seed: u64, n: u32) -> PowerCut {
        let mut random = Random::new(seed);
        let least = if random.bit() { 2 } else { random.within(2, u64::from(n)) as u32 };
        let mut stay = Set::EMPTY;
        while stay.count() < least {
            stay = stay.with(random.within(1, u64::from(n)) as u32);
        }
        let way = match random.below(3) {
            0 => Way::AtOnce(random.below(2 * u64::from(n))),
            1 => Way::Singly(random.within(2, 6)),
            _ => Way::InTurn,
        };
        PowerCut { random, stay, way }
    }

    /// The next call on this table; it is never refused.
    pub fn next(&mut self, nodes: &[Node]) -> Call {
        let others = those(nodes, |node| node.state == State::Member && !self.stay.has(node.own));
        self.victim(nodes, others).map_or_else(|| self.slot(nodes), Call::Off)
    }

    /// One of these nodes, if this is the moment for it.
    fn victim(&mut self, nodes: &[Node], others: Set) -> Option<u32> {
        match &mut self.way {
            Way::AtOnce(0) => self.random.one_of(others),
            Way::AtOnce(slots) => {
                *slots -= 1;
                None
            }
            Way::Singly(often) if self.random.below(*often) == 0 => self.random.one_of(others),
            Way::Singly(_) => None,
            Way::InTurn => {
                let sender = bench::next_sender(nodes);
                (others.has(sender) && self.random.below(4) != 0).then_some(sender)
            }
        }
    }

    /// A silent slot can be a lost one, and the sender and nodes that are off can miss it: it does not count.
    fn slot(&mut self, nodes: &[Node]) -> Call {
        let sender = bench::next_sender(nodes);
        let off = those(nodes, |node| node.state != State::Member);
        let lost = off.has(sender) && self.random.below(4) == 0;
        let missed =
            if self.random.below(4) == 0 { self.random.some_of(off.with(sender)) } else { Set::EMPTY };
        Call::Slot { lost, missed }
    }
}
