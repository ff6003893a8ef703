//! Calls of a bench that lives on for any number of slots: now and then something goes wrong, and what
//! goes wrong next waits until everybody is back.

use crate::adversary::those;
use crate::model::bench::{self, Call};
use crate::model::node::{Node, State};
use crate::model::ring::Set;
use crate::random::Random;

pub struct Lasting {
    random: Random,
    /// Slots that go well before anything else does not.
    quiet: u32,
}

const FINE: Call = Call::Slot { lost: false, missed: Set::EMPTY };
const LOST: Call = Call::Slot { lost: true, missed: Set::EMPTY };

impl Lasting {
    pub fn new(seed: u64) -> Lasting {
        Lasting { random: Random::new(seed), quiet: 0 }
    }

    pub fn next(&mut self, nodes: &[Node]) -> Call {
        let list = bench::list(nodes).unwrap_or(Set::EMPTY);
        let struck_off = |node: &&Node| matches!(node.state, State::Out(_)) && !list.has(node.own);
        if let Some(node) = nodes.iter().find(struck_off) {
            return Call::Restart(node.own);
        }
        if self.quiet > 0 {
            self.quiet -= 1;
            return FINE;
        }
        let all = Set::full(nodes[0].chosen.n);
        let members = those(nodes, |node| node.state == State::Member);
        let call = if members == all && list == all { self.trouble(nodes) } else { self.delay(nodes) };
        if call != FINE {
            self.quiet = nodes[0].chosen.n;
        }
        call
    }

    /// All nodes are members: a message is lost or missed by one, or a node is switched off.
    fn trouble(&mut self, nodes: &[Node]) -> Call {
        let n = u64::from(nodes[0].chosen.n);
        let one = self.random.within(1, n) as u32;
        match self.random.below(4 * n) {
            0 | 1 => LOST,
            2 => Call::Off(one),
            3..=6 => Call::Slot { lost: false, missed: Set::EMPTY.with(one) },
            _ => FINE,
        }
    }

    /// Some node is on its way back: its knock is lost, or it misses a message.
    fn delay(&mut self, nodes: &[Node]) -> Call {
        let sender = &nodes[bench::next_sender(nodes) as usize - 1];
        let returning = those(nodes, |node| !matches!(node.state, State::Member | State::Out(_)));
        match self.random.below(16 * u64::from(nodes[0].chosen.n)) {
            0..=3 => Call::Slot { lost: false, missed: returning },
            draw if draw % 4 == 0 && sender.state == State::Following => LOST,
            _ => FINE,
        }
    }
}
