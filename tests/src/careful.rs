//! Runs of a bench that keep the premises of demand 3 and use up what these allow: as many failures as
//! there may be, sponsors deaf, knocks lost or missed, nodes switched off and restarted.

use crate::adversary::{sponsors, those};
use crate::model::bench::{self, Call, Rules, Slot};
use crate::model::choices::Choices;
use crate::model::demand::{Broken, Demand};
use crate::model::node::{Node, State};
use crate::model::ring::Set;
use crate::random::Random;

pub struct Run<'a, R> {
    rules: &'a R,
    pub nodes: Vec<Node>,
    demand: Demand,
    random: Random,
    /// One slot in so many goes wrong, as far as the premises allow it.
    seldom: u64,
}

const FINE: Call = Call::Slot { lost: false, missed: Set::EMPTY };
const LOST: Call = Call::Slot { lost: true, missed: Set::EMPTY };

impl<'a, R: Rules> Run<'a, R> {
    pub fn new(rules: &'a R, chosen: Choices, seed: u64, seldom: u64) -> Run<'a, R> {
        let nodes = bench::set_up(chosen, chosen.n as usize).expect("the choices are in range");
        Run { rules, nodes, demand: Demand::new(chosen), random: Random::new(seed), seldom }
    }

    /// The same, judged in another way.
    pub fn judged(self, demand: Demand) -> Run<'a, R> {
        Run { demand, ..self }
    }

    /// Makes a call that keeps the premises. If the one that was drawn breaks them, the next slot goes
    /// well; if that breaks them too, the run is at its end.
    pub fn advance(&mut self) -> Result<(Call, Option<Slot>), Broken> {
        let drawn = self.switch().unwrap_or_else(|| self.slot());
        match self.attempt(drawn) {
            Err(Broken::Premise(_)) => self.attempt(FINE).map(|slot| (FINE, slot)),
            other => other.map(|slot| (drawn, slot)),
        }
    }

    /// Makes this call, unless it breaks something.
    fn attempt(&mut self, call: Call) -> Result<Option<Slot>, Broken> {
        let mut after = self.nodes.clone();
        let mut demand = self.demand.clone();
        let slot = bench::run(self.rules, &mut after, call).expect("no call here is refused");
        demand.judge(&self.nodes, call, slot.as_ref(), &after)?;
        self.nodes = after;
        self.demand = demand;
        Ok(slot)
    }

    fn list(&self) -> Set {
        bench::list(&self.nodes).unwrap_or(Set::EMPTY)
    }

    /// Listed nodes that are gone and whose silent slot is still to come.
    fn silent_soon(&self) -> Set {
        let (list, undecided) = (self.list(), self.demand.undecided());
        those(&self.nodes, |node| {
            node.state != State::Member && list.has(node.own) && !undecided.has(node.own)
        })
    }

    /// Failures that are left for the next slot, but for those that are sure to come.
    fn left(&self) -> u32 {
        self.demand.failures_left().saturating_sub(self.silent_soon().count())
    }

    /// The list can lose one more member. Otherwise a node may join in the same slot, or the run ends there.
    fn may_lose_one(&mut self) -> bool {
        let leaving = self.demand.undecided().count() + self.silent_soon().count();
        let daring = if self.is_special() { 2 } else { 8 };
        self.list().count() > self.demand.least() + leaving || self.one_in(daring)
    }

    /// A knock, an answer to one, or the last slot of a window: such slots seldom come, and most of them
    /// are to meet something.
    fn is_special(&self) -> bool {
        let sender = &self.nodes[bench::next_sender(&self.nodes) as usize - 1];
        let window_ends =
            |node: &Node| node.state == State::Listening && node.listening.done + 1 == node.chosen.n;
        let waits = |node: &Node| node.state == State::Knocking || window_ends(node);
        sender.state == State::Following || self.nodes.iter().any(waits)
    }

    fn one_in(&mut self, times: u64) -> bool {
        self.random.below(times) == 0
    }

    fn switch(&mut self) -> Option<Call> {
        let n = u64::from(self.nodes[0].chosen.n);
        if self.one_in(4) {
            let out = those(&self.nodes, |node| matches!(node.state, State::Out(_)));
            return self.random.one_of(out).map(Call::Restart);
        }
        if self.one_in(self.seldom * n / 2) && self.left() > 0 && self.may_lose_one() {
            let members = those(&self.nodes, |node| node.state == State::Member);
            return self.random.one_of(members).map(Call::Off);
        }
        if self.one_in(self.seldom * n) {
            let others = those(&self.nodes, |node| node.state != State::Member);
            return self.random.one_of(others).map(Call::Off);
        }
        None
    }

    fn slot(&mut self) -> Call {
        let listed = self.list().has(bench::next_sender(&self.nodes));
        let often = if self.is_special() { 2 } else { self.seldom };
        if self.left() == 0 || !self.one_in(often) {
            return FINE;
        }
        if self.one_in(3) && (!listed || self.may_lose_one()) {
            return LOST;
        }
        Call::Slot { lost: false, missed: self.missing() }
    }

    /// As many members as may miss the next message, or fewer; its sponsors first, most of the time. Out
    /// nodes and the sender may be named too: it does not count.
    fn missing(&mut self) -> Set {
        let sender = bench::next_sender(&self.nodes);
        let members = those(&self.nodes, |node| node.state == State::Member).without(sender);
        let sponsors = Set(sponsors(&self.nodes, sender).0 & members.0);
        let few = self.random.within(1, u64::from(self.left()));
        let mut missed = Set::EMPTY;
        for _ in 0..few {
            let from = if self.one_in(4) { members } else { sponsors };
            missed = self.random.one_of(Set(from.0 & !missed.0)).map_or(missed, |x| missed.with(x));
        }
        let harmless = those(&self.nodes, |node| matches!(node.state, State::Out(_))).with(sender);
        Set(missed.0 | harmless.0 & self.random.number() as u32)
    }
}
