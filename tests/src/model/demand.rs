//! Demand 3, as "The bench" of document 01 and request j of document 02 read it: what must hold after each call of a
//! sequence, as long as the sequence keeps the premises. It looks only at the tables before and after each call.

use super::bench::{self, Call, Fate, Slot};
use super::choices::Choices;
use super::node::{Node, State};
use super::ring::Set;
use std::collections::VecDeque;

/// What the sequence itself must keep.
#[derive(Clone, Copy, PartialEq, Eq, Debug)]
pub enum Premise {
    /// "any n slots in a row have at most k - 1 failures"
    Failures,
    /// "and at most one transmission from outside the list"
    Outside,
    /// "the list must keep k + 1 members plus the lag"
    List,
    /// "a returning node hears everything"
    Hearing,
}

/// What is then claimed of the tables.
#[derive(Clone, Copy, PartialEq, Eq, Debug)]
pub enum Claim {
    /// The distance between the lists of any two nodes in the member state is zero.
    Distance,
    /// "Until the deciding slot ends, or the calls do, the node is on all those lists"
    LeavesEarly,
    /// "at the end of it, off them all"
    StaysLate,
    /// "If n - 1 slots ran after s, it is one of them."
    NoDecidingSlot,
}

#[derive(Clone, Copy, PartialEq, Eq, Debug)]
pub enum Broken {
    Premise(Premise),
    Claim(Claim),
}

/// What counts of a slot for the slots after it.
#[derive(Clone, Copy)]
struct Entry {
    failures: u32,
    outside: u32,
}

/// A listed node whose slot was lost or silent, and the slots that ran after it; its deciding slot has
/// not ended.
#[derive(Clone, Copy)]
struct Undecided {
    node: u32,
    slots: u32,
}

/// The sequence so far, from the table that set-up leaves.
#[derive(Clone)]
pub struct Demand {
    chosen: Choices,
    /// The members that the list must keep.
    least: u32,
    /// Not judged, to see that the claims need it.
    ignored: Option<Premise>,
    /// The last n slots: "all the slots where fewer than n have run".
    entries: VecDeque<Entry>,
    undecided: Vec<Undecided>,
}

impl Demand {
    pub fn new(chosen: Choices) -> Demand {
        let least = chosen.k + 1 + chosen.lag;
        Demand { chosen, least, ignored: None, entries: VecDeque::new(), undecided: Vec::new() }
    }

    pub fn ignoring(chosen: Choices, premise: Premise) -> Demand {
        Demand { ignored: Some(premise), ..Demand::new(chosen) }
    }

    /// Asks for one member fewer on the list, to see that the claims need it.
    pub fn one_member_fewer(chosen: Choices) -> Demand {
        Demand { least: chosen.k + chosen.lag, ..Demand::new(chosen) }
    }

    /// The members that the list must keep.
    pub fn least(&self) -> u32 {
        self.least
    }

    /// The failures that the next slot may have.
    pub fn failures_left(&self) -> u32 {
        let older = self.entries.len().saturating_sub(self.chosen.n as usize - 1);
        let counted: u32 = self.entries.iter().skip(older).map(|entry| entry.failures).sum();
        (self.chosen.k - 1).saturating_sub(counted)
    }

    /// The nodes whose deciding slot is still to come.
    pub fn undecided(&self) -> Set {
        self.undecided.iter().fold(Set::EMPTY, |set, past| set.with(past.node))
    }

    /// Judges a call that was not refused: first whether it keeps the premises, then whether the claims
    /// hold after it.
    pub fn judge(
        &mut self,
        before: &[Node],
        call: Call,
        slot: Option<&Slot>,
        after: &[Node],
    ) -> Result<(), Broken> {
        if let (Call::Slot { missed, .. }, Some(slot)) = (call, slot) {
            self.premises(before, slot, missed, after).map_err(Broken::Premise)?;
            self.departures(before, slot, after).map_err(Broken::Claim)?;
        }
        self.lists(after).map_err(Broken::Claim)
    }

    fn require(&self, kept: bool, premise: Premise) -> Result<(), Premise> {
        if kept || self.ignored == Some(premise) {
            Ok(())
        } else {
            Err(premise)
        }
    }

    fn premises(&mut self, before: &[Node], slot: &Slot, missed: Set, after: &[Node]) -> Result<(), Premise> {
        self.require(self.list_is_kept(before) && self.list_is_kept(after), Premise::List)?;
        self.require(returning_hear(before, slot, missed), Premise::Hearing)?;
        if self.entries.len() == self.chosen.n as usize {
            self.entries.pop_front();
        }
        self.entries.push_back(entry(before, slot, missed));
        let failures: u32 = self.entries.iter().map(|entry| entry.failures).sum();
        let outside: u32 = self.entries.iter().map(|entry| entry.outside).sum();
        self.require(failures < self.chosen.k, Premise::Failures)?;
        self.require(outside <= 1, Premise::Outside)
    }

    /// "It keeps k + 1 members if there is such a node and its set holds that many as each slot begins
    /// and as it ends."; with a lag k + 1 members plus the lag
    fn list_is_kept(&self, nodes: &[Node]) -> bool {
        bench::list(nodes).is_some_and(|list| list.count() >= self.least)
    }

    /// Decides the nodes whose deciding slot this is, and notes the sender if its slot was lost or silent.
    fn departures(&mut self, before: &[Node], slot: &Slot, after: &[Node]) -> Result<(), Claim> {
        let list = bench::list(before).unwrap_or(Set::EMPTY);
        let chosen = self.chosen;
        let decides = |node| deciding(chosen, list, node) == Some(slot.sender);
        let (ended, mut open): (Vec<Undecided>, Vec<Undecided>) =
            self.undecided.iter().partition(|past| decides(past.node));
        if ended.iter().any(|past| bench::member_sets(after).any(|set| set.has(past.node))) {
            return Err(Claim::StaysLate);
        }
        open.iter_mut().for_each(|past| past.slots += 1);
        if open.iter().any(|past| past.slots == chosen.n - 1) {
            return Err(Claim::NoDecidingSlot);
        }
        self.undecided = open;
        if list.has(slot.sender) && matches!(slot.fate, Fate::Lost | Fate::Silent) {
            self.undecided.push(Undecided { node: slot.sender, slots: 0 });
        }
        Ok(())
    }

    /// What must hold of the lists after every call.
    fn lists(&self, after: &[Node]) -> Result<(), Claim> {
        if bench::greatest_distance(after) != 0 {
            return Err(Claim::Distance);
        }
        let everywhere = |node| bench::member_sets(after).all(|set| set.has(node));
        if self.undecided.iter().all(|past| everywhere(past.node)) {
            Ok(())
        } else {
            Err(Claim::LeavesEarly)
        }
    }
}

/// "the k-th member after that node, round the ring" in slot order, which may be the node itself; request j: "leaving
/// falls at the (k + lag)-th member after"
fn deciding(chosen: Choices, list: Set, node: u32) -> Option<u32> {
    let Choices { n, k, lag, order, .. } = chosen;
    let place = order.place(n, node)?;
    let after = |steps| order.speaker((place + steps - 1) % n + 1);
    (1..=n).map(after).filter(|&x| list.has(x)).nth((k + lag) as usize - 1)
}

/// A message that everybody hears who is not named.
fn is_heard(slot: &Slot) -> bool {
    matches!(slot.fate, Fate::Sent | Fate::Knock)
}

/// "A *failure* is: a lost message; one member-state node missing a message sent and not lost; a slot of
/// a listed node in which nothing is sent"; a transmission from outside the list may be lost too
fn entry(before: &[Node], slot: &Slot, missed: Set) -> Entry {
    let listed = bench::list(before).is_some_and(|list| list.has(slot.sender));
    let misses =
        |node: &&Node| node.state == State::Member && node.own != slot.sender && missed.has(node.own);
    let failures = match slot.fate {
        Fate::Lost => 1,
        Fate::Silent => u32::from(listed),
        Fate::Sent | Fate::Knock => before.iter().filter(misses).count() as u32,
    };
    Entry { failures, outside: u32::from(!listed && slot.fate != Fate::Silent) }
}

/// "binds a returning node from each restart until its own record is in the member state or out"
fn returning_hear(before: &[Node], slot: &Slot, missed: Set) -> bool {
    let returning = |node: &Node| !matches!(node.state, State::Member | State::Out(_));
    let misses = |node: &Node| returning(node) && node.own != slot.sender && missed.has(node.own);
    !(is_heard(slot) && before.iter().any(misses))
}
