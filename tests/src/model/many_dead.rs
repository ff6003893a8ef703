//! Document 02, request g: what must hold at every slot's end of a run from a common start in which nodes fall silent
//! for good and nothing else goes wrong. It looks only at the calls and the tables around them.

use super::bench::{Call, Fate, Slot};
use super::node::{Node, State};
use super::ring::Set;

#[derive(Clone, Copy, PartialEq, Eq, Debug)]
pub enum Claim {
    /// "the lists of those that stay on are equal at every slot's end"
    Lists,
    /// "none of them leaves"
    Leaves,
    /// A node is off such a list before the end of its first silent slot.
    Early,
    /// "off all those lists .. before its next slot would come"
    Late,
}

#[derive(Clone, Copy, PartialEq, Eq, Debug)]
pub enum Broken {
    /// A message lost or missed, a restart, or fewer than two nodes left on.
    Premise,
    Claim(Claim),
}

/// A run so far. Those that stay on are the nodes not switched off so far: were it to end here, they would be.
#[derive(Clone, PartialEq, Eq, Hash)]
pub struct ManyDead {
    n: u32,
    off: Set,
    /// For each node the slots that ran after its first silent one, n - 1 for more.
    silent: Vec<Option<u32>>,
}

impl ManyDead {
    pub fn new(n: u32) -> ManyDead {
        ManyDead { n, off: Set::EMPTY, silent: vec![None; n as usize] }
    }

    /// Judges a call that was not refused: whether it is one of such a run, and what is claimed at a slot's end.
    pub fn judge(
        &mut self,
        before: &[Node],
        call: Call,
        slot: Option<&Slot>,
        after: &[Node],
    ) -> Result<(), Broken> {
        if let Call::Off(x) = call {
            self.off = self.off.with(x);
        }
        let on = self.n - self.off.count();
        if on < 2 || matches!(call, Call::Restart(_)) {
            return Err(Broken::Premise);
        }
        let (Call::Slot { missed, .. }, Some(slot)) = (call, slot) else { return Ok(()) };
        if is_unheard(before, slot, missed) {
            return Err(Broken::Premise);
        }
        self.pass(slot);
        self.lists(after).map_err(Broken::Claim)
    }

    /// Counts the slots after the silent ones.
    fn pass(&mut self, slot: &Slot) {
        let last = self.n - 1;
        self.silent.iter_mut().flatten().for_each(|slots| *slots = last.min(*slots + 1));
        let sender = &mut self.silent[slot.sender as usize - 1];
        if slot.fate == Fate::Silent && sender.is_none() {
            *sender = Some(0);
        }
    }

    fn lists(&self, after: &[Node]) -> Result<(), Claim> {
        let on = || after.iter().filter(|node| !self.off.has(node.own));
        if on().any(|node| node.state != State::Member) {
            return Err(Claim::Leaves);
        }
        let list = on().next().expect("two are on").set;
        if on().any(|node| node.set != list) {
            return Err(Claim::Lists);
        }
        for (x, silent) in (1..).zip(&self.silent) {
            match *silent {
                None | Some(0) if !list.has(x) => return Err(Claim::Early),
                Some(slots) if slots == self.n - 1 && list.has(x) => return Err(Claim::Late),
                _ => {}
            }
        }
        Ok(())
    }
}

/// A message is sent, and lost or missed by a node in the member state.
fn is_unheard(before: &[Node], slot: &Slot, missed: Set) -> bool {
    let misses = |node: &Node| node.state == State::Member && node.own != slot.sender && missed.has(node.own);
    match slot.fate {
        Fate::Silent => false,
        Fate::Lost => true,
        Fate::Sent | Fate::Knock => before.iter().any(misses),
    }
}
