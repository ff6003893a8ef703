//! Document 01, "The node record", "One slot, for a member, following or knocking node" and
//! "Listening", with the own mark of document 02, request e, the repeated departure of request f, the jobs of
//! request h, the lag of request j and the slot table of request k. Every call takes a record and gives the next one, or
//! the number of the refusal: a refused record stays as it was.

use super::choices::{Asked, Choices};
use super::counts::{self, Counts};
use super::message::{self, Said};
use super::refusal;
use super::ring::{self, Set};

/// "The out state carries its cause"
#[derive(Clone, Copy, PartialEq, Eq, Hash, Debug)]
pub enum Cause {
    Unconfirmed = 1,
    NothingHeard = 2,
    MissedReturn = 3,
    SwitchedOff = 4,
}

/// "States: member, listening, following, knocking, out."
#[derive(Clone, Copy, PartialEq, Eq, Hash, Debug)]
pub enum State {
    Member,
    Listening,
    Following,
    Knocking,
    Out(Cause),
}

/// "Listening data: slots done in this window, nodes heard in it, the shortest run of ones in it,
/// whether a return bit of 1 was heard in it, and the nodes of the last clean window"
#[derive(Clone, Copy, PartialEq, Eq, Hash, Default)]
pub struct ListeningData {
    pub done: u32,
    pub heard: Set,
    pub shortest: u32,
    pub return_seen: bool,
    pub last: Set,
}

#[derive(Clone, Copy, PartialEq, Eq, Hash)]
pub struct Node {
    /// Request h: "The record keeps m and later choices of set-up."
    pub chosen: Choices,
    pub own: u32,
    pub slots: u64,
    pub state: State,
    pub set: Set,
    pub marks: Set,
    pub returning: u32,
    pub return_heard: bool,
    pub listening: ListeningData,
    /// Request e: "one more mark for "yes heard""
    pub yes_heard: bool,
}

/// A clause of the soundness sentence and whether a record keeps it.
pub struct Clause {
    pub says: &'static str,
    pub kept: fn(&Node) -> bool,
}

/// "A record is sound if ..": its clauses in the document's order, what "The node record" and "Listening"
/// say of the values, and the clauses of requests e, h, j and k.
#[rustfmt::skip]
pub const CLAUSES: &[Clause] = &[
    Clause { says: "n in range", kept: |r| ring::is_size(r.chosen.n) },
    Clause { says: "k in range", kept: |r| ring::is_sponsor_count(r.chosen.n, r.chosen.k, r.chosen.lag) },
    Clause { says: "own number in range", kept: |r| ring::is_node(r.chosen.n, r.own) },
    Clause { says: "slot count at most the limit", kept: |r| r.slots <= ring::LIMIT },
    Clause { says: "set holds only 1 to n", kept: |r| r.set.within(Set::full(r.chosen.n)) },
    Clause { says: "marks hold only 1 to n", kept: |r| r.marks.within(Set::full(r.chosen.n)) },
    Clause { says: "each marked node is in the set", kept: |r| r.marks.within(r.set) },
    Clause { says: "returning is 0 or a node", kept: |r| r.returning == 0 || ring::is_node(r.chosen.n, r.returning) },
    Clause { says: "returning is outside the set", kept: |r| !r.set.has(r.returning) },
    Clause { says: "own number in a member's set and otherwise not", kept: |r| r.set.has(r.own) == (r.state == State::Member) },
    Clause { says: "returning is the own number exactly when knocking", kept: |r| (r.returning == r.own) == (r.state == State::Knocking) },
    Clause { says: "set empty when listening or out", kept: |r| !r.knows_nobody() || r.set == Set::EMPTY },
    Clause { says: "marks empty when listening or out", kept: |r| !r.knows_nobody() || r.marks == Set::EMPTY },
    Clause { says: "returning 0 when listening or out", kept: |r| !r.knows_nobody() || r.returning == 0 },
    Clause { says: "return heard no except when knocking", kept: |r| !r.return_heard || r.state == State::Knocking },
    Clause { says: "slots done 0 to n - 1", kept: |r| !r.listens() || r.listening.done < r.chosen.n },
    Clause { says: "nodes heard are nodes", kept: |r| !r.listens() || r.listening.heard.within(Set::full(r.chosen.n)) },
    Clause { says: "nodes heard without own number", kept: |r| !r.listens() || !r.listening.heard.has(r.own) },
    Clause { says: "shortest run 0 to k", kept: |r| !r.listens() || r.listening.shortest <= r.chosen.k },
    Clause { says: "shortest run k while nothing is heard", kept: |r| !r.listens() || r.listening.heard != Set::EMPTY || r.listening.shortest == r.chosen.k },
    Clause { says: "last clean window's nodes are nodes", kept: |r| !r.listens() || r.listening.last.within(Set::full(r.chosen.n)) },
    Clause { says: "last clean window without own number", kept: |r| !r.listens() || !r.listening.last.has(r.own) },
    Clause { says: "last clean window none, or two or more", kept: |r| !r.listens() || r.listening.last.count() != 1 },
    Clause { says: "listening data zero or no in every other state", kept: |r| r.listens() || r.listening == ListeningData::default() },
    Clause { says: "following and knocking need two members", kept: |r| !r.returns() || r.set.count() >= 2 },
    Clause { says: "yes heard only in the member state", kept: |r| !r.yes_heard || r.state == State::Member },
    Clause { says: "m in range", kept: |r| r.chosen.m <= message::MOST_JOBS },
    Clause { says: "lag in range", kept: |r| ring::is_lag(r.chosen.lag) },
    Clause { says: "slot table has each node once", kept: |r| r.chosen.order.has_each_once(r.chosen.n) },
    Clause { says: "spare places are 0", kept: |r| r.chosen.order.spare_places_are_0(r.chosen.n) },
];

/// A node must leave: with a cause, or because too few members remain.
pub enum Leaving {
    With(Cause),
    TooFewMembers,
}

impl Node {
    /// "All start as members, set full, all marks on, returning 0."; yes heard is "cleared at set-up".
    pub fn set_up(asked: impl Into<Asked>, own: u32) -> Result<Node, u32> {
        let chosen = asked.into().check()?;
        ring::check_node(chosen.n, own)?;
        Ok(Node {
            chosen,
            own,
            slots: 0,
            state: State::Member,
            set: Set::full(chosen.n),
            marks: Set::full(chosen.n),
            returning: 0,
            return_heard: false,
            listening: ListeningData::default(),
            yes_heard: false,
        })
    }

    fn listens(&self) -> bool {
        self.state == State::Listening
    }

    fn knows_nobody(&self) -> bool {
        matches!(self.state, State::Listening | State::Out(_))
    }

    /// Following or knocking.
    fn returns(&self) -> bool {
        matches!(self.state, State::Following | State::Knocking)
    }

    pub fn is_sound(&self) -> bool {
        CLAUSES.iter().all(|clause| (clause.kept)(self))
    }

    pub fn check_sound(&self) -> Result<(), u32> {
        if self.is_sound() {
            Ok(())
        } else {
            Err(refusal::UNSOUND)
        }
    }

    fn check_limit(&self) -> Result<(), u32> {
        if self.slots < ring::LIMIT {
            Ok(())
        } else {
            Err(refusal::LIMIT)
        }
    }

    /// The sender of the next slot.
    pub fn next_sender(&self) -> u32 {
        ring::sender(self.chosen, self.slots + 1)
    }

    /// Numbers and slot count stay; all that was known or heard goes.
    fn emptied(&self, state: State) -> Node {
        Node {
            state,
            set: Set::EMPTY,
            marks: Set::EMPTY,
            returning: 0,
            return_heard: false,
            listening: ListeningData::default(),
            yes_heard: false,
            ..*self
        }
    }

    fn listening_afresh(&self) -> Node {
        Node { listening: new_window(self.chosen.k, Set::EMPTY), ..self.emptied(State::Listening) }
    }

    /// "`off` works in every state, giving cause 4."
    pub fn off(&self) -> Result<Node, u32> {
        self.check_sound()?;
        Ok(self.emptied(State::Out(Cause::SwitchedOff)))
    }

    /// "Restart takes a node from out to listening."
    pub fn restart(&self) -> Result<Node, u32> {
        self.check_sound()?;
        match self.state {
            State::Out(_) => Ok(self.listening_afresh()),
            _ => Err(refusal::NOT_OUT),
        }
    }

    /// The number of bytes written. "Sending .. is given the sender's job byte": a spare bit in it is tested in table
    /// order, before 10.
    pub fn send(&self, jobs: u8, out: &mut [u8]) -> Result<usize, u32> {
        self.check_sound()?;
        self.check_limit()?;
        message::check_jobs(self.chosen.m, jobs)?;
        let said = self.says(jobs).ok_or(refusal::TURN)?;
        message::write(self.chosen.k, self.chosen.m, said, out)
    }

    /// What this node says in the next slot, if it sends. "Members send in their own slots, bits taken
    /// from the marks before the slot; the return bit is 1 if returning is not 0. A knock carries zero
    /// bits and return bit 0." "A knock carries zero job bits."
    pub fn says(&self, jobs: u8) -> Option<Said> {
        match self.state {
            _ if self.next_sender() != self.own => None,
            State::Member => {
                Some(Said { acks: self.acknowledgements(), return_bit: self.returning != 0, jobs })
            }
            State::Following if self.returning == 0 => Some(Said { acks: 0, return_bit: false, jobs: 0 }),
            _ => None,
        }
    }

    /// "bit 1 concerns the nearest member before the sender", with lag 1 "the second member back"; "Acknowledgement bits
    /// past ks are sent as 0"
    fn acknowledgements(&self) -> u32 {
        let mut acks = 0;
        for (bit, met) in ring::sponsored(self.chosen, self.set, self.own).enumerate() {
            if self.marks.has(met.member) {
                acks |= 1 << bit;
            }
        }
        acks
    }

    /// One slot, and the counts that are kept beside the record; `bytes` are what is heard in it, none for nothing.
    pub fn counted_slot(&self, counts: &mut Counts, bytes: &[u8]) -> Result<Node, u32> {
        self.check_sound()?;
        counts::check(counts, self.slots)?;
        self.check_limit()?;
        // "An unreadable message counts as not heard."; "any other message is unheard"
        let heard = message::read(self.chosen.k, self.chosen.m, bytes).ok();
        counts::enter(counts, self, heard);
        Ok(self.step(heard))
    }

    /// The same of the record alone: counts of 0 fit each.
    pub fn slot(&self, bytes: &[u8]) -> Result<Node, u32> {
        self.counted_slot(&mut counts::NONE.clone(), bytes)
    }

    /// One slot of a sound record below the limit; `heard` is what was heard in it and could be read.
    pub fn step(&self, heard: Option<Said>) -> Node {
        let sender = self.next_sender();
        // "A message handed over in the own slot is ignored."
        let heard = if sender == self.own { None } else { heard };
        let mut next = Node { slots: self.slots + 1, ..*self };
        match self.state {
            State::Out(_) => {}
            State::Listening => next.listen(sender, heard),
            State::Member | State::Following | State::Knocking => {
                if let Err(why) = next.steps(sender, heard) {
                    next.leave(why);
                }
            }
        }
        next
    }

    /// The five steps. An error ends them: the node leaves.
    fn steps(&mut self, sender: u32, heard: Option<Said>) -> Result<(), Leaving> {
        let in_set = self.set.has(sender);
        if in_set {
            self.step_1(sender, heard)?;
        } else {
            self.step_2(sender, heard);
        }
        if in_set {
            self.step_3(sender)?;
        }
        self.enough_members()?;
        self.step_4()?;
        if in_set {
            self.step_5(sender);
        }
        Ok(())
    }

    /// "The sender is in the set." Request e: "the own slot sets the own mark on, in place of off", and yes
    /// heard is cleared in it.
    pub fn step_1(&mut self, sender: u32, heard: Option<Said>) -> Result<(), Leaving> {
        if sender == self.own {
            self.marks = self.marks.with(sender);
            self.yes_heard = false;
            return Ok(());
        }
        let Some(Said { acks, return_bit, .. }) = heard else {
            self.marks = self.marks.without(sender);
            return Ok(());
        };
        self.marks = self.marks.with(sender);
        // "ignored when heard": bits past ks concern nobody.
        for (bit, met) in ring::sponsored(self.chosen, self.set, sender).enumerate() {
            let yes = acks >> bit & 1 == 1;
            if met.member == self.own {
                self.answered(yes);
            } else if yes {
                self.marks = self.marks.with(met.member);
            }
        }
        if return_bit && self.returning == 0 {
            return Err(Leaving::With(Cause::MissedReturn));
        }
        if return_bit && self.state == State::Knocking {
            self.return_heard = true;
        }
        Ok(())
    }

    /// "A heard no for the own message puts it off, unless a yes has been heard since that slot; a yes puts it
    /// on and keeps it on." Only members are in their own set.
    fn answered(&mut self, yes: bool) {
        if yes {
            self.marks = self.marks.with(self.own);
            self.yes_heard = true;
        } else if !self.yes_heard {
            self.marks = self.marks.without(self.own);
        }
    }

    /// "The sender is outside the set."
    pub fn step_2(&mut self, sender: u32, heard: Option<Said>) {
        if self.returning != 0 {
            return;
        }
        if sender == self.own {
            // Own slot, outside the own set, returning 0: a following node. "it sends and sets returning to itself"
            self.state = State::Knocking;
            self.returning = sender;
        } else if heard.is_some() {
            self.returning = sender;
        }
    }

    /// Request f: "the departure step is repeated on the shortened set until the decided member is marked, nobody
    /// is decided, or the node itself has left."
    pub fn step_3(&mut self, sender: u32) -> Result<(), Leaving> {
        while let Some(member) = self.departing(sender) {
            self.depart(member)?;
        }
        Ok(())
    }

    /// "the decided member leaves if its mark is off": that member, if it does.
    pub fn departing(&self, sender: u32) -> Option<u32> {
        let decided = ring::decided(self.chosen, self.set, sender)?.member;
        (!self.marks.has(decided)).then_some(decided)
    }

    /// "If that is this node, it leaves with cause 1"
    pub fn depart(&mut self, member: u32) -> Result<(), Leaving> {
        if member == self.own {
            return Err(Leaving::With(Cause::Unconfirmed));
        }
        self.set = self.set.without(member);
        Ok(())
    }

    /// "Following and knocking need two members or more in the set; if fewer remain after step 3, the
    /// node goes to fresh listening."
    pub fn enough_members(&self) -> Result<(), Leaving> {
        if self.returns() && self.set.count() < 2 {
            Err(Leaving::TooFewMembers)
        } else {
            Ok(())
        }
    }

    /// "if no other member is marked, this node leaves with cause 2"
    pub fn step_4(&self) -> Result<(), Leaving> {
        if self.marks.without(self.own) == Set::EMPTY {
            Err(Leaving::With(Cause::NothingHeard))
        } else {
            Ok(())
        }
    }

    /// "only if the sender is in the set and is the nearest member before the returning node"
    pub fn step_5(&mut self, sender: u32) {
        if self.returning == 0 {
            return;
        }
        let nearest = ring::members_before(self.chosen, self.set, self.returning).next();
        if nearest.is_none_or(|met| met.member != sender) {
            return;
        }
        if self.state == State::Knocking && !self.return_heard {
            self.state = State::Following;
        } else {
            self.set = self.set.with(self.returning);
            self.marks = self.marks.with(self.returning);
            if self.state == State::Knocking {
                self.state = State::Member;
            }
        }
        self.returning = 0;
        self.return_heard = false;
    }

    /// "A member that leaves is out"; "A following or knocking node that must leave starts listening afresh"
    pub fn leave(&mut self, why: Leaving) {
        *self = match (self.state, why) {
            (State::Member, Leaving::With(cause)) => self.emptied(State::Out(cause)),
            _ => self.listening_afresh(),
        };
    }

    /// One slot of a listening node.
    fn listen(&mut self, sender: u32, heard: Option<Said>) {
        let data = &mut self.listening;
        data.done += 1;
        if let Some(Said { acks, return_bit, .. }) = heard {
            data.heard = data.heard.with(sender);
            data.shortest = data.shortest.min(acks.trailing_ones());
            data.return_seen |= return_bit;
        }
        if data.done == self.chosen.n {
            self.end_window();
        }
    }

    /// "Two clean windows in a row with the same nodes heard, two or more: these become the set, all
    /// marked, state following." "An unclean window also wipes out the clean one before it; a clean one
    /// with other nodes replaces it."
    fn end_window(&mut self) {
        let ListeningData { heard, last, .. } = self.listening;
        if !self.window_is_clean() {
            self.listening = new_window(self.chosen.k, Set::EMPTY);
        } else if heard != last {
            self.listening = new_window(self.chosen.k, heard);
        } else {
            *self = Node { set: heard, marks: heard, ..self.emptied(State::Following) };
        }
    }

    /// "every message heard has return bit 0, and the run of ones from bit 1 in each is at least the
    /// smaller of k and (number of nodes heard) - 1"; "fewer than two nodes heard is unclean". Request j: "The listening
    /// rule uses the same reduced number."
    fn window_is_clean(&self) -> bool {
        let ListeningData { heard, shortest, return_seen, .. } = self.listening;
        heard.count() >= 2 && !return_seen && shortest >= ring::ks(self.chosen, heard.count())
    }
}

/// A window with no slot done: "the shortest run of ones in it (0 to k, k while nothing is heard)".
fn new_window(k: u32, last: Set) -> ListeningData {
    ListeningData { done: 0, heard: Set::EMPTY, shortest: k, return_seen: false, last }
}
