//! What happens to a node in a call, told from the records before and after it and from the bytes
//! heard. It only counts, so that no case passes without meeting what it is for.

use comparison::events::{report, several};
use comparison::model::message::{self, Said};
use comparison::model::node::{Cause, Node, State};
use comparison::model::ring::{self, Set};
use comparison::report::Count;

/// What whole cables must meet.
pub const OF_CABLES: &[&str] = &[
    "member: out, cause 1",
    "member: out, cause 2",
    "member: out, cause 3",
    "member: sees a node join",
    "member: hears a knock",
    "member: hears a later knock",
    "member: drops another",
    "member: drops another, sender not heard",
    "member: drops one and sees one join in one slot",
    "member: decided, neither yes nor no heard",
    "own message: first yes",
    "own message: yes after a no",
    "own message: further yes",
    "own message: first no",
    "own message: further no",
    "own message: no after a yes",
    "listening: first clean window",
    "listening: clean window with other nodes",
    "listening: unclean window",
    "listening: unclean window wipes a clean one",
    "listening: to following",
    "following: knocks",
    "following: silent in the own slot",
    "following: sees a node join",
    "following: drops a member",
    "following: to listening, return bit",
    "knocking: joins",
    "knocking: joins by the joining slot's return bit alone",
    "knocking: hears another knock",
    "knocking: to following",
    "off: of a member",
    "off: of a listening node",
    "off: of a following node",
    "off: of a knocking node",
    "off: of an out node",
    "restart: after cause 1",
    "restart: after cause 2",
    "restart: after cause 3",
    "restart: after cause 4",
    "departures: two in one slot at one node",
    "departures: three or more in one slot at one node",
    "repeat: fewer are sponsored",
    "repeat: the node itself leaves",
    "repeat: sender not heard",
    "repeat: and a node joins",
    "repeat: following to listening",
    "repeat: knocking to listening",
    "member: decided at a later look, neither yes nor no heard",
];

/// What they must meet without lag. With lag 1 two members are left where there were two: nobody is decided.
pub const OF_CABLES_WITHOUT_LAG: &[&str] =
    &["following: to listening, too few members", "knocking: to listening, too few members"];

/// And with lag 1. Without lag a following or knocking node that has lost its last mark on a cable has too few members
/// by then, since the repeat takes all but the sender.
pub const OF_CABLES_WITH_LAG: &[&str] = &[
    "following: to listening, no mark",
    "knocking: to listening, no mark",
    "lag 1: two members, one not marked",
];

/// What sending with jobs must meet.
pub const OF_REPORTS: &[&str] = &["jobs: reported by a member", "jobs: given to one that knocks"];

/// Request h: a message of another m, readable but for that, which is unheard.
pub const OF_OTHER_M: &[&str] = &[
    "another m: unheard by a member",
    "another m: unheard by a listening node",
    "another m: unheard by a following node",
    "another m: unheard by a knocking node",
];

/// The node, whose slot is the next, is given this job byte.
pub fn sends(count: &mut Count, node: &Node, jobs: u8) {
    match (node.state, jobs) {
        (_, 0) => {}
        (State::Member, _) => count.event(OF_REPORTS[0]),
        (State::Following, _) if node.returning == 0 => count.event(OF_REPORTS[1]),
        _ => {}
    }
}

/// A message handed over in the own slot, with a job bit set.
pub const OWN_REPORT: &str = "report: not counted, handed over in the own slot";

fn reported(count: &mut Count, before: &Node, after: &Node, bytes: &[u8]) {
    let said = message::read(before.chosen.k, before.chosen.m, bytes).ok();
    if said.is_some_and(|said| said.jobs != 0) {
        let own = before.next_sender() == before.own;
        count.event(if own { OWN_REPORT } else { report(before, after) });
    }
}

/// A message for another number of jobs.
fn other_m(count: &mut Count, node: &Node, bytes: &[u8]) {
    let Some(&m) = bytes.len().checked_sub(2).and_then(|place| bytes.get(place)) else { return };
    if u32::from(m) == node.chosen.m || message::read(node.chosen.k, u32::from(m), bytes).is_err() {
        return;
    }
    match node.state {
        State::Member => count.event(OF_OTHER_M[0]),
        State::Listening => count.event(OF_OTHER_M[1]),
        State::Following => count.event(OF_OTHER_M[2]),
        State::Knocking => count.event(OF_OTHER_M[3]),
        State::Out(_) => {}
    }
}

pub fn off(count: &mut Count, before: &Node) {
    count.event(match before.state {
        State::Member => "off: of a member",
        State::Listening => "off: of a listening node",
        State::Following => "off: of a following node",
        State::Knocking => "off: of a knocking node",
        State::Out(_) => "off: of an out node",
    });
}

pub fn restart(count: &mut Count, before: &Node) {
    match before.state {
        State::Out(Cause::Unconfirmed) => count.event("restart: after cause 1"),
        State::Out(Cause::NothingHeard) => count.event("restart: after cause 2"),
        State::Out(Cause::MissedReturn) => count.event("restart: after cause 3"),
        State::Out(Cause::SwitchedOff) => count.event("restart: after cause 4"),
        _ => {}
    }
}

/// A slot that was not refused.
struct Slot<'a> {
    before: &'a Node,
    after: &'a Node,
    sender: u32,
    heard: Option<Said>,
    /// Those who leave the set in step 3, in their order; the node itself can be the last.
    left: Vec<u32>,
}

/// Who leaves the set of a member, following or knocking node.
fn leaving(mut node: Node, sender: u32, heard: Option<Said>) -> Vec<u32> {
    let mut left = Vec::new();
    if !node.set.has(sender) || node.step_1(sender, heard).is_err() {
        return left;
    }
    while let Some(x) = node.departing(sender) {
        left.push(x);
        if node.depart(x).is_err() {
            break;
        }
    }
    left
}

pub fn slot(count: &mut Count, before: &Node, after: &Node, bytes: &[u8]) {
    let sender = before.next_sender();
    let heard =
        if sender == before.own { None } else { message::read(before.chosen.k, before.chosen.m, bytes).ok() };
    let slot = Slot { before, after, sender, heard, left: leaving(*before, sender, heard) };
    slot.repeat(count);
    slot.of_lag(count);
    if sender != before.own {
        other_m(count, before, bytes);
    }
    reported(count, before, after, bytes);
    match before.state {
        State::Member => slot.of_member(count),
        State::Listening => slot.of_listening(count),
        State::Following => slot.of_following(count),
        State::Knocking => slot.of_knocking(count),
        State::Out(_) => count.event("out: counts a slot"),
    }
}

impl Slot<'_> {
    /// Departures after the first one of the slot.
    fn repeat(&self, count: &mut Count) {
        if self.left.len() < 2 {
            return;
        }
        let Node { chosen, own, set, .. } = *self.before;
        let fewer = ring::ks(chosen, set.count() - 1) < ring::ks(chosen, set.count());
        count.event(if fewer { "repeat: fewer are sponsored" } else { "repeat: as many are sponsored" });
        several(self.before, self.after).into_iter().for_each(|name| count.event(name));
        if self.left.last() == Some(&own) {
            count.event("repeat: the node itself leaves");
        }
        if self.heard.is_none() && self.sender != own {
            count.event("repeat: sender not heard");
        }
        if self.joins() {
            count.event("repeat: and a node joins");
        }
        match (self.before.state, self.after.state) {
            (State::Following, State::Following) => count.event("repeat: following"),
            (State::Following, State::Listening) => count.event("repeat: following to listening"),
            (State::Knocking, State::Knocking) => count.event("repeat: knocking"),
            (State::Knocking, State::Listening) => count.event("repeat: knocking to listening"),
            _ => {}
        }
    }

    /// Lag 1: the sender is one of two members, and the other one's mark is off. It would be decided without lag.
    fn of_lag(&self, count: &mut Count) {
        let Node { chosen, set, marks, .. } = *self.before;
        let other = set.without(self.sender);
        if chosen.lag == 1 && set.count() == 2 && other.count() == 1 && !other.within(marks) {
            count.event("lag 1: two members, one not marked");
        }
    }

    fn of_member(&self, count: &mut Count) {
        self.answer(count);
        match self.after.state {
            State::Out(Cause::Unconfirmed) => count.event("member: out, cause 1"),
            State::Out(Cause::NothingHeard) => count.event("member: out, cause 2"),
            State::Out(Cause::MissedReturn) => count.event("member: out, cause 3"),
            _ => {
                let (drops, joins) = (self.drops(), self.joins());
                if joins {
                    count.event("member: sees a node join");
                }
                if drops {
                    count.event("member: drops another");
                }
                if drops && self.heard.is_none() && self.sender != self.before.own {
                    count.event("member: drops another, sender not heard");
                }
                if drops && joins {
                    count.event("member: drops one and sees one join in one slot");
                }
                if self.hears_knock() && self.before.returning == 0 {
                    count.event("member: hears a knock");
                }
                if self.hears_knock() && self.before.returning != 0 {
                    count.event("member: hears a later knock");
                }
                if self.decides_unanswered() {
                    count.event("member: decided, neither yes nor no heard");
                }
                if self.decides_unanswered() && !self.left.is_empty() {
                    count.event("member: decided at a later look, neither yes nor no heard");
                }
            }
        }
    }

    /// What a heard message says to this member's own.
    fn answer(&self, count: &mut Count) {
        let Node { chosen, own, set, marks, yes_heard, .. } = *self.before;
        let (Some(Said { acks, .. }), true) = (self.heard, set.has(self.sender)) else { return };
        let Some(bit) = ring::sponsored(chosen, set, self.sender).position(|met| met.member == own) else {
            return;
        };
        count.event(match (acks >> bit & 1 == 1, yes_heard, marks.has(own)) {
            (true, true, _) => "own message: further yes",
            (true, false, true) => "own message: first yes",
            (true, false, false) => "own message: yes after a no",
            (false, true, _) => "own message: no after a yes",
            (false, false, true) => "own message: first no",
            (false, false, false) => "own message: further no",
        });
    }

    /// The set after step 3.
    fn shortened(&self) -> Set {
        self.left.iter().fold(self.before.set, |set, &x| set.without(x))
    }

    /// The sender decides this member, which stays only because its mark is on from its own slot.
    fn decides_unanswered(&self) -> bool {
        let Node { chosen, own, set, .. } = *self.before;
        let decided = ring::decided(chosen, self.shortened(), self.sender);
        set.has(self.sender) && decided.is_some_and(|met| met.member == own) && !self.after.yes_heard
    }

    fn of_listening(&self, count: &mut Count) {
        let (before, after) = (&self.before.listening, &self.after.listening);
        if self.after.state == State::Following {
            count.event("listening: to following");
        } else if after.done != 0 {
            count.event("listening: goes on");
        } else if after.last.count() == 0 {
            count.event("listening: unclean window");
            if before.last.count() != 0 {
                count.event("listening: unclean window wipes a clean one");
            }
        } else if before.last.count() == 0 {
            count.event("listening: first clean window");
        } else {
            count.event("listening: clean window with other nodes");
        }
    }

    fn of_following(&self, count: &mut Count) {
        match self.after.state {
            State::Knocking => count.event("following: knocks"),
            State::Listening if self.returns_unawaited() => {
                count.event("following: to listening, return bit")
            }
            State::Listening if self.leaves_too_few() => {
                count.event("following: to listening, too few members")
            }
            State::Listening => count.event("following: to listening, no mark"),
            _ => {
                if self.sender == self.before.own {
                    count.event("following: silent in the own slot");
                }
                if self.drops() {
                    count.event("following: drops a member");
                }
                if self.joins() {
                    count.event("following: sees a node join");
                }
            }
        }
    }

    fn of_knocking(&self, count: &mut Count) {
        match self.after.state {
            State::Member if self.before.return_heard => count.event("knocking: joins"),
            State::Member => count.event("knocking: joins by the joining slot's return bit alone"),
            State::Following => count.event("knocking: to following"),
            State::Listening if self.leaves_too_few() => {
                count.event("knocking: to listening, too few members")
            }
            State::Listening => count.event("knocking: to listening, no mark"),
            _ => {
                if self.hears_knock() {
                    count.event("knocking: hears another knock");
                }
                if self.sender == self.before.own {
                    count.event("knocking: silent in the own slot");
                }
            }
        }
    }

    /// A member was dropped, and the node stayed.
    fn drops(&self) -> bool {
        !self.before.set.within(self.after.set)
    }

    fn joins(&self) -> bool {
        !self.after.set.within(self.before.set)
    }

    fn hears_knock(&self) -> bool {
        self.heard.is_some() && !self.before.set.has(self.sender)
    }

    fn returns_unawaited(&self) -> bool {
        let listed = self.before.set.has(self.sender);
        listed && self.before.returning == 0 && self.heard.is_some_and(|said| said.return_bit)
    }

    /// Fewer than two members are left after step 3.
    fn leaves_too_few(&self) -> bool {
        self.shortened().count() < 2
    }
}
