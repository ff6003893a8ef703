//! Events that more than one comparison notes.

use crate::model::node::{Cause, Node, State};
use crate::model::ring::Set;

/// A change of each kind; a kind's number is its place, from 1.
pub const KINDS: [&str; 6] = [
    "change: 1, left",
    "change: 2, listening to following",
    "change: 3, knocked",
    "change: 4, joined",
    "change: 5, knocking to following",
    "change: 6, to listening",
];

/// Request f: several members leave a set in one slot, and its owner does not.
pub const SEVERAL: [&str; 2] =
    ["departures: two in one slot at one node", "departures: three or more in one slot at one node"];

/// Which of the two, if any, a slot was that took a record from the first to the second.
pub fn several(before: &Node, after: &Node) -> Option<&'static str> {
    match Set(before.set.0 & !after.set.0).count() {
        _ if after.set == Set::EMPTY => None,
        0 | 1 => None,
        2 => Some(SEVERAL[0]),
        _ => Some(SEVERAL[1]),
    }
}

/// Request h: a report, a job bit that is set in a readable message, and what becomes of it at a node that hears it.
pub const COUNTED: [&str; 8] = [
    "report: counted by a member",
    "report: counted by a member that leaves with cause 1",
    "report: counted by a member that leaves with cause 3",
    "report: counted by a following node",
    "report: counted by a following node that leaves",
    "report: counted by a knocking node",
    "report: counted by a knocking node that joins",
    "report: counted by a knocking node that leaves",
];
pub const UNCOUNTED: [&str; 3] = [
    "report: not counted, heard by a listening node",
    "report: not counted, heard by an out node",
    "report: not counted, sender outside the set",
];

/// Which of them, in a slot that took a record from the first to the second; the sender is another node.
pub fn report(before: &Node, after: &Node) -> &'static str {
    let outside = !before.set.has(before.next_sender());
    match (before.state, after.state) {
        (State::Listening, _) => UNCOUNTED[0],
        (State::Out(_), _) => UNCOUNTED[1],
        _ if outside => UNCOUNTED[2],
        (State::Member, State::Out(Cause::Unconfirmed)) => COUNTED[1],
        (State::Member, State::Out(_)) => COUNTED[2],
        (State::Member, _) => COUNTED[0],
        (State::Following, State::Listening) => COUNTED[4],
        (State::Following, _) => COUNTED[3],
        (State::Knocking, State::Member) => COUNTED[6],
        (State::Knocking, State::Listening) => COUNTED[7],
        (State::Knocking, _) => COUNTED[5],
    }
}
