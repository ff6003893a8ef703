//! Records as they may be loaded: sound ones that no run need reach, and ones that are not sound in one
//! clause.

use crate::model::choices::Choices;
use crate::model::held::Record;
use crate::model::node::{Cause, ListeningData, Node, State, CLAUSES};
use crate::model::ring::{Set, LIMIT};
use crate::model::row;
use crate::model::slot_table::Order;
use crate::random::Random;
use crate::rows;
use crate::slot_tables;

pub const STATES: [State; 8] = [
    State::Member,
    State::Listening,
    State::Following,
    State::Knocking,
    State::Out(Cause::Unconfirmed),
    State::Out(Cause::NothingHeard),
    State::Out(Cause::MissedReturn),
    State::Out(Cause::SwitchedOff),
];

/// Some of the nodes: all, none, most, few or any.
fn some(random: &mut Random, of: Set) -> Set {
    let (a, b) = (random.number() as u32, random.number() as u32);
    Set(match random.below(6) {
        0 => of.0,
        1 => 0,
        2 => of.0 & (a | b),
        3 => of.0 & a & b,
        _ => of.0 & a,
    })
}

/// Some of the nodes, but two or more; there are two.
fn two_or_more(random: &mut Random, of: Set) -> Set {
    let mut set = some(random, of);
    while set.count() < 2 {
        set = set.with(one(random, of));
    }
    set
}

/// One of the nodes, of which there is one.
fn one(random: &mut Random, of: Set) -> u32 {
    of.nodes().nth(random.below(u64::from(of.count())) as usize).expect("a place below the count")
}

/// 0 or one of the nodes.
fn one_or_0(random: &mut Random, of: Set) -> u32 {
    if of == Set::EMPTY || random.bit() {
        0
    } else {
        one(random, of)
    }
}

/// n, often near an end of its range.
pub fn size(random: &mut Random) -> u32 {
    match random.below(4) {
        0 => random.within(3, 6) as u32,
        1 => random.within(30, 32) as u32,
        _ => random.within(3, 32) as u32,
    }
}

/// A slot count three slots or more below the limit: the own slot is next in one of four, the limit is near in some.
fn slots(random: &mut Random, chosen: Choices, own: u32) -> u64 {
    let n = chosen.n;
    let base = match random.below(4) {
        0 => LIMIT - random.within(u64::from(n) + 3, 3 * u64::from(n)),
        1 => random.below(LIMIT - u64::from(n) - 2),
        _ => random.below(200),
    };
    if random.below(4) == 0 {
        before_own(chosen, own, base)
    } else {
        base
    }
}

/// The slots done before the slot of a node, in the round in which so many are done.
pub fn before_own(chosen: Choices, own: u32, slots: u64) -> u64 {
    let place = chosen.order.place(chosen.n, own).expect("the table has each node");
    slots - slots % u64::from(chosen.n) + u64::from(place) - 1
}

fn listening_data(random: &mut Random, Choices { n, k, .. }: Choices, own: u32) -> ListeningData {
    let others = Set::full(n).without(own);
    let heard = some(random, others);
    let shortest = match random.below(3) {
        _ if heard == Set::EMPTY => k,
        // Around what a clean window asks, with each lag.
        0 => k.min((heard.count() + 1).saturating_sub(random.below(5) as u32)),
        1 => k,
        _ => random.below(u64::from(k) + 1) as u32,
    };
    let last = match random.below(4) {
        0 => Set::EMPTY,
        1 => two_or_more(random, others),
        _ if heard.count() >= 2 => heard,
        _ => two_or_more(random, others),
    };
    // The window's last slot in one of two.
    let done = if random.bit() { n - 1 } else { random.below(u64::from(n)) as u32 };
    ListeningData { done, heard, shortest, return_seen: random.below(4) == 0, last }
}

/// m, often 0 or 8.
pub fn job_count(random: &mut Random) -> u32 {
    match random.below(4) {
        0 => 0,
        1 => 8,
        _ => random.below(9) as u32,
    }
}

/// A lag for n nodes: k is at least 2, and three nodes leave no such k with lag 1.
pub fn lag(random: &mut Random, n: u32) -> u32 {
    u32::from(n > 3 && random.bit())
}

/// Choices for n nodes that set-up takes; k is often the largest.
pub fn choices_of(random: &mut Random, n: u32) -> Choices {
    let lag = lag(random, n);
    let most = n - 1 - lag;
    let k = if random.below(8) == 0 { most } else { random.within(2, u64::from(most)) as u32 };
    let m = job_count(random);
    Choices { n, k, m, lag, order: slot_tables::order(random, n) }
}

/// The same for any n.
pub fn choices(random: &mut Random) -> Choices {
    let n = size(random);
    choices_of(random, n)
}

/// A sound record in this state, its slot count below the limit.
pub fn sound(random: &mut Random, state: State) -> Node {
    let chosen = choices(random);
    let own = random.within(1, u64::from(chosen.n)) as u32;
    let slots = slots(random, chosen, own);
    sound_of(random, state, (chosen, own), slots)
}

/// A sound record of this node, with this slot count.
pub fn sound_of(random: &mut Random, state: State, (chosen, own): (Choices, u32), slots: u64) -> Node {
    let n = chosen.n;
    let others = Set::full(n).without(own);
    let set = match state {
        State::Member => some(random, others).with(own),
        State::Following | State::Knocking => two_or_more(random, others),
        State::Listening | State::Out(_) => Set::EMPTY,
    };
    let outside = Set(others.0 & !set.0);
    Node {
        chosen,
        own,
        slots,
        state,
        set,
        marks: some(random, set),
        returning: match state {
            State::Member | State::Following => one_or_0(random, outside),
            State::Knocking => own,
            State::Listening | State::Out(_) => 0,
        },
        return_heard: state == State::Knocking && random.bit(),
        listening: if state == State::Listening {
            listening_data(random, chosen, own)
        } else {
            ListeningData::default()
        },
        yes_heard: state == State::Member && random.bit(),
    }
}

/// Breaks soundness in one way; none if this record does not allow it.
pub struct Break {
    /// The clauses that are broken: one, where the sentence lets one be broken alone.
    pub breaks: &'static [&'static str],
    pub states: &'static [State],
    pub make: fn(&mut Random, &mut Node) -> Option<()>,
}

impl Break {
    /// The record broken, as it is held: where its set stays, so does its row, whatever becomes of the slot table.
    pub fn of(&self, random: &mut Random, mut node: Node) -> Option<Record> {
        let before = Record::from(node);
        (self.make)(random, &mut node)?;
        Some(if node.set == before.node.set { Record::new(node, before.row) } else { node.into() })
    }
}

const ANY: &[State] = &STATES;
const MEMBER: &[State] = &[State::Member];
const LISTENING: &[State] = &[State::Listening];
const FOLLOWING: &[State] = &[State::Following];
const KNOCKING: &[State] = &[State::Knocking];
const RETURNING: &[State] = &[State::Following, State::Knocking];
const KNOWING: &[State] = &[State::Member, State::Following, State::Knocking];
const OUT: &[State] = STATES.split_at(4).1;
const NO_MEMBER: &[State] = STATES.split_at(1).1;
const LISTENING_OR_OUT: &[State] = &[
    State::Listening,
    State::Out(Cause::Unconfirmed),
    State::Out(Cause::NothingHeard),
    State::Out(Cause::MissedReturn),
    State::Out(Cause::SwitchedOff),
];

/// A number past `limit`: just past it, far past it, or such that its low byte is in range.
fn past(random: &mut Random, limit: u32) -> u32 {
    match random.below(4) {
        0 => limit + 1,
        1 => u32::MAX,
        2 => 256 + random.below(u64::from(limit) + 1) as u32,
        _ => limit + random.within(1, 40) as u32,
    }
}

/// A node past n that a set can hold.
fn node_past(random: &mut Random, n: u32) -> Option<u32> {
    (n < 32).then(|| random.within(u64::from(n) + 1, 32) as u32)
}

fn others(node: &Node) -> Set {
    Set::full(node.chosen.n).without(node.own)
}

fn unheld(node: &Node) -> Option<Set> {
    let rest = Set(others(node).0 & !node.set.0);
    (rest != Set::EMPTY).then_some(rest)
}

#[rustfmt::skip]
pub const BREAKS: &[Break] = &[
    Break { breaks: &["n in range", "slot table has each node once"], states: ANY, make: |random, r| { r.chosen.n = past(random, 32); Some(()) } },
    Break { breaks: &["n in range", "k in range"], states: OUT, make: |_, r| { (r.own, r.chosen.n, r.chosen.order) = (1, 2, Order::plain(2)); Some(()) } },
    Break { breaks: &["k in range"], states: ANY, make: |random, r| {
        let low = random.below(2) as u32;
        // A listening node's runs reach to k only.
        r.chosen.k = if random.bit() && r.state != State::Listening { low } else { past(random, r.chosen.n - 1 - r.chosen.lag) };
        if r.listening.heard == Set::EMPTY && r.state == State::Listening { r.listening.shortest = r.chosen.k; }
        Some(())
    } },
    Break { breaks: &["k in range"], states: ANY, make: |_, r| {
        r.chosen.k = r.chosen.n;
        if r.listening.heard == Set::EMPTY && r.state == State::Listening { r.listening.shortest = r.chosen.k; }
        Some(())
    } },
    // The largest k of a cable without lag.
    Break { breaks: &["k in range"], states: ANY, make: |_, r| {
        (r.chosen.k, r.chosen.lag) = (r.chosen.n - 1, 1);
        if r.listening.heard == Set::EMPTY && r.state == State::Listening { r.listening.shortest = r.chosen.k; }
        Some(())
    } },
    Break { breaks: &["own number in range"], states: LISTENING_OR_OUT, make: |random, r| { r.own = past(random, r.chosen.n); Some(()) } },
    Break { breaks: &["own number in range"], states: FOLLOWING, make: |random, r| { r.own = past(random, r.chosen.n); Some(()) } },
    Break { breaks: &["own number in range"], states: FOLLOWING, make: |random, r| {
        r.returning = one(random, unheld(r)?);
        r.own = 0;
        Some(())
    } },
    Break { breaks: &["own number in range", "returning is the own number exactly when knocking"], states: OUT, make: |_, r| { r.own = 0; Some(()) } },
    Break { breaks: &["slot count at most the limit"], states: ANY, make: |random, r| {
        r.slots = if random.bit() { LIMIT + 1 + random.below(40) } else { u64::MAX - random.below(3) };
        Some(())
    } },
    Break { breaks: &["marks hold only 1 to n", "each marked node is in the set"], states: KNOWING, make: |random, r| {
        r.marks = r.marks.with(node_past(random, r.chosen.n)?);
        Some(())
    } },
    Break { breaks: &["each marked node is in the set"], states: KNOWING, make: |random, r| { r.marks = r.marks.with(one(random, unheld(r)?)); Some(()) } },
    Break { breaks: &["each marked node is in the set"], states: RETURNING, make: |_, r| { r.marks = r.marks.with(r.own); Some(()) } },
    Break { breaks: &["returning is 0 or a node"], states: &[State::Member, State::Following], make: |random, r| { r.returning = past(random, r.chosen.n); Some(()) } },
    Break { breaks: &["returning is outside the set"], states: &[State::Member, State::Following], make: |random, r| {
        let rest = r.set.without(r.own);
        if rest == Set::EMPTY { return None; }
        r.returning = one(random, rest);
        Some(())
    } },
    Break { breaks: &["own number in a member's set and otherwise not"], states: MEMBER, make: |_, r| {
        r.set = r.set.without(r.own);
        r.marks = r.marks.without(r.own);
        Some(())
    } },
    Break { breaks: &["own number in a member's set and otherwise not"], states: FOLLOWING, make: |random, r| {
        r.set = r.set.with(r.own);
        if random.bit() { r.marks = r.marks.with(r.own); }
        Some(())
    } },
    Break { breaks: &["returning is the own number exactly when knocking"], states: FOLLOWING, make: |_, r| { r.returning = r.own; Some(()) } },
    Break { breaks: &["returning is the own number exactly when knocking"], states: KNOCKING, make: |random, r| {
        r.returning = one_or_0(random, unheld(r).unwrap_or_default());
        Some(())
    } },
    Break { breaks: &["set empty when listening or out"], states: LISTENING_OR_OUT, make: |random, r| { r.set = two_or_more(random, others(r)); Some(()) } },
    Break { breaks: &["set empty when listening or out"], states: LISTENING_OR_OUT, make: |random, r| { r.set = Set::EMPTY.with(one(random, others(r))); Some(()) } },
    Break { breaks: &["each marked node is in the set", "marks empty when listening or out"], states: LISTENING_OR_OUT, make: |random, r| {
        r.marks = Set::EMPTY.with(one(random, others(r)));
        Some(())
    } },
    Break { breaks: &["returning 0 when listening or out"], states: LISTENING_OR_OUT, make: |random, r| { r.returning = one(random, others(r)); Some(()) } },
    Break { breaks: &["returning is the own number exactly when knocking", "returning 0 when listening or out"], states: LISTENING_OR_OUT, make: |_, r| {
        r.returning = r.own;
        Some(())
    } },
    Break { breaks: &["return heard no except when knocking"], states: &[State::Member, State::Following], make: |_, r| { r.return_heard = true; Some(()) } },
    Break { breaks: &["return heard no except when knocking"], states: LISTENING_OR_OUT, make: |_, r| { r.return_heard = true; Some(()) } },
    Break { breaks: &["slots done 0 to n - 1"], states: LISTENING, make: |random, r| { r.listening.done = past(random, r.chosen.n - 1); Some(()) } },
    Break { breaks: &["slots done 0 to n - 1"], states: LISTENING, make: |_, r| { r.listening.done = r.chosen.n; Some(()) } },
    Break { breaks: &["nodes heard are nodes"], states: LISTENING, make: |random, r| { r.listening.heard = r.listening.heard.with(node_past(random, r.chosen.n)?); Some(()) } },
    Break { breaks: &["nodes heard without own number"], states: LISTENING, make: |_, r| { r.listening.heard = r.listening.heard.with(r.own); Some(()) } },
    Break { breaks: &["shortest run 0 to k"], states: LISTENING, make: |random, r| {
        if r.listening.heard == Set::EMPTY { return None; }
        r.listening.shortest = past(random, r.chosen.k);
        Some(())
    } },
    Break { breaks: &["shortest run k while nothing is heard"], states: LISTENING, make: |random, r| {
        r.listening.heard = Set::EMPTY;
        r.listening.shortest = random.below(u64::from(r.chosen.k)) as u32;
        Some(())
    } },
    Break { breaks: &["last clean window's nodes are nodes"], states: LISTENING, make: |random, r| {
        r.listening.last = two_or_more(random, others(r)).with(node_past(random, r.chosen.n)?);
        Some(())
    } },
    Break { breaks: &["last clean window without own number"], states: LISTENING, make: |random, r| {
        r.listening.last = two_or_more(random, others(r)).with(r.own);
        Some(())
    } },
    Break { breaks: &["last clean window none, or two or more"], states: LISTENING, make: |random, r| {
        r.listening.last = Set::EMPTY.with(one(random, others(r)));
        Some(())
    } },
    Break { breaks: &["listening data zero or no in every other state"], states: KNOWING, make: not_listening },
    Break { breaks: &["listening data zero or no in every other state"], states: OUT, make: not_listening },
    Break { breaks: &["following and knocking need two members"], states: RETURNING, make: |random, r| {
        let x = one(random, r.set);
        r.set = Set::EMPTY.with(x);
        r.marks = some(random, r.set);
        Some(())
    } },
    Break { breaks: &["following and knocking need two members"], states: RETURNING, make: |_, r| {
        r.set = Set::EMPTY;
        r.marks = Set::EMPTY;
        Some(())
    } },
    Break { breaks: &["yes heard only in the member state"], states: NO_MEMBER, make: |_, r| { r.yes_heard = true; Some(()) } },
    Break { breaks: &["m in range"], states: ANY, make: |random, r| { r.chosen.m = past(random, 8); Some(()) } },
    // A k that would fit it, and one that does not.
    Break { breaks: &["lag in range"], states: ANY, make: |random, r| {
        let most = (r.chosen.n - 1).saturating_sub(r.chosen.k);
        if most < 2 { return None; }
        r.chosen.lag = if random.bit() { 2 } else { random.within(2, u64::from(most)) as u32 };
        Some(())
    } },
    Break { breaks: &["k in range", "lag in range"], states: ANY, make: |random, r| {
        r.chosen.lag = past(random, 1).max(r.chosen.n - r.chosen.k);
        Some(())
    } },
    Break { breaks: &["slot table has each node once"], states: ANY, make: |random, r| { wrong_place(random, r, 0); Some(()) } },
    Break { breaks: &["slot table has each node once"], states: ANY, make: |random, r| { wrong_place(random, r, 1); Some(()) } },
    Break { breaks: &["slot table has each node once"], states: ANY, make: |random, r| { wrong_place(random, r, 2); Some(()) } },
    Break { breaks: &["slot table has each node once"], states: ANY, make: |random, r| { wrong_place(random, r, 3); Some(()) } },
    // A spare place is used, by a number or by the node after n.
    Break { breaks: &["spare places are 0"], states: ANY, make: |random, r| {
        if r.chosen.n == 32 { return None; }
        let place = random.within(u64::from(r.chosen.n), 31) as usize;
        r.chosen.order.0[place] = random.within(1, 255) as u8;
        Some(())
    } },
    Break { breaks: &["spare places are 0"], states: ANY, make: |_, r| {
        if r.chosen.n == 32 { return None; }
        r.chosen.order.0[r.chosen.n as usize] = r.chosen.n as u8 + 1;
        Some(())
    } },
    // A node stands in a spare place, and not in its own.
    Break { breaks: &["slot table has each node once", "spare places are 0"], states: ANY, make: |random, r| {
        if r.chosen.n == 32 { return None; }
        let (at, spare) = (random.below(u64::from(r.chosen.n)) as usize, random.within(u64::from(r.chosen.n), 31) as usize);
        r.chosen.order.0.swap(at, spare);
        Some(())
    } },
];

/// One of the places 1 to n is wrong.
fn wrong_place(random: &mut Random, r: &mut Node, way: usize) {
    slot_tables::make_wrong(random, &mut r.chosen.order.0[..r.chosen.n as usize], way);
}

/// One of the listening data is neither zero nor no.
fn not_listening(random: &mut Random, r: &mut Node) -> Option<()> {
    let data = &mut r.listening;
    match random.below(5) {
        0 => data.done = random.within(1, u64::from(r.chosen.n) - 1) as u32,
        1 => data.heard = two_or_more(random, Set::full(r.chosen.n).without(r.own)),
        2 => data.shortest = random.within(1, u64::from(r.chosen.k)) as u32,
        3 => data.return_seen = true,
        _ => data.last = two_or_more(random, Set::full(r.chosen.n).without(r.own)),
    }
    Some(())
}

/// Makes a sound record one that is not, by yes heard outside the member state, by the listening data, by m, by the
/// lag, by the slot table or by the row.
pub fn spoil(random: &mut Random, record: &mut Record) {
    let node = &mut record.node;
    match random.below(7) {
        0 => node.chosen.m = past(random, 8),
        1 => node.chosen.lag = past(random, 1),
        4 => wrong_place(random, node, 0),
        5 => rows::use_spare(random, record),
        2 | 3 if node.state != State::Member => node.yes_heard = true,
        _ => node.listening.done = node.chosen.n,
    }
}

/// The clauses that a record does not keep.
pub fn broken(Record { node, row }: &Record) -> Vec<&'static str> {
    let of_row = row::CLAUSES.iter().filter(|clause| !(clause.kept)(row, node.chosen.n, node.chosen.order));
    let of_rest = CLAUSES.iter().filter(|clause| !(clause.kept)(node));
    of_row.map(|clause| clause.says).chain(of_rest.map(|clause| clause.says)).collect()
}

/// The clauses that `BREAKS` must break: all of a record but those of its row.
pub fn clauses() -> Vec<&'static str> {
    CLAUSES.iter().map(|clause| clause.says).filter(|&says| says != rows::PAST_N).collect()
}

/// Gives one field another value.
pub fn disturb(random: &mut Random, record: &mut Record) {
    let number = match random.below(4) {
        0 => random.number() as u32,
        1 => 1 << random.below(32),
        _ => random.below(34) as u32,
    };
    let Record { node, row } = record;
    match random.below(20) {
        0 => node.chosen.n = number,
        1 => node.chosen.k = number,
        2 => node.own = number,
        3 => node.slots = random.number() >> random.below(64),
        4 => node.state = STATES[random.below(8) as usize],
        5 => record.hold(Set(record.node.set.0 ^ number)),
        6 => node.marks.0 ^= number,
        7 => node.returning = number,
        8 => node.return_heard ^= true,
        9 => node.listening.done = number,
        10 => node.listening.heard.0 ^= number,
        11 => node.listening.shortest = number,
        12 => node.listening.return_seen ^= true,
        13 => node.yes_heard ^= true,
        14 => node.chosen.m = number,
        15 => node.chosen.lag = number,
        16 => node.chosen.order.0[random.below(32) as usize] = number as u8,
        17 => row.length = number,
        18 => row.nodes[random.below(32) as usize] = number as u8,
        _ => node.listening.last.0 ^= number,
    }
    *record = Record::new(record.node, record.row);
}
