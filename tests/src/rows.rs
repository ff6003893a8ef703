//! Rows that are not sound, each damaged in one way, in records that are sound but for them.

use crate::model::held::Record;
use crate::model::node::{Node, State};
use crate::model::ring::Set;
use crate::model::row::{self, Row};
use crate::random::Random;
use crate::records::STATES;
use crate::slot_tables;

/// A way to damage a row; none if the record does not allow it.
pub struct Damage {
    pub name: &'static str,
    /// The clauses that are broken then.
    pub breaks: &'static [&'static str],
    pub states: &'static [State],
    pub make: fn(&mut Random, &mut Record) -> Option<()>,
}

impl Damage {
    /// A record damaged so.
    pub fn of(&self, random: &mut Random, node: Node) -> Option<Record> {
        let mut record = node.into();
        (self.make)(random, &mut record)?;
        Some(record)
    }
}

const MEMBER: &[State] = &[State::Member];
const KNOWING: &[State] = &[State::Member, State::Following, State::Knocking];

const LONGER: &str = "row not longer than n";
const NO_NODE: &str = "row holds only 1 to n";
const TWICE: &str = "no node twice in the row";
const ORDER: &str = "row in slot order";
const SPARE: &str = "unused places of the row are 0";
pub const PAST_N: &str = "set holds only 1 to n";

#[rustfmt::skip]
pub const DAMAGES: &[Damage] = &[
    Damage { name: "row: two members exchanged", breaks: &[ORDER], states: KNOWING, make: exchange },
    Damage { name: "row: the last member first", breaks: &[ORDER], states: KNOWING, make: |_, r| {
        several(r)?;
        reorder(r, |members| members.rotate_right(1))
    } },
    Damage { name: "row: as another slot table has it", breaks: &[ORDER], states: KNOWING, make: |random, r| {
        let other = slot_tables::order(random, r.node.chosen.n);
        replace(r, Row::of(other, r.node.set))
    } },
    Damage { name: "row: by rising number", breaks: &[ORDER], states: KNOWING, make: |_, r| reorder(r, <[u8]>::sort) },
    Damage { name: "row: a member put in once more beside itself", breaks: &[TWICE], states: KNOWING, make: |random, r| {
        let at = any_member(random, r);
        put_in(r, at, r.row.nodes[at])
    } },
    Damage { name: "row: the first member once more at the end", breaks: &[TWICE, ORDER], states: KNOWING, make: |_, r| {
        several(r)?;
        put_in(r, r.row.length as usize, r.row.nodes[0])
    } },
    Damage { name: "row: a member in place of its neighbour", breaks: &[TWICE], states: KNOWING, make: |random, r| {
        let at = spared(random, r)?;
        let beside = if at > 0 { at - 1 } else { at + 1 };
        put(r, at, r.row.nodes[beside])
    } },
    Damage { name: "row: longer than n by a 0", breaks: &[LONGER, NO_NODE], states: MEMBER, make: |_, r| longer_by(r, |_| 0) },
    Damage { name: "row: longer than n by a node again", breaks: &[LONGER, TWICE], states: MEMBER, make: |_, r| {
        longer_by(r, |r| r.row.nodes[r.node.chosen.n as usize - 1])
    } },
    Damage { name: "row: longer than n by the number after n", breaks: &[LONGER, NO_NODE, PAST_N], states: MEMBER, make: |_, r| {
        longer_by(r, |r| r.node.chosen.n as u8 + 1)
    } },
    Damage { name: "row: of 32 nodes and a length above 32", breaks: &[LONGER], states: MEMBER, make: |random, r| {
        if r.node.chosen.n < 32 { return None; }
        fill(r);
        length(r, [33, 34, 64, 255, 256 + 32, u32::MAX][random.below(6) as usize])
    } },
    Damage { name: "row: a length above 32", breaks: &[LONGER, NO_NODE], states: &STATES, make: |random, r| {
        if r.row.length == 32 { return None; }
        length(r, [33, 34, 64, 255, 1 << 31, u32::MAX][random.below(6) as usize])
    } },
    Damage { name: "row: a length that is right in its low byte", breaks: &[LONGER, NO_NODE], states: &STATES, make: |random, r| {
        if r.row.length == 32 { return None; }
        length(r, r.row.length + [1 << 8, 1 << 16, 1 << 24][random.below(3) as usize])
    } },
    Damage { name: "row: a length too large for its places", breaks: &[NO_NODE], states: &STATES, make: |random, r| {
        let more = (r.node.chosen.n - r.row.length).checked_sub(1)?;
        length(r, r.row.length + 1 + random.below(u64::from(more) + 1) as u32)
    } },
    Damage { name: "row: a length too small for its places", breaks: &[SPARE], states: KNOWING, make: shorten },
    Damage { name: "row: 0 in place of a member", breaks: &[NO_NODE], states: KNOWING, make: |random, r| {
        let at = spared(random, r)?;
        put(r, at, 0)
    } },
    Damage { name: "row: 0 put in before a member", breaks: &[NO_NODE], states: KNOWING, make: |random, r| {
        let at = any_member(random, r);
        put_in(r, at, 0)
    } },
    Damage { name: "row: a number above n in place of a member", breaks: &[NO_NODE, PAST_N], states: KNOWING, make: |random, r| {
        let x = above_n(random, r)?;
        let at = spared(random, r)?;
        put(r, at, x)
    } },
    Damage { name: "row: a number above n that is marked", breaks: &[NO_NODE, PAST_N, "marks hold only 1 to n"], states: KNOWING, make: |random, r| {
        let x = above_n(random, r)?;
        let at = spared(random, r)?;
        r.node.marks = r.node.marks.with(u32::from(x));
        put(r, at, x)
    } },
    Damage { name: "row: a number above n at the end", breaks: &[NO_NODE, PAST_N], states: KNOWING, make: |random, r| {
        let x = above_n(random, r)?;
        put_in(r, r.row.length as usize, x)
    } },
    Damage { name: "row: a number above 32 in place of a member", breaks: &[NO_NODE], states: KNOWING, make: |random, r| {
        let at = spared(random, r)?;
        let x = r.row.nodes[at];
        put(r, at, [x + 32, x + 64, x + 128, 33, 255][random.below(5) as usize])
    } },
    Damage { name: "row: the place after the row used", breaks: &[SPARE], states: &STATES, make: |random, r| {
        let x = spare_number(random, r);
        put(r, r.row.length as usize, x)
    } },
    Damage { name: "row: the last place used", breaks: &[SPARE], states: &STATES, make: |random, r| {
        if r.row.length == 32 { return None; }
        let x = spare_number(random, r);
        put(r, 31, x)
    } },
    Damage { name: "row: any spare place used", breaks: &[SPARE], states: &STATES, make: |random, r| {
        if r.row.length == 32 { return None; }
        use_spare(random, r);
        Some(())
    } },
];

/// What damaged rows must meet: all damages, and the clauses of a row. A set with other numbers than 1 to n is had by a
/// row alone.
pub fn names() -> Vec<&'static str> {
    let clauses = row::CLAUSES.iter().map(|clause| clause.says).chain([PAST_N]);
    DAMAGES.iter().map(|damage| damage.name).chain(clauses).collect()
}

fn replace(r: &mut Record, row: Row) -> Option<()> {
    let other = row != r.row;
    *r = Record::new(r.node, row);
    other.then_some(())
}

/// The members in another order.
fn reorder(r: &mut Record, order: impl FnOnce(&mut [u8])) -> Option<()> {
    let mut row = r.row;
    order(&mut row.nodes[..row.length as usize]);
    replace(r, row)
}

fn exchange(random: &mut Random, r: &mut Record) -> Option<()> {
    let (a, b) = (any_member(random, r), any_member(random, r));
    reorder(r, |members| members.swap(a, b))
}

fn length(r: &mut Record, length: u32) -> Option<()> {
    replace(r, Row { length, ..r.row })
}

/// This number at a place.
fn put(r: &mut Record, at: usize, x: u8) -> Option<()> {
    let mut row = r.row;
    *row.nodes.get_mut(at)? = x;
    replace(r, row)
}

/// This number put in at a place of a row that is shorter than n: those from there on move down.
fn put_in(r: &mut Record, at: usize, x: u8) -> Option<()> {
    if r.row.length >= r.node.chosen.n {
        return None;
    }
    let mut row = r.row;
    row.nodes[at..].rotate_right(1);
    row.nodes[at] = x;
    replace(r, Row { length: row.length + 1, ..row })
}

/// There are two members or more.
fn several(r: &Record) -> Option<()> {
    (r.row.length > 1).then_some(())
}

/// The place of a member, of which there is one.
fn any_member(random: &mut Random, r: &Record) -> usize {
    random.below(u64::from(r.row.length)) as usize
}

/// The place of a member without whom the record is sound: it is unmarked for that.
fn spared(random: &mut Random, r: &mut Record) -> Option<usize> {
    let least = if r.node.state == State::Member { 1 } else { 2 };
    let at = any_member(random, r);
    let x = u32::from(r.row.nodes[at]);
    r.node.marks = r.node.marks.without(x);
    (x != r.node.own && r.row.length > least).then_some(at)
}

/// All nodes are members.
fn fill(r: &mut Record) {
    r.node.returning = 0;
    r.hold(Set::full(r.node.chosen.n));
}

/// All nodes are members, and one number more.
fn longer_by(r: &mut Record, number: fn(&Record) -> u8) -> Option<()> {
    fill(r);
    let (n, x) = (r.node.chosen.n, number(r));
    let mut row = Row { length: n + 1, ..r.row };
    *row.nodes.get_mut(n as usize)? = x;
    replace(r, row)
}

/// The last members stand in spare places: ones without whom the record is sound.
fn shorten(random: &mut Random, r: &mut Record) -> Option<()> {
    let least = if r.node.state == State::Member { 1 } else { 2 };
    let members: Vec<u32> = r.row.numbers().collect();
    let own = members.iter().position(|&x| x == r.node.own).map_or(0, |place| place + 1);
    let least = own.max(least) as u64;
    let kept = random.within(least, (members.len() as u64).max(least)) as usize;
    members.iter().skip(kept).for_each(|&x| r.node.marks = r.node.marks.without(x));
    length(r, kept as u32)
}

/// A number above n that a set can hold.
fn above_n(random: &mut Random, r: &Record) -> Option<u8> {
    let n = u64::from(r.node.chosen.n);
    (n < 32).then(|| random.within(n + 1, 32) as u8)
}

/// A number for a spare place: a node that is neither member nor returning nor this node, a member, or no node.
fn spare_number(random: &mut Random, r: &Record) -> u8 {
    let Node { chosen, own, set, returning, .. } = r.node;
    let rest = Set(Set::full(chosen.n).0 & !set.0).without(own).without(returning);
    let node = if random.bit() { random.one_of(rest) } else { random.one_of(set) };
    node.map_or(random.within(33, 255) as u8, |x| x as u8)
}

/// A number at any spare place; where there is none, the row is too long.
pub fn use_spare(random: &mut Random, r: &mut Record) {
    let length = u64::from(r.row.length);
    if length == 32 {
        r.row.length = 33;
        return;
    }
    let (at, x) = (random.within(length, 31) as usize, spare_number(random, r));
    r.row.nodes[at] = x;
}
