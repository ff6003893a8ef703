//! Rows typed from request l: damaged ones, in records that are sound but for them, on cables without jobs and lag.

use crate::model::choices::Choices;
use crate::model::held::Record;
use crate::model::node::{Cause, ListeningData, Node, State};
use crate::model::ring::Set;
use crate::model::row::Row;
use crate::model::slot_table::Order;

pub const TABLE: &[u8] = &[3, 1, 4, 2];

/// The nodes 32 to 1.
pub const BACKWARDS: &[u8] = &{
    let mut slots = [0; 32];
    let mut place = 0;
    while place < 32 {
        slots[place] = 32 - place as u8;
        place += 1;
    }
    slots
};

/// A name, a length and what stands in the first places.
type Places = (&'static str, u32, &'static [u8]);

/// Rows of a member on the table 3, 1, 4, 2. It is node 3, which alone is marked: with the row 3, 1, 4 it is sound.
#[rustfmt::skip]
const OF_A_MEMBER: &[Places] = &[
    ("out of order, the first two", 3, &[1, 3, 4]),
    ("out of order, the last two", 3, &[3, 4, 1]),
    ("out of order, the last first", 3, &[4, 3, 1]),
    ("out of order, three by rising number", 3, &[1, 2, 3]),
    ("out of order, all by rising number", 4, &[1, 2, 3, 4]),
    ("out of order, as the table 2, 4, 1, 3 has it", 4, &[2, 4, 1, 3]),
    ("out of order, from its second place on", 4, &[1, 4, 2, 3]),
    ("doubled, side by side", 4, &[3, 1, 1, 4]),
    ("doubled, the own number", 3, &[3, 3, 4]),
    ("doubled, the last", 4, &[3, 1, 4, 4]),
    ("doubled, apart", 4, &[3, 1, 4, 3]),
    ("doubled, all", 3, &[3, 3, 3]),
    ("longer than n by a node again", 5, &[3, 1, 4, 2, 2]),
    ("longer than n by the first again", 5, &[3, 1, 4, 2, 3]),
    ("longer than n by a 0", 5, &[3, 1, 4, 2, 0]),
    ("longer than n by 5", 5, &[3, 1, 4, 2, 5]),
    ("of length 8, twice the table", 8, &[3, 1, 4, 2, 3, 1, 4, 2]),
    ("of length 32", 32, &[3, 1, 4, 2]),
    ("of length 33", 33, &[3, 1, 4]),
    ("of length 64", 64, &[3, 1, 4]),
    ("of length 256 and 3", 259, &[3, 1, 4]),
    ("of length 65,536 and 3", 65_539, &[3, 1, 4]),
    ("of length 2^31 and 3", (1 << 31) + 3, &[3, 1, 4]),
    ("of the largest length", u32::MAX, &[3, 1, 4]),
    ("one too long for its places", 4, &[3, 1, 4]),
    ("one too short for its places", 2, &[3, 1, 4]),
    ("two too short for its places", 1, &[3, 1, 4]),
    ("0 inside", 3, &[3, 0, 4]),
    ("0 first", 3, &[0, 3, 4]),
    ("0 last", 3, &[3, 4, 0]),
    ("5 inside", 3, &[3, 5, 4]),
    ("5 last", 3, &[3, 4, 5]),
    ("32 last", 3, &[3, 4, 32]),
    ("33 inside, 1 but for a bit", 3, &[3, 33, 4]),
    ("129 inside, 1 but for a bit", 3, &[3, 129, 4]),
    ("255 last", 3, &[3, 4, 255]),
    ("spare place used, the next, by a node", 3, &[3, 1, 4, 2]),
    ("spare place used, the next, by a member", 3, &[3, 1, 4, 4]),
    ("spare place used, the next, by the first member", 3, &[3, 1, 4, 3]),
    ("spare place used, the next, by 5", 3, &[3, 1, 4, 5]),
    ("spare place used, the next, by 255", 3, &[3, 1, 4, 255]),
    ("spare place used, the one after n", 3, &[3, 1, 4, 0, 2]),
    ("spare place used, the one after n, row full", 4, &[3, 1, 4, 2, 2]),
    ("spare place used, the last", 3, &[3, 1, 4, 0, 0, 0, 0, 0, 0, 0, 0, 0, 0, 0, 0, 0, 0, 0, 0, 0, 0, 0, 0, 0, 0, 0, 0, 0, 0, 0, 0, 2]),
    ("spare place used, the last, row full", 4, &[3, 1, 4, 2, 0, 0, 0, 0, 0, 0, 0, 0, 0, 0, 0, 0, 0, 0, 0, 0, 0, 0, 0, 0, 0, 0, 0, 0, 0, 0, 0, 1]),
];

/// Rows of node 2, which is out: with an empty one it is sound.
#[rustfmt::skip]
const OF_NO_MEMBER: &[Places] = &[
    ("spare place used, the first", 0, &[1]),
    ("spare place used, the first, by 5", 0, &[5]),
    ("spare place used, the second", 0, &[0, 1]),
    ("spare places used, three", 0, &[3, 1, 4]),
    ("one too long for its places", 1, &[]),
    ("longer than n", 5, &[]),
    ("of length 32", 32, &[]),
    ("of length 33", 33, &[]),
    ("of length 256", 256, &[]),
    ("of the largest length", u32::MAX, &[]),
];

/// Rows of a member on the table 32 to 1: it is node 32, which alone is marked. All nodes stand in the row.
const OF_32: &[(&str, u32)] = &[
    ("of length 33", 33),
    ("of length 255", 255),
    ("of length 256 and 32", 288),
    ("of the largest length", u32::MAX),
    ("one too short for its places", 31),
    ("31 too short for its places", 1),
];

/// A sound record on a cable of k = 2 with this set: of its lowest node, which alone is marked; out where there is none.
pub fn record_of(slots: &[u8], set: &[u32]) -> Node {
    let n = slots.len() as u32;
    let chosen = Choices { order: Order::kept(slots), ..Choices::plain(n, 2) };
    let state = if set.is_empty() { State::Out(Cause::Unconfirmed) } else { State::Member };
    Node {
        chosen,
        own: set.first().copied().unwrap_or(1),
        slots: 7,
        state,
        set: set.iter().fold(Set::EMPTY, |set, &x| set.with(x)),
        marks: set.first().map_or(Set::EMPTY, |&x| Set::EMPTY.with(x)),
        returning: 0,
        return_heard: false,
        listening: ListeningData::default(),
        yes_heard: false,
    }
}

/// The three records that are damaged: a member, a node that is out, and a member of 32 nodes.
fn nodes() -> [Node; 3] {
    let member = Node { own: 3, marks: Set::EMPTY.with(3), ..record_of(TABLE, &[1, 3, 4]) };
    [member, Node { own: 2, ..record_of(TABLE, &[]) }, record_of(BACKWARDS, &[32])]
}

/// They are sound with these rows.
pub fn sound() -> [(&'static str, Record); 3] {
    let [member, out, of_32] = nodes();
    [
        ("sound", Record::new(member, Row::new(3, &[3, 1, 4]))),
        ("sound, out", Record::new(out, Row::new(0, &[]))),
        ("sound, of 32", Record::new(of_32, Row::new(32, BACKWARDS))),
    ]
}

/// A table of members about such a record.
pub fn table_about(record: &Record) -> Vec<Record> {
    let Node { chosen, own, slots, .. } = record.node;
    let first = Node::set_up(chosen, 1).expect("in range");
    let mut table: Vec<Record> = (1..=chosen.n).map(|own| Node { own, slots, ..first }.into()).collect();
    table[own as usize - 1] = *record;
    table
}

pub fn damaged() -> Vec<(&'static str, Record)> {
    let [member, out, of_32] = nodes();
    let typed = |node: Node, rows: &'static [Places]| {
        let row = move |&(name, length, places): &Places| (name, Record::new(node, Row::new(length, places)));
        rows.iter().map(row)
    };
    let long = OF_32.iter().map(|&(name, length)| (name, Record::new(of_32, Row::new(length, BACKWARDS))));
    typed(member, OF_A_MEMBER).chain(typed(out, OF_NO_MEMBER)).chain(long).collect()
}
